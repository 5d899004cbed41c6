#!/usr/bin/env python3
"""Makes LLVM IR for x86-64, as the prover's compiler writes it, LLVM IR for wasm32.

    retarget.py GIVEN MADE

Both are little-endian, and give the types that occur the same sizes and alignments, but for pointers: pointers.py
gives these 32 bits. Beside that the data layout, the triple and the attributes that name the processor or say what to
inline change, and each instruction of x86-64 becomes what means the same. The library's calls get names of their own,
since exports.c exports calls of these names over them. Everything else stays as it is. Each word of the IR must be one
that is known to mean the same on both; the script fails on any other, with status 1.
"""
import re
from collections import Counter

from one_step import run
from pointers import narrowed
from unknown import Unknown

LAYOUTS = ("e-m:e-p270:32:32-p271:32:32-p272:64:64-i64:64-i128:128-f80:128-n8:16:32:64-S128",
           "e-m:e-p:32:32-p10:8:8-p20:8:8-i64:64-i128:128-n32:64-S128-ni:1:10:20")
TRIPLES = ("x86_64-unknown-linux-gnu", "wasm32-unknown-unknown")

# The words of the IR that mean the same on both.
WORDS = frozenset("""
    acq_rel acquire add align alloca alwaysinline and argmem ashr atomic atomicrmw attributes bitcast br call
    captures cmpxchg cold constant datalayout declare define dereferenceable double e eq extractelement
    extractvalue fadd false fcmp fdiv float fmul fneg fptosi fptoui freeze fsub getelementptr i1 i128 i16 i256
    i32 i64 i8 icmp immarg inaccessiblemem inbounds inlinehint insertelement insertvalue internal inttoptr label
    load lshr max memory min monotonic mul mustprogress ne nobuiltin nocallback nocreateundeforpoison nofree
    noinline none nonnull noreturn nosync noundef nounwind nsw null nuw oeq oge ogt ole olt one optsize or ord phi
    poison private ptr ptrtoaddr ptrtoint read readnone readonly readwrite release ret sdiv select seq_cst sext
    sge sgt shl shufflevector signext sitofp sle slt source_filename speculatable splat srem store sub switch
    target to triple true trunc udiv ueq uge ugt uitofp ule ult umax umin undef une unnamed_addr uno unordered
    unreachable urem void weak willreturn write writeonly x xchg xor zeroext zeroinitializer zext
""".split())

# The intrinsics that LLVM has for every processor, without the types that are part of their names.
INTRINSICS = frozenset("""
    abs arithmetic.fence bitreverse bswap ctlz ctpop cttz fabs fshl fshr memcpy memmove memset sadd.sat smax smin
    ssub.sat trap uadd.sat uadd.with.overflow umax umin umul.with.overflow usub.sat usub.with.overflow
    vector.reduce.add vector.reduce.and vector.reduce.or vector.reduce.umax
""".split())

# The attributes in quotes that name the processor: wasm32 has none of them.
PROCESSOR = frozenset(("frame-pointer", "probe-stack", "stack-probe-size", "target-cpu", "target-features", "tune-cpu"))

# What the IR may declare, but for intrinsics. heap.c defines it.
DECLARED = {
    "declare { i64, i64 } @rattle_alloc(i64, i64)",
    "declare { i64, i64 } @rattle_realloc(ptr, i64, i64, i64)",
    "declare void @rattle_dealloc(ptr)",
}

# An empty instruction that keeps the compiler from moving loads and stores across it.
BARRIER = 'asm sideeffect "", "~{memory}"()'



# Each instruction of x86-64, with the name of a function of the same meaning and its definition. (An index of pshufb
# picks by its low four bits, and a negative one picks 0; one of swizzle that is 16 or more picks 0.)
SUBSTITUTES = {"llvm.x86.ssse3.pshuf.b.128": ("x86_pshufb", """
define internal <16 x i8> @x86_pshufb(<16 x i8> %bytes, <16 x i8> %indices) alwaysinline nounwind {
  %kept = and <16 x i8> %indices, splat (i8 -113)
  %picked = call <16 x i8> @llvm.wasm.swizzle(<16 x i8> %bytes, <16 x i8> %kept)
  ret <16 x i8> %picked
}

declare <16 x i8> @llvm.wasm.swizzle(<16 x i8>, <16 x i8>)
""")}

# The crates whose functions take the time of a check. They are compiled for speed, and all others for size.
QUICK = frozenset(("js_doc", "js_eval", "json", "serde_json", "simdutf8"))
# The crates whose functions are inlined where they ask for it. Where all are, the module is a quarter larger.
INLINED = QUICK | {"arrayvec", "core", "fast_float", "js_assert", "js_bundle"}

_QUOTED_ATTRIBUTE = re.compile(r' ?"([\w-]+)"="[^"]*"')
# What isn't a word of the language: names, numbers of attributes and of metadata, constants of bytes.
_NAMED = re.compile(r'[%@$]"[^"]*"|[%@$][\w.$-]+|c"(?:[^"\\]|\\.)*"|"[^"]*"|![\w.]*|#\d+|;.*$')
_WORD = re.compile(r"[A-Za-z_][\w.]*")
# A function of the library: the first part of its name, and the number of its attributes.
_DEFINED = re.compile(r'(define [^@]*@"?([\w.$-]+).*) #(\d+)( (?:.*)?\{)')
_HINTS = re.compile(r"\b(?:alwaysinline|inlinehint) ")
_LABEL = re.compile(r'^(?:[\w.$-]+|"[^"]*"):')
_INTRINSIC = re.compile(r"@llvm\.([\w.]+)\(")
_TYPES = re.compile(r"(?:\.(?:p0|i\d+|f\d+|v\d+i\d+))+$")


def retargeted(text):
    """The IR for wasm32. Raises `Unknown`."""
    text = _exchanged(text, "datalayout", *LAYOUTS)
    text = _exchanged(text, "triple", *TRIPLES)
    text = text.replace("@jschema_", "@proved_jschema_")
    text, without_hints = _with_groups(text)
    added = []
    lines = []
    for line in text.split("\n"):
        line = _attributed(_without_processor(line), without_hints)
        for name, (ours, definition) in SUBSTITUTES.items():
            if f"@{name}(" in line:
                if definition not in added:
                    added.append(definition)
                line = "" if line.startswith("declare") else line.replace(f"@{name}(", f"@{ours}(")
        lines.append(line)
    _check(lines)
    narrow = [it for number, line in enumerate(lines) for it in narrowed(line, number)]
    return "\n".join(narrow + added)


def _exchanged(text, what, old, new):
    text, count = re.subn(rf'^target {what} = "{re.escape(old)}"$', f'target {what} = "{new}"', text, flags=re.M)
    if count != 1:
        raise Unknown(f"the target's {what} isn't {old}")
    return text


def _without_processor(line):
    if not line.startswith("attributes "):
        return line
    if others := {it for it in _QUOTED_ATTRIBUTE.findall(line)} - PROCESSOR:
        raise Unknown(f"attributes: {' '.join(sorted(others))}")
    # A group can't be empty. LLVM ignores an attribute in quotes that it doesn't know.
    return _QUOTED_ATTRIBUTE.sub("", line).replace("= { }", '= { "any-processor" }')


def _with_groups(text):
    """The IR with a group of attributes more for each that has hints what to inline, without these; and its number."""
    groups = re.findall(r"^attributes #(\d+) = (.*)$", text, re.M)
    free = max((int(number) for number, _ in groups), default=-1) + 1
    added = {number: (free + index, _HINTS.sub("", group))
             for index, (number, group) in enumerate(it for it in groups if _HINTS.search(it[1]))}
    lines = [f"attributes #{number} = {group}" for number, group in added.values()]
    return "\n".join([text, *lines]), {number: str(made) for number, (made, _) in added.items()}


def _attributed(line, without_hints):
    """The line; of a function that takes little time, with the attribute that has it compiled for size."""
    found = _DEFINED.fullmatch(line)
    if found is None:
        return line
    define, crate, group, rest = found.groups()
    size = "" if crate in QUICK else " optsize"
    return f"{define}{size} #{group if crate in INLINED else without_hints.get(group, group)}{rest}"


def _check(lines):
    """Each word, intrinsic and declaration must be a known one."""
    unknown = Counter()
    for line in lines:
        if line.startswith(("source_filename", "target ")):
            continue
        if line.startswith("declare ") and "@llvm." not in line and _plain(line) not in DECLARED:
            unknown[line] += 1
        unknown.update(f"llvm.{it}" for it in _INTRINSIC.findall(line) if _TYPES.sub("", it) not in INTRINSICS)
        words = _WORD.findall(_NAMED.sub(" ", _LABEL.sub("", line.replace(BARRIER, ""))))
        unknown.update(word for word in words if word not in WORDS)
    if unknown:
        raise Unknown("; ".join(f"{word} ({count})" for word, count in unknown.most_common(20)))


def _plain(declaration):
    """A declaration without attributes."""
    return re.sub(r" (?:noundef|#\d+)", "", declaration)


if __name__ == "__main__":
    run(retargeted, Unknown)
