"""What the script that retargets the IR lets through, and what it stops at."""
import sys
import unittest
from pathlib import Path

HERE = Path(__file__).resolve().parent
sys.path.insert(0, str(HERE.parent / "wasm"))
import pointers  # noqa: E402
import retarget  # noqa: E402

SMALL = (HERE / "small.ll").read_text(encoding="utf-8")
# Each construct that isn't known, as an edit of the small IR, and how the message names it.
UNKNOWN = {
    "another data layout": ("-n8:16:32:64-", "-n32:64-", "datalayout"),
    "another triple": ("x86_64-unknown-linux-gnu", "aarch64-unknown-linux-gnu", "triple"),
    "another instruction of x86-64": ("@llvm.x86.ssse3.pshuf.b.128", "@llvm.x86.sse2.pmadd.wd",
                                      "llvm.x86.sse2.pmadd.wd"),
    "another intrinsic": ("@llvm.trap()", "@llvm.debugtrap()", "llvm.debugtrap"),
    "an intrinsic whose name begins as a known one's": ("@llvm.trap()", "@llvm.trap.now()", "llvm.trap.now"),
    "another function of the host": ("@rattle_dealloc(ptr noundef)", "@free(ptr noundef)", "@free"),
    "a function of the heap with another type": ("@rattle_dealloc(ptr noundef)", "@rattle_dealloc(i64)",
                                                 "@rattle_dealloc"),
    "assembler": ('asm sideeffect "", "~{memory}"()', 'asm sideeffect "pause", "~{memory}"()', "asm"),
    "assembler with an operand": ('asm sideeffect "", "~{memory}"()', 'asm sideeffect "", "r"(i64 1)', "asm"),
    "an exception": ("  unreachable", "  resume { ptr, i32 } poison", "resume"),
    "another type": ("store i64 1,", "store x86_fp80 0xK0,", "x86_fp80"),
    "a width of an integer": ("store i64 1,", "store i80 1,", "i80"),
    "another address space": ("store i64 1, ptr %handle", "store i64 1, ptr addrspace(1) %handle", "addrspace"),
    "a calling convention": ("define noundef i32 @jschema_share", "define x86_stdcallcc i32 @jschema_share",
                             "x86_stdcallcc"),
    "a variable of a thread": ("= private unnamed_addr", "= private thread_local unnamed_addr", "thread_local"),
    "another attribute of a function": ("nounwind \"probe-stack\"", "sanitize_address nounwind \"probe-stack\"",
                                        "sanitize_address"),
    "another attribute of the processor": ('"stack-probe-size"="3072"', '"stack-pages"="3072"', "stack-pages"),
}


class Retarget(unittest.TestCase):
    def test_known(self):
        text = retarget.retargeted(SMALL)
        self.assertIn('target triple = "wasm32-unknown-unknown"', text)
        self.assertNotIn("x86-64", text)
        self.assertNotIn("llvm.x86", text)
        self.assertIn("define internal <16 x i8> @x86_pshufb(", text)
        self.assertIn("define noundef i32 @proved_jschema_new(", text)
        self.assertEqual(retarget.retargeted(SMALL), text)

    def test_size(self):
        """What takes the time is compiled for speed, all else for size."""
        define = 'define internal void @"{}::part::<#1f>"(ptr noundef %"a #1") unnamed_addr #0 {{'
        text = retarget.retargeted("\n".join([SMALL, define.format("json"), define.format("url")]))
        self.assertIn(define.format("json"), text)
        self.assertIn(define.format("url").replace(" #0 {", " optsize #0 {"), text)
        self.assertIn("%handle) optsize #1 {", text)

    def test_hints(self):
        """What takes the time is inlined where it asks for it, all else where the compiler likes it."""
        define = 'define internal void @"{}::part"(ptr noundef %a) #{} {{'
        given = [define.format(crate, group) for crate in ("json", "url") for group in (1, 7)]
        groups = ["attributes #7 = { alwaysinline nounwind }", "attributes #8 = { inlinehint nounwind }"]
        made = retarget.retargeted("\n".join([SMALL, *given, *groups])).split("\n")
        self.assertEqual([it for it in made if "::part" in it], [
            *given[:2], *(define.format("url", group).replace(" #", " optsize #") for group in (1, 9))])
        self.assertEqual([it for it in made if it.startswith("attributes")][-2:],
                         ["attributes #9 = { nounwind }", "attributes #10 = { nounwind }"])

    def test_all_else_stays(self):
        """Line by line only the header, the names, the attributes and what pointers.py changes differ."""
        before = [it for it in SMALL.split("\n") if "pshuf" not in it]
        after = retarget.retargeted(SMALL).split("\n")
        after = [it.replace(" optsize #", " #") for it in after]
        kept = [it for it in before if it.replace("@jschema_", "@proved_jschema_") in after]
        changed = [it for it in before if it not in kept]
        others = [it for it in changed if pointers.narrowed(it, 0) == [it]]
        self.assertTrue(all(it.startswith(("target ", "attributes ")) for it in others), others)

    def test_unknown(self):
        for what, (old, new, named) in UNKNOWN.items():
            with self.subTest(what):
                self.assertIn(old, SMALL)
                with self.assertRaisesRegex(retarget.Unknown, named):
                    retarget.retargeted(SMALL.replace(old, new))

    def test_words_in_names_and_constants(self):
        """What stands in a name, a comment or a constant isn't a word of the language."""
        retarget.retargeted(SMALL.replace('c"a\\22;\\00"', 'c"asm\\00"').replace("%picked", '%"asm resume"'))


if __name__ == "__main__":
    unittest.main()
