"""Which copies of the IR are cut or called, and how. small.test.js runs what is made of them."""
import re
import sys
import unittest
from pathlib import Path

sys.path.insert(0, str(Path(__file__).resolve().parents[1] / "wasm"))
from copies import cut  # noqa: E402

ATTRIBUTES = "attributes #0 = { nounwind }\nattributes #1 = { nounwind optsize }"


def function(*lines, group=0):
    return "\n".join((f"define void @f(ptr noundef %to, ptr noundef %from) #{group} {{", *lines, "  ret void", "}",
                      ATTRIBUTES))


def copy(length, to="%to", from_="%from", rest="", said="noundef align 8 "):
    return f"  call void @llvm.memcpy.p0.p0.i64(ptr {said}{to}, ptr {said}{from_}, i64 {length}, i1 false){rest}"


def fill(length, to="%to"):
    return f"  call void @llvm.memset.p0.i64(ptr align 8 {to}, i8 %byte, i64 {length}, i1 false)"


class Copies(unittest.TestCase):
    def test_parts(self):
        """By hand: 64 bytes, and the 16 behind them. What is said of the whole isn't said of a part."""
        given = function(copy(80, rest=", !x !1", said="align 8 dereferenceable(80) ").replace("call", "tail call"))
        begin, move_to, move_from, end = cut(given).split("\n")[1:5]
        self.assertEqual(begin, copy(64, rest=", !x !1", said="align 8 "))
        to, from_ = (re.fullmatch(r"  (%copy\.\S+) = getelementptr inbounds i8, ptr (%\w+), i64 64", it).groups()
                     for it in (move_to, move_from))
        self.assertEqual((to[1], from_[1]), ("%to", "%from"))
        self.assertEqual(end, copy(16, to[0], from_[0], ", !x !1", "align 8 "))

    def test_each_byte_once(self):
        for length in (65, 100, 128, 129, 256):
            lines = cut(function(copy(length))).split("\n")
            lengths = [int(it) for it in re.findall(r"i64 (\d+), i1", "\n".join(lines))]
            begins = [0, *(int(it) for it in re.findall(r"copy\S+\.to\S+ = .* i64 (\d+)", "\n".join(lines)))]
            self.assertEqual(sum(lengths), length)
            self.assertEqual(begins, [sum(lengths[:number]) for number in range(len(lengths))])
            self.assertLessEqual(max(lengths), 64)

    def test_names(self):
        """Two copies of one function have parts of different names."""
        made = re.findall(r"(%copy\S+) =", cut(function(copy(80), copy(80))))
        self.assertEqual(len(made), len(set(made)))

    def test_others(self):
        """What is written out anyway, what is long, what may overlap, what must be done, and what is for size."""
        for line in (copy(64), copy(257), copy(80).replace("memcpy", "memmove"), fill(64), fill(257), fill("%length"),
                     copy(80).replace("i1 false", "i1 true"), copy("%length").replace("i1 false", "i1 true")):
            self.assertEqual(cut(function(line)), function(line))
        for line in (copy(80), fill(80), copy("%length")):
            self.assertEqual(cut(function(line, group=1)), function(line, group=1))

    def test_fill(self):
        first, move_to, rest = cut(function(fill(80))).split("\n")[1:4]
        self.assertEqual(first, fill(64))
        to = re.fullmatch(r"  (%copy\.\S+) = getelementptr inbounds i8, ptr %to, i64 64", move_to)[1]
        self.assertEqual(rest, fill(16, to))

    def test_unknown_length(self):
        """A call with the length in 32 bits; the function is declared once."""
        call = "  call void @move_bytes(ptr %to, ptr %from, i32 {})"
        wide = copy("range(i64 0, 17) %length")
        narrow = copy("%length", rest=", !x !1").replace("p0.i64(", "p0.i32(").replace(", i64 %", ", i32 %")
        for given in (wide, wide.replace("memcpy", "memmove"), wide.replace("call", "tail call")):
            length, made = cut(function(given)).split("\n")[1:3]
            name = re.fullmatch(r"  (%copy\.\S+) = trunc i64 %length to i32", length)[1]
            self.assertEqual(made, call.format(name))
        made = cut(function(narrow, narrow))
        self.assertEqual(made.split("\n")[1:3], [call.format("%length")] * 2)
        self.assertEqual(made.count("declare void @move_bytes(ptr, ptr, i32)"), 1)


if __name__ == "__main__":
    unittest.main()
