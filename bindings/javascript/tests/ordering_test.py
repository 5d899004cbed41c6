"""In which order the constants of the IR stand, and what stands near one another."""
import sys
import unittest
from pathlib import Path

sys.path.insert(0, str(Path(__file__).resolve().parents[1] / "wasm"))
from ordering import ordered  # noqa: E402
from similarity import chained  # noqa: E402


def constant(name, content, length, kind="private unnamed_addr constant"):
    return f'@{name} = {kind} [{length} x i8] c"{content}", align 4'


LONG = constant("a", "0123456789abcdef", 16)
LIKE_LONG = constant('"b 1"', "\\00456789ab\\22\\\\", 11)
UNLIKE = constant("c", "ABCDEFGHI", 9)
OTHERS = [constant("d", "0123456789abcde", 15, "internal constant"), "@e = private unnamed_addr constant ptr @f",
          "@g = private unnamed_addr constant [4 x i8] zeroinitializer", 'define void @f() {', "  ret void", "}"]


class Constants(unittest.TestCase):
    def test_order(self):
        """By hand: the longest, then the one that has eight bytes of it. What isn't such a constant keeps its line."""
        first, *others = OTHERS
        given = [UNLIKE, first, LIKE_LONG, LONG, *others]
        self.assertEqual(ordered("\n".join(given)).split("\n"), [LONG, first, LIKE_LONG, UNLIKE, *others])

    def test_nothing(self):
        self.assertEqual(ordered("define void @f() {\n}\n"), "define void @f() {\n}\n")


class Chains(unittest.TestCase):
    def test_most_alike(self):
        """By hand: the first of the longest; what shares two traits with it; then what is left, or with two that are
        looked at what shares two traits with the first."""
        things = ["ab", "abcd", "mnop", "cdef"]
        self.assertEqual(chained(things), [1, 0, 2, 3])
        self.assertEqual(chained(things, recent=2), [1, 0, 3, 2])

    def test_what_many_have_says_nothing(self):
        things = [["all", f"own {number}"] for number in range(300)]
        self.assertEqual(chained(things), [*range(300)])


if __name__ == "__main__":
    unittest.main()
