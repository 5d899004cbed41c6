"""What the script does to the pointers of the IR, and what it stops at. small.test.js runs what is made of them."""
import sys
import unittest
from pathlib import Path

sys.path.insert(0, str(Path(__file__).resolve().parents[1] / "wasm"))
import pointers  # noqa: E402
from unknown import Unknown  # noqa: E402

# Lines, and those that take their place.
KNOWN = {
    "  %a = alloca ptr, align 8": ["  %a = alloca i64, align 8"],
    "  store ptr %a, ptr %b, align 8": ["  %wide.7 = ptrtoint ptr %a to i64", "  store i64 %wide.7, ptr %b, align 8"],
    '  store ptr @"a b", ptr %b, align 1': ['  %wide.7 = ptrtoint ptr @"a b" to i64',
                                            "  store i64 %wide.7, ptr %b, align 1"],
    "  %a = load ptr, ptr %b, align 8, !noundef !1": ["  %wide.7 = load i64, ptr %b, align 8, !noundef !1",
                                                      "  %a = inttoptr i64 %wide.7 to ptr"],
    "  %a = load { ptr, i8 }, ptr %b, align 8": [
        "  %wide.7 = load { i64, i8 }, ptr %b, align 8", "  %part.7.0 = extractvalue { i64, i8 } %wide.7, 0",
        "  %pointer.7.0 = inttoptr i64 %part.7.0 to ptr",
        "  %whole.7.0 = insertvalue { ptr, i8 } poison, ptr %pointer.7.0, 0",
        "  %part.7.1 = extractvalue { i64, i8 } %wide.7, 1",
        "  %a = insertvalue { ptr, i8 } %whole.7.0, i8 %part.7.1, 1"],
    "  %a = ptrtoaddr ptr %b to i64": ["  %a = ptrtoint ptr %b to i64"],
    '@a = private constant <{ ptr, [2 x i8] }> '
    '<{ ptr getelementptr (i8, ptr @a, i64 8), [2 x i8] c"\\00," }>, align 8': [
        '@a = private constant <{ ptr, i32, [2 x i8] }> '
        '<{ ptr getelementptr (i8, ptr @a, i64 8), i32 0, [2 x i8] c"\\00," }>, align 8'],
    '@a = private unnamed_addr constant <{ [1 x i8], ptr }> <{ [1 x i8] zeroinitializer, ptr @"b c" }>, align 8': [
        '@a = private unnamed_addr constant <{ [1 x i8], ptr, i32 }> '
        '<{ [1 x i8] zeroinitializer, ptr @"b c", i32 0 }>, align 8'],
    "  %a = getelementptr i8, ptr %b, i64 9999": ["  %a = getelementptr nuw i8, ptr %b, i64 9999"],
}
# Lines that stay as they are: no pointer is in memory, or no offset is known to fit.
KEPT = (
    "  %a = getelementptr i8, ptr %b, i64 %c", "  %a = getelementptr i8, ptr %b, i64 -8",
    "  %a = getelementptr i8, ptr %b, i64 10000", "  %a = getelementptr inbounds nuw i8, ptr %b, i64 1",
    "  %a = load i64, ptr %b, align 8", "  %a = load { i64, i8 }, ptr %b, align 8", "  store i64 %a, ptr %b, align 8",
    "  %a = alloca [16 x i8], align 8", "  %a = insertvalue { ptr, i64 } %b, ptr %c, 0", "  %a = icmp eq ptr %b, null",
    "  %a = call { i8, ptr } @f(ptr %b)", "  %a = cmpxchg ptr %b, i64 0, i64 1 acquire monotonic, align 8",
    "  %a = atomicrmw add ptr %b, i64 1 monotonic, align 8", '@a = private constant [4 x i8] c"ptr ", align 1',
)
# Lines that may hold a pointer in memory, in a way that isn't known.
UNKNOWN = (
    "  %a = alloca { ptr, i64 }, align 8", "  %a = alloca ptr, i64 4, align 8", "  %a = alloca [2 x ptr], align 8",
    "  %a = load ptr, ptr %b, align 8, !nonnull !1", "  %a = load atomic ptr, ptr %b acquire, align 8",
    "  %a = load { i8, { ptr, i64 } }, ptr %b, align 8", "  %a = load { i8, ptr, { i64 } }, ptr %b, align 8",
    "  %a = load <2 x ptr>, ptr %b, align 16",
    "  store { ptr, i64 } %a, ptr %b, align 8", "  store atomic ptr %a, ptr %b release, align 8",
    "  store [2 x ptr] %a, ptr %b, align 8", "  %a = getelementptr ptr, ptr %b, i64 1",
    "  %a = getelementptr inbounds { i8, ptr }, ptr %b, i64 0, i32 1",
    "  %a = cmpxchg ptr %b, ptr %c, ptr %d acquire monotonic, align 8",
    "  %a = atomicrmw xchg ptr %b, ptr %c monotonic, align 8", "@a = private constant { ptr, i64 } { ptr @b, i64 1 }",
    '@"a b" = private constant ptr @b, align 8', '@a = private constant <{ ptr, i64 }> <{ ptr @b, i64 1 }>, align 8',
    '@a = private constant <{ { ptr } }> <{ { ptr } { ptr @b } }>, align 8',
)


class Pointers(unittest.TestCase):
    def test_known(self):
        for line, made in KNOWN.items():
            with self.subTest(line):
                self.assertEqual(pointers.narrowed(line, 7), made)

    def test_kept(self):
        for line in KEPT:
            with self.subTest(line):
                self.assertEqual(pointers.narrowed(line, 7), [line])

    def test_unknown(self):
        for line in UNKNOWN:
            with self.subTest(line), self.assertRaisesRegex(Unknown, "a pointer in memory"):
                pointers.narrowed(line, 7)


if __name__ == "__main__":
    unittest.main()
