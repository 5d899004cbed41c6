"""How the functions and the data of a module are laid out."""
import sys
import unittest
from pathlib import Path

sys.path.insert(0, str(Path(__file__).resolve().parents[1] / "wasm"))
from layout import MOST_ZEROS, joined, laid_out  # noqa: E402

ALIKE = "  (a)\n  (b)\n  (c)\n  (d)\n  (e)\n"
FIRST = f" (func $0 (param $0 i64)\n{ALIKE}  (f)\n  (g)\n )\n"
OTHER = " (func $1\n  (call $2)\n  (h)\n  (i)\n  (j)\n )\n"
LAST = f" (func $2 (param $9 i32)\n  (k)\n{ALIKE} )\n"
BEFORE = "(module\n (type $0 (func (param i32)))\n (memory $0 1)\n"
GIVEN = f'{BEFORE}{OTHER} (elem (i32.const 1) $1 $2)\n{FIRST}{LAST} (export "f" (func $1))\n)\n'
# By hand: first the longest function, then the one that has five lines of it. What stands between functions comes
# behind them.
MADE = f'{BEFORE}{FIRST}{LAST}{OTHER} (elem (i32.const 1) $1 $2)\n (export "f" (func $1))\n)\n'


class Layout(unittest.TestCase):
    def test_order(self):
        self.assertEqual(laid_out(GIVEN), MADE)

    def test_data(self):
        """Parts that are near are joined by zeros; each escape is a byte."""
        far = 16 + MOST_ZEROS + 1
        given = ["(module", ' (data (i32.const 8) "a\\00\\"\\\\")', ' (data (i32.const 14) "bc")',
                 f' (data (i32.const {far}) "d")', f' (data (i32.const {far + 1}) "\\ffe")', ")"]
        self.assertEqual(joined(given), ["(module", ' (data (i32.const 8) "a\\00\\"\\\\\\00\\00bc")',
                                         f' (data (i32.const {far}) "d\\ffe")', ")"])

    def test_refused(self):
        for text in ("(module)", " (func $0\n  (nop)\n", " (func $0\n (func $1\n )\n",
                     f'{GIVEN} (data $0 "a")\n', f'{GIVEN} (data (i32.const 1) "\u00e9")\n',
                     f'{GIVEN} (data (i32.const 9) "ab")\n (data (i32.const 10) "c")\n'):
            with self.subTest(text[-30:]), self.assertRaises(ValueError):
                laid_out(text)
