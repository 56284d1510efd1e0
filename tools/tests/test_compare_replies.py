"""Tests which replies of other symbolizers tools/compare_replies.py accepts."""
import sys
import unittest
from pathlib import Path

sys.path.insert(0, str(Path(__file__).resolve().parents[1]))
from compare_replies import COPY, UNKNOWN, agree, is_padding, with_files

INLINED = [("square", "a.c", 3), ("main", "a.c", 7)]
SYMBOLS = {"C1": "0000000000001000", "C2": "0000000000001000", "D1": "0000000000002000"}


class Replies(unittest.TestCase):
    def test_equal_replies(self):
        self.assertTrue(agree(INLINED, INLINED, {}))
        inner, outer = INLINED
        callers = [("main", "a.c", 8), ("main", "b.c", 7), ("other", "a.c", 7)]
        for other in ([inner], [outer], UNKNOWN, *([inner, caller] for caller in callers)):
            self.assertFalse(agree(INLINED, other, {}), other)

    def test_names_of_symbols(self):
        """Without a function, any name agrees, and so does another name of the same address."""
        self.assertTrue(agree([("??", "a.c", 3)], [("symbol", "a.c", 3)], {}))
        self.assertTrue(agree([("C1", "a.c", 3)], [("C2", "a.c", 3)], SYMBOLS))
        self.assertFalse(agree([("C1", "a.c", 3)], [("D1", "a.c", 3)], SYMBOLS))
        self.assertTrue(agree(UNKNOWN, [("symbol", "a.c", 0)], {}))
        self.assertFalse(agree(UNKNOWN, [("symbol", "a.c", 1)], {}))

    def test_suffixes_of_copies(self):
        """The suffixes of compilers are removed, and versions of symbols are not."""
        for name in ("f", "f.145", "f.llvm.8735", "f.constprop.0.isra.1", "f.lto_priv.0.cold"):
            self.assertEqual(COPY.sub(r"\1", name), "f")
        for name in ("f@@GLIBC_2.2.5", "f.x", "??"):
            self.assertEqual(COPY.sub(r"\1", name), name)

    def test_files_of_link_time_optimization(self):
        """The file `<artificial>` becomes that of the other reply, if there is one."""
        artificial = [("square", "<artificial>", 3), ("main", "a.c", 7)]
        self.assertEqual(with_files(artificial, INLINED), INLINED)
        self.assertTrue(agree(INLINED, with_files(artificial, UNKNOWN), {}))
        for other in (INLINED[:1], [("square", "b.c", 3), ("main", "a.c", 7)]):
            self.assertFalse(agree(INLINED, with_files(artificial, other), {}), other)
        caller = ("main", "b.c", 7)
        self.assertFalse(agree(INLINED, with_files([artificial[0], caller], UNKNOWN), {}))

    def test_padding(self):
        row, symbol = [("??", "a.c", 3)], [("main", "a.c", 0)]
        self.assertTrue(is_padding(row, symbol, UNKNOWN))
        for ours, others in ((INLINED[:1], [UNKNOWN]), (row, [UNKNOWN, row]), (INLINED, [UNKNOWN])):
            self.assertFalse(is_padding(ours, *others), ours)


if __name__ == "__main__":
    unittest.main()
