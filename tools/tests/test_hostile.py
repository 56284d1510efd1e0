"""Tests the limits and the objects of tools/hostile.py. llvm-dwarfdump counts what is in them."""
import re
import shutil
import sys
import tempfile
import unittest
from pathlib import Path

sys.path.insert(0, str(Path(__file__).resolve().parent))
from programs import TOOLS, TOP, output_of

sys.path.insert(0, str(TOOLS))
import hostile_modules
from hostile_base import FUNCTIONS, VARIABLES, ordinary
from hostile_limits import BY_ITEMS as ITEMS, BY_SIZE as SIZE, Costs, Limit

BY_BYTES = Limit(1000, 10, 100, 0)
BY_ITEMS = Limit(1000, 10, 100, 40)


class Limits(unittest.TestCase):
    def test_growth(self):
        """Times of at most a tenth of a second do not count."""
        for times, wanted in (((1, 2, 4), 2), ((1, 2, 8), 4), ((1, 5, 5), 5),
                              ((0.001, 0.1, 0.3), 3), ((0.001, 0.01, 0.1), 0)):
            self.assertAlmostEqual(Costs(1, times, 0, 1000, 1000).growth(), wanted)

    def test_each_limit(self):
        least = Costs(0.5, (1, 2, 5), 100_000, 1000, 1000)
        for limit, change, wanted in (
            (BY_BYTES, {}, []),
            (BY_BYTES, {"times": (1, 2, 5.1)}, ["time"]),
            (BY_BYTES, {"times": (1, 1.5, 4.6)}, ["growth"]),
            (BY_BYTES, {"memory": 100_001}, ["memory"]),
            (BY_BYTES, {"times": (1, 1, 6), "memory": 200_000}, ["growth", "time", "memory"]),
            (BY_ITEMS, {"memory": 140_000}, []),
            (BY_ITEMS, {"memory": 140_001}, ["memory"]),
        ):
            self.assertEqual(least._replace(**change).exceeded(limit), wanted, change)

    def test_time_of_another_size(self):
        """The limit of time is proportional to the size."""
        half = Costs(0.5, (0.5, 1, 2.5), 0, 500, 500)
        self.assertEqual(half.exceeded(BY_BYTES), [])
        self.assertEqual(half._replace(times=(0.5, 1, 2.6)).exceeded(BY_BYTES), ["time"])


class Documents(unittest.TestCase):
    def test_bounds(self):
        """The documents state the same bounds, which are not lower than the limits."""
        for name in ("README.md", "SECURITY.md", "addr2line_live.1"):
            text = (TOP / name).read_text()
            words = (r"\b(2 s|two\s+seconds)\b.*mega", r"\b100 (MB|bytes)\b", r"\b35 s(econds)?\b",
                     r"\b420 MB\b")
            for word in words:
                self.assertRegex(text, re.compile(word, re.DOTALL), name)
        self.assertLessEqual(ITEMS.memory_of_item * 4_194_304, 420_000_000)
        self.assertLessEqual(SIZE.memory_of_byte, 100)


@unittest.skipUnless(shutil.which("llvm-dwarfdump"), "llvm-dwarfdump is not installed")
class Objects(unittest.TestCase):
    def dumped(self, data, *options):
        with tempfile.NamedTemporaryFile() as file:
            file.write(data)
            file.flush()
            return output_of("llvm-dwarfdump", *options, file.name)

    def test_ordinary_object(self):
        data = ordinary(20_000)
        self.assertAlmostEqual(len(data), 20_000 + 14_000, delta=3_000)  # and a table of names
        self.assertIn("No errors.", self.dumped(data, "--verify"))
        shown = self.dumped(data, "--debug-info")
        units = shown.count("DW_TAG_compile_unit")
        self.assertEqual(shown.count("DW_TAG_inlined_subroutine"), units * FUNCTIONS)
        self.assertEqual(shown.count("DW_TAG_variable"), units * FUNCTIONS * VARIABLES)

    def test_range_items(self):
        """Scopes that share lists have as many ranges as the object is built for."""
        for name, items in (("subprograms_with_one_list", 4096),
                            ("nested_scopes_with_one_list", 508), ("units_with_one_list", 4000),
                            ("units_after_a_chain", 4000), ("units_before_a_chain", 4000),
                            ("inlined_before_a_chain", 4000)):
            shown = self.dumped(getattr(hostile_modules, name)(items), "--debug-info")
            ranges = re.findall(r"\[(0x[0-9a-f]+), (0x[0-9a-f]+)\)", shown)
            self.assertEqual(len(ranges), items, name)
            self.assertEqual({int(end, 16) - int(start, 16) for start, end in ranges}, {8}, name)

    def test_depth_of_chains(self):
        """llvm-dwarfdump indents an entry by two columns more than its parent."""
        for empty in (0, 3):
            data = hostile_modules.inlined_before_a_chain(2000, empty)
            shown = self.dumped(data, "--debug-info")
            inner = re.findall(r"^0x\w+:( +)DW_TAG_inlined_subroutine", shown, re.MULTILINE)
            wanted = [3] * 2000 + list(range(5, 5 + 2 * 253, 2))
            self.assertEqual([len(spaces) for spaces in inner], wanted)
            self.assertEqual(shown.count("DW_TAG_subprogram"), 1 + 253 * empty)

    def test_sequences_of_rows(self):
        for name, size, count, rows in (("rows_under_a_chain", 1000, 1, 1000),
                                        ("overlapping_sequences", 4000, 8, 100)):
            shown = self.dumped(getattr(hostile_modules, name)(size), "--debug-line")
            found = [int(address, 16) for address in re.findall(r"^(0x[0-9a-f]{16}) ", shown, re.M)]
            self.assertEqual(found, [*range(0x1001, 0x1001 + rows), 0x1000 + rows] * count, name)


if __name__ == "__main__":
    unittest.main()
