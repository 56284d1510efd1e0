"""Tests the table that bench/table.py makes from the output of the measuring scripts."""
import subprocess
import sys
import tempfile
import unittest
from pathlib import Path

sys.path.insert(0, str(Path(__file__).resolve().parent))
from programs import TOP, output_of

PRINTED = """LEB128, 100 MB                              165 ms, plain C    190 ms, ratio 1.15
line programs, 100 MB    100 ms, plain C     50 ms, earlier plain C    80 ms, ratio 0.50 and 0.80
5 units, 2138520 entries, 509137 scopes, 304817 ranges, 107 ms
memory for whole load of a C++ program: 811 MiB, plain C 767 MiB, earlier plain C 811 MiB
page faults for whole load of a C++ program: 20000, plain C 19000, earlier plain C 30000
entries a second: a C++ program: 9000000, plain C 12000000, earlier plain C 9000000
processor time of reading and loading a program: 400 ms, huge pages 300 ms
large, batch, -f -i
  addr2line_live --cache 1024, spread  90000 answers a second, first answer after 1000 ms, 7 bytes
  addr2line_live --cache 0, spread  80000 answers a second, first answer after 1000 ms, 7 bytes
  addr2line_live, sixteen addresses  300000 answers a second, first answer after 1000 ms, 7 bytes
  llvm-symbolizer, spread  22500 answers a second, first answer after 500 ms, peak 60 MiB, 7 bytes
  eu-addr2line, fewer  8 answers a second, first answer after 1500 ms, 7 bytes
  addr2line of binutils, fewer  failed: ended after 0 bytes of answers, 2 were awaited
"""
ASKED = "large, a batch over a pipe, `-f -i`"
ROWS = [
    "| | addr2line_live | plain C | earlier plain C | huge pages | llvm-symbolizer"
    " | eu-addr2line |",
    "|---|---|---|---|---|---|---|",
    "| LEB128, 100 MB | 165 ms | 190 ms (×1.15) |  |  |  |  |",
    "| line programs, 100 MB | 100 ms | 50 ms (×0.5) | 80 ms (×0.8) |  |  |  |",
    "| memory, whole load of a C++ program | 811 MiB | 767 MiB (×0.946) | 811 MiB (×1) |  |  |  |",
    "| page faults for whole load of a C++ program | 20,000 | 19,000 (×0.95) | 30,000 (×1.5) |  |"
    "  |  |",
    "| entries a second: a C++ program | 9,000,000 | 12,000,000 (×0.75) | 9,000,000 (×1) |  |"
    "  |  |",
    "| processor time of reading and loading a program | 400 ms |  |  | 300 ms (×0.75) |  |  |",
    f"| answers a second: {ASKED} | 90,000 |  |  |  | 22,500 (×4) | 8 (×11,250) |",
    f"| first answer: {ASKED} | 1,000 ms |  |  |  | 500 ms (×0.5) | 1,500 ms (×1.5) |",
    f"| memory: {ASKED} |  |  |  |  | 60 MiB |  |",
    f"| answers a second, sixteen addresses again and again: {ASKED} | 300,000 |  |  |  |  |  |",
]


class Table(unittest.TestCase):
    def test_rows(self):
        with tempfile.NamedTemporaryFile("w") as printed:
            printed.write(PRINTED)
            printed.flush()
            shown = output_of(TOP / "bench/table.py", printed.name)
        table, _, sections = shown.partition("\n## ")
        self.assertEqual([line for line in table.splitlines() if line.startswith("|")], ROWS)
        page = (TOP / "docs/MEASURED.md").read_text()
        self.assertEqual(sections, page.partition("\n## ")[2])
        for column in ("Plain C", "Earlier plain C", "Huge pages"):
            self.assertIn(f". {column} ", " ".join(shown.split()))

    def test_columns_that_are_absent_are_not_described(self):
        with tempfile.NamedTemporaryFile("w") as printed:
            printed.write(PRINTED.splitlines()[0])
            printed.flush()
            shown = output_of(TOP / "bench/table.py", printed.name)
        self.assertIn("Plain C is", shown)
        self.assertNotIn("Earlier plain C", shown)
        self.assertNotIn("Huge pages", shown)

    def test_no_figures(self):
        done = subprocess.run([TOP / "bench/table.py", "/dev/null"], capture_output=True, text=True)
        self.assertEqual((done.returncode, done.stderr), (1, "/dev/null has no figures\n"))


if __name__ == "__main__":
    unittest.main()
