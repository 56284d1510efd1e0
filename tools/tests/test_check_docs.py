"""Tests that `make check-docs` accepts the documents, and reports faults in a copy of them."""
import shutil
import subprocess
import sys
import tempfile
import unittest
from pathlib import Path
from unittest import mock

sys.path.insert(0, str(Path(__file__).resolve().parent))
from programs import TOP

import check_docs
import check_words


@unittest.skipUnless(shutil.which("groff"), "groff is not installed")
class CheckDocs(unittest.TestCase):
    @classmethod
    def setUpClass(cls):
        folder = tempfile.TemporaryDirectory()
        cls.addClassCleanup(folder.cleanup)
        cls.top = Path(folder.name) / "copy"
        ignored = shutil.ignore_patterns(".git", "out", "__pycache__")
        shutil.copytree(TOP, cls.top, ignore=ignored)

    def check(self):
        """Returns whether `make check-docs` succeeds in the copy, and the lines that it prints."""
        run = ["make", "--no-print-directory", "-C", self.top, "check-docs"]
        done = subprocess.run(run, capture_output=True, text=True)
        return done.returncode == 0, done.stdout.splitlines()

    def write(self, file, text):
        """Writes a file of the copy for one test. Returns the text before."""
        path = self.top / file
        before = path.read_text()
        self.addCleanup(path.write_text, before)
        path.write_text(text)
        return before

    def replace(self, file, old, new):
        """Replaces a text that occurs once in a file of the copy."""
        text = (self.top / file).read_text()
        self.assertEqual(text.count(old), 1, old)
        self.write(file, text.replace(old, new))

    def reports(self, *faults):
        """Checks that `make check-docs` fails and reports exactly these faults."""
        self.assertEqual(self.check(), (False, [*faults, f"check-docs: {len(faults)} faults"]))

    def test_no_faults(self):
        self.assertEqual(self.check(), (True, ["check-docs: 0 faults"]))

    def test_old_phrase(self):
        text = (self.top / "SECURITY.md").read_text()
        self.write("SECURITY.md", text + "\nThe cache drops what is left.\n")
        passed, lines = self.check()
        number = text.count("\n") + 2
        self.assertFalse(passed)
        self.assertEqual(lines[:2], ["check-docs: 0 faults",
                                     f"SECURITY.md:{number}: The cache drops what is left."])
        self.assertRegex(lines[2], r"^SECURITY\.md: 1 in \d+ words, \d\.\d per 1,000$")

    def test_wrong_name(self):
        self.replace("docs/ARCHITECTURE.md", "`addr_table/Places` `place_at`",
                     "`addr_table/Places` `place_near`")
        self.reports("ARCHITECTURE.md: place_near is not in addr_table/Places",
                     "ARCHITECTURE.md: no source has the name place_near")

    def test_wrong_name_of_a_test(self):
        self.replace("docs/PROOFS.md", "`memory_fails`", "`memory_is_short`")
        self.reports("PROOFS.md: no source has the name memory_is_short")

    def test_wrong_names_of_functions(self):
        text = (self.top / "SECURITY.md").read_text()
        calls = "`Cause::told`, `LoadFault::begun_at(fault, 3)` and `sent(&mut left)`"
        self.write("SECURITY.md", f"{text}\nAn object is refused by {calls}.\n")
        self.reports("SECURITY.md: no source has the name begun_at",
                     "SECURITY.md: no source has the name sent",
                     "SECURITY.md: no source has the name told")

    def test_missing_path(self):
        text = (self.top / "CONTRIBUTING.md").read_text()
        self.write("CONTRIBUTING.md", f"{text}\nSee `crates/dwarf_bytes/src/none.rt`.\n")
        self.reports("CONTRIBUTING.md: there is no crates/dwarf_bytes/src/none.rt")

    def test_missing_cause_of_the_manual_page(self):
        entry = ".TP\n.B two\\-roots\nA unit has two entries at depth 0.\n"
        self.replace("addr2line_live.1", entry, "")
        self.reports("addr2line_live.1: the cause two-roots is not explained")

    def test_missing_comment_of_a_cause(self):
        self.replace("crates/dwarf_bytes/src/fault.rt",
                     "    /// A unit has two entries at depth 0.\n", "")
        self.reports("fault.rt: Cause::TwoRoots is not explained")

    def test_options_of_the_completion(self):
        self.replace("completions/addr2line_live.bash", " --linkage ", " --link ")
        self.reports(*(f"addr2line_live.bash: the option {option} is only here or only in "
                       "addr2line_live.1" for option in ("--link", "--linkage")))

    def test_changed_line_of_an_example(self):
        self.replace("docs/LIBRARY.md", 'is_frame(&rt, frames.next(), b"mid", 5);',
                     'is_frame(&rt, frames.next(), b"mid", 6);')
        line = """'is_frame(&rt, frames.next(), b"mid", 6);'"""
        self.reports(f"LIBRARY.md: {line} is not at this position of "
                     "crates/lookup_tests/src/map/answers.rt")

    def test_lines_of_an_example_in_another_order(self):
        first, second = ("    are_equal(rt, scope.ranges(of), range.as_slice());\n",
                         "    are_equal(rt, scope.stmt_list(of), stmt_list);\n")
        self.replace("docs/LIBRARY.md", first + second, second + first)
        self.reports(f"LIBRARY.md: {first.strip()!r} is not at this position of "
                     "crates/dwarf_entries_tests/src/samples.rt")

    def test_example_without_a_source(self):
        first = "// crates/dwarf_tests/src/lines/rows.rt"
        self.replace("docs/LIBRARY.md", first, first.replace("rows", "columns"))
        self.reports("LIBRARY.md: an example starts with "
                     "'// crates/dwarf_tests/src/lines/columns.rt', which names no source")


class CheckWords(unittest.TestCase):
    def test_code_of_a_document_is_skipped(self):
        text = "Call `told`, or `that\nstands`.\n```\nso many\n```\nIt stands.\n"
        self.assertEqual(check_words.without_code(text),
                         "Call `..`, or `..`\n.\n`..`\n\n\nIt stands.\n")


if __name__ == "__main__":
    unittest.main()
