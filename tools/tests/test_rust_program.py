"""Tests the Rust program of tools/compare_real.py, and the reasons why it is skipped."""
import os
import re
import shutil
import subprocess
import sys
import tempfile
import unittest
from pathlib import Path
from unittest import mock

sys.path.insert(0, str(Path(__file__).resolve().parent))
from programs import PROGRAM, TOOLS, output_of

sys.path.insert(0, str(TOOLS))
from real_objects import Skipped
from rust_program import NEEDED, rust_program


class RustProgram(unittest.TestCase):
    def setUp(self):
        folder = tempfile.TemporaryDirectory()
        self.addCleanup(folder.cleanup)
        self.folder = Path(folder.name)

    def skipped(self, reason):
        with mock.patch.dict(os.environ, PATH=str(self.folder)):
            with self.assertRaisesRegex(Skipped, f"^{reason}: {re.escape(NEEDED)}$"):
                rust_program(self.folder)

    def test_compilers_that_are_missing_or_old(self):
        self.skipped("rustc is not installed")
        old = self.folder / "rustc"
        old.write_text("#!/bin/sh\necho 'error: unknown option' >&2\nexit 1\n")
        old.chmod(0o755)
        self.skipped("error: unknown option")

    @unittest.skipUnless(shutil.which("rustc"), "rustc is not installed")
    def test_the_compiled_program(self):
        """The program loads it, and it counts words."""
        try:
            name, path = rust_program(self.folder)
        except Skipped as reason:
            self.skipTest(str(reason))
        self.assertEqual(name, "words.rs")
        reply = output_of(PROGRAM, text=f"load words 0 {path}\n")
        self.assertRegex(reply, "^loaded words ")
        done = subprocess.run([path], input="b a\na\n", capture_output=True, text=True, check=True)
        self.assertEqual([line.split()[::2] for line in done.stdout.splitlines()],
                         [["2", "a"], ["1", "b"]] * 2)


if __name__ == "__main__":
    unittest.main()
