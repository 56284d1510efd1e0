"""Compares the examples in the documents with the output of the program."""
import os
import re
import subprocess
import sys
import tempfile
import unittest
from pathlib import Path
from unittest import mock

sys.path.insert(0, str(Path(__file__).resolve().parent))
from programs import PROGRAM, TOP, Live, output_of

import check_docs


# Replaces `rt try --data NAME=FILE.. -- OPTION..`: runs the built program in a new folder
# with copies of the files.
RT = """#!/bin/sh
folder=$(mktemp -d)
while shift && [ "$1" != -- ]; do
    if [ "$1" != --data ]; then
        mkdir -p "$(dirname "$folder/${1%%=*}")" && cp "${1#*=}" "$folder/${1%%=*}" || exit
    fi
done
shift
(cd "$folder" && "$PROGRAM" "$@")
status=$?
rm -r "$folder"
exit $status
"""


class Documents(unittest.TestCase):
    def test_demo_of_the_readme(self):
        shown = output_of(TOP / "tools/demo.sh", "--stored")
        self.assertIn(f"```\n{shown}```\n", (TOP / "README.md").read_text())

    def test_demo_without_a_proof(self):
        """The output of `make try` is the session of the README."""
        with tempfile.TemporaryDirectory() as folder:
            rt = Path(folder) / "rt"
            rt.write_text(RT)
            rt.chmod(0o755)
            path = {"PATH": f"{folder}:{os.environ['PATH']}", "PROGRAM": str(PROGRAM.resolve())}
            with mock.patch.dict(os.environ, path):
                shown = output_of(TOP / "tools/demo.sh", "--try")
        self.assertIn(f"```\n{shown}```\n", (TOP / "README.md").read_text())

    def test_example_of_the_protocol(self):
        """Compares the answer to an address of the stored object with the output of the clients."""
        page = (TOP / "docs/PROTOCOL.md").read_text()
        example = re.search(r"```\n(loaded object .*?)```", page, re.DOTALL)[1].splitlines()
        live = Live("-f", "-i", "-p")
        self.addCleanup(live.end)
        self.assertEqual(live.say(f"load object 0x10000 {TOP}/tools/demo.stored"), example[:1])
        frames = [line.replace(" (inlined by) ", "") for line in live.say("11068")]
        self.assertEqual([f"{number} {frame}" for number, frame in enumerate(frames)], example[1:])

    def test_statuses_of_the_manual_page(self):
        cases = {
            "-e /no/file": (1, "addr2line_live: refused file\n"),
            "zz": (2, "addr2line_live: bad address zz\n"),
            "--help": (0, ""),
            "--version": (0, ""),
            "0": (0, ""),
        }
        for words, wanted in cases.items():
            done = subprocess.run([PROGRAM, *words.split()], capture_output=True, text=True)
            self.assertEqual((done.returncode, done.stderr), wanted, words)

    def test_version(self):
        version = (TOP / "VERSION").read_text()
        for option in ("-V", "--version"):
            self.assertEqual(output_of(PROGRAM, option), f"addr2line_live {version}")

    def test_options_that_the_manual_page_excludes(self):
        words = ["-b elf64-x86-64", "--target=elf64-x86-64", "-C", "--demangle", "-H", "-j .text",
                 "--section=.text", "-r", "--no-recurse-limit", "-R", "--recurse-limit", "-v",
                 "-i -i", "--func", "-- --version", "@file"]
        for options in words:
            done = subprocess.run([PROGRAM, *options.split(), "0"], capture_output=True, text=True)
            self.assertEqual((done.returncode, done.stdout), (2, ""), options)

    def test_addresses_that_the_manual_page_excludes(self):
        for text in ("0X10", "0" * 17, "+0x10", "main+0x10", " 10", "10 ", "10\r", ","):
            done = subprocess.run([PROGRAM, "0", text], capture_output=True)
            wanted = f"addr2line_live: bad address {text}\n".encode()
            self.assertEqual((done.returncode, done.stdout), (2, b""), text)
            self.assertEqual(done.stderr, wanted)
            self.assertEqual(output_of(PROGRAM, text=f"{text}\n"), "refused command\n", text)

    def test_versions(self):
        """The check of the documents reports each document with another version."""
        with tempfile.TemporaryDirectory() as folder, mock.patch("check_docs.TOP", Path(folder)):
            source = Path(folder) / "crates/command_line/src/help.rt"
            source.parent.mkdir(parents=True)
            source.write_text('pub const VERSION: &str = "9.9.8";\n')
            (Path(folder) / "VERSION").write_text("9.9.9\n")
            (Path(folder) / "CHANGELOG.md").write_text("The next version is 9.9.8.\n")
            wanted = [f"{name}: its version is not 9.9.9"
                      for name in ("help.rt", "addr2line_live.1", "CHANGELOG.md")]
            self.assertEqual(list(check_docs.versions()), wanted)


if __name__ == "__main__":
    unittest.main()
