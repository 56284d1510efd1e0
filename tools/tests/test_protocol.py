"""Tests the clients in docs/PROTOCOL.md, and its rules for the end of a reply."""
import re
import subprocess
import sys
import tempfile
import unittest
from pathlib import Path

sys.path.insert(0, str(Path(__file__).resolve().parent))
from programs import PROGRAM, TOP, compiled, instructions, output_of

PAGE = (TOP / "docs/PROTOCOL.md").read_text()
SOURCE = """
volatile int seen;
static inline __attribute__((always_inline)) void leaf(int x)
{
    seen = x;
}
static inline __attribute__((always_inline)) void middle(int x)
{
    leaf(x);
}
int main(void)
{
    middle(7);
    return 0;
}
"""
LEAF, MIDDLE, MAIN = 5, 9, 13  # the lines of the store and of the two calls
LONG = "long_" * 14_000  # a function name that is longer than a buffer of 65,536 bytes
BASE = 0x7F0000000000
CODE = dict(re.findall(r"```(python|c)\n(.*?)```", PAGE, re.DOTALL))  # by its language


class Protocol(unittest.TestCase):
    @classmethod
    def setUpClass(cls):
        cls.folder = tempfile.TemporaryDirectory()
        cls.addClassCleanup(cls.folder.cleanup)
        cls.path = compiled(cls.folder.name, "inlined", SOURCE, "-O1")
        code = instructions(cls.path, "main")
        cls.store = BASE + next(address for address, text in code if "$0x7" in text)
        cls.nowhere = "1"
        cls.clients = cls.clients_of_the_page()

    @classmethod
    def clients_of_the_page(cls):
        """Builds the clients. Returns the command that starts each client, by language."""
        paths = {language: Path(cls.folder.name) / f"client.{language}" for language in CODE}
        for language, path in paths.items():
            path.write_text(CODE[language])
        built = paths["c"].with_suffix("")
        output_of("gcc", "-Wall", "-Werror", "-O1", "-o", built, paths["c"])
        return {"python": [sys.executable, paths["python"]], "c": [built]}

    def wanted(self, path, leaf):
        """Returns the expected output of a client after the reply to the load."""
        source = f"{path}.c"
        return [
            f"0 {leaf} at {source}:{LEAF}",
            f"1 middle at {source}:{MIDDLE}",
            f"2 main at {source}:{MAIN}",
            "0 ?? ??:0",
        ]

    def check(self, path, leaf):
        """Runs both clients with an object whose innermost function has this name."""
        asked = [path, f"{BASE:x}", f"{self.store:x}", self.nowhere]
        for language, client in self.clients.items():
            with self.subTest(language):
                lines = output_of(*client, PROGRAM, *asked).splitlines()
                self.assertTrue(lines[0].startswith(f"loaded object 0x{BASE:016x}-"))
                self.assertEqual(lines[1:], self.wanted(path, leaf))

    def test_clients(self):
        self.check(self.path, "leaf")

    def test_lines_without_limit(self):
        """A line of a reply may be longer than any buffer."""
        source = SOURCE.replace("leaf", LONG)
        self.check(compiled(self.folder.name, "long", source, "-O1"), LONG)

    def statuses(self, program):
        """Returns the status of each client with a program that is given as a shell script."""
        path = Path(self.folder.name) / "program"
        path.write_text(f"#!/bin/sh\n{program}\n")
        path.chmod(0o755)
        words = [path, self.path, f"{BASE:x}", f"{self.store:x}", self.nowhere]
        return {
            language: subprocess.run([*client, *words], capture_output=True).returncode
            for language, client in self.clients.items()
        }

    def test_a_program_that_ends(self):
        """A client fails if a reply is missing, whatever the program's status is."""
        whole, load = f'"{PROGRAM}" "$@"', "head -n 2"
        self.assertEqual(self.statuses(f"exec {whole}"), {"python": 0, "c": 0})
        for program in (f"{load} | {whole}", f"{load} | {whole}; kill -9 $$", "exit 0", "exit 3"):
            self.assertEqual(self.statuses(program), {"python": 1, "c": 1}, program)
        self.assertEqual(self.statuses(f"{whole}; exit 3")["c"], 1)

    def ask(self, options, text):
        return output_of(PROGRAM, *options.split(), text=text)

    def test_lines_of_an_answer(self):
        """Checks the table of the page for an address with three frames and for one with none."""
        load = f"load a {BASE:x} {self.path}\n"
        one_frame = {"-p": 1, "-p -f -a": 1, "": 1, "-a": 2, "-f": 2, "-a -f": 3}
        table = {options: (count, count) for options, count in one_frame.items()}
        table |= {"-i": (3, 1), "-i -f": (6, 2), "-i -a": (4, 2), "-i -a -f": (7, 3)}
        table |= {"-i -p": (3, 1), "-i -p -a -f": (3, 1)}
        for options, wanted in table.items():
            for asked, count in zip((f"{self.store:x}", self.nowhere), wanted):
                lines = self.ask(options, f"{load}{asked}\n").splitlines()
                self.assertEqual(len(lines), 1 + count, options)

    def test_how_lines_begin(self):
        """With -a -p each line of an answer begins with 0x or a space, and no other reply does."""
        text = f"{self.store:x}\n\nload a {BASE:x} {self.path}\n{self.store:x}\n{self.nowhere}\n"
        text += ".\nlist\nmove a 0\nunload a\nunload a\n"
        lines = self.ask("-a -f -i -p", text).splitlines()
        answers = [line for line in lines if line.startswith(("0x", " "))]
        others = [line.split()[0] for line in lines if not line.startswith(("0x", " "))]
        self.assertEqual(len(answers), 1 + 3 + 1)
        wanted = ["loaded", "refused", "module", "end", "moved", "unloaded", "refused"]
        self.assertEqual(others, wanted)


if __name__ == "__main__":
    unittest.main()
