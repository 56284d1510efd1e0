"""Tests profiles that perf records of a C++ program with two methods of one name: with
symbolize_perf, and in perf itself with tools/addr2line first in PATH."""
import os
import re
import shutil
import subprocess
import sys
import tempfile
import unittest
from pathlib import Path

sys.path.insert(0, str(Path(__file__).resolve().parent))
from programs import PROGRAM, TOOLS, output_of, tool

# Each `step` is inlined into the `run` of its class.
SOURCE = """namespace net { struct Parser {
    unsigned long step(unsigned long x) { return x * 6364136223846793005UL + 1; }
    unsigned long run(unsigned long n);
}; }
namespace db { struct Query {
    unsigned long step(unsigned long x) { return x * 3935559000370003845UL + 1; }
    unsigned long run(unsigned long n);
}; }
__attribute__((noinline)) unsigned long net::Parser::run(unsigned long n)
{
    unsigned long x = 1;
    for (unsigned long i = 0; i < n; i++)
        x = step(x) ^ (x >> 7);
    return x;
}
__attribute__((noinline)) unsigned long db::Query::run(unsigned long n)
{
    unsigned long x = 1;
    for (unsigned long i = 0; i < n; i++)
        x = step(x) ^ (x >> 9);
    return x;
}
int main()
{
    net::Parser parser;
    db::Query query;
    return (parser.run(150000000) ^ query.run(150000000)) == 1;
}
"""
# The symbol of each method in perf, which may demangle it, the class, the line of `step`, and the
# lines of `run`.
METHODS = ((r"Parser\S*run", "net::Parser", 2, range(9, 15)),
           (r"Query\S*run", "db::Query", 6, range(16, 22)))


class Perf(unittest.TestCase):
    @classmethod
    def setUpClass(cls):
        for name in ("perf", "g++", "c++filt"):
            if not shutil.which(name):
                raise unittest.SkipTest(f"{name} is not installed")
        folder = tempfile.TemporaryDirectory()
        cls.addClassCleanup(folder.cleanup)
        cls.folder = Path(folder.name)
        cls.source, cls.path = cls.folder / "methods.cc", cls.folder / "methods"
        cls.source.write_text(SOURCE)
        output_of("g++", "-g", "-gdwarf-5", "-O2", "-o", cls.path, cls.source)
        cls.data = cls.folder / "data"
        events = ["-e", "cpu-clock:u", "-F", "1000", "--call-graph", "dwarf"]
        record = ["perf", "record", "-q", "-N", *events, "-o", cls.data, cls.path]
        done = subprocess.run(record, capture_output=True, text=True)
        if done.returncode:
            raise unittest.SkipTest(f"perf may not record here: {done.stderr.strip()}")

    def perf(self, *words, folder=None):
        """Returns the output of a command of perf for the profile. If there is a folder, its
        programs are used first."""
        env = {**os.environ, "ADDR2LINE_LIVE": str(PROGRAM), "XDG_CACHE_HOME": str(self.folder)}
        if folder:
            env["PATH"] = f"{folder}:{env['PATH']}"
        words = ["perf", *words, "-i", self.data]
        done = subprocess.run(words, capture_output=True, text=True, env=env, timeout=120)
        self.assertEqual(done.returncode, 0, done.stderr)
        return done.stdout

    def drop_in(self):
        """Returns a folder with an `addr2line` that logs its arguments and starts the drop-in."""
        folder = self.folder / "bin"
        folder.mkdir(exist_ok=True)
        script = folder / "addr2line"
        log = folder / "log"
        log.write_text("")
        script.write_text(f'#!/bin/sh\necho "$@" >> {log}\nexec {TOOLS}/addr2line "$@"\n')
        script.chmod(0o755)
        return folder

    def test_symbolize_perf(self):
        """Each frame of a method has its class and a line of it, and the inlined call is before
        it."""
        options = ["--no-inline", "-F", "+pid", "--show-mmap-events"]
        text = self.perf("script", *options)
        shown = tool("symbolize_perf", text=text)
        for symbol, name, step, lines in METHODS:
            count = len(re.findall(rf"^\t.*{symbol}.* \({self.path}\)$", text, re.MULTILINE))
            run = re.findall(rf" {name}::run\(unsigned long\) \({self.source}:(\d+)\)\n", shown)
            self.assertGreater(count, 0)
            self.assertEqual(len(run), count)
            self.assertLessEqual(set(map(int, run)), set(lines))
            inlined = re.findall(rf" {name}::step\(unsigned long\) \({self.source}:(\d+)\)\n\t.* "
                                 rf"{name}::run\(unsigned long\) ", shown)
            self.assertEqual(set(map(int, inlined)), {step})

    def same_with_drop_in(self, pattern, *words):
        """Returns the parts of the output of perf that match a pattern. They must be the same with
        the drop-in as with binutils."""
        folder = self.drop_in()
        shown = re.findall(pattern, self.perf(*words, folder=folder))
        self.assertIn(f"-e {self.path}", (folder / "log").read_text())
        wanted = re.sub(r" \(discriminator \d+\)", "", self.perf(*words))
        self.assertEqual(shown, re.findall(pattern, wanted))
        return "".join(shown)

    def test_lines_and_inlined_frames(self):
        words = ["script", "-F", "ip,sym,dso,srcline"]
        shown = self.same_with_drop_in(r".*\n +methods\.cc:.*\n", *words)
        for symbol, name, step, lines in METHODS:
            found = re.findall(rf"{symbol}.* \({self.path}\)\n +methods\.cc:(\d+)\n", shown)
            self.assertLessEqual(set(map(int, found)), set(lines))
            inlined = symbol.replace("run", "step")
            found = re.findall(rf"{inlined}.*\n +methods\.cc:(\d+) \(inlined\)\n", shown)
            self.assertEqual(set(map(int, found)), {step})

    def test_lines_of_a_report(self):
        words = ["report", "--stdio", "--no-children", "-g", "none", "-F", "overhead,srcline"]
        shown = self.same_with_drop_in(r".* methods\.cc:.*\n", *words)
        for _, _, step, lines in METHODS:
            found = re.findall(r" methods\.cc:(\d+)\b", shown)
            self.assertIn(str(step), found)
            self.assertTrue(set(map(int, found)) & set(lines))

    def test_inlined_frames_of_a_report(self):
        words = ["report", "--stdio", "--no-children", "-g", "caller", "-F", "overhead,sym"]
        shown = self.same_with_drop_in(r".*::.*\n", *words)
        for symbol, *_ in METHODS:
            self.assertRegex(shown, rf"{symbol.replace('run', 'step')}.*\(inlined\)")


if __name__ == "__main__":
    unittest.main()
