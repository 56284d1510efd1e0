"""Tests marked copies of programs with sqlite3 and zlib, if their sources are found.

REAL_SOURCES has the folders to search, separated by colons; out/sources if it is not set. They are
searched for sqlite3.c (the amalgamation, with sqlite3.h) and inflate.c (of zlib). On Debian,
`apt-get source sqlite3 zlib` in out/sources downloads both. Then `./configure` and `make sqlite3.c`
in the folder of sqlite3 write the amalgamation.

The answers are compared with llvm-symbolizer, with those after llvm-dwarfutil if it is installed
(version 17 for objects of gcc, a later one for objects of clang), and with the addr2line of gimli
at GIMLI_ADDR2LINE if it is set.
"""
import os
import signal
import sys
import tempfile
import unittest
from pathlib import Path

sys.path.insert(0, str(Path(__file__).resolve().parent))
from line_rows import dead_sequences, located
from programs import PROGRAM, TOOLS, TOP, output_of, tool
from test_mark_dropped import COMPILERS, DWARFUTIL, FLAGS, LINKERS

sys.path.insert(0, str(TOOLS))
from compare_replies import OPTIONS, UNKNOWN, agree, last_parts, replies, values
from debug_files import sections

GIMLI = os.environ.get("GIMLI_ADDR2LINE")
FOLDERS = os.environ.get("REAL_SOURCES", f"{TOP}/out/sources").split(":")
MOST_ADDRESSES = 50_000  # of one program
LIMIT = 900  # seconds for one test
LIBRARIES = ["-lpthread", "-ldl", "-lm"]
SQLITE = """
#include "sqlite3.h"
int main(int count, char **words)
{
    char text[64];
    sqlite3_snprintf(sizeof text, text, "%d %s", count, words[0]);
    return sqlite3_complete(text) + sqlite3_strglob("a*", text) + sqlite3_strlike("a%", text, 0);
}
"""
ZLIB = """
#include "zlib.h"
int main(int count, char **words)
{
    unsigned char packed[64];
    unsigned long length = sizeof packed;
    return compress(packed, &length, (unsigned char *)words[0], count);
}
"""


def source(name):
    """Returns the path of the source file with a name, or None."""
    found = (path for folder in FOLDERS for path in sorted(Path(folder).rglob(name)))
    return next(found, None)


def addresses(path):
    """Returns addresses that are spread evenly over .text."""
    text = sections(path)[".text"]
    step = -(-text.size // MOST_ADDRESSES)
    return range(text.address, text.address + text.size, step)


def answers(path, asked):
    """Returns the frames of each address, as name, base name of the file, and line."""
    return replies([PROGRAM, "-e", path, "--linkage", *OPTIONS], asked)


def location(frames):
    """Returns the file and the line of the first frame."""
    return frames[0][1:]


def ends(frames):
    """Returns the name of the last frame, and the location of the first one."""
    return frames[-1][0], location(frames)


def functions(frames):
    """Returns the frames without the location of the first one."""
    return [frames[0][0], *frames[1:]]


def expire(*_):
    raise TimeoutError(f"the test took more than {LIMIT} seconds")


class Sources(unittest.TestCase):
    def setUp(self):
        folder = tempfile.TemporaryDirectory()
        self.addCleanup(folder.cleanup)
        self.folder = Path(folder.name)
        signal.signal(signal.SIGALRM, expire)
        self.addCleanup(signal.alarm, 0)
        signal.alarm(LIMIT)

    def compiled(self, compiler, files, main):
        """Returns the object files of sources and of a program that uses a part of them."""
        start = self.folder / "start.c"
        start.write_text(main)
        objects = []
        for file in [*files, start]:
            objects.append(self.folder / f"{file.stem}.o")
            words = [*FLAGS, "-fdata-sections", "-w", "-DHAVE_UNISTD_H", f"-I{files[0].parent}"]
            output_of(compiler, *words, "-c", "-o", objects[-1], file)
        return objects

    def same_as_llvm_symbolizer(self, copy, linker, found):
        """llvm-symbolizer gets no .debug_aranges, because dead code in it is not marked. It also
        reports dead inlined calls, whose addresses are not marked if gold has linked. Then only the
        location and the name of the function are compared."""
        asked, reduced = list(addresses(copy)), self.folder / "reduced"
        output_of("objcopy", "--remove-section=.debug_aranges", copy, reduced)
        style = ["--output-style=GNU", "--no-demangle", f"--obj={reduced}"]
        wanted = last_parts(replies(["llvm-symbolizer", *style, *OPTIONS], asked))
        symbols = values(copy)
        differ = [(hex(address), found[address], wanted[address]) for address in asked
                  if not agree(found[address], wanted[address], symbols)
                  and not (linker == "gold" and ends(found[address]) == ends(wanted[address]))]
        self.assertEqual(differ[:5], [])

    def collected(self, dwarfutil, path):
        """Returns the answers for an object after llvm-dwarfutil."""
        reduced = self.folder / "collected"
        output_of(*dwarfutil, "--garbage-collection", path, reduced)
        return answers(reduced, addresses(path))

    def same_after_dwarfutil(self, dwarfutil, path, copy, found):
        """All answers are the same after llvm-dwarfutil. Of an object that is not marked,
        llvm-dwarfutil retains lines of dead code at addresses that other code has. Only there may
        a location differ, and only if the object has code below the size of dead code."""
        asked = addresses(path)
        self.same(asked, found, self.collected(dwarfutil, copy), list)
        others, dead = self.collected(dwarfutil, path), located(dead_sequences(path), asked)
        self.same(asked, found, others, functions)
        self.same([at for at in asked if at not in dead], found, others, list)

    def same_lines_as_gimli(self, path, copy, found):
        """The addr2line of gimli reports the same line for each address of the copy. For the
        original, it may report a line of dead code that covers the address."""
        asked, dead = addresses(path), located(dead_sequences(path), addresses(path))
        for file, excepted in ((copy, {}), (path, dead)):
            others = last_parts(replies([GIMLI, "-e", file, *OPTIONS], asked))
            compared = [address for address in asked if address not in excepted]
            self.same(compared, found, others, location)

    def same(self, asked, found, others, part):
        """Compares a part of the frames of each address with that of another reader."""
        differ = [(hex(address), found[address], others.get(address)) for address in asked
                  if part(found[address]) != part(others.get(address, UNKNOWN))]
        self.assertEqual(differ[:5], [])

    def compare_one(self, command, linker):
        """Links a program and compares the answers for its marked copy. Returns whether the
        original has other answers."""
        path, copy = self.folder / "app", self.folder / "app.marked"
        output_of(*command, "-o", path)
        tool("mark_dropped", path, copy)
        found = answers(copy, addresses(copy))
        self.same_as_llvm_symbolizer(copy, linker, found)
        if DWARFUTIL[command[0]]:
            self.same_after_dwarfutil(DWARFUTIL[command[0]], path, copy, found)
        if GIMLI:
            self.same_lines_as_gimli(path, copy, found)
        return found != answers(path, addresses(path))

    def compare(self, files, main):
        """Compares the answers for each compiler and linker, and for programs at a fixed address
        and at any address."""
        has_changed = False
        for compiler in COMPILERS:
            objects = self.compiled(compiler, files, main)
            for linker in LINKERS:
                for kind in ("-pie", "-no-pie"):
                    with self.subTest(compiler=compiler, linker=linker, kind=kind):
                        words = [*FLAGS, kind, f"-fuse-ld={linker}", *objects, *LIBRARIES]
                        has_changed |= self.compare_one([compiler, *words], linker)
        self.assertTrue(has_changed)

    @unittest.skipUnless(source("sqlite3.c"), "sqlite3.c is not in REAL_SOURCES")
    def test_sqlite3(self):
        self.compare([source("sqlite3.c")], SQLITE)

    @unittest.skipUnless(source("inflate.c"), "inflate.c of zlib is not in REAL_SOURCES")
    def test_zlib(self):
        self.compare(sorted(source("inflate.c").parent.glob("*.c")), ZLIB)


if __name__ == "__main__":
    unittest.main()
