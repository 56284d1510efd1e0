"""Tests marked copies of objects that gcc and clang compile and bfd, gold, lld and mold link."""
import os
import re
import shutil
import struct
import subprocess
import sys
import tempfile
import unittest
from pathlib import Path

sys.path.insert(0, str(Path(__file__).resolve().parent))
from programs import PROGRAM, TOOLS, Live, dwarfutil, output_of, symbol, tool

sys.path.insert(0, str(TOOLS))
from debug_files import sections
from loaded_objects import segments

COMPILERS = [name for name in ("gcc", "clang") if shutil.which(name)]
LINKERS = [name for name in ("bfd", "gold", "lld", "mold") if shutil.which(f"ld.{name}")]
DWARFUTIL = {compiler: dwarfutil(compiler) for compiler in COMPILERS}
FLAGS = ["-O2", "-g", "-gdwarf-5", "-ffunction-sections", "-Wl,--gc-sections"]
WITHOUT = "-DWITHOUT_DROPPED"
TOMBSTONE = 0xFFFFFFFFFFFFFFFF


def source():
    """Returns a program with four dropped functions. One has more than 8,000 bytes and covers the
    addresses of the program's code if it is at 0."""
    lines = ["#include <stdio.h>", "volatile int sink;"]
    for number in range(4):
        lines += [f"static inline __attribute__((always_inline)) void step{number}(int x)", "{",
                  f"    if (x > {number})", f"        sink += x * {number + 3};", "}"]
    lines += ["#ifndef WITHOUT_DROPPED"]
    for number in range(4):
        lines += [f"__attribute__((noinline)) void dropped{number}(int x)", "{"]
        steps = range(400 if number == 2 else 20)
        lines += [f"    step{step % 4}(x + {step});" for step in steps] + ["}"]
    lines += ["#endif"]
    for number in range(4):
        lines += [f"__attribute__((noinline)) int used{number}(int x)", "{",
                  f"    step{number}(x);", f"    return sink + {number};", "}"]
    lines += ["int main(int count, char **words)", "{", "    printf(\"%p\\n\", (void *)&used0);",
              "    fflush(stdout);", "    if (count > 1)", "        getchar();",
              "    return used0(count) + used1(count) + used2(count) + used3(count);", "}"]
    return "\n".join(lines) + "\n"


def changed(before, after):
    """Returns the offsets of the bytes that differ."""
    return [at for at, (old, new) in enumerate(zip(before, after)) if old != new]


class MarkDropped(unittest.TestCase):
    def setUp(self):
        folder = tempfile.TemporaryDirectory()
        self.addCleanup(folder.cleanup)
        self.folder = Path(folder.name)
        self.source = self.folder / "app.c"
        self.source.write_text(source())
        self.env = {**os.environ, "ADDR2LINE_LIVE": str(PROGRAM), "XDG_CACHE_HOME": folder.name}

    def link(self, name, *flags, compiler="gcc"):
        path = self.folder / name
        output_of(compiler, *FLAGS, *flags, "-o", path, self.source)
        return path

    def marked(self, path):
        """Returns the marked copy of an object and the number of marked addresses."""
        copy = path.with_suffix(".marked")
        output = re.fullmatch(r"marked (\d+) addresses\n", tool("mark_dropped", path, copy))
        return copy, int(output[1])

    def answers(self, path):
        """Returns the answer of the program at each address of .text, relative to its start."""
        text = sections(path)[".text"]
        asked = "".join(f"{text.address + at:x}\n" for at in range(text.size))
        return output_of(PROGRAM, "-f", "-i", "-p", "-e", path, text=asked).splitlines()

    def ways(self):
        """Yields the compiler and the flags of each way of linking."""
        for compiler in COMPILERS:
            for linker in LINKERS:
                yield compiler, [f"-fuse-ld={linker}"]
        yield "gcc", ["-gdwarf64"]
        yield "gcc", ["-Wl,-z,noseparate-code"]

    def test_answers_as_without_dropped_code(self):
        """Answers at each address of .text are those of the program without the dead code."""
        for compiler, flags in self.ways():
            with self.subTest(compiler=compiler, flags=flags):
                path = self.link("app", *flags, compiler=compiler)
                plain = self.link("plain", WITHOUT, *flags, compiler=compiler)
                wanted = self.answers(plain)
                self.assertEqual(sections(path)[".text"].size, sections(plain)[".text"].size)
                self.assertNotEqual(self.answers(path), wanted)
                copy, _ = self.marked(path)
                self.assertEqual(self.answers(copy), wanted)
                self.assertIn("main at ", "\n".join(wanted))

    @unittest.skipUnless(any(DWARFUTIL.values()), "llvm-dwarfutil is not installed")
    def test_beside_llvm_dwarfutil(self):
        """The answers for a marked copy are the same after llvm-dwarfutil. Of an original of gcc,
        it retains lines of dead code at addresses that other code has."""
        for compiler, dwarfutil in DWARFUTIL.items():
            for linker in LINKERS if dwarfutil else ():
                with self.subTest(compiler=compiler, linker=linker):
                    path = self.link("app", f"-fuse-ld={linker}", compiler=compiler)
                    copy, collected = self.marked(path)[0], self.folder / "collected"
                    for own in (copy, path) if compiler == "clang" else (copy,):
                        output_of(*dwarfutil, "--garbage-collection", own, collected)
                        self.assertEqual(self.answers(copy), self.answers(collected))

    def test_what_changes(self):
        """Only zero bytes of debug sections change. OUT may be IN. A second run finds nothing."""
        for compiler in COMPILERS:
            path = self.link("app", compiler=compiler)
            copy, count = self.marked(path)
            before, after = path.read_bytes(), copy.read_bytes()
            places = changed(before, after)
            self.assertEqual((len(before), len(places)), (len(after), 8 * count))
            self.assertEqual({(before[at], after[at]) for at in places}, {(0, 255)})
            found = [sections(path).get(f".debug_{name}") for name in
                     ("info", "line", "addr", "rnglists")]
            spans = [range(row.offset, row.offset + row.size) for row in found if row]
            self.assertTrue(all(any(at in span for span in spans) for at in places))
            self.assertEqual(copy.stat().st_mode, path.stat().st_mode)
            self.assertEqual(tool("mark_dropped", path, path), f"marked {count} addresses\n")
            self.assertEqual(path.read_bytes(), after)
            self.assertEqual(self.marked(copy)[1], 0)

    def test_line_programs_in_readelf(self):
        """readelf shows the tombstone in place of each address 0 that starts a sequence."""
        path = self.link("app")
        copy, _ = self.marked(path)
        shown = [output_of("readelf", "--debug-dump=rawline", own) for own in (path, copy)]
        sets = [re.findall(r"set Address to (\w+)", text) for text in shown]
        self.assertEqual(sets[0].count("0"), 4)
        self.assertEqual(sets[1], [hex(TOMBSTONE) if at == "0" else at for at in sets[0]])

    @unittest.skipUnless("lld" in LINKERS, "ld.lld is not installed")
    def test_beside_the_tombstones_of_lld(self):
        """The copy has the bytes that lld writes with its option for tombstones. For gcc, lld also
        writes them into call sites and expressions in .debug_info."""
        option = f"-Wl,-z,dead-reloc-in-nonalloc=.debug_*={TOMBSTONE:#x}"
        for compiler in COMPILERS:
            path = self.link("app", "-fuse-ld=lld", compiler=compiler)
            copy, _ = self.marked(path)
            wanted = self.link("wanted", "-fuse-ld=lld", option, compiler=compiler)
            names = ["line", "rnglists", *(["addr", "info"] if compiler == "clang" else [])]
            for name in names:
                row = sections(path)[f".debug_{name}"]
                own, other = (file.read_bytes()[row.offset : row.offset + row.size]
                              for file in (copy, wanted))
                self.assertEqual(own, other, (compiler, name))
            self.assertEqual(self.answers(copy), self.answers(wanted))
            self.assertEqual(self.marked(wanted)[1], 0)

    def test_a_separate_debug_file(self):
        path = self.link("app")
        debug = self.folder / "app.debug"
        output_of("objcopy", "--only-keep-debug", path, debug)
        self.assertEqual(self.answers(self.marked(debug)[0]), self.answers(self.marked(path)[0]))

    def refused(self, path, reason):
        copy = self.folder / "copy"
        done = subprocess.run([TOOLS / "mark_dropped", path, copy], capture_output=True, text=True)
        self.assertEqual((done.returncode, done.stdout), (1, ""))
        self.assertRegex(done.stderr, f"^mark_dropped: {re.escape(str(path))}: {reason}\n$")
        self.assertFalse(copy.exists())

    def test_refusals(self):
        """An object that the tool does not know is refused, and nothing is written."""
        self.refused(self.source, "not a 64-bit little-endian ELF object")
        self.refused(self.folder / "none", "No such file or directory")
        kind = "neither an executable nor a shared object"
        self.refused(self.link("app.o", "-c"), kind)
        self.refused(self.link("app", "-gz"), r"\.debug_\w+ is compressed")
        self.refused(self.link("app", "-gdwarf-4"), r"\.debug_\w+: DWARF version \d at 4")
        if "gold" in LINKERS:
            old = self.link("app", "-fuse-ld=gold", "-Wl,--compress-debug-sections=zlib-gnu")
            self.refused(old, r"\.z?debug_\w+ is compressed")
        low = ["-nostdlib", "-static", "-fno-pie", "-no-pie", "-DWITHOUT_DROPPED"]
        self.source.write_text("int main(void) { return 0; }\n")
        low = self.link("low", *low, "-Wl,-e,main,-Ttext=0")
        self.refused(low, "a load segment has memory at address 0")
        done = subprocess.run([TOOLS / "mark_dropped"], capture_output=True)
        self.assertEqual(done.returncode, 2)

    def test_damaged_tables(self):
        """Overlapping, repeated and truncated sections are refused."""
        path = self.link("app")
        data, found = path.read_bytes(), sections(path)
        start = struct.unpack_from("<Q", data, 40)[0]
        rows = {name: start + 64 * index for index, name in enumerate(found)}
        line, info = rows[".debug_line"], rows[".debug_info"]
        for at, value, reason in (
            (line + 24, found[".debug_info"].offset + 3, r"\.debug_\w+ overlaps \.debug_\w+"),
            (line + 24, len(data), r"\.debug_line exceeds the file"),
            (line + 32, found[".debug_line"].size - 1, r"\.debug_line: a length exceeds.*"),
            (info + 32, found[".debug_info"].size - 1, r"\.debug_info: a length exceeds.*"),
        ):
            damaged = bytearray(data)
            damaged[at : at + 8] = struct.pack("<Q", value)
            path.write_bytes(damaged)
            self.refused(path, reason)
        damaged = bytearray(data)
        damaged[line : line + 4] = damaged[info : info + 4]
        path.write_bytes(damaged)
        self.refused(path, r"there are two sections \.debug_info")

    def test_loads_of_process(self):
        """An object with dead code is loaded from a marked copy, another from its own path."""
        path, plain = self.link("app"), self.link("plain", WITHOUT)
        pipe = subprocess.PIPE
        running = subprocess.Popen([path, "wait"], stdin=pipe, stdout=pipe, text=True)
        self.addCleanup(running.communicate)
        start = int(running.stdout.readline(), 16)
        cache = f"XDG_CACHE_HOME={self.folder}"
        command = ["env", cache, TOOLS / "loads_of_process", "--mark-dropped"]
        lines = output_of(*command, running.pid).splitlines()
        load = next(line for line in lines if line.startswith("load app "))
        copy = Path(load.split(" ", 3)[3])
        self.assertEqual(copy.parent, self.folder / "addr2line_live")
        self.assertEqual(copy.read_bytes(), self.marked(path)[0].read_bytes())
        live = Live("-f")
        self.addCleanup(live.end)
        live.say(load)
        wanted = output_of("addr2line", "-f", "-e", plain, hex(symbol(plain, "used0")))
        self.assertEqual(live.say(f"{start:x}"), wanted.splitlines())
        code = segments(str(plain))[0]
        end = code.address + code.size
        mapped = f"{code.address:x}-{end:x} r-xp {code.offset:08x} 00:00 0 {plain}\n"
        self.assertEqual(output_of(*command, "-", text=mapped), f"load plain 0 {plain}\n")

    def test_addr2line(self):
        """The drop-in prints what binutils does without the dead code. It writes one copy."""
        path, plain = self.link("app"), self.link("plain", WITHOUT)
        asked = [hex(symbol(plain, "used0") + at) for at in range(16)]
        wanted = output_of("addr2line", "-f", "-i", "-e", plain, *asked)
        wanted = re.sub(r" \(discriminator \d+\)", "", wanted)
        written = []
        for _ in range(2):
            words = [TOOLS / "addr2line", "-f", "-i", "-e", path, *asked]
            done = subprocess.run(words, capture_output=True, text=True, env=self.env)
            self.assertEqual((done.returncode, done.stderr, done.stdout), (0, "", wanted))
            (copy,) = (self.folder / "addr2line_live").iterdir()
            written.append(copy.stat().st_mtime_ns)
        self.assertEqual(*written)


if __name__ == "__main__":
    unittest.main()
