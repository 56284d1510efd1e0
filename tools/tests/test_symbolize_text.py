"""Tests the stack traces of glibc, of sanitizers and of systemd-coredump in text."""
import os
import re
import shutil
import subprocess
import sys
import tempfile
import unittest
from pathlib import Path

sys.path.insert(0, str(Path(__file__).resolve().parent))
from programs import TOOLS, compiled, instructions, output_of, symbol, tool

# `middle` is inlined into `shown`. The calls are in lines 5 (backtrace), 7, 8 and 9.
TRACE = """#include <execinfo.h>
__attribute__((noinline)) int leaf(int x)
{
    void *found[20];
    int count = backtrace(found, 20);
    backtrace_symbols_fd(found, count, 1); return count + x; }
static inline __attribute__((always_inline)) int middle(int x) { return leaf(x) + 1; }
__attribute__((noinline)) int shown(int x) { return middle(x) * 2; }
int main(int count, char **words) { return shown(count) == 0; }
"""
# The read after the end of the block is in line 2, which is inlined into line 3.
BLOCK = """#include <stdlib.h>
static inline __attribute__((always_inline)) int get(int *p, int i) { return p[i]; }
__attribute__((noinline)) int use(int n) { int *p = malloc(16); return get(p, n + 3); }
int main(int count, char **words) { return use(count); }
"""
# The handler writes the trace. The interrupted store is the first instruction of `set`, in line 8.
FAULT = """#include <execinfo.h>
#include <signal.h>
#include <unistd.h>
static void handler(int number)
{
    void *found[20];
    int count = backtrace(found, 20); backtrace_symbols_fd(found, count, 1); _exit(0); }
__attribute__((noinline)) void set(volatile int *p, int n) { *p = n; }
__attribute__((noinline)) int crash(int *p, int n) { set(p, n); return n + 1; }
int main(int count, char **words) { signal(SIGSEGV, handler); return crash(0, count); }
"""


class SymbolizeText(unittest.TestCase):
    def setUp(self):
        folder = tempfile.TemporaryDirectory()
        self.addCleanup(folder.cleanup)
        self.folder = Path(folder.name)

    def compile(self, name, source, *flags):
        return compiled(self.folder, name, source, "-O1", *flags)

    def trace_frames(self, path):
        """Returns the frames of each line of the trace that are in the program."""
        return [
            [f"leaf at {path}.c:5"],
            [f"middle at {path}.c:7", f"shown at {path}.c:8"],
            [f"main at {path}.c:9"],
        ]

    def appended(self, lines, frames):
        """Returns lines with their frames appended, without changes after the last of them."""
        text = ""
        for number, line in enumerate(lines):
            first, *outer = frames[number] if number < len(frames) else [""]
            text += f"{line} {first}\n" if first else f"{line}\n"
            text += "".join(f" (inlined by) {frame}\n" for frame in outer)
        return text

    def test_glibc(self):
        """The forms with an offset of the file, with a symbol, and without an offset."""
        ways = {"(+0x": [], "(shown+0x": ["-rdynamic"], "[0x4": ["-no-pie"]}
        for form, flags in ways.items():
            with self.subTest(form):
                path = self.compile("trace", TRACE, *flags)
                text = output_of(path)
                self.assertIn(f"{path}{form}", text)
                wanted = self.appended(text.splitlines(), self.trace_frames(path))
                self.assertEqual(tool("symbolize_text", text=text), wanted)

    def test_glibc_in_a_signal_handler(self):
        """The interrupted instruction is the first of its function."""
        for flags in [], ["-no-pie"]:
            with self.subTest(flags):
                path = self.compile("fault", FAULT, "-fomit-frame-pointer", *flags)
                output_of(path)  # loads the unwinder
                lines = output_of(path).splitlines()
                shown = tool("symbolize_text", text="\n".join(lines)).splitlines()
                found = [line.rpartition(f" at {path}.c:") for line in shown if ".c:" in line]
                ends = [(head.rpartition(" ")[2], place) for head, _, place in found]
                wanted = [("handler", "7"), ("set", "8"), ("crash", "9"), ("main", "10")]
                self.assertEqual(ends, wanted)

    def test_glibc_with_a_prefix_and_spaces(self):
        """The form of backtrace_symbols has a space and empty parentheses at a fixed address."""
        path = self.compile("trace", TRACE, "-no-pie")
        after = self.after_call(path, "main", "<shown>")
        text = f"12:00 app[7]: {path}() [0x{after:x}] (end)\n"
        self.assertEqual(tool("symbolize_text", text=text), f"{text[:-1]} main at {path}.c:9\n")
        wanted = f"12:00 app[7]: main at {path}.c:9 (end)\n"
        self.assertEqual(tool("symbolize_text", "--replace", text=text), wanted)

    def after_call(self, path, function, called):
        """Returns the address after a call in a function."""
        code = instructions(path, function)
        call = next(number for number, (_, text) in enumerate(code) if called in text)
        return code[call + 1][0]

    def test_sanitizers(self):
        for compiler, flags in (("gcc", []), ("gcc", ["-no-pie"]), ("clang", [])):
            with self.subTest(compiler=compiler, flags=flags):
                self.sanitized(compiler, flags)

    def sanitized(self, compiler, flags):
        path = self.folder / "block"
        path.with_suffix(".c").write_text(BLOCK)
        words = [compiler, "-g", "-gdwarf-5", "-O1", "-fsanitize=address", *flags]
        if not shutil.which(compiler) or subprocess.run(
                [*words, "-o", path, f"{path}.c"], capture_output=True).returncode:
            self.skipTest(f"{compiler} has no address sanitizer")
        env = {**os.environ, "ASAN_OPTIONS": "symbolize=0"}
        text = subprocess.run([path], capture_output=True, text=True, env=env).stderr
        shown = tool("symbolize_text", "--replace", text=text).splitlines()
        start = next(number for number, line in enumerate(shown) if line.startswith("READ of"))
        wanted = [rf"    #0 0x\w+  get at {path}.c:2", rf" \(inlined by\) use at {path}.c:3",
                  rf"    #1 0x\w+  main at {path}.c:4"]
        for line, pattern in zip(shown[start + 1 :], wanted):
            self.assertRegex(line, rf"^{pattern}$")

    def test_systemd_coredump(self):
        """Offsets are relative to the start of the object; the frames after #0 are callers."""
        for flags, start in ((["-no-pie"], 0x400000), ([], 0)):
            path = self.compile("trace", TRACE, *flags)
            leaf = symbol(path, "leaf") - start
            after = [self.after_call(path, *names) - start
                     for names in (("shown", "<leaf>"), ("main", "<shown>"))]
            lines = [f"#{number}  0x000055a5e7a5b1a7 n/a (trace + 0x{at:x})"
                     for number, at in enumerate([leaf, *after])]
            wanted = self.appended(lines, [[f"leaf at {path}.c:3"], *self.trace_frames(path)[1:]])
            shown = tool("symbolize_text", "--folder", self.folder, text="\n".join(lines))
            self.assertEqual(shown, wanted)

    def test_debug_files_and_build_ids(self):
        """A stripped program has frames with its debug file, unless the build IDs differ."""
        path = self.compile("trace", TRACE, "-Wl,--build-id=0xabcdef01", "-no-pie")
        debug = self.folder / "debug/.build-id/ab/cdef01.debug"
        debug.parent.mkdir(parents=True)
        output_of("objcopy", "--only-keep-debug", path, debug)
        leaf = symbol(path, "leaf")
        output_of("strip", path)
        line = f"    #0 0x1 ({path}+0x{leaf:x}) (BuildId: abcdef01)"
        words = ["--debug-folder", self.folder / "debug"]
        self.assertEqual(tool("symbolize_text", text=line), f"{line}\n")
        shown = tool("symbolize_text", *words, text=line)
        self.assertEqual(shown, f"{line} leaf at {path}.c:3\n")
        other = line.replace("abcdef01", "abcdef02")
        self.assertEqual(tool("symbolize_text", *words, text=other), f"{other}\n")

    def test_several_in_a_line(self):
        """Two objects, and two forms in one line. An offset never reaches the next object."""
        first = self.compile("first.so", "int one(void)\n{ return 1; }\n", "-shared", "-fPIC")
        second = self.compile("second.so", "int two(void) { return 2; }\n", "-shared", "-fPIC")
        one, two = symbol(first, "one"), symbol(second, "two")
        text = f"at {first}+0x{one:x}, then {second}+0x{two:x}.\n{first}+0x{two + 0x5000:x}\n"
        wanted = (f"at one at {first.with_suffix('.c')}:2, then two at "
                  f"{second.with_suffix('.c')}:1.\n{first}+0x{two + 0x5000:x}\n")
        self.assertEqual(tool("symbolize_text", "--replace", text=text), wanted)
        odd = shutil.copy(first, f"{first}+0x{one:x}")
        text = f"{second}+0x{two:x}(+0x1) {odd}(+0x{one + 1:x})\n"
        wanted = (f"two at {second.with_suffix('.c')}:1(+0x1) "
                  f"one at {first.with_suffix('.c')}:2\n")
        self.assertEqual(tool("symbolize_text", "--replace", text=text), wanted)

    def test_symbols_are_no_files(self):
        """SYMBOL+0xOFF stays if a file has the name of the symbol."""
        path = self.compile("leaf", TRACE, "-no-pie")
        text = f"leaf+0x{symbol(path, 'leaf'):x}\n{path}(leaf.c+0x12) {path}(no+0x1)\n"
        other = f"{path}(leaf+0x{symbol(path, 'leaf'):x})\n"
        words = ["--folder", self.folder]
        self.assertEqual(tool("symbolize_text", *words, text=text + other), text + other)

    def test_what_stays(self):
        """Symbols of the kernel, other files, large offsets and odd bytes stay as they are."""
        text = (f"RIP: 0010:do_mmap+0x11/0x400\n {TOOLS}/live.py(+0x12) [0x12]\nmain+0x4\n"
                f"/no/file(main+0x1)\n{sys.executable}+0xffffffffffffffff\n"
                f"{sys.executable}(no_such_symbol+0x1)\n/dev/zero+0x1\n\x07 (a + 0x12)\n")
        words = [TOOLS / "symbolize_text"]
        done = subprocess.run(words, input=text, capture_output=True, text=True)
        self.assertEqual((done.returncode, done.stdout), (0, text))
        wanted = "symbolize_text: /dev/zero: not found or not a 64-bit ELF object\n"
        self.assertIn(wanted, done.stderr)

    def test_long_lines_and_other_ends(self):
        """The time is linear in the length of a line. Carriage returns stay."""
        line = " ".join(word * 100000 for word in ("a", "/+", "(a + ", "a(", "a[0x", "+0x1/"))
        words = [TOOLS / "symbolize_text"]
        text = f"{line}\n50%\r60%\r\n".encode()
        done = subprocess.run(words, input=text, capture_output=True, timeout=60)
        self.assertEqual((done.returncode, done.stdout), (0, text))

    @unittest.skipUnless(shutil.which("addr2line"), "addr2line is not installed")
    def test_beside_addr2line(self):
        """The lines of all addresses of a function equal those of addr2line of binutils."""
        path = self.compile("trace", TRACE, "-no-pie")
        asked = [address for address, _ in instructions(path, "shown")]
        text = "".join(f"{path}+0x{address:x}\n" for address in asked)
        shown = re.sub(r"\n \(inlined by\) ", " <- ", tool("symbolize_text", text=text))
        output = output_of("addr2line", "-f", "-i", "-p", "-e", path, *map(hex, asked))
        output = re.sub(r" \(discriminator \d+\)", "", output)
        output = re.sub(r"\n \(inlined by\) ", " <- ", output)
        wanted = [f"{path}+0x{address:x} {frames}"
                  for address, frames in zip(asked, output.splitlines())]
        self.assertEqual(shown.splitlines(), wanted)


if __name__ == "__main__":
    unittest.main()
