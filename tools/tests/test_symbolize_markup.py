"""Tests symbolizer markup: of a process that writes it, and next to llvm-symbolizer."""
import re
import shutil
import subprocess
import sys
import tempfile
import unittest
from pathlib import Path

sys.path.insert(0, str(Path(__file__).resolve().parent))
from programs import TOOLS, compiled, instructions, output_of, symbol, tool

sys.path.insert(0, str(TOOLS))
from markup import LAST, number

# A program that writes its modules and a call stack from a library. `middle` is inlined into
# `shown`. The calls are in lines 4, 5 and 6 of the library.
LIBRARY = """#include <execinfo.h>
__attribute__((noinline)) int leaf(void **found)
{
    return backtrace(found, 4); }
static inline __attribute__((always_inline)) int middle(void **found) { return leaf(found) + 1; }
int shown(void **found) { return middle(found) - 1; }
"""
HOST = """#define _GNU_SOURCE
#include <link.h>
#include <stdio.h>
int shown(void **found);
int counter = 1;
static int show(struct dl_phdr_info *info, size_t size, void *last)
{
    int module = (*(int *)last)++;
    printf("{{{module:%d:%s:elf:}}}\\n", module, *info->dlpi_name ? info->dlpi_name : "./host");
    for (int i = 0; i < info->dlpi_phnum; i++)
        if (info->dlpi_phdr[i].p_type == PT_LOAD)
            printf("{{{mmap:%p:%ld:load:%d:r:%#lx}}}\\n",
                   (void *)(info->dlpi_addr + info->dlpi_phdr[i].p_vaddr),
                   info->dlpi_phdr[i].p_memsz, module, info->dlpi_phdr[i].p_vaddr);
    return 0;
}
int main(void)
{
    void *found[4];
    int count = shown(found), last = 0;
    printf("{{{reset}}}\\n");
    dl_iterate_phdr(show, &last);
    for (int i = 0; i < count; i++)
        printf("{{{bt:%d:%p:ra}}}\\n", i, found[i]);
    printf("{{{pc:%p}}} and {{{data:%p}}}\\n", &show, &counter);
    return 0;
}
"""
CODE = "int one(int x)\n{ return x; }\n"


FRAME = re.compile(r" *(#[\d.]+) +0x[0-9a-f]{16} (.*) \((.*)\+0x[0-9a-f]+\)")


def filters():
    """Returns the command of a version of llvm-symbolizer that filters markup, or None."""
    for name in ("llvm-symbolizer", *(f"llvm-symbolizer-{number}" for number in range(16, 30))):
        words = [name, "--help"]
        if shutil.which(name) and "--filter-markup" in output_of(*words):
            return [name, "--filter-markup"]
    return None


class SymbolizeMarkup(unittest.TestCase):
    def setUp(self):
        folder = tempfile.TemporaryDirectory()
        self.addCleanup(folder.cleanup)
        self.folder = Path(folder.name)

    def compile(self, name, source, *flags):
        return compiled(self.folder, name, source, "-O1", *flags)

    def with_id(self, name, identity, source=CODE):
        """Compiles a library with a build ID, and moves it to the folder of debug files."""
        flags = ["-shared", "-fPIC", f"-Wl,--build-id=0x{identity}"]
        path = self.compile(name, source, *flags)
        debug = self.folder / "debug/.build-id" / identity[:2] / f"{identity[2:]}.debug"
        debug.parent.mkdir(parents=True, exist_ok=True)
        return path.rename(debug)

    def filtered(self, *lines):
        words = ["--debug-folder", self.folder / "debug"]
        return tool("symbolize_markup", *words, text="\n".join(lines)).splitlines()

    def test_a_process(self):
        """The call stack of a process with several modules, none of which has a build ID here."""
        library = self.compile("libshown.so", LIBRARY, "-shared", "-fPIC")
        host = self.compile("host", HOST, "-Wl,--no-as-needed", library)
        source, call = library.with_suffix(".c"), HOST[: HOST.index("= shown(")].count("\n") + 1
        done = subprocess.run(f"./host | {TOOLS}/symbolize_markup", shell=True, cwd=self.folder,
                              capture_output=True, text=True)
        lines = done.stdout.splitlines()
        frames = [match.groups() for match in map(FRAME.fullmatch, lines) if match]
        self.assertEqual(frames[:4], [
            ("#0", f"leaf {source}:4", str(library)),
            ("#1.1", f"middle {source}:5", str(library)),
            ("#1", f"shown {source}:6", str(library)),
            ("#2", f"main {host}.c:{call}", "./host"),
        ])
        shown = HOST[: HOST.index("static int show")].count("\n") + 2  # its brace
        self.assertEqual(lines[-1], f"show[{host}.c:{shown}] and counter")

    def test_build_ids(self):
        """A module is found by its build ID. A file of its name with another build ID is not."""
        debug = self.with_id("one.so", "abcd01")
        one = symbol(debug, "one")
        other = self.compile("one.so", "\n\n" + CODE, "-shared", "-fPIC", "-Wl,--build-id=0xabcd02")
        place = f"one[{other.with_suffix('.c')}"
        for identity, line in (("ABCD01", 2), ("abcd02", 4)):
            shown = self.filtered(
                f"{{{{{{module:7:{other}:elf:{identity}}}}}}}",
                "{{{mmap:0x10000:0x10000:load:7:rx:0}}}", f"{{{{{{pc:0x{0x10000 + one:x}}}}}}}")
            self.assertEqual(shown[2], f"{place}:{line}]")

    def test_modules_come_and_go(self):
        """A module is moved by a mapping, replaced by another, and unloaded by a reset."""
        places = {}
        for name, identity in (("one.so", "abcd01"), ("two.so", "abcd02")):
            debug = self.with_id(name, identity, source=CODE.replace("one", name[:3]))
            places[name] = symbol(debug, name[:3]), f"{name[:3]}[{self.folder}/{name[:-3]}.c:2]"
        (one, first), (two, second) = places.values()
        at, moved = f"{{{{{{pc:0x{0x10000 + one:x}}}}}}}", f"{{{{{{pc:0x{0x80000 + one:x}}}}}}}"
        steps = [
            ("{{{module:0:one.so:elf:abcd01}}}{{{module:1:two.so:elf:abcd02}}}", None),
            (at, at),
            ("{{{mmap:0x10000:65536:load:0:rx:0x0}}}", None),
            (at, first),
            ("{{{mmap:0x80000:65536:load:0:rx:0x0}}}", None),
            (moved, first),
            ("{{{mmap:0x80000:65536:load:1:rx:0x0}}}", None),
            (f"{{{{{{pc:0x{0x80000 + two:x}:pc}}}}}}", second),
            ("{{{mmap:0x85000:65536:load:1:rx:0x0}}}", None),
            (f"{{{{{{pc:0x{0x85000 + two:x}}}}}}}", second),
            ("{{{reset}}}", None),
            ("{{{mmap:0x80000:65536:load:0:rx:0x0}}}", None),
            (moved, moved),
            ("{{{module:00:one.so:elf:abcd01}}}{{{mmap:0x80000:0200000:load:0:rx:0x0}}}", None),
            (moved, first),
            ("{{{module:1:two.so:elf:abcd02}}}{{{mmap:0x85000:65536:load:1:rx:0x0}}}", None),
            (f"{{{{{{pc:0x{0x85000 + two:x}}}}}}}", second),
        ]
        wanted = [line if answer is None else answer for line, answer in steps]
        self.assertEqual(self.filtered(*(line for line, _ in steps)), wanted)

    def test_return_addresses(self):
        """The byte before a return address is looked up: the call, not the next statement."""
        source = "void f(void);\nvoid one(void)\n{\n    f();\n    f(); f();\n}\n"
        debug = self.with_id("one.so", "abcd01", source=source)
        code = instructions(debug, "one")
        after = next(code[at + 1][0] for at, (_, text) in enumerate(code) if "call" in text)
        head = ("{{{module:0:one.so:elf:abcd01}}}", "{{{mmap:0x0:0x10000:load:0:rx:0x0}}}")
        forms = {"pc:%#x": 5, "pc:%#x:pc": 5, "pc:%#x:ra": 4,
                 "bt:1:%#x": 4, "bt:0:%#x:pc": 5, "bt:1:%#x:ra": 4}
        elements = [f"{{{{{{{form % after}}}}}}}" for form in forms]
        shown = self.filtered(*head, *elements)[2:]
        self.assertEqual([int(re.search(r"one\.c:(\d+)", line)[1]) for line in shown],
                         list(forms.values()))

    def test_build_ids_are_no_paths(self):
        debug = self.with_id("one.so", "abcd01").rename(self.folder / "one.debug")
        one = symbol(debug, "one")
        text = (f"{{{{{{module:0:x:elf:..{self.folder}/one}}}}}}",
                "{{{mmap:0x0:0x10000:load:0:rx:0x0}}}", f"{{{{{{pc:0x{one:x}}}}}}}")
        self.assertEqual(tuple(self.filtered(*text)), text)

    def test_numbers(self):
        """Numbers are those of C: 0200000 is octal."""
        numbers = {"0": 0, "0x1F": 31, "0X1f": 31, "010": 8, "12": 12, f"{LAST}": LAST}
        self.assertEqual({text: number(text) for text in numbers}, numbers)
        for text in ("", "0x", "-1", "+1", " 1", "1_0", "08", "zz", f"{LAST + 1}"):
            with self.assertRaises(ValueError):
                number(text)

    def test_what_stays(self):
        """Unknown, invalid and unmapped elements stay."""
        text = ("{{{reset}}}", "{{{pc:0x12}}} {{{pc:zz}}} {{{bt:0}}} {{{bt:x:0x1}}} {{{data:1:2}}}",
                "{{{module:0:gone:elf:abcd}}}{{{mmap:0x0:0x1000:load:0:r:0x0}}}{{{pc:0x1}}}",
                "{{{mmap:0x1000:0x1000:load:9:r:0x0}}}", "{{{bt:0:0x0}}} {{{unknown:1}}} {{{pc}}}",
                "{{{module:1:x:elf:../../x}}} {{{mmap:0x1:0x1:load}}} {{{reset:1}}} {{{ {{{")
        self.assertEqual(tuple(self.filtered(*text)), text)

    def test_long_lines(self):
        """The time is linear in the length of a line."""
        text = " ".join(word * 100000 for word in ("{{{bt:", "{{{", "}}}", "{{{pc:0x1"))
        done = subprocess.run([TOOLS / "symbolize_markup"], input=f"{text}\n", text=True,
                              capture_output=True, timeout=60)
        self.assertEqual((done.returncode, done.stdout), (0, f"{text}\n"))

    @unittest.skipUnless(shutil.which("c++filt"), "c++filt is not installed")
    def test_symbols(self):
        text = "a {{{symbol:_ZN3foo3barEi}}} b {{{symbol:plain}}}"
        self.assertEqual(self.filtered(text), ["a foo::bar(int) b plain"])

    @unittest.skipUnless(filters(), "no llvm-symbolizer that filters markup is installed")
    def test_beside_llvm_symbolizer(self):
        """All frames of a function equal those of llvm-symbolizer, which adds columns."""
        debug = self.with_id("shown.so", "abcd0123", source=LIBRARY)
        code = [at for name in ("leaf", "shown") for at, _ in instructions(debug, name)]
        head = "{{{module:0:shown.so:elf:abcd0123}}}\n{{{mmap:0x7000:0x9000:load:0:rx:0x0}}}\n"
        text = head + "".join(f"{{{{{{bt:{index}:0x{0x7000 + at:x}:pc}}}}}}\n"
                              for index, at in enumerate(code))
        words = [*filters(), f"--debug-file-directory={self.folder}/debug"]
        wanted = re.sub(r"(:\d+):\d+ ", r"\1 ", output_of(*words, text=text)).splitlines()[1:]
        self.assertEqual(self.filtered(text)[2:], wanted)


if __name__ == "__main__":
    unittest.main()
