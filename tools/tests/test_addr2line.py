"""Compares tools/addr2line with addr2line of binutils."""
import os
import re
import shutil
import subprocess
import sys
import tempfile
import unittest
from pathlib import Path

sys.path.insert(0, str(Path(__file__).resolve().parent))
from programs import PROGRAM, TOOLS, compiled, instructions, output_of, symbol
from test_symbolize_text import BLOCK

sys.path.insert(0, str(TOOLS))
from debug_files import sections

# `square` is inlined into `twice`.
SOURCE = """
static inline __attribute__((always_inline)) int square(int x)
{
    return x * x;
}
int twice(int x)
{
    return square(x) + 1;
}
int main(int count, char **words)
{
    return twice(count);
}
"""
METHODS = """
namespace net { struct Parser { __attribute__((noinline)) int run(int); }; }
namespace db { struct Query { __attribute__((noinline)) int run(int); }; }
int net::Parser::run(int x) { return x + 1; }
int db::Query::run(int x) { return x + 2; }
int main(int count, char **) { return net::Parser().run(count) + db::Query().run(count); }
"""
OPTIONS = (
    "", "-f", "-i", "-f -i", "-a", "-a -f -i", "-p", "-a -f -i -p", "-s -f", "-afips",
    "-j .text -f", "--functions --inl --pretty", "-C -f -r", "--demangle=gnu-v3 -f",
    "-b elf64-x86-64",
)
ODD = [",", "", "zz", "-1", "main", "main+1", "twice+0x2", "none+2", "0", "ffffffffffffffff"]
AROUND = ["+{}", "+ {}", " {}", "{} ", "{} main", "{}\r", "{}zz", "{}+1", "-{}"]


def plain(text):
    """Removes discriminators, which addr2line_live does not read."""
    return re.sub(r" \(discriminator \d+\)", "", text)


class Addr2line(unittest.TestCase):
    def setUp(self):
        folder = tempfile.TemporaryDirectory()
        self.addCleanup(folder.cleanup)
        self.folder = Path(folder.name)
        self.env = {**os.environ, "ADDR2LINE_LIVE": str(PROGRAM), "XDG_CACHE_HOME": folder.name}

    def run_tool(self, *words, text="", program=TOOLS / "addr2line"):
        done = subprocess.run([program, *map(str, words)], input=text, capture_output=True,
                              text=True, env=self.env)
        return done.returncode, done.stdout, done.stderr

    def same_as_binutils(self, path, options, asked):
        words = ["-e", path, *options.split()]
        wanted = output_of("addr2line", *words, text=asked)
        self.assertEqual(self.run_tool(*words, text=asked)[:2], (0, plain(wanted)), options)

    def test_beside_binutils(self):
        """Looks up the instructions of two functions, and unusual lines, with all options."""
        path = compiled(self.folder, "twice", SOURCE, "-O2")
        code = [at for name in ("twice", "main") for at, _ in instructions(path, name)]
        around = [text.format(hex(code[0])) for text in AROUND]
        asked = "".join(f"{line}\n" for line in [*map(hex, code), *around, *ODD])
        for options in OPTIONS:
            self.same_as_binutils(path, options, asked)

    def test_addresses_in_a_section(self):
        """They are relative to the start of the section, and unknown after its end."""
        path = compiled(self.folder, "twice", SOURCE, "-O2")
        text = sections(path)[".text"]
        code = [at - text.address for at, _ in instructions(path, "twice")]
        asked = "".join(f"{at:x}\n" for at in [*code, text.size, text.size + 1, text.address])
        self.same_as_binutils(path, "-a -f -i -j .text", asked)

    def test_addresses_as_arguments_and_from_a_file(self):
        path = compiled(self.folder, "twice", SOURCE, "-O2")
        start = hex(symbol(path, "twice"))
        wanted = output_of("addr2line", "-e", path, "-f", start)
        self.assertEqual(self.run_tool("-e", path, "-f", start)[1], wanted)
        words = self.folder / "words"
        words.write_text(f"-e {path} -f\n{start}\n")
        self.assertEqual(self.run_tool(f"@{words}")[1], wanted)

    def test_names_of_methods(self):
        source = self.folder / "methods.cc"
        source.write_text(METHODS)
        path = self.folder / "methods"
        output_of("g++", "-g", "-gdwarf-5", "-O1", "-o", path, source)
        starts = [line.split()[0] for line in output_of("nm", path).splitlines() if "3run" in line]
        wanted = output_of("addr2line", "-e", path, "-f", "-C", *starts)
        self.assertIn("net::Parser::run(int)\n", wanted)
        self.assertEqual(self.run_tool("-e", path, "-f", "-C", *starts)[1], wanted)

    def test_separate_and_compressed_debug_information(self):
        """By debug link, by build ID in debuginfod's cache, and with compressed sections."""
        path = compiled(self.folder, "twice", SOURCE, "-O2", "-gz", "-Wl,--build-id")
        start = hex(symbol(path, "twice"))
        wanted = output_of("addr2line", "-e", path, "-f", start)
        self.assertEqual(self.run_tool("-e", path, "-f", start)[1], wanted)
        debug, stripped = self.folder / "twice.debug", self.folder / "stripped"
        output_of("objcopy", "--only-keep-debug", path, debug)
        output_of("objcopy", "--strip-debug", path, stripped)
        self.assertEqual(self.run_tool("-e", stripped, start)[1], "??:0\n")
        linked = self.folder / "linked"
        output_of("objcopy", f"--add-gnu-debuglink={debug}", stripped, linked)
        self.assertEqual(self.run_tool("-e", linked, "-f", start)[1], wanted)
        notes = output_of("readelf", "-n", stripped)
        cache = self.folder / "cache" / re.search(r"Build ID: (\w+)", notes)[1]
        cache.mkdir(parents=True)
        shutil.copy(debug, cache / "debuginfo")
        self.env["DEBUGINFOD_CACHE_PATH"] = str(cache.parent)
        self.assertEqual(self.run_tool("-e", stripped, "-f", start)[1], wanted)

    @unittest.skipUnless(shutil.which("clang"), "clang is not installed")
    def test_sanitizer_of_clang(self):
        """The address sanitizer starts the drop-in as its symbolizer."""
        path, source = self.folder / "block", self.folder / "block.c"
        source.write_text(BLOCK)
        words = ["clang", "-g", "-gdwarf-5", "-O1", "-fsanitize=address", "-o", path, source]
        if subprocess.run(words, capture_output=True).returncode:
            self.skipTest("clang has no address sanitizer")
        self.env["ASAN_OPTIONS"] = f"external_symbolizer_path={TOOLS}/addr2line"
        text = self.run_tool(program=path)[2]
        frames = [rf" +#{number} 0x\w+ in {name} {source}:{number + 2}\n"
                  for number, name in enumerate(("get", "use", "main"))]
        self.assertRegex(text, "READ of size 4 .*\n" + "".join(frames))

    def test_refusals(self):
        """Refuses with status 1, like binutils."""
        text = self.folder / "text"
        text.write_text("no object\n")
        path = compiled(self.folder, "twice", SOURCE)
        for words in (["-e", "/no/file", "0"], ["-e", text, "0"], ["-e", path, "-j", ".none", "0"]):
            wanted = self.run_tool(*words, program="addr2line")
            self.assertEqual(self.run_tool(*words), wanted)
        self.assertEqual(self.run_tool("-e", path, "-x")[0], 1)
        self.assertEqual(self.run_tool("--version")[0], 0)
        self.assertEqual(self.run_tool("--help")[0], 0)


if __name__ == "__main__":
    unittest.main()
