"""Tests frames in the output of `perf script`: of the local perf, and of several versions."""
import shutil
import subprocess
import sys
import tempfile
import unittest
from pathlib import Path

sys.path.insert(0, str(Path(__file__).resolve().parent))
from programs import compiled, instructions, output_of, tool

# `step` is inlined into `spin`, which is not inlined into `main`.
SOURCE = """
static inline unsigned long step(unsigned long x)
{
    return x * 6364136223846793005UL + 1442695040888963407UL;
}
__attribute__((noinline)) unsigned long spin(unsigned long n)
{
    unsigned long x = 1;
    for (unsigned long i = 0; i < n; i++)
        x = step(x) ^ (x >> 7);
    return x;
}
int main(void)
{
    return spin(300000000) == 1;
}
"""
METHODS = """
namespace net { struct Parser { __attribute__((noinline)) int run(int); }; }
namespace db { struct Query { __attribute__((noinline)) int run(int); }; }
int net::Parser::run(int x) { return x + 1; }
int db::Query::run(int x) { return x + 2; }
int main(int count, char **) { return net::Parser().run(count) + db::Query().run(count); }
"""
STEP, SPIN, MAIN = 4, 10, 15  # the lines of the product and of the calls of `step` and `spin`
HEAD = "spin 12 1.000001:  250000 cpu-clock: "


def mapped(start, path):
    """Returns the line of perf for the mapping of a page of code."""
    where = f"[0x{start:x}(0x1000) @ 0x1000 fe:00 1 2]"
    return f"spin 12 0.5: PERF_RECORD_MMAP2 12/12: {where}: r-xp {path}\n"


class SymbolizePerf(unittest.TestCase):
    def setUp(self):
        folder = tempfile.TemporaryDirectory()
        self.addCleanup(folder.cleanup)
        self.folder = Path(folder.name)
        self.path = compiled(folder.name, "spin", SOURCE, "-O2", "-no-pie")
        code = instructions(self.path, "spin")
        self.product = next(address for address, text in code if "imul" in text)
        code = instructions(self.path, "main")
        call = next(number for number, (_, text) in enumerate(code) if "<spin>" in text)
        self.after_call = code[call + 1][0]
        self.source = f"{self.path}.c"

    def frames(self, indent, product, after):
        """Returns the frames of the product inside the call of `spin`."""
        return (
            f"{indent}{product} step ({self.source}:{STEP})\n"
            f"{indent}{product} spin ({self.source}:{SPIN})\n"
            f"{indent}{after} main ({self.source}:{MAIN})\n"
        )

    def test_chains_by_offsets_of_the_file(self):
        product, after = f"{self.product - 0x400000:x}", f"{self.after_call - 0x400000:x}"
        text = f"{HEAD}\n\t  {product} spin+0x2b ({self.path})\n"
        text += f"\t  {after} main+0xe ({self.path})\n"
        wanted = f"{HEAD}\n" + self.frames("\t  ", product, after)
        self.assertEqual(tool("symbolize_perf", text=text), wanted)

    def test_chains_by_addresses_of_the_process(self):
        product, after = (f"{0x7f0000000000 + at:x}" for at in (self.product, self.after_call))
        head = f"{mapped(0x7f0000401000, self.path)}{HEAD}\n"
        text = f"{head}\t{product} [unknown] ([unknown])\n\t{after} main+0xe ({self.path})\n"
        wanted = head + self.frames("\t", product, after)
        self.assertEqual(tool("symbolize_perf", text=text), wanted)

    def test_samples_without_chains_by_saved_maps(self):
        maps = self.folder / "maps"
        maps.write_text(f"00401000-00402000 r-xp 00001000 fe:00 1 {self.path}\n")
        head, product = "  spin 12 [001] 1.000001:  250000 cpu-clock:  ", f"{self.product:x}"
        text = f"{head}{product} spin+0x2b ({self.path})\n"
        wanted = f"{head}{product} step ({self.source}:{STEP})\n"
        wanted += f"\t{product} spin ({self.source}:{SPIN})\n"
        self.assertEqual(tool("symbolize_perf", "--maps", maps, text=text), wanted)

    def test_an_object_in_the_place_of_another(self):
        """The most recent mapping is used."""
        other = compiled(self.folder, "other", SOURCE.replace("step", "leap"), "-O2", "-no-pie")
        text, wanted, product = "", "", f"{self.product:x}"
        for path, name in ((self.path, "step"), (other, "leap")):
            text += f"{mapped(0x401000, path)}{HEAD}{product} [unknown] ([unknown])\n"
            wanted += f"{mapped(0x401000, path)}{HEAD}{product} {name} ({path}.c:{STEP})\n"
            wanted += f"\t{product} spin ({path}.c:{SPIN})\n"
        self.assertEqual(tool("symbolize_perf", text=text), wanted)

    def test_what_stays(self):
        text = (
            f"{HEAD}\n"
            "\tffffffff81585d71 do_mmap+0x11 ([kernel.kallsyms])\n"
            "\t20ca3 mmap64+0x13 (/no/such/file)\n"
            "\t7fa8c56a28a8 [unknown] ([unknown])\n"
            f"\t0 _init+0x0 ({self.path})\n"
        )
        self.assertEqual(tool("symbolize_perf", text=text), text)

    @unittest.skipUnless(shutil.which("c++filt"), "c++filt is not installed")
    def test_methods_of_one_name(self):
        """Two methods with the same name are printed with their classes."""
        source = self.folder / "methods.cc"
        source.write_text(METHODS)
        path = self.folder / "methods"
        output_of("g++", "-g", "-gdwarf-5", "-O1", "-no-pie", "-o", path, source)
        symbols = [line.split() for line in output_of("nm", path).splitlines()]
        starts = [int(words[0], 16) - 0x400000 for words in symbols if "3run" in words[-1]]
        text = HEAD + "\n" + "".join(f"\t{start:x} run+0x0 ({path})\n" for start in starts[:1])
        shown = tool("symbolize_perf", text=text)
        self.assertIn(f" db::Query::run(int) ({source}:5)\n", shown)
        text = HEAD + "\n" + "".join(f"\t{start:x} run+0x0 ({path})\n" for start in starts[1:])
        self.assertIn(f" net::Parser::run(int) ({source}:4)\n", tool("symbolize_perf", text=text))

    @unittest.skipUnless(shutil.which("perf"), "perf is not installed")
    def test_a_recorded_process(self):
        for flags in (["-no-pie"], [], ["-fuse-ld=lld"] if shutil.which("ld.lld") else []):
            path = compiled(self.folder, "recorded", SOURCE, "-O2", *flags)
            data = self.folder / "data"
            record = ["perf", "record", "-q", "-e", "cpu-clock:u", "-g", "-o", data, path]
            if subprocess.run(record, stderr=subprocess.DEVNULL).returncode > 1:
                self.skipTest("perf may not record here")
            options = ["--no-inline", "-F", "+pid", "--show-mmap-events"]
            text = output_of("perf", "script", *options, "-i", data)
            shown = tool("symbolize_perf", text=text)
            inlined = shown.count(f" step ({path}.c:{STEP})\n")
            self.assertGreater(inlined, 0, flags)
            self.assertGreaterEqual(shown.count(f" spin ({path}.c:{SPIN})\n"), inlined)


if __name__ == "__main__":
    unittest.main()
