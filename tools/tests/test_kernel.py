"""Tests the load of a kernel, and its frames in profiles, with a small vmlinux."""
import re
import shutil
import subprocess
import sys
import tempfile
import unittest
from pathlib import Path

sys.path.insert(0, str(Path(__file__).resolve().parent))
from programs import TOOLS, Live, compiled, instructions, output_of, symbol, tool

# `check` is inlined into `work`, which `start` calls in line 9.
SOURCE = """int per_cpu __attribute__((section(".data..percpu"))) = 1;
static inline __attribute__((always_inline)) int check(int x) { return x * 7; }
__attribute__((noinline)) int work(int x)
{
    return check(x) + 1;
}
int start(void)
{
    int x = work(3);
    return x - 1;
}
"""
# All code of a kernel, in one function.
LARGE = 'void all(void)\n{\n    __asm__ volatile(".skip 0x2000000, 0x90");\n}\n'
SCRIPT = """
PHDRS { text PT_LOAD FLAGS(5); data PT_LOAD FLAGS(6); percpu PT_LOAD FLAGS(6); }
SECTIONS {
    . = 0xffffffff81000000;
    .text : { _text = .; _stext = .; *(.text .text.*) } :text
    . = 0xffffffff84000000;
    .data : { *(.data .bss) BYTE(1) } :data
    .data..percpu 0 : AT(0x1400000) { *(.data..percpu) } :percpu
    /DISCARD/ : { *(.comment .note* .eh_frame) }
}
"""
START = 0xFFFFFFFF81000000
SLIDE = 0x12000000  # of KASLR
HEAD = "spin 12 1.000001:  250000 cpu-clock: \n"


def vmlinux(folder, source=SOURCE):
    """Links a vmlinux with a segment at address 0 and with relocations."""
    script = Path(folder) / "vmlinux.lds"
    script.write_text(SCRIPT)
    flags = ["-O1", "-fno-pie", "-no-pie", "-mcmodel=kernel", "-nostdlib", "-static",
             "-ffreestanding", "-Wl,--emit-relocs", f"-Wl,-T,{script}"]
    return compiled(folder, "vmlinux", source, *flags)


class Kernel(unittest.TestCase):
    def setUp(self):
        folder = tempfile.TemporaryDirectory()
        self.addCleanup(folder.cleanup)
        self.folder = Path(folder.name)
        self.path = vmlinux(self.folder)
        self.copy = self.folder / "copy"
        code = instructions(self.path, "start")
        call = next(at for at, (_, text) in enumerate(code) if "call" in text)
        self.after_call = code[call + 1][0]

    def kallsyms(self, *lines):
        path = self.folder / "kallsyms"
        path.write_text("".join(f"{line}\n" for line in lines))
        return path

    def failure(self, *words, name="load_of_kernel"):
        """Returns the status and the error of a tool."""
        done = subprocess.run([TOOLS / name, *map(str, words)], capture_output=True, text=True,
                              stdin=subprocess.DEVNULL)
        return done.returncode, done.stderr

    def test_next_to_a_process(self):
        """The copy leaves the addresses below the kernel free, at the base of KASLR."""
        app = compiled(self.folder, "app", "int main(void)\n{ return 0; }\n", "-no-pie")
        live = Live("-f", "-i")
        self.addCleanup(live.end)
        whole = live.say(f"load kernel 0 {self.path}")[0]
        self.assertTrue(whole.startswith("loaded kernel 0x0000000000000000-"))
        self.assertEqual(live.say(f"load app 0 {app}"), ["refused overlap kernel"])
        live.say("unload kernel")
        line = tool("load_of_kernel", self.path, self.copy, "--text", f"0x{START + SLIDE:x}")
        self.assertEqual(line, f"load kernel {SLIDE:x} {self.copy}\n")
        self.assertRegex(live.say(line.rstrip())[0], f"^loaded kernel 0x{START + SLIDE:x}-")
        self.assertRegex(live.say(f"load app 0 {app}")[0], "^loaded app ")
        wanted = ["check", f"{self.path}.c:2", "work", f"{self.path}.c:5"]
        self.assertEqual(live.say(f"{symbol(self.path, 'work') + SLIDE:x}"), wanted)
        self.assertEqual(live.say(f"{symbol(app, 'main'):x}"), ["main", f"{app}.c:2"])

    def test_addresses_of_the_running_kernel(self):
        """_text is used before _stext."""
        end = f" {self.copy}\n"
        for base, lines in ((SLIDE, ["0 A fixed", f"{START + SLIDE:x} T _text"]),
                            (0, [f"{START:x} T _stext", f"{START + SLIDE:x} T _text_end"]),
                            (SLIDE, [f"{START:x} T _stext", f"{START + SLIDE:x} T _text"])):
            file = self.kallsyms(*lines)
            line = tool("load_of_kernel", self.path, self.copy, "--kallsyms", file)
            self.assertEqual(line, f"load kernel {base:x}{end}")

    def test_failures(self):
        start = f"load_of_kernel: {self.path}: "
        hidden = self.kallsyms("0000000000000000 T _text")
        faults = {
            (self.path, self.copy, "--kallsyms", hidden):
                f"{start}the addresses of the running kernel are hidden or unknown\n",
            (self.path, self.copy, "--text", "1000"):
                f"{start}_text is at 1000 in memory, but at {START:x} in the file\n",
            (self.path, self.path, "--text", f"{START:x}"): f"{start}OUT is the same file\n",
            ("/no/file", self.copy):
                "load_of_kernel: /no/file: not found or not a 64-bit ELF object\n",
            (self.path, self.copy, "--kallsyms", "/no/file"):
                "load_of_kernel: /no/file: No such file or directory\n",
        }
        for words, wanted in faults.items():
            self.assertEqual(self.failure(*words), (1, wanted))
            self.assertFalse(self.copy.exists())
        self.assertEqual(self.failure(self.path)[0], 2)
        self.assertEqual(self.failure(self.path, self.copy, "--text", "zz")[0], 2)

    def profile(self, slide):
        """Returns a chain of the kernel, and its frames with the vmlinux."""
        work, caller = symbol(self.path, "work") + slide, self.after_call + slide
        file = "([kernel.kallsyms])"
        text = f"{HEAD}\t{work:x} work+0x0 {file}\n\t{caller:x} start+0x9 {file}\n"
        wanted = (f"{HEAD}\t{work:x} check ({self.path}.c:2)\n\t{work:x} work ({self.path}.c:5)\n"
                  f"\t{caller:x} start ({self.path}.c:9)\n")
        return text, wanted

    def test_profiles(self):
        """The base comes from --text or from the mapping of the kernel in the profile."""
        text, wanted = self.profile(SLIDE)
        words = ["--vmlinux", self.path]
        shown = tool("symbolize_perf", *words, "--text", f"{START + SLIDE:x}", text=text)
        self.assertEqual(shown, wanted)
        head = (f"swapper 0/0 0.0: PERF_RECORD_MMAP -1/0: [0x{START + SLIDE:x}(0x12090c8) @ "
                f"0x{START + SLIDE:x}]: x [kernel.kallsyms]_text\n")
        self.assertEqual(tool("symbolize_perf", *words, text=head + text), head + wanted)
        self.assertEqual(tool("symbolize_perf", text=head + text), head + text)

    def test_other_frames_of_profiles(self):
        """Frames of modules, Python and JIT code stay; a user frame is exact after the kernel."""
        app = compiled(self.folder, "app", "int main(void)\n{ return 0; }\n", "-no-pie")
        text, wanted = self.profile(0)
        others = ("\tffffffffc0001000 nf_hook+0x10 ([nf_conntrack])\n"
                  "\t7f1a2b3c4d5e py::run:/src/run.py (/tmp/perf-12.map)\n"
                  "\t7f1a2b3c4d5e [unknown] (/memfd:doublemapper (deleted))\n"
                  "\t7f1a2b3c4d5e Lwork; (//anon)\n\tffffffff90000000 far ([kernel.kallsyms])\n")
        main = symbol(app, "main") - 0x400000
        shown = tool("symbolize_perf", "--vmlinux", self.path, "--text", f"{START:x}",
                     text=f"{text}\t{main:x} main+0x0 ({app})\n{others}")
        self.assertEqual(shown, f"{wanted}\t{main:x} main ({app}.c:2)\n{others}")

    def test_options_of_profiles(self):
        self.assertEqual(self.failure("--text", "1", name="symbolize_perf")[0], 2)
        status, error = self.failure("--vmlinux", "/no/file", name="symbolize_perf")
        wanted = "symbolize_perf: /no/file: not found or not a 64-bit ELF object\n"
        self.assertEqual((status, error), (1, wanted))

    @unittest.skipUnless(shutil.which("perf"), "perf is not installed")
    def test_a_recorded_kernel(self):
        """Each kernel frame of a recorded profile is in the one function of the vmlinux."""
        data = self.folder / "data"
        run = ["dd", "if=/dev/zero", "of=/dev/null", "bs=1M", "count=2000"]
        record = ["perf", "record", "-q", "-e", "cpu-clock", "-g", "-o", data, *run]
        if subprocess.run(record, stderr=subprocess.DEVNULL).returncode:
            self.skipTest("perf may not record here")
        options = ["--no-inline", "-F", "+pid", "--show-mmap-events"]
        text = output_of("perf", "script", *options, "-i", data)
        if not re.search(r"@ 0x[0-9a-f]+\]: x \[kernel.kallsyms\]_text\n", text):
            self.skipTest("perf may not record the kernel here")
        path = vmlinux(self.folder, LARGE)
        shown = tool("symbolize_perf", "--vmlinux", path, text=text)
        count = text.count(" ([kernel.kallsyms])\n")
        self.assertGreater(count, 0)
        self.assertEqual(shown.count(f" all ({path}.c:3)\n"), count)


if __name__ == "__main__":
    unittest.main()
