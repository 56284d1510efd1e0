"""Tests the files that `make install` and `make dist` put under a prefix, with the program on PATH,
and `make uninstall`."""
import os
import subprocess
import sys
import tempfile
import unittest
from pathlib import Path

sys.path.insert(0, str(Path(__file__).resolve().parent))
from programs import PROGRAM, TOP, compiled, output_of, symbol

SOURCE = "int main(void)\n{\n    return 0;\n}\n"
SAMPLE = "app 12 1.000001:  250000 cpu-clock: \n"


def make(target, prefix, *words):
    """Runs a target of make, without building the program again."""
    run = ["make", "-s", "-C", TOP, "-o", "program", target]
    output_of(*run, f"PROGRAM={PROGRAM}", f"PREFIX={prefix}", "DESTDIR=", *words)


def files_of(folder):
    return {path.relative_to(folder) for path in folder.rglob("*") if path.is_file()}


class Install(unittest.TestCase):
    @classmethod
    def setUpClass(cls):
        folder = tempfile.TemporaryDirectory()
        cls.addClassCleanup(folder.cleanup)
        cls.prefix = Path(folder.name) / "prefix"
        make("install", cls.prefix)
        cls.path = compiled(folder.name, "app", SOURCE, "-O0", "-no-pie")
        cls.main = symbol(cls.path, "main")

    def run_installed(self, name, *words, text):
        """Returns the output of a tool if the installed program is the first on PATH."""
        env = {**os.environ, "PATH": f"{self.prefix}/bin:{os.environ['PATH']}"}
        env.pop("ADDR2LINE_LIVE", None)
        command = [self.prefix / "libexec/addr2line_live" / name, *words]
        done = subprocess.run(command, input=text, capture_output=True, text=True, env=env)
        self.assertEqual((done.returncode, done.stderr), (0, ""))
        return done.stdout

    def test_files(self):
        files = {str(path.relative_to(self.prefix)) for path in self.prefix.rglob("*.?*")}
        self.assertLessEqual({"share/man/man1/addr2line_live.1",
                              "share/doc/addr2line_live/PROTOCOL.md"}, files)

    def completed(self, *words):
        """Returns the words that bash offers for the last of the words after the program's name."""
        script = self.prefix / "share/bash-completion/completions/addr2line_live"
        words = ["addr2line_live", *words]
        run = (f'source "{script}"; compopt() {{ :; }}; COMP_WORDS=("$@"); COMP_CWORD=$(($# - 1))\n'
               '_addr2line_live "$1" "${@: -1}" "${@: -2:1}"; printf "%s\\n" "${COMPREPLY[@]}"')
        return output_of("bash", "-c", run, "bash", *words).split()

    def test_completion(self):
        self.assertEqual(self.completed("--in"), ["--inlines"])
        self.assertEqual(self.completed("-f", "--l"), ["--linkage"])
        self.assertIn("--version", self.completed(""))
        self.assertEqual(self.completed("--cache", ""), [])
        paths = [str(self.path), f"{self.path}.c"]
        for before in (["-e"], ["-fie"], ["--exe"], ["--exe", "="]):
            self.assertEqual(sorted(self.completed(*before, self.path)), paths, before)
        self.assertTrue(self.completed("--exe", "="))

    def test_loads_of_process(self):
        page = self.main & -0x1000
        maps = f"{page:x}-{page + 0x1000:x} r-xp {page - 0x400000:08x} fe:00 1 {self.path}\n"
        loads = self.run_installed("loads_of_process", "-", text=maps)
        self.assertEqual(loads, f"load app 0 {self.path}\n")

    def test_addr2line(self):
        words = ["-e", self.path, "-f", hex(self.main)]
        self.assertEqual(self.run_installed("addr2line", *words, text=""),
                         f"main\n{self.path}.c:2\n")

    def test_mark_dropped(self):
        words = [self.path, self.path.with_suffix(".marked")]
        self.assertEqual(self.run_installed("mark_dropped", *words, text=""),
                         "marked 0 addresses\n")

    def test_symbolize_perf(self):
        place = f"\t{self.main - 0x400000:x} main"
        text = f"{SAMPLE}{place}+0x0 ({self.path})\n"
        wanted = f"{SAMPLE}{place} ({self.path}.c:2)\n"
        self.assertEqual(self.run_installed("symbolize_perf", text=text), wanted)

    def test_symbolize_text(self):
        line = f"{self.path}+0x{self.main:x}"
        self.assertEqual(self.run_installed("symbolize_text", text=line),
                         f"{line} main at {self.path}.c:2\n")

    def test_symbolize_markup(self):
        text = (f"{{{{{{module:0:{self.path}:elf:}}}}}}\n"
                "{{{mmap:0x400000:0x4000:load:0:r:0x400000}}}\n"
                f"{{{{{{pc:0x{self.main:x}}}}}}}\n")
        shown = self.run_installed("symbolize_markup", text=text).splitlines()
        self.assertEqual(shown[2], f"main[{self.path}.c:2]")

    def test_load_of_kernel(self):
        """The program links at a fixed address, as vmlinux does, with a symbol of its name."""
        kernel, copy = f"{self.path}.vmlinux", f"{self.path}.copy"
        output_of("objcopy", "--add-symbol", "_text=.text:0", self.path, kernel)
        words = [kernel, copy, "--text", f"{symbol(kernel, '_text') + 0x1000:x}"]
        self.assertEqual(self.run_installed("load_of_kernel", *words, text=""),
                         f"load kernel 1000 {copy}\n")

    def test_uninstall(self):
        """Other files stay. Folders of the program are removed if they are empty."""
        with tempfile.TemporaryDirectory() as folder:
            make("install", folder)
            output_of(Path(folder) / "libexec/addr2line_live/loads_of_process", os.getpid())
            others = [Path(folder) / name for name in ("bin/other", "share/man/man1/other.1")]
            for other in others:
                other.write_text("other\n")
            make("uninstall", folder)
            self.assertEqual(files_of(Path(folder)), {path.relative_to(folder) for path in others})
            self.assertFalse((Path(folder) / "libexec/addr2line_live").exists())
            self.assertFalse((Path(folder) / "share/doc/addr2line_live").exists())
            make("uninstall", folder)

    def test_dist(self):
        """The archive has the files of `make install`, the licenses and the version."""
        version = (TOP / "VERSION").read_text().strip()
        with tempfile.TemporaryDirectory() as folder:
            name = f"addr2line_live-{version}"
            make("dist", "/unused", f"DIST={folder}/{name}")
            output_of("tar", "-C", folder, "-xzf", f"{folder}/{name}.tar.gz")
            documents = Path("share/doc/addr2line_live")
            extra = {documents / file for file in ("LICENSE-APACHE", "LICENSE-MIT", "VERSION")}
            make("install", f"{folder}/prefix")
            wanted = files_of(Path(folder) / "prefix") | extra
            self.assertEqual(files_of(Path(folder) / name), wanted)


if __name__ == "__main__":
    unittest.main()
