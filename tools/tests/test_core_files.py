"""Tests the objects of core files, of gdb and of a crash."""
import shutil
import subprocess
import sys
import tempfile
import unittest
from pathlib import Path

sys.path.insert(0, str(Path(__file__).resolve().parent))
from programs import PROGRAM, TOOLS, compiled, instructions, output_of, separate, tool
from test_loads_of_process import HOST, Host, loads

# A C++ program that crashes in `value`, which is inlined into `run`.
CRASH = """struct Parser { int value(volatile int *); int run(int *); };
inline __attribute__((always_inline)) int Parser::value(volatile int *p) { return *p; }
__attribute__((noinline)) int Parser::run(int *p) { return value(p) + 1; }
int main(int count, char **) { return Parser().run(count > 5 ? &count : (int *)0); }
"""


class CoreFiles(unittest.TestCase):
    def setUp(self):
        folder = tempfile.TemporaryDirectory()
        self.addCleanup(folder.cleanup)
        self.folder = Path(folder.name)

    @unittest.skipUnless(shutil.which("gcore"), "gcore is not installed")
    def test_a_core_file_of_gdb(self):
        path = compiled(self.folder, "host", HOST, "-O0")
        host = Host(path)
        self.addCleanup(host.end)
        done = subprocess.run(["gcore", "-o", f"{self.folder}/core", str(host.pid)],
                              capture_output=True)
        if done.returncode:
            self.skipTest("gcore may not attach here")
        core = f"{self.folder}/core.{host.pid}"
        done = subprocess.run([TOOLS / "loads_of_process", "--core", core],
                              capture_output=True, text=True)
        lines = {line.split(" ", 3)[3]: line for line in done.stdout.splitlines()}
        self.assertEqual(lines[str(path)], loads(host.pid)[str(path)])
        self.assertEqual(done.stderr, "")

    @unittest.skipUnless(Path("/proc/sys/kernel/core_pattern").read_text() == "core\n",
                         "core files are not written to the working folder")
    def test_a_crash_of_a_stripped_program(self):
        """The command in the README leads from the core file of a C++ program to the lines of its
        crash, including inlined callers."""
        flags = ["-O1", "-fno-pie", "-no-pie", "-x", "c++"]
        path = compiled(self.folder, "crash", CRASH, *flags)
        code = instructions(path, "_ZN6Parser3runEPi")
        stop = next(at for at, text in code if "(%" in text)
        separate(path)
        run = f"ulimit -c unlimited; cd {self.folder}; exec {path}"
        subprocess.run(["bash", "-c", run], capture_output=True)
        cores = list(self.folder.glob("core*"))
        if not cores:
            self.skipTest("no core file is written here")
        objects = f"{TOOLS}/loads_of_process --debug --core {cores[0]}"
        command = f"({objects}; echo {stop:x}) | {PROGRAM} -f -i -p"
        shown = output_of("bash", "-c", command).splitlines()
        wanted = [f"value at {path}.c:2", f" (inlined by) run at {path}.c:3"]
        self.assertEqual(shown[-2:], wanted)

    def test_no_core_file(self):
        path = self.folder / "text"
        path.write_text("no core\n")
        words = [TOOLS / "loads_of_process", "--core", path]
        done = subprocess.run(words, capture_output=True, text=True)
        self.assertEqual(done.returncode, 1)
        self.assertTrue(done.stderr.endswith(": not a 64-bit core file\n"))


if __name__ == "__main__":
    unittest.main()
