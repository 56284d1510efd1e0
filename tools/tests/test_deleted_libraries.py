"""Tests the objects of a process whose files are deleted or replaced while it runs."""
import os
import subprocess
import sys
import tempfile
import unittest
from pathlib import Path

sys.path.insert(0, str(Path(__file__).resolve().parent))
from programs import TOOLS, Live, compiled, output_of, tool
from test_loads_of_process import FIRST, HOST, SECOND, Host

sys.path.insert(0, str(TOOLS))
from loaded_objects import Mapping, file_of, objects_of


class DeletedLibraries(unittest.TestCase):
    def setUp(self):
        folder = tempfile.TemporaryDirectory()
        self.addCleanup(folder.cleanup)
        self.folder = Path(folder.name)
        self.host = Host(compiled(self.folder, "host", HOST, "-O0"))
        self.addCleanup(self.host.end)

    def library(self, name, source):
        return compiled(self.folder, name, source, "-O0", "-shared", "-fPIC")

    @unittest.skipUnless(os.geteuid() == 0, "only root can read /proc/PID/map_files")
    def test_deleted_and_replaced(self):
        """The library of the process answers, not the new file at its path."""
        library = self.library("plugin.so", FIRST)
        work = self.host.say(library)
        place = f"{library.with_suffix('.c')}:4"
        library.unlink()
        self.library("plugin.so", SECOND)
        loads = tool("loads_of_process", self.host.pid).splitlines()
        line = next(line for line in loads if line.startswith("load plugin.so "))
        self.assertRegex(line, rf"^load plugin.so \w+ /proc/{self.host.pid}/map_files/\w+-\w+$")
        live = Live("-f")
        self.addCleanup(live.end)
        for load in loads:
            self.assertNotIn("refused file", live.say(load)[0])
        self.assertEqual(live.say(f"{work:x}"), ["work", place])

    @unittest.skipUnless(os.geteuid() == 0, "only root can read /proc/PID/map_files")
    def test_debug_file_of_a_deleted_library(self):
        library = self.library("plugin.so", FIRST)
        debug = self.folder / "plugin.so.debug"
        output_of("objcopy", "--only-keep-debug", library, debug)
        output_of("strip", "--strip-debug", library)
        output_of("objcopy", f"--add-gnu-debuglink={debug}", library)
        self.host.say(library)
        library.unlink()
        loads = tool("loads_of_process", "--debug", self.host.pid)
        self.assertRegex(loads, rf"(?m)^load plugin.so \w+ {debug}$")

    @unittest.skipUnless(os.geteuid() == 0, "another user is needed")
    def test_another_user(self):
        """Without the capability, standard error lists the deleted library."""
        os.chmod(self.folder, 0o755)
        self.library("plugin.so", FIRST)
        pipe = subprocess.PIPE
        host = subprocess.Popen([self.folder / "host"], stdin=pipe, stdout=pipe, text=True,
                                user=65534, group=65534, extra_groups=[])
        self.addCleanup(host.communicate)
        host.stdin.write(f"{self.folder}/plugin.so\n")
        host.stdin.flush()
        host.stdout.readline(), host.stdout.readline()
        (self.folder / "plugin.so").unlink()
        words = [TOOLS / "loads_of_process", str(host.pid)]
        done = subprocess.run(words, capture_output=True, text=True, user=65534, group=65534,
                              extra_groups=[])
        path = f"{self.folder}/plugin.so (deleted)"
        wanted = f"loads_of_process: only root can read this file: {path}\n"
        self.assertEqual((done.returncode, done.stderr), (0, wanted))
        self.assertNotIn("plugin.so", done.stdout)
        self.assertRegex(done.stdout, rf"(?m)^load host \w+ {self.folder}/host$")

    def test_one_line_for_several_mappings(self):
        """Two mappings of one deleted object give one object, with the file of the first."""
        code = self.library("plugin.so", FIRST + "__asm__(\".skip 8192\");\n")
        files = self.folder / "map_files"
        files.mkdir()
        lines = []
        for start, offset in ((0x7f0000001000, 0x1000), (0x7f0000002000, 0x2000)):
            (files / f"{start:x}-{start + 0x1000:x}").symlink_to(code)
            lines.append(f"{start:x}-{start + 0x1000:x} r-xp {offset:08x} fe:00 1 /x.so (deleted)")
        first = f"{files}/7f0000001000-7f0000002000"
        wanted = [("x.so", 0x7f0000000000, first)]
        self.assertEqual(objects_of(lines, "", str(files)), (wanted, []))

    def test_files_of_mappings(self):
        mapping = Mapping(0x1000, 0x2000, 0, "/x (deleted)")
        self.assertIsNone(file_of(mapping, "/container"))
        self.assertEqual(file_of(mapping, "/container", "/proc/7/map_files"),
                         "/proc/7/map_files/1000-2000")
        self.assertEqual(file_of(mapping._replace(path="/x"), "/container", "/m"), "/container/x")


if __name__ == "__main__":
    unittest.main()
