"""Tests the bases of objects of real processes, and a library that is loaded and unloaded."""
import os
import shutil
import subprocess
import sys
import tempfile
import unittest
from pathlib import Path

sys.path.insert(0, str(Path(__file__).resolve().parent))
from programs import TOOLS, Live, compiled, output_of, separate, symbol, tool

sys.path.insert(0, str(TOOLS))
from loaded_objects import PAGE, Mapping, Segment, base_of, objects_of

# A program that loads and unloads libraries on command, and prints the address of a function.
HOST = r"""
#include <dlfcn.h>
#include <stdio.h>
#include <string.h>
int here(int x) { return x + 1; }
int main(void) {
    char line[4096];
    void *library = 0;
    printf("%lx\n", (unsigned long)&here);
    for (fflush(stdout); fgets(line, sizeof line, stdin); fflush(stdout)) {
        line[strcspn(line, "\n")] = 0;
        if (!strcmp(line, "close")) {
            printf("%d\n", dlclose(library));
            continue;
        }
        library = dlopen(line, RTLD_NOW);
        printf("%lx\n", library ? (unsigned long)dlsym(library, "work") : 0ul);
    }
    return 0;
}
"""
HOST_LINE = 5  # of `here`
FIRST = "\n\nint work(int x)\n{\n    return x * 3;\n}\n"  # `work` starts in line 4, at its brace
SECOND = "int pad(int x) { return x; }\n\n\n\n\n\nint work(int x) {\n    return pad(x);\n}\n"  # 7


class Host:
    """A process of the program HOST."""

    def __init__(self, path):
        pipe = subprocess.PIPE
        self.running = subprocess.Popen([path], stdin=pipe, stdout=pipe, text=True)
        self.here = int(self.running.stdout.readline(), 16)
        self.pid = self.running.pid

    def say(self, line):
        """Sends a line and returns the number in the reply."""
        self.running.stdin.write(f"{line}\n")
        self.running.stdin.flush()
        return int(self.running.stdout.readline(), 16)

    def end(self):
        self.running.stdin.close()
        self.running.stdout.close()
        self.running.wait(10)


def loads(pid):
    """Returns the load line of each object of a process, by path."""
    return {line.split(" ", 3)[3]: line for line in tool("loads_of_process", pid).splitlines()}


class LoadsOfProcess(unittest.TestCase):
    def setUp(self):
        self.folder = tempfile.TemporaryDirectory()
        self.addCleanup(self.folder.cleanup)
        self.live = Live("-f")
        self.addCleanup(self.live.end)

    def compile(self, name, source, *flags):
        return compiled(self.folder.name, name, source, *flags)

    def host(self, *flags):
        path = self.compile("host", HOST, "-O0", *flags)
        host = Host(path)
        self.addCleanup(host.end)
        return path, host

    def test_each_way_of_linking(self):
        """The base is right whether or not addresses equal file offsets."""
        ways = {
            "pie": [],
            "no-pie": ["-no-pie"],
            "apart": ["-Wl,-z,separate-code"],
            "together": ["-Wl,-z,noseparate-code"],
        }
        for name in ("lld", "gold"):
            if shutil.which(f"ld.{name}"):
                ways[name] = [f"-fuse-ld={name}"]
        for way, flags in ways.items():
            with self.subTest(way):
                path, host = self.host(*flags)
                line = loads(host.pid)[str(path)]
                self.assertEqual(int(line.split()[2], 16), host.here - symbol(path, "here"))
                self.assertTrue(self.live.say(line)[0].startswith("loaded host 0x"))
                self.assertEqual(self.live.say(f"{host.here:x}"), ["here", f"{path}.c:{HOST_LINE}"])
                self.assertEqual(self.live.say("unload host"), ["unloaded host"])

    def test_library_comes_and_goes(self):
        """A library is replaced by another while the process runs and addresses are looked up."""
        path, host = self.host()
        first = self.compile("first.so", FIRST, "-O0", "-shared", "-fPIC")
        second = self.compile("second.so", SECOND, "-O0", "-shared", "-fPIC")
        for line in loads(host.pid).values():
            self.live.say(line)
        for _ in range(3):
            for library, line in ((first, 4), (second, 7)):
                work, name = host.say(library), library.name
                place = f"{library.with_suffix('.c')}:{line}"
                self.assertEqual(self.live.say(f"{work:x}"), ["??", "??:0"])
                self.live.say(loads(host.pid)[str(library)])
                self.assertEqual(self.live.say(f"{work:x}"), ["work", place])
                here = self.live.say(f"{host.here:x}")
                self.assertEqual(here, ["here", f"{path}.c:{HOST_LINE}"])
                self.assertEqual(host.say("close"), 0)
                self.assertNotIn(str(library), loads(host.pid))
                self.assertEqual(self.live.say(f"unload {name}"), [f"unloaded {name}"])
                self.assertEqual(self.live.say(f"{work:x}"), ["??", "??:0"])

    def test_what_is_left_out(self):
        """Pages of the kernel, deleted files, data, and files that are not objects are omitted."""
        text = Path(self.folder.name) / "text"
        text.write_text("no object\n" * 1000)
        path = self.compile("plain", "int main(void) { return 0; }\n", "-no-pie")
        maps = (
            f"00400000-00401000 r--p 00000000 fe:00 1          {path}\n"
            f"00401000-00402000 r-xp 00001000 fe:00 1          {path}\n"
            f"7f0000000000-7f0000001000 r-xp 00001000 fe:00 1  {path} (deleted)\n"
            f"7f0000002000-7f0000003000 r-xp 00000000 fe:00 2  {text}\n"
            "7f0000004000-7f0000005000 r-xp 00000000 00:00 0\n"
            "7ffc00000000-7ffc00001000 r-xp 00000000 00:00 0  [vdso]\n"
        )
        saved = Path(self.folder.name) / "maps"
        saved.write_text(maps)
        self.assertEqual(tool("loads_of_process", saved), f"load plain 0 {path}\n")
        self.assertEqual(tool("loads_of_process", "-", text=maps), f"load plain 0 {path}\n")
        words = [TOOLS / "loads_of_process", saved]
        errors = subprocess.run(words, capture_output=True, text=True, check=True).stderr
        left_out = "loads_of_process: not read as an ELF object: "
        self.assertEqual(errors, f"{left_out}{path} (deleted)\n{left_out}{text}\n")

    def test_another_root_folder(self):
        """The files of a process with its own root folder are read and named below that folder."""
        path = self.compile("plain", "int main(void) { return 0; }\n", "-no-pie")
        line = f"00401000-00402000 r-xp 00001000 fe:00 1          /{path.name}\n"
        self.assertEqual(objects_of([line], str(path.parent)), ([("plain", 0, str(path))], []))
        self.assertEqual(objects_of([line], ""), ([], [f"/{path.name}"]))

    def test_part_of_a_segment(self):
        """Any page of a segment gives the base, even if the segment starts inside a page."""
        base, segment = 0x7F0000000000, Segment(0x640, 0x1640, 3 * PAGE)
        for page in range(4):
            start = base + PAGE + page * PAGE
            mapping = Mapping(start, start + PAGE, page * PAGE, "object")
            self.assertEqual(base_of(mapping, [segment]), base)
        self.assertIsNone(base_of(Mapping(base, base + PAGE, 4 * PAGE, "object"), [segment]))

    def test_reader_that_leaves(self):
        """A reader that stops early, such as head, causes no message."""
        with subprocess.Popen(["true"], stdin=subprocess.PIPE) as reader:
            reader.wait()
            loads = subprocess.run(
                [TOOLS / "loads_of_process", str(os.getpid())],
                stdout=reader.stdin,
                stderr=subprocess.PIPE,
            )
        self.assertEqual((loads.returncode, loads.stderr), (1, b""))

    def test_separate_debug_files(self):
        """A stripped program is loaded from its debug file, at its own base."""
        path = self.compile("host", HOST, "-O0")
        debug = separate(path)
        host = Host(path)
        self.addCleanup(host.end)
        lines = tool("loads_of_process", "--debug", host.pid).splitlines()
        self.live.say(next(line for line in lines if line.endswith(f" {debug}")))
        self.assertEqual(self.live.say(f"{host.here:x}"), ["here", f"{path}.c:{HOST_LINE}"])

    @unittest.skipUnless(shutil.which("eu-addr2line"), "eu-addr2line is not installed")
    def test_beside_eu_addr2line(self):
        """Addresses in a running process have the same lines as in eu-addr2line -p."""
        path, host = self.host()
        library = self.compile("second.so", SECOND, "-O0", "-shared", "-fPIC")
        work = host.say(library)
        live = Live()
        self.addCleanup(live.end)
        for line in loads(host.pid).values():
            live.say(line)
        asked = [start + byte for start in (host.here, work) for byte in range(12)]
        output = output_of("eu-addr2line", "-p", host.pid, *map(hex, asked)).splitlines()
        places = [":".join(line.split(":")[:2]) for line in output]
        self.assertEqual([live.say(f"{address:x}")[0] for address in asked], places)
        self.assertTrue(places[0].startswith(f"{path}.c:"))
        self.assertTrue(places[-1].startswith(f"{library.with_suffix('.c')}:"))

    def test_whole_process_of_many_objects(self):
        """Each object of a running python is loaded, and none overlaps another."""
        source = "import bz2, ctypes, decimal, lzma, socket, sqlite3, ssl, sys, zlib\n"
        source += "print(flush=True)\nsys.stdin.read()\n"
        pipe = subprocess.PIPE
        running = subprocess.Popen([sys.executable, "-c", source], stdin=pipe, stdout=pipe)
        running.stdout.readline()
        lines = loads(running.pid).values()
        replies = [self.live.say(line)[0] for line in lines]
        running.communicate()
        self.assertGreaterEqual(len(replies), 10)
        for reply in replies:
            self.assertRegex(reply, "^(loaded|refused object)")
        loaded = sum(reply.startswith("loaded") for reply in replies)
        self.assertEqual(len(self.live.say("list")), loaded + 1)


if __name__ == "__main__":
    unittest.main()
