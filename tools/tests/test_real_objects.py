"""Tests how tools/compare_real.py finds objects, prepares them and chooses addresses."""
import subprocess
import sys
import tempfile
import unittest
from pathlib import Path

sys.path.insert(0, str(Path(__file__).resolve().parent))
from programs import PROGRAM, TOOLS, compiled, output_of

sys.path.insert(0, str(TOOLS))
from debug_files import COMPRESSED, sections
from real_objects import (RealObject, Skipped, in_code, installed, prepared, random_addresses,
                          spans_of_rows, spans_of_scopes, with_debug)

SOURCE = "int main(void) { return 0; }\n"


class Files(unittest.TestCase):
    def setUp(self):
        folder = tempfile.TemporaryDirectory()
        self.addCleanup(folder.cleanup)
        self.folder = Path(folder.name)

    def stripped(self, name):
        """Returns a stripped object and its debug file, which build ID names in debug/."""
        path = compiled(self.folder, name, SOURCE, "-Wl,--build-id")
        identity = output_of("readelf", "-n", path).split("Build ID: ")[1].split()[0]
        debug = self.folder / f"debug/.build-id/{identity[:2]}/{identity[2:]}.debug"
        debug.parent.mkdir(parents=True, exist_ok=True)
        output_of("objcopy", "--only-keep-debug", path, debug)
        output_of("strip", path)
        return path, debug

    def test_installed_objects(self):
        """The object itself is found, or its debug file. A debug file is found once."""
        path, debug = self.stripped("stripped")
        plain = compiled(self.folder, "plain", SOURCE)
        output_of("strip", compiled(self.folder, "without", SOURCE, "-Wl,--build-id=none"))
        (self.folder / "again").symlink_to(path)
        names = ["stripped", "again", "plain", "without", "missing"]
        patterns = [str(self.folder / name) for name in names]
        wanted = [RealObject("stripped", debug), RealObject("plain", plain)]
        self.assertEqual(installed(patterns, [self.folder / "debug"]), wanted)
        self.assertEqual(installed([f"{self.folder}/pl*n"], []), wanted[1:])
        self.assertIsNone(with_debug(path, []))

    def refused(self, path, reason):
        with self.assertRaisesRegex(Skipped, reason):
            prepared(path, self.folder / "copy")

    def test_objects_that_are_skipped(self):
        path, debug = self.stripped("app")
        self.refused(self.folder / "none", "there is no such file")
        self.refused(self.folder / "app.c", "not a 64-bit little-endian ELF object")
        self.refused(path, "neither the object nor a debug file has debug information")
        section = f".gnu_debugaltlink={self.folder / 'app.c'}"
        output_of("objcopy", "--add-section", section, debug)
        self.refused(debug, r"supplementary file \(.gnu_debugaltlink\)")

    def test_compressed_objects(self):
        plain = compiled(self.folder, "plain", SOURCE)
        packed = compiled(self.folder, "packed", SOURCE, "-gz")
        copy = self.folder / "copy"
        self.assertEqual(prepared(plain, copy), plain)
        self.assertFalse(copy.exists())
        self.assertEqual(prepared(packed, copy), copy)
        self.assertTrue(any(row.flags & COMPRESSED for row in sections(packed).values()))
        self.assertFalse(any(row.flags & COMPRESSED for row in sections(copy).values()))

    def test_addresses_of_code(self):
        """Addresses outside of the executable sections are dead code, also in a debug file."""
        path, debug = self.stripped("app")
        for found in (sections(path), sections(debug)):
            text = found[".text"]
            start, end = text.address, text.address + text.size
            asked = [0, start, end - 1, found[".data"].address]
            self.assertEqual(in_code(asked, found), [start, end - 1])

    def test_nothing_to_compare(self):
        """It fails if no object is compared."""
        words = [PROGRAM, "measure", self.folder / "out", TOOLS / "live.py"]
        done = subprocess.run([TOOLS / "compare_real.py", *words], capture_output=True, text=True)
        wanted = ("live.py: skipped: not a 64-bit little-endian ELF object\n"
                  "0 of 1 objects compared, 0 differ\n")
        self.assertEqual((done.returncode, done.stdout, done.stderr), (1, wanted, ""))


class Addresses(unittest.TestCase):
    def test_spans_of_rows(self):
        """A row ends at the next one. Rows without addresses and ends of sequences have no span."""
        lines = ["10 /a.c:1", "14 /a.c:2", "14 /a b.c:3", "1a end", "5 :0", "8 end"]
        self.assertEqual(list(spans_of_rows(lines)), [(0x10, 0x14), (0x14, 0x1A), (5, 8)])

    def test_spans_of_scopes(self):
        fields = "c\tsubprogram\tmain\t-\t{}\t-\t-\t1\t0\t0\tb"
        lines = [fields.format(text) for text in ("10-1a,30-38", "-", "ff00-ff01")]
        wanted = [(0x10, 0x1A), (0x30, 0x38), (0xFF00, 0xFF01)]
        self.assertEqual(list(spans_of_scopes(lines)), wanted)

    def test_random_addresses(self):
        """Each address is in another span. With few spans, all are used. All spans occur, first
        addresses and others."""
        spans = [(100 * k, 100 * k + 10) for k in range(1000)]
        found = random_addresses(iter(spans), 200)
        self.assertEqual(len({address // 100 for address in found}), 200)
        self.assertTrue(all(address % 100 < 10 for address in found))
        self.assertTrue(50 < sum(address % 100 == 0 for address in found) < 150)
        self.assertEqual(found, random_addresses(iter(spans), 200))
        self.assertGreater(max(found), 80_000)
        self.assertEqual([at // 100 for at in random_addresses(spans[:3], 5)], [0, 1, 2])


if __name__ == "__main__":
    unittest.main()
