"""Tests the lookups in symbol tables next to nm."""
import sys
import tempfile
import unittest
from pathlib import Path

sys.path.insert(0, str(Path(__file__).resolve().parent))
from programs import TOOLS, compiled, output_of, symbol

sys.path.insert(0, str(TOOLS))
from elf_symbols import address_of, name_at

SOURCE = """int whole[4] = {1, 2, 3, 4};
__asm__(".globl part; .set part, whole + 4; .size part, 4; .type part, @object");
static int twice(void) { return 1; }
int (*first)(void) = twice;
int work(void) { return 2; }
int work_more(void) { return 3; }
"""
OTHER = "static int twice(void) { return 2; }\nint (*second)(void) = twice;\n"


class ElfSymbols(unittest.TestCase):
    def setUp(self):
        folder = tempfile.TemporaryDirectory()
        self.addCleanup(folder.cleanup)
        other = Path(folder.name) / "other.c"
        other.write_text(OTHER)
        self.path = compiled(folder.name, "code.so", SOURCE, "-shared", "-fPIC", other)

    def test_addresses(self):
        for name in ("work", "work_more", "whole", "part"):
            self.assertEqual(address_of(self.path, name), symbol(self.path, name), name)
        for name in ("wor", "twice", "ork", "", "__cxa_finalize"):
            self.assertIsNone(address_of(self.path, name), name)

    def test_names(self):
        whole, work = symbol(self.path, "whole"), symbol(self.path, "work")
        names = [name_at(self.path, whole + 4 * at) for at in range(4)]
        self.assertEqual(names, ["whole", "part", "whole", "whole"])
        self.assertEqual(name_at(self.path, work + 1), "work")
        self.assertIsNone(name_at(self.path, 1 << 40))

    def test_stripped(self):
        """The dynamic symbols remain."""
        work = symbol(self.path, "work")
        output_of("strip", self.path)
        self.assertEqual(address_of(self.path, "work"), work)

    def test_other_files(self):
        self.assertIsNone(address_of(__file__, "work"))


if __name__ == "__main__":
    unittest.main()
