"""Compares the addresses that tools/addr2line parses with those that binutils prints."""
import io
import sys
import tempfile
import unittest
from pathlib import Path

sys.path.insert(0, str(Path(__file__).resolve().parent))
from programs import TOOLS, compiled, output_of

sys.path.insert(0, str(TOOLS))
from asked_addresses import Addresses, pieces

SOURCE = """
int add_one(int x) { return x + 1; }
int main(void) { return add_one(1); }
"""
METHODS = """
namespace net { struct Parser { int run(int, long); int operator+(int); }; }
int net::Parser::run(int x, long) { return x + 1; }
int net::Parser::operator+(int x) { return x + 2; }
int plain(int x) { return x + 3; }
int main() { return net::Parser().run(1, 2) + plain(3); }
"""
NUMBERS = [
    "401130", "0x401130", "0X40113C", "40113c", "  401130", "\t401130", "401130  ", "401130 main",
    "401130zz", "0x401130+0x5", "401130+5", "401130-1", "401130\r", "", " ", "0x", "0xzz", "0x 10",
    "0 401130", "fade", "b", "a+5", "ffffffffffffffff", "10000000000000000", "1000000000000401130",
    "000000000000000000000401130", "add_one", "0x0x10",
]
OTHERS = [
    "+", "-", ",", ".", "zz", "+0x401130", "+401130", "-401130", "-0x401130", "+ 0x401130", "+0x",
    "++0x401130", "+-1", "(401130)", "@words", "main", "MAIN", " main", "main 2", "main 401130",
    "main+", "main+2", "main+0x2", "main+0X2", "main+010", "main+08", "main+12zz", "main+3+4",
    "main++3", "main+-1", "main+- 1", "main + 2", "\tmain\v+\f3", "main-2", "main+0x",
    "main+18446744073709551615", "main+18446744073709551616", "main+-18446744073709551616",
    "add_one+1", "none+2", ".text+2", "crt1.o+3", "__gmon_start__+4", "__libc_start_main+5",
    "plain(int)+1", "plain+1", "_ZN3net6Parser3runEil+1", "net::Parser::run(int,", "\u00e9+3",
    "net::Parser::operator+(int)",
]
DIVIDED = ["0" * 95 + "40113", "0" * 98 + "12", "z" * 99, "z" * 97, "1\0002", "main\0+2", "last"]


class AskedAddresses(unittest.TestCase):
    def setUp(self):
        folder = tempfile.TemporaryDirectory()
        self.addCleanup(folder.cleanup)
        self.folder = Path(folder.name)

    def same_as_binutils(self, path):
        asked = "\n".join(NUMBERS + OTHERS + DIVIDED)
        shown = output_of("addr2line", "-a", "-e", path, text=asked).splitlines()
        wanted = [int(line, 16) for line in shown[::2]]
        strings = list(pieces(io.BytesIO(asked.encode())))
        addresses = Addresses(path)
        found = [addresses.parse(text) for text in strings]
        self.assertEqual(list(zip(strings, found)), list(zip(strings, wanted)))
        self.assertEqual(len(found), len(wanted))

    def test_names_of_c(self):
        """The names are in the symbol table, or only in the dynamic one of a stripped object."""
        path = compiled(self.folder, "names", SOURCE, "-no-pie", "-rdynamic")
        self.same_as_binutils(path)
        output_of("strip", path)
        self.same_as_binutils(path)

    def test_names_of_methods(self):
        source = self.folder / "methods.cc"
        source.write_text(METHODS)
        path = self.folder / "methods"
        output_of("g++", "-no-pie", "-o", path, source)
        self.same_as_binutils(path)


if __name__ == "__main__":
    unittest.main()
