"""Tests the finders of dead code on tables that are encoded by hand."""
import struct
import sys
import unittest
from pathlib import Path

sys.path.insert(0, str(Path(__file__).resolve().parents[1]))
from dropped_bytes import Unmarkable
from dropped_code import places_of
from dropped_entries import dropped_in_entries
from dropped_lines import dropped_in_lines
from dropped_tables import dropped_in_addresses, dropped_in_ranges

ZEROS = bytes(8)
SET_0, END = b"\0\x09\x02" + ZEROS, b"\0\x01\x01"
SET_1 = b"\0\x09\x02" + struct.pack("<Q", 1)
ROW = b"\x20"  # a special opcode of each program below
OPERANDS = bytes([0, 1, 1, 1, 1, 0, 0, 0, 1, 0, 0, 1])


def unit(body, is_wide=False):
    """Returns a unit or table of DWARF version 5 in the 32-bit or the 64-bit format."""
    body = struct.pack("<H", 5) + body
    return (struct.pack("<IQ", 0xFFFFFFFF, len(body)) if is_wide
            else struct.pack("<I", len(body))) + body


def program(instructions, operands=OPERANDS, is_wide=False):
    """Returns a line program without files, and the offset of its first instruction."""
    parameters = bytes([1, 1, 1, 0xFB, 14, len(operands) + 1]) + operands + bytes(4)
    length = struct.pack("<Q" if is_wide else "<I", len(parameters))
    head = bytes([8, 0]) + length + parameters
    made = unit(head + instructions, is_wide)
    return made, len(made) - len(instructions)


class Elf(unittest.TestCase):
    def test_tables_outside_the_file(self):
        for offset in (64, 1 << 40, (1 << 64) - 1):
            header = b"\x7fELF\x02\x01\x01" + bytes(9) + struct.pack("<HHI", 3, 62, 1)
            header += struct.pack("<QQQ", 0, 0, offset) + struct.pack("<I6H", 0, 64, 0, 0, 64, 1, 0)
            with self.assertRaisesRegex(Unmarkable, "its ELF tables exceed the file"):
                places_of(header)


class Lines(unittest.TestCase):
    def check(self, instructions, wanted, *options):
        """Compares the offsets found, relative to the first instruction."""
        section, first = program(instructions, *options)
        found = [at - first for at in dropped_in_lines(section)]
        self.assertEqual(found, wanted)

    def test_sequences(self):
        """Each sequence is dead or not by itself, in both formats."""
        dropped = SET_0 + ROW + b"\x02\x80\x01" + ROW + END
        live = SET_1 + ROW + b"\x09\0\0" + ROW + END
        size = len(dropped) + len(live)
        for is_wide in (False, True):
            self.check(dropped + live + dropped, [3, 3 + size], OPERANDS, is_wide)

    def test_only_the_address_before_the_first_row(self):
        self.check(SET_1 + ROW + SET_0 + ROW + END, [])
        self.check(b"\x05\x03" + SET_1 + SET_0 + b"\x0a\x01" + SET_0 + END, [len(SET_1) + 5])

    def test_inside_an_extended_instruction(self):
        """The bytes of an address of 0 inside an instruction are no instruction."""
        body = b"\x80" + SET_0 + bytes(200)
        extended = b"\0" + bytes([len(body) & 127 | 128, len(body) >> 7]) + body
        self.check(extended + SET_1 + ROW + END, [])
        self.check(extended + SET_0 + extended + ROW + END, [len(extended) + 3])

    def test_discriminators(self):
        for size in (1, 2, 3, 4, 9):
            body = b"\x04" + b"\x80" * (size - 1) + b"\0"
            instruction = b"\0" + bytes([len(body)]) + body
            self.check(instruction + SET_0 + instruction + ROW + END, [len(instruction) + 3])

    def test_other_numbers_of_opcodes(self):
        """Without an opcode 9 to 12 it is special. An opcode 13 may have operands."""
        self.check(b"\x09" + SET_0 + END, [], OPERANDS[:8])
        self.check(SET_0 + b"\x09" + END, [3], OPERANDS[:8])
        self.check(b"\x0d\x80\0\x01\0" + SET_0 + ROW + END, [8], OPERANDS + b"\x03")
        self.check(b"\x0d" + SET_0 + ROW + END, [], OPERANDS + b"\x0b")

    def test_faults(self):
        faults = [b"\0\0", b"\x02\x80", b"\0\x02\x01\0", b"\0\x0a\x02" + bytes(9), b"\0\x09\x80"]
        for fault in faults:
            with self.assertRaises(Unmarkable):
                list(dropped_in_lines(program(SET_0 + ROW + fault)[0]))


class Tables(unittest.TestCase):
    def test_addresses(self):
        first = unit(bytes([8, 0]) + struct.pack("<3Q", 0, 0x1000, 0))
        second = unit(bytes([8, 0]) + struct.pack("<2Q", 1 << 40, 0), True)
        self.assertEqual(list(dropped_in_addresses(first + second)), [8, 24, 32 + 16 + 8])
        with self.assertRaises(Unmarkable):
            list(dropped_in_addresses(unit(bytes([8, 0]) + bytes(7))))
        with self.assertRaises(Unmarkable):
            list(dropped_in_addresses(unit(bytes([4, 0]) + bytes(8))))

    def test_ranges(self):
        """Entries of each kind. Index, offset and length 0 are not addresses."""
        live = struct.pack("<Q", 0x1000)
        entries = [
            (b"\x05" + ZEROS, True), (b"\x04\0\x80\x01", False), (b"\x05" + live, False),
            (b"\x04\0\0", False), (b"\x06" + ZEROS + live, True), (b"\x06" + live + ZEROS, False),
            (b"\x07" + ZEROS + b"\x80\0", True), (b"\x07" + live + b"\0", False),
            (b"\x01\0", False), (b"\x02\0\0", False), (b"\x03\0\x80\0", False), (b"\0", False),
            (b"\x07" + ZEROS + b"\0", True), (b"\0", False),
        ]
        for is_wide in (False, True):
            offsets = struct.pack("<2Q" if is_wide else "<2I", 0, 0)
            body = bytes([8, 0]) + struct.pack("<I", 2) + offsets
            section = unit(body + b"".join(entry for entry, _ in entries), is_wide)
            at, wanted = len(section) - sum(len(entry) for entry, _ in entries), []
            for entry, is_dropped in entries:
                wanted += [at + 1] * is_dropped
                at += len(entry)
            self.assertEqual(list(dropped_in_ranges(section)), wanted)
        for entry in (b"\x08", b"\x05" + bytes(7), b"\x07" + ZEROS, b"\x06" + bytes(15)):
            with self.assertRaises(Unmarkable):
                list(dropped_in_ranges(unit(bytes([8, 0]) + bytes(4) + entry)))


# A unit with low_pc and ranges (a base of 0), and functions: address and fixed-size name, string,
# block and indirect sizes before the address.
TREE = (b"\x01\x11\x01\x11\x01\x55\x17\0\0" + b"\x02\x2e\0\x11\x01\x12\x07\0\0"
        + b"\x03\x2e\0\x03\x08\x02\x18\x3b\x0f\x11\x01\x02\x0a\0\0" + b"\x84\x01\x2e\0\x11\x1b\0\0"
        + b"\x05\x34\0\x02\x0a\x39\x21\x7f\x1c\x1e\0\0\0")


class Entries(unittest.TestCase):
    def test_entries_of_each_size(self):
        for is_wide in (False, True):
            parts = [
                (b"\x01" + ZEROS + bytes(8 if is_wide else 4), None),
                (b"\x02" + ZEROS + struct.pack("<Q", 16), 1),
                (b"\x02" + struct.pack("<QQ", 16, 0), None),
                (b"\x03ab\0\x09" + ZEROS + b"\0\x80\x01" + ZEROS + b"\x08" + ZEROS, 16),
                (b"\x84\x01\0", None),
                (b"\x05\x08" + ZEROS + bytes(16), None),
                (b"\0", None),
            ]
            head = bytes([1, 8]) + bytes(8 if is_wide else 4)
            info = unit(head + b"".join(part for part, _ in parts), is_wide)
            at, wanted = len(info) - sum(len(part) for part, _ in parts), []
            for part, start in parts:
                wanted += [at + start] if start else []
                at += len(part)
            self.assertEqual(list(dropped_in_entries(info, TREE)), wanted)

    def test_faults(self):
        for entries in (b"\x06" + ZEROS, b"\x02" + ZEROS + bytes(7), b"\x05\x20" + ZEROS):
            with self.assertRaises(Unmarkable):
                list(dropped_in_entries(unit(bytes([1, 8]) + bytes(4) + entries), TREE))
        with self.assertRaises(Unmarkable):
            list(dropped_in_entries(unit(bytes([4, 8]) + bytes(20)), TREE))


if __name__ == "__main__":
    unittest.main()
