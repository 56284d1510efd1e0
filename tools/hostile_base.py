"""An ordinary object. Its load is the base to which tools/hostile.py compares times."""
import struct

from hostile_objects import FILES, abbreviation_table, elf, line_program

FUNCTIONS = 16  # of a unit
VARIABLES = 6  # of a function
ROWS = 4  # of a function
ROW = 16  # bytes of code of a row
SIZE = ROWS * ROW  # bytes of code of a function
FUNCTION_NAMES = [b"function_%04d\0" % number for number in range(1000)]
NAME_LENGTH = len(FUNCTION_NAMES[0])
UNIT, ABSTRACT, FUNCTION, VARIABLE, INLINED = range(1, 6)
TABLE = abbreviation_table(
    (0x11, 1, (0x03, 0x0E), (0x10, 0x17), (0x11, 0x01), (0x12, 0x06)),
    (0x2E, 0, (0x03, 0x0E), (0x20, 0x0B)),
    (0x2E, 1, (0x03, 0x0E), (0x11, 0x01), (0x12, 0x06)),
    (0x34, 0, (0x03, 0x0E), (0x3A, 0x0B), (0x3B, 0x05)),
    (0x1D, 0, (0x31, 0x13), (0x11, 0x01), (0x12, 0x06), (0x58, 0x0B), (0x59, 0x0B)),
)
# The header of a unit, its root and its abstract function.
HEAD = struct.Struct("<HBBI" "BIIQI" "BIB")
CALLED = 33  # the offset of the abstract function
# A function, its variables, an inlined call, and the null entry after these.
ENTRIES = struct.Struct("<BIQI" + "BIBH" * VARIABLES + "BIQIBB" "B")


def function(number, start):
    """Returns the entries of a function with code at an address. A quarter of it is inlined."""
    name = NAME_LENGTH * (number % len(FUNCTION_NAMES))
    variables = (VARIABLE, name, 1, 7) * VARIABLES
    inlined = (INLINED, CALLED, start + ROW, ROW, 1, 7)
    return ENTRIES.pack(FUNCTION, name, start, SIZE, *variables, *inlined, 0)


def unit(number, program):
    """Returns a unit whose line program is at an offset, and the rows of that program."""
    first, size = number * FUNCTIONS, FUNCTIONS * SIZE
    start = 0x1000 + number * size
    root = (UNIT, 0, program, start, size)
    entries = HEAD.pack(5, 1, 8, 0, *root, ABSTRACT, 0, 1)
    entries += b"".join(function(first + k, start + k * SIZE) for k in range(FUNCTIONS)) + bytes(1)
    # A row at the start, then a row in the next line for each 16 bytes of code.
    rows = bytes([0, 9, 2]) + struct.pack("<Q", start) + bytes([19])
    rows += bytes([243]) * (FUNCTIONS * ROWS - 1) + bytes([2, ROW, 0, 1, 1])
    return struct.pack("<I", len(entries)) + entries, line_program(FILES, rows)


def ordinary(size):
    """Builds an object with as many entries, scopes and rows per megabyte as compilers' objects."""
    info, lines, left = [], bytearray(), size
    while left > 0:
        entries, program = unit(len(info), len(lines))
        info.append(entries)
        lines += program
        left -= len(entries) + len(program)
    return elf([(".debug_abbrev", TABLE), (".debug_info", b"".join(info)),
                (".debug_line", bytes(lines)), (".debug_str", b"".join(FUNCTION_NAMES))])
