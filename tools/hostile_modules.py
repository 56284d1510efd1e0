"""Adversarial objects for whole loads: long range lists that scopes share, and deep chains of
scopes that contain the same addresses.

The first functions build an object of about a given size in bytes. The others build one with about
a given number of range items, which scopes share: such an object is small.
"""
import struct

from hostile_limits import BY_CHAINS, BY_ITEMS, BY_SIZE, BY_SORTING, BY_SPARSE_CHAINS
from hostile_objects import FILES, abbreviation_table, elf, line_program, uleb, unit_of
from hostile_shapes import rows, sequences

DEPTH = 254  # of nested scopes
HIGH = 1 << 40  # endpoints at addresses of more than 32 bits take more memory
LIST = 12  # the offset of the only range list, after the header of its section
LINES, LOW, SIZE, RANGES = (0x10, 0x17), (0x11, 0x01), (0x12, 0x07), (0x55, 0x17)
(UNIT, UNIT_OF_LIST, SUBPROGRAM, INLINED, LEAF, LISTED, NESTED, NESTED_INLINED, EMPTY,
 LISTED_INLINED) = range(1, 11)
TABLE = abbreviation_table(
    (0x11, 1, LINES),  # UNIT
    (0x11, 1, LOW),  # UNIT_OF_LIST
    (0x2E, 1, LOW, SIZE),  # SUBPROGRAM
    (0x1D, 1, LOW, SIZE),  # INLINED
    (0x2E, 0, LOW, SIZE),  # LEAF
    (0x2E, 0, RANGES),  # LISTED
    (0x2E, 1, RANGES),  # NESTED
    (0x1D, 1, RANGES),  # NESTED_INLINED
    (0x2E, 0),  # EMPTY
    (0x1D, 0, RANGES),  # LISTED_INLINED
)


def chain(empty=0):
    """Returns nested scopes that contain nearly all addresses. `empty` subprograms without
    addresses precede each scope below the first."""
    extent = struct.pack("<QQ", 0, 1 << 62)
    inner = bytes([EMPTY]) * empty + bytes([INLINED]) + extent
    return bytes([SUBPROGRAM]) + extent + inner * (DEPTH - 1) + bytes(DEPTH)


def object_of(units, *sections):
    info = b"".join(map(unit_of, units))
    return elf([(".debug_abbrev", TABLE), (".debug_info", info), *sections])


def root(children):
    """Returns the entries of a unit that refers to the line program at offset 0."""
    return bytes([UNIT]) + bytes(4) + children + bytes(1)


def sequence(count):
    """Returns the instructions of a sequence. Each row takes a byte and covers an address."""
    return bytes([0, 9, 2]) + struct.pack("<Q", 0x1000) + bytes([32]) * count + bytes([0, 1, 1])


def rows_under_a_chain(size):
    return object_of([root(chain())], (".debug_line", line_program(FILES, sequence(size))))


def overlapping_sequences(size):
    """Builds sequences of a hundred rows that all start at one address. The object has a quarter of
    the size, because its rows must be sorted."""
    one = sequence(100)
    return elf([(".debug_line", line_program(FILES, one * (size // 4 // len(one))))])


def overlapping_subprograms(size, start=0x1000, step=1):
    """Builds subprograms that each start one byte after the previous one. All end at about the
    same address."""
    count = size // 17
    body = b"".join(struct.pack("<BQQ", LEAF, start + step * k, (1 << 36) - 2 * step * k)
                    for k in range(count))
    return object_of([root(body)], (".debug_line", line_program(FILES)))


def descending_subprograms(size):
    """Builds subprograms that each start one byte before the previous one, at high addresses."""
    return overlapping_subprograms(size, HIGH, -1)


def range_list(count):
    """Returns the section of a list of disjoint ranges, relative to the base of the unit."""
    pairs = b"".join(bytes([4]) + uleb(16 * k) + uleb(16 * k + 8) for k in range(count)) + bytes(1)
    return ".debug_rnglists", struct.pack("<IHBBI", 8 + len(pairs), 5, 8, 0, 0) + pairs


def entry_with_list(code):
    """Returns the start of an entry that names the list."""
    return bytes([code]) + struct.pack("<I", LIST)


def at_base(base, children):
    """Returns the entries of a unit whose ranges are relative to a base."""
    return bytes([UNIT_OF_LIST]) + struct.pack("<Q", base) + children + bytes(1)


def subprograms_with_one_list(items):
    body = entry_with_list(LISTED) * 2048
    return object_of([at_base(0, body)], range_list(items // 2048))


def nested_scopes_with_one_list(items):
    body = entry_with_list(NESTED) + entry_with_list(NESTED_INLINED) * (DEPTH - 1) + bytes(DEPTH)
    return object_of([at_base(0, body)], range_list(items // DEPTH))


def units_of_list(base, code=LISTED):
    """Returns two thousand units at different bases. Each has a scope that names the list."""
    return [at_base(base + (number << 20), entry_with_list(code)) for number in range(1, 2001)]


def units_with_one_list(items):
    return object_of(units_of_list(0), range_list(items // 2000))


def units_after_a_chain(items):
    return object_of([at_base(0, chain()), *units_of_list(HIGH)], range_list(items // 2000))


def units_before_a_chain(items):
    return object_of([*units_of_list(0), at_base(0, chain())], range_list(items // 2000))


def inlined_before_a_chain(items, empty=0):
    """Builds units with inlined subroutines outside of subprograms, before a chain. They never
    change the innermost scope, but precede it in file order."""
    units = [*units_of_list(HIGH, LISTED_INLINED), at_base(0, chain(empty))]
    return object_of(units, range_list(items // 2000))


def inlined_before_a_sparse_chain(items):
    """Builds a chain whose scopes are more than 4,096 scopes apart. In a bitmap of the scopes with
    three levels, each search from one to the next then uses all levels."""
    return inlined_before_a_chain(items, 4096)


MODULE_SHAPES = [
    ("module", rows, BY_SIZE),
    ("module", sequences, BY_SIZE),
    ("module", overlapping_sequences, BY_SORTING),
    ("module", rows_under_a_chain, BY_SIZE),
    ("module", overlapping_subprograms, BY_SIZE),
    ("module", descending_subprograms, BY_SIZE),
    ("module", subprograms_with_one_list, BY_ITEMS),
    ("module", nested_scopes_with_one_list, BY_ITEMS),
    ("module", units_with_one_list, BY_ITEMS),
    ("module", units_after_a_chain, BY_CHAINS),
    ("module", units_before_a_chain, BY_CHAINS),
    ("module", inlined_before_a_sparse_chain, BY_SPARSE_CHAINS),
]
