"""Adversarial objects, each of about a given size in bytes."""
import struct

from hostile_objects import FILES, elf, line_program, uleb, unit_of


def directories_in_one_text(size):
    count = size // 8
    tables = bytes([1, 1, 0x1F]) + uleb(count) + bytes(4 * count) + bytes([0, 0])
    text = b"d" * (size // 2) + b"\0"
    return elf([(".debug_line", line_program(tables)), (".debug_line_str", text)])


def files_in_one_text(size):
    count = size // 10
    tables = bytes([1, 1, 8, 1]) + b"/\0" + bytes([2, 1, 0x0E, 2, 0x0B])
    tables += uleb(count) + bytes(5 * count)
    return elf([(".debug_line", line_program(tables)), (".debug_str", b"f" * (size // 2) + b"\0")])


def fields_without_bytes(size):
    flags = b"".join(bytes([3, 0x19]) for _ in range(254))
    tables = bytes([255]) + flags + bytes([1, 8]) + uleb(size) + bytes(size) + bytes([0, 0])
    return elf([(".debug_line", line_program(tables))])


def names_of_sections(size):
    further = min(65_000, size // 128)
    return elf([], names=(b"s" * (size - 64 * further), further))


def rows(size):
    start = bytes([0, 9, 2]) + bytes(8)
    instructions = start + bytes([18]) * size + bytes([0, 1, 1])
    return elf([(".debug_line", line_program(FILES, instructions))])


def sequences(size):
    one = bytes([0, 9, 2]) + bytes(8) + bytes([1, 0, 1, 1])
    return elf([(".debug_line", line_program(FILES, one * (size // len(one))))])


def programs(size):
    one = line_program(bytes([0, 0, 0, 0]))
    return elf([(".debug_line", one * (size // len(one)))])


def segments(size):
    return elf([(".debug_line", bytes(line_program(FILES)))], segments=min(65_000, size // 56))


def names_in_one_text(size):
    """Builds subprograms that share one long string as their name."""
    count = size // 10
    entries = bytes([1]) + (bytes([2]) + bytes(4)) * count + bytes([0])
    unit = struct.pack("<HBBI", 5, 1, 8, 0) + entries
    abbreviations = bytes([1, 0x11, 1, 0, 0, 2, 0x2E, 0, 3, 0x0E, 0, 0, 0])
    return elf([
        (".debug_abbrev", abbreviations),
        (".debug_info", struct.pack("<I", len(unit)) + unit),
        (".debug_str", b"n" * (size // 2) + b"\0"),
    ])


def tables_in_turn(size):
    """Builds units of one entry that alternate between two tables of one long declaration."""
    flags = b"".join(uleb(0x2000 + number) + bytes([0x19]) for number in range(size // 64))
    table = bytes([1, 0x11, 0]) + flags + bytes([0, 0, 0])
    unit = struct.Struct("<IHBBIB")
    pair = unit.pack(9, 5, 1, 8, 0, 1) + unit.pack(9, 5, 1, 8, len(table), 1)
    count = (size - 2 * len(table)) // len(pair)
    return elf([(".debug_abbrev", table * 2), (".debug_info", pair * count)])


def attributes_of(form, count):
    """Returns attributes with distinct names, each name encoded in two bytes."""
    return b"".join(uleb(128 + number) + bytes([form]) for number in range(count))


def tables_in_one_list(size):
    """Builds units without entries, whose tables start at different offsets of one attribute list.

    A table starts at each form: forms of the list are its code and its flag for children. The
    object has an eighth of the size, because each of its units costs the 64 attributes that a
    declaration stores itself.
    """
    places = range(5, 3 * 16_000, 3)
    table = bytes([1, 1, 0]) + attributes_of(1, 16_000) + bytes([0, 0, 0])
    unit = struct.Struct("<IHBBI")
    units = (unit.pack(8, 5, 1, 8, places[number % len(places)])
             for number in range(size // 8 // unit.size))
    return elf([(".debug_abbrev", table), (".debug_info", b"".join(units))])


def tables_in_blocks(size):
    """Builds units without entries, whose tables overlap and fill the cache of tables.

    The tables start at the first 15 of 80 declarations of the least size. The section has three
    quarters of the size, because an object may have four million declarations.
    """
    block = b"".join(bytes([code, 0x11, 0, 0, 0]) for code in range(1, 81)) + bytes([0])
    blocks = size // 4 * 3 // len(block)
    unit = struct.Struct("<IHBBI")
    units = (unit.pack(8, 5, 1, 8, len(block) * number + 5 * later)
             for number in range(blocks // 12) for later in range(15))
    return elf([(".debug_abbrev", block * blocks), (".debug_info", b"".join(units))])


def entries_in_one_list(size):
    """Builds units of one entry, whose tables are in one list of one-byte attributes. An entry has
    all attributes after the offset of its table."""
    count = 1_000
    table = bytes([1, 1, 0]) + attributes_of(1, count) + bytes([0, 0, 0])
    units = []
    left = size - len(table)
    while left > 0:
        later = len(units) % 200
        values = bytes([1]) + bytes(8 * later) + bytes([0])
        unit = struct.pack("<HBBI", 5, 1, 8, 5 + 3 * (count - 2 - later)) + values
        units.append(struct.pack("<I", len(unit)) + unit)
        left -= len(units[-1])
    return elf([(".debug_abbrev", table), (".debug_info", b"".join(units))])


def lists_that_meet(size):
    """Builds units that alternate between two attribute lists with a common suffix. One list
    reaches the other through a constant in its declaration, so both memoize the suffix."""
    count = size // 64
    names = b"".join(uleb(0x4000 + number) + bytes([0x19]) for number in range(count))
    heads = bytes([1, 0x11, 0, 0x3A, 0x21, 1, 0x49, 1])  # the second list begins at the constant
    table = heads + names + bytes([0, 0, 0])
    pair = struct.pack("<IHBBIB8x", 17, 5, 1, 8, 0, 1)
    pair += struct.pack("<IHBBIBB", 10, 5, 1, 8, 5, 1, 0)
    units = pair * ((size - len(table)) // len(pair))
    return elf([(".debug_abbrev", table), (".debug_info", units)])


def entries_without_bytes(size):
    """Builds one-byte entries of one declaration with very many attributes without bytes."""
    names = b"".join(uleb(0x4000 + number) + bytes([0x19]) for number in range(size // 32))
    table = bytes([1, 0x11, 1, 0, 0, 2, 0x34, 0]) + names + bytes([0, 0, 0])
    entries = bytes([1]) + bytes([2]) * (size // 2) + bytes([0])
    return elf([(".debug_abbrev", table), (".debug_info", unit_of(entries))])


def references_to_a_long_entry(size):
    """Builds subprograms that all refer to one entry with very many one-byte attributes."""
    attributes = b"".join(uleb(0x2000 + number) + bytes([0x0F]) for number in range(size // 20))
    abbreviations = bytes([1, 0x11, 1, 0, 0, 2, 0x2E, 0]) + attributes
    abbreviations += bytes([0, 0, 3, 0x2E, 0, 0x31, 0x13, 0, 0, 0])
    entries = bytes([1, 2]) + bytes(size // 20) + bytes([3, 13, 0, 0, 0]) * (size // 8) + bytes([0])
    unit = struct.pack("<HBBI", 5, 1, 8, 0) + entries
    info = struct.pack("<I", len(unit)) + unit
    return elf([(".debug_abbrev", abbreviations), (".debug_info", info)])


def references_between_tables(size):
    """Builds subprograms of one unit that refer to subprograms of another unit.

    The tables of both units are in one long list of declarations, after more declarations than the
    cache holds. The object has a fifth of the size, because each of its references costs as much
    as several others.
    """
    attributes = b"".join(uleb(0x2000 + number) + bytes([0x0F]) for number in range(100))
    declared = [uleb(4 + number) + bytes([0x2E, 0]) + attributes + bytes([0, 0])
                for number in range(size // 12_000)]
    table = b"".join(declared) + bytes([1, 0x11, 1, 0, 0])
    table += bytes([2, 0x2E, 0, 0x47, 0x10, 0, 0, 3, 0x2E, 0, 0, 0, 0])
    places = [sum(map(len, declared[:number])) for number in range(6)]
    info = b"".join(struct.pack("<IHBBIB", 9, 5, 1, 8, place, 3) for place in places[:4])
    count = size // 32
    head = struct.Struct("<IHBBI")
    targets = len(info) + 2 * head.size + 5 * count + 3  # the first subprogram of the second unit
    references = (struct.pack("<BI", 2, targets + number) for number in range(count))
    entries = bytes([1]) + b"".join(references) + bytes([0])
    info += head.pack(8 + len(entries), 5, 1, 8, places[4]) + entries
    entries = bytes([1]) + bytes([3]) * count + bytes([0])
    info += head.pack(8 + len(entries), 5, 1, 8, places[5]) + entries
    return elf([(".debug_abbrev", table), (".debug_info", info)])


def one_byte_subprograms(size):
    """Builds subprograms without attributes. The object has a third of the size, because each of
    its bytes is a scope to report."""
    entries = bytes([1]) + bytes([2]) * (size // 3) + bytes([0])
    abbreviations = bytes([1, 0x11, 1, 0, 0, 2, 0x2E, 0, 0, 0, 0])
    return elf([(".debug_abbrev", abbreviations), (".debug_info", unit_of(entries))])


def deep_lists(size):
    """Builds subprograms that are nested to the depth limit."""
    entries = bytes([1]) + (bytes([2]) * 255 + bytes(255)) * (size // 510) + bytes([0])
    abbreviations = bytes([1, 0x11, 1, 0, 0, 2, 0x2E, 1, 0, 0, 0])
    return elf([(".debug_abbrev", abbreviations), (".debug_info", unit_of(entries))])


def small_units(size):
    """Builds units of one entry."""
    abbreviations = bytes([1, 0x11, 0, 0, 0, 0])
    units = unit_of(bytes([1])) * (size // 13)
    return elf([(".debug_abbrev", abbreviations), (".debug_info", units)])


SHAPES = [
    ("lines", directories_in_one_text),
    ("lines", files_in_one_text),
    ("lines", fields_without_bytes),
    ("lines", names_of_sections),
    ("lines", rows),
    ("lines", sequences),
    ("lines", programs),
    ("lines", segments),
    ("scopes", names_in_one_text),
    ("scopes", tables_in_turn),
    ("scopes", tables_in_one_list),
    ("scopes", tables_in_blocks),
    ("scopes", entries_in_one_list),
    ("scopes", lists_that_meet),
    ("scopes", entries_without_bytes),
    ("scopes", references_to_a_long_entry),
    ("scopes", references_between_tables),
    ("scopes", one_byte_subprograms),
    ("scopes", deep_lists),
    ("scopes", small_units),
]
