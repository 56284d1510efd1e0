"""Finds the addresses of code that a linker discarded in an ELF object with DWARF 5.

A linker that discards a section of code leaves its start address in the debug information at 0. No
code of an object is at address 0, unless a load segment has memory there. If that memory is the
start of the file, it is the ELF header. Any other memory at 0 makes an address of 0 ambiguous.
"""
import struct
from typing import NamedTuple

from dropped_bytes import Unmarkable
from dropped_entries import dropped_in_entries
from dropped_lines import dropped_in_lines
from dropped_tables import dropped_in_addresses, dropped_in_ranges

TOMBSTONE = b"\xff" * 8
LOAD, NOBITS, COMPRESSED = 1, 8, 0x800  # PT_LOAD, SHT_NOBITS and SHF_COMPRESSED
ABBREVIATIONS = ".debug_abbrev"
FINDERS = {
    ".debug_line": dropped_in_lines,
    ".debug_addr": dropped_in_addresses,
    ".debug_rnglists": dropped_in_ranges,
    ".debug_info": dropped_in_entries,
}


class Section(NamedTuple):
    name: str
    kind: int
    flags: int
    offset: int
    size: int

    def overlaps(self, other):
        return self.offset < other.offset + other.size and other.offset < self.offset + self.size


def header(data):
    """Returns the offset, the entry size and the count of the program headers and of the section
    headers, and the index of the section of names."""
    if len(data) < 64 or data[:7] != b"\x7fELF\x02\x01\x01":
        raise Unmarkable("not a 64-bit little-endian ELF object")
    if struct.unpack_from("<H", data, 16)[0] not in (2, 3):
        raise Unmarkable("neither an executable nor a shared object")
    segments, sections = struct.unpack_from("<QQ", data, 32)
    size, count, other_size, other_count, names = struct.unpack_from("<HHHHH", data, 54)
    if count and size != 56 or other_count and (other_size != 64 or names >= other_count):
        raise Unmarkable("its ELF tables have unknown sizes")
    return (segments, count), (sections, other_count), names


def check_segments(data, at, count):
    """Checks that no load segment has memory at address 0 except the ELF header."""
    for start in range(at, at + 56 * count, 56):
        kind, _, offset, address, _, _, size = struct.unpack_from("<IIQQQQQ", data, start)
        if kind == LOAD and size and address == 0 and offset:
            raise Unmarkable("a load segment has memory at address 0")


def sections_of(data, at, count, names):
    """Returns the sections with bytes in the file."""
    rows = [struct.unpack_from("<IIQQQQ", data, at + 64 * index) for index in range(count)]
    found = []
    for name, kind, flags, _, offset, size in rows:
        start = rows[names][4] + name
        text = data[start : data.index(0, start)].decode("latin-1")
        if text.startswith(".zdebug_") or text in FINDERS and flags & COMPRESSED:
            raise Unmarkable(f"{text} is compressed")
        if kind != NOBITS and size:
            found.append(Section(text, kind, flags, offset, size))
    return found


def debug_sections(data):
    """Returns the sections to read by name, after checks of the object."""
    (segments, count), table, names = header(data)
    check_segments(data, segments, count)
    found = sections_of(data, *table, names)
    tables = [Section("a table of headers", 0, 0, offset, size) for offset, size in
              ((0, 64), (segments, 56 * count), (table[0], 64 * table[1]))]
    read = {}
    for section in found:
        if section.name not in (*FINDERS, ABBREVIATIONS):
            continue
        if section.name in read:
            raise Unmarkable(f"there are two sections {section.name}")
        if section.offset + section.size > len(data):
            raise Unmarkable(f"{section.name} exceeds the file")
        for other in (*found, *tables):
            if other is not section and section.overlaps(other):
                raise Unmarkable(f"{section.name} overlaps {other.name}")
        read[section.name] = section
    return read


def places_of(data):
    """Returns the offset in the file of each address of dead code."""
    try:
        found = debug_sections(data)
    except (OverflowError, ValueError, struct.error) as fault:
        raise Unmarkable("its ELF tables exceed the file") from fault
    bytes_of = {name: data[row.offset : row.offset + row.size] for name, row in found.items()}
    places = []
    for name in FINDERS.keys() & found.keys():
        more = [bytes_of.get(ABBREVIATIONS, b"")] if name == ".debug_info" else []
        try:
            places += [found[name].offset + at for at in FINDERS[name](bytes_of[name], *more)]
        except Unmarkable as fault:
            raise Unmarkable(f"{name}: {fault}") from fault
        except (IndexError, OverflowError, ValueError, struct.error) as fault:
            raise Unmarkable(f"{name}: it ends inside a value") from fault
    return places


def with_tombstones(data, places):
    """Returns a copy of the bytes with the tombstone in these places."""
    marked = bytearray(data)
    for at in places:
        marked[at : at + len(TOMBSTONE)] = TOMBSTONE
    return marked
