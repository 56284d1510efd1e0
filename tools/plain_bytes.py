"""Reference implementation: numbers, strings, values of forms, and ELF sections.

It was written from ELF-64 and DWARF 5 chapter 7, independently of the program's reader.
tools/fuzz.py and tools/long_run.py use it.
"""
import struct

TOP = (1 << 64) - 1  # also the tombstone of dead code
WANTED = (".debug_info", ".debug_abbrev", ".debug_line", ".debug_line_str", ".debug_str",
          ".debug_str_offsets", ".debug_addr", ".debug_rnglists")

FIXED = {0x01: 8, 0x0B: 1, 0x05: 2, 0x06: 4, 0x07: 8, 0x0C: 1, 0x19: 0, 0x11: 1, 0x12: 2, 0x13: 4,
         0x14: 8, 0x20: 8, 0x25: 1, 0x26: 2, 0x27: 3, 0x28: 4, 0x29: 1, 0x2A: 2, 0x2B: 3, 0x2C: 4}
ULEB = {0x0F, 0x15, 0x1A, 0x1B, 0x22, 0x23}
OFFSET = {0x0E, 0x1F, 0x17, 0x10}
BLOCK = {0x0A: 1, 0x03: 2, 0x04: 4}
OTHER = {0x1E, 0x0D, 0x08, 0x09, 0x18, 0x16, 0x21}
FORMS = set(FIXED) | ULEB | OFFSET | set(BLOCK) | OTHER


class Bad(Exception):
    """The cause of a fault, before the offset of its item is known."""

    def __init__(self, cause):
        super().__init__(cause)
        self.cause = cause


class Fault(Exception):
    """The first fault of an object."""

    def __init__(self, section, cause, at):
        super().__init__(f"{section} {cause} at {at}")


class Cursor:
    """An offset in bytes, and an end that reads do not exceed."""

    def __init__(self, data, at, end):
        self.data, self.at, self.end = data, at, end

    def take(self, count):
        if self.at + count > self.end:
            raise Bad("short")
        self.at += count
        return self.data[self.at - count:self.at]

    def fixed(self, count):
        return int.from_bytes(self.take(count), "little")

    def leb(self):
        """Returns the value of the groups of a LEB128 number, their count and the last byte."""
        value = 0
        for count in range(10):
            byte = self.fixed(1)
            value |= (byte & 127) << (7 * count)
            if byte < 128:
                return value, count + 1, byte
        raise Bad("leb")

    def uleb(self):
        value, _, _ = self.leb()
        if value > TOP:
            raise Bad("leb")
        return value

    def sleb(self):
        value, count, last = self.leb()
        if last & 64:
            value -= 1 << (7 * count)
        if not -(1 << 63) <= value < 1 << 63:
            raise Bad("leb")
        return value

    def text(self):
        place = self.data.find(b"\0", self.at, self.end)
        if place < 0 or self.at >= self.end:
            raise Bad("string")
        start, self.at = self.at, place + 1
        return self.data[start:place]

    def initial_length(self):
        """Returns the width of offsets in the DWARF format, and the length."""
        length = self.fixed(4)
        if length < 0xFFFFFFF0:
            return 4, length
        if length < 0xFFFFFFFF:
            raise Bad("length")
        return 8, self.fixed(8)

    def offset(self, width):
        return self.fixed(width)


def text_at(section, offset):
    if offset >= len(section):
        raise Bad("string")
    return Cursor(section, offset, len(section)).text()


def value(cursor, form, width, constant=None):
    """Reads the value of a form that is not indirect: a number or bytes."""
    if form in FIXED:
        return 1 if form == 0x19 else cursor.fixed(FIXED[form])
    if form in ULEB:
        return cursor.uleb()
    if form in OFFSET:
        return cursor.offset(width)
    if form in BLOCK:
        return cursor.take(cursor.fixed(BLOCK[form]))
    if form in (0x09, 0x18):
        return cursor.take(cursor.uleb())
    if form == 0x1E:
        return cursor.take(16)
    if form == 0x0D:
        return cursor.sleb()
    if form == 0x08:
        return cursor.text()
    if form == 0x21:
        return constant
    raise Bad("form")


def elf_fault(cause, at=0):
    return Fault("elf", cause, at)


def tables(data):
    """Returns the offset and the count of the program headers and of the section headers, and the
    index of the section of names."""
    if len(data) > 1 << 30:
        raise elf_fault("too-many")
    if len(data) < 64 or data[:4] != b"\x7fELF":
        raise elf_fault("not-elf")
    if tuple(data[4:7]) != (2, 1, 1):
        raise elf_fault("class")
    if struct.unpack_from("<H", data, 16)[0] not in (2, 3):
        raise elf_fault("type")
    phoff, shoff = struct.unpack_from("<QQ", data, 32)
    phentsize, phnum, shentsize, shnum, shstrndx = struct.unpack_from("<HHHHH", data, 54)
    if phnum == 0xFFFF or phnum and (phentsize != 56 or phoff + 56 * phnum > len(data)):
        raise elf_fault("table")
    if shnum or shoff:
        is_odd = shnum == 0 or shnum >= 0xFF00 or shentsize != 64
        if is_odd or shstrndx >= shnum or shoff + 64 * shnum > len(data):
            raise elf_fault("table")
    return (phoff, phnum), (shoff, shnum), shstrndx


def extent(data, phoff, phnum):
    """Returns the lowest address of the load segments, and their end (exclusive)."""
    lows, highs = [], []
    for at in range(phoff, phoff + 56 * phnum, 56):
        kind, low, size = struct.unpack_from("<I12xQ16xQ", data, at)
        if kind != 1 or size == 0:
            continue
        if low + size > TOP:
            raise elf_fault("range", at)
        lows.append(low)
        highs.append(low + size)
    if not lows:
        raise elf_fault("no-load")
    return min(lows), max(highs)


def section_header(data, at):
    name, kind, flags = struct.unpack_from("<IIQ", data, at)
    offset, size = struct.unpack_from("<QQ", data, at + 24)
    return name, kind, flags, offset, size


def sections(data, shoff, shnum, shstrndx):
    """Returns the sections of WANTED by name. An absent section is empty."""
    found = {}
    if shnum == 0:
        return {name: b"" for name in WANTED}
    at = shoff + 64 * shstrndx
    _, kind, flags, offset, size = section_header(data, at)
    if kind == 8 or flags & 0x800 or offset + size > len(data):
        raise elf_fault("table", at)
    names = data[offset:offset + size]
    for at in range(shoff, shoff + 64 * shnum, 64):
        name, kind, flags, offset, size = section_header(data, at)
        try:
            name = text_at(names, name).decode("latin-1")
        except Bad as bad:
            raise elf_fault("table", at) from bad
        if name not in WANTED:
            continue
        if name in found:
            raise elf_fault("section-twice", at)
        if kind == 8:
            raise elf_fault("table", at)
        if flags & 0x800:
            raise elf_fault("compressed", at)
        if offset + size > len(data):
            raise elf_fault("table", at)
        found[name] = data[offset:offset + size]
    return {name: found.get(name, b"") for name in WANTED}


def read_elf(data):
    """Returns the sections and the extent of an object."""
    (phoff, phnum), (shoff, shnum), shstrndx = tables(data)
    low, high = extent(data, phoff, phnum)
    return sections(data, shoff, shnum, shstrndx), low, high
