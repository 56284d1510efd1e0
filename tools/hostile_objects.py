"""Builds ELF objects, line programs and units for adversarial and random tests."""
import struct

# The directories and files of a line program: the directory `/` with the files `a` and `b`.
FILES = bytes([1, 1, 8, 1]) + b"/\0" + bytes([1, 1, 8, 2]) + b"a\0b\0"
NAMES = ".shstrtab"  # the section of names


def uleb(number):
    """Returns the ULEB128 encoding of a number."""
    encoded = bytearray()
    while number >= 128:
        encoded.append(number % 128 + 128)
        number //= 128
    encoded.append(number)
    return bytes(encoded)


def elf(sections, segments=1, names=None):
    """Returns an ELF object with these sections, given as (name, bytes).

    `names` is a string at the start of the section of names, and the number of additional section
    headers that use it as their name.
    """
    text = bytearray(b"\0")
    offsets = []
    for name, _ in sections:
        offsets.append(len(text))
        text += name.encode() + b"\0"
    offsets.append(len(text))
    text += NAMES.encode() + b"\0"
    further = 0
    if names is not None:
        further = names[1]
        offsets = [len(names[0]) + offset for offset in offsets]
        text = names[0] + text
    program_headers = struct.pack("<IIQQQQQQ", 1, 0, 0, 0x1000, 0, 0, 0x1000, 0) * segments
    place = 64 + len(program_headers)
    headers, body = [bytes(64)], bytearray()
    for (name, data), offset in zip([*sections, (NAMES, bytes(text))], offsets):
        kind = 3 if name == NAMES else 1  # SHT_STRTAB or SHT_PROGBITS
        numbers = (offset, kind, 0, 0, place + len(body), len(data), 0, 0, 0, 0)
        headers.append(struct.pack("<IIQQQQIIQQ", *numbers))
        body += data
    headers += [bytes(64)] * further
    table = b"".join(headers)
    header = b"\x7fELF\x02\x01\x01" + bytes(9) + struct.pack(
        "<HHIQQQIHHHHHH", 3, 62, 1, 0, 64, place + len(body), 0, 64, 56, segments, 64,
        len(headers), len(sections) + 1)
    return header + program_headers + bytes(body) + table


def line_program(tables, instructions=b""):
    """Returns a line program with these tables in its header."""
    fields = bytes([1, 1, 1, 0xFB, 14, 13, 0, 1, 1, 1, 1, 0, 0, 0, 1, 0, 0, 1]) + tables
    rest = struct.pack("<HBBI", 5, 8, 0, len(fields)) + fields + instructions
    return struct.pack("<I", len(rest)) + rest


def abbreviation_table(*declarations):
    """Returns a table of declarations with the codes 1, 2 and so on. A declaration has a tag,
    whether there are children, and pairs of an attribute and its form."""
    table = bytearray()
    for code, (tag, has_children, *attributes) in enumerate(declarations, 1):
        table += bytes([code, tag, has_children])
        for attribute, form in attributes:
            table += bytes([attribute, form])
        table += bytes(2)
    return bytes(table) + bytes(1)


def unit_of(entries):
    """Returns a unit with these entries and the table at the start of the section."""
    unit = struct.pack("<HBBI", 5, 1, 8, 0) + entries
    return struct.pack("<I", len(unit)) + unit
