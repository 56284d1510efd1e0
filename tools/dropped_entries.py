"""Finds the starts of dead code in debugging information entries (DWARF 5, section 7.5).

An abbreviation becomes a list of steps. Each step skips a number of bytes and then a value whose
size is in its bytes. Entries of a fixed size are skipped at once if their code has one byte.
"""
import functools
import struct
from typing import NamedTuple

from dropped_bytes import ZEROS, Unmarkable, expect_version, extent, uleb

COMPILE, TYPE, PARTIAL = 1, 2, 3  # DW_UT_compile, DW_UT_type and DW_UT_partial
LOW_PC, RANGES = 0x11, 0x55
ADDRESS, IMPLICIT = 0x01, 0x21  # DW_FORM_addr and DW_FORM_implicit_const
FIXED = {
    0x01: 8, 0x05: 2, 0x06: 4, 0x07: 8, 0x0B: 1, 0x0C: 1, 0x11: 1, 0x12: 2, 0x13: 4, 0x14: 8,
    0x19: 0, 0x1E: 16, 0x20: 8, 0x21: 0, 0x25: 1, 0x26: 2, 0x27: 3, 0x28: 4, 0x29: 1, 0x2A: 2,
    0x2B: 3, 0x2C: 4,
}
OFFSETS = {0x0E, 0x10, 0x17, 0x1F}
LEB, STRING, BLOCK, START = "leb", "string", "block", "start"
KINDS = {
    **dict.fromkeys((0x0D, 0x0F, 0x15, 0x1A, 0x1B, 0x22, 0x23), LEB),
    0x08: STRING, 0x09: BLOCK, 0x18: BLOCK, 0x0A: 1, 0x03: 2, 0x04: 4,
}  # a number is the size of the length of a block


def attributes(section, at):
    """Returns the attributes and forms of an abbreviation, and the offset after them."""
    found = []
    while True:
        name, at = uleb(section, at)
        form, at = uleb(section, at)
        if form == IMPLICIT:
            _, at = uleb(section, at)
        if name == form == 0:
            return found, at
        found.append((name, form))


@functools.cache
def steps_of(declared, width):
    """Returns the steps of an entry with these attributes after its code. The low_pc of an entry
    with ranges is a base and not the start of code."""
    has_ranges = any(name == RANGES for name, _ in declared)
    steps, size = [], 0
    for name, form in declared:
        is_start = (name, form) == (LOW_PC, ADDRESS) and not has_ranges
        if is_start or form in KINDS:
            steps.append((size, START if is_start else KINDS[form]))
            size = 0
        elif form in FIXED or form in OFFSETS:
            size += FIXED.get(form, width)
        else:
            raise Unmarkable(f"the form {form:#x} of an attribute is unknown")
    return [*steps, (size, None)]


class Table(NamedTuple):
    """An abbreviation table: the steps of each code, and for each value of a byte the size of an
    entry that starts with it. The size is 0 if it is unknown: the code is longer, the size is not
    fixed, or the table has no such code."""

    steps: dict
    sizes: list


def declarations(section, at, width):
    """Yields the code and the steps of each abbreviation of a table."""
    while True:
        code, at = uleb(section, at)
        if code == 0:
            return
        _, at = uleb(section, at)  # the tag
        declared, at = attributes(section, at + 1)
        yield code, steps_of(tuple(declared), width)


def read_table(section, at, width):
    steps, sizes = dict(declarations(section, at, width)), [0] * 256
    sizes[0] = 1  # an entry that ends a list of children
    for code, own in steps.items():
        if code < 128 and len(own) == 1:
            sizes[code] = 1 + own[0][0]
    return Table(steps, sizes)


def after_entry(info, at, steps, found):
    """Returns the offset after an entry. Appends the offset of its start to a list if it is 0."""
    for size, kind in steps:
        at += size
        if kind is LEB:
            while info[at] > 127:
                at += 1
            at += 1
        elif kind is STRING:
            at = info.index(0, at) + 1
        elif kind is BLOCK:
            size, at = uleb(info, at)
            at += size
        elif kind is START:
            if info.startswith(ZEROS, at):
                found.append(at)
            at += 8
        elif kind:
            at += kind + int.from_bytes(info[at : at + kind], "little")
    return at


def in_entries(info, at, end, table):
    """Returns the offset of each start of 0 in the entries of a unit."""
    found, sizes = [], table.sizes
    while at < end:
        size = sizes[info[at]]
        if size:
            at += size
        else:
            code, at = uleb(info, at)
            at = after_entry(info, at, table.steps[code], found)
    if at > end:
        raise Unmarkable(f"an entry exceeds its unit at {end}")
    return found


def dropped_in_entries(info, abbreviations):
    """Yields the offset of each start of dead code in .debug_info. A unit without eight zero
    bytes is not decoded."""
    read, end = functools.cache(functools.partial(read_table, abbreviations)), 0
    while end < len(info):
        width, start, end = extent(info, end)
        at = expect_version(info, start)
        kind, size = info[at], info[at + 1]
        if kind not in (COMPILE, TYPE, PARTIAL):
            raise Unmarkable(f"a split or unknown unit at {start}")
        if size != 8:
            raise Unmarkable(f"addresses do not have 8 bytes at {at}")
        (table,) = struct.unpack_from("<Q" if width == 8 else "<I", info, at + 2)
        first = at + 2 + width
        if kind == TYPE or info.find(ZEROS, first, end) < 0:
            continue
        try:
            yield from in_entries(info, first, end, read(table, width))
        except KeyError as code:
            raise Unmarkable(f"an abbreviation code {code} is unknown in the unit at {start}") \
                from code
