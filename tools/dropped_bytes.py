"""Helpers to find the addresses of dead code: numbers, lengths and headers of DWARF 5."""
import struct

ZEROS = bytes(8)  # an address that a linker left at 0
ULEB = rb"[\x80-\xff]*+[\0-\x7f]"  # the pattern of a LEB128 number


class Unmarkable(Exception):
    """The reason why an object is not marked."""


def uleb(section, at):
    """Returns the value of an unsigned LEB128 number, and the offset after it."""
    value = shift = 0
    while section[at] > 127:
        value |= (section[at] & 127) << shift
        shift, at = shift + 7, at + 1
    return value | section[at] << shift, at + 1


def extent(section, at):
    """Returns the size of offsets of a unit or table, the offset after its length, and its end."""
    (length,) = struct.unpack_from("<I", section, at)
    width, at = 4, at + 4
    if length == 0xFFFFFFFF:
        (length,) = struct.unpack_from("<Q", section, at)
        width, at = 8, at + 8
    if at + length > len(section):
        raise Unmarkable(f"a length exceeds its section at {at}")
    return width, at, at + length


def expect_version(section, at):
    """Checks the version of a unit or table. Returns the offset after it."""
    (version,) = struct.unpack_from("<H", section, at)
    if version != 5:
        raise Unmarkable(f"DWARF version {version} at {at}")
    return at + 2


def expect_sizes(section, at):
    """Checks the sizes of addresses and segment selectors. Returns the offset after them."""
    if tuple(section[at : at + 2]) != (8, 0):
        raise Unmarkable(f"addresses do not have 8 bytes at {at}")
    return at + 2
