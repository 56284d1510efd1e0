"""Finds the addresses of dead code in tables of addresses and range lists (DWARF 5, sections
7.27 and 7.28)."""
import re
import struct

from dropped_bytes import ULEB, Unmarkable, expect_sizes, expect_version, extent

# The entries of range lists whose address, if they have one, is not 0: the end of a list, entries
# with indexes or offsets, and DW_RLE_base_address, start_end and start_length.
NOT_0 = rb"(?!\0{8}).{8}"
LIVE = re.compile(
    rb"(?:\0|\x01%b|[\x02-\x04]%b%b|\x05%b|\x06%b.{8}|\x07%b%b)*+"
    % (ULEB, ULEB, ULEB, NOT_0, NOT_0, NOT_0, ULEB), re.DOTALL)
DROPPED = re.compile(rb"\x05\0{8}|\x06\0{8}.{8}|\x07\0{8}%b" % ULEB, re.DOTALL)


def dropped_in_addresses(section):
    """Yields the offset of each address of 0 in .debug_addr."""
    end = 0
    while end < len(section):
        _, at, end = extent(section, end)
        at = expect_sizes(section, expect_version(section, at))
        if (end - at) % 8:
            raise Unmarkable(f"a table of addresses has a partial one at {end}")
        addresses = struct.iter_unpack("<Q", section[at:end])
        yield from (at + 8 * index for index, (address,) in enumerate(addresses) if address == 0)


def in_lists(section, at, end):
    """Yields the offset of each address of dead code in contiguous range lists."""
    while (at := LIVE.match(section, at, end).end()) < end:
        entry = DROPPED.match(section, at, end)
        if not entry:
            raise Unmarkable(f"a range list has an unknown or partial entry at {at}")
        yield at + 1
        at = entry.end()


def dropped_in_ranges(section):
    """Yields the offset of each start of dead code in .debug_rnglists: bases, and starts of
    ranges. An offset pair follows its base."""
    end = 0
    while end < len(section):
        width, at, end = extent(section, end)
        at = expect_sizes(section, expect_version(section, at))
        (count,) = struct.unpack_from("<I", section, at)
        first = at + 4 + count * width
        if first > end:
            raise Unmarkable(f"a header exceeds its range lists at {at}")
        yield from in_lists(section, first, end)
