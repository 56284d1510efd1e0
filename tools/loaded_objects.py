"""Finds the ELF objects that a process has loaded, and the base of each: the address of the
object's address 0.

An object is mapped segment by segment. A segment has an `offset` in the file and an `address` in
the object. It is mapped in whole pages, so a mapping may start before the segment's first byte. But
a byte at an offset of the file is always at `base + address + (that offset - offset)`, which gives
the base.
"""
import functools
import os
import re
import struct
from typing import NamedTuple

PAGE = os.sysconf("SC_PAGE_SIZE")
UNKNOWN_RIGHTS = "r-x?"  # of a mapping that may be executable
LOADED, EXECUTABLE = 1, 1  # PT_LOAD among the types of segments, PF_X among their flags
LINE = re.compile(
    r"(?P<start>[0-9a-f]+)-(?P<end>[0-9a-f]+) (?P<rights>\S{4}) (?P<offset>[0-9a-f]+)"
    r" \S+ \d+ +(?P<path>/.*)"
)


class Segment(NamedTuple):
    """An executable segment of an object."""

    offset: int  # of its first byte, in the file
    address: int  # of that byte, in the object
    size: int  # in the file

    def has(self, offset):
        """Returns whether an offset of the file is in the segment, or in the page of its start."""
        return self.offset - self.offset % PAGE <= offset < self.offset + self.size


DELETED = " (deleted)"  # follows the path of a deleted file


class Mapping(NamedTuple):
    """A range of an address space that maps a file."""

    start: int
    end: int
    offset: int  # of the file, at start
    path: str
    rights: str = "r-xp"


def mapping_of(line):
    """Returns the executable mapping of a file in a line of /proc/PID/maps, or None."""
    found = LINE.fullmatch(line.rstrip("\n"))
    if not found or found["rights"][2] != "x":
        return None
    start, end, offset = (int(found[key], 16) for key in ("start", "end", "offset"))
    return Mapping(start, end, offset, found["path"], found["rights"])


def file_of(mapping, root="", map_files=None):
    """Returns the path of the file of a mapping. The kernel has the contents of a deleted file at
    map_files/FROM-TO. Returns None for a deleted file without `map_files`, because another file may
    have its path."""
    if not mapping.path.endswith(DELETED):
        return root + mapping.path
    return f"{map_files}/{mapping.start:x}-{mapping.end:x}" if map_files else None


@functools.cache
def segments(path):
    """Returns the executable segments of a 64-bit little-endian ELF object; empty for other files
    and for a file that cannot be read."""
    try:
        with open(path, "rb") as file:
            header = file.read(64)
            if len(header) < 64 or header[:6] != b"\x7fELF\x02\x01":
                return []
            file.seek(int.from_bytes(header[32:40], "little"))
            size, count = struct.unpack_from("<HH", header, 54)
            table = file.read(size * count)
    except OSError:
        return []
    found = []
    for at in range(0, len(table) - 55, max(size, 56)):
        kind, flags, offset, address, _, in_file = struct.unpack_from("<IIQQQQ", table, at)
        if kind == LOADED and flags & EXECUTABLE:
            found.append(Segment(offset, address, in_file))
    return found


def code_at(path, address, size):
    """Returns the bytes at an address of an object; empty outside its executable segments."""
    for segment in segments(path):
        if 0 <= address - segment.address < segment.size:
            with open(path, "rb") as file:
                file.seek(segment.offset + address - segment.address)
                return file.read(size)
    return b""


def base_of(mapping, executable):
    """Returns the base of the object with these executable segments, or None."""
    for segment in executable:
        base = mapping.start - mapping.offset + segment.offset - segment.address
        if segment.has(mapping.offset) and base >= 0 and base % PAGE == 0:
            return base
    return None


def name_of(path, taken):
    """Returns a unique name of at most 64 letters, digits, `_`, `-` and `.`."""
    plain = os.path.basename(path.removesuffix(DELETED))
    plain = re.sub(r"[^A-Za-z0-9_.-]", "_", plain)[:56] or "object"
    name, number = plain, 1
    while name in taken:
        number += 1
        name = f"{plain}.{number}"
    taken.add(name)
    return name


def objects_of(lines, root="", map_files=None):
    """Returns the name, base and path of each object in lines of /proc/PID/maps, and the paths of
    other files that are mapped executable. `root` is prepended to each path: a process may have its
    own root folder. `map_files` is /proc/PID/map_files of a running process."""
    loaded, others, taken = {}, [], set()
    for mapping in filter(None, map(mapping_of, lines)):
        path = file_of(mapping, root, map_files)
        base = base_of(mapping, segments(path)) if path else None
        if base is None:
            if mapping.rights != UNKNOWN_RIGHTS:
                others.append(root + mapping.path)
        elif (base, mapping.path) not in loaded:
            loaded[base, mapping.path] = name_of(mapping.path, taken), base, path
    return list(loaded.values()), others
