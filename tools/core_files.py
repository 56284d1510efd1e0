"""Reads the mapped files of a process from its core file (NT_FILE), as lines of /proc/PID/maps."""
import os
import struct
from typing import NamedTuple

from loaded_objects import UNKNOWN_RIGHTS

NOTE, LOAD, EXECUTABLE = 4, 1, 1  # PT_NOTE and PT_LOAD among the types, PF_X among the flags
FILES = 0x46494C45  # NT_FILE
CORE = 4  # ET_CORE


class Segment(NamedTuple):
    kind: int
    flags: int
    offset: int
    address: int
    physical: int
    in_file: int
    size: int


def notes(data):
    """Yields the type and the contents of each note."""
    at = 0
    while at + 12 <= len(data):
        name, size, kind = struct.unpack_from("<III", data, at)
        start = at + 12 + (name + 3) // 4 * 4
        yield kind, data[start : start + size]
        at = start + (size + 3) // 4 * 4


def files(note):
    """Yields the start, end, offset and path of each mapping in NT_FILE."""
    count, page = struct.unpack_from("<QQ", note)
    paths = note[16 + 24 * count :].split(b"\0")
    for number in range(count):
        start, end, offset = struct.unpack_from("<QQQ", note, 16 + 24 * number)
        yield start, end, offset * page, os.fsdecode(paths[number])


def rights(start, end, segments):
    """Returns the rights of a mapping, as in /proc/PID/maps. gdb omits the segments of memory that
    is unchanged from its file, so a mapping without a segment may be executable."""
    flags = [row.flags for row in segments
             if row.kind == LOAD and row.address < end and start < row.address + row.size]
    if not flags:
        return UNKNOWN_RIGHTS
    return "r-xp" if any(flag & EXECUTABLE for flag in flags) else "r--p"


def mappings_of(path):
    """Returns the mapped files as lines of /proc/PID/maps. Executable mappings have an `x`."""
    with open(path, "rb") as file:
        header = file.read(64)
        if header[:6] != b"\x7fELF\x02\x01" or header[16] != CORE:
            raise ValueError("not a 64-bit core file")
        file.seek(int.from_bytes(header[32:40], "little"))
        size, count = struct.unpack_from("<HH", header, 54)
        table = file.read(size * count)
        rows = [Segment(*struct.unpack_from("<IIQQQQQ", table, at))
                for at in range(0, len(table), size)]
        mapped = []
        for row in rows:
            if row.kind == NOTE:
                file.seek(row.offset)
                mapped += [note for kind, note in notes(file.read(row.in_file)) if kind == FILES]
    if not mapped:
        raise ValueError("it names no mapped files")
    lines = []
    for start, end, offset, name in files(mapped[0]):
        lines.append(f"{start:x}-{end:x} {rights(start, end, rows)} {offset:08x} 00:00 0 {name}")
    return lines
