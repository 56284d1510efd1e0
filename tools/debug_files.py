"""Finds separate debug files of ELF objects, and decompresses sections.

A stripped object names its debug file with a build ID and a debug link. The files are searched
where gdb searches:
- FOLDER/.build-id/NN/REST.debug, where FOLDER is /usr/lib/debug;
- BUILDID/debuginfo in DEBUGINFOD_CACHE_PATH or in debuginfod's cache;
- the debug link in the folder of the object, in .debug in that folder, and in FOLDER under the path
  of that folder.

objcopy decompresses objects with compressed sections into a cache. Copies with the addresses of
dead code marked (tools/dropped_code.py) are in the same cache.
"""
import os
import struct
import subprocess
import sys
import tempfile
from pathlib import Path
from typing import NamedTuple

from dropped_code import places_of, with_tombstones

FOLDERS = ("/usr/lib/debug",)
COMPRESSED, NOBITS = 0x800, 8  # SHF_COMPRESSED among the flags, SHT_NOBITS among the types


class Section(NamedTuple):
    kind: int
    flags: int
    address: int
    offset: int
    size: int


def sections(path):
    """Returns the sections of a 64-bit little-endian ELF object by name; empty for other files."""
    try:
        with open(path, "rb") as file:
            header = file.read(64)
            if len(header) < 64 or header[:6] != b"\x7fELF\x02\x01":
                return {}
            file.seek(int.from_bytes(header[40:48], "little"))
            size, count, names = struct.unpack_from("<HHH", header, 58)
            rows = [struct.unpack("<IIQQQQIIQQ", file.read(64)) for _ in range(count)]
            if size != 64 or names >= count:
                return {}
            file.seek(rows[names][4])
            text = file.read(rows[names][5])
    except (OSError, struct.error):
        return {}
    return {text[row[0] :].split(b"\0", 1)[0].decode("latin-1"): Section(*row[1:6]) for row in rows}


def contents(path, section):
    """Returns the bytes of a section; fewer if the file ends before the section does."""
    length = os.stat(path).st_size
    with open(path, "rb") as file:
        file.seek(min(section.offset, length))
        return file.read(min(section.size, length))


def build_id(path, found):
    """Returns the build ID in hexadecimal, or None."""
    note = found.get(".note.gnu.build-id")
    return contents(path, note)[16:].hex() if note else None


def debug_link(path, found):
    """Returns the name of the debug file, or None."""
    link = found.get(".gnu_debuglink")
    name = contents(path, link).split(b"\0", 1)[0] if link else b""
    return os.fsdecode(name) or None


def caches():
    """Returns the folders in which clients of debuginfod store their downloads."""
    home = os.environ.get("XDG_CACHE_HOME") or os.path.expanduser("~/.cache")
    return [os.environ.get("DEBUGINFOD_CACHE_PATH") or os.path.join(home, "debuginfod_client")]


def by_build_id(identity, folders):
    """Yields the possible paths of the debug file of a build ID, in search order."""
    for folder in folders:
        yield Path(folder, ".build-id", identity[:2], identity[2:] + ".debug")
    for folder in caches():
        yield Path(folder, identity, "debuginfo")


def candidates(path, found, folders):
    """Yields the possible paths of the debug file of an object, in search order."""
    identity, name = build_id(path, found), debug_link(path, found)
    if identity:
        yield from by_build_id(identity, folders)
    if name:
        beside = Path(path).resolve().parent
        yield from (beside / name, beside / ".debug" / name)
        yield from (Path(str(folder) + str(beside), name) for folder in folders)


def has_debug(found):
    info = found.get(".debug_info") or found.get(".debug_line")
    return bool(info) and info.kind != NOBITS


def cached(path, found, suffix, write):
    """Returns the path of a copy of an object in the cache. If there is none, write(path, copy)
    writes it."""
    home = os.environ.get("XDG_CACHE_HOME") or os.path.expanduser("~/.cache")
    status = os.stat(path)
    name = build_id(path, found) or f"{status.st_dev:x}-{status.st_ino:x}"
    name = f"{name}-{status.st_size:x}-{status.st_mtime_ns:x}{suffix}"
    copy = Path(home, "addr2line_live", name)
    if not copy.exists():
        copy.parent.mkdir(parents=True, exist_ok=True)
        with tempfile.TemporaryDirectory(dir=copy.parent) as folder:
            part = os.path.join(folder, "copy")
            write(path, part)
            os.replace(part, copy)
    return copy


def decompress(path, copy):
    command = ["objcopy", "--decompress-debug-sections", str(path), copy]
    subprocess.run(command, check=True, stderr=subprocess.PIPE)


def decompressed(path, found):
    """Returns the object without compressed sections: its own path, or a copy in the cache."""
    if not any(row.flags & COMPRESSED for row in found.values()):
        return str(path)
    try:
        return str(cached(path, found, "", decompress))
    except (OSError, subprocess.CalledProcessError) as fault:
        print(f"{path}: not decompressed: {fault}", file=sys.stderr)
        return str(path)


def mark_if_any(path, copy):
    """Writes a marked copy of an object, or an empty file if it has no dead code."""
    data = Path(path).read_bytes()
    places = places_of(data)
    Path(copy).write_bytes(with_tombstones(data, places) if places else b"")


def marked(path):
    """Returns the object with the addresses of dead code marked: its own path, or a copy in the
    cache. Raises Unmarkable or OSError if it cannot be marked."""
    found = sections(path)
    if not has_debug(found):
        return str(path)
    copy = cached(path, found, "-marked", mark_if_any)
    return str(copy) if copy.stat().st_size else str(path)


def with_debug(path, folders=FOLDERS):
    """Returns the file to load for an object: the object if it has debug information, otherwise
    its debug file if there is one. The file has no compressed sections."""
    found = sections(path)
    if not has_debug(found):
        for candidate in candidates(path, found, folders):
            other = sections(candidate)
            if has_debug(other):
                return decompressed(candidate, other)
    return decompressed(path, found)
