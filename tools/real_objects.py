"""Finds objects with debug information that a distribution offers, and prepares them."""
import glob
import random
import subprocess
from pathlib import Path
from typing import NamedTuple

from debug_files import COMPRESSED, FOLDERS, candidates, has_debug, sections

# Installed objects whose debug files are compared, and kernels with debug information.
INSTALLED = (
    "/lib/*/libc.so.6", "/usr/bin/python3.[0-9]*", "/usr/lib/*/libpython3.[0-9]*.so.1.0",
    "/usr/lib/debug/boot/vmlinux-*", "/usr/lib/debug/lib/modules/*/vmlinux",
)
ADVICE = """No object with debug information is installed. Install packages such as
    libc6-dbg, python3.11-dbg or linux-image-VERSION-dbg (Debian),
    libc6-dbg or linux-image-VERSION-dbgsym (Ubuntu),
    glibc-debuginfo or kernel-debuginfo (Fedora),
or name objects: make compare-real REAL_OBJECTS="/path/of/app /path/of/libapp.so.debug\""""
EXECUTABLE = 4  # SHF_EXECINSTR among the flags of a section
SEED = 1


class Skipped(Exception):
    """The object is not compared, with the reason."""


class RealObject(NamedTuple):
    """An object with debug information or its debug file."""

    name: str
    path: Path


def with_debug(path, folders=FOLDERS):
    """Returns the object, or its debug file if the object has no debug information. Returns None if
    there is neither."""
    found = sections(path)
    if has_debug(found):
        return RealObject(Path(path).name, Path(path))
    for candidate in candidates(path, found, folders):
        if has_debug(sections(candidate)):
            return RealObject(Path(path).name, candidate)
    return None


def installed(patterns=INSTALLED, folders=FOLDERS):
    """Returns the installed objects with debug information, each debug file once."""
    found = {}
    for pattern in patterns:
        for path in sorted(glob.glob(pattern)):
            if other := with_debug(path, folders):
                found.setdefault(other.path.resolve(), other)
    return list(found.values())


def prepared(path, copy):
    """Returns the object without compressed sections: its own path, or that of the copy."""
    found = sections(path)
    if not Path(path).is_file():
        raise Skipped("there is no such file")
    if not found:
        raise Skipped("not a 64-bit little-endian ELF object")
    if not has_debug(found):
        raise Skipped("neither the object nor a debug file has debug information")
    if ".gnu_debugaltlink" in found:
        raise Skipped("dwz moved a part of it to a supplementary file (.gnu_debugaltlink), and "
                      "addr2line_live does not read such files")
    if not any(section.flags & COMPRESSED for section in found.values()):
        return path
    command = ["objcopy", "--decompress-debug-sections", path, copy]
    subprocess.run(command, check=True, stderr=subprocess.DEVNULL)
    return copy


def spans_of_rows(lines):
    """Yields the addresses FROM..TO of each row. `measure rows` prints a row as ADDRESS PATH:LINE,
    and the end of a sequence as ADDRESS end."""
    start = None
    for line in lines:
        address, _, place = line.partition(" ")
        end = int(address, 16)
        if start is not None and start < end:
            yield start, end
        start = None if place == "end" else end


def spans_of_scopes(lines):
    """Yields the addresses FROM..TO of each range. `measure scope-table` prints the ranges of a
    scope in its fifth field, as FROM-TO separated by commas."""
    for line in lines:
        ranges = line.split("\t")[4]
        for span in ranges.split(",") if ranges != "-" else []:
            start, _, end = span.partition("-")
            yield int(start, 16), int(end, 16)


def random_addresses(spans, count, seed=SEED):
    """Returns addresses of random spans: the first one of a span, or a random one."""
    chosen, choice = [], random.Random(seed)
    for number, span in enumerate(spans):
        if number < count:
            chosen.append(span)
        elif (place := choice.randrange(number + 1)) < count:
            chosen[place] = span
    return [choice.choice((start, choice.randrange(start, end))) for start, end in chosen]


def in_code(addresses, found):
    """Returns the addresses that are in the executable ones of the sections. Linkers leave dead
    code at address 0, outside of all sections."""
    spans = [range(row.address, row.address + row.size) for row in found.values()
             if row.flags & EXECUTABLE]
    return [address for address in addresses if any(address in span for span in spans)]
