#!/usr/bin/env python3
"""Compares the scopes that `measure scope-table OBJECT` prints with the output of other readers.

compare_scopes.py OBJECT TABLE reads the output of `measure` from TABLE. It fails if anything
differs.
- Kinds, names, linkage names, call files, call lines, and the offset and the statement list of the
  root are compared with readelf. Scopes of type units are omitted. A name that is not in the entry
  is searched along its references, at most 16 of them.
- Ranges are compared with llvm-dwarfdump, which adds the current base. Empty ranges, and dead
  ranges that start at the tombstone 2^64-1, are omitted.
- The number of a scope is the number of scopes before it. Its end is computed from the depths that
  readelf prints.
"""
import re
import subprocess
import sys
from pathlib import Path

KINDS = {"DW_TAG_subprogram": "subprogram", "DW_TAG_inlined_subroutine": "inlined"}
UNIT_TYPES = ("compile", "partial")
HOPS = 16
DROPPED = 2**64 - 1
FIELDS = ["kind", "name", "linkage name", "ranges", "call file", "call line", "end",
          "statement list", "number", "root"]

UNIT_TYPE = re.compile(r"^   Unit Type: +DW_UT_(?P<type>\w+)")
ENTRY = re.compile(
    r"^ <(?P<depth>[0-9a-f]+)><(?P<offset>[0-9a-f]+)>: Abbrev Number: \d+ \((?P<tag>\w+)"
)
ATTRIBUTE = re.compile(r"^    <[0-9a-f]+>   (?P<name>DW_AT_\w+) *: (?P<value>.*)$")
FORM = re.compile(r"^\((?P<form>\w+)\)\s?")
ELSEWHERE = re.compile(r"^\([^)]*\): ")
REFERENCE = re.compile(r"^<(0x[0-9a-f]+)>")

DUMPED_ENTRY = re.compile(r"^(?P<offset>0x[0-9a-f]+): +(?P<tag>DW_TAG_\w+)")
DUMPED_ADDRESS = re.compile(
    r"^ +DW_AT_(?P<name>low_pc|high_pc)\t\((?P<address>0x[0-9a-f]+|dead code)\)"
)
DUMPED_RANGES = re.compile(r"^ +DW_AT_ranges\t")
DUMPED_RANGE = re.compile(r"^ +\[(?P<start>0x[0-9a-f]+), (?P<end>0x[0-9a-f]+)\)")


def lines(*command):
    """Yields the lines that a command prints, without line ends and without its warnings."""
    with subprocess.Popen(command, stdout=subprocess.PIPE, stderr=subprocess.DEVNULL, text=True,
                          errors="surrogateescape") as running:
        for text in running.stdout:
            yield text.rstrip("\n")
    if running.returncode != 0:
        raise SystemExit(f"{command[0]} ended with {running.returncode}")


def value_of(text):
    """Returns the text that readelf prints after the form of a value and the offset of a string."""
    form = FORM.match(text)
    value = text[form.end():]
    return value if form["form"] == "string" else ELSEWHERE.sub("", value)


def attributes_of(path):
    """Returns the attributes of each scope as readelf prints them, by offset. They include the tag,
    the index of the first later scope that is not a descendant, and the attributes of the root of
    the unit."""
    scopes, current, root, around, is_read = {}, None, {}, [], True
    options = ("--wide", "--debug-dump=info", "--debug-dump=no-follow-links")
    for text in lines("readelf", *options, path):
        if found := UNIT_TYPE.match(text):
            is_read = found["type"] in UNIT_TYPES
        elif found := ENTRY.match(text):
            current, depth = None, int(found["depth"], 16)
            while around and around[-1][0] >= depth:
                around.pop()[1]["end"] = len(scopes)
            if depth == 0:
                current = root = {"offset": int(found["offset"], 16)}
            elif is_read and found["tag"] in KINDS:
                current = {"tag": found["tag"], "root": root, "number": len(scopes)}
                scopes[int(found["offset"], 16)] = current
                around.append((depth, current))
        elif current is not None and (found := ATTRIBUTE.match(text)):
            current.setdefault(found["name"], value_of(found["value"]))
    for _, scope in around:
        scope["end"] = len(scopes)
    return scopes


def named(scopes, offset, name):
    """Returns the first name of a kind along the references of a scope, `-` if there is none, or
    `?` if the references lead to no scope or are too many."""
    for _ in range(HOPS + 1):
        attributes = scopes.get(offset)
        if attributes is None:
            return "?"
        if name in attributes:
            return attributes[name]
        reference = attributes.get("DW_AT_abstract_origin", attributes.get("DW_AT_specification"))
        target = reference and REFERENCE.match(reference)
        if not target:
            return "-"
        offset = int(target[1], 16)
    return "?"


def ranges_of(path):
    """Returns the ranges of each scope as llvm-dwarfdump prints them, by offset."""
    scopes, current, low, in_ranges = {}, None, None, False
    for text in lines("llvm-dwarfdump", "--debug-info", path):
        if found := DUMPED_ENTRY.match(text):
            current, low, in_ranges = None, None, False
            if found["tag"] in KINDS:
                current = scopes[int(found["offset"], 16)] = []
        elif current is None:
            continue
        elif in_ranges and (found := DUMPED_RANGE.match(text)):
            current.append((int(found["start"], 16), int(found["end"], 16)))
        elif found := DUMPED_ADDRESS.match(text):
            in_ranges = False
            if found["name"] == "high_pc" and low is not None:
                current.append((low, int(found["address"], 16)))
            elif found["address"] != "dead code":
                low = int(found["address"], 16)
        else:
            in_ranges = bool(DUMPED_RANGES.match(text))
    return scopes


def range_text(ranges):
    live = [(start, end) for start, end in ranges if start not in (end, DROPPED)]
    return ",".join(f"{start:x}-{end:x}" for start, end in live) or "-"


def number(text):
    """Converts a number that readelf may print in hexadecimal to decimal."""
    return text if text == "-" else str(int(text, 0))


def shown(path):
    """Yields the offset and the fields of each scope as the other readers print them."""
    scopes, ranges = attributes_of(path), ranges_of(path)
    for offset, attributes in scopes.items():
        yield offset, [
            KINDS[attributes["tag"]],
            named(scopes, offset, "DW_AT_name"),
            named(scopes, offset, "DW_AT_linkage_name"),
            range_text(ranges.get(offset, [])),
            number(attributes.get("DW_AT_call_file", "-")),
            number(attributes.get("DW_AT_call_line", "-")),
            str(attributes["end"]),
            number(attributes["root"].get("DW_AT_stmt_list", "-")),
            str(attributes["number"]),
            f"{attributes['root']['offset']:x}",
        ]


def ours(table):
    """Yields the offset and the fields of each scope of a table."""
    for text in Path(table).read_bytes().decode(errors="surrogateescape").split("\n")[:-1]:
        offset, *fields = text.split("\t")
        yield int(offset, 16), fields


def main():
    path, table = sys.argv[1:]
    left, right = dict(ours(table)), dict(shown(path))
    both = [offset for offset in left if offset in right]
    print(f"{Path(path).name}: {len(left)} scopes, the others {len(right)},"
          f" {len(both)} at the same offsets")
    for number, field in enumerate(FIELDS):
        same = sum(left[offset][number] == right[offset][number] for offset in both)
        print(f"  {field}: {same} agree")
    either = sorted(left.keys() | right.keys())
    different = [offset for offset in either if left.get(offset) != right.get(offset)]
    for offset in different[:5]:
        print(ascii(f"  scope {offset:x}: {left.get(offset)} beside {right.get(offset)}"))
    print(f"  {len(different)} differ")
    sys.exit(bool(different))


if __name__ == "__main__":
    main()
