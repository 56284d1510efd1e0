#!/usr/bin/env python3
"""Compares the rows that `measure rows OBJECT` prints with those that objdump decodes.

objdump prints a row as FILE LINE ADDRESS. It mostly prints only the base name of the file, so base
names are compared. The end of a sequence has the line `-`. All rows are compared in order, except
in dead sequences, which start at the tombstone 2^64-1. It fails if anything differs.
"""
import re
import subprocess
import sys
from itertools import zip_longest
from pathlib import Path

DROPPED = 2**64 - 1
ROW = re.compile(r"^(?P<file>\S.*?)\s+(?P<line>\d+|-)\s+(?P<address>0x[0-9a-f]+|0)(?:\s|$)")


def printed(*command):
    """Yields the lines that a command prints. Its warnings are dropped."""
    with subprocess.Popen(command, stdout=subprocess.PIPE, stderr=subprocess.DEVNULL, text=True,
                          errors="replace") as running:
        for text in running.stdout:
            yield text.rstrip("\n")
    if running.returncode != 0:
        raise SystemExit(f"{command[0]} ended with {running.returncode}")


def decoded(path):
    """Yields the rows that objdump prints: (address, base name, line), or (address, 'end', 0)."""
    for text in printed("objdump", "--wide", "--dwarf=decodedline", path):
        found = ROW.match(text)
        if not found:
            continue
        address = int(found["address"], 16)
        if found["line"] == "-":
            yield address, "end", 0
        else:
            yield address, found["file"].rsplit("/", 1)[-1], int(found["line"])


def live_rows(rows):
    """Yields the rows of the sequences that are not dead code."""
    sequence = []
    for row in rows:
        sequence.append(row)
        if row[1] == "end":
            if sequence[0][0] != DROPPED:
                yield from sequence
            sequence = []
    yield from sequence


def ours(measure, path):
    for text in printed(measure, "rows", path):
        address, _, rest = text.partition(" ")
        if rest == "end":
            yield int(address, 16), "end", 0
        else:
            file, _, line = rest.rpartition(":")
            yield int(address, 16), file.rsplit("/", 1)[-1], int(line)


def differences(left, right):
    """Compares two sequences of rows. Returns the number of rows of each, the number that agree,
    and the first differences."""
    counts, same, shown = [0, 0], 0, []
    for number, (a, b) in enumerate(zip_longest(left, right)):
        counts[0] += a is not None
        counts[1] += b is not None
        same += a == b
        if a != b and len(shown) < 5:
            shown.append(f"  row {number}: {a} beside {b}")
    return *counts, same, shown


def main():
    measure, *paths = sys.argv[1:]
    differ = False
    for path in paths:
        own, other, same, shown = differences(ours(measure, path), live_rows(decoded(path)))
        print(f"{Path(path).name}: {own} rows, objdump {other}, {same} agree in place")
        print(*shown, sep="\n", end="\n" if shown else "")
        differ = differ or bool(shown)
    sys.exit(differ)


if __name__ == "__main__":
    main()
