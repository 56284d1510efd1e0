#!/usr/bin/env python3
"""Checks that plain C, earlier plain C and the program read the same data from objects.

same_data.py [--measure MEASURE] OBJECT.. compares the numbers and sums that `out/load OBJECT sums`
and `out/earlier/load OBJECT sums` print (bench/sums.hpp, bench/build.sh). With MEASURE, the program
of crates/measure, it also compares the rows, scopes and ranges that this program prints, and the
number of its segments. It fails if anything differs.
"""
import argparse
import re
import subprocess
import sys
from pathlib import Path

TOP = Path(__file__).resolve().parent.parent
PROGRAMS = [TOP / "out/load", TOP / "out/earlier/load"]


class Sum:
    """The sum of values, each multiplied by its position from 1 on, as in bench/sums.hpp."""

    def __init__(self):
        self.count = self.total = 0

    def add(self, value):
        self.count += 1
        self.total += self.count * value

    def __str__(self):
        return f"{self.count} sum {self.total % 2**64:016x}"


def printed(*command):
    """Returns the lines that a command prints."""
    return subprocess.run(command, stdout=subprocess.PIPE, check=True).stdout.splitlines()


def sums_of_plain(program, path):
    """Returns the number and the sum of each kind of data that plain C prints."""
    lines = [line.decode() for line in printed(program, path, "sums")]
    found = [re.fullmatch(r"(\d+) (.*), (sum \w+)", line) for line in lines]
    return {line[2]: f"{line[1]} {line[3]}" for line in found}


def row_sums(measure, path):
    """Returns the sum of the rows that `measure rows` prints."""
    rows = Sum()
    for text in printed(measure, "rows", path):
        address, _, rest = text.partition(b" ")
        if rest == b"end":
            rows.add(int(address, 16) + 5)
        else:
            rows.add(int(address, 16) + 3 * int(rest.rpartition(b":")[2]))
    return {"rows": str(rows)}


def call_sum(file, line):
    """Returns the value of a call site in a sum."""
    numbers = [0 if text == b"-" else int(text) for text in (file, line)]
    bits = (file != b"-") + 2 * (line != b"-")
    return numbers[0] + 3 * numbers[1] + 5 * bits


def text_sum(text):
    return 0 if text == b"-" else sum(text)


def scope_sums(measure, path):
    """Returns the sums of the scopes and ranges that `measure scope-table` prints."""
    scopes, names, calls, covers = Sum(), Sum(), Sum(), Sum()
    for text in printed(measure, "scope-table", path):
        offset, kind, name, linkage, ranges, file, line, end, *_ = text.split(b"\t")
        for pair in [] if ranges == b"-" else ranges.split(b","):
            low, high = pair.split(b"-")
            covers.add(int(low, 16) + 3 * int(high, 16))
        is_inlined = kind == b"inlined"
        scopes.add(int(offset, 16) + 3 * int(end) + 5 * is_inlined + 7 * covers.count)
        names.add(text_sum(name) + 3 * text_sum(linkage))
        calls.add(call_sum(file, line))
    return {"scopes": str(scopes), "names of scopes": str(names), "calls of scopes": str(calls),
            "ranges": str(covers)}


def differences(path, measure):
    """Yields the differences between the programs, and prints the numbers of plain C."""
    plain, earlier = (sums_of_plain(program, path) for program in PROGRAMS)
    print(f"{Path(path).name}:", ", ".join(f"{plain[what].split()[0]} {what}" for what in plain))
    if plain != earlier:
        yield f"plain C {plain}, earlier {earlier}"
    if measure:
        ours = {**row_sums(measure, path), **scope_sums(measure, path)}
        for what, found in ours.items():
            if found != plain[what]:
                yield f"{what}: the program {found}, plain C {plain[what]}"
        segments = printed(measure, "module", path)[0].split()[0].decode()
        if segments != plain["segments"].split()[0]:
            yield f"the program has {segments} segments"


def main():
    parser = argparse.ArgumentParser(description=__doc__.splitlines()[0])
    parser.add_argument("--measure")
    parser.add_argument("objects", nargs="+")
    options = parser.parse_args()
    found = [f"{path}: {difference}" for path in options.objects
             for difference in differences(path, options.measure)]
    print(*found, sep="\n", end="\n" if found else "")
    sys.exit(bool(found))


if __name__ == "__main__":
    main()
