#!/usr/bin/env python3
"""Measures the program without and with huge pages for its memory.

huge_pages.py PROGRAM OBJECT WHAT starts PROGRAM with OBJECT loaded, ten times each way in turns.
It prints the user and system time of the quickest run, its peak memory and its page faults, each in
a line that names the object as WHAT. The kernel must allow huge pages on request: `madvise` or
`always` in /sys/kernel/mm/transparent_hugepage/enabled.
"""
import sys

from usage import least_in_turns, usage

SETTINGS = {"GLIBC_TUNABLES": "glibc.malloc.hugetlb=1"}
TURNS = 10


def main():
    program, path, what = sys.argv[1:]
    command = [program, "-e", path]
    runs = [lambda: usage(command), lambda: usage(command, SETTINGS)]
    plain, huge = least_in_turns(runs, TURNS)
    figures = [
        ("processor time of reading and loading", plain.milliseconds, huge.milliseconds, " ms"),
        ("memory for reading and loading", plain.mebibytes, huge.mebibytes, " MiB"),
        ("page faults for reading and loading", plain.faults, huge.faults, ""),
    ]
    for name, without, with_them, unit in figures:
        print(f"{name} {what}: {without:.0f}{unit}, huge pages {with_them:.0f}{unit}")


if __name__ == "__main__":
    main()
