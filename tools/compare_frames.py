#!/usr/bin/env python3
"""Compares the frames that `measure frames OBJECT` and llvm-symbolizer print.

compare_frames.py MEASURE OBJECT.. looks up the same addresses with both. It compares the name, file
and line of each frame, innermost first. Only the base names of files are compared. If this program
reports no scope (`??`), names are not compared, because llvm-symbolizer then prints a name of the
symbol table. It fails if anything differs.
"""
import json
import subprocess
import sys
from pathlib import Path


def printed(command, asked=""):
    """Returns the lines that a command prints for this input."""
    how = {"capture_output": True, "text": True, "errors": "replace", "check": True}
    return subprocess.run(command, input=asked, **how).stdout.splitlines()


def ours(measure, path):
    """Returns the frames of each address."""
    answers = {}
    for text in printed([measure, "frames", path]):
        if not text.startswith("\t"):
            frames = answers[int(text, 16)] = []
            continue
        _, name, place = text.split("\t")
        file, _, line = place.rpartition(":")
        frames.append((name, file.rsplit("/", 1)[-1], int(line)))
    return answers


def theirs(path, addresses):
    command = ["llvm-symbolizer", "--inlines", "--functions=short", "--no-demangle",
               "--output-style=JSON", f"--obj={path}"]
    asked = "".join(f"0x{address:x}\n" for address in addresses)
    answers = {}
    for text in printed(command, asked):
        answer = json.loads(text)
        frames = answers[int(answer["Address"], 16)] = []
        for frame in answer.get("Symbol", []):
            file = frame["FileName"].rsplit("/", 1)[-1]
            frames.append((frame["FunctionName"] or "??", file or "??", frame["Line"]))
    return answers


def agree(left, right):
    if not left:
        return all(file == "??" and line == 0 for _, file, line in right)
    return len(left) == len(right) and all(
        a[1:] == b[1:] and a[0] in ("??", b[0]) for a, b in zip(left, right)
    )


def main():
    measure, *paths = sys.argv[1:]
    differ = False
    for path in paths:
        left = ours(measure, path)
        right = theirs(path, left)
        different = [address for address in left if not agree(left[address], right[address])]
        differ = differ or bool(different)
        found = sum(bool(frames) for frames in left.values())
        inlined = sum(len(frames) > 1 for frames in left.values())
        print(f"{Path(path).name}: {len(left)} addresses, {found} known, {inlined} inlined,"
              f" {len(different)} differ")
        for address in different[:5]:
            print(ascii(f"  {address:x}: {left[address]}, the other reader {right[address]}"))
    sys.exit(differ)


if __name__ == "__main__":
    main()
