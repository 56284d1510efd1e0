#!/usr/bin/env python3
"""Compares the replies of addr2line_live with the output of addr2line and llvm-symbolizer.

compare_replies.py PROGRAM COUNT OBJECT.. looks up COUNT addresses with each, spread evenly over the
executable sections, with -a -f -i -p -s and linkage names. It fails if a reply is neither that of
addr2line nor that of llvm-symbolizer, apart from these differences:
- discriminators, and the suffixes that compilers append to the symbols of copies of a function, are
  removed from the other programs' output;
- -s of llvm-symbolizer does not shorten an absolute file name, so its last part is used;
- this program reads no symbols: if it reports no function, any name of the symbol table agrees, and
  if it reports nothing, any reply without a line agrees;
- of several symbols with one value, such as the symbols of a destructor, others may report another
  one;
- for units of link-time optimization, addr2line may print their name `<artificial>` instead of the
  file. Then the file of llvm-symbolizer counts, or none if it reports nothing;
- the last row of a function covers the padding after it, which may be outside the ranges of all
  units. This program reports that row, and the others report no line.
"""
import re
import subprocess
import sys
from pathlib import Path

from compare_addr2line import addresses

FRAME = re.compile(
    r"^(?:0x(?P<address>[0-9a-f]+): | \(inlined by\) )"
    r"(?P<name>.*?)(?: at | (?=\?\?:))(?P<file>.*):(?P<line>\d+|\?)$"
)
DISCRIMINATOR = re.compile(r" \(discriminator \d+\)$")
# Not the version of a symbol, such as @@GLIBC_2.2.5.
COPY = re.compile(r"^([^@]*?)(\.(lto_priv|isra|constprop|part|cold|llvm)|\.\d+)+$")
OPTIONS = ["-a", "-f", "-i", "-p", "-s"]
UNKNOWN = [("??", "??", 0)]
ARTIFICIAL = "<artificial>"
ANY = None  # a file that agrees with each file


def replies(command, asked):
    """Returns the frames of each address, as name, file and line."""
    lines = "".join(f"0x{a:x}\n" for a in asked)
    how = {"capture_output": True, "text": True, "errors": "replace"}
    done = subprocess.run(command, input=lines, **how)
    if done.returncode:
        raise SystemExit(f"{command[0]} ended with {done.returncode}")
    found = {}
    for text in done.stdout.splitlines():
        if not text:
            continue
        frame = FRAME.match(DISCRIMINATOR.sub("", text))
        if frame is None:
            raise SystemExit(f"{command[0]} says {text!r}")
        if frame["address"]:
            frames = found[int(frame["address"], 16)] = []
        line = 0 if frame["line"] == "?" else int(frame["line"])
        frames.append((COPY.sub(r"\1", frame["name"]), frame["file"], line))
    return found


def last_parts(found):
    """Returns the same frames with the last part of each file's path."""
    cut = [(a, [(n, f.rsplit("/", 1)[-1], line) for n, f, line in found[a]]) for a in found]
    return dict(cut)


def values(path):
    """Returns the value of each symbol."""
    how = {"capture_output": True, "text": True, "check": True}
    output = subprocess.run(["nm", "--defined-only", path], **how).stdout
    rows = (line.split(maxsplit=2) for line in output.splitlines())
    return {row[2]: row[0] for row in rows if len(row) == 3}  # a name can be empty


def with_files(frames, others):
    """Returns the frames with the files of others in place of `<artificial>`."""
    if others == UNKNOWN:
        files = [ANY] * len(frames)
    elif len(others) == len(frames):
        files = [file for _, file, _ in others]
    else:
        return frames
    return [(name, other if file == ARTIFICIAL else file, line)
            for (name, file, line), other in zip(frames, files)]


def agree(ours, theirs, symbols):
    """Returns whether two replies agree, apart from what this program does not report."""
    if ours == UNKNOWN:
        return all(line == 0 for _, _, line in theirs)
    if len(ours) != len(theirs):
        return False
    return all(
        a[2] == b[2] and b[1] in (a[1], ANY)
        and (a[0] in ("??", b[0]) or symbols.get(a[0], 0) == symbols.get(b[0]))
        for a, b in zip(ours, theirs)
    )


def is_padding(ours, *others):
    """Returns whether only this program reports a line, and no function with it."""
    return len(ours) == 1 and ours[0][0] == "??" and all(
        line == 0 for frames in others for _, _, line in frames)


def compare(program, path, asked):
    """Compares the replies for some addresses. Returns the number of unexplained ones."""
    ours = replies([program, "-e", path, "--linkage", *OPTIONS], asked)
    printed = replies(["addr2line", "-e", path, *OPTIONS], asked)
    style = ["--output-style=GNU", "--no-demangle"]
    command = ["llvm-symbolizer", *style, f"--obj={path}", *OPTIONS]
    llvm = last_parts(replies(command, asked))
    binutils = {a: with_files(printed[a], llvm[a]) for a in asked}
    symbols = values(path)
    with_binutils = {a for a in asked if agree(ours[a], binutils[a], symbols)}
    with_llvm = {a for a in asked if agree(ours[a], llvm[a], symbols)}
    neither = [a for a in asked if a not in with_binutils and a not in with_llvm]
    alone = [a for a in neither if not is_padding(ours[a], printed[a], llvm[a])]
    print(
        f"{Path(path).name}: {len(asked)} replies,"
        f" {len(with_binutils & with_llvm)} as both others,"
        f" {len(with_llvm - with_binutils)} as llvm-symbolizer alone,"
        f" {len(with_binutils - with_llvm)} as addr2line alone,"
        f" {len(neither) - len(alone)} of padding, {len(alone)} as neither"
    )
    for a in alone[:3]:
        print(f"  {a:x}: {ours[a]}\n    addr2line {printed[a]}\n    llvm-symbolizer {llvm[a]}")
    return len(alone)


def main():
    program, count, *paths = sys.argv[1:]
    asked = {path: list(dict.fromkeys(addresses(path, int(count)))) for path in paths}
    sys.exit(any([compare(program, path, asked[path]) for path in paths]))


if __name__ == "__main__":
    main()
