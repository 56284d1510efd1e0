#!/usr/bin/env python3
"""Checks that plain C and the program refuse the same objects for the same reasons.

agree.py PROGRAM SEED COUNT [OBJECT..] tries COUNT objects: random objects, and mutants of samples
and of the named objects (tools/fuzz_mutants.py). Then it tries objects at the limits. It fails if
the program's reply to `load` differs from the message of out/load or of out/earlier/load, or if
these two store different data (bench/sums.hpp). bench/build.sh compiles them; FOLDER in place of
out is the value of the variable PLAIN_C. The object is then stored as out/differs:

    bench/agree.py crates/addr2line_live/out/addr2line_live 1 5000
    bench/build.sh out/sanitized -g -O1 -fsanitize=address,undefined -fno-sanitize-recover
    PLAIN_C=out/sanitized bench/agree.py crates/addr2line_live/out/addr2line_live 1 5000
"""
import os
import random
import subprocess
import sys
import tempfile
from collections import Counter
from itertools import chain
from pathlib import Path

TOP = Path(__file__).resolve().parent.parent
sys.path.insert(0, str(TOP / "tools"))
from fuzz_mutants import limits, made

SAMPLES = [TOP / "crates/measure/data/inlined", TOP / "tools/demo.stored"]
FOLDER = TOP / os.environ.get("PLAIN_C", "out")


class Program:
    """The program, which loads one object after the other."""

    def __init__(self, path):
        pipes = {"stdin": subprocess.PIPE, "stdout": subprocess.PIPE}
        self.process = subprocess.Popen([path], bufsize=0, **pipes)
        self.replies = open(self.process.stdout.fileno(), closefd=False)

    def reply(self, line):
        self.process.stdin.write(f"{line}\n".encode())
        return self.replies.readline().strip()

    def verdict(self, path):
        """Returns the refusal of an object, or an empty string."""
        reply = self.reply(f"load object 0 {path}")
        if reply.startswith("loaded"):
            self.reply("unload object")
            return ""
        return reply


def plain_verdict(program, path):
    """Returns the refusal of an object by plain C, or an empty string, and its sums."""
    done = subprocess.run([program, path, "sums"], capture_output=True, text=True)
    if done.returncode == 0 and not done.stderr:
        return "", done.stdout
    refusal = done.stderr.strip()
    if done.returncode == 1 and refusal.startswith("refused object "):
        return refusal, ""
    return f"ended with {done.returncode}: {refusal}", ""


def difference(program, path):
    """Returns the refusal of an object by the program, and how plain C differs, or an empty
    string."""
    wanted = program.verdict(path)
    said, sums = plain_verdict(FOLDER / "load", path)
    earlier, earlier_sums = plain_verdict(FOLDER / "earlier/load", path)
    if said != wanted:
        return wanted, f"plain C: {said or 'loaded'}"
    if earlier != wanted:
        return wanted, f"earlier plain C: {earlier or 'loaded'}"
    return wanted, "" if sums == earlier_sums else f"plain C: {sums}earlier plain C: {earlier_sums}"


def main():
    program, chance = Program(sys.argv[1]), random.Random(int(sys.argv[2]))
    reals = [path.read_bytes() for path in [*SAMPLES, *map(Path, sys.argv[4:])]]
    refused = Counter()
    with tempfile.NamedTemporaryFile() as file:
        for data in chain(made(chance, reals, int(sys.argv[3])), limits()):
            Path(file.name).write_bytes(data)
            wanted, differs = difference(program, file.name)
            if differs:
                (TOP / "out/differs").write_bytes(data)
                raise SystemExit(f"out/differs: {wanted or 'loaded'}; {differs}")
            refused[" ".join(wanted.split()[2:4])] += 1
    loaded = refused.pop("", 0)
    print(f"{loaded} objects loaded by both, {refused.total()} refused for {len(refused)} causes")


if __name__ == "__main__":
    main()
