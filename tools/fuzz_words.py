#!/usr/bin/env python3
"""Fuzzes command lines against the reference session.

fuzz_words.py PROGRAM SEED COUNT runs COUNT random command lines with options, an object and
addresses. It fails if the status, standard output or standard error differ from those of the
reference session.
"""
import random
import subprocess
import sys
import tempfile
import time
from pathlib import Path

from fuzz import REAL, SAMPLE
from fuzz_mutants import mutant, random_object
from plain_session import Session, number

LONG = {"a": "--addresses", "f": "--functions", "i": "--inlines", "p": "--pretty-print",
        "s": "--basenames", "l": "--linkage"}
BAD = ["zz", "", "0x", "0X10", "12345678901234567", "0x11 "]


def options(chance):
    """Returns random option letters, and the arguments that set these options."""
    letters = "".join(letter for letter in LONG if chance.random() < 0.4)
    short = letters.replace("l", "")
    if short and chance.random() < 0.5:
        return letters, ["-" + short] + ["--linkage"] * ("l" in letters)
    return letters, [LONG[letter] for letter in letters]


def addresses(chance):
    asked = [0x1000 + chance.randrange(0x90), chance.randrange(1 << 64), 0]
    spellings, count = ["%x", "0x%x", "%X"], chance.randrange(4)
    words = [chance.choice(spellings) % chance.choice(asked) for _ in range(count)]
    if chance.random() < 0.1:
        words.insert(chance.randrange(len(words) + 1), chance.choice(BAD))
    return words


def plain(letters, path, words):
    """Returns the expected status, standard output and standard error. The input is a line
    `list`."""
    session = Session(letters)
    for word in words:
        if number(word.encode()) is None:
            return 2, b"", b"addr2line_live: bad address " + word.encode() + b"\n"
    loaded = session.reply(b"load exe 0 " + path) if path else b""
    if loaded.startswith(b"refused"):
        return 1, b"", b"addr2line_live: " + loaded
    return 0, b"".join(session.reply(word.encode()) for word in words or ["list"]), b""


def main():
    program, seed, count = sys.argv[1], sys.argv[2], int(sys.argv[3])
    print(f"fuzz words: {count} generated command lines against the reference implementation;"
          f" seed {seed}", flush=True)
    chance, start, wrong = random.Random(seed), time.monotonic(), 0
    reals = [SAMPLE.read_bytes(), REAL.read_bytes()]
    with tempfile.TemporaryDirectory() as folder:
        for _ in range(count):
            path = Path(folder) / chance.choice(["o", "o", "o", "none"])
            if path.name == "o":
                made = [random_object(chance), mutant(chance, reals[0])]
                path.write_bytes(chance.choice([*reals, *made]))
            letters, words = options(chance)
            path = bytes(path) if chance.random() < 0.7 else b""
            if path:
                words += chance.choice([["-e", path.decode()], ["--exe=" + path.decode()]])
            words += chance.choice([[], [], ["--cache=0"], ["--cache", "65536"]])
            asked = addresses(chance)
            command = [program, *words, *asked]
            done = subprocess.run(command, input=b"list\n", capture_output=True, check=False)
            outcome = (done.returncode, done.stdout, done.stderr)
            wanted = plain(letters, path, asked)
            if outcome != wanted:
                wrong += 1
                print(f"{words + asked}: {outcome}, plain {wanted}")
    passed = time.monotonic() - start
    print(f"fuzz words: {count} command lines tried in {passed:.0f} s, {wrong} differ")
    sys.exit(bool(wrong))


if __name__ == "__main__":
    main()
