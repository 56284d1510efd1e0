#!/usr/bin/env python3
"""Runs the program and makes each allocation, each read and each write fail in turn, with a
preloaded library (tools/refuse.c).

memory.py PROGRAM TESTS SECONDS runs each script below once for each number N: the Nth call fails,
or the Nth call and all later ones. It fails if the outcome is not one that the script may have. A
test of TESTS runs the first script again, over I/O streams of fixed memory. The test prints its
outcome, and each outcome must occur. Random scripts follow until SECONDS are over; their outcomes
must be those of the reference session without some of the objects.
"""
import os
import random
import subprocess
import sys
import tempfile
import time
from collections import Counter
from pathlib import Path

from plain_session import Session

TOOLS = Path(__file__).parent
SAMPLE = (TOOLS / "../crates/measure/data/inlined").read_bytes()
REAL = (TOOLS / "demo.stored").read_bytes()
NO_MEMORY = b"addr2line_live: no memory\n"
TEST_OUTCOMES = [b"outcome: all replies", b"outcome: without the object", b"outcome: no memory"]
SCRIPT = [b"load a 0x10000 A", b"11004", b"move a 0x20000", b"21004", b"unload a"]
BESIDE = [b"load a 0x10000 A", b"11004", b"load b 0x30000 D", b"list", b"11004", b"11008", b"31060",
          b"move a 0x20000", b"21004", b"unload b", b"list"]


class Runner:
    def __init__(self, program, library, folder):
        self.program, self.library, self.folder = os.path.abspath(program), library, folder
        self.tried, self.outcomes, self.wrong = 0, Counter(), []

    def run(self, words, lines, **refused):
        """Returns the status, standard output and standard error of a run, and its call counts."""
        counts = self.folder / "counts"
        counts.unlink(missing_ok=True)
        env = {"LD_PRELOAD": str(self.library), "COUNTS": str(counts)}
        env.update({name: str(value) for name, value in refused.items()})
        text = b"".join(line + b"\n" for line in lines)
        done = subprocess.run([self.program, *words], input=text, env=env, cwd=self.folder,
                              capture_output=True, timeout=60, check=False)
        self.tried += 1
        numbers = counts.read_text().split() if counts.exists() else []
        return (done.returncode, done.stdout, done.stderr), [int(count) for count in numbers]

    def check(self, what, words, outcome, allowed):
        """Counts an outcome by its name, or records it as wrong."""
        name = next((name for name, wanted in allowed.items() if outcome == wanted), None)
        self.outcomes[name] += 1
        if name is None:
            self.wrong.append(f"{what} {' '.join(words)}: {outcome}")

    def each_growth(self, words, lines, allowed):
        """Makes each allocation fail in turn. Each allowed outcome must occur."""
        _, counts = self.run(words, lines)
        seen = Counter()
        for number in range(1, counts[0] + 1):
            for refused in (number, -number):
                before = self.outcomes.copy()
                outcome, _ = self.run(words, lines, REFUSE=refused)
                self.check(f"growth {refused}", words, outcome, allowed)
                seen += self.outcomes - before
        for name in set(allowed) - set(seen):
            self.wrong.append(f"{' '.join(words)}: no growth that is refused gives '{name}'")
        parts = (f"{count} times {name}" for name, count in sorted(seen.items(), key=str))
        print(f"{' '.join(words) or 'no words'}, {len(lines)} lines: {counts[0]} growths, "
              + ", ".join(parts), flush=True)


    def each_growth_of_a_test(self, tests, name, outcomes):
        """Makes each allocation of a test fail in turn. It must pass and print each outcome."""
        self.program, program = os.path.abspath(tests), self.program
        _, counts = self.run([name], [])
        seen = Counter()
        for number in range(1, counts[0] + 1):
            (status, text, _), _ = self.run([name], [], REFUSE=number)
            printed = [outcome for outcome in outcomes if outcome in text.splitlines()]
            seen.update(printed)
            if status or len(printed) != 1:
                self.wrong.append(f"growth {number} of {name}: status {status}, {text}")
        self.program = program
        for outcome in set(outcomes) - set(seen):
            self.wrong.append(f"{name}: no growth that is refused gives {outcome}")
        parts = (f"{count} times {outcome.decode()}" for outcome, count in sorted(seen.items()))
        print(f"{name}: {counts[0]} growths, " + ", ".join(parts), flush=True)


def plain(folder, letters, lines, without=()):
    """Returns the replies of the reference session, in which loads of the names in `without` are
    refused as out of memory."""
    session, text = Session(letters), b""
    for line in lines:
        line = line.replace(b" A", b" %s/A" % folder).replace(b" D", b" %s/D" % folder)
        is_refused = line.startswith(b"load") and line.split()[1] in without
        text += b"refused memory\n" if is_refused else session.reply(line)
    return text


def scripts(folder):
    """Yields the scripts whose outcomes are listed one by one."""
    where = bytes(folder)
    for words in (["--cache", "4"], ["--cache", "0"], ["-f", "-i"]):
        letters = "fi" if "-f" in words else ""
        for lines, names in ((SCRIPT, [b"a"]), (BESIDE, [b"a", b"b"])):
            allowed = {"all replies": (0, plain(where, letters, lines), b""),
                       "no memory for the words": (2, b"", NO_MEMORY)}
            for name in names:
                allowed[f"without {name.decode()}"] = (0, plain(where, letters, lines, [name]), b"")
            if len(names) == 2:
                allowed["without both"] = (0, plain(where, letters, lines, names), b"")
            if words[-1] != "0":
                allowed["no memory for the cache"] = (1, b"", NO_MEMORY)
            yield words, lines, allowed


def merged(allowed):
    """Returns the same outcomes without duplicates."""
    once = {}
    for name, outcome in allowed.items():
        if outcome not in once.values():
            once[name] = outcome
    return once


def words_alone(runner):
    """Yields command lines without input."""
    for words in (["--help"], ["--cache", "x"], ["zz"], ["-e", "A", "-f", "1004", "1010"],
                  ["-e", "none"], ["-e", "cut"]):
        outcome, _ = runner.run(words, [])
        allowed = {"as with memory": outcome, "no memory for the words": (2, b"", NO_MEMORY)}
        if "-e" in words:
            allowed["no memory for the cache"] = (1, b"", NO_MEMORY)
        if words[1:2] in (["A"], ["cut"]):
            allowed["no memory for the object"] = (1, b"", b"addr2line_live: refused memory\n")
        yield words, [], allowed


def devices(runner):
    """Makes each read and each write fail. A failed read of an object is reported as `file`;
    standard input has one read."""
    whole, counts = runner.run(["--cache", "4"], SCRIPT)
    replies = whole[1].splitlines(keepends=True)
    gone = b"refused no-module\n"
    without = [b"refused file\n", b"??:0\n", gone, b"??:0\n", gone]
    for kind, count, fault in (("WRITE", counts[2], "writing"), ("READ", counts[1], "reading")):
        failed = f"addr2line_live: {fault} failed\n".encode()
        allowed = {f"{shown} replies of {len(text[0])} bytes at first, then {fault} failed":
                   (1, b"".join(text[:shown]), failed)
                   for text in (replies, without) for shown in range(6)}
        allowed["an object that cannot be read"] = (0, b"".join(without), b"")
        for number in range(1, count + 1):
            for refused in (number, -number):
                outcome, _ = runner.run(["--cache", "4"], SCRIPT, **{kind: refused})
                runner.check(f"{kind} {refused}", [], outcome, allowed)
        print(f"each of {count} calls refused that are of {fault}", flush=True)


def chance(runner, folder, seconds):
    """Runs random scripts with random failing allocations until the time is over."""
    where, rolls, end = bytes(folder), random.Random(1), time.monotonic() + seconds
    while time.monotonic() < end:
        lines, names = [], [b"a", b"b", b"c"]
        for _ in range(rolls.randrange(4, 20)):
            name, base = rolls.choice(names), rolls.choice([0, 0x10000, 0x11000, 0x20000])
            lines.append(rolls.choice([
                b"load %s %x %s" % (name, base, rolls.choice([b"A", b"D"])), b"list",
                b"%x" % (base + 0x1004), b"%x" % (base + 0x1060),
                b"move %s %x" % (name, base), b"unload " + name,
            ]))
        _, counts = runner.run(["-f", "-i"], lines)
        refused = rolls.randrange(1, counts[0] + 1)
        outcome, _ = runner.run(["-f", "-i"], lines, REFUSE=refused)
        loads = [number for number, line in enumerate(lines) if line.startswith(b"load")]
        allowed = {"all replies": (0, plain(where, "fi", lines), b""),
                   "no memory for the words": (2, b"", NO_MEMORY),
                   "no memory for the cache": (1, b"", NO_MEMORY)}
        for number in loads:
            changed = lines.copy()
            changed[number] = lines[number].replace(b"load ", b"load none-", 1)
            names = {line.split()[1] for line in changed if line.startswith(b"load none-")}
            allowed[f"without load {number}"] = (0, plain(where, "fi", changed, names), b"")
        runner.check(f"growth {refused} of {lines}", ["-f", "-i"], outcome, allowed)


def main():
    program, tests, seconds = sys.argv[1], sys.argv[2], float(sys.argv[3])
    print("memory: each growth of memory, each read and each write refused in turn", flush=True)
    start = time.monotonic()
    with tempfile.TemporaryDirectory() as folder:
        folder = Path(folder)
        library = folder / "refuse.so"
        flags = ["-O1", "-shared", "-fPIC"]
        subprocess.run(["cc", *flags, "-o", library, TOOLS / "refuse.c"], check=True)
        for name, data in (("A", SAMPLE), ("D", REAL), ("cut", SAMPLE[:63])):
            (folder / name).write_bytes(data)
        runner = Runner(program, library, folder)
        for words, lines, allowed in [*scripts(folder), *words_alone(runner)]:
            runner.each_growth(words, lines, merged(allowed))
        runner.each_growth_of_a_test(tests, "failures::memory_fails", TEST_OUTCOMES)
        devices(runner)
        chance(runner, folder, seconds - (time.monotonic() - start))
    for wrong in runner.wrong[:10]:
        print(wrong)
    passed = time.monotonic() - start
    print(f"memory: {runner.tried} runs in {passed:.0f} s, {len(runner.wrong)} of them wrong")
    sys.exit(bool(runner.wrong))


if __name__ == "__main__":
    main()
