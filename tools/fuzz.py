#!/usr/bin/env python3
"""Fuzzes objects and commands against a reference implementation in Python (plain_session.py).

The objects are random objects and mutants of samples and of real objects. The commands are random.

fuzz.py PROGRAM SEED COUNT [OBJECT..] tries COUNT objects. fuzz.py PROGRAM tables tries all values
of each byte of a sample's headers, each truncation of the sample, and objects at the limits. It
fails if a reply differs from that of the reference implementation, if the program ends, or if it
prints nothing for a minute. It then stores the input of the program in out/fuzz.
"""
import os
import random
import select
import shlex
import shutil
import subprocess
import sys
import tempfile
import time
from pathlib import Path

from fuzz_mutants import changed, cut_sections, limits, made, whole_table
from plain_session import Session

TOP = (1 << 64) - 1
SAMPLE = Path(__file__).parent / "../crates/measure/data/inlined"
REAL = Path(__file__).parent / "demo.stored"
OPTIONS = ["", "fi", "afip", "fil", "s", "fips", "ap", "aflips"]
BASES = [0, 0, 0x1000, 0x10000, 0x10800, 0x11000, 0x7F0000000000, TOP - 0x2000, TOP - 0x2001, TOP]
LINES = [b"list", b"list ", b"", b" ", b"x", b"load", b"load a 0", b"load a! 0 x", b"load a zz x",
         b"move a", b"unload", b"unload zz", b"move zz 0", b"0x", b"12345678901234567", b"1000\r",
         b"load a 0 ", b"\0", b"load a 0 no/such", b"load a 0 \xff\xfe", b"load a 0 .", b"z" * 4096,
         b"z" * 4097, b"load  0 x", b"load " + b"n" * 65 + b" 0 x", b"move a 0 1",
         b"fFfFfFfFfFfFfFfF", b"LOAD a 0 x"]


class Differs(Exception):
    """The program and the reference implementation reply differently."""


class Run:
    """A process, and the reference session that it is compared with."""

    def __init__(self, program, letters, folder, cache=64):
        options = [f"-{letter}" for letter in letters if letter != "l"]
        options += ["--linkage"] if "l" in letters else []
        self.command = shlex.split(program) + options + ["--cache", str(cache)]
        pipes = {"stdin": subprocess.PIPE, "stdout": subprocess.PIPE}
        self.process = subprocess.Popen(self.command, bufsize=0, **pipes)
        self.session, self.folder, self.said, self.wanted = Session(letters), folder, [], []
        self.count, self.letters, self.script = 0, letters, []

    def say(self, line):
        """Sends a line to both. The program receives it with the next `compare`."""
        reply = self.session.reply(line)
        self.script.append(line)
        self.said.append(line)
        self.wanted.append(reply)
        self.count += 1
        if sum(map(len, self.said[-200:])) > 16384 or len(self.said) > 400:
            self.compare()
        return reply

    def begin_anew(self):
        """Unloads all modules, so that the following lines are a separate script."""
        for name in list(self.session.modules):
            self.say(b"unload " + name)
        self.compare()
        self.session.parsed.clear()
        self.script = []

    def read(self, size):
        """Returns `size` bytes of replies, or fewer and the reason."""
        found = b""
        while len(found) < size:
            if not select.select([self.process.stdout], [], [], 60)[0]:
                return found, "said nothing for a minute"
            more = os.read(self.process.stdout.fileno(), size - len(found))
            if more == b"":
                return found, f"ended with {self.process.wait()}"
            found += more
        return found, ""

    def compare(self):
        """Compares the replies to the lines since the last call."""
        sent = b"".join(line + b"\n" for line in self.said)
        try:
            self.process.stdin.write(sent)
        except BrokenPipeError as error:
            raise Differs(f"ended with {self.process.wait()}") from error
        found, stopped = self.read(sum(map(len, self.wanted)))
        for line, wanted in zip(self.said, self.wanted):
            if not found.startswith(wanted):
                shown = found[:len(wanted) + 60]
                asked = f"-{self.letters} {line[:99]!r}"
                raise Differs(f"{asked}: {shown!r} {stopped}, plain {wanted!r}")
            found = found[len(wanted):]
        self.said, self.wanted = [], []

    def end(self):
        self.compare()
        self.process.stdin.close()
        rest, status = self.process.stdout.read(), self.process.wait()
        if rest or status:
            raise Differs(f"ended with {status}, having said {rest[:99]!r}")


def links(chance, module, count):
    """Returns link addresses near the endpoints of a module's rows and ranges."""
    ends = [row.address for row in module.rows]
    ends += [end for scope in module.scopes for pair in scope.ranges for end in pair]
    found = [
        chance.choice(ends) + chance.choice([-1, 0, 0, 1]) if ends else module.low
        for _ in range(count)
    ]
    return [link & TOP for link in found]


def commands(chance, run, path):
    """Loads an object with a random name and base, and sends more commands for it and others."""
    name = b"n%d" % chance.randrange(6)
    if chance.random() < 0.8:
        run.say(b"unload " + name)
    run.say(b"load %s %x %s" % (name, chance.choice(BASES), path))
    if name in run.session.modules:
        base, module = run.session.modules[name]
        for link in links(chance, module, 6):
            run.say(b"%x" % (base + link & TOP))
    else:
        run.say(b"load other-name %x %s" % (chance.choice(BASES), path))
        run.say(b"unload other-name")
    if chance.random() < 0.3:
        run.say(b"move n%d %x" % (chance.randrange(6), chance.choice(BASES)))
    if chance.random() < 0.2:
        line = chance.choice([b"load n1 1000 " + bytes(run.folder / "sample"),
                              b"move n2 7f0000000000", b"0x7f0000001004", b"unload n3"])
        run.say(changed(chance, line).replace(b"\n", b"?"))
        run.say(chance.choice(LINES))
        run.say(b"list")


def table_commands(run, path):
    """Loads an object and looks up each address near the sample's code."""
    run.say(b"load table 0 " + path)
    if b"table" in run.session.modules:
        for link in range(0xFF0, 0x1021):
            run.say(b"%x" % link)
        run.say(b"unload table")


def feed(run, objects, tell):
    """Writes each object to a file and sends the commands of `tell` for it."""
    (run.folder / "sample").write_bytes(SAMPLE.read_bytes())
    for count, data in enumerate(objects):
        if count % 400 == 0:
            run.begin_anew()
        path = run.folder / f"o{count % 400}"
        path.write_bytes(data)
        tell(run, bytes(path))
    run.end()


def store(run):
    """Stores the lines since no module was loaded, the objects and the command:
    `$(cat out/fuzz/command) < out/fuzz/script` repeats the run."""
    stored = Path("out/fuzz")
    shutil.rmtree(stored, ignore_errors=True)
    shutil.copytree(run.folder, stored)
    script = b"".join(line + b"\n" for line in run.script)
    (stored / "script").write_bytes(script.replace(bytes(run.folder), bytes(stored)))
    (stored / "command").write_text(shlex.join(run.command) + "\n")


def all_runs(words):
    """Returns the runs: the option letters, the number of objects, the objects, and the function
    that sends the commands for each object."""
    sample = SAMPLE.read_bytes()
    if words[0] == "tables":
        table = [*limits(), *cut_sections(sample), *whole_table(sample)]
        return [("fi", len(table), table, table_commands)]
    count, chance = int(words[1]), random.Random(int(words[0]))
    reals = [sample, sample, REAL.read_bytes()] + [Path(path).read_bytes() for path in words[2:]]
    sizes = [2000] * (count // 2000) + [count % 2000] * (count % 2000 > 0)

    def tell(run, path):
        commands(chance, run, path)

    return [(OPTIONS[n % len(OPTIONS)], size, made(chance, reals, size), tell)
            for n, size in enumerate(sizes)]


def main():
    program, words = sys.argv[1], sys.argv[2:]
    print(f"fuzz: objects and commands, against a plain scan; {' '.join(words[:2])}", flush=True)
    start, tried, said, chance = time.monotonic(), 0, 0, random.Random(0)
    shared = "/dev/shm" if os.path.isdir("/dev/shm") else None
    with tempfile.TemporaryDirectory(dir=shared) as folder:
        for letters, size, objects, tell in all_runs(words):
            run = Run(program, letters, Path(folder), chance.choice([0, 1, 4, 64, 1024, 65536]))
            try:
                feed(run, objects, tell)
            except Differs as differs:
                store(run)
                note = f"fuzz: {tried} objects tried, the first difference stored in out/fuzz"
                raise SystemExit(f"{differs}\n{note}") from differs
            tried, said, passed = tried + size, said + run.count, time.monotonic() - start
            print(f"{tried} objects, {said} lines, {passed:.0f} s, options '{letters}'", flush=True)
    passed = time.monotonic() - start
    print(f"fuzz: {tried} objects and {said} lines tried in {passed:.0f} s, none differs")


if __name__ == "__main__":
    main()
