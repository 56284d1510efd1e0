#!/usr/bin/env python3
"""Measures how the costs of the program grow, prints the figures and draws docs/growth.svg.

growth.py [FOLDER] measures with objects of 1 to 500 MB, which it makes in FOLDER (out/growth):
- the user and system time of reading and loading an object, for each megabyte of it;
- the numbers of segments and of calls on the active set, and of the endpoints of rows and ranges;
- the answers in a second of user and system time, with 1 to 4,096 loaded modules, to addresses in
  random order, without a cache.
The programs are ADDR2LINE_LIVE and MEASURE, or those that are built in crates/.
"""
import os
import random
import subprocess
import sys
from pathlib import Path

from growth_objects import MEGABYTE, objects, small_object
from growth_svg import Panel, Series, drawing
from usage import least_in_turns, usage

TOP = Path(__file__).resolve().parent.parent
sys.path.insert(0, str(TOP / "tools"))
from compare_addr2line import addresses

PROGRAM = os.environ.get("ADDR2LINE_LIVE", TOP / "crates/addr2line_live/out/addr2line_live")
MEASURE = os.environ.get("MEASURE", TOP / "crates/measure/out/measure")
SIZES = [1, 2, 5, 10, 20, 50, 100, 200, 500]
MODULES = [4**power for power in range(7)]
ASKED = 1_000_000
DISTANCE = 0x10000  # between the bases of modules
TURNS = 5


def counted(command, path):
    """Returns the numbers that `measure` prints before each word, by the word."""
    done = subprocess.run([MEASURE, command, path], capture_output=True, text=True, check=True)
    parts = (part.split() for part in done.stdout.strip().split(", "))
    return {name: int(number) for number, name in parts}


def load_figures(paths):
    """Returns, for each object, its size in megabytes and the milliseconds for each of them."""
    figures = []
    for path in paths:
        size = path.stat().st_size / MEGABYTE
        used, = least_in_turns([lambda: usage([PROGRAM, "-e", path])], TURNS)
        figures.append((size, used.milliseconds / size))
        print(f"{size:.1f} MB: {used.milliseconds:.1f} ms, {figures[-1][1]:.2f} ms a megabyte,"
              f" peak {used.mebibytes:.0f} MiB")
    return figures


def index_figures(paths):
    """Returns, for each object, its numbers of endpoints, of segments and of calls. Each row and
    each range counts as two endpoints, also a row that covers no address."""
    figures = []
    for path in paths:
        rows, ranges = counted("lines", path)["rows"], counted("scopes", path)["ranges"]
        index = counted("module", path)
        figures.append((2 * (rows + ranges), index["segments"], index["calls"]))
        ends, segments, calls = figures[-1]
        print(f"{ends} endpoints: {segments} segments, {segments / ends:.3f} an endpoint,"
              f" {calls} calls, {calls / ends:.3f} an endpoint")
    return figures


def write_commands(path, module, count, asked):
    """Writes commands that load a module `count` times, and then ask addresses of them."""
    chance = random.Random(1)
    links = list(addresses(module, 1000))
    with path.open("w") as file:
        for number in range(count):
            file.write(f"load m{number} {(number + 1) * DISTANCE:x} {module}\n")
        for _ in range(asked):
            base = (1 + chance.randrange(count)) * DISTANCE
            file.write(f"{base + chance.choice(links):x}\n")


def answer_usage(path):
    with path.open() as commands:
        return usage([PROGRAM, "--cache", "0"], standard_input=commands)


def answer_figures(folder):
    """Returns the answers a second for each number of loaded modules."""
    figures = []
    module = small_object(folder)
    loads, asks = folder / "loads", folder / "asks"
    for count in MODULES:
        write_commands(loads, module, count, 0)
        write_commands(asks, module, count, ASKED)
        runs = [lambda: answer_usage(loads), lambda: answer_usage(asks)]
        loaded, answered = least_in_turns(runs, TURNS)
        rate = 1000 * ASKED / (answered.milliseconds - loaded.milliseconds)
        figures.append((count, rate))
        print(f"{count} modules: {rate:.0f} answers a second")
    return figures


def panels(loads, index, answers):
    """Returns the panels of the drawing."""
    return [
        Panel("Reading and loading an object", "size of the object (MB)",
              "processor time (ms/MB)", [1, 10, 100, 1000], [Series("", loads)]),
        Panel("Building the index", "endpoints of rows and ranges", "count",
              [10**4, 10**5, 10**6, 10**7, 10**8], [
                  Series("calls on the active set", [(ends, calls) for ends, _, calls in index]),
                  Series("segments", [(ends, segments) for ends, segments, _ in index]),
              ], has_log_heights=True),
        Panel("Answering addresses", "loaded modules", "answers per second", MODULES,
              [Series("", answers)]),
    ]


def main():
    folder = Path(sys.argv[1]) if sys.argv[1:] else TOP / "out/growth"
    paths = objects(folder, SIZES)
    figures = load_figures(paths), index_figures(paths), answer_figures(folder)
    (TOP / "docs/growth.svg").write_text(drawing(panels(*figures)))


if __name__ == "__main__":
    main()
