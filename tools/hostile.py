#!/usr/bin/env python3
"""Measures the time and the memory of readers and whole loads for adversarial objects.

hostile.py MEASURE FOLDER [MEGABYTES] writes an object of each shape at a quarter, a half and the
whole of its size, and reads each with `measure lines`, `scopes` or `module` (a whole load). The
objects are in a new folder in FOLDER, so runs at the same time do not disturb each other. The size
is MEGABYTES, or a number of range items for objects whose scopes share lists. It prints a table,
and fails if a cost exceeds its limit (tools/hostile_limits.py).

Times are CPU seconds. They are compared with the load of an ordinary object, which alternates with
the other reads. The least time of several turns counts: other work on the machine can slow a turn
down, but not speed it up. A shape that exceeds a limit gets more turns.
"""
import multiprocessing
import os
import subprocess
import sys
import tempfile
from pathlib import Path

from hostile_base import ordinary
from hostile_limits import BY_SIZE, MEGABYTE, Costs
from hostile_modules import MODULE_SHAPES
from hostile_shapes import SHAPES

TURNS, MOST_TURNS = 3, 10
ROW = "| {:7} | {:29} | {:>7} | {:>8} | {:>8} | {:>8} | {:>6} | {:>7} | {:>12} | {:8} |"
COLUMNS = ("Command", "Shape", "Object", "Quarter", "Half", "Whole", "Factor", "Memory",
           "Bytes", "Exceeded")


def read(measure, command, path):
    """Returns the CPU seconds and the peak memory in bytes of a run."""
    reading, writing = os.pipe()
    process = subprocess.Popen([measure, command, path], stdout=writing, stderr=writing)
    os.close(writing)
    with os.fdopen(reading) as output:
        text = output.read()
    _, status, used = os.wait4(process.pid, 0)
    if status != 0:
        raise SystemExit(f"{path}: {text}")
    return used.ru_utime + used.ru_stime, used.ru_maxrss * 1024


def write(build, size, path):
    """Writes an object. It is built in a process of its own: the peak memory of a process is at
    least that of the process that started it, so this one must stay small."""
    process = multiprocessing.Process(target=write_here, args=(build, size, path))
    process.start()
    process.join()
    if process.exitcode != 0:
        raise SystemExit(f"{path} was not built")


def write_here(build, size, path):
    path.write_bytes(build(size))


def costs_of(measure, command, build, limit, size, folder):
    """Returns the costs of an object. Each turn reads the ordinary object and the three sizes."""
    paths = [folder / name for name in ("quarter", "half", "whole")]
    for path, part in zip(paths, (4, 2, 1)):
        write(build, size // part, path)
    runs = [("module", folder / "base"), *((command, path) for path in paths)]
    turns = []
    while len(turns) < MOST_TURNS:
        turns.append([read(measure, *run) for run in runs])
        base, *times = (min(time for time, _ in found) for found in zip(*turns))
        memory = min(found[-1][1] for found in turns)
        costs = Costs(base, tuple(times), memory, paths[-1].stat().st_size, size)
        if len(turns) >= TURNS and not costs.exceeded(limit):
            break
    return costs


def shown(command, build, limit, costs):
    """Returns a row of the table."""
    length = f"{costs.length / 1e3:.0f} KB"
    if costs.length > 1e6:
        length = f"{costs.length / 1e6:.1f} MB"
    unit, units = ("item", costs.size) if limit.memory_of_item else ("byte", costs.length)
    return ROW.format(
        command, build.__name__.replace("_", " "), length, *(f"{t:.3f} s" for t in costs.times),
        f"{costs.times[-1] / costs.base:.1f}", f"{costs.memory / 1e6:.0f} MB",
        f"{costs.memory / units:.1f} / {unit}", ", ".join(costs.exceeded(limit)))


def compare(measure, folder, megabytes):
    """Measures each shape. Returns whether all costs are within their limits."""
    write(ordinary, BY_SIZE.whole, folder / "base")
    print(ROW.format(*COLUMNS), ROW.format(*["---"] * len(COLUMNS)), sep="\n", flush=True)
    failed = False
    shapes = [(command, build, BY_SIZE) for command, build in SHAPES]
    for command, build, limit in shapes + MODULE_SHAPES:
        size = limit.whole if limit.memory_of_item else megabytes * MEGABYTE
        costs = costs_of(measure, command, build, limit, size, folder)
        print(shown(command, build, limit, costs), flush=True)
        failed = failed or bool(costs.exceeded(limit))
    return not failed


def main():
    measure, parent = sys.argv[1:3]
    megabytes = int(sys.argv[3]) if len(sys.argv) > 3 else BY_SIZE.whole // MEGABYTE
    with tempfile.TemporaryDirectory(prefix="hostile.", dir=parent) as folder:
        sys.exit(not compare(measure, Path(folder), megabytes))


if __name__ == "__main__":
    main()
