#!/usr/bin/env python3
"""Compares what addr2line_live reads from a distribution's objects with the output of others.

compare_real.py PROGRAM MEASURE FOLDER [OBJECT..] compares the objects, or the installed ones that
it finds (tools/real_objects.py) and a Rust program that the installed rustc compiles
(tools/rust_program.py). It downloads nothing. Decompressed copies and the program are in FOLDER.
For each object it prints the CPU time and the peak memory of a load, and compares
- all rows with objdump (tools/compare_rows.py),
- all scopes with readelf and llvm-dwarfdump (tools/compare_scopes.py),
- ten thousand answers with addr2line of binutils and llvm-symbolizer (tools/compare_replies.py).

Objects that the program refuses by design are skipped. It fails if anything differs, if the program
refuses an object for another reason, or if nothing was compared.
"""
import subprocess
import sys
from pathlib import Path

TOOLS = Path(__file__).resolve().parent
sys.path.insert(0, str(TOOLS.parent / "bench"))
from compare_replies import compare
from compare_rows import printed
from debug_files import sections
from real_objects import (ADVICE, RealObject, Skipped, in_code, installed, prepared,
                          random_addresses, spans_of_rows, spans_of_scopes, with_debug)
from rust_program import rust_program
from usage import least_in_turns, usage

ASKED = 10_000
TURNS = 3
# Causes of refusals that the README lists as left out.
BY_DESIGN = {"class", "type", "version", "unit-type", "address-size", "form"}


def refusal(program, path):
    """Returns the reply to the load of an object if it is a refusal, or None."""
    done = subprocess.run([program], input=f"load object 0 {path}\n", capture_output=True,
                          text=True, check=True)
    reply = done.stdout.strip()
    return reply if reply.startswith("refused") else None


def check_loads(program, path):
    """Raises Skipped if the program refuses an object by design, or SystemExit if it refuses it for
    another reason."""
    reply = refusal(program, path)
    if reply is None:
        return
    if BY_DESIGN.intersection(reply.split()):
        raise Skipped(reply)
    raise SystemExit(f"{path}: {reply}")


def addresses(measure, path):
    """Returns random addresses of code: half of them of rows, and half of ranges of scopes."""
    rows = random_addresses(spans_of_rows(printed(measure, "rows", path)), ASKED // 2)
    scopes = random_addresses(spans_of_scopes(printed(measure, "scope-table", path)), ASKED // 2)
    return in_code(dict.fromkeys(rows + scopes), sections(path))


def compare_object(program, measure, path, table):
    """Returns whether all comparisons of an object agree."""
    statuses = [subprocess.run([TOOLS / "compare_rows.py", measure, path]).returncode]
    with open(table, "wb") as out:
        subprocess.run([measure, "scope-table", path], stdout=out, check=True)
    statuses.append(subprocess.run([TOOLS / "compare_scopes.py", path, table]).returncode)
    statuses.append(compare(program, path, addresses(measure, path)))
    return not any(statuses)


def objects_of(paths, folder):
    """Returns the objects at the paths with their debug files, or the installed ones and the Rust
    program."""
    if paths:
        return [with_debug(path) or RealObject(Path(path).name, Path(path)) for path in paths]
    try:
        return [*installed(), rust_program(folder)]
    except Skipped as reason:
        print(f"the Rust program: skipped: {reason}", flush=True)
        return installed()


def loaded(program, measure, name, original, folder):
    """Prints the time and the memory of a load. Returns the path of the object without compressed
    sections, or None if the object is skipped."""
    try:
        path = prepared(original, Path(folder, name))
        check_loads(program, path)
    except Skipped as reason:
        print(f"{name}: skipped: {reason}", flush=True)
        return None
    used, = least_in_turns([lambda: usage([measure, "module", path])], TURNS)
    print(f"{name}: {path.stat().st_size / 1e6:.1f} MB, load {used.milliseconds / 1000:.3f} s,"
          f" {used.mebibytes:.0f} MiB of memory", flush=True)
    return path


def main():
    program, measure, folder, *paths = sys.argv[1:]
    Path(folder).mkdir(parents=True, exist_ok=True)
    objects = objects_of(paths, folder)
    if not objects:
        raise SystemExit(ADVICE)
    # All loads precede the comparisons, which make this process large: the peak memory of a
    # process is at least that of the process that started it.
    found = [loaded(program, measure, *item, folder) for item in objects]
    results = [compare_object(program, measure, path, Path(folder, "scopes.table"))
               for path in found if path]
    print(f"{len(results)} of {len(objects)} objects compared, {results.count(False)} differ")
    sys.exit(not results or not all(results))


if __name__ == "__main__":
    main()
