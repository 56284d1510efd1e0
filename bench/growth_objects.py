"""Objects of growing size for bench/growth.py: copies of one compiled source.

A source is compiled once. Each copy has its own prefix for all symbols, so that the linker retains
the code and the debugging information of every copy. Strings of `.debug_str` are merged.
"""
import subprocess
import tempfile
from pathlib import Path

TOP = Path(__file__).resolve().parent.parent
FLAGS = ["-g", "-gdwarf-5", "-fPIC"]
MEGABYTE = 1_000_000


def run(*command, **options):
    return subprocess.run([*map(str, command)], check=True, **options)


def compiled(folder, count):
    """Compiles a source with `count` instantiations of containers, sorting and streams."""
    source, compiled_to = folder / "part.cpp", folder / "part.o"
    with source.open("w") as file:
        run(TOP / "tools/instantiate.sh", count, "part", "small", stdout=file)
    # With -O2, the largest objects would exceed the limit on range items.
    run("g++", "-O1", *FLAGS, "-c", "-o", compiled_to, source)
    return compiled_to


def linked(part, copies, path):
    """Links copies of a compiled part to a shared object at a path. Returns its size in bytes."""
    with tempfile.TemporaryDirectory(dir=path.parent) as folder:
        parts = [Path(folder) / f"part{number}.o" for number in range(copies)]
        for number, copy in enumerate(parts):
            run("objcopy", f"--prefix-symbols=copy{number}_", part, copy)
        run("g++", "-shared", "-nostdlib", "-o", path, *parts)
    return path.stat().st_size


def objects(folder, sizes):
    """Returns the paths of objects of about these sizes in megabytes. Makes those that are missing.
    """
    paths = [folder / f"copies.{size}" for size in sizes]
    if all(path.exists() for path in paths):
        return paths
    folder.mkdir(parents=True, exist_ok=True)
    part = compiled(folder, 3)
    one, two = (linked(part, copies, folder / "measured") for copies in (1, 2))
    (folder / "measured").unlink()
    for size, path in zip(sizes, paths):
        copies = 1 + round((size * MEGABYTE - one) / (two - one))
        linked(part, max(copies, 1), path)
    return paths


def small_object(folder):
    """Compiles the program of the demo, which takes the place of each loaded module."""
    path = folder / "small"
    folder.mkdir(parents=True, exist_ok=True)
    run("gcc", "-O2", *FLAGS, "-o", path, TOP / "tools/demo.c")
    return path
