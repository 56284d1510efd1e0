"""Compiles a Rust program with DWARF 5 for tools/compare_real.py.

The compiled standard library of rustc has DWARF 4. Link-time optimization compiles the used parts
again. rustc has the option for the version since 1.88.
"""
import shutil
import subprocess
from pathlib import Path

from real_objects import RealObject, Skipped

SOURCE = Path(__file__).resolve().parent / "words.rs"
FLAGS = ["-g", "-O", "-C", "dwarf-version=5", "-C", "lto=fat", "--edition", "2021"]
NEEDED = "install rustc 1.88 or later, such as rustc-web of Debian 12"


def rust_program(folder):
    """Compiles the program into the folder. Raises Skipped if there is no rustc that does so."""
    if not shutil.which("rustc"):
        raise Skipped(f"rustc is not installed: {NEEDED}")
    path = Path(folder, SOURCE.stem)
    command = ["rustc", *FLAGS, "-o", path, SOURCE]
    done = subprocess.run(command, capture_output=True, text=True)
    if done.returncode:
        raise Skipped(f"{done.stderr.strip()}: {NEEDED}")
    return RealObject(SOURCE.name, path)
