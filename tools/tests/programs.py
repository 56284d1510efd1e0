"""Helpers for the tests of the tools: the program, and objects that gcc compiles for a test."""
import os
import re
import shutil
import subprocess
import sys
from pathlib import Path

TOP = Path(__file__).resolve().parents[2]
TOOLS = TOP / "tools"
sys.path.insert(0, str(TOOLS))
import live

BUILT = TOP / "crates/addr2line_live/out/addr2line_live"
PROGRAM = Path(os.environ.get("ADDR2LINE_LIVE") or BUILT).absolute()


def output_of(*words, text=""):
    """Returns the output of a command, which must exit with status 0."""
    words = list(map(str, words))
    done = subprocess.run(words, input=text, capture_output=True, text=True)
    if done.returncode:
        raise AssertionError(f"{words[0]} ended with {done.returncode}: {done.stderr}")
    return done.stdout


def compiled(folder, name, source, *flags):
    """Compiles a C source to an object with DWARF 5. The source is written to folder/NAME.c."""
    path = Path(folder) / name
    path.with_suffix(".c").write_text(source)
    output_of("gcc", "-g", "-gdwarf-5", *flags, "-o", path, path.with_suffix(".c"), "-ldl")
    return path


def separate(path):
    """Moves the debug information of an object to a separate file and returns its path."""
    debug = Path(f"{path}.debug")
    output_of("objcopy", "--only-keep-debug", path, debug)
    output_of("strip", "--strip-debug", path)
    output_of("objcopy", f"--add-gnu-debuglink={debug}", path)
    return debug


def symbol(path, name):
    """Returns the link address of a symbol."""
    symbols = [line.split() for line in output_of("nm", path).splitlines()]
    return next(int(words[0], 16) for words in symbols if words[-1] == name)


def instructions(path, function):
    """Returns the link address and the disassembly of each instruction of a function."""
    shown = output_of("objdump", "-d", "--no-show-raw-insn", f"--disassemble={function}", path)
    found = (line.partition(":") for line in shown.splitlines() if ":\t" in line)
    return [(int(address, 16), text) for address, _, text in found]


def tool(name, *arguments, text=""):
    """Returns the output of a tool."""
    return output_of(TOOLS / name, *arguments, text=text)


def dwarfutil(compiler):
    """Returns a command of llvm-dwarfutil for the objects of a compiler, or None. Version 17 reads
    objects of gcc, and later versions read objects of clang with their parallel linker. The other
    pairs can lose a table of addresses, and versions before 17 lose all lines of DWARF 5."""
    for name in ("llvm-dwarfutil", *(f"llvm-dwarfutil-{number}" for number in range(17, 30))):
        if shutil.which(name):
            version = int(re.search(r"version (\d+)", output_of(name, "--version"))[1])
            if version == 17 if compiler == "gcc" else version > 17:
                return [name, *(["--linker=parallel"] if version > 17 else [])]
    return None


class Live(live.Live):
    """A long-running process of addr2line_live."""

    def __init__(self, *options):
        super().__init__(*options, path=PROGRAM)

    def end(self):
        """Ends the input and returns the exit status."""
        self.running.stdin.close()
        self.running.stdout.close()
        return self.running.wait(10)
