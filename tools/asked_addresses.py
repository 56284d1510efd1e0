"""Parses addresses as addr2line of binutils does.

An address is a string that starts with hexadecimal digits, with or without 0x, or with a symbol.
`+` and an offset may follow a symbol. C parses the offset: it is decimal, or octal after 0, or
hexadecimal after 0x. Everything after that is ignored. Any other string is 0.
"""
import functools
import re
import shutil
import subprocess

LENGTH = 99  # bytes that binutils reads at a time from standard input
HIGHEST = (1 << 64) - 1
# A string that starts with a to f is a symbol if there is a plus sign in it.
NUMBER = re.compile(r"(?=[0-9]|[^+]*\Z)(?:0[xX])?([0-9a-fA-F]+)")
SYMBOL = re.compile(r"([^\s+]*)\s*(?:\+(.*))?", re.ASCII | re.DOTALL)
OFFSET = re.compile(r"\s*([+-]?)(?:0[xX]([0-9a-fA-F]+)|(0[0-7]*)|([0-9]+))", re.ASCII)
SPACES = " \t\n\v\f\r"
NM = (["nm", "-a", "-p"], ["nm", "-a", "-p", "-D", "--without-symbol-versions"])
NAME = 19  # the column of the name in a line of nm


def pieces(lines):
    """Yields the strings that binutils reads from lines of bytes, which it divides if they are
    long."""
    for line in lines:
        for at in range(0, len(line), LENGTH):
            yield line[at : at + LENGTH].decode(errors="surrogateescape")


def offset_of(text):
    """Returns the number at the start of a string, as strtoul(3) does."""
    found = OFFSET.match(text)
    if not found:
        return 0
    sign, *numbers = found.groups()
    number = next(int(digits, base) for digits, base in zip(numbers, (16, 8, 10)) if digits)
    return HIGHEST if number > HIGHEST else -number if sign == "-" else number


def values(command, path):
    """Returns the value of the first symbol with each name; 0 if it is undefined. Without nm there
    are no symbols."""
    if not shutil.which(command[0]):
        return {}
    done = subprocess.run([*command, path], stdout=subprocess.PIPE, stderr=subprocess.DEVNULL)
    found = {}
    for line in done.stdout.decode(errors="surrogateescape").split("\n")[:-1]:
        found.setdefault(line[NAME:], int(line[:16].strip() or "0", 16))
    return found


class Addresses:
    """Addresses in an object. nm reads the symbols when the first one is looked up."""

    def __init__(self, path):
        self.path = path

    @functools.cached_property
    def table(self):
        """The command that lists symbols, and their values by name: of the symbol table, or of the
        dynamic one if the object has only that."""
        found = ((command, values(command, self.path)) for command in NM)
        return next((table for table in found if table[1]), (NM[0], {}))

    @functools.cached_property
    def demangled(self):
        """The values of symbols by demangled name."""
        return values([*self.table[0], "-C"], self.path)

    def symbol(self, name):
        """Returns the value of a symbol, or None. Names without letters are not demangled."""
        found = self.table[1].get(name)
        if found is None and re.search("[A-Za-z]", name):
            found = self.demangled.get(name)
        return found

    def parse(self, text):
        """Returns the address that a string starts with."""
        text = text.partition("\0")[0].lstrip(SPACES)
        if number := NUMBER.match(text):
            return min(int(number[1], 16), HIGHEST)
        name, offset = SYMBOL.match(text).groups()
        found = self.symbol(name) if text else None
        return 0 if found is None else (found + offset_of(offset or "")) & HIGHEST
