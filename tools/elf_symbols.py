"""Finds symbols in the symbol tables of ELF objects."""
import functools
import os
import struct
from typing import NamedTuple

from debug_files import NOBITS, contents, sections

TABLES = {".symtab": ".strtab", ".dynsym": ".dynstr"}
UNDEFINED = 0  # SHN_UNDEF among the indexes of sections
KINDS = (0, 1, 2, 10)  # STT_NOTYPE, STT_OBJECT, STT_FUNC, STT_GNU_IFUNC
ENTRY = struct.Struct("<IBBHQQ")


class Symbol(NamedTuple):
    """A defined symbol. Its address is relative to the object's address 0."""

    strings: bytes  # the string table
    name: int  # an offset in it
    address: int
    size: int


@functools.cache
def symbols(path):
    """Returns the defined symbols of both symbol tables of an object."""
    found, defined = sections(path), []
    for table, strings in TABLES.items():
        if table not in found or strings not in found or found[table].kind == NOBITS:
            continue
        text, data = contents(path, found[strings]), contents(path, found[table])
        data = data[: len(data) // ENTRY.size * ENTRY.size]
        defined += [Symbol(text, name, address, size)
                   for name, info, _, section, address, size in ENTRY.iter_unpack(data)
                   if section != UNDEFINED and name and info % 16 in KINDS]
    return defined


@functools.cache
def address_of(path, name):
    """Returns the address of a symbol, or None if no symbol or several addresses have the name."""
    wanted = os.fsencode(name) + b"\0"
    found = {symbol.address for symbol in symbols(path)
             if symbol.strings.startswith(wanted, symbol.name)}
    return found.pop() if len(found) == 1 else None


def name_at(path, address):
    """Returns the name of the smallest symbol that contains an address, or None."""
    around = (symbol for symbol in symbols(path)
              if symbol.address <= address < symbol.address + max(symbol.size, 1))
    found = min(around, key=lambda symbol: symbol.size, default=None)
    return os.fsdecode(found.strings[found.name :].split(b"\0", 1)[0]) if found else None
