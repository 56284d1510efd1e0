"""Parses the elements of LLVM's symbolizer markup: {{{TAG:FIELD:FIELD..}}}."""
import re
from typing import NamedTuple

ELEMENT = re.compile(r"\{\{\{([a-z_]+)(?::([^{}]*))?\}\}\}")
LAST = (1 << 64) - 1


class Mapping(NamedTuple):
    """A range of addresses at which a part of a module is mapped."""

    start: int
    end: int  # exclusive
    module: int
    link: int  # the address of the start in the module

    @property
    def base(self):
        """Returns the run-time address of the module's address 0; it may be negative."""
        return self.start - self.link


def number(text):
    """Parses an integer of C: hexadecimal with 0x, octal with 0, or decimal."""
    if re.fullmatch(r"0[xX][0-9a-fA-F]+", text):
        found = int(text, 16)
    elif re.fullmatch(r"0[0-7]*", text):
        found = int(text, 8)
    elif re.fullmatch(r"[1-9][0-9]*", text):
        found = int(text)
    else:
        raise ValueError(f"not a number: {text}")
    if found > LAST:
        raise ValueError(f"not a number of 64 bits: {text}")
    return found


def mapping(fields):
    """Parses the fields of an mmap element: ADDR:SIZE:load:MODULE:MODE:LINK."""
    start, size, kind, module, _, link = fields
    if kind != "load":
        raise ValueError(f"not a kind of mapping: {kind}")
    start = number(start)
    return Mapping(start, start + number(size), number(module), number(link))


def code_address(fields, is_call):
    """Parses the fields ADDR, ADDR:ra or ADDR:pc. Returns the address to look up: the byte before a
    return address. `is_call` is the meaning without `ra` or `pc`."""
    address, *kind = fields
    if kind not in ([], ["ra"], ["pc"]):
        raise ValueError(f"not a kind of address: {kind}")
    return number(address) - (kind == ["ra"] or (is_call and not kind))
