"""Finds the base of a running kernel: the address in memory of the address 0 of its vmlinux. It is
not 0 if the kernel has moved itself at its start (KASLR)."""
import re

from elf_symbols import address_of

ANCHORS = ("_text", "_stext")  # both are at the start of the code, or near it
KALLSYMS = "/proc/kallsyms"
SYMBOL = re.compile(rf"([0-9a-f]+) \w ({'|'.join(ANCHORS)})$")


def address(text):
    """Parses an address of an option: hexadecimal digits, with or without 0x."""
    return int(text, 16)


def running_anchors(path=KALLSYMS):
    """Returns the addresses of the anchors in /proc/kallsyms. They are 0 if they are hidden."""
    found = {}
    with open(path, errors="replace") as file:
        for line in file:
            symbol = SYMBOL.match(line)
            if symbol:
                found.setdefault(symbol[2], int(symbol[1], 16))
            if len(found) == len(ANCHORS):
                break
    return found


def base_from(vmlinux, running):
    """Returns the base for the addresses of anchors in memory. Raises ValueError if there is no
    base."""
    if not any(running.values()):
        raise ValueError("the addresses of the running kernel are hidden or unknown")
    for name in ANCHORS:
        link = address_of(vmlinux, name)
        if link is None or not running.get(name):
            continue
        if running[name] < link:
            at = f"{running[name]:x} in memory"
            raise ValueError(f"{name} is at {at}, but at {link:x} in the file")
        return running[name] - link
    raise ValueError(f"its symbol table does not have {' or '.join(running)}")
