"""Objects for tools/fuzz.py: truncations and byte changes of a sample, objects at the limits, and
mutants of other objects with changed bytes and sections."""
import struct

from fuzz_objects import Maker
from hostile_objects import elf, uleb
from plain_bytes import read_elf


def whole_table(sample):
    """Yields all truncations of a sample, and the sample with each value of each header byte."""
    for size in range(len(sample)):
        yield sample[:size]
    headers = [*range(0, 120), *range(163, 175), *range(259, 314), *range(383, 703)]
    for at in headers:
        for value in range(256):
            yield sample[:at] + bytes([value]) + sample[at + 1:]


def cut_sections(sample):
    """Yields the sample with each smaller size of each of its sections."""
    for at in range(383 + 64, 703, 64):
        size = struct.unpack_from("<Q", sample, at + 32)[0]
        for less in range(size):
            yield sample[:at + 32] + struct.pack("<Q", less) + sample[at + 40:]


def one_unit(entries):
    body = struct.pack("<HBBI", 5, 1, 8, 0) + entries
    return struct.pack("<I", len(body)) + body


def limits():
    """Yields objects at the limits and over them: the depth of entries, and the numbers of
    declarations and of range items."""
    for depth in (256, 257):
        entries = b"\1" * (depth + 1) + b"\0" * (depth + 1)
        yield elf([(".debug_info", one_unit(entries)), (".debug_abbrev", b"\1\x2e\1\0\0\0")])
    table = b"".join(uleb(code) + b"\x2e\0\0\0" for code in range(1, 65537)) + b"\0"
    for units in (64, 65):
        yield elf([(".debug_info", one_unit(b"\1") * units), (".debug_abbrev", table)])
    table = b"\1\x11\1\x11\1\0\0" + b"\2\x2e\0\x55\x17\0\0" + b"\0"
    for scopes in (64, 65):
        entries = b"\1" + struct.pack("<Q", 0x1000) + b"\2\0\0\0\0" * scopes + b"\0"
        yield elf([(".debug_info", one_unit(entries)), (".debug_abbrev", table),
                   (".debug_rnglists", b"\4\0\0" * 65536 + b"\0")])


def mutant(chance, data):
    """Returns an object with changed bytes, mostly in its sections, or with a section that is
    longer or shorter."""
    found, _, _ = read_elf(data)
    sections = [(name, body) for name, body in found.items() if body]
    at = chance.randrange(len(sections))
    name, body = sections[at]
    if chance.random() < 0.3:
        return elf(sections[:at] + [(name, changed(chance, body))] + sections[at + 1:])
    data, start = bytearray(data), data.find(body)
    for _ in range(chance.randrange(1, 4)):
        if chance.random() < 0.9:
            place = start + chance.randrange(len(body))
        else:
            place = chance.randrange(len(data))
        data[place] = chance.choice([chance.randrange(256), 0, 1, 0x80, 0xFF,
                                     data[place] ^ 1 << chance.randrange(8)])
    return bytes(data)


def changed(chance, data, most=3):
    """Returns a copy of the bytes with a few bytes changed, removed or inserted."""
    data = bytearray(data)
    for _ in range(chance.randrange(1, most + 1)):
        if not data:
            return bytes(chance.randrange(256) for _ in range(4))
        at = chance.randrange(len(data))
        how = chance.random()
        if how < 0.6:
            data[at] = chance.choice([chance.randrange(256), 0, 1, 0x7F, 0x80, 0xFF,
                                      data[at] ^ 1 << chance.randrange(8), (data[at] + 1) % 256])
        elif how < 0.7:
            del data[at:at + chance.choice([1, 1, 2, 4])]
        elif how < 0.8:
            data[at:at] = bytes(chance.randrange(256) for _ in range(chance.choice([1, 1, 2, 4])))
        elif how < 0.9:
            data[at:at + 8] = chance.choice([b"\xff" * 8, bytes(8), b"\x80" * 9 + b"\1",
                                             struct.pack("<Q", 0xFFFFFFF0)])
        else:
            from_ = chance.randrange(len(data))
            data[at:at + 4] = data[from_:from_ + chance.choice([1, 2, 4, 12])]
    return bytes(data)


def random_object(chance):
    """Returns a random object, mostly with a change in one of its sections or in its bytes."""
    sections = Maker(chance).make()
    how = chance.random()
    if how < 0.5:
        at = chance.randrange(len(sections))
        sections[at] = (sections[at][0], changed(chance, sections[at][1]))
    made = elf(sections)
    return changed(chance, made) if how > 0.9 else made


def made(chance, reals, count):
    for _ in range(count):
        if chance.random() < 0.5:
            yield mutant(chance, chance.choice(reals))
        else:
            yield random_object(chance)
