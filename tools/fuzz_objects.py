"""Random objects for tools/fuzz.py, with all parts of DWARF 5 that the program reads."""
import struct

from hostile_objects import uleb

NAMES = [b"main", b"mid", b"leaf", b"", b"a\x01b", b"\xff\x80", b"/x/", b"operator new"]
TOP = (1 << 64) - 1
BASES = {".debug_str_offsets": 0x72, ".debug_addr": 0x73, ".debug_rnglists": 0x74}
INDEX_SIZES = {0x1B: 1, 0x1A: 1, 0x23: 1, 0x29: 1, 0x25: 1, 0x2A: 2, 0x26: 2}  # by form


def sleb(number):
    encoded = bytearray()
    while not -64 <= number < 64:
        encoded.append(number & 127 | 128)
        number >>= 7
    encoded.append(number & 127)
    return bytes(encoded)


class Maker:
    """Makes one random object. Most of its parts are well formed."""

    def __init__(self, chance):
        self.chance = chance
        self.info, self.abbrev, self.lines = b"", b"", b""
        self.starts, self.ats = [], []
        self.string = b"".join(name + b"\0" for name in NAMES)
        self.line_string = b"/src\0lib\0a.c\0\0/inc/\0x.c\0"
        if chance.random() < 0.1:  # strings that do not fit in the buffer of a reply
            long = b"n/" * chance.choice([1020, 1024, 2048, 5000]) + b"\2z\0"
            self.string, self.line_string = self.string + long, self.line_string + long

    def often(self):
        return self.chance.random() < 0.97

    def near(self):
        """Returns an address near those that are looked up."""
        if self.chance.random() < 0.03:
            return self.chance.choice([TOP, TOP - 1, 0])
        return 0xFF8 + 4 * self.chance.randrange(10)

    def text(self, width):
        """Returns the form and the bytes of a string."""
        form = self.chance.choice([0x08, 0x0E, 0x1F])
        if form == 0x08:
            return form, self.chance.choice(NAMES) + b"\0"
        return form, self.offset_in(self.string if form == 0x0E else self.line_string, width)

    def offset_in(self, section, width):
        """Returns the bytes of an offset in a section."""
        return self.chance.randrange(len(section)).to_bytes(width, "little")

    # Line programs.

    def table(self, width, count, has_index):
        path = self.chance.choice([0x08, 0x0E, 0x1F])
        pairs = [(1, path)]
        if has_index and self.often():
            pairs.append((2, self.chance.choice([0x0B, 0x05, 0x0F])))
        if self.chance.random() < 0.3:
            pairs.append((5, 0x1E))
        self.chance.shuffle(pairs)
        made = bytes([len(pairs)]) + b"".join(uleb(c) + uleb(f) for c, f in pairs) + uleb(count)
        for _ in range(count):
            for content, form in pairs:
                if content == 1:
                    section = self.string if form == 0x0E else self.line_string
                    text = self.chance.choice(NAMES) + b"\0"
                    made += text if form == 8 else self.offset_in(section, width)
                elif content == 2:
                    size = {0x0B: 1, 0x05: 2, 0x0F: 1}[form]
                    made += self.chance.randrange(2).to_bytes(size, "little")
                else:
                    made += bytes(16)
        return made

    def instructions(self, opcode_base):
        made = b""
        for _ in range(self.chance.randrange(4)):
            made += bytes([0, 9, 2]) + struct.pack("<Q", self.near()) + b"\3\x20"
            for _ in range(self.chance.randrange(6)):
                made += self.chance.choice([
                    b"\1", b"\2" + uleb(self.chance.randrange(9)),
                    b"\3" + sleb(self.chance.randrange(-1, 40)),
                    b"\4" + uleb(self.chance.randrange(2)),
                    b"\5\7", b"\6", b"\7", b"\x08", b"\x09\3\0",
                    bytes([self.chance.randrange(opcode_base, 256)]), bytes([0, 3, 9, 1, 2])])
            made += bytes([0, 1, 1]) if self.often() else b""
        return made

    def program(self):
        width = self.chance.choice([4, 4, 8])
        opcode_base = self.chance.choice([13, 13, 10, 14])
        lengths = (bytes([0, 1, 1, 1, 1, 0, 0, 0, 1, 0, 0, 1]) + b"\2")[:opcode_base - 1]
        fields = bytes([self.chance.choice([1, 1, 4]), 1, 1, self.chance.choice([0xFB, 0, 3]),
                        self.chance.choice([14, 1, 12]), opcode_base]) + lengths
        fields += self.table(width, 2, False) + self.table(width, 2, True)
        rest = struct.pack("<HBB", 5, 8, 0) + len(fields).to_bytes(width, "little") + fields
        rest += self.instructions(opcode_base)
        self.starts.append(len(self.lines))
        self.lines += self.length(width, len(rest)) + rest

    def length(self, width, length):
        if width == 4:
            return struct.pack("<I", length)
        return b"\xff\xff\xff\xff" + struct.pack("<Q", length)

    # Tables of a unit.

    def tables(self):
        offsets = [self.chance.randrange(len(self.string)) for _ in range(4)]
        self.addresses = [self.near() for _ in range(6)]
        self.bases, made = {}, dict.fromkeys(BASES, b"")
        for width in (4, 8):
            strings = b"".join(offset.to_bytes(width, "little") for offset in offsets)
            addresses = b"".join(struct.pack("<Q", address) for address in self.addresses)
            lists, places = b"", []
            for _ in range(3):
                places.append(3 * width + len(lists))
                lists += self.range_list()
            lists = b"".join(place.to_bytes(width, "little") for place in places) + lists
            for name, head, body in ((".debug_str_offsets", b"\5\0\0\0", strings),
                                     (".debug_addr", b"\5\0\x08\0", addresses),
                                     (".debug_rnglists", b"\5\0\x08\0\3\0\0\0", lists)):
                made[name] += self.length(width, len(head + body)) + head
                self.bases[width, name] = len(made[name])
                made[name] += body
        self.lists = self.bases[4, ".debug_rnglists"] + places[0] - 24 + 12
        return made

    def range_list(self):
        made = b""
        for _ in range(self.chance.randrange(5)):
            low, size = self.near(), self.chance.randrange(24)
            index = bytes([self.chance.randrange(6)])
            made += self.chance.choice([
                b"\1" + index, b"\3" + index + uleb(size), b"\4" + uleb(size) + uleb(size + 4),
                b"\5" + struct.pack("<Q", low), b"\7" + struct.pack("<Q", low) + uleb(size),
                b"\6" + struct.pack("<QQ", low, min(low + size, TOP))])
        return made + b"\0"

    # Entries.

    def address(self):
        form = self.chance.choice([0x01, 0x01, 0x1B, 0x29, 0x2A])
        return form, struct.pack("<Q", self.near()) if form == 1 else self.index(form)

    def index(self, form):
        return self.chance.randrange(4).to_bytes(INDEX_SIZES[form], "little")

    def name(self, width):
        if self.chance.random() < 0.5:
            return self.text(width)
        form = self.chance.choice([0x1A, 0x25, 0x26])
        return form, self.index(form)

    def reference(self, start, width):
        """Returns a reference to an earlier entry, mostly of the same unit."""
        own = [at for at in self.ats if at >= start]
        if own and self.chance.random() < 0.8:
            return 0x13, struct.pack("<I", self.chance.choice(own) - start)
        return 0x10, self.chance.choice(self.ats or [0]).to_bytes(width, "little")

    def attributes(self, tag, start, width):
        found = {}
        if self.chance.random() < 0.7:
            found[0x03] = self.name(width)
        if self.chance.random() < 0.3:
            found[0x6E] = self.name(width)
        if self.chance.random() < 0.35:
            found[self.chance.choice([0x31, 0x47])] = self.reference(start, width)
        ranged = self.chance.random()
        if ranged < 0.6:
            found[0x11] = self.address()
            found[0x12] = self.chance.choice([(0x0B, b"\x18"), (0x05, b"\x10\0"), (0x0F, b"\x0c"),
                                              (0x0D, b"\x20"), (0x21, b"")])
        elif ranged < 0.8 and self.bases:
            found[0x55] = self.chance.choice([(0x23, b"\1"), (0x23, b"\2"),
                                              (0x17, self.lists.to_bytes(width, "little"))])
        if tag == 0x1D and self.chance.random() < 0.8:
            found[0x58] = self.chance.choice([(0x0B, b"\1"), (0x0F, b"\0"), (0x21, b"")])
            found[0x59] = (0x05, b"\7\1")
        if self.chance.random() < 0.2:
            found[0x49] = self.chance.choice([(0x19, b""), (0x18, b"\2ab"), (0x20, bytes(8)),
                                              (0x22, b"\5"), (0x1E, bytes(16))])
        return found

    def declare(self, tag, children, found):
        """Appends a declaration and returns the bytes of an entry that uses it."""
        self.code += 1
        pairs, values = b"", b""
        for attribute, (form, read) in found.items():
            if form != 0x21 and self.chance.random() < 0.05:
                pairs, values = pairs + uleb(attribute) + b"\x16", values + uleb(form) + read
            else:
                constant = sleb(self.chance.randrange(2)) if form == 0x21 else b""
                pairs += uleb(attribute) + uleb(form) + constant
                values += read
        self.abbrev += uleb(self.code) + uleb(tag) + bytes([children]) + pairs + b"\0\0"
        return uleb(self.code) + values

    def unit(self):
        width = self.chance.choice([4, 4, 8])
        start, head = len(self.info), 12 if width == 4 else 24
        place, self.code, depth, body = len(self.abbrev), 0, 1, b""
        root = {}
        if self.starts and self.often():
            root[0x10] = (0x17, self.chance.choice(self.starts).to_bytes(width, "little"))
        if self.often():
            root[0x11] = self.address()
        for (of, name), base in self.bases.items():
            if of == width and self.often():
                root[BASES[name]] = (0x17, base.to_bytes(width, "little"))
        body += self.declare(self.chance.choice([0x11, 0x11, 0x3C, 0x2E]), 1, root)
        for _ in range(self.chance.randrange(9)):
            tag = self.chance.choice([0x2E, 0x1D, 0x1D, 0x0B, 0x34])
            children = self.chance.randrange(2)
            if self.chance.random() < 0.02:
                self.ats.append(start + head + len(body))  # the entry may refer to itself
            entry = self.declare(tag, children, self.attributes(tag, start, width))
            self.ats.append(start + head + len(body))
            body += entry
            depth += children
            while depth > 1 and self.chance.random() < 0.4:
                body, depth = body + b"\0", depth - 1
        self.abbrev += b"\0"
        kind = self.chance.choice([1, 1, 1, 1, 3, 2])
        rest = struct.pack("<HBB", 5, kind, 8) + place.to_bytes(width, "little")
        rest += body + bytes(depth)
        self.info += self.length(width, len(rest)) + rest

    def make(self):
        """Returns the sections of an object in random order."""
        for _ in range(self.chance.choice([0, 1, 1, 1, 2])):
            self.program()
        found = self.tables() if self.often() else {}
        self.bases = self.bases if found else {}
        for _ in range(self.chance.randrange(1, 4)):
            self.unit()
        found.update({".debug_info": self.info, ".debug_abbrev": self.abbrev,
                      ".debug_line": self.lines, ".debug_str": self.string,
                      ".debug_line_str": self.line_string})
        sections = list(found.items())
        self.chance.shuffle(sections)
        return sections
