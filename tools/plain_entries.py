"""Reference implementation: units, entries and names (DWARF 5, chapters 2, 3 and 7.5)."""
from plain_bytes import FORMS, Bad, Cursor, Fault, text_at, value

INFO = ".debug_info"
INDEXED_ADDRESS = {0x1B, 0x29, 0x2A, 0x2B, 0x2C}
INDEXED_TEXT = {0x1A, 0x25, 0x26, 0x27, 0x28}
ADDRESS = {0x01} | INDEXED_ADDRESS
COUNT = {0x05, 0x06, 0x07, 0x0B, 0x0F, 0x0D, 0x21}
TEXT = {0x08, 0x0E, 0x1F} | INDEXED_TEXT
REFERENCE = {0x10, 0x11, 0x12, 0x13, 0x14, 0x15, 0x20}
(STMT_LIST, NAME, LOW_PC, HIGH_PC, ORIGIN, SPECIFICATION, RANGES, CALL_FILE, CALL_LINE, LINKAGE) = (
    0x10, 0x03, 0x11, 0x12, 0x31, 0x47, 0x55, 0x58, 0x59, 0x6E)
BASES = {".debug_str_offsets": 0x72, ".debug_addr": 0x73, ".debug_rnglists": 0x74}
USED = {NAME: TEXT, LINKAGE: TEXT, LOW_PC: ADDRESS, HIGH_PC: ADDRESS | COUNT, CALL_FILE: COUNT,
        CALL_LINE: COUNT, ORIGIN: REFERENCE, SPECIFICATION: REFERENCE, RANGES: {0x17, 0x23},
        STMT_LIST: {0x17}, 0x72: {0x17}, 0x73: {0x17}, 0x74: {0x17}}
MOST = 4_194_304  # declarations, and range items, of an object


class Unit:
    def __init__(self, start, width, place, first, end):
        self.start, self.width, self.place, self.first, self.end = start, width, place, first, end
        self.root, self.low_pc, self.tables, self.entries = None, None, {}, {}
        self.lists = {}  # the ranges and the number of items of each list that was read


class Entry:
    """An entry with its used attributes as (form, value). Only scopes have an index, ranges, names
    and `end`, the index of the first later scope that is not a descendant."""

    def __init__(self, at, depth, tag, unit):
        self.at, self.depth, self.tag, self.unit, self.used = at, depth, tag, unit, {}

    def number(self, attribute):
        found = self.used.get(attribute)
        return None if found is None else found[1]


def read_unit(info, at):
    cursor = Cursor(info, at, len(info))
    width, length = cursor.initial_length()
    cursor.end, end = cursor.at + length, cursor.at + length
    if end > len(info):
        raise Bad("short")
    if cursor.fixed(2) != 5:
        raise Bad("version")
    kind = cursor.fixed(1)
    if kind not in (1, 2, 3):
        raise Bad("unit-type")
    if kind == 2:
        return None, end
    if cursor.fixed(1) != 8:
        raise Bad("address-size")
    place = cursor.offset(width)
    return Unit(at, width, place, cursor.at, end), end


def read_units(info):
    units, at = [], 0
    while at < len(info):
        try:
            unit, end = read_unit(info, at)
        except Bad as bad:
            raise Fault(INFO, bad.cause, at) from bad
        if unit is not None:
            units.append(unit)
        at = end
    return units


def read_attributes(cursor):
    attributes = {}
    while True:
        name, form = cursor.uleb(), cursor.uleb()
        if name == 0 and form == 0:
            return list(attributes.items())
        if name == 0 or form not in FORMS:
            raise Bad("form")
        if name in attributes:
            raise Bad("attr-twice")
        attributes[name] = (form, cursor.sleb() if form == 0x21 else None)


def read_table(section, place, left):
    """Returns the declarations of the table at `place` by code. `left` is the number of
    declarations that the object may still have."""
    found, cursor = {}, Cursor(section, place, len(section))
    while True:
        at = cursor.at
        try:
            code = cursor.uleb()
            if code == 0:
                return found
            if len(found) >= left:
                raise Bad("too-many")
            if code in found:
                raise Bad("abbrev-twice")
            tag, children = cursor.uleb(), cursor.fixed(1)
            if children > 1:
                raise Bad("children")
            found[code] = (tag, children, read_attributes(cursor))
        except Bad as bad:
            raise Fault(".debug_abbrev", bad.cause, at) from bad


def read_tables(section, units):
    tables, left = {}, MOST
    for unit in units:
        if unit.place not in tables or len(tables[unit.place]) > left:
            tables[unit.place] = read_table(section, unit.place, left)
        left -= len(tables[unit.place])
    return tables


def read_entry(cursor, entry, attributes):
    for name, (form, constant) in attributes:
        if form == 0x16:
            form = cursor.uleb()
            if form not in FORMS or form in (0x16, 0x21):
                raise Bad("form")
        if name in USED and form not in USED[name]:
            raise Bad("attr-form")
        read = value(cursor, form, entry.unit.width, constant)
        if name in USED:
            if USED[name] >= COUNT and form in (0x0D, 0x21) and read < 0:
                raise Bad("attr-form")
            entry.used[name] = (form, read)


def read_entries(info, unit, table):
    cursor, depth = Cursor(info, unit.first, unit.end), 0
    while cursor.at < unit.end:
        at = cursor.at
        try:
            code = cursor.uleb()
            if code == 0:
                depth = max(depth - 1, 0)
                continue
            if code not in table:
                raise Bad("abbrev-code")
            tag, children, attributes = table[code]
            if depth == 0 and unit.root:
                raise Bad("two-roots")
            if depth > 256:
                raise Bad("too-deep")
            entry = Entry(at, depth, tag, unit)
            read_entry(cursor, entry, attributes)
        except Bad as bad:
            raise Fault(INFO, bad.cause, at) from bad
        unit.entries[at] = entry
        unit.root = unit.root or entry
        depth += children
    if depth:
        raise Fault(INFO, "tree-open", unit.start)


def head(section, base, name, width):
    """Checks the header of a table. Returns the width and the number of its items."""
    size = {".debug_rnglists": 12}.get(name, 8) + (8 if width == 8 else 0)
    if base < size or base > len(section):
        raise Bad("base")
    cursor = Cursor(section, base - size, len(section))
    own, length = cursor.initial_length()
    if own != width:
        raise Bad("length")
    end = cursor.at + length
    if end > len(section) or end < base:
        raise Bad("short")
    if cursor.fixed(2) != 5:
        raise Bad("version")
    if name != ".debug_str_offsets":
        if cursor.fixed(1) != 8:
            raise Bad("address-size")
        if cursor.fixed(1) != 0:
            raise Bad("segment")
    item = 8 if name == ".debug_addr" else width
    count = cursor.fixed(4) if name == ".debug_rnglists" else (end - base) // item
    if base + item * count > end:
        raise Bad("short")
    return item, count


def item_at(found, unit, name, index):
    if name not in unit.tables:
        raise Bad("base")
    base, width, count = unit.tables[name]
    if index >= count:
        raise Bad("index")
    place = base + width * index
    return int.from_bytes(found[name][place:place + width], "little")


def address(found, unit, form, number):
    return item_at(found, unit, ".debug_addr", number) if form in INDEXED_ADDRESS else number


def read_root(found, unit):
    root = unit.root
    try:
        for name, attribute in BASES.items():
            base = root.number(attribute)
            if base is not None:
                unit.tables[name] = (base, *head(found[name], base, name, unit.width))
        if LOW_PC in root.used:
            unit.low_pc = address(found, unit, *root.used[LOW_PC])
    except Bad as bad:
        raise Fault(INFO, bad.cause, root.at) from bad


def next_of(entry, entries):
    """Returns a function that finds the abstract origin of an entry, otherwise its specification.
    Returns None if there is neither."""
    form, number = entry.used.get(ORIGIN) or entry.used.get(SPECIFICATION) or (0x20, 0)
    if form == 0x20:
        return None
    if form == 0x10:
        return lambda: entries.get(number)
    return lambda: entry.unit.entries.get(entry.unit.start + number)


def path_of(entry, entries):
    path = [entry]
    while (target := next_of(path[-1], entries)) is not None:
        if len(path) == 17:
            raise Bad("origin-depth")
        found = target()
        if found is None:
            raise Bad("reference")
        path.append(found)
    return path


def name_of(found, path, attribute):
    for entry in path:
        if attribute not in entry.used:
            continue
        form, read = entry.used[attribute]
        if form == 0x08:
            return read
        if form in INDEXED_TEXT:
            read = item_at(found, entry.unit, ".debug_str_offsets", read)
        return text_at(found[".debug_line_str" if form == 0x1F else ".debug_str"], read)
    return None
