"""Reference implementation of one object: its first fault, or the frames of each link address,
found by a scan over all rows and scopes."""
from plain_bytes import TOP, Bad, Cursor, Fault, read_elf
from plain_entries import (CALL_FILE, CALL_LINE, COUNT, HIGH_PC, INFO, LINKAGE, LOW_PC, MOST, NAME,
                           RANGES, STMT_LIST, address, item_at, name_of, path_of, read_entries,
                           read_root, read_tables, read_units)
from plain_lines import read_lines


class RangeList:
    """The reader of a range list."""

    def __init__(self, found, unit, left):
        self.found, self.unit, self.base = found, unit, unit.low_pc
        self.left, self.ranges = left, []

    def operand(self, cursor, kind):
        """Reads an operand: the index of an address, a number or an address."""
        if kind == "index":
            return item_at(self.found, self.unit, ".debug_addr", cursor.uleb())
        return cursor.uleb() if kind == "number" else cursor.fixed(8)

    def add(self, start, end):
        if end > TOP:
            raise Bad("overflow")
        if end < start:
            raise Bad("range-backwards")
        if start < end:
            self.ranges.append((start, end))

    def offsets(self, first, second):
        if self.base is None:
            raise Bad("base")
        if self.base != TOP:
            if self.base + first > TOP:
                raise Bad("overflow")
            self.add(self.base + first, self.base + second)

    def read(self, cursor):
        kinds = {1: ("index",), 2: ("index", "index"), 3: ("index", "number"),
                 4: ("number", "number"), 5: ("address",), 6: ("address", "address"),
                 7: ("address", "number")}
        while True:
            kind = cursor.fixed(1)
            if kind > 7:
                raise Bad("range-kind")
            if kind == 0:
                return self.ranges
            if self.left == 0:
                raise Bad("too-many")
            self.left -= 1
            numbers = [self.operand(cursor, operand) for operand in kinds[kind]]
            if kind in (1, 5):
                self.base = numbers[0]
            elif kind == 4:
                self.offsets(*numbers)
            elif numbers[0] != TOP:
                first, second = numbers
                self.add(first, first + second if kind in (3, 7) else second)


def pair(found, scope):
    """Returns the range from low_pc to high_pc in a list, or no range if it is empty or dead."""
    low = address(found, scope.unit, *scope.used[LOW_PC])
    form, high = scope.used[HIGH_PC]
    if form in COUNT:
        high += low
    else:
        high = address(found, scope.unit, form, high)
    if low == TOP:
        return []
    if high > TOP:
        raise Bad("overflow")
    if high < low:
        raise Bad("range-backwards")
    return [(low, high)] if low < high else []


def ranges_of(found, scope, left):
    """Returns the non-empty ranges of a scope, and the number of range items that the object may
    still have."""
    used = scope.used
    has_both = RANGES in used and (LOW_PC in used or HIGH_PC in used)
    if has_both or HIGH_PC in used and LOW_PC not in used:
        raise Bad("pc-and-ranges")
    if HIGH_PC in used:
        if left == 0:
            raise Bad("too-many")
        return pair(found, scope), left - 1
    if RANGES not in used:
        return [], left
    form, place = used[RANGES]
    section = found[".debug_rnglists"]
    if form == 0x23:
        place = item_at(found, scope.unit, ".debug_rnglists", place)
        place += scope.unit.tables[".debug_rnglists"][0]
    ranges, count = scope.unit.lists.get(place, (None, TOP))
    if count > left:
        reading = RangeList(found, scope.unit, left)
        ranges = reading.read(Cursor(section, place, len(section)))
        count = left - reading.left
        scope.unit.lists[place] = (ranges, count)
    return ranges, left - count


def read_scopes(found):
    """Returns the units, and the scopes of all units in file order."""
    info = found[INFO]
    units = read_units(info)
    tables = read_tables(found[".debug_abbrev"], units)
    for unit in units:
        read_entries(info, unit, tables[unit.place])
    for unit in units:
        if unit.root:
            read_root(found, unit)
    entries = {at: entry for unit in units for at, entry in unit.entries.items()}
    scopes, left = [entry for entry in entries.values() if entry.tag in (0x2E, 0x1D)], MOST
    for number, scope in enumerate(scopes):
        try:
            path = path_of(scope, entries)
            scope.name, scope.linkage = name_of(found, path, NAME), name_of(found, path, LINKAGE)
            scope.ranges, left = ranges_of(found, scope, left)
        except Bad as bad:
            raise Fault(INFO, bad.cause, scope.at) from bad
        scope.index, scope.end = number, len(scopes)
    end_scopes(scopes)
    return units, scopes


def end_scopes(scopes):
    """Sets the end of each scope: the index of the first later scope that is not a descendant.
    Any entry may end a scope, so the depths of entries that are not scopes count too."""
    for scope in scopes:
        later = (entry for at, entry in scope.unit.entries.items()
                 if at > scope.at and entry.depth <= scope.depth)
        past = next(later, None)
        limit = past.at if past else scope.unit.end
        after = (other.index for other in scopes[scope.index + 1:] if other.at >= limit)
        scope.end = next(after, len(scopes))


class PlainModule:
    """An object. The constructor raises the first fault of the object."""

    def __init__(self, data):
        found, self.low, self.high = read_elf(data)
        self.rows, self.programs, offsets = read_lines(found)
        units, self.scopes = read_scopes(found)
        for unit in units:
            self.join(unit, offsets)
        self.offsets = offsets

    def join(self, unit, offsets):
        """Cross-checks the entries of a unit and the line programs."""
        start = unit.root.number(STMT_LIST) if unit.root else None
        if start is not None and start not in offsets:
            raise Fault(INFO, "stmt-list", unit.root.at)
        for scope in self.scopes:
            file = scope.number(CALL_FILE)
            if scope.unit is not unit or scope.tag != 0x1D or file is None:
                continue
            if start is None or file >= len(self.programs[offsets[start]].files):
                raise Fault(INFO, "call-file", scope.at)

    def row_of(self, link):
        for row, after in zip(self.rows, self.rows[1:]):
            if not row.is_end and row.address <= link < after.address:
                return row
        return None

    def chain_of(self, link):
        containing = [scope for scope in self.scopes
                if any(low <= link < high for low, high in scope.ranges)]
        chain = [scope for scope in containing if scope.tag == 0x2E][:1]
        for scope in containing:
            if chain and scope.tag == 0x1D and chain[-1].index < scope.index < chain[-1].end:
                chain.append(scope)
        return chain

    def call(self, scope):
        """Returns the path and the line of the call of a scope."""
        file, line, path = scope.number(CALL_FILE), scope.number(CALL_LINE), None
        if file is not None:
            start = scope.unit.root.number(STMT_LIST)
            path = self.programs[self.offsets[start]].path(file)
        return path, line or 0

    def frames(self, link):
        """Returns the frames of an address as (name, linkage name, path, line), innermost first."""
        row, chain = self.row_of(link), self.chain_of(link)
        place = (None, 0)
        if row:
            place = (self.programs[row.program].path(row.file), row.line)
        if not chain:
            return [(None, None, *place)] if row else []
        found = []
        for scope in reversed(chain):
            found.append((scope.name, scope.linkage, *place))
            place = self.call(scope)
        return found
