"""Reference implementation: rows and file paths of line programs (DWARF 5, section 6.2)."""
from plain_bytes import FORMS, TOP, Bad, Cursor, Fault, text_at, value

OPERANDS = (0, 1, 1, 1, 1, 0, 0, 0, 1, 0, 0, 1)  # of the standard opcodes from 1 on


class Row:
    def __init__(self, address, program, file, line, is_end):
        self.address, self.is_end = address, is_end
        self.program, self.file, self.line = program, file, line


class Program:
    """The header of a line program: its parameters, directories and files."""

    def __init__(self, directories, files, parameters):
        self.directories, self.files = directories, files
        self.least, self.line_base, self.line_range, self.opcode_base, self.lengths = parameters

    def path(self, number):
        """Joins the non-empty parts of a file's path with slashes."""
        text, directory = self.files[number]
        parts = [text]
        if not text.startswith(b"/"):
            parts.insert(0, self.directories[directory])
            if directory != 0 and not parts[0].startswith(b"/"):
                parts.insert(0, self.directories[0])
        return b"/".join(part for part in parts if part)


def parameters(cursor):
    """Reads the parameters of a header: the minimum instruction length, line_base, line_range,
    opcode_base, and the number of operands of each standard opcode."""
    least = cursor.fixed(1)
    if cursor.fixed(1) != 1:
        raise Bad("line-params")
    cursor.fixed(1)  # default_is_stmt
    base = cursor.fixed(1)
    line_range = cursor.fixed(1)
    if line_range == 0:
        raise Bad("line-params")
    opcode_base = cursor.fixed(1)
    if opcode_base == 0:
        raise Bad("line-params")
    lengths = []
    for opcode in range(1, opcode_base):
        lengths.append(cursor.fixed(1))
        if opcode <= 12 and lengths[-1] != OPERANDS[opcode - 1]:
            raise Bad("opcode-lengths")
    return least, base - 256 if base > 127 else base, line_range, opcode_base, lengths


def is_format(pairs, has_index):
    """Returns whether a format is valid: one path, and for files at most one directory index."""
    indexes = [form for content, form in pairs if has_index and content == 2]
    others = [form for content, form in pairs if content != 1 and not (has_index and content == 2)]
    paths = [form for content, form in pairs if content == 1]
    return (len(paths) == 1 and paths[0] in (0x08, 0x0E, 0x1F) and len(indexes) <= 1
            and all(form in (0x0B, 0x05, 0x0F) for form in indexes)
            and all(form in FORMS and form not in (0x16, 0x21) for form in others))


def entries(cursor, width, texts, directories):
    """Reads the entries of a table as (path, directory index). `directories` is the number of
    directories, or None for the table of directories."""
    pairs = [(cursor.uleb(), cursor.uleb()) for _ in range(cursor.fixed(1))]
    count = cursor.uleb()
    found = []
    if count and not is_format(pairs, directories is not None):
        raise Bad("file-format")
    for _ in range(count):
        text, directory = b"", 0
        for content, form in pairs:
            read = value(cursor, form, width)
            if content == 1:
                text = read if form == 0x08 else text_at(texts[form], read)
            elif content == 2:
                directory = read
        if directories is not None and directory >= directories:
            raise Bad("dir-index")
        found.append((text, directory))
    return found


class Machine:
    """The registers of the line state machine, and the rows so far."""

    def __init__(self, number, program):
        self.number, self.program, self.rows = number, program, []
        self.is_open = False
        self.begin()

    def begin(self):
        self.address, self.line, self.file = 0, 1, 1
        self.mark = self.before = None
        self.is_first, self.at_tombstone = True, False

    def row(self, is_end=False):
        if self.is_first:
            self.at_tombstone, self.is_first = self.mark == TOP, False
        self.is_open = not is_end
        if not self.at_tombstone:
            self.check_row(is_end)
            file, line = (0, 0) if is_end else (self.file, self.line)
            self.rows.append(Row(self.address, self.number, file, line, is_end))
            self.before = self.address
        if is_end:
            self.begin()

    def check_row(self, is_end):
        if self.address > TOP:
            raise Bad("overflow")
        if self.before is not None and self.address < self.before:
            raise Bad("goes-back")
        if not is_end and not 0 <= self.line < 1 << 32:
            raise Bad("line-range")
        if not is_end and self.file >= len(self.program.files):
            raise Bad("file-index")

    def special(self, opcode):
        """Returns the address advance and the line advance of a special opcode."""
        apart = opcode - self.program.opcode_base
        return (self.program.least * (apart // self.program.line_range),
                self.program.line_base + apart % self.program.line_range)

    def read_extended(self, cursor):
        length = cursor.uleb()
        if length == 0:
            raise Bad("extended")
        body = cursor.take(length)
        if (body[0], length == 1) == (1, False) or (body[0], length == 9) == (2, False):
            raise Bad("extended")
        if body[0] == 1:
            self.row(is_end=True)
        elif body[0] == 2:
            self.address = int.from_bytes(body[1:], "little")
            if self.is_first:
                self.mark = self.address

    def standard(self, opcode, cursor):
        if opcode == 1:
            self.row()
        elif opcode == 2:
            self.address += cursor.uleb() * self.program.least
        elif opcode == 3:
            self.line += cursor.sleb()
        elif opcode == 4:
            self.file = cursor.uleb()
        elif opcode == 8:
            self.address += self.special(255)[0]
        elif opcode == 9:
            self.address += cursor.fixed(2)
        else:
            for _ in range(self.program.lengths[opcode - 1]):
                cursor.uleb()

    def run(self, cursor):
        while cursor.at < cursor.end:
            opcode = cursor.fixed(1)
            if opcode >= self.program.opcode_base:
                address, line = self.special(opcode)
                self.address += address
                self.line += line
                self.row()
            elif opcode == 0:
                self.read_extended(cursor)
            else:
                self.standard(opcode, cursor)
        if self.is_open:
            raise Bad("sequence-open")


def read_program(cursor, number, texts):
    """Reads a program and its rows. Sets the end of the cursor to the end of the program."""
    width, length = cursor.initial_length()
    end = cursor.at + length
    if end > cursor.end:
        raise Bad("short")
    cursor.end = end
    for count, wanted, cause in ((2, 5, "version"), (1, 8, "address-size"), (1, 0, "segment")):
        if cursor.fixed(count) != wanted:
            raise Bad(cause)
    header_length = cursor.offset(width)
    first = cursor.at + header_length
    if first > end:
        raise Bad("short")
    header = Cursor(cursor.data, cursor.at, first)
    numbers = parameters(header)
    directories = entries(header, width, texts, None)
    files = entries(header, width, texts, len(directories))
    program = Program([text for text, _ in directories], files, numbers)
    machine = Machine(number, program)
    cursor.at = first
    machine.run(cursor)
    return program, machine.rows


def read_lines(found):
    """Returns all rows in file order, the programs, and the index of each program by its offset."""
    line = found[".debug_line"]
    texts = {0x0E: found[".debug_str"], 0x1F: found[".debug_line_str"]}
    rows, programs, offsets, at = [], [], {}, 0
    while at < len(line):
        cursor = Cursor(line, at, len(line))
        try:
            program, more = read_program(cursor, len(programs), texts)
        except Bad as bad:
            raise Fault(".debug_line", bad.cause, at) from bad
        offsets[at] = len(programs)
        programs.append(program)
        rows.extend(more)
        at = cursor.end
    return rows, programs, offsets
