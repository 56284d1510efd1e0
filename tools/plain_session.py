"""Reference implementation of the replies of addr2line_live to lines of input.

It has a list of loaded objects, which plain_module.py reads and scans. It has no index, no cache
and no sorted lists.
"""
import re

from plain_bytes import TOP, Fault
from plain_module import PlainModule

MOST_MODULES = 4096
CONTROL = bytes(63 if byte < 32 or byte == 127 else byte for byte in range(256))  # 63 is `?`


class Refusal(Exception):
    """The reason why a line is refused."""


def number(text):
    match = re.fullmatch(rb"(?:0x)?([0-9a-fA-F]{1,16})", text)
    return None if match is None else int(match[1], 16)


def hexadecimal(value):
    return b"0x%016x" % value


class Session:
    """A run with options, which are given as letters, with `l` for linkage names."""

    def __init__(self, letters=""):
        self.letters, self.modules, self.parsed = letters, {}, {}

    def read(self, path):
        """Returns the module of a file, or its fault as a string."""
        try:
            with open(path, "rb") as file:
                data = file.read()
        except OSError as error:
            raise Refusal("file") from error
        if data not in self.parsed:
            try:
                self.parsed[data] = PlainModule(data)
            except Fault as fault:
                self.parsed[data] = str(fault)
        return self.parsed[data]

    def reply(self, line):
        """Returns the reply to a line."""
        try:
            return self.done(line)
        except Refusal as refusal:
            return b"refused " + str(refusal).encode("latin-1") + b"\n"

    def done(self, line):
        if len(line) > 4096:
            raise Refusal("long-line")
        if line == b"":
            return b""
        fields = line.split(b" ")
        serve = {b"load": self.load, b"unload": self.unload, b"move": self.move, b"list": self.list}
        if fields[0] in serve:
            return serve[fields[0]](fields[1:])
        if len(fields) > 1 or number(line) is None:
            raise Refusal("command")
        return self.answer(number(line))

    def operands(self, fields):
        """Parses a name and a base."""
        if re.fullmatch(rb"[A-Za-z0-9_.-]{1,64}", fields[0]) is None:
            raise Refusal("name")
        base = number(fields[1]) if len(fields) > 1 else 0
        if base is None:
            raise Refusal("number")
        return fields[0], base

    def load(self, fields):
        if len(fields) < 3:
            raise Refusal("fields")
        name, base = self.operands(fields)
        path = b" ".join(fields[2:])
        try:
            path.decode("utf-8")
        except UnicodeDecodeError as error:
            raise Refusal("path") from error
        if path == b"" or b"\0" in path:
            raise Refusal("path")
        module = self.read(path)
        if name in self.modules:
            raise Refusal("name-taken")
        if len(self.modules) == MOST_MODULES:
            raise Refusal("full")
        if isinstance(module, str):
            raise Refusal("object " + module)
        self.place(name, base, module)
        return self.at(b"loaded ", name)

    def place(self, name, base, module):
        """Places a module at a base, unless it overlaps another module."""
        if base + module.high > TOP:
            raise Refusal("range")
        low, high = base + module.low, base + module.high
        for other, other_base, loaded in self.rising():
            if other != name and low < other_base + loaded.high and other_base + loaded.low < high:
                raise Refusal("overlap " + other.decode())
        self.modules[name] = (base, module)

    def rising(self):
        found = [(name, base, module) for name, (base, module) in self.modules.items()]
        return sorted(found, key=lambda item: item[1] + item[2].low)

    def at(self, done, name):
        base, module = self.modules[name]
        low, high = hexadecimal(base + module.low), hexadecimal(base + module.high)
        return done + name + b" %s-%s\n" % (low, high)

    def unload(self, fields):
        if len(fields) != 1:
            raise Refusal("fields")
        name, _ = self.operands(fields)
        if self.modules.pop(name, None) is None:
            raise Refusal("no-module")
        return b"unloaded " + name + b"\n"

    def move(self, fields):
        if len(fields) != 2:
            raise Refusal("fields")
        name, base = self.operands(fields)
        if name not in self.modules:
            raise Refusal("no-module")
        self.place(name, base, self.modules[name][1])
        return self.at(b"moved ", name)

    def list(self, fields):
        if fields:
            raise Refusal("fields")
        lines = [self.at(b"module ", name)[:-1] + b" " + hexadecimal(base) + b"\n"
                 for name, base, _ in self.rising()]
        return b"".join(lines) + b"end\n"

    def answer(self, asked):
        frames = []
        for base, module in self.modules.values():
            if module.low <= asked - base < module.high:
                frames = module.frames(asked - base)
        return self.text(asked, frames)

    def text(self, asked, frames):
        """Formats an answer."""
        has, text = self.letters.__contains__, b""
        shown = frames if has("i") else frames[:1]
        if has("a"):
            text = hexadecimal(asked) + (b": " if has("p") else b"\n")
        if not frames:
            name = (b"?? " if has("p") else b"??\n") if has("f") else b""
            return text + name + b"??:0\n"
        for place, frame in enumerate(shown):
            if place and has("p"):
                text += b" (inlined by) "
            text += self.frame(*frame)
        return text

    def frame(self, name, linkage, path, line):
        has = self.letters.__contains__
        if has("l") and linkage is not None:
            name = linkage
        if has("s") and path:
            path = path[path.rfind(b"/") + 1:]
        name, path = ((text or b"??").translate(CONTROL) for text in (name, path))
        head = name + (b" at " if has("p") else b"\n") if has("f") else b""
        return head + path + b":%d\n" % line
