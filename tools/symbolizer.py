"""Looks up addresses with one process of addr2line_live, and demangles names."""
import sys
from typing import NamedTuple

from demangle import Demangler
from live import Ended, Live
from loaded_objects import PAGE

UNKNOWN = ("??", "??:0")


class Extent(NamedTuple):
    """The addresses of a loaded object."""

    base: int
    low: int
    high: int  # exclusive


def extent_of(base, reply):
    """Returns the extent in the reply to a load or a move, or None if it was refused."""
    if reply.startswith("refused "):
        return None
    low, _, high = reply.rpartition(" ")[2].partition("-")
    return Extent(base, int(low, 16), int(high, 16))


class Answers:
    """A process of addr2line_live that answers with all frames and with demangled names."""

    def __init__(self, tool, path=None):
        """Starts the program. Messages name the tool."""
        self.tool, self.demangler = tool, Demangler()
        self.live = Live("-f", "-i", "--linkage", path=path)

    def reply(self, line):
        """Returns the lines of the reply to a line."""
        try:
            return self.live.say(line)
        except Ended:
            raise SystemExit(f"{self.tool}: addr2line_live has ended") from None

    def warn(self, message):
        print(f"{self.tool}: {message}", file=sys.stderr)

    def frames(self, address):
        """Returns the function and the FILE:LINE of each frame of an address, innermost first;
        empty if the address is unknown."""
        if not 0 <= address < 1 << 64:
            return []
        lines = self.reply(f"{address:x}")
        frames = [frame for frame in zip(lines[::2], lines[1::2]) if frame != UNKNOWN]
        return [(self.demangler.name(name), place) for name, place in frames]


class Symbolizer(Answers):
    """A process that loads each object once, at a base of its own."""

    def __init__(self, tool, path=None, source=str):
        """Starts the program. `source` returns the file to load for the path of an object."""
        super().__init__(tool, path)
        self.source, self.extents, self.free = source, {}, 0

    def extent(self, path):
        """Returns the extent of an object, or None if the object is refused."""
        if path not in self.extents:
            command = f"load {len(self.extents)} {self.free:x} {self.source(path)}"
            reply = self.reply(command)[0]
            extent = self.extents[path] = extent_of(self.free, reply)
            if extent:
                self.free = -(-extent.high // PAGE) * PAGE
            else:
                self.warn(f"{path}: {reply}")
        return self.extents[path]

    def frames_in(self, path, link):
        """Returns the frames of an address of an object, relative to the object's address 0."""
        extent = self.extent(path)
        if not extent or not extent.low <= extent.base + link < extent.high:
            return []
        return self.frames(extent.base + link)
