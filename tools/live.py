"""A client of addr2line_live: one process that replies to each line."""
import os
import shutil
import subprocess
from pathlib import Path

TOOLS = Path(__file__).resolve().parent
BUILT = TOOLS.parent / "crates/addr2line_live/out/addr2line_live"
INSTALLED = Path("libexec/addr2line_live")  # the folder of installed tools, in PREFIX


def program():
    """Returns the path of the program: $ADDR2LINE_LIVE, or the one built or installed with these
    tools, or the one in PATH."""
    is_installed = TOOLS.parts[-2:] == INSTALLED.parts
    path = TOOLS.parents[1] / "bin/addr2line_live" if is_installed else BUILT
    beside = str(path) if path.exists() else None
    found = os.environ.get("ADDR2LINE_LIVE") or beside or shutil.which("addr2line_live")
    return found or "addr2line_live"


class Ended(Exception):
    """The process ended before the end of its reply."""


class Live:
    """A process of addr2line_live with these options."""

    def __init__(self, *options, path=None):
        pipes = {"stdin": subprocess.PIPE, "stdout": subprocess.PIPE}
        text = {"encoding": "utf-8", "errors": "surrogateescape"}
        path = path or program()
        try:
            self.running = subprocess.Popen([path, *options], **pipes, **text)
        except FileNotFoundError as fault:
            reason = "not found: run make install, or set ADDR2LINE_LIVE to its path"
            raise FileNotFoundError(fault.errno, reason, path) from None

    def say(self, line):
        """Returns the lines of the reply to a line. A second line that is not a command follows;
        its reply marks the end."""
        try:
            self.running.stdin.write(f"{line}\n.\n")
            self.running.stdin.flush()
        except BrokenPipeError as fault:
            raise Ended from fault
        lines = []
        for reply in self.running.stdout:
            if reply == "refused command\n":
                return lines
            lines.append(reply.rstrip("\n"))
        raise Ended
