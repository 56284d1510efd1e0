"""Demangles names with one process of c++filt."""
import shutil
import subprocess


class Demangler:
    """A process of c++filt that starts at the first name. Without c++filt, names are unchanged."""

    def __init__(self, style="auto"):
        self.command = ["c++filt", *([] if style == "auto" else [f"--format={style}"])]
        self.running, self.cached = None, {}

    def name(self, name):
        if name not in self.cached:
            self.cached[name] = self.asked(name)
        return self.cached[name]

    def asked(self, name):
        if not self.running and shutil.which(self.command[0]):
            pipes = {"stdin": subprocess.PIPE, "stdout": subprocess.PIPE}
            text = {"encoding": "utf-8", "errors": "surrogateescape"}
            self.running = subprocess.Popen(self.command, **pipes, **text)
        if not self.running:
            return name
        self.running.stdin.write(f"{name}\n")
        self.running.stdin.flush()
        return self.running.stdout.readline().rstrip("\n") or name
