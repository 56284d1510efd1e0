#!/usr/bin/env python3
"""Lists the must-fail edits that no longer apply to their files, without the hour of proofs.

An edit has lines `file: PATH` and pairs of lines `old: TEXT`, `new: TEXT`. Each old text must occur
exactly once in its file. The edits that CI runs are in must-fail/ of their crate. The others, which
would take CI too long, are in edits/CRATE, and none may have the name of an edit in CI. The exit
status is 1 if there is a fault.
"""
import sys
from pathlib import Path

TOP = Path(__file__).resolve().parent.parent


def crate_of(edit: Path) -> Path:
    """Returns the folder of the crate that an edit changes."""
    if edit.parent.name == "must-fail":
        return edit.parent.parent
    return TOP / "crates" / edit.parent.name


def misfits(edit: Path):
    """Yields the old texts of an edit that do not occur exactly once, each with its file."""
    crate = crate_of(edit)
    texts: dict[str, str] = {}
    path = old = ""
    for line in edit.read_text(encoding="utf-8").splitlines():
        word, _, rest = line.partition(": ")
        if word == "file":
            path = rest.strip()
            if path not in texts:
                texts[path] = (crate / path).read_text(encoding="utf-8")
        elif word == "old":
            old = rest
            if texts[path].count(old) != 1:
                yield path, old
        elif line.startswith("new:"):
            texts[path] = texts[path].replace(old, rest)


def main():
    gate = sorted(TOP.glob("crates/*/must-fail/*.edit"))
    left_out = sorted(TOP.glob("edits/*/*.edit"))
    faults = 0
    for edit in left_out:
        if (crate_of(edit) / "must-fail" / edit.name).exists():
            print(f"{edit.relative_to(TOP)}: CI has an edit of this name")
            faults += 1
    edits = gate + left_out
    for edit in edits:
        for path, old in misfits(edit):
            print(f"{edit.relative_to(TOP)}: not once in {path}: {old}")
            faults += 1
    print(f"check_edits: {len(gate)} edits of CI, {len(left_out)} others, {faults} faults")
    return 1 if faults or not gate else 0


if __name__ == "__main__":
    sys.exit(main())
