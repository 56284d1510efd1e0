"""Addresses that are spread evenly over the executable sections of an object.

tools/compare_replies.py and bench/answers.sh look them up with this program and with others.
"""
import re
import subprocess

SECTION = re.compile(
    r"\s*\[\s*\d+\]\s+\S+\s+PROGBITS\s+([0-9a-f]+)\s+[0-9a-f]+\s+([0-9a-f]+)\s+\S+\s+\S*X"
)


def executable_sections(path):
    """Yields the address and the size of each executable section."""
    command = ["readelf", "-SW", path]
    done = subprocess.run(command, capture_output=True, text=True, check=True)
    for text in done.stdout.splitlines():
        if found := SECTION.match(text):
            yield int(found[1], 16), int(found[2], 16)


def addresses(path, count):
    """Yields `count` addresses, in the order of the sections."""
    places = list(executable_sections(path))
    total = sum(size for _, size in places)
    for k in range(count):
        at = k * total // count
        for start, size in places:
            if at < size:
                yield start + at
                break
            at -= size
