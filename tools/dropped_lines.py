"""Finds the addresses of dead code in line programs (DWARF 5, section 6.2).

A sequence is dead if an address of 0 is set before its first row. Regular expressions skip all
other instructions.
"""
import functools
import re

from dropped_bytes import ULEB, ZEROS, Unmarkable, expect_sizes, expect_version, extent, uleb

END, SET = b"\0\x01\x01", b"\0\x09\x02"  # DW_LNE_end_sequence and DW_LNE_set_address
COPY, FIXED_ADVANCE = 1, 9
# Other extended instructions of at most six bytes: discriminators in practice.
SHORT = rb"\0(?:\x02[^\x01\x02].|\x03[^\x01\x02]..|\x04[^\x01\x02]...)"


def one_of(opcodes):
    """Returns the pattern of one byte: any of these opcodes."""
    return b"[" + b"".join(rb"\x%02x" % opcode for opcode in opcodes) + b"]"


def standard(operands):
    """Yields a pattern for the standard opcodes with each number of operands, except rows."""
    for count in sorted(set(operands)):
        opcodes = [opcode for opcode, own in enumerate(operands, 1)
                   if own == count and opcode not in (COPY, FIXED_ADVANCE)]
        if opcodes:
            yield one_of(opcodes) + count * ULEB
    if len(operands) >= FIXED_ADVANCE:
        yield rb"\x09.."


@functools.cache
def patterns(operands):
    """Returns the patterns of the instructions before the first row of a sequence, and from it to
    the end, for the number of operands of each standard opcode. The first stops at an address of 0,
    both stop at the end of the sequence and at long extended instructions."""
    first_special = len(operands) + 1
    rows = one_of([*range(first_special, 256), *([COPY] if operands else [])])
    others = [*standard(operands), SHORT]
    before = [*others, rb"\0\x09\x02(?!\0{8}).{8}"]
    after = [rows + b"++", *others, rb"\0\x09\x02.{8}"]
    return [re.compile(b"(?:%b)*+" % b"|".join(part), re.DOTALL) for part in (before, after)]


def after_extended(section, at, end):
    """Returns the offset after an extended instruction that no pattern has."""
    length, body = uleb(section, at + 1)
    if length == 0 or section[body] in (1, 2) or body + length > end:
        raise Unmarkable(f"an extended instruction has an unusual length at {at}")
    return body + length


def in_program(section, at, end, operands):
    """Yields the offset of each address of dead code in the instructions of a program."""
    before, after = patterns(operands)
    pattern = before
    while (at := pattern.match(section, at, end).end()) < end:
        if section.startswith(END, at, end):
            pattern, at = before, at + len(END)
        elif section.startswith(SET + ZEROS, at, end):
            yield at + len(SET)
            at += len(SET + ZEROS)
        elif section[at] == 0:
            at = after_extended(section, at, end)
        elif pattern is before:
            pattern = after
        else:
            raise Unmarkable(f"an instruction has no end at {at}")


def dropped_in_lines(section):
    """Yields the offset of each address of dead code in .debug_line. A program without the
    bytes that set an address of 0 is not decoded."""
    end = 0
    while end < len(section):
        width, at, end = extent(section, end)
        at = expect_sizes(section, expect_version(section, at))
        first = at + width + int.from_bytes(section[at : at + width], "little")
        at += width + 5  # after minimum_instruction_length to line_range
        operands = tuple(section[at + 1 : at + section[at]])
        if first > end:
            raise Unmarkable(f"a header exceeds its line program at {at}")
        if section.find(SET + ZEROS, first, end) >= 0:
            yield from in_program(section, first, end, operands)
