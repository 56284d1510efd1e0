"""The line table of an object as objdump prints it."""
import sys
from pathlib import Path

sys.path.insert(0, str(Path(__file__).resolve().parent))
from programs import TOOLS

sys.path.insert(0, str(TOOLS))
from compare_rows import decoded


def sequences(path):
    """Yields the rows of each sequence in file order: the address, the base name of the file and
    the line. The last row of a sequence is its end."""
    rows = []
    for row in decoded(path):
        rows.append(row)
        if row[1] == "end":
            yield rows
            rows = []


def dead_sequences(path):
    """Returns the sequences of dead code, which start at 0."""
    return [rows for rows in sequences(path) if not rows[0][0]]


def located(found, asked):
    """Returns the row of each address of a range, in the first sequence that has it."""
    rows_by_address, step, start = {}, asked.step, asked.start
    for rows in found:
        for row, (end, *_) in zip(rows, rows[1:]):
            first, last = (max(0, -((start - at) // step)) for at in (row[0], end))
            for address in asked[first:last] if row[1] != "end" else ():
                rows_by_address.setdefault(address, row)
    return rows_by_address
