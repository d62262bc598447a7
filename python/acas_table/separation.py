"""The table that `study/separation` writes: how far away an intruder that manoeuvres has to be."""
from dataclasses import dataclass

import numpy as np

from acas_texts import Fault
from acas_table.flight import GREATEST_ACCELERATION, GREATEST_RATE
from acas_table.words import whole_of

COLUMNS = "box,accel,rate,below,above"
LIMIT = 10_000
"""No altitude of a box is farther from 0, in ft."""
SEPARATION = np.dtype([("box", "i2"), ("accel", "i2"), ("rate", "i2"), ("below", "f8"), ("above", "f8")])
"""Of a box and an acceleration of the intruder in ft/min per second, and its greatest rate in ft/min: up to which altitude over the own one,
and from which one on, the box is certified, in ft; NaN where it is at none."""
LEAST, GREATEST = (0, 1, 1, -LIMIT, -LIMIT), (9999, GREATEST_ACCELERATION, GREATEST_RATE, LIMIT, LIMIT)


@dataclass(frozen=True)
class Separations:
    """Separations of boxes."""

    source: str
    """What the text is called in faults."""
    rows: np.ndarray
    """Dtype `SEPARATION`, shape (rows,): by box, and of each box by rising acceleration."""

    def of(self, box: int) -> np.ndarray:
        """The rows of a box, of which there has to be one."""
        found = self.rows[self.rows["box"] == box]
        if len(found) == 0:
            raise Fault(self.source, "box", f"{box} is not there")
        return found


def read_separations(text: str, source: str = "separations") -> Separations:
    """Reads what `study/separation` has written. A fault names the line and the column that is not as it has to be."""
    first, *lines = text.split("\n")
    if first != COLUMNS:
        raise Fault(f"{source} line 1", "columns", f"are {first!r}, not {COLUMNS}")
    if lines[-1:] != [""] or len(lines) == 1:
        raise Fault(f"{source} line {len(lines) + 1}", "end", "is missing: the text is cut off")
    rows = [_row(line.split(","), f"{source} line {place}") for place, line in enumerate(lines[:-1], 2)]
    for place, (before, row) in enumerate(zip(rows, rows[1:]), 3):
        if row[:2] <= before[:2]:
            raise Fault(f"{source} line {place}", "box", f"{row[0]} with accel {row[1]} is out of order")
    return Separations(source, np.array(rows, dtype=SEPARATION))


def _row(cells: list[str], source: str) -> tuple:
    names = SEPARATION.names or ()
    if len(cells) != len(names):
        raise Fault(source, "columns", f"are {len(cells)}, not {len(names)}")
    found = [_number(*column, source) for column in zip(names, cells, LEAST, GREATEST)]
    if found[4] <= found[3]:
        raise Fault(source, "above", f"is {cells[4]}, at or under below {cells[3]}")
    return tuple(found)


def _number(name: str, cell: str, least: int, greatest: int, source: str) -> float:
    if cell == "none" and name in ("below", "above"):
        return np.nan
    number = whole_of(cell)
    if number is None or not least <= number <= greatest:
        raise Fault(source, name, f"is {cell!r}, not from {least} to {greatest}")
    return number
