"""What `acas safeable` prints."""
import math
from dataclasses import dataclass
from typing import NamedTuple

import numpy as np

from acas_texts import Fault
from acas_table.cells import PLACE, cell_shape, numbers_of, refuse_disorder, refuse_first, refuse_outside
from acas_table.model import AXES, Model
from acas_table.report import Progress, Report, numbered
from acas_table.words import Words, lines_of

COUNTS = ("safeable", "open", "near")
CLEAR_CELL = np.dtype([("second", "i2"), ("present", "u1"), *((axis, "i2") for axis in AXES), ("advice", "u1")])
"""A clear cell with the numbers of its advisories; `advice` is 0 where the cell is open."""


@dataclass(frozen=True)
class Safeable:
    """A report on the clear cells of a table."""

    source: str
    """What the text is called in faults."""
    cells: np.ndarray
    """Structured, shape (lines,), in the order of the text. Fields: `second`, int16, in s; `present`, a name, str; `altitude`, `own_rate`
    and `intruder_rate`, int16, the places of the cell on the model's axes; `advice`, str, the name of the advisory that keeps the cell
    safe where it is given a second later, and no letter where the cell is open."""
    safeable: int
    open: int
    near: int
    """How many cells there are of each kind. Those that are near have no line."""

    def __repr__(self) -> str:
        return f"<Safeable {self.source}: {len(self.cells)} lines; safeable {self.safeable}, open {self.open}, near {self.near}>"


class _Line(NamedTuple):
    second: int
    present: str
    altitude: int
    own_rate: int
    intruder_rate: int
    advice: str


def read_safeable(text: str, source: str = "safeable", progress: Progress | None = None) -> Safeable:
    """Reads what `acas safeable` has printed, to its last line. A fault names the line and the word that is not as it has to be."""
    found: list[_Line] = []
    total = text.count("\n")
    counts = None
    for number, words in enumerate(lines_of(text, source), 1):
        if counts is not None:
            raise Fault(words.source, "end", "is missing: a line follows the counts")
        if words.peek() == "safeable":
            counts = _counts(words)
        else:
            found.append(_cell(words))
        if progress is not None:
            progress(number, total)
    if counts is None:
        raise Fault(source, "counts", "are missing: the last line has none")
    report = Safeable(source, _array(found), *counts)
    is_open = report.cells["advice"] == ""
    for name, said, lines in (("safeable", report.safeable, int((~is_open).sum())), ("open", report.open, int(is_open.sum()))):
        if said != lines:
            raise Fault(source, "counts", f"say {name} {said}, but so many lines are: {lines}")
    return report


def _cell(words: Words) -> _Line:
    words.word("cell")
    second, present = words.whole("seconds", 1, 119), words.name("present")
    places = [words.whole(f"place of {axis}", 0, 127) for axis in AXES]
    advice = words.name("advice") if words.word("safeable", "open") == "safeable" else ""
    words.end()
    return _Line(second, present, *places, advice)


def _counts(words: Words) -> list[int]:
    counts = []
    for name in COUNTS:
        words.word(name)
        counts.append(words.whole(name, 0))
    words.end()
    return counts


def _array(found: list[_Line]) -> np.ndarray:
    longest = max((max(len(line.present), len(line.advice)) for line in found), default=1)
    name, place = f"U{longest}", "i2"
    return np.array(found, dtype=[("second", place), ("present", name), *((axis, place) for axis in AXES), ("advice", name)])


def clear_cells(report: Safeable, model: Model) -> np.ndarray:
    """The lines of a report on clear cells of this model, dtype `CLEAR_CELL`, shape (lines,).

    A fault names the first line that cannot be one of the model: its names, its second, its places, its order, an advisory that is no
    choice of clear of conflict, or another one than under another present advisory; and a count of near cells that is over those of the
    model. A report does not name its model, so one of another model is refused only where that shows.
    """
    source, lines = report.source, report.cells
    cells = np.empty(len(lines), dtype=CLEAR_CELL)
    for field in ("second", *AXES):
        cells[field] = lines[field]
    cells["present"] = numbers_of(source, lines, "present", model.names, model)
    refuse_first(source, lines, lines["advice"] == model.names[0], "advice", "is clear of conflict")
    cells["advice"] = numbers_of(source, lines, "advice", ("", *model.names[1:]), model)
    refuse_outside(source, lines, model)
    choices = [0, *model.advisories[0].choices]
    refuse_first(source, lines, ~np.isin(cells["advice"], choices), "advice", f"is no choice of {model.names[0]} in {model.source}")
    refuse_disorder(source, lines, cells, PLACE)
    _refuse_two_outlooks(report, cells)
    if report.near > _first_cells(model):
        raise Fault(source, "counts", f"say near {report.near}, and {model.source} has {_first_cells(model)} cells of 0 s")
    return cells


def _first_cells(model: Model) -> int:
    """How many cells of 0 s there are, under all present advisories."""
    return min(model.horizon, 1) * len(model.advisories) * math.prod(cell_shape(model)[1:])


def _refuse_two_outlooks(report: Safeable, cells: np.ndarray) -> None:
    """Refuses a line that says something else of its cell than an earlier one does under another present advisory."""
    if len(cells):
        _, first, same = np.unique(cells[["second", *AXES]], return_index=True, return_inverse=True)
        wrong = cells["advice"] != cells["advice"][first][same]
        refuse_first(report.source, report.cells, wrong, "advice", "is not what is said of the cell under another present advisory")


def check_audit(safeable: Safeable, audit: Report, model: Model) -> tuple[np.ndarray, np.ndarray]:
    """The numbers of both reports, as `clear_cells` and `numbered` give them, once the two are found to fit together.

    Each cell of the model has an advice and so a line in the audit, or is clear at all corners: then it has a line in the report on clear
    cells, or is near. The report of the audit has to be whole.
    """
    if not audit.is_whole:
        raise Fault(audit.source, "counts", "are of certified lines that are left out: give the report without --reported")
    clear, advised = clear_cells(safeable, model), numbered(audit, model)
    named = np.unique(_places(advised, model))
    both = np.isin(_places(clear, model), named)
    refuse_first(safeable.source, safeable.cells, both, "second", f"is of a cell that has an advice in {audit.source}")
    near = _first_cells(model) - int((named < _first_cells(model)).sum())
    if safeable.near != near:
        raise Fault(safeable.source, "counts", f"say near {safeable.near}, and {audit.source} leaves {near} cells of 0 s without an advice")
    total = safeable.safeable + safeable.open + near
    if total != audit.clear:
        raise Fault(safeable.source, "counts", f"make {total} clear cells, and {audit.source} has {audit.clear}")
    return clear, advised


def _places(cells: np.ndarray, model: Model) -> np.ndarray:
    """Each cell as one number, those of 0 s first."""
    number = cells["second"].astype(np.int64) * len(model.advisories) + cells["present"]
    for axis, count in zip(AXES, cell_shape(model)[1:]):
        number = number * count + cells[axis]
    return number
