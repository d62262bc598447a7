"""What `acas audit` prints, what `acas regions` and `acas manoeuvre` print, and single lines of them."""
import math
from dataclasses import dataclass
from fractions import Fraction
from typing import Callable, Sequence

import numpy as np

from acas_texts import Fault
from acas_table.cells import PLACE, cell_shape, numbers_of, refuse_disorder, refuse_first, refuse_outside
from acas_table.columns import cells_of, columns_of
from acas_table.flight import TICKS_PER_FOOT, Flight, check_flight, read_flight
from acas_table.model import AXES, Advisory, Model
from acas_table.words import Words, lines_of

Progress = Callable[[int, int], None]
"""Is told how many lines of how many are read."""


@dataclass(frozen=True)
class CellLine:
    """A cell under an advice."""

    second: int
    """Horizontal separation is lost in `second` to `second + 1` seconds."""
    present: str
    altitude: int
    own_rate: int
    intruder_rate: int
    """The places of the cell on the three axes, from 0."""
    advice: str
    flight: Flight | None
    """Of a reported cell the flight that is printed, of a certified one none."""


@dataclass(frozen=True)
class BoxLine:
    """A box of a file of boxes."""

    box: int
    flight: Flight | None
    """Of a reported box the flight that is printed, of a certified one none."""


@dataclass(frozen=True)
class Regions:
    """What is said of the boxes of a file."""

    source: str
    """What the text is called in faults."""
    lines: tuple[BoxLine, ...]
    """One for each box, in the order of the file."""

    @property
    def reported(self) -> tuple[BoxLine, ...]:
        """The lines of the reported boxes."""
        return tuple(line for line in self.lines if line.flight is not None)

    def __repr__(self) -> str:
        return f"<Regions {self.source}: {len(self.lines)} boxes, {len(self.reported)} reported>"


@dataclass(frozen=True)
class Report:
    """A report of an audit."""

    source: str
    """What the text is called in faults."""
    cells: np.ndarray
    """Structured, shape (lines,), in the order of the text. Fields: `second`, int16, in s; `present` and `advice`, names, str;
    `altitude`, `own_rate` and `intruder_rate`, int16, the places of the cell on the model's axes; `reported`, bool."""
    flights: Sequence[Flight | None]
    """For each of the lines the flight that is printed; None where the cell is certified. A flight is made when it is first asked for."""
    certified: int
    reported: int
    """How many lines of each kind the audit has."""
    clear: int
    """How many cells have the advice clear at all corners."""

    @property
    def is_whole(self) -> bool:
        """Whether the certified lines are there. `acas audit --reported` leaves them out."""
        return len(self.cells) == self.certified + self.reported

    def __repr__(self) -> str:
        counts = f"certified {self.certified}, reported {self.reported}, clear {self.clear}"
        return f"<Report {self.source}: {len(self.cells)} lines; {counts}>"


def read_report(text: str, source: str = "report", progress: Progress | None = None) -> Report:
    """Reads what `acas audit` has printed, to its last line. A fault names the line and the word that is not as it has to be."""
    columns = columns_of(text, source)
    if columns is None:
        report = _read_lines(text, source, progress)
    else:
        report = Report(source, columns.cells, columns.flights, *columns.counts)
        if progress is not None:
            progress(len(columns.cells) + 1, len(columns.cells) + 1)
    _check_counts(report)
    return report


def _read_lines(text: str, source: str, progress: Progress | None) -> Report:
    """Reads a report line by line, to the first fault."""
    found: list[CellLine] = []
    known: dict[str, Flight | None] = {}
    total = text.count("\n")
    counts = None
    for number, words in enumerate(lines_of(text, source), 1):
        if counts is not None:
            raise Fault(words.source, "end", "is missing: a line follows the counts")
        if words.peek() == "certified":
            counts = _counts(words, ("certified", "reported", "clear"))
        else:
            found.append(_cell(words, known))
        if progress is not None:
            progress(number, total)
    if counts is None:
        raise Fault(source, "counts", "are missing: the last line has none")
    return Report(source, _array(found), tuple(line.flight for line in found), *counts)


def read_regions(text: str, source: str = "regions") -> Regions:
    """Reads what `acas regions` or `acas manoeuvre` has printed, to its last line. A fault names the line and the word that is not as it has
    to be; and a flight of an intruder that manoeuvres beside one of an intruder that keeps its rate."""
    lines: list[BoxLine] = []
    counts = None
    for words in lines_of(text, source):
        if counts is not None:
            raise Fault(words.source, "end", "is missing: a line follows the counts")
        if words.peek() == "certified":
            counts = _counts(words, ("certified", "reported"))
            continue
        lines.append(_box(words))
        if lines[-1].box != len(lines) - 1:
            raise Fault(words.source, "box", f"is {lines[-1].box}, not {len(lines) - 1}")
    if counts is None:
        raise Fault(source, "counts", "are missing: the last line has none")
    found = Regions(source, tuple(lines))
    _check_number(source, "reported", counts[1], len(found.reported))
    _check_number(source, "certified", counts[0], len(lines) - len(found.reported))
    if len({line.flight.against is None for line in found.reported if line.flight}) > 1:
        raise Fault(source, "against", "stands in some reported lines, and not in all")
    return found


def read_line(line: str, source: str = "line") -> CellLine | BoxLine:
    """Reads one line of `acas audit`, of `acas regions` or of `acas manoeuvre`."""
    words = Words(line.removesuffix("\n"), source)
    return _box(words) if words.peek() == "box" else _cell(words, {})


def _box(words: Words) -> BoxLine:
    words.word("box")
    box = words.whole("box", 0, 9999)
    flight = read_flight(words, may_manoeuvre=True) if words.word("certified", "reported") == "reported" else None
    words.end()
    return BoxLine(box, flight)


def _cell(words: Words, known: dict[str, Flight | None]) -> CellLine:
    words.word("cell")
    second, present = words.whole("seconds", 0, 119), words.name("present")
    places = {axis: words.whole(f"place of {axis}", 0, 127) for axis in AXES}
    return CellLine(second, present, **places, advice=words.name("advice"), flight=_ruling(words, known))


def _ruling(words: Words, known: dict[str, Flight | None]) -> Flight | None:
    """The flight of the words from the verdict on. Most stand in several lines, and are kept in what is known."""
    text = words.text()
    if text not in known:
        flight = read_flight(words) if words.word("certified", "reported") == "reported" else None
        words.end()
        known[text] = flight
    return known[text]


def _counts(words: Words, names: tuple[str, ...]) -> tuple[int, ...]:
    counts = []
    for name in names:
        words.word(name)
        counts.append(words.whole(name, 0))
    words.end()
    return tuple(counts)


def _array(found: list[CellLine]) -> np.ndarray:
    longest = max((max(len(line.present), len(line.advice)) for line in found), default=1)
    rows = [
        (line.second, line.present, line.altitude, line.own_rate, line.intruder_rate, line.advice, line.flight is not None)
        for line in found
    ]
    return np.array(rows, dtype=cells_of(longest))


def _check_counts(report: Report) -> None:
    reported = int(report.cells["reported"].sum())
    certified = len(report.cells) - reported
    _check_number(report.source, "reported", report.reported, reported)
    if certified:
        _check_number(report.source, "certified", report.certified, certified)


def _check_number(source: str, name: str, said: int, lines: int) -> None:
    if said != lines:
        raise Fault(source, "counts", f"say {name} {said}, but so many lines are: {lines}")


NUMBERED = np.dtype([("second", "i2"), ("present", "u1"), *((axis, "i2") for axis in AXES), ("advice", "u1"), ("reported", "?")])
"""The line of a report with the numbers of its advisories in the place of their names."""


def numbered(report: Report, model: Model) -> np.ndarray:
    """The lines of a report of this model, dtype `NUMBERED`, shape (lines,).

    A fault names the first line that cannot be one of an audit of the model: its names, its second, its places, its order, and of a
    reported cell its state, its response and the contact; and counts that are not those of the model's cells. A report does not
    name its model, so one of another model is refused only where that shows.
    """
    cells = np.empty(len(report.cells), dtype=NUMBERED)
    for field in ("second", *AXES, "reported"):
        cells[field] = report.cells[field]
    for field in ("present", "advice"):
        cells[field] = numbers_of(report.source, report.cells, field, model.names, model)
    refuse_outside(report.source, report.cells, model)
    refuse_first(report.source, report.cells, cells["advice"] == 0, "advice", f"is {model.names[0]}, which is clear of conflict")
    refuse_disorder(report.source, report.cells, cells, (*PLACE, "advice"))
    _check_cells(report, model, cells)
    _check_flights(report, model, cells)
    return cells


def _check_flights(report: Report, model: Model, cells: np.ndarray) -> None:
    """Refuses the first flight that is none of its cell. One that stands in several lines of a cell is looked at once."""
    checked: dict[tuple, Flight] = {}
    for place, (cell, flight) in enumerate(zip(cells.tolist(), report.flights)):
        second, _, *places, advice, _ = cell
        key = (second, *places, advice)
        if flight is not None and checked.get(key) is not flight:
            source = f"{report.source} line {place + 1}"
            check_cell_flight(model, second, places, flight, source)
            check_flight(model, model.advisories[advice], flight, source)
            checked[key] = flight


def check_line(model: Model, line: CellLine, source: str) -> Advisory:
    """The advisory of a reported line of this model. A fault names what cannot be so in an audit of the model."""
    if line.flight is None:
        raise Fault(source, "verdict", "is certified, and no flight is printed")
    for field in ("present", "advice"):
        if getattr(line, field) not in model.names:
            raise Fault(source, field, f"{getattr(line, field)} is no advisory of {model.source}")
    for field, count in zip(("second", *AXES), cell_shape(model)):
        if getattr(line, field) >= count:
            raise Fault(source, field, f"{getattr(line, field)} is not from 0 to {count - 1}, as {model.source} has it")
    check_cell_flight(model, line.second, [getattr(line, axis) for axis in AXES], line.flight, source)
    advisory = model.advisories[model.number(line.advice)]
    check_flight(model, advisory, line.flight, source)
    return advisory


def check_cell_flight(model: Model, second: int, places: list[int], flight: Flight, source: str) -> None:
    """Refuses a flight that begins outside the cell of a second at three places of the axes."""
    for axis, place, field, scale in zip(AXES, places, ("ticks", "own", "intruder"), (TICKS_PER_FOOT, 1, 1)):
        low, high = getattr(model, axis)[place : place + 2].tolist()
        if not scale * low <= getattr(flight, field) <= scale * high:
            raise Fault(source, field, f"is {getattr(flight, field)}, outside the cell in {model.source}")
    if not model.closing_least <= flight.speed <= model.closing_greatest:
        raise Fault(source, "speed", f"is {flight.speed}, outside the closing speeds of {model.source}")
    apart = max(Fraction(0), flight.range - model.radius)
    if flight.range < 0 or not second * flight.speed <= apart <= (second + 1) * flight.speed:
        raise Fault(source, "range", f"is {flight.range}, outside the cell in {model.source}")


def _check_cells(report: Report, model: Model, cells: np.ndarray) -> None:
    """Refuses counts that are not those of the cells: each of them is clear, or has a line."""
    if not report.is_whole:
        return
    named = len(np.unique(cells[list(PLACE)]))
    total = math.prod(cell_shape(model)) * len(model.advisories)
    if named + report.clear != total:
        raise Fault(report.source, "counts", f"make {named + report.clear} cells, and {model.source} has {total}")
