"""The lines of a report of an audit, read all at once. Where one of them is not as it has to be, nothing is said of it here: `read_report` then
reads line by line and names the fault."""
import re
from collections.abc import Sequence
from typing import NamedTuple, overload

import numpy as np

from acas_table.flight import FLIGHT, Flight, read_flight
from acas_table.model import AXES
from acas_table.words import Words, are_in_lowest_terms

SECONDS = {str(second): second for second in range(120)}
PLACES = {str(place): place for place in range(128)}
"""The numbers that a line may have, by their spelling."""
CERTIFIED, REPORTED = "certified", "reported"
COUNT = "(0|[1-9][0-9]{0,17})"
COUNTS = re.compile(f"certified {COUNT} reported {COUNT} clear {COUNT}")
RULING = re.compile(f"{CERTIFIED}|{REPORTED} {FLIGHT}")
PARTS = 8
"""Of a line: six words and its ruling behind the first, which is `cell`."""


class Flights(Sequence):
    """For each line of a report the flight that is printed; None where the cell is certified.

    A flight is made, in exact fractions, when it is first asked for. Lines with the same words have the same one.
    """

    def __init__(self, rulings: Sequence[str], source: str) -> None:
        """`rulings` are the words of each line from its verdict on, which have been found to be as they have to be."""
        self._rulings = rulings
        self._source = source
        self._known: dict[str, Flight | None] = {CERTIFIED: None}

    def __len__(self) -> int:
        return len(self._rulings)

    @overload
    def __getitem__(self, place: int) -> Flight | None: ...

    @overload
    def __getitem__(self, place: slice) -> tuple[Flight | None, ...]: ...

    def __getitem__(self, place):
        found = self._rulings[place]
        return tuple(map(self._flight, found)) if isinstance(place, slice) else self._flight(found)

    def __eq__(self, other: object) -> bool:
        return tuple(self) == tuple(other) if isinstance(other, (tuple, Flights)) else NotImplemented

    def __hash__(self) -> int:
        return hash(tuple(self))

    def __repr__(self) -> str:
        return f"<Flights {self._source}: {len(self)} lines>"

    def _flight(self, ruling: str) -> Flight | None:
        if ruling not in self._known:
            words = Words(ruling, self._source)
            words.word(REPORTED)
            self._known[ruling] = read_flight(words)
        return self._known[ruling]


class Columns(NamedTuple):
    """What a report has in its lines and in its counts."""

    cells: np.ndarray
    """Structured, shape (lines,), of the dtype `cells_of`."""
    flights: Flights
    counts: tuple[int, ...]


def cells_of(longest: int) -> np.dtype:
    """The dtype of the lines of a report whose longest name has so many letters."""
    name, place = f"U{longest}", "i2"
    return np.dtype([("second", place), ("present", name), *((axis, place) for axis in AXES), ("advice", name), ("reported", "?")])


def columns_of(text: str, source: str) -> Columns | None:
    """The lines and the counts of a report; None where they are not found to be as they have to be."""
    *lines, last = text.removesuffix("\n").split("\n")
    counts = COUNTS.fullmatch(last)
    rows = [line.split(" ", PARTS - 1) for line in lines]
    if not text.endswith("\n") or counts is None or any(len(row) != PARTS for row in rows):
        return None
    cell, second, present, *places, advice, ruling = ([row[place] for row in rows] for place in range(PARTS))
    if not {"cell"}.issuperset(cell) or "" in present or "" in advice or not _are_rulings(set(ruling)):
        return None
    cells = np.empty(len(rows), dtype=cells_of(max(map(len, (*present, *advice)), default=1)))
    cells["present"], cells["advice"] = present, advice
    cells["reported"] = [words != CERTIFIED for words in ruling]
    try:
        cells["second"] = [SECONDS[word] for word in second]
        for axis, column in zip(AXES, places):
            cells[axis] = [PLACES[word] for word in column]
    except KeyError:
        return None
    return Columns(cells, Flights(ruling, source), tuple(map(int, counts.groups())))


def _are_rulings(texts: set[str]) -> bool:
    """Whether each text is a verdict, with a flight where that is reported."""
    return all(map(RULING.fullmatch, texts)) and are_in_lowest_terms(" ".join(texts))
