"""The lines of a whole report, also where certified ones are left out: those that its table has besides."""
import math

import numpy as np

from acas_texts import Fault
from acas_table.cells import PLACE, cell_shape, refuse_first
from acas_table.model import Model
from acas_table.report import NUMBERED, Report, numbered
from acas_table.table import Table

LINE = (*PLACE, "advice")
"""The fields that say which line it is."""


def whole_lines(report: Report, model: Model, table: Table | None = None) -> np.ndarray:
    """The lines of the whole report, dtype `NUMBERED`, shape (lines,): those of `numbered`, and with `acas audit --reported` those of the
    table that are not reported, once the counts of the report are found to be those of the table.

    A fault names the first line that the table does not have, or the count; and that the table is wanted where there is none.
    """
    lines = numbered(report, model)
    if report.is_whole:
        return lines
    if table is None:
        problem = "are of certified lines that are left out: give the report without --reported, or its table too"
        raise Fault(report.source, "counts", problem)
    whole = audited_lines(table)
    found, reported = (_numbers(one, table) for one in (whole, lines))
    problem = f"is tabled at no corner of the cell in {table.source}"
    refuse_first(report.source, report.cells, ~np.isin(reported, found), "advice", problem)
    whole["reported"] = np.isin(found, reported)
    clear = math.prod(cell_shape(model)) * len(model.advisories) - len(np.unique(whole[list(PLACE)]))
    for name, said, counted in (("certified", report.certified, len(whole) - len(lines)), ("clear", report.clear, clear)):
        if said != counted:
            raise Fault(report.source, "counts", f"say {name} {said}, and {table.source} has {counted}")
    return whole


def audited_lines(table: Table) -> np.ndarray:
    """The lines that an audit of a table has, dtype `NUMBERED`, in their order, each certified as yet.

    A cell of `n` to `n + 1` seconds has a line for each advice, other than that for clear of conflict, that is tabled at one of its eight
    corners with `n + 1` seconds to go.
    """
    advice = table.layers["advice"][1:]
    is_there = np.stack([_at_a_corner(advice == number) for number in range(1, advice.shape[1])], axis=-1)
    lines = np.zeros(int(is_there.sum()), dtype=NUMBERED)
    for field, places in zip(LINE, np.nonzero(is_there)):
        lines[field] = places
    lines["advice"] += 1
    return lines


def _at_a_corner(is_advised: np.ndarray) -> np.ndarray:
    """Of which cells a corner is so. `is_advised` is bool, shape (seconds, advisories, altitudes, own rates, intruder rates)."""
    for axis in (2, 3, 4):
        low, high = (np.take(is_advised, range(begin, is_advised.shape[axis] + begin - 1), axis) for begin in (0, 1))
        is_advised = low | high
    return is_advised


def _numbers(lines: np.ndarray, table: Table) -> np.ndarray:
    """Each line as one number."""
    return np.ravel_multi_index([lines[field] for field in LINE], (*table.layers.shape, table.layers.shape[1]))
