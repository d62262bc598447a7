"""The table of a study: a row for each model."""
import csv
import io
import math
from dataclasses import dataclass
from pathlib import Path

from acas_origin import digest_of
from acas_study.columns import BEHIND, COUNTED
from acas_table import Model, Report, Risk, Safeable, Table, check_audit, gridded
from acas_table.words import text_of_millionths

NONE = "nan"
"""In the place of a ratio to 0."""


@dataclass(frozen=True)
class Row:
    """What the columns `BEHIND` say of one model."""

    cells: tuple[str, ...]

    def cell(self, column: str) -> str:
        """What stands in a column."""
        return self.cells[BEHIND.index(column)]


def row_of(model: Model, table: Table, report: Report, risk: Risk, safeable: Safeable) -> Row:
    """The numbers of one model, and the digests of its file and its table's."""
    check_audit(safeable, report, model)
    layers, *shape = model.shape
    cells = math.prod([model.horizon, shape[0], *(length - 1 for length in shape[1:])])
    lines, advised = report.certified + report.reported, cells - report.clear
    whole = (layers, math.prod(shape), table.header.length, cells, advised, lines, report.certified, report.reported, report.clear)
    shares = _share(advised, cells), _share(report.reported, lines)
    clear = safeable.safeable, safeable.open, safeable.near
    counted = *map(str, whole), *shares, *_means(model, risk), *map(str, clear), _share(safeable.open, report.clear)
    return Row((*counted, model.digest.hex(), digest_of(table.source)))


def _share(part: int, whole: int) -> str:
    """A share in four decimals; of nothing it is 0."""
    return f"{part / whole if whole else 0:.4f}"


def _means(model: Model, risk: Risk) -> tuple[str, str, str]:
    """The mean chance of contact under the table at most, that under always clear at least, and the first over the second at most."""
    states = gridded(risk, model)[0]
    upper, lower = int(states["risk"]["upper"].sum()), int(states["clear"]["lower"].sum())
    ratio = text_of_millionths(_up(10**6 * upper, lower)) if lower else NONE
    return text_of_millionths(_up(upper, states.size)), text_of_millionths(lower // states.size), ratio


def _up(part: int, whole: int) -> int:
    """The least whole number at least part / whole."""
    return -(-part // whole)


def text_of_rows(header: list[str], rows: list[list[str]]) -> str:
    """The text of a CSV file."""
    text = io.StringIO()
    csv.writer(text, lineterminator="\n").writerows([header, *rows])
    return text.getvalue()


def read_row(path: Path) -> Row:
    """The row that `row_of` made of one model, from its file of one line."""
    with open(path, encoding="utf-8", newline="") as file:
        (row,) = csv.reader(file)
    return Row(tuple(row))
