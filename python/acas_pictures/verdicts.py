"""The verdicts of an audit: cells over seconds to go and relative altitude, and how many lines there are of each kind."""
import numpy as np
from matplotlib.axes import Axes
from matplotlib.figure import Figure
from matplotlib.patches import Rectangle
from matplotlib.ticker import MaxNLocator

from acas_pictures.canvas import ALTITUDE, TO_GO, fill_cells, legend_beside, mark_puck, new_figure, patch, set_title
from acas_pictures.colours import CERTIFIED, CLEAR, MIXED, REPORTED, Paint, paints
from acas_pictures.slices import Slice, name_of, require_seconds
from acas_table import Fault, Model, Report, Table, whole_lines

CLEAR_CELL, CERTIFIED_CELL, MIXED_CELL, REPORTED_CELL = range(4)
FILLED = [Paint(CLEAR), Paint(CERTIFIED), Paint(MIXED), Paint(REPORTED)]
LEAST_ROWS = 4
"""So many rows the bars by advice have room for, also where there are fewer."""
LABELS = ["clear at all corners", "certified", "some advice reported", "reported"]


def cell_slice(model: Model, present: str, own: int, intruder: int) -> Slice:
    """The cells under a present advisory that begin at two rates of the model and end at the next ones."""
    places = []
    for axis, rate in (("own_rate", own), ("intruder_rate", intruder)):
        place = model.place(axis, rate)
        if place == len(getattr(model, axis)) - 1:
            raise Fault(model.source, f"grid.{axis}", f"ends at {rate}, and no cell begins there")
        places.append(place)
    return Slice(model.number(present), *places)


def draw_verdicts(model: Model, report: Report, part: Slice, title: str | None = None, table: Table | None = None) -> Figure:
    """The cells of a slice, and below them the lines of the whole report by advice and by second. Where the report has no certified
    lines, they are those that the table has besides."""
    require_seconds(model)
    cells = whole_lines(report, model, table)
    figure = new_figure(8.0, 6.4)
    rows = figure.add_gridspec(2, 2, height_ratios=[3, 2])
    axes = figure.add_subplot(rows[0, :])
    fill_cells(axes, np.arange(model.horizon + 1), model.altitude, verdicts_of(model, cells, part), FILLED)
    mark_puck(axes, model)
    axes.xaxis.set_major_locator(MaxNLocator(integer=True))
    axes.set(xlabel=TO_GO, ylabel=ALTITUDE)
    set_title(axes, f"Where does the advice leave danger?\n{words_of_cells(model, part)}" if title is None else title)
    legend_beside(axes, [patch(paint, label) for paint, label in zip(FILLED, LABELS)], "cells")
    _draw_by_advice(figure.add_subplot(rows[1, 0]), model, cells)
    _draw_by_second(figure.add_subplot(rows[1, 1]), model, cells)
    return figure


def words_of_cells(model: Model, part: Slice) -> str:
    """Of which model, present advisory and rates the cells of a slice are."""
    own, intruder = (
        f"{rates[place]} to {rates[place + 1]}"
        for rates, place in ((model.own_rate, part.own), (model.intruder_rate, part.intruder))
    )
    return f"{name_of(model)}: {model.names[part.present]} is present, own rate {own}, intruder's rate {intruder} ft/min"


def verdicts_of(model: Model, cells: np.ndarray, part: Slice) -> np.ndarray:
    """The verdict on each cell of a slice: a place in `FILLED`, shape (altitudes - 1, seconds)."""
    chosen = (cells["present"] == part.present) & (cells["own_rate"] == part.own) & (cells["intruder_rate"] == part.intruder)
    lines = cells[chosen]
    shape = (len(model.altitude) - 1, model.horizon)
    certified, reported = np.zeros(shape, dtype=bool), np.zeros(shape, dtype=bool)
    for found, of_kind in ((certified, ~lines["reported"]), (reported, lines["reported"])):
        found[lines["altitude"][of_kind], lines["second"][of_kind]] = True
    verdicts = np.full(shape, CLEAR_CELL)
    verdicts[certified] = CERTIFIED_CELL
    verdicts[reported] = REPORTED_CELL
    verdicts[certified & reported] = MIXED_CELL
    return verdicts


def _counts(cells: np.ndarray, field: str, length: int) -> tuple[np.ndarray, np.ndarray]:
    """How many lines are certified and how many reported, by the values of a field from 0."""
    certified, reported = (cells[field][cells["reported"] == verdict] for verdict in (False, True))
    return np.bincount(certified, minlength=length), np.bincount(reported, minlength=length)


def _draw_by_advice(axes: Axes, model: Model, cells: np.ndarray) -> None:
    certified, reported = _counts(cells, "advice", len(model.names))
    shown = [number for number in range(len(model.names)) if certified[number] + reported[number]]
    rows = np.arange(len(shown))
    axes.barh(rows, reported[shown], color=REPORTED, height=0.7)
    axes.barh(rows, certified[shown], left=reported[shown], color=CERTIFIED, height=0.7)
    axes.set_yticks(rows, [model.names[number] for number in shown])
    axes.tick_params(axis="y", length=0, pad=14)
    axes.set_ylim(max(len(shown), LEAST_ROWS) - 0.5, -0.5)
    filled = paints(model)
    for row, number in zip(rows, shown):
        swatch = Rectangle((-0.045, row - 0.25), 0.03, 0.5, transform=axes.get_yaxis_transform(), clip_on=False, linewidth=0.5)
        swatch.set(facecolor=filled[number].colour, hatch=filled[number].hatch, edgecolor=filled[number].ink)
        axes.add_patch(swatch)
    _label_counts(axes, "x")
    axes.set_xlabel("lines of the report, by advice")


def _draw_by_second(axes: Axes, model: Model, cells: np.ndarray) -> None:
    certified, reported = _counts(cells, "second", model.horizon)
    middles = np.arange(model.horizon) + 0.5
    axes.bar(middles, reported, color=REPORTED, width=0.9)
    axes.bar(middles, certified, bottom=reported, color=CERTIFIED, width=0.9)
    axes.xaxis.set_major_locator(MaxNLocator(integer=True))
    _label_counts(axes, "y")
    axes.set(xlabel=TO_GO, ylabel="lines of the report", xlim=(0, model.horizon))


def _label_counts(axes: Axes, axis: str) -> None:
    axes.locator_params(axis=axis, nbins=4, integer=True)
    axes.ticklabel_format(axis=axis, style="plain", useOffset=False)
