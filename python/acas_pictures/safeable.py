"""What is said of each cell: the verdicts on advised cells, and of clear ones whether an advisory can still be given a second later."""
import numpy as np
from matplotlib.axes import Axes
from matplotlib.figure import Figure
from matplotlib.ticker import MaxNLocator

from acas_pictures.canvas import ALTITUDE, TO_GO, fill_cells, legend_beside, mark_puck, new_figure, patch, set_title
from acas_pictures.colours import CERTIFIED, MIXED, NEAR, OPEN, REPORTED, SAFEABLE, Paint
from acas_pictures.slices import Slice, require_seconds
from acas_pictures.verdicts import CERTIFIED_CELL, CLEAR_CELL, MIXED_CELL, REPORTED_CELL, verdicts_of, words_of_cells
from acas_table import Model, Report, Safeable, check_audit

NEAR_CELL, SAFEABLE_CELL, OPEN_CELL = CLEAR_CELL, REPORTED_CELL + 1, REPORTED_CELL + 2
"""A cell that is clear and has no line is near."""
ORDER = (CERTIFIED_CELL, MIXED_CELL, REPORTED_CELL, SAFEABLE_CELL, OPEN_CELL, NEAR_CELL)
FILLED = {
    CERTIFIED_CELL: Paint(CERTIFIED), MIXED_CELL: Paint(MIXED), REPORTED_CELL: Paint(REPORTED), SAFEABLE_CELL: Paint(SAFEABLE),
    OPEN_CELL: Paint(OPEN, "////"), NEAR_CELL: Paint(NEAR, "...."),
}
LABELS = {
    CERTIFIED_CELL: "advised and certified", MIXED_CELL: "some advice reported", REPORTED_CELL: "advised and reported",
    SAFEABLE_CELL: "clear and safeable", OPEN_CELL: "clear and open", NEAR_CELL: "clear and near",
}


def draw_safeable(model: Model, report: Report, safeable: Safeable, part: Slice, title: str | None = None) -> Figure:
    """The cells of a slice, by what the audit says of those with an advice and the other report of those without; and below them how many
    clear cells of each kind the whole table has, by second."""
    require_seconds(model)
    clear, advised = check_audit(safeable, report, model)
    figure = new_figure(8.0, 6.0)
    axes, below = figure.subplots(2, 1, height_ratios=[3, 2])
    paints = [FILLED[kind] for kind in range(len(FILLED))]
    fill_cells(axes, np.arange(model.horizon + 1), model.altitude, kinds_of(model, clear, advised, part), paints)
    mark_puck(axes, model)
    axes.xaxis.set_major_locator(MaxNLocator(integer=True))
    axes.set(xlabel=TO_GO, ylabel=ALTITUDE)
    set_title(axes, f"Where can advice wait a second?\n{words_of_cells(model, part)}" if title is None else title)
    legend_beside(axes, [patch(FILLED[kind], LABELS[kind]) for kind in ORDER], "cells")
    _draw_by_second(below, model, clear, safeable.near)
    return figure


def kinds_of(model: Model, clear: np.ndarray, advised: np.ndarray, part: Slice) -> np.ndarray:
    """What is said of each cell of a slice: a key of `FILLED`, shape (altitudes - 1, seconds)."""
    kinds = verdicts_of(model, advised, part)
    chosen = (clear["present"] == part.present) & (clear["own_rate"] == part.own) & (clear["intruder_rate"] == part.intruder)
    lines = clear[chosen]
    kinds[lines["altitude"], lines["second"]] = np.where(lines["advice"] == 0, OPEN_CELL, SAFEABLE_CELL)
    return kinds


def _draw_by_second(axes: Axes, model: Model, clear: np.ndarray, near: int) -> None:
    """A bar for each second: the open cells lowest, and those of the second 0 that are near."""
    is_open = clear["advice"] == 0
    not_open, opened = (np.bincount(clear["second"][chosen], minlength=model.horizon) for chosen in (~is_open, is_open))
    first = np.array([near] + [0] * (model.horizon - 1))
    middles, bottom = np.arange(model.horizon) + 0.5, np.zeros(model.horizon, dtype=np.int64)
    for kind, heights in ((OPEN_CELL, opened), (SAFEABLE_CELL, not_open), (NEAR_CELL, first)):
        paint = FILLED[kind]
        axes.bar(middles, heights, bottom=bottom, color=paint.colour, hatch=paint.hatch, edgecolor=paint.ink, linewidth=0, width=0.9)
        bottom = bottom + heights
    axes.xaxis.set_major_locator(MaxNLocator(integer=True))
    axes.locator_params(axis="y", nbins=4, integer=True)
    axes.ticklabel_format(axis="y", style="plain", useOffset=False)
    axes.set(xlabel=TO_GO, ylabel="clear cells", xlim=(0, model.horizon))
