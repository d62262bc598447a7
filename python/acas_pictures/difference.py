"""Two tables of one grid: where their advice differs, and by how much their upper values do."""
from pathlib import Path

import numpy as np
from matplotlib.axes import Axes
from matplotlib.colors import Normalize
from matplotlib.figure import Figure
from matplotlib.lines import Line2D
from matplotlib.ticker import MaxNLocator

from acas_pictures.canvas import (
    ALTITUDE, edges_between, fill_cells, hatch_cells, legend_beside, mark_puck, new_figure, patch, set_heading, smooth_edges,
)
from acas_pictures.colours import Paint, paints
from acas_pictures.slices import Layer, name_of
from acas_table import Model, Table

MILLION = 10**6
COLOURS = "PuOr"
"""A scale with two sides that is read alike by people with and without colour blindness."""
LOWER = Paint("#FFFFFF", "////")
"""The hatch where the other table has the lower value: without colour the two sides of the scale are alike."""
OWN_RATE = "own rate [ft/min]"


def draw_difference(model: Model, table: Table, other: Table, part: Layer, title: str | None = None) -> Figure:
    """The advice of both tables, with a dot at each entry where it is not the same, and the upper value of the other table less that of the
    first; each entry in a rectangle round its own rate and its altitude."""
    entries, others = part.entries(table), part.entries(other)
    differs = entries["advice"] != others["advice"]
    figure = new_figure(11.6, 4.2)
    first, second, third = figure.subplots(1, 3, sharey=True)
    for axes, source, advice in ((first, table.source, entries["advice"]), (second, other.source, others["advice"])):
        _draw_advice(axes, model, advice, differs)
        axes.set_title(f"advice of {Path(source).name}").set_parse_math(False)
    _draw_values(third, model, (others["upper"] - entries["upper"]) / MILLION)
    first.set_ylabel(ALTITUDE)
    _add_legend(second, model, np.union1d(entries["advice"], others["advice"]).tolist())
    set_heading(figure, f"Where do two tables differ?\n{name_of(model)}: {part.words(model)}" if title is None else title)
    return figure


def _draw_advice(axes: Axes, model: Model, advice: np.ndarray, differs: np.ndarray) -> None:
    """The advice of one table, and the dots."""
    fill_cells(axes, edges_between(model.own_rate), edges_between(model.altitude), advice, list(paints(model)))
    mark_puck(axes, model)
    rows, columns = np.nonzero(differs)
    if rows.size:  # a line of no points that may leave the axes would leave them no room
        dot = _dot(max(advice.shape))
        axes.plot(model.own_rate[columns], model.altitude[rows], label="differs", clip_on=False, zorder=3, **dot)
    _set_axes(axes, model)


def _dot(longest: int) -> dict:
    """How a dot looks, where the longer axis has so many numbers."""
    size = min(5.0, max(1.2, 90 / longest))
    return {"linestyle": "", "marker": "o", "markersize": size, "color": "black", "markeredgecolor": "white", "markeredgewidth": size / 8}


def _draw_values(axes: Axes, model: Model, values: np.ndarray) -> None:
    """The difference of the values, by a scale with 0 in its middle."""
    across, up = edges_between(model.own_rate), edges_between(model.altitude)
    greatest = max(1 / MILLION, float(np.abs(values).max()))
    mesh = axes.pcolormesh(across, up, values, cmap=COLOURS, norm=Normalize(-greatest, greatest), shading="flat")
    smooth_edges(mesh)
    mark_puck(axes, model)
    _set_axes(axes, model)
    axes.set_title("upper value, second less first")
    axes.figure.colorbar(mesh, ax=axes, label="units of cost", ticks=MaxNLocator(7)).ax.minorticks_off()
    if (values < 0).any():
        hatch_cells(axes, across, up, values < 0, LOWER)
        axes.legend(handles=[patch(LOWER, "below 0")], loc="upper center", bbox_to_anchor=(0.5, -0.16))


def _set_axes(axes: Axes, model: Model) -> None:
    axes.xaxis.set_major_locator(MaxNLocator(4))
    axes.set_xlabel(OWN_RATE)
    axes.set_xlim(model.own_rate[0], model.own_rate[-1])
    axes.set_ylim(min(model.altitude[0], -model.half_height), max(model.altitude[-1], model.half_height))


def _add_legend(axes: Axes, model: Model, shown: list[int]) -> None:
    filled = paints(model)
    dot = Line2D([], [], label="the advice differs", **_dot(18))
    legend_beside(axes, [*(patch(filled[number], model.names[number]) for number in shown), dot], "advice")
