"""The values of a table over seconds to go and relative altitude."""
import numpy as np
from matplotlib.axes import Axes
from matplotlib.colors import Normalize, SymLogNorm
from matplotlib.figure import Figure
from matplotlib.ticker import Locator, MaxNLocator, SymmetricalLogLocator

from acas_pictures.canvas import ALTITUDE, edges_between, mark_puck, new_figure, set_heading, smooth_edges
from acas_pictures.slices import Slice, name_of
from acas_table import Model, Table

MILLION = 10**6
COLOURS = "cividis"
"""A scale that is read alike by people with and without colour blindness."""


def draw_cost(model: Model, table: Table, part: Slice, title: str | None = None) -> Figure:
    """The upper value, and how far it is above the lower one, each entry in a rectangle round its second and its altitude."""
    entries = part.entries(table)
    figure = new_figure(8.6, 3.8)
    left, right = figure.subplots(1, 2, sharey=True)
    upper = entries["upper"].T / MILLION
    _draw(left, model, upper, *_scale(upper), label="upper value [units of cost]")
    gap = (entries["upper"] - entries["lower"]).T
    steps = (Normalize(0, max(1, int(gap.max()))), MaxNLocator(integer=True))
    _draw(right, model, gap, *steps, label="upper less lower value [millionths]")
    left.set_ylabel(ALTITUDE)
    set_heading(figure, f"What does it cost at most to follow the advice?\n{name_of(model)}: {part.words(model)}" if title is None else title)
    return figure


def _scale(values: np.ndarray) -> tuple[Normalize, Locator]:
    """Even up to a unit of cost, and by powers of ten beyond it, where there is much beyond it; and where its numbers stand."""
    least, greatest = min(0.0, float(values.min())), float(values.max())
    if max(-least, greatest) <= 10:
        return Normalize(least, max(1e-6, greatest)), MaxNLocator()
    return SymLogNorm(linthresh=1, vmin=least, vmax=max(1.0, greatest), base=10), SymmetricalLogLocator(base=10, linthresh=1)


def _draw(axes: Axes, model: Model, values: np.ndarray, scale: Normalize, ticks: Locator, label: str) -> None:
    across = np.arange(model.horizon + 2) - 0.5
    mesh = axes.pcolormesh(across, edges_between(model.altitude), values, cmap=COLOURS, norm=scale, shading="flat")
    smooth_edges(mesh)
    mark_puck(axes, model)
    axes.xaxis.set_major_locator(MaxNLocator(integer=True))
    axes.set_xlabel("seconds to go [s]")
    axes.figure.colorbar(mesh, ax=axes, label=label, ticks=ticks).ax.minorticks_off()
