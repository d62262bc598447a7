"""A policy: the advice over seconds to go and relative altitude."""
import numpy as np
from matplotlib.figure import Figure

from acas_pictures.canvas import ALTITUDE, TO_GO, edges_between, fill_cells, legend_beside, mark_puck, new_figure, patch, set_title
from acas_pictures.colours import paints
from acas_pictures.slices import Slice, name_of, require_seconds
from acas_table import Model, Table


def draw_policy(model: Model, table: Table, part: Slice, title: str | None = None) -> Figure:
    """The advice that is issued at each time and altitude.

    Layer `n` is advised where more than `n - 1` and at most `n` seconds are to go, at the altitude of the grid that is nearest.
    """
    require_seconds(model)
    advice = part.entries(table)["advice"][1:].T
    figure = new_figure(7.2, 4.2)
    axes = figure.add_subplot()
    filled = paints(model)
    fill_cells(axes, np.arange(model.horizon + 1), edges_between(model.altitude), advice, list(filled))
    mark_puck(axes, model)
    axes.set(xlabel=TO_GO, ylabel=ALTITUDE)
    set_title(axes, f"What is advised?\n{name_of(model)}: {part.words(model)}" if title is None else title)
    tabled = np.unique(advice).tolist()
    legend_beside(axes, [patch(filled[number], model.names[number]) for number in tabled], "advice")
    return figure
