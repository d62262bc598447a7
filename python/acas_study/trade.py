"""The picture of a trade: one column of a study's table against another."""
import math
from dataclasses import dataclass

from matplotlib.figure import Figure

from acas_pictures.canvas import new_figure

AXIS_LABELS = {
    "advised": "cells with an advice", "reported": "reported lines", "certified": "certified lines", "lines": "lines of the report",
    "clear": "cells that are clear", "cells": "cells", "advised_share": "share of the cells that have an advice",
    "reported_share": "share of the lines that are reported", "layers": "layers", "states": "states", "bytes": "bytes of the table",
    "mean_risk": "mean chance of contact with the table, at most", "mean_risk_clear": "mean chance of contact under always clear, at least",
    "risk_ratio": "ratio of the mean chances, at most", "safeable": "clear cells that are safeable", "open": "clear cells that are open",
    "near": "clear cells that are near", "open_share": "share of the clear cells that are open",
}
LINES = (("#222222", "o", "-"), ("#C2185B", "s", "--"), ("#00695C", "^", "-."), ("#7A6A00", "D", ":"))


@dataclass(frozen=True)
class Point:
    """A model in the picture: the line that it belongs to, its label, and its two numbers."""

    line: str
    label: str
    across: float
    up: float


def draw_trade(points: list[Point], across: str, up: str, first: str) -> Figure:
    """Models that differ in the first varied key alone are joined by a line, and labelled by its value. One that has no number is left
    out."""
    points = [point for point in points if math.isfinite(point.across) and math.isfinite(point.up)]
    figure = new_figure(7.6, 4.2)
    axes = figure.add_subplot()
    for place, line in enumerate(dict.fromkeys(point.line for point in points)):
        colour, marker, style = LINES[place % len(LINES)]
        own = [point for point in points if point.line == line]
        across_up = [point.across for point in own], [point.up for point in own]
        axes.plot(*across_up, color=colour, marker=marker, linestyle=style if first else "", markersize=4.5, label=line)
        for point in own:
            axes.annotate(
                point.label, (point.across, point.up), xytext=(5, 4), textcoords="offset points", fontsize=7.5, color=colour
            )
    axes.set(xlabel=AXIS_LABELS.get(across, across), ylabel=AXIS_LABELS.get(up, up))
    axes.margins(0.09)
    axes.set_title(f"What is gained, and at what price?\n{first}, at each point" if first else "What is gained, and at what price?")
    if first:
        axes.legend(loc="upper left", bbox_to_anchor=(1.01, 1.0), borderaxespad=0.0)
    return figure
