"""Looks at a figure as it is drawn."""
from collections import Counter

import numpy as np
from matplotlib.axes import Axes
from matplotlib.colors import to_rgb
from matplotlib.figure import Figure


def colour_at(figure: Figure, axes: Axes, x: float, y: float, reach: int = 2) -> str:
    """The colour that most points of the drawn figure have from a point of the axes as far as the reach, as #RRGGBB in capitals: what stands
    behind a hatch."""
    figure.canvas.draw()
    pixels = np.asarray(figure.canvas.buffer_rgba())
    column, row = (int(place) for place in axes.transData.transform((x, y)))
    row = pixels.shape[0] - 1 - row
    near = pixels[row - reach : row + reach + 1, column - reach : column + reach + 1, :3].reshape(-1, 3)
    ((red, green, blue), _), *_ = Counter(map(tuple, near.tolist())).most_common(1)
    return f"#{red:02X}{green:02X}{blue:02X}"


def legend_of(axes: Axes) -> dict[str, str]:
    """The labels of a legend, each with the colour of its patch or line."""
    legend = axes.get_legend()
    handles = getattr(legend, "legendHandles", None) or legend.legend_handles
    labels = [text.get_text() for text in legend.get_texts()]
    return {label: hex_of(colour_of(handle)) for label, handle in zip(labels, handles)}


def colour_of(handle):
    """The colour of a patch or of a line."""
    return handle.get_facecolor() if hasattr(handle, "get_facecolor") else handle.get_color()


def hex_of(colour) -> str:
    """A colour as #RRGGBB in capitals."""
    return "#" + "".join(f"{round(255 * part):02X}" for part in to_rgb(colour))


def line_of(axes: Axes, label: str) -> tuple[list[float], list[float]]:
    """The points of the line with a label."""
    (line,) = [line for line in axes.lines if line.get_label() == label]
    return list(line.get_xdata()), list(line.get_ydata())
