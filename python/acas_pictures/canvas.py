"""Figures: their style, what several pictures share, and how they are written."""
import os
from pathlib import Path

import matplotlib
import numpy as np
from matplotlib.axes import Axes
from matplotlib.backends.backend_agg import FigureCanvasAgg
from matplotlib.collections import PolyCollection, QuadMesh
from matplotlib.colors import ListedColormap
from matplotlib.figure import Figure
from matplotlib.patches import Patch
from matplotlib.patheffects import withStroke

from acas_pictures.colours import Paint
from acas_table import Fault, Model

ENDINGS = {".png": "png", ".svg": "svg", ".pdf": "pdf"}
STYLE = {
    "font.size": 9, "axes.titlesize": 10, "axes.titlelocation": "left", "axes.spines.top": False, "axes.spines.right": False,
    "legend.frameon": False, "legend.fontsize": 8.5, "hatch.linewidth": 0.6, "svg.fonttype": "none", "svg.hashsalt": "acas",
    "pdf.fonttype": 42,
}
# What two runs would not have in common is left out of the files.
METADATA = {"png": {"Software": None}, "svg": {"Date": None}, "pdf": {"CreationDate": None}}
MOST_POINTS = 100_000_000
TO_GO = "time to loss of horizontal separation [s]"
ALTITUDE = "intruder's altitude less the own [ft]"


def check_ending(path: Path) -> None:
    """Refuses a name that tells no format."""
    if path.suffix.lower() not in ENDINGS:
        raise Fault(str(path), "ending", "is none of .png, .svg and .pdf")


def new_figure(width: float, height: float) -> Figure:
    """A figure of so many inches, which lays itself out."""
    matplotlib.rcParams.update(STYLE)
    figure = Figure(figsize=(width, height), dpi=150, layout="constrained")
    FigureCanvasAgg(figure)
    return figure


def resize(figure: Figure, size: tuple[float, float] | None, dpi: int | None) -> None:
    """Gives a figure another size in inches, and other points an inch, where they are given."""
    if size is not None:
        figure.set_size_inches(*size)
    if dpi is not None:
        figure.set_dpi(dpi)
    width, height = figure.get_size_inches() * figure.get_dpi()
    if width * height > MOST_POINTS:
        raise Fault("words", "size", f"makes {width:.0f} by {height:.0f} points, over {MOST_POINTS} in all")


def set_title(axes: Axes, title: str) -> None:
    """Writes a title over the axes, letter by letter: no dollar begins a formula."""
    axes.set_title(title).set_parse_math(False)


def set_heading(figure: Figure, heading: str) -> None:
    """Writes a title over all axes of a figure, in the same way."""
    figure.suptitle(heading, fontsize=10, x=0.01, ha="left").set_parse_math(False)


def save(figure: Figure, path: Path) -> None:
    """Writes a figure to a file in the format of its ending. A file that was there is replaced once the new one is whole."""
    check_ending(path)
    form = ENDINGS[path.suffix.lower()]
    part = path.with_name(f".{path.name}.{os.getpid()}.part")
    try:
        with open(part, "xb") as file:
            figure.savefig(file, format=form, dpi=figure.get_dpi(), metadata=METADATA[form])
        os.replace(part, path)
    except OSError as error:
        raise Fault(str(path), "cannot be written:", error.strerror or str(error)) from None
    finally:
        part.unlink(missing_ok=True)


def edges_between(axis: np.ndarray) -> np.ndarray:
    """Where one number of an axis is nearest, and then the next: the ends of the axis, and the middles between its numbers.

    float64, shape (numbers + 1,), in the unit of the axis.
    """
    return np.concatenate([axis[:1], (axis[:-1] + axis[1:]) / 2, axis[-1:]])


def fill_cells(axes: Axes, across: np.ndarray, up: np.ndarray, numbers: np.ndarray, filled: list[Paint]) -> None:
    """Fills each rectangle of a grid as its number says.

    `across` and `up` are the edges, shapes (columns + 1,) and (rows + 1,); `numbers` are places in `filled`, shape (rows, columns).
    """
    colours = ListedColormap([paint.colour for paint in filled])
    mesh = axes.pcolormesh(across, up, numbers, cmap=colours, vmin=-0.5, vmax=len(filled) - 0.5, shading="flat")
    smooth_edges(mesh)
    axes.set_facecolor(filled[0].colour)
    for number, paint in enumerate(filled):
        if paint.hatch:
            hatch_cells(axes, across, up, numbers == number, paint)


def hatch_cells(axes: Axes, across: np.ndarray, up: np.ndarray, chosen: np.ndarray, paint: Paint) -> None:
    """Draws a hatch over the chosen rectangles of a grid. `chosen` is of bool, shape (rows, columns); the edges are those of
    `fill_cells`."""
    rows, columns = np.nonzero(chosen)
    corners = [rectangle(across, up, row, column) for row, column in zip(rows, columns)]
    axes.add_collection(PolyCollection(corners, facecolors="none", edgecolors=paint.ink, linewidths=0, hatch=paint.hatch))


def smooth_edges(mesh: QuadMesh) -> None:
    """Keeps the rectangles of a vector picture without gaps between them."""
    mesh.set_edgecolor("face")
    mesh.set_linewidth(0.5)


def rectangle(across: np.ndarray, up: np.ndarray, row: int, column: int) -> list[tuple[float, float]]:
    """The corners of a rectangle of a grid."""
    left, right, low, high = across[column], across[column + 1], up[row], up[row + 1]
    return [(left, low), (right, low), (right, high), (left, high)]


def patch(paint: Paint, label: str) -> Patch:
    """An entry of a legend."""
    edge = paint.ink if paint.hatch else "#808080"
    return Patch(facecolor=paint.colour, edgecolor=edge, linewidth=0.5, hatch=paint.hatch, label=label)


def legend_beside(axes: Axes, handles: list[Patch], title: str) -> None:
    """A legend to the right of the axes."""
    axes.legend(handles=handles, title=title, loc="upper left", bbox_to_anchor=(1.01, 1.0), borderaxespad=0.0, alignment="left")


def mark_puck(axes: Axes, model: Model) -> None:
    """Two lines at the height of the puck, over whatever is drawn there."""
    for altitude in (-model.half_height, model.half_height):
        axes.axhline(altitude, color="white", linewidth=1.2)
        axes.axhline(altitude, color="#303030", linewidth=1.2, linestyle=(0, (4, 3)))
    axes.annotate(
        "puck", (1.0, model.half_height), xycoords=("axes fraction", "data"), xytext=(-4, 3), textcoords="offset points",
        ha="right", va="bottom", fontsize=8, color="#202020", path_effects=[withStroke(linewidth=2.2, foreground="white")],
    )
