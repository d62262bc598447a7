"""How far away an intruder that manoeuvres has to be for a box to be certified, over its acceleration."""
import numpy as np
from matplotlib.axes import Axes
from matplotlib.figure import Figure

from acas_pictures.canvas import ALTITUDE, legend_beside, mark_puck, new_figure, patch, set_title
from acas_pictures.colours import CERTIFIED, REPORTED, Paint
from acas_pictures.slices import name_of
from acas_table import Fault, Model, Separations

ACCELERATION = "intruder's greatest acceleration [ft/min per s]"
BORDER = "#000000"


def draw_separation(model: Model, found: Separations, box: int, title: str | None = None) -> Figure:
    """The two borders of the altitudes at which a box is reported, the upper one above and the lower one below, each with a scale of its own.

    Up to an acceleration that was looked at the border is that of this one: it holds for each lesser one too, since an intruder that may do
    less leaves certified what was so.
    """
    rows = found.of(box)
    if len(rows) < 2:
        raise Fault(found.source, "box", f"{box} has one acceleration, and a picture wants two")
    figure = new_figure(7.6, 5.2)
    high, low = figure.subplots(2, 1, sharex=True)
    _draw_border(high, model, rows, "above", "^")
    _draw_border(low, model, rows, "below", "v")
    low.set(xlabel=ACCELERATION, xlim=(rows["accel"][0], rows["accel"][-1]))
    figure.supylabel(ALTITUDE, fontsize=9)
    words = f"From which altitude on is it safe?\n{name_of(model)}: box {box}, an intruder of up to {rows['rate'][0]} ft/min"
    set_title(high, words if title is None else title)
    handles = [patch(Paint(CERTIFIED), "certified"), patch(Paint(REPORTED), "reported at the next mark")]
    legend_beside(high, handles, f"box {box}")
    return figure


def _draw_border(axes: Axes, model: Model, rows: np.ndarray, side: str, marker: str) -> None:
    """A border, with a mark at each acceleration, reported on its one side and certified on the other. Where there is none, all is reported."""
    bottom, top = _reach(rows[side])
    inner, outer = (bottom, top) if side == "above" else (top, bottom)
    axes.fill_between(rows["accel"], inner, np.nan_to_num(rows[side], nan=outer), step="pre", color=REPORTED, linewidth=0)
    axes.set_facecolor(CERTIFIED)
    axes.plot(
        rows["accel"], rows[side], color=BORDER, linewidth=1.0, drawstyle="steps-pre", marker=marker, markersize=5.5, clip_on=False,
        markeredgecolor="white", markeredgewidth=0.6, label=f"{side} which it is certified",
    )
    if bottom < model.half_height < top:
        mark_puck(axes, model)
    axes.set_ylim(bottom, top)


def _reach(border: np.ndarray) -> tuple[float, float]:
    """The altitudes that are shown of a border, with a margin. Where there is none at all, these are the ends of the format."""
    seen = border[~np.isnan(border)]
    if len(seen) == 0:
        return -10_000.0, 10_000.0
    margin = max(20.0, 0.25 * (seen.max() - seen.min()))
    return float(seen.min() - margin), float(seen.max() + margin)
