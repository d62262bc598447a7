"""The chance of contact with a table and without, and the risk ratio."""
import numpy as np
from matplotlib.axes import Axes
from matplotlib.colors import Normalize, SymLogNorm
from matplotlib.figure import Figure
from matplotlib.ticker import FixedLocator, FuncFormatter, MaxNLocator, NullLocator

from acas_pictures.canvas import ALTITUDE, edges_between, hatch_cells, mark_puck, new_figure, patch, set_heading, smooth_edges
from acas_pictures.colours import NO_RATIO, UNADVISED, WITH_TABLE, Paint
from acas_pictures.slices import Slice, name_of
from acas_table import Model, Risk, gridded, ratios

MILLION = 10**6
COLOURS = "cividis"
"""A scale that is read alike by people with and without colour blindness."""
LEAST = 1e-6
"""What is printed is in millionths: below this a scale is even."""
MARKED = Paint(NO_RATIO)
ABOVE = Paint("#FFFFFF", "////")


def draw_risk(model: Model, risk: Risk, part: Slice, title: str | None = None) -> Figure:
    """The chances over altitude at the rates of a slice, each a band between its bounds; and the ratio of the two chances over altitude and
    own rate, at the slice's intruder's rate, by its upper bound."""
    states = gridded(risk, model)[part.present, :, :, part.intruder]
    figure = new_figure(8.6, 4.2)
    left, right = figure.subplots(1, 2, sharey=True)
    _draw_chances(left, model, states[:, part.own])
    left.set_ylabel(ALTITUDE)
    _draw_ratios(right, model, ratios(states), int(model.own_rate[part.own]))
    set_heading(figure, f"How likely is contact?\n{name_of(model)}: {part.words(model)}" if title is None else title)
    return figure


def _draw_chances(axes: Axes, model: Model, states: np.ndarray) -> None:
    """Two lines from altitude to altitude, with the band between the bounds round each of them."""
    for name, colour, style, label in (("clear", UNADVISED, "--", "always clear"), ("risk", WITH_TABLE, "-", "with the table")):
        lower, upper = (states[name][bound] / MILLION for bound in ("lower", "upper"))
        axes.fill_betweenx(model.altitude, lower, upper, color=colour, alpha=0.35, linewidth=0)
        axes.plot(upper, model.altitude, color=colour, linestyle=style, marker="o", markersize=3, linewidth=1.6, label=label)
    _scale_chances(axes, states)
    mark_puck(axes, model)
    axes.set_ylim(model.altitude[0], model.altitude[-1])
    axes.set_xlabel("chance of contact")
    axes.legend(loc="upper center", bbox_to_anchor=(0.5, -0.16), ncols=2)


def _scale_chances(axes: Axes, states: np.ndarray) -> None:
    """Even where no chance above 0 is below a hundredth, and else by powers of ten."""
    uppers = np.concatenate([states[name]["upper"] for name in ("risk", "clear")]) / MILLION
    above = uppers[uppers > 0]
    if len(above) == 0 or above.min() >= 0.01:
        axes.set_xlim(-0.03, 1.03)
        return
    decade = max(LEAST, 10.0 ** np.floor(np.log10(above.min())))
    axes.set_xscale("symlog", linthresh=decade, linscale=1)
    axes.set_xlim(-0.2 * decade, 1.6)
    numbers = [0.0, *_powers(decade, 1.0)]
    axes.xaxis.set_major_locator(FixedLocator(numbers))
    axes.xaxis.set_minor_locator(NullLocator())
    axes.xaxis.set_major_formatter(FuncFormatter(_number))
    axes.tick_params(axis="x", labelsize=8)


def _draw_ratios(axes: Axes, model: Model, found: np.ndarray, own: int) -> None:
    """The upper bound of the ratio, in a rectangle round each altitude and own rate; hatched where the lower bound too is above 1."""
    across, up = edges_between(model.own_rate), edges_between(model.altitude)
    axes.set_facecolor(MARKED.colour)
    values = np.ma.masked_invalid(found["upper"])
    norm, numbers = _scale_ratios(values)
    mesh = axes.pcolormesh(across, up, values, cmap=COLOURS, norm=norm, shading="flat")
    smooth_edges(mesh)
    is_above = np.nan_to_num(found["lower"]) > 1
    hatch_cells(axes, across, up, is_above, ABOVE)
    mark_puck(axes, model)
    for colour, width, style in (("white", 1.6, "-"), ("#303030", 0.9, ":")):
        axes.axvline(own, color=colour, linewidth=width, linestyle=style)
    axes.xaxis.set_major_locator(MaxNLocator(6))
    axes.set_xlabel("own rate [ft/min]")
    bar = axes.figure.colorbar(mesh, ax=axes, label="risk ratio, upper bound", ticks=numbers, format=FuncFormatter(_number))
    bar.ax.minorticks_off()
    marks = [(values.mask.any(), MARKED, "no ratio"), (is_above.any(), ABOVE, "surely above 1")]
    handles = [patch(paint, label) for is_there, paint, label in marks if is_there]
    if handles:
        axes.legend(handles=handles, loc="upper center", bbox_to_anchor=(0.5, -0.16), ncols=2)


def _scale_ratios(values: np.ma.MaskedArray) -> tuple[Normalize, list[float] | MaxNLocator]:
    """Even from 0 to 1 where no ratio above 0 is below a tenth, and else by powers of ten; and where its numbers stand."""
    above = values.compressed()[values.compressed() > 0]
    greatest = max(1.0, float(above.max())) if len(above) else 1.0
    if len(above) == 0 or (above.min() >= 0.1 and greatest <= 10):
        return Normalize(0, greatest), MaxNLocator()
    decade = max(LEAST, 10.0 ** np.floor(np.log10(above.min())))
    return SymLogNorm(linthresh=decade, linscale=1, vmin=0, vmax=greatest, base=10), [0.0, *_powers(decade, greatest)]


def _powers(least: float, greatest: float) -> list[float]:
    """The powers of ten between two of them."""
    return [10.0**power for power in range(round(np.log10(least)), int(np.floor(np.log10(greatest) + 1e-9)) + 1)]


def _number(value: float, _place: int | None = None) -> str:
    """A number as it is written beside a scale."""
    return f"{value:.6f}".rstrip("0").rstrip(".") if value < 10**6 else f"{value:.0e}"
