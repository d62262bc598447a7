"""The profile of an encounter with the advice of each second."""
from pathlib import Path

import numpy as np
from matplotlib.axes import Axes
from matplotlib.figure import Figure
from matplotlib.ticker import MaxNLocator

from acas_pictures.canvas import legend_beside, new_figure, patch, set_title
from acas_pictures.colours import INTRUDER, OWN, PUCK, paints
from acas_pictures.slices import name_of
from acas_table import Model, Replay
from acas_table.flight import TICKS_PER_FOOT

STEPS = 16
"""How many points a second is drawn with."""


def draw_replay(model: Model, replay: Replay, issued: np.ndarray, title: str | None = None) -> Figure:
    """Both paths second by second, the height of the puck round the own one, and below them the advice that is issued.

    `issued` are the numbers of the advices, shape (seconds,). A replay says how each second begins, so the paths go to the last one.
    """
    seconds = replay.seconds
    figure = new_figure(7.6, 4.8)
    axes, strip = figure.subplots(2, 1, sharex=True, gridspec_kw={"height_ratios": [9, 1]})
    times, own, intruder = profile(seconds)
    low, high = own - model.half_height, own + model.half_height
    axes.fill_between(times, low, high, color=PUCK, alpha=0.45, linewidth=0, label="puck's height")
    axes.plot(times, own, color=OWN, linewidth=2.2, label="own path")
    axes.plot(times, intruder, color=INTRUDER, linewidth=2.2, label="intruder's path")
    _draw_contacts(axes, seconds["contact"])
    axes.set(ylabel="altitude above the own at first [ft]")
    set_title(axes, f"What is advised on the way?\n{name_of(model)}: {Path(replay.source).name}" if title is None else title)
    axes.set_xlim(0, len(seconds))
    _add_range(axes, seconds)
    axes.legend(loc="upper left", bbox_to_anchor=(1.01, 1.0), borderaxespad=0.0)
    _draw_advice(strip, model, issued)
    return figure


def profile(seconds: np.ndarray) -> tuple[np.ndarray, np.ndarray, np.ndarray]:
    """Times in s, and the altitudes of the own aircraft and of the intruder above the own first one, in ft; float64."""
    begins = np.arange(len(seconds))
    times = np.linspace(0, len(seconds) - 1, STEPS * (len(seconds) - 1) + 1)
    own = _heights(seconds["own"], times, begins)
    return times, own, seconds["ticks"][0] / TICKS_PER_FOOT + _heights(seconds["intruder"], times, begins)


def _heights(rates: np.ndarray, times: np.ndarray, begins: np.ndarray) -> np.ndarray:
    """The climb in ft of who changes its rate evenly in each second."""
    climbed = np.concatenate([[0], np.cumsum(rates[:-1] + rates[1:])])
    place = np.minimum(times.astype(int), len(begins) - 1)
    part = times - place
    following = rates[np.minimum(place + 1, len(begins) - 1)]
    ticks = climbed[place] + 2 * rates[place] * part + (following - rates[place]) * part**2
    return ticks / TICKS_PER_FOOT


def _draw_contacts(axes: Axes, contact: np.ndarray) -> None:
    """A band over the seconds in which there is contact."""
    label = "contact"
    for second in np.nonzero(contact)[0].tolist():
        axes.axvspan(second, second + 1, color=INTRUDER, alpha=0.16, linewidth=0, label=label)
        label = None


def _draw_advice(strip: Axes, model: Model, issued: np.ndarray) -> None:
    filled = paints(model)
    for second, number in enumerate(issued.tolist()):
        paint = filled[number]
        strip.axvspan(second, second + 1, facecolor=paint.colour, hatch=paint.hatch, edgecolor=paint.ink, linewidth=0)
        strip.axvline(second, color="white", linewidth=0.4)
    strip.set(xlabel="time [s]", ylabel="advice", yticks=[])
    strip.xaxis.set_major_locator(MaxNLocator(integer=True))
    shown = np.unique(issued).tolist()
    legend_beside(strip, [patch(filled[number], model.names[number]) for number in shown], "")


def _add_range(axes: Axes, seconds: np.ndarray) -> None:
    """The range above the times. A single second does not tell how fast the two close in."""
    if len(seconds) > 1:
        far, speed = int(seconds["range"][0]), int(seconds["range"][0] - seconds["range"][1])
        above = axes.secondary_xaxis("top", functions=(lambda time: far - speed * time, lambda range_: (far - range_) / speed))
        above.set_xlabel("range [ft]")
