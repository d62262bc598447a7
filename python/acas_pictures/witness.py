"""The vertical profile of a reported flight."""
from fractions import Fraction
from itertools import accumulate

from matplotlib.axes import Axes
from matplotlib.figure import Figure
from matplotlib.patches import Rectangle

from acas_pictures.canvas import new_figure, set_title
from acas_pictures.colours import INTRUDER, OWN, PUCK
from acas_pictures.slices import name_of
from acas_table import Advisory, CellLine, Flight, Model, Segment
from acas_table.flight import TICKS_PER_FOOT, climb, highest_response, lowest_response
from acas_table.model import AXES

STEPS = 240
CURVES = "#6A6A6A"
Points = tuple[list[float], list[float]]


def draw_witness(model: Model, advisory: Advisory, flight: Flight, title: str) -> Figure:
    """Both paths until contact, the puck at that time, and between which curves a pilot may fly who meets the advisory. Of an intruder that
    manoeuvres a square stands where each of its segments begins."""
    figure = new_figure(8.0, 4.4)
    axes = figure.add_subplot()
    first, last = passing(model, flight)
    end = last + (last - first) / 8
    low, high = (
        path(flight.own, response(model, advisory, flight.own, end), end) for response in (lowest_response, highest_response)
    )
    axes.plot(*high, color=CURVES, linewidth=1.1, linestyle=(0, (5, 2)), label="highest climb")
    axes.plot(*low, color=CURVES, linewidth=1.1, linestyle=(0, (1, 1.5)), label="lowest climb")
    axes.add_patch(_puck(model, flight))
    axes.plot(*path(flight.own, flight.response, flight.time), color=OWN, linewidth=2.2, label="own path")
    if flight.against is None:
        _draw_intruder(axes, flight, end)
    else:
        _draw_manoeuvre(axes, flight, flight.against)
    _draw_response(axes, flight)
    _draw_contact(axes, flight)
    axes.set(xlabel="time [s]", ylabel="altitude above the own at first [ft]", xlim=(0, float(end)))
    set_title(axes, title)
    axes.set_ylim(*reach(model, flight, end))
    _add_range(axes, flight)
    axes.legend(loc="upper left", bbox_to_anchor=(1.01, 1.0), borderaxespad=0.0)
    return figure


def title_of(model: Model, line: CellLine) -> str:
    """The cell of a line in words: its second, and its edges in ft and ft/min."""
    edges = (getattr(model, axis)[place : place + 2].tolist() for axis, place in zip(AXES, (line.altitude, line.own_rate, line.intruder_rate)))
    altitude, own, intruder = (f"{low} to {high}" for low, high in edges)
    return (
        f"{name_of(model)}: {line.second} to {line.second + 1} s to go, {line.present} is present, under {line.advice}\n"
        f"altitude {altitude} ft, own rate {own}, intruder's rate {intruder} ft/min"
    )


def passing(model: Model, flight: Flight) -> tuple[Fraction, Fraction]:
    """From when until when the range is within the radius, from the state on, in s."""
    return max(Fraction(0), (flight.range - model.radius) / flight.speed), (flight.range + model.radius) / flight.speed


def path(rate: Fraction, segments: tuple[Segment, ...], end: Fraction, ticks: Fraction = Fraction(0)) -> Points:
    """Times in s and altitudes in ft of who flies segments from a rate and an altitude in ticks: their ends, and many times between them."""
    times = {end * step / STEPS for step in range(STEPS + 1)}
    times |= {time for time in begins(segments) if time < end}
    return ([float(time) for time in sorted(times)], [_feet(ticks + climb(rate, segments, time)) for time in sorted(times)])


def begins(segments: tuple[Segment, ...]) -> list[Fraction]:
    """When each segment begins, and when the last one ends."""
    return list(accumulate((duration for duration, _ in segments), initial=Fraction(0)))


def _feet(ticks: Fraction) -> float:
    return float(ticks / TICKS_PER_FOOT)


def _puck(model: Model, flight: Flight) -> Rectangle:
    """The puck round the own aircraft at the time of contact, as wide as the intruder takes to pass it."""
    first, last = ((flight.range + way * model.radius) / flight.speed for way in (-1, 1))
    bottom = _feet(flight.own_at(flight.time)) - model.half_height
    return Rectangle(
        (float(first), bottom), float(last - first), 2 * model.half_height, facecolor=PUCK, edgecolor="#707070", linewidth=0.8,
        alpha=0.6, label="puck at contact",
    )


def _draw_intruder(axes: Axes, flight: Flight, end: Fraction) -> None:
    """The intruder's path to the contact, and dotted beyond it."""
    flown = {"linewidth": 2.2, "linestyle": "-", "label": "intruder's path"}
    beyond = {"linewidth": 1.2, "linestyle": (0, (1, 2))}
    for ends, look in (((Fraction(0), flight.time), flown), ((flight.time, end), beyond)):
        altitudes = [_feet(flight.intruder_at(time)) for time in ends]
        axes.plot([float(time) for time in ends], altitudes, color=INTRUDER, **look)


def _draw_manoeuvre(axes: Axes, flight: Flight, against: tuple[Segment, ...]) -> None:
    """The path of an intruder that manoeuvres, to the contact."""
    times, altitudes = path(flight.intruder, against, flight.time, flight.ticks)
    squares = [times.index(float(begin)) for begin in begins(against)[: max(1, len(against))]]
    axes.plot(
        times, altitudes, color=INTRUDER, linewidth=2.2, marker="s", markevery=squares, markersize=5, markerfacecolor="white",
        label="intruder's path",
    )


def _draw_response(axes: Axes, flight: Flight) -> None:
    """A dot where each segment of the response begins, and the segments in words beside the picture; those of the intruder too."""
    for begin in begins(flight.response)[: len(flight.response)]:
        axes.plot([float(begin)], [_feet(flight.own_at(begin))], "o", color=OWN, markersize=4)
    words = _listed("response", flight.response)
    if flight.against is not None:
        words += ["", *_listed("intruder's manoeuvre", flight.against)]
    axes.text(1.03, 0.0, "\n".join(words), transform=axes.transAxes, fontsize=8, va="bottom", linespacing=1.5)


def _listed(name: str, segments: tuple[Segment, ...]) -> list[str]:
    return [name, *(_segment_words(segment) for segment in segments)] if segments else [f"no {name}"]


def _segment_words(segment: Segment) -> str:
    duration, acceleration = float(segment.duration), float(segment.acceleration)
    return f"{duration:.5g} s at {acceleration:+.6g} ft/min per s" if acceleration else f"{duration:.6g} s at the same rate"


def _draw_contact(axes: Axes, flight: Flight) -> None:
    time, altitude = float(flight.time), _feet(flight.intruder_at(flight.time))
    axes.axvline(time, color=INTRUDER, linewidth=0.8, linestyle=":")
    axes.plot([time], [altitude], "X", color=INTRUDER, markeredgecolor="white", markersize=9, label=f"contact at {time:.6g} s")


def reach(model: Model, flight: Flight, end: Fraction) -> tuple[float, float]:
    """The altitudes that the picture shows: both paths and the puck, and a margin."""
    own = path(flight.own, flight.response, flight.time)[1]
    seen = [*own, own[-1] - model.half_height, own[-1] + model.half_height]
    if flight.against is None:
        seen += [_feet(flight.intruder_at(Fraction(time))) for time in (0, end)]
    else:
        seen += path(flight.intruder, flight.against, flight.time, flight.ticks)[1]
    margin = 0.12 * (max(seen) - min(seen))
    return min(seen) - margin, max(seen) + margin


def _add_range(axes: Axes, flight: Flight) -> None:
    """The range above the times."""
    far, speed = float(flight.range), float(flight.speed)
    above = axes.secondary_xaxis("top", functions=(lambda time: far - speed * time, lambda range_: (far - range_) / speed))
    above.set_xlabel("range [ft]")
