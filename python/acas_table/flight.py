"""Flights of two aircraft under an advisory, in exact numbers. The intruder keeps its rate, or manoeuvres."""
from dataclasses import dataclass
from fractions import Fraction
from typing import Iterable, NamedTuple

from acas_texts import Fault
from acas_table.model import Advisory, Model
from acas_table.words import NUMBER, Words

TICKS_PER_FOOT = 120
"""Altitudes are in ticks of 1/120 ft: at `v` ft/min and `a` ft/min per second an aircraft climbs `2*v*t + a*t*t` of them in `t` s."""
GREATEST_ACCELERATION = 2000
GREATEST_RATE = 10000
"""What `acas manoeuvre` allows an intruder at most, in ft/min per second and in ft/min."""
LABELS = ("time", "range", "speed", "ticks", "own", "intruder")
"""The numbers of a flight, as they are printed."""
SEGMENT = f"{NUMBER}@{NUMBER}"
FLIGHT = "".join(f"{label} {NUMBER} " for label in LABELS) + f"response (?:none|{SEGMENT}(?: {SEGMENT})*)"
"""The words of a flight of an intruder that keeps its rate, from `time` on: those that `read_flight` reads, but for the terms of fractions."""


class Segment(NamedTuple):
    """A part of a flight: so many seconds under an acceleration in ft/min per second."""

    duration: Fraction
    acceleration: Fraction


class Manoeuvre(NamedTuple):
    """What an intruder may do: its greatest acceleration in ft/min per second, and its greatest rate in ft/min."""

    accel: int = GREATEST_ACCELERATION
    rate: int = GREATEST_RATE


@dataclass(frozen=True)
class Flight:
    """A state of two aircraft, and a response of the own pilot to an advisory that ends in contact."""

    time: Fraction
    """When there is contact, in s from the state on."""
    range: Fraction
    """How far away the intruder is at first, in ft."""
    speed: Fraction
    """The closing speed in ft/s."""
    ticks: Fraction
    """How far the intruder is above at first, in ticks of 1/120 ft."""
    own: Fraction
    """The own vertical rate at first, in ft/min."""
    intruder: Fraction
    """The intruder's vertical rate at first, in ft/min."""
    response: tuple[Segment, ...]
    against: tuple[Segment, ...] | None = None
    """What an intruder flies that manoeuvres; None of one that keeps its rate."""

    def range_at(self, time: Fraction) -> Fraction:
        """How far away the intruder is, in ft; below 0 it has passed."""
        return self.range - self.speed * time

    def intruder_at(self, time: Fraction) -> Fraction:
        """How far the intruder is above the own aircraft's first altitude, in ticks; of one that manoeuvres, at a time of its flight."""
        climbed = 2 * self.intruder * time if self.against is None else climb(self.intruder, self.against, time)
        return self.ticks + climbed

    def own_at(self, time: Fraction) -> Fraction:
        """How far the own aircraft is above its first altitude, in ticks, at a time of the response."""
        return climb(self.own, self.response, time)


def read_flight(words: Words, may_manoeuvre: bool = False) -> Flight:
    """The words of a line from `time` on. The intruder's segments may follow where it may manoeuvre."""
    numbers = {name: words.labelled(name) for name in LABELS}
    words.word("response")
    response, against = _segments(words, "response"), None
    if may_manoeuvre and words.peek() == "against":
        words.word("against")
        against = _segments(words, "against")
    return Flight(**numbers, response=response, against=against)


def _segments(words: Words, field: str) -> tuple[Segment, ...]:
    """The segments of a list, as far as the words have an `@`; `none` is the list without one."""
    if words.peek() == "none":
        words.word("none")
        return ()
    segments = [_segment(words, field)]
    while words.peek() not in ("", "against"):
        segments.append(_segment(words, field))
    return tuple(segments)


def _segment(words: Words, field: str) -> Segment:
    word = words.next(field)
    duration, at, acceleration = word.partition("@")
    if not at:
        raise words.fault(field, word, "DURATION@ACCELERATION")
    return Segment(words.fraction_of(field, duration), words.fraction_of(field, acceleration))


def climb(rate: Fraction, segments: Iterable[Segment], time: Fraction) -> Fraction:
    """How many ticks an aircraft with a first rate in ft/min climbs in a time, which is at most that of its segments."""
    climbed, left = Fraction(0), time
    for duration, acceleration in segments:
        flown = min(duration, left)
        climbed += (2 * rate + acceleration * flown) * flown
        rate += acceleration * flown
        left -= flown
    return climbed


def lowest_response(model: Model, advisory: Advisory, own: Fraction, time: Fraction) -> tuple[Segment, ...]:
    """The response that meets an advisory and is lowest at every time: towards `lo`, late and slowly where that is up."""
    pull, hold = (model.pull, model.delay) if own < advisory.lo else (model.limit, 0)
    return _approach(own, advisory.lo, pull, hold, time)


def highest_response(model: Model, advisory: Advisory, own: Fraction, time: Fraction) -> tuple[Segment, ...]:
    """The response that meets an advisory and is highest at every time: towards `hi`, late and slowly where that is down."""
    pull, hold = (model.pull, model.delay) if own > advisory.hi else (model.limit, 0)
    return _approach(own, advisory.hi, pull, hold, time)


def _approach(own: Fraction, aim: int, pull: int, hold: int, time: Fraction) -> tuple[Segment, ...]:
    """Who holds a rate, then accelerates towards an aim, and keeps it: until a time."""
    turning = Segment(abs(aim - own) / Fraction(pull), Fraction(pull if own < aim else -pull))
    parts = [Segment(Fraction(hold), Fraction(0)), turning, Segment(time, Fraction(0))]
    return tuple(part for part in parts if part.duration > 0)


def check_flight(model: Model, advisory: Advisory, flight: Flight, source: str, may: Manoeuvre = Manoeuvre()) -> None:
    """Refuses a flight whose response lasts another time, does not meet the advisory or does not end in contact; and one whose intruder
    manoeuvres for another time, or does what it may not."""
    _check_time("response", flight.response, flight, source)
    if not _meets(model, advisory, flight.own, flight.response):
        raise Fault(source, "response", f"does not meet {advisory.name} in {model.source}")
    if flight.against is not None:
        _check_time("against", flight.against, flight, source)
        _check_intruder(flight, may, source)
    apart = abs(flight.range_at(flight.time))
    if apart > model.radius:
        raise Fault(source, "range", f"is {apart} ft at the end, outside the puck of {model.source}")
    off = abs(flight.intruder_at(flight.time) - flight.own_at(flight.time))
    if off > TICKS_PER_FOOT * model.half_height:
        raise Fault(source, "ticks", f"differ by {off} at the end, outside the puck of {model.source}")


def _check_time(field: str, segments: tuple[Segment, ...], flight: Flight, source: str) -> None:
    lasts = sum((segment.duration for segment in segments), Fraction(0))
    if lasts != flight.time:
        raise Fault(source, field, f"lasts {lasts} s, not the time {flight.time}")


def _check_intruder(flight: Flight, may: Manoeuvre, source: str) -> None:
    """Refuses an intruder that accelerates more than it may, or has a greater rate than it may at some time."""
    rate = flight.intruder
    for duration, acceleration in flight.against or ():
        if duration <= 0:
            raise Fault(source, "against", f"has a segment of {duration} s")
        if abs(acceleration) > may.accel:
            raise Fault(source, "against", f"accelerates by {acceleration} ft/min per s, over {may.accel}")
        for number in (rate, rate + acceleration * duration):
            if abs(number) > may.rate:
                raise Fault(source, "against", f"has the rate {number} ft/min, over {may.rate}")
        rate += acceleration * duration


def _meets(model: Model, advisory: Advisory, own: Fraction, response: tuple[Segment, ...]) -> bool:
    if _all_follow(model, advisory, own, response):
        return True
    held = bool(response) and response[0].acceleration == 0 and 0 < response[0].duration <= model.delay
    return held and _all_follow(model, advisory, own, response[1:])


def _all_follow(model: Model, advisory: Advisory, rate: Fraction, response: Iterable[Segment]) -> bool:
    for segment in response:
        if not _follows(model, advisory, rate, segment):
            return False
        rate += segment.acceleration * segment.duration
    return True


def _follows(model: Model, advisory: Advisory, rate: Fraction, segment: Segment) -> bool:
    end = rate + segment.acceleration * segment.duration
    if segment.duration <= 0 or abs(segment.acceleration) > model.limit:
        return False
    if rate < advisory.lo:
        return segment.acceleration >= model.pull and end <= advisory.hi
    if rate > advisory.hi:
        return segment.acceleration <= -model.pull and end >= advisory.lo
    return advisory.lo <= end <= advisory.hi
