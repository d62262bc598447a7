"""What `acas replay` prints."""
import math
from dataclasses import dataclass
from fractions import Fraction

import numpy as np

from acas_texts import Fault
from acas_table.flight import TICKS_PER_FOOT
from acas_table.model import Model
from acas_table.table import Table
from acas_table.words import Words, lines_of

MOST_SECONDS = 600
CLEAR = 0
"""The number of the advisory that stands for clear of conflict."""


@dataclass(frozen=True)
class Replay:
    """An encounter, second by second."""

    source: str
    """What the text is called in faults."""
    seconds: np.ndarray
    """Structured, shape (seconds,). Fields: `advice`, name, str, as it is issued when the second begins; `range`, int64, in ft, and
    below 0 once the intruder has passed; `ticks`, int64, how far the intruder is above, in ticks of 1/120 ft; `own` and `intruder`,
    int64, the two vertical rates in ft/min; `contact`, bool, whether there is contact at some time of the second."""

    def __repr__(self) -> str:
        return f"<Replay {self.source}: {len(self.seconds)} seconds, {np.count_nonzero(self.seconds['contact'])} in contact>"


def read_replay(text: str, source: str = "replay") -> Replay:
    """Reads what `acas replay` has printed, to its last line. A fault names the line and the word that is not as it has to be."""
    rows: list[tuple] = []
    counts = None
    for words in lines_of(text, source):
        if counts is not None:
            raise Fault(words.source, "end", "is missing: a line follows the counts")
        if words.peek() == "seconds":
            counts = _counts(words)
        else:
            rows.append(_second(words, len(rows)))
    if counts is None:
        raise Fault(source, "counts", "are missing: the last line has none")
    found = (len(rows), sum(row[-1] for row in rows))
    if counts != found:
        raise Fault(source, "counts", f"say seconds {counts[0]} contact {counts[1]}, but there are {found[0]} and {found[1]}")
    longest = max((len(row[0]) for row in rows), default=1)
    fields = [("advice", f"U{longest}"), *((name, "i8") for name in ("range", "ticks", "own", "intruder")), ("contact", "?")]
    replay = Replay(source, np.array(rows, dtype=fields))
    _check_course(replay)
    return replay


def _second(words: Words, number: int) -> tuple:
    words.whole("second", number, number)
    advice = words.name("advice")
    numbers = []
    for name in ("range", "ticks", "own", "intruder"):
        words.word(name)
        numbers.append(words.whole(name, -(10**10), 10**10))
    contact = words.word("apart", "contact") == "contact"
    words.end()
    return (advice, *numbers, contact)


def _counts(words: Words) -> tuple[int, int]:
    words.word("seconds")
    seconds = words.whole("seconds", 1, MOST_SECONDS)
    words.word("contact")
    contact = words.whole("contact", 0, seconds)
    words.end()
    return seconds, contact


def _check_course(replay: Replay) -> None:
    """Refuses a second that does not begin where the one before it ends: the speed stays, and the rates change evenly."""
    seconds = replay.seconds
    gone = np.diff(seconds["range"])
    gained = (seconds["intruder"] - seconds["own"])[:-1] + (seconds["intruder"] - seconds["own"])[1:]
    for field, wrong in (("range", (gone != gone[:1]) | (gone >= 0)), ("ticks", np.diff(seconds["ticks"]) != gained)):
        if wrong.any():
            place = int(np.argmax(wrong)) + 1
            raise Fault(f"{replay.source} line {place + 1}", field, f"{seconds[field][place]} does not follow from the line before")


def check_replay(replay: Replay, model: Model, table: Table) -> np.ndarray:
    """The numbers of the advices of a replay, uint8, shape (seconds,); a fault where they are not what this table advises.

    The text does not say which advisory is present at the start, so of the first second every one is tried. Nor does a text of a
    single second tell the closing speed, so there every layer is.
    """
    seconds = replay.seconds
    issued = np.empty(len(seconds), dtype=np.uint8)
    closing = int(seconds["range"][0] - seconds["range"][1]) if len(seconds) > 1 else None
    for place in range(len(seconds)):
        source = f"{replay.source} line {place + 1}"
        name = str(seconds["advice"][place])
        if name not in model.names:
            raise Fault(source, "advice", f"{name} is no advisory of {model.source}")
        issued[place] = model.names.index(name)
        presents = issued[place - 1 : place].tolist() if place else range(len(model.advisories))
        layers = layers_at(model, int(seconds["range"][place]), closing)
        advised = {advice_at(model, table, layer, present, seconds[place]) for layer in layers for present in presents}
        if int(issued[place]) not in advised:
            names = " or ".join(model.names[number] for number in sorted(advised))
            raise Fault(source, "advice", f"is {name}, where {table.source} advises {names}")
    return issued


def layers_at(model: Model, far: int, closing: int | None) -> list[int]:
    """The layers that may advise at a range in ft and a closing speed in ft/s; 0 stands for the advice clear."""
    if far < -model.radius or model.horizon == 0:
        return [0]
    if far <= model.radius:
        return [1]
    if closing is None:
        return list(range(model.horizon + 1))
    layer = math.ceil(Fraction(far - model.radius, closing))
    return [layer if layer <= model.horizon else 0]


def advice_at(model: Model, table: Table, layer: int, present: int, second: np.void) -> int:
    """The number of the advice of a layer, while an advisory is present, in a state of one of the lines of `Replay.seconds`."""
    if layer == 0:
        return CLEAR
    places = (
        nearest(model.altitude * TICKS_PER_FOOT, int(second["ticks"])),
        nearest(model.own_rate, int(second["own"])),
        nearest(model.intruder_rate, int(second["intruder"])),
    )
    return int(table.layers["advice"][(layer, present, *places)])


def nearest(axis: np.ndarray, number: int) -> int:
    """The place of an axis that has the greatest weight at a number, and of two such places the first."""
    return int(np.argmin(np.abs(axis - number)))
