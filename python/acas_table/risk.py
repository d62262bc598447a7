"""What `acas risk` prints."""
import math
from dataclasses import dataclass

import numpy as np

from acas_texts import Fault
from acas_table.model import AXES, Model
from acas_table.words import Words, lines_of

BOUNDS = np.dtype([("lower", "i8"), ("upper", "i8")])
"""A lower and an upper bound, in millionths."""
QUANTITIES = ("risk", "clear", "cost")
RISK = np.dtype([(name, BOUNDS) for name in QUANTITIES])
"""What is said of a state: bounds of the chance of contact under the table's policy (`risk`) and under the policy that is always clear
of conflict (`clear`), in millionths, and of what the table's policy costs (`cost`), in millionths of a unit."""
CHANCES = ("risk", "clear")
MILLION = 10**6
GREATEST = 2**63 - 1
FARTHEST = 10_000
"""No altitude and no rate of a grid is farther from 0."""


@dataclass(frozen=True)
class Risk:
    """A report of risks: the states at the horizon."""

    source: str
    """What the text is called in faults."""
    states: np.ndarray
    """Structured, shape (states,), in the order of the text. Fields: `present`, name, str; `altitude`, int64, in ft; `own_rate` and
    `intruder_rate`, int64, in ft/min; and those of `RISK`, each with `lower` and `upper`, int64, in millionths."""

    def __repr__(self) -> str:
        advisories = len(np.unique(self.states["present"]))
        return f"<Risk {self.source}: {len(self.states)} states under {advisories} present advisories>"


def read_risk(text: str, source: str = "risk") -> Risk:
    """Reads what `acas risk` has printed, to its last line. A fault names the line and the word that is not as it has to be."""
    rows: list[tuple] = []
    count = None
    for words in lines_of(text, source):
        if count is not None:
            raise Fault(words.source, "end", "is missing: a line follows the count")
        # an advisory may have the name `states`
        if words.peek() == "states" and len(words.rest) <= 2:
            count = _count(words)
        else:
            rows.append(_state(words))
    if count is None:
        raise Fault(source, "count", "is missing: the last line has none")
    if count != len(rows):
        raise Fault(source, "count", f"says states {count}, but so many lines are: {len(rows)}")
    longest = max((len(row[0]) for row in rows), default=1)
    fields = [("present", f"U{longest}"), *((axis, "i8") for axis in AXES), *((name, BOUNDS) for name in QUANTITIES)]
    return Risk(source, np.array(rows, dtype=fields))


def _state(words: Words) -> tuple:
    present = words.name("present")
    places = [words.whole(axis, -FARTHEST, FARTHEST) for axis in AXES]
    bounds = [_bounds(words, name) for name in QUANTITIES]
    words.end()
    return (present, *places, *bounds)


def _bounds(words: Words, name: str) -> tuple[int, int]:
    words.word(name)
    least, greatest = (0, MILLION) if name in CHANCES else (-GREATEST, GREATEST)
    lower = words.millionths(f"lower {name}", least, greatest)
    return lower, words.millionths(f"upper {name}", lower, greatest)


def _count(words: Words) -> int:
    words.word("states")
    count = words.whole("states", 1)
    words.end()
    return count


def gridded(risk: Risk, model: Model) -> np.ndarray:
    """What is said of each state of this model, dtype `RISK`, shape (advisories, altitudes, own rates, intruder rates).

    A fault names the first line that cannot be one of the model: another state, bounds that are more than two millionths apart for each
    second, or a chance without advice that is another one under another present advisory. A text does not name its model, so one of
    another model is refused only where that shows.
    """
    shape = (len(model.advisories), *model.shape[2:])
    if len(risk.states) != math.prod(shape):
        raise Fault(risk.source, "count", f"is {len(risk.states)}, and {model.source} has {math.prod(shape)} states")
    expected = np.meshgrid(np.array(model.names), *(getattr(model, axis) for axis in AXES), indexing="ij")
    for field, wanted in zip(("present", *AXES), expected):
        _refuse(risk, risk.states[field] != wanted.ravel(), field, f"is not the one of the state in {model.source}")
    states = np.empty(len(risk.states), dtype=RISK)
    for name in QUANTITIES:
        states[name] = risk.states[name]
        apart = states[name]["upper"] - states[name]["lower"]
        _refuse(risk, apart > 2 * model.horizon, name, f"has bounds that are over {2 * model.horizon} millionths apart")
    found = states.reshape(shape)
    _refuse(risk, (found["clear"] != found["clear"][:1]).ravel(), "clear", "has bounds that another present advisory does not have")
    return found


def _refuse(risk: Risk, wrong: np.ndarray, field: str, problem: str) -> None:
    """Refuses the first line of those that are wrong."""
    if wrong.any():
        place = int(np.argmax(wrong))
        said = f"{risk.states[field][place]} " if field not in QUANTITIES else ""
        raise Fault(f"{risk.source} line {place + 1}", field, f"{said}{problem}")


def ratios(states: np.ndarray) -> np.ndarray:
    """Bounds of the risk ratio of each state: the chance of contact under the table's policy over that under always clear.

    `states` has the dtype `RISK`; the result has its shape and the fields `lower` and `upper`, float64. Both are NaN where the lower bound
    of the chance without advice is 0: there is no ratio where that chance is 0, and no upper bound where it may be.
    """
    found = np.full(states.shape, np.nan, dtype=[("lower", "f8"), ("upper", "f8")])
    has_ratio = states["clear"]["lower"] > 0
    for bound, other in (("lower", "upper"), ("upper", "lower")):
        found[bound][has_ratio] = states["risk"][bound][has_ratio] / states["clear"][other][has_ratio]
    return found
