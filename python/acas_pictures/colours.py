"""The colours of all pictures: one for each advisory of a model, and one for each verdict.

People with any of the common kinds of colour blindness can tell them apart. The colour of an advisory goes by what it asks, not by its
name: advice upwards is blue and advice downwards goes from yellow to red, the harder the darker, and has a hatch.
"""
from dataclasses import dataclass

from matplotlib.colors import to_rgb

from acas_table import Advisory, Model

CLEAR = "#F0F0F0"
"""Of the first advisory, which stands for clear of conflict, and of clear cells."""
UP = ("#7CC5EE", "#0072B2", "#1B1B6B")
DOWN = ("#F2A900", "#D55E00", "#7A0A2E")
"""Of advice that lets an aircraft stay level, of advice that does not, and of advice that asks for a hard climb or descent."""
LEVEL = "#1B9E77"
"""Of advice that limits climbs and descents alike."""
ANY = "#B4B4B4"
"""Of advice that limits neither below what is hard."""
HARD = 2000
"""From this rate on, in ft/min, a climb or a descent is hard."""
HATCHES = ("", "////", "....", "\\\\\\\\", "xxxx", "----", "||||", "++++", "oooo", "****", "//..", "\\\\..", "--..", "||..", "xx..")
"""Over the colour, of advisories of one kind: the first on that which asks least."""
FIRST_HATCHES = dict.fromkeys(DOWN, "\\\\\\\\") | {LEVEL: "----", ANY: "...."}
"""The first hatch of advice that is not plain: advice upwards is. So they are told apart without colour too."""
CERTIFIED = "#B7DDA6"
MIXED = "#B48CCB"
REPORTED = "#4A1A70"
SAFEABLE = "#F0F0F0"
OPEN = "#E8A33D"
NEAR = "#8A8A8A"
"""Of clear cells: an advisory keeps the cell safe a second later, none is shown to do so, and contact may come within the second."""
OWN = "#000000"
INTRUDER = "#C2185B"
PUCK = "#BDBDBD"
WITH_TABLE = "#000000"
UNADVISED = "#C2185B"
"""Of chances of contact with a table, and without any advice."""
NO_RATIO = "#E0E0E0"
"""Of states that have no risk ratio."""


@dataclass(frozen=True)
class Paint:
    """How an advisory is filled."""

    colour: str
    hatch: str = ""

    @property
    def ink(self) -> str:
        """The colour of the hatch: white on what is dark and black on what is light."""
        red, green, blue = to_rgb(self.colour)
        return "#000000" if 0.299 * red + 0.587 * green + 0.114 * blue > 0.45 else "#FFFFFF"


def colour_of(lo: int, hi: int) -> str:
    """The colour of an advisory that allows own rates from `lo` to `hi`, in ft/min.

    Where these do not have 0, it asks for a climb or a descent, which is hard from `HARD` on. Where they do, it goes by which of the
    two it leaves more of, while all rates from `HARD` on are alike.
    """
    if lo > 0:
        return UP[1 + (lo >= HARD)]
    if hi < 0:
        return DOWN[1 + (-hi >= HARD)]
    up, down = min(hi, HARD), min(-lo, HARD)
    if up != down:
        return UP[0] if up > down else DOWN[0]
    return LEVEL if up < HARD else ANY


def paints(model: Model) -> tuple[Paint, ...]:
    """How each advisory of a model is filled, by number. No two are filled alike."""
    colours = [colour_of(advisory.lo, advisory.hi) for advisory in model.advisories]
    filled = [Paint(CLEAR)] * len(colours)
    kinds: dict[str, list[int]] = {}
    for number in range(1, len(colours)):
        kinds.setdefault(colours[number], []).append(number)
    for colour, numbers in kinds.items():
        numbers.sort(key=lambda number: _asked(model.advisories[number], colour))
        for number, hatch in zip(numbers, hatches_of(colour)):
            filled[number] = Paint(colour, hatch)
    return tuple(filled)


def hatches_of(colour: str) -> tuple[str, ...]:
    """The hatches over the colour of an advisory, in the order in which they are given. Where the first is not plain, the last is."""
    first = FIRST_HATCHES.get(colour, "")
    plain, *others = HATCHES
    return (first, *(hatch for hatch in others if hatch != first), *([plain] if first else []))


def _asked(advisory: Advisory, colour: str) -> tuple[int, int]:
    """What is less for an advisory that asks less of its kind, in ft/min: of two of them, that which allows more."""
    if colour in UP:
        return advisory.lo, -advisory.hi
    if colour in DOWN:
        return -advisory.hi, advisory.lo
    return advisory.lo - advisory.hi, advisory.lo
