"""The text of a model."""
import hashlib
import math
from dataclasses import dataclass
from typing import Sequence

from acas_texts.document import document_of
from acas_texts.fault import Cause, Fault
from acas_texts.keys import Keys

GREATEST_ENTRIES = 4_000_000
GREATEST_WEIGHT = 1000
GREATEST_WINDOW = 600
GREATEST_AXIS = 129
GREATEST_RADIUS = 5000
GROUPS = ("grid", "puck", "closing", "pilot", "cost")
AXES = ("altitude", "own_rate", "intruder_rate")


@dataclass(frozen=True)
class Advisory:
    """An advisory: its name, the own rates that it allows in ft/min, and what may be chosen while it is present."""

    name: str
    lo: int
    hi: int
    choices: tuple[int, ...]
    """Numbers of advisories, in the order of the file."""
    costs: tuple[int, ...]
    """What a second under each choice costs, in units of cost."""


@dataclass(frozen=True)
class SigmaPoint:
    """What chance adds to the two rates in a second, in ft/min, and its weight among all."""

    weight: int
    own: int
    intruder: int


@dataclass(frozen=True)
class ModelText:
    """What the text of a model says, within its limits."""

    source: str
    """The name of its file."""
    digest: bytes
    """SHA-256 of the bytes of its file, which each table of it has."""
    version: int
    horizon: int
    """The greatest number of seconds to go; a table has `horizon + 1` layers."""
    altitude: Sequence[int]
    """The intruder's altitude less the own altitude, in ft, rising."""
    own_rate: Sequence[int]
    """The own vertical rate in ft/min, rising; up is positive."""
    intruder_rate: Sequence[int]
    """The intruder's vertical rate in ft/min, rising."""
    radius: int
    """The puck's radius in ft."""
    half_height: int
    """Half of the puck's height in ft."""
    closing_least: int
    closing_greatest: int
    """The closing speeds in ft/s."""
    pull: int
    limit: int
    """The least and the greatest acceleration of a pilot who follows an advisory, in ft/min per second."""
    delay: int
    """How many seconds a pilot may hold the rate before following."""
    contact: int
    """The cost of contact, in units of cost."""
    advisories: tuple[Advisory, ...]
    sigma: tuple[SigmaPoint, ...]

    @property
    def names(self) -> tuple[str, ...]:
        """The names of the advisories, by number."""
        return tuple(advisory.name for advisory in self.advisories)

    @property
    def shape(self) -> tuple[int, int, int, int, int]:
        """Of the entries of a table: layers, advisories, altitudes, own rates, intruder rates."""
        return (self.horizon + 1, len(self.advisories), len(self.altitude), len(self.own_rate), len(self.intruder_rate))


def model_text_of(content: bytes, source: str) -> ModelText:
    """What the bytes of a model's file say, by every rule of the format. A fault names the first key that breaks one, as `acas` does."""
    keys = Keys(source, document_of(content, source))
    keys.only("version", "horizon", *GROUPS, "advisory", "sigma")
    version = keys.number("version", 1, 2)
    horizon = keys.number("horizon", 0, 120)
    axes = {axis: _axis(keys.table("grid", *AXES), axis) for axis in AXES}
    puck = keys.table("puck", "radius", "half_height")
    radius, half_height = puck.number("radius", 1, GREATEST_RADIUS), puck.number("half_height", 1, 1000)
    closing = keys.table("closing", "least", "greatest")
    closing_least = closing.number("least", 1, 5000)
    closing_greatest = closing.number("greatest", closing_least, 5000)
    pilot = keys.table("pilot", "pull", "limit", *["delay"] * (version == 2))
    pull = pilot.number("pull", 1, 2000)
    limit = pilot.number("limit", pull, 2000)
    delay = pilot.number("delay", 0, 10) if version == 2 else 0
    contact = keys.table("cost", "contact").number("contact", -(10**9), 10**9)
    model = ModelText(
        source, hashlib.sha256(content).digest(), version, horizon, **axes, radius=radius, half_height=half_height,
        closing_least=closing_least, closing_greatest=closing_greatest, pull=pull, limit=limit, delay=delay, contact=contact,
        advisories=_advisories(keys), sigma=_sigma(keys),
    )
    _check_limits(model)
    return model


def _axis(grid: Keys, name: str) -> tuple[int, ...]:
    numbers = grid.numbers(name, -10000, 10000)
    steps = ("grid", name)
    if len(numbers) < 2:
        raise Fault(grid.source, f"axis {name}", "too short", Cause("short_axis", steps))
    if len(numbers) > GREATEST_AXIS:
        raise Fault(grid.source, f"axis {name}", "too long", Cause("long_axis", steps, (len(numbers), GREATEST_AXIS)))
    for place in range(1, len(numbers)):
        if numbers[place - 1] >= numbers[place]:
            raise Fault(grid.source, f"axis {name}", f"not rising at {place}", Cause("not_rising", (*steps, place)))
    return tuple(numbers)


@dataclass(frozen=True)
class _Named:
    """The name and the rates of an advisory."""

    name: str
    lo: int
    hi: int


def _advisories(keys: Keys) -> tuple[Advisory, ...]:
    tables, named = [], []
    for place, table in enumerate(keys.tables("advisory", 2, 16)):
        tables.append(table)
        named.append(_named(place, table))
    names = [one.name for one in named]
    for place, name in enumerate(names):
        if name in names[:place]:
            cause = Cause("repeated_name", ("advisory", place, "name"), (names.index(name),))
            raise Fault(keys.source, "repeated name", f"of advisory {place}", cause)
    return tuple(_with_choices(place, table, one, names) for place, (table, one) in enumerate(zip(tables, named)))


def _named(place: int, table: Keys) -> _Named:
    table.only("name", "lo", "hi", "choices", "costs")
    named = _Named(table.name("name"), table.number("lo", -10000, 10000), table.number("hi", -10000, 10000))
    if named.lo > named.hi:
        raise Fault(table.source, "interval", f"of advisory {place}", Cause("interval", (*table.steps, "lo")))
    return named


def _with_choices(place: int, table: Keys, named: _Named, names: list[str]) -> Advisory:
    items = table.value("choices", list)
    if not items:
        raise Fault(table.source, "no choice", f"of advisory {place}", Cause("no_choice", (*table.steps, "choices")))
    choices: list[str] = []
    for at, choice in enumerate(table.texts("choices")):
        steps = (*table.steps, "choices", at)
        if choice not in names:
            raise Fault(table.source, "unknown choice", f"of advisory {place} at {at}", Cause("unknown_name", steps, tuple(names)))
        if choice in choices:
            raise Fault(table.source, "repeated choice", f"of advisory {place} at {at}", Cause("repeated_choice", steps))
        choices.append(choice)
    table.count("costs", len(table.value("costs", list)), len(choices), len(choices))
    costs = table.numbers("costs", -(10**9), 10**9)
    return Advisory(named.name, named.lo, named.hi, tuple(names.index(choice) for choice in choices), tuple(costs))


def _sigma(keys: Keys) -> tuple[SigmaPoint, ...]:
    points = []
    for table in keys.tables("sigma", 1, 25):
        table.only("weight", "own", "intruder")
        weight = table.number("weight", 1, GREATEST_WEIGHT)
        points.append(SigmaPoint(weight, table.number("own", -5000, 5000), table.number("intruder", -5000, 5000)))
    return tuple(points)


def _check_limits(model: ModelText) -> None:
    """What ties several keys."""
    weights = sum(point.weight for point in model.sigma)
    if weights > GREATEST_WEIGHT:
        cause = Cause("weights", ("sigma",), (weights, GREATEST_WEIGHT))
        raise Fault(model.source, "weights", f"{weights} over {GREATEST_WEIGHT}", cause)
    window, allowed = model.horizon * model.closing_least + 2 * model.radius, GREATEST_WINDOW * model.closing_least
    if window > allowed:
        raise Fault(model.source, "window", f"{window} over {allowed}", Cause("window", ("closing", "least"), (model, window, allowed)))
    entries = math.prod(model.shape)
    if entries > GREATEST_ENTRIES:
        cause = Cause("entries", ("grid",), (model, entries, GREATEST_ENTRIES))
        raise Fault(model.source, "entries", f"{entries} over {GREATEST_ENTRIES}", cause)
