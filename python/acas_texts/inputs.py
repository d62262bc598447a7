"""The texts that are read beside a model: boxes and encounters."""
from dataclasses import dataclass

from acas_texts.document import document_of
from acas_texts.fault import Cause, Fault
from acas_texts.keys import Keys, is_name
from acas_texts.model import GREATEST_WINDOW, ModelText

GREATEST_BOXES = 10_000
GREATEST_SECONDS = 600
GREATEST_RANGE = 3_000_000
GREATEST_RATE = 10_000
GREATEST_SPEED = 5000
GREATEST_ACCELERATION = 2000


@dataclass(frozen=True)
class Needs:
    """What a text asks of the model that it is read beside."""

    advisories: tuple[str, ...]
    """The names that the model has to have, each once."""
    radius: int | None
    """The greatest radius of the puck that all boxes allow; None of an encounter, which asks for none."""


def boxes_of(content: bytes, source: str, model: ModelText | None = None, rate: int | None = None) -> Needs:
    """Looks at boxes by every rule of the format: beside a model as `acas` does, and else by those that ask for no model. With a greatest rate
    of an intruder that manoeuvres, it looks last for the first box whose intruder may be faster."""
    keys = Keys(source, document_of(content, source))
    keys.only("version", "box")
    keys.number("version", 1, 1)
    needs = [_box(place, box, model) for place, box in enumerate(keys.tables("box", 1, GREATEST_BOXES))]
    for place, (_, _, (least, greatest)) in enumerate(needs):
        if rate is not None and (least < -rate or greatest > rate):
            raise Fault(source, "rate", f"at {place}", Cause("box_rate", ("box", place, "intruder"), (least, greatest, rate)))
    return Needs(tuple(dict.fromkeys(name for name, _, _ in needs)), min(radius for _, radius, _ in needs))


def _box(place: int, box: Keys, model: ModelText | None) -> tuple[str, int, tuple[int, int]]:
    """The advisory of a box, the greatest radius that it allows, and the rates of its intruder."""
    box.only("advisory", "range", "closing", "altitude", "own", "intruder")
    advisory = _advisory(box, place, model)
    _, farthest = box.pair("range", 0, GREATEST_RANGE)
    slowest, _ = box.pair("closing", 1, GREATEST_SPEED)
    for name in ("altitude", "own"):
        box.pair(name, -GREATEST_RATE, GREATEST_RATE)
    intruder = box.pair("intruder", -GREATEST_RATE, GREATEST_RATE)
    radius = GREATEST_WINDOW * slowest - farthest
    if radius < (model.radius if model else 1):
        cause = Cause("box_window", (*box.steps, "range"), (farthest, slowest, model.radius if model else 1))
        raise Fault(box.source, "window", f"at {place}", cause)
    return advisory, radius, intruder


def encounter_of(content: bytes, source: str, model: ModelText | None = None) -> Needs:
    """Looks at an encounter by every rule of the format, as `boxes_of` does at boxes."""
    keys = Keys(source, document_of(content, source))
    keys.only("version", "advisory", "range", "closing", "altitude", "own", "intruder", "own_accel", "intruder_accel")
    keys.number("version", 1, 1)
    advisory = _advisory(keys, 0, model)
    keys.number("range", 0, GREATEST_RANGE)
    keys.number("closing", 1, GREATEST_SPEED)
    for name in ("altitude", "own", "intruder"):
        keys.number(name, -GREATEST_RATE, GREATEST_RATE)
    seconds = _accelerations(keys, "own_accel", 1, GREATEST_SECONDS)
    _accelerations(keys, "intruder_accel", seconds, seconds)
    return Needs((advisory,), None)


def _accelerations(keys: Keys, name: str, least: int, greatest: int) -> int:
    """How many accelerations a list has."""
    keys.count(name, len(keys.value(name, list)), least, greatest)
    return len(keys.numbers(name, -GREATEST_ACCELERATION, GREATEST_ACCELERATION))


def _advisory(keys: Keys, place: int, model: ModelText | None) -> str:
    """The name of an advisory, which has to be one of the model's; where there is none, one that a model may have."""
    name = keys.value("advisory", str)
    if name not in model.names if model else not is_name(name):
        cause = Cause("unknown_name", (*keys.steps, "advisory"), model.names if model else ())
        raise Fault(keys.source, "unknown advisory", f"at {place}", cause)
    return name
