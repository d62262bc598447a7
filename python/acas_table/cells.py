"""What the two reports on cells share: the names, the places and the order of their lines."""
from typing import Sequence

import numpy as np

from acas_texts import Fault
from acas_table.model import AXES, Model

PLACE = ("second", "present", *AXES)
"""The fields that say which cell it is, in the order by which the lines stand."""


def cell_shape(model: Model) -> tuple[int, int, int, int]:
    """Of the cells under each advisory: seconds, altitudes, own rates, intruder rates."""
    return (model.horizon, len(model.altitude) - 1, len(model.own_rate) - 1, len(model.intruder_rate) - 1)


def refuse_first(source: str, cells: np.ndarray, wrong: np.ndarray, field: str, problem: str) -> None:
    """Refuses the first line of those that are wrong, by what it says in a field."""
    if wrong.any():
        place = int(np.argmax(wrong))
        raise Fault(f"{source} line {place + 1}", field, f"{cells[field][place]} {problem}")


def numbers_of(source: str, cells: np.ndarray, field: str, names: Sequence[str], model: Model) -> np.ndarray:
    """The numbers of the names in a field, uint8: their places among those that may stand there."""
    found, places = np.unique(cells[field], return_inverse=True)
    numbers = np.array([names.index(name) if name in names else 255 for name in found.tolist()], dtype=np.uint8)
    each = numbers[places] if len(found) else np.empty(0, dtype=np.uint8)
    refuse_first(source, cells, each == 255, field, f"is no advisory of {model.source}")
    return each


def refuse_outside(source: str, cells: np.ndarray, model: Model) -> None:
    """Refuses the first line of a second or a place that the model does not have."""
    for field, count in zip(("second", *AXES), cell_shape(model)):
        refuse_first(source, cells, cells[field] >= count, field, f"is not from 0 to {count - 1}, as {model.source} has it")


def refuse_disorder(source: str, cells: np.ndarray, numbered: np.ndarray, fields: Sequence[str]) -> None:
    """Refuses the first line that does not stand behind all before it, by the numbers of these fields, or that is there twice."""
    order = np.lexsort([numbered[field] for field in reversed(fields)])
    wrong = order != np.arange(len(order))
    wrong[1:] |= numbered[1:][list(fields)] == numbered[:-1][list(fields)]
    refuse_first(source, cells, wrong, "second", "stands in a line that is out of order")
