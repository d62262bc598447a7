"""What a file is found to have, whichever library reads it; and its numbers, once they are found to be those of a table of a model."""
from dataclasses import dataclass
from typing import Any, Callable, NamedTuple

import numpy as np

from acas_table.layout import DIMENSIONS, FORMAT_VERSION, TEXT, VALUES, axes_of
from acas_table.model import Model
from acas_table.table import ENTRY, VERSIONS, check_advice
from acas_texts import Fault


class Array(NamedTuple):
    """A variable of a file, of which no number is read yet."""

    type: str
    """The name of its numpy type, or `str` of texts."""
    dimensions: tuple[str, ...]
    """Their names, and no letter where one has none."""
    shape: tuple[int, ...]
    read: Callable[[], np.ndarray]


@dataclass(frozen=True)
class Stored:
    """The variables and the attributes of a file."""

    source: str
    arrays: dict[str, Array]
    attributes: dict[str, Any]

    def array(self, name: str, wanted_type: str, dimensions: tuple[str, ...], shape: tuple[int, ...]) -> np.ndarray:
        """The numbers or the texts of a variable; a fault where it is not there, or is another one than is wanted."""
        found = self.arrays.get(name)
        if found is None:
            raise Fault(self.source, name, "is missing")
        if found.type != wanted_type:
            raise Fault(self.source, name, f"has the type {found.type}, not {wanted_type}")
        if found.dimensions != dimensions:
            raise Fault(self.source, name, f"has the dimensions {_listed(found.dimensions)}, not {_listed(dimensions)}")
        if found.shape != shape:
            raise Fault(self.source, name, f"has the shape {_listed(found.shape)}, not {_listed(shape)}")
        return found.read()

    def attribute(self, name: str, *wanted: Any) -> Any:
        """An attribute of the file, which has to be one of these."""
        if name not in self.attributes:
            raise Fault(self.source, name, "is missing")
        found = self.attributes[name]
        if found not in wanted:
            raise Fault(self.source, name, f"is {found!r}, not {' or '.join(map(repr, wanted))}")
        return found


class Numbers(NamedTuple):
    """The numbers of a table, and its version."""

    upper: np.ndarray
    lower: np.ndarray
    """Both int64, shape (layers, advisories, altitudes, own rates, intruder rates), in millionths of a unit of cost."""
    advice: np.ndarray
    """uint8, of the same shape."""
    version: int


def numbers_of(stored: Stored, model: Model) -> Numbers:
    """The numbers of a file, once its attributes and its axes are found to be those of a table of this model, and its advices such as may
    be chosen."""
    stored.attribute("acas_format_version", FORMAT_VERSION)
    version = stored.attribute("table_version", *VERSIONS)
    digest = stored.attributes.get("model_sha256")
    if digest != model.digest.hex():
        raise Fault(stored.source, "other model", f"{digest} found {model.digest.hex()} of {model.source}")
    for name, values in axes_of(model).items():
        kind = TEXT if values.dtype == object else values.dtype.name
        found = stored.array(name, kind, (name,), values.shape)
        if not np.array_equal(found, values):
            raise Fault(stored.source, name, f"is {_listed(found)}, and {model.source} has {_listed(values)}")
    numbers = Numbers(*(stored.array(name, ENTRY[name].name, DIMENSIONS, model.shape) for name in VALUES), version=version)
    check_advice(numbers.advice, stored.source, model)
    return numbers


def _listed(items: Any) -> str:
    return ", ".join(map(str, items)) or "none"
