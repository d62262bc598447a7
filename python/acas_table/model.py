"""A model, with its axes as arrays."""
import os
from dataclasses import dataclass, fields
from typing import Sequence

import numpy as np

from acas_texts import Fault
from acas_texts.document import content_of
from acas_texts.model import AXES, GREATEST_ENTRIES, Advisory, ModelText, SigmaPoint, model_text_of

__all__ = ["AXES", "GREATEST_ENTRIES", "Advisory", "Model", "SigmaPoint", "model_of", "read_model"]


@dataclass(frozen=True)
class Model(ModelText):
    """A model within its limits. Its axes are arrays of int64, of the shape (numbers,), that cannot be written to."""

    altitude: np.ndarray
    """The intruder's altitude less the own altitude, in ft, rising."""
    own_rate: np.ndarray
    """The own vertical rate in ft/min, rising; up is positive."""
    intruder_rate: np.ndarray
    """The intruder's vertical rate in ft/min, rising."""

    def number(self, name: str) -> int:
        """The number of an advisory, or the fault that the model has none of this name."""
        if name not in self.names:
            raise Fault(self.source, f"advisory {name}", f"is not in the model, which has {', '.join(self.names)}")
        return self.names.index(name)

    def place(self, axis: str, value: int) -> int:
        """The place of a number on an axis of the grid, or the fault that it is not there."""
        numbers = getattr(self, axis).tolist()
        if value not in numbers:
            raise Fault(self.source, f"grid.{axis}", f"has no {value}, but {', '.join(map(str, numbers))}")
        return numbers.index(value)


def read_model(path: str | os.PathLike[str]) -> Model:
    """Reads a model's file by every rule of the format. A fault names the first key that breaks one, as `acas` does."""
    return model_of(content_of(str(path)), str(path))


def model_of(content: bytes, source: str) -> Model:
    """The model that the bytes of a file say."""
    text = model_text_of(content, source)
    known = {field.name: getattr(text, field.name) for field in fields(text)}
    return Model(**known | {axis: _array(known[axis]) for axis in AXES})


def _array(numbers: Sequence[int]) -> np.ndarray:
    array = np.array(numbers, dtype=np.int64)
    array.setflags(write=False)
    return array
