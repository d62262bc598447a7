"""The part of a table that one picture shows: one present advisory, and a pair of rates or a layer and one rate."""
from dataclasses import dataclass
from pathlib import Path

import numpy as np

from acas_table import Fault, Model, Table


@dataclass(frozen=True)
class Slice:
    """A present advisory by number, and the places of the two rates on their axes."""

    present: int
    own: int
    intruder: int

    def entries(self, table: Table) -> np.ndarray:
        """The entries of the slice, dtype `ENTRY`, shape (layers, altitudes)."""
        return table.layers[:, self.present, :, self.own, self.intruder]

    def words(self, model: Model) -> str:
        """What the slice is, in words."""
        own, intruder = model.own_rate[self.own], model.intruder_rate[self.intruder]
        return f"{model.names[self.present]} is present, own rate {own}, intruder's rate {intruder} ft/min"


def slice_of(model: Model, present: str, own: int, intruder: int) -> Slice:
    """The slice of a name and two rates, each of which has to be in the model."""
    return Slice(model.number(present), model.place("own_rate", own), model.place("intruder_rate", intruder))


@dataclass(frozen=True)
class Layer:
    """A layer by its seconds to go, a present advisory by number, and the place of the intruder's rate on its axis."""

    seconds: int
    present: int
    intruder: int

    def entries(self, table: Table) -> np.ndarray:
        """The entries of the layer, dtype `ENTRY`, shape (altitudes, own rates)."""
        return table.layers[self.seconds, self.present, :, :, self.intruder]

    def words(self, model: Model) -> str:
        """What the layer is, in words."""
        intruder = model.intruder_rate[self.intruder]
        return f"{self.seconds} s to go, {model.names[self.present]} is present, intruder's rate {intruder} ft/min"


def layer_of(model: Model, seconds: int, present: str, intruder: int) -> Layer:
    """The layer of so many seconds, a name and a rate, each of which has to be in the model. In layer 0 nothing is advised."""
    if not 1 <= seconds <= model.horizon:
        raise Fault(model.source, "horizon", f"is {model.horizon}: no layer {seconds} has an advice")
    return Layer(seconds, model.number(present), model.place("intruder_rate", intruder))


def require_seconds(model: Model) -> None:
    """Refuses a model whose tables have no advice."""
    if model.horizon == 0:
        raise Fault(model.source, "horizon", "is 0: no second is to go, and nothing is advised")


def name_of(model: Model) -> str:
    """The name of a model's file without its folder."""
    return Path(model.source).name
