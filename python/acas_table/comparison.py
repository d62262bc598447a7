"""Two tables of one grid, and where they differ."""
from dataclasses import dataclass

import numpy as np

from acas_texts import Fault
from acas_table.model import AXES, Model
from acas_table.table import Table


@dataclass(frozen=True)
class Comparison:
    """Where two tables differ. Arrays have the shape (layers, advisories, altitudes, own rates, intruder rates)."""

    first: str
    second: str
    """The names of their files."""
    advice: np.ndarray
    """Whether the advice of an entry is another one, bool."""
    upper: np.ndarray
    lower: np.ndarray
    """How far apart the two values of an entry are, uint64, in millionths of a unit of cost."""
    advices_by_layer: np.ndarray
    values_by_layer: np.ndarray
    """In how many entries of each layer the advice differs, and in how many a value; int64, shape (layers,)."""
    greatest_upper: int
    greatest_lower: int
    """How far apart the values are at most, in millionths of a unit of cost."""

    def __repr__(self) -> str:
        advices, values = self.advices_by_layer.sum(), self.values_by_layer.sum()
        return f"<Comparison of {self.first} and {self.second}: of {self.advice.size} entries {advices} in advice, {values} in values>"


def compare(first: Table, second: Table) -> Comparison:
    """Where two tables differ in advice and in values.

    They are of one grid: of one model, or of two that have the same axes, horizon and names of advisories. A fault names what is another
    one. Two tables of two models have to be read with their models, as a table alone does not say what its axes are.
    """
    _check_grid(first, second)
    advice = first.layers["advice"] != second.layers["advice"]
    upper, lower = (_apart(first.layers[name], second.layers[name]) for name in ("upper", "lower"))
    counts = (_by_layer(wrong) for wrong in (advice, (upper > 0) | (lower > 0)))
    return Comparison(first.source, second.source, advice, upper, lower, *counts, int(upper.max()), int(lower.max()))


def _by_layer(wrong: np.ndarray) -> np.ndarray:
    return np.count_nonzero(wrong, axis=(1, 2, 3, 4))


def _apart(one: np.ndarray, other: np.ndarray) -> np.ndarray:
    """How far apart two int64 are, in uint64, which has room for it: it wraps round twice where the difference has none in int64."""
    return np.maximum(one, other).astype(np.uint64) - np.minimum(one, other).astype(np.uint64)


def _check_grid(first: Table, second: Table) -> None:
    """Refuses tables of two grids."""
    if first.header.model_digest == second.header.model_digest:
        return
    models = []
    for table in (first, second):
        if table.model is None:
            raise Fault(table.source, "model", "is not known, and the two are of two models: read each with its own")
        models.append(table.model)
    check_grids(*models, first.source, second.source)


def check_grids(first: Model, second: Model, source: str, other: str) -> None:
    """Refuses two models whose tables have other layers, states or advisories. `source` and `other` are the names of the two in the fault."""
    for name, one, another in zip(("advisories", "horizon", *AXES), _grid(first), _grid(second)):
        if one != another:
            field = f"grid.{name}" if name in AXES else name
            raise Fault(other, f"other {field}", f"{_listed(another)} found {_listed(one)} of {source}")


def _grid(model: Model) -> tuple:
    return (list(model.names), [model.horizon], *(getattr(model, axis).tolist() for axis in AXES))


def _listed(items: list) -> str:
    return ", ".join(map(str, items))
