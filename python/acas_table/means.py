"""The means of a layer's values over a second, in whole numbers."""
import math
from dataclasses import dataclass
from typing import Iterator, NamedTuple

import numpy as np

from acas_table.arrays import GREATEST
from acas_table.flight import TICKS_PER_FOOT
from acas_table.model import Advisory, Model

MILLION = 10**6
PART = 1 << 14
"""How many vertices are gone through at once, where an own rate has no more."""


class Stencil(NamedTuple):
    """Of points on an axis: which two numbers are round each, and what each of the two weighs. The weights sum to the gap between them."""

    lower: np.ndarray
    """The place of the lower number."""
    below: np.ndarray
    """What the lower number weighs: how far the upper one is from the point."""
    above: np.ndarray
    """What the upper number weighs: how far the lower one is from the point."""


@dataclass(frozen=True)
class Move:
    """Where a second under an advisory leads with a sigma point, beyond the ends of the axes too."""

    weight: int
    own: np.ndarray
    """The own rate after it in ft/min, shape (own rates,)."""
    intruder: np.ndarray
    """The intruder's rate after it in ft/min, shape (intruder rates,)."""
    change: np.ndarray
    """What it adds to the altitude in ticks of 1/120 ft, shape (own rates, intruder rates)."""


def moves_of(model: Model, advisory: Advisory) -> list[Move]:
    """Where a second under an advisory leads, with each sigma point."""
    command = np.clip(np.clip(model.own_rate, advisory.lo, advisory.hi) - model.own_rate, -model.pull, model.pull)
    moves = []
    for point in model.sigma:
        own, intruder = model.own_rate + command + point.own, model.intruder_rate + point.intruder
        change = (model.intruder_rate + intruder) - (model.own_rate + own)[:, np.newaxis]
        moves.append(Move(point.weight, own, intruder, change))
    return moves


def greatest_value(model: Model) -> int:
    """No value of an advice that is followed is farther from 0, in millionths: contact, and the dearest choice in each second.

    Rounded means keep to that too: a mean of whole numbers is rounded to none outside them.
    """
    dearest = max(abs(cost) for advisory in model.advisories for cost in advisory.costs)
    return MILLION * (abs(model.contact) + model.horizon * dearest)


class Means:
    """The means of a model's values.

    A mean is the sum over the sigma points of weight times value, over the whole weight. Such a value is the sum over the eight vertices
    round a point of weight times value, over the product of the three gaps there. All distances on an axis are in a unit that divides
    them all, which changes no quotient.
    """

    def __init__(self, model: Model, numbers: type | None = None) -> None:
        """`numbers` is `np.int64`, or `object` for whole numbers of any size. Without it 64 bits are taken where they are enough."""
        self.moves = [moves_of(model, advisory) for advisory in model.advisories]
        self.weight = sum(point.weight for point in model.sigma)
        self.axes = (TICKS_PER_FOOT * model.altitude, model.own_rate, model.intruder_rate)
        self.units = tuple(_unit(axis, changes) for axis, changes in zip(self.axes, self._changes(model)))
        self.widest = greatest_value(model) * max(self._widest_cell(), self.weight)
        """No sum that a mean is made of is farther from 0."""
        self.numbers = numbers or (np.int64 if self.widest <= GREATEST else object)

    def _changes(self, model: Model) -> Iterator[list[np.ndarray]]:
        """Of each axis, what the moves add to its numbers."""
        moves = [move for moves in self.moves for move in moves]
        yield [move.change for move in moves]
        yield [move.own - model.own_rate for move in moves]
        yield [move.intruder - model.intruder_rate for move in moves]

    def _widest_cell(self) -> int:
        """The product of the greatest gaps of the three axes: no weights of a cell sum to more."""
        return math.prod(int(np.diff(axis).max()) // unit for axis, unit in zip(self.axes, self.units))

    def under(self, values: np.ndarray, advisory: int) -> np.ndarray:
        """The mean of values over a second under an advisory, from each vertex. Each quotient is rounded down.

        Values and means have the dtype `numbers` and the shape (sides, altitudes, own rates, intruder rates).
        """
        means = np.empty_like(values)
        _, altitudes, own_rates, intruder_rates = values.shape
        step = max(1, PART // (altitudes * intruder_rates))
        for first in range(0, own_rates, step):
            part = slice(first, first + step)
            total = sum(move.weight * self._after(values, move, part) for move in self.moves[advisory])
            means[:, :, part] = total // self.weight
        return means

    def _after(self, values: np.ndarray, move: Move, part: slice) -> np.ndarray:
        """The values at the points to which a move leads from a part of the own rates: first between the rates, then between altitudes."""
        own, intruder = self._stencil(1, move.own[part, np.newaxis]), self._stencil(2, move.intruder)
        height = self._stencil(0, self.axes[0][:, np.newaxis, np.newaxis] + move.change[part])
        place = own.lower[:, 0]
        blended = values[:, :, place] * own.below + values[:, :, place + 1] * own.above
        blended = blended[..., intruder.lower] * intruder.below + blended[..., intruder.lower + 1] * intruder.above
        column = np.arange(math.prod(blended.shape[2:])).reshape(blended.shape[2:])
        flat, places = blended.reshape(len(blended), -1), height.lower * column.size + column
        total = flat.take(places, axis=1) * height.below + flat.take(places + column.size, axis=1) * height.above
        return total // ((height.below + height.above) * (own.below + own.above) * (intruder.below + intruder.above))

    def _stencil(self, axis: int, points: np.ndarray) -> Stencil:
        """The numbers round points of an axis. A point beyond an end is taken at that end."""
        marks, unit = self.axes[axis], self.units[axis]
        inside = np.clip(points, marks[0], marks[-1])
        lower = np.minimum(np.searchsorted(marks, inside, side="right") - 1, len(marks) - 2)
        below, above = (marks[lower + 1] - inside) // unit, (inside - marks[lower]) // unit
        return Stencil(lower, below.astype(self.numbers), above.astype(self.numbers))


def _unit(axis: np.ndarray, changes: list[np.ndarray]) -> int:
    """What divides all gaps of an axis, and all that is added to its numbers."""
    return math.gcd(*(int(np.gcd.reduce(distances, axis=None)) for distances in (np.diff(axis), *changes)))
