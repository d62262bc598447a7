"""Bounds of an advice that is made elsewhere."""
from typing import NamedTuple

import numpy as np

from acas_texts import Fault
from acas_table.arrays import GREATEST, refuse_advice
from acas_table.means import MILLION, Means
from acas_table.model import Model


class Entries(NamedTuple):
    """The entries of a table, in the order in which `write_table` takes them: `write_table(path, model, *entries)`.

    Each array has the shape (layers, advisories, altitudes, own rates, intruder rates).
    """

    upper: np.ndarray
    """What following the advice costs at most, in millionths of a unit of cost, int64."""
    lower: np.ndarray
    """What every policy costs at least, in millionths of a unit of cost, int64."""
    advice: np.ndarray
    """The number of an advisory, uint8, and 255 in layer 0."""


def table_of_advice(model: Model, advice: np.ndarray, bounds: str = "evaluated") -> Entries:
    """The table of an advice, whoever made it, with bounds that `acas check` accepts.

    `advice` has whole numbers and the shape (layers, advisories, altitudes, own rates, intruder rates): in an entry the number of an
    advisory that may be chosen while that of the entry is present, and 255 in layer 0. A fault names the first that is not so.

    With `evaluated` each upper value is just what the advice costs over the layer below, and each lower value the least that a choice does.
    The lower values do not depend on the advice, and the advice of a compiled table gives that table. With `loose` all entries of a layer have
    the same two values, which say no more than the costs of the model do.
    """
    refuse_advice(advice, "advice", model)
    if bounds not in ("evaluated", "loose"):
        raise Fault("bounds", str(bounds), "is neither evaluated nor loose")
    upper, lower = evaluated_bounds(model, advice) if bounds == "evaluated" else loose_bounds(model)
    return Entries(upper, lower, advice.astype(np.uint8))


def loose_bounds(model: Model) -> tuple[np.ndarray, np.ndarray]:
    """Upper and lower values that are sound for every advice.

    Where all values of a layer are the same, so is each mean of them: the weights sum to what the sum is divided by, and nothing is
    rounded. So no choice costs more than the value of the layer below and the dearest choice of the model, nor less than with the
    cheapest. These values are within 121 * 10**15 of 0, and fit 64 bits.
    """
    costs = [cost for advisory in model.advisories for cost in advisory.costs]
    seconds = np.arange(model.shape[0], dtype=np.int64).reshape(-1, 1, 1, 1, 1)
    pairs = ((max(model.contact, 0), max(costs)), (min(model.contact, 0), min(costs)))
    upper, lower = (np.broadcast_to(MILLION * (end + seconds * cost), model.shape).copy() for end, cost in pairs)
    return upper, lower


def evaluated_bounds(model: Model, advice: np.ndarray, numbers: type | None = None) -> tuple[np.ndarray, np.ndarray]:
    """The upper values of following an advice, and the lower values of the model, by the definitions. `numbers` is that of `Means`.

    Both are worked out at once. Upper values stand with the other sign, so that rounding down rounds them up.
    """
    means = Means(model, numbers)
    upper, lower = (np.empty(model.shape, dtype=np.int64) for _ in range(2))
    values = _ending(model).astype(means.numbers)
    for layer in range(model.shape[0]):
        if layer > 0:
            values = _earlier(model, means, values, advice[layer])
        upper[layer], lower[layer] = -values[:, 0], values[:, 1]
    return upper, lower


def _ending(model: Model) -> np.ndarray:
    """The two sides of each value with no second to go, int64, shape (advisories, 2, altitudes, own rates, intruder rates)."""
    is_contact = np.abs(model.altitude) <= model.half_height
    cost = np.where(is_contact, MILLION * model.contact, 0).reshape(-1, 1, 1)
    ending = np.empty((len(model.advisories), 2, *model.shape[2:]), dtype=np.int64)
    ending[:, 0], ending[:, 1] = -cost, cost
    return ending


def _earlier(model: Model, means: Means, values: np.ndarray, advice: np.ndarray) -> np.ndarray:
    """The two sides of each value a second earlier. `advice` is that of the layer, shape (advisories, altitudes, own rates, intruder rates)."""
    earlier = np.empty_like(values)
    upper, lower = earlier[:, 0], earlier[:, 1]
    lower[...] = GREATEST
    for chosen in range(len(model.advisories)):
        mean = means.under(values[chosen], chosen)
        for present, advisory in enumerate(model.advisories):
            if chosen in advisory.choices:
                cost = MILLION * advisory.costs[advisory.choices.index(chosen)]
                np.copyto(upper[present], mean[0] - cost, where=advice[present] == chosen)
                np.minimum(lower[present], mean[1] + cost, out=lower[present])
    return earlier
