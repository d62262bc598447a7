"""What the numbers of a table are called outside its file: names, axes, types, units and attributes. `python/acas_export` and `to_xarray`
lay them out so."""
from typing import Any, NamedTuple

import numpy as np

from acas_origin import digest_of
from acas_table.model import AXES, Model
from acas_table.table import ENTRY, NO_ADVICE, Table

FORMAT_VERSION = 1
"""Of this layout."""
DIMENSIONS = ("seconds_to_go", "present_advisory", *AXES)
VALUES = tuple(ENTRY.names or ())
"""The variables that have a number for each entry; each has the type of its field in the entry."""
TEXT, WHOLE = "str", "int64"
"""The types of what stands along the axes: names, and whole numbers."""
PER_UNIT = 10**6
NO_ADVICE_MEANING = "no.advice"
"""What 255 stands for. No advisory has this name, since none has a point in it."""

UNITS = {"seconds_to_go": "s", "altitude": "ft", "own_rate": "ft/min", "intruder_rate": "ft/min", "upper": "1e-6", "lower": "1e-6"}
LONG_NAMES = {
    "seconds_to_go": "seconds to the loss of horizontal separation",
    "present_advisory": "advisory that is present",
    "altitude": "intruder's altitude less the own altitude",
    "own_rate": "own vertical rate, up is positive",
    "intruder_rate": "intruder's vertical rate, up is positive",
    "upper": "upper bound of the expected cost, in millionths of a unit of cost",
    "lower": "lower bound of the expected cost, in millionths of a unit of cost",
    "advice": "number of the advisory that is advised",
}
COMMENTS = {
    "upper": f"exact whole numbers, of which {PER_UNIT} are a unit of cost",
    "lower": f"exact whole numbers, of which {PER_UNIT} are a unit of cost",
    "advice": f"advisories are counted from 0, in the order of present_advisory; {NO_ADVICE} with no second to go, where nothing is advised",
}


class Variable(NamedTuple):
    """An array with a name for each of its dimensions, and what is said of it."""

    dimensions: tuple[str, ...]
    values: np.ndarray
    attributes: dict[str, Any]


class Contents(NamedTuple):
    """All that is taken out of a table."""

    coordinates: dict[str, Variable]
    """What stands along the axes, by the names of the dimensions."""
    variables: dict[str, Variable]
    attributes: dict[str, Any]


def contents_of(table: Table, model: Model) -> Contents:
    """What is taken out of a table of this model. The numbers stay in the table's file."""
    coordinates = {name: Variable((name,), values, _said_of(name)) for name, values in axes_of(model).items()}
    variables = {name: Variable(DIMENSIONS, table.layers[name], _said_of(name)) for name in VALUES}
    variables["advice"].attributes.update(_flags(model))
    attributes = {
        "Conventions": "CF-1.9",
        "title": "Vertical advisory table of acas",
        "model_sha256": model.digest.hex(),
        "table_sha256": digest_of(table.source),
        "table_version": table.header.version,
        "acas_format_version": FORMAT_VERSION,
    }
    return Contents(coordinates, variables, attributes)


def axes_of(model: Model) -> dict[str, np.ndarray]:
    """What stands along each axis, int64, and the names of the advisories as str."""
    along = {"seconds_to_go": np.arange(model.horizon + 1, dtype=WHOLE), "present_advisory": np.array(model.names, dtype=object)}
    return along | {axis: getattr(model, axis) for axis in AXES}


def _said_of(name: str) -> dict[str, Any]:
    """The attributes of a variable. None is a `scale_factor`, a `_FillValue` or a `missing_value`, by which readers make floats of whole
    numbers."""
    said = {"long_name": LONG_NAMES[name], "units": UNITS.get(name), "comment": COMMENTS.get(name)}
    return {key: text for key, text in said.items() if text is not None}


def _flags(model: Model) -> dict[str, Any]:
    """The numbers of the advisories with their names, as CF has them."""
    numbers = np.array([*range(len(model.names)), NO_ADVICE], dtype=np.uint8)
    return {"flag_values": numbers, "flag_meanings": " ".join([*model.names, NO_ADVICE_MEANING])}
