"""A table as a dataset of xarray."""
from typing import TYPE_CHECKING

import numpy as np

from acas_table.layout import Variable, contents_of
from acas_table.model import Model
from acas_table.table import Table

if TYPE_CHECKING:
    import xarray


def to_xarray(table: Table, model: Model) -> "xarray.Dataset":
    """The numbers of a table of this model, with named axes: what `xarray.open_dataset` reads of the file that `python/acas_export` writes.

    They are copies, which may be written to. An ImportError where there is no xarray, which nothing else here needs.
    """
    try:
        import xarray
    except ImportError:
        raise ImportError("to_xarray needs the Python package xarray: apt-get install python3-xarray", name="xarray") from None
    contents = contents_of(table, model)
    arrays = {name: _array(variable) for name, variable in contents.variables.items()}
    return xarray.Dataset(arrays, {name: _array(variable) for name, variable in contents.coordinates.items()}, contents.attributes)


def _array(variable: Variable) -> tuple:
    """What xarray makes a variable of."""
    return (variable.dimensions, np.array(variable.values), variable.attributes)
