"""NetCDF files, by netCDF4."""
from contextlib import contextmanager
from typing import Any, Iterator

import netCDF4
import numpy as np

from acas_exchange.stored import Array, Stored
from acas_table.layout import TEXT, Contents, Variable
from acas_texts import Fault

KIND = "NetCDF"
ROOM = 2**16
"""How many bytes are taken at first for a file in memory, which grows."""


def content_of(contents: Contents) -> memoryview:
    """The bytes of a NetCDF-4 file, with a coordinate variable for each dimension."""
    file = netCDF4.Dataset("in memory", "w", format="NETCDF4", memory=ROOM)
    file.setncatts(contents.attributes)
    for name, variable in contents.coordinates.items():
        file.createDimension(name, len(variable.values))
        _write(file, name, variable)
    for name, variable in contents.variables.items():
        _write(file, name, variable)
    return file.close()


def _write(file: netCDF4.Dataset, name: str, variable: Variable) -> None:
    kind = str if variable.values.dtype == object else variable.values.dtype
    stored = file.createVariable(name, kind, variable.dimensions, fill_value=False if kind is not str else None)
    stored.setncatts(variable.attributes)
    stored[...] = variable.values


@contextmanager
def opened(path: str) -> Iterator[Stored]:
    """What a file has, as long as it is open. A fault where the library cannot read it."""
    try:
        with netCDF4.Dataset(path) as file:
            # Numbers as they stand in the file: none is left out as a fill value, scaled or made a float.
            file.set_auto_maskandscale(False)
            arrays = {name: _array(variable) for name, variable in file.variables.items()}
            yield Stored(path, arrays, {name: _plain(file.getncattr(name)) for name in file.ncattrs()})
    except Fault:
        raise
    except (AttributeError, LookupError, OSError, RuntimeError, TypeError, ValueError) as error:
        raise Fault(path, f"cannot be read as {KIND}:", f"netCDF4 says {' '.join(str(error).split())}") from None


def _array(variable: netCDF4.Variable) -> Array:
    kind = TEXT if variable.dtype is str else np.dtype(variable.dtype).name
    return Array(kind, variable.dimensions, variable.shape, lambda: variable[...])


def _plain(value: Any) -> Any:
    """An attribute as a number, a text or a list."""
    return value.tolist() if isinstance(value, (np.generic, np.ndarray)) else value
