"""HDF5 files, by h5py."""
from contextlib import contextmanager
from typing import Any, Iterator

import h5py
import numpy as np

from acas_exchange.stored import Array, Stored
from acas_table.layout import TEXT, Contents, Variable
from acas_texts import Fault

KIND = "HDF5"
UTF_8 = h5py.string_dtype("utf-8")


def content_of(contents: Contents) -> bytes:
    """The bytes of a file, in which a dimension scale says what stands along each axis, so that it is a NetCDF file too."""
    with h5py.File("in memory", "w", driver="core", backing_store=False, track_order=True) as file:
        file.attrs.update(contents.attributes)
        for name, variable in contents.coordinates.items():
            _write(file, name, variable).make_scale(name)
        for name, variable in contents.variables.items():
            dataset = _write(file, name, variable)
            for place, dimension in enumerate(variable.dimensions):
                dataset.dims[place].attach_scale(file[dimension])
        file.flush()
        return file.id.get_file_image()


def _write(file: h5py.File, name: str, variable: Variable) -> h5py.Dataset:
    kind = UTF_8 if variable.values.dtype == object else variable.values.dtype
    dataset = file.create_dataset(name, data=variable.values, dtype=kind)
    dataset.attrs.update(variable.attributes)
    return dataset


@contextmanager
def opened(path: str) -> Iterator[Stored]:
    """What a file has, as long as it is open. A fault where the library cannot read it."""
    try:
        with h5py.File(path, "r") as file:
            arrays = {name: _array(item) for name, item in file.items() if isinstance(item, h5py.Dataset)}
            yield Stored(path, arrays, {name: _plain(value) for name, value in file.attrs.items()})
    except Fault:
        raise
    except (OSError, RuntimeError, LookupError, TypeError, ValueError) as error:
        raise Fault(path, f"cannot be read as {KIND}:", f"h5py says {' '.join(str(error).split())}") from None


def _array(dataset: h5py.Dataset) -> Array:
    text = h5py.check_string_dtype(dataset.dtype)
    shape = dataset.shape or ()
    if text is not None:
        return Array(TEXT, _dimensions(dataset), shape, lambda: dataset.asstr()[...])
    return Array(dataset.dtype.name, _dimensions(dataset), shape, lambda: dataset[...])


def _dimensions(dataset: h5py.Dataset) -> tuple[str, ...]:
    """The names of the dimension scales; a scale of one dimension has its own."""
    if h5py.h5ds.is_scale(dataset.id) and len(dataset.dims) == 1:
        return (dataset.name.removeprefix("/"),)
    return tuple(scales[0].name.removeprefix("/") if len(scales) else "" for scales in dataset.dims)


def _plain(value: Any) -> Any:
    """An attribute as a number, a text or a list. NetCDF keeps a number as an array of one."""
    if isinstance(value, np.ndarray):
        value = value.item() if value.size == 1 else value.tolist()
    if isinstance(value, np.generic):
        value = value.item()
    return value.decode("utf-8") if isinstance(value, bytes) else value
