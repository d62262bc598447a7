"""Which library writes and reads a file, by the ending of its name. It needs no package."""
import importlib.util
from pathlib import Path
from typing import NamedTuple

from acas_texts import Fault


class Library(NamedTuple):
    """A Python package for one kind of file."""

    package: str
    debian: str
    """The package of Debian that has it."""
    module: str
    """The module of `acas_exchange` that calls it."""


LIBRARIES = {".h5": Library("h5py", "python3-h5py", "hdf5"), ".nc": Library("netCDF4", "python3-netcdf4", "netcdf")}


def library_of(path: str) -> Library:
    """The library for a file; a fault where its name has another ending."""
    found = LIBRARIES.get(Path(path).suffix.lower())
    if found is None:
        raise Fault(path, "ending", f"is none of {' and '.join(LIBRARIES)}")
    return found


def lacking(path: str) -> str:
    """Which packages are not there that a file needs, and how they are installed; no letter where all are."""
    library = library_of(path)
    needed = {"numpy": "python3-numpy", library.package: library.debian}
    missing = [package for package in needed if importlib.util.find_spec(package) is None]
    if not missing:
        return ""
    return f"the Python package {' and '.join(missing)}: apt-get install {' '.join(needed[package] for package in missing)}"
