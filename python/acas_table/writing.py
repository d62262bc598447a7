"""The file of a table that is made elsewhere."""
import hashlib
import os
from typing import Iterable, Iterator

import numpy as np

from acas_texts import Fault
from acas_table.arrays import refuse_advice, refuse_values
from acas_table.model import Model
from acas_table.table import ENTRY, HEADER, VERSIONS


def write_table(
    path: str | os.PathLike[str], model: Model, upper: np.ndarray, lower: np.ndarray, advice: np.ndarray, version: int = 2
) -> None:
    """Writes a table of a model to a file. A fault names the first array, and the first entry of it, that is not as it has to be.

    Each array has whole numbers and the shape (layers, advisories, altitudes, own rates, intruder rates). `upper` and `lower` are values in
    millionths of a unit of cost; `advice` has the number of an advisory that may be chosen while that of the entry is present, and 255 in
    layer 0. The bounds are written as they are: whether they are sound is for `acas check` to say.

    A file that is there is replaced by the whole new one, or stays as it is. An OSError that names it says that it cannot be written.
    """
    source = str(path)
    if type(version) is not int or version not in VERSIONS:
        raise Fault(source, "version", str(version))
    refuse_values(upper, f"{source} upper", model)
    refuse_values(lower, f"{source} lower", model)
    refuse_advice(advice, f"{source} advice", model)
    if os.path.exists(path) and os.path.exists(model.source) and os.path.samefile(path, model.source):
        raise Fault(source, "file", "is that of the model")
    write_whole(source, _pieces(model, {"upper": upper, "lower": lower, "advice": advice}, version))


def _pieces(model: Model, fields: dict[str, np.ndarray], version: int) -> Iterator[bytes | np.ndarray]:
    """The bytes of the file in their order. A piece holds until the next one is asked for."""
    shape = (*model.shape[2:], len(model.advisories), model.horizon)
    header = np.array((b"ACXT", version, model.digest, shape), dtype=HEADER).tobytes()
    yield header
    computed = hashlib.sha256(header)
    entries = np.empty(model.shape[1:], dtype=ENTRY)
    for layer in range(model.shape[0]):
        for name, array in fields.items():
            entries[name] = array[layer]
        yield entries
        computed.update(entries)
        if version == 2:
            digest = computed.digest()
            yield digest
            computed = hashlib.sha256(digest)
    if version == 1:
        yield computed.digest()


def write_whole(path: str, pieces: Iterable[bytes | np.ndarray]) -> None:
    """Writes a file under another name and gives it its own once it is whole."""
    folder, name = os.path.split(path)
    part = os.path.join(folder, f".{name}.{os.getpid()}.part")
    try:
        with open(part, "wb") as file:
            for piece in pieces:
                file.write(piece)
        os.replace(part, path)
    except OSError as error:
        raise OSError(error.errno, error.strerror, path) from error
    finally:
        if os.path.exists(part):
            os.remove(part)
