"""The file of a table."""
import hashlib
import math
import os
from dataclasses import dataclass

import numpy as np

from acas_texts import Fault
from acas_table.model import GREATEST_ENTRIES, Model

ENTRY = np.dtype([("upper", "<i8"), ("lower", "<i8"), ("advice", "u1")])
"""An entry: its two values in millionths of a unit of cost, and the number of its advice. 17 bytes."""
HEADER = np.dtype([("magic", "V4"), ("version", "<u4"), ("model", "V32"), ("shape", "<u4", (5,))])
"""What stands before the entries: 60 bytes. The shape is altitudes, own rates, intruder rates, advisories and the horizon."""
DIGEST_BYTES = 32
VERSIONS = (1, 2)
"""In version 1 one digest ends the file, over all bytes before; in version 2 one ends each layer, over the digest before and the layer's
entries, or in layer 0 over the header and the entries."""
NO_ADVICE = 255
"""The advice in layer 0, where no second is to go."""
SHAPE_LIMITS = ((2, 129), (2, 129), (2, 129), (2, 16), (0, 120))


@dataclass(frozen=True)
class Header:
    """What a table says of the model that it was made for."""

    version: int
    model_digest: bytes
    """SHA-256 of the bytes of the model's file."""
    altitudes: int
    own_rates: int
    intruder_rates: int
    advisories: int
    horizon: int

    @property
    def shape(self) -> tuple[int, int, int, int, int]:
        """Of the entries: layers, advisories, altitudes, own rates, intruder rates."""
        return (self.horizon + 1, self.advisories, self.altitudes, self.own_rates, self.intruder_rates)

    @property
    def length(self) -> int:
        """The bytes of the whole file."""
        digests = 1 if self.version == 1 else self.shape[0]
        return HEADER.itemsize + ENTRY.itemsize * math.prod(self.shape) + DIGEST_BYTES * digests


@dataclass(frozen=True)
class Table:
    """A table: its header and its entries."""

    source: str
    """The name of its file."""
    header: Header
    layers: np.ndarray
    """Read-only and mapped from the file, dtype `ENTRY`, shape (layers, advisories, altitudes, own rates, intruder rates).

    `layers[n, p, i, j, k]` is the entry with `n` seconds to go, while the advisory of number `p` is present, at the places
    `i`, `j` and `k` of the model's three axes. Fields: `upper` and `lower`, int64, in millionths of a unit of cost; `advice`,
    uint8, the number of an advisory of the model, and 255 in layer 0.
    """
    model: Model | None = None
    """The model that it was read with, where one was."""

    def __repr__(self) -> str:
        names = ("layers", "advisories", "altitudes", "own rates", "intruder rates")
        counts = ", ".join(f"{count} {name}" for count, name in zip(self.layers.shape, names))
        return f"<Table {self.source}: version {self.header.version}, {counts}>"


def read_table(path: str | os.PathLike[str], model: Model | None = None) -> Table:
    """Reads a table's file. A fault names the first field that is not as it has to be.

    Looked at are the letters, the version, the numbers of the shape, the length, the digests, and that each advice is the number of
    an advisory. Of version 1 that is the digest of all bytes at the end of the file, of version 2 that of each layer behind it: a
    fault names the first layer that is damaged. With a model also the digest of its file, its shape, and that each advice is among
    the choices of the advisory that is present. Whether the values are sound is not looked at: that is `acas check`.

    The entries stay in the file, which must not be written to while they are in use.
    """
    source = str(path)
    with open(path, "rb") as file:
        header = _header(file.read(HEADER.itemsize), os.fstat(file.fileno()).st_size, source, model)
        content = np.memmap(file, dtype=np.uint8, mode="r")
    if len(content) != header.length:
        raise Fault(source, "length", f"{len(content)} of {header.length}")
    layers = _layers_of_whole(content, header, source) if header.version == 1 else _layers_of_chain(content, header, source)
    check_advice(layers["advice"], source, model)
    return Table(source, header, layers, model)


def _layers_of_whole(content: np.ndarray, header: Header, source: str) -> np.ndarray:
    """The entries of version 1, once the digest at the end is found to be that of all bytes before. `content` is uint8."""
    hashed, kept = content[:-DIGEST_BYTES], content[-DIGEST_BYTES:].tobytes()
    _check_digest(source, "digest", kept, hashlib.sha256(hashed).digest())
    return hashed[HEADER.itemsize :].view(ENTRY).reshape(header.shape)


def _layers_of_chain(content: np.ndarray, header: Header, source: str) -> np.ndarray:
    """The entries of version 2, once the digest behind each layer is found to be that of the layer and of all before. `content` is uint8."""
    layer = np.dtype([("entries", ENTRY, header.shape[1:]), ("digest", f"V{DIGEST_BYTES}")])
    layers = content[HEADER.itemsize :].view(layer)
    before = content[: HEADER.itemsize].tobytes()
    for number in range(len(layers)):
        computed = hashlib.sha256(before)
        computed.update(layers["entries"][number])
        before = layers["digest"][number].tobytes()
        _check_digest(source, f"layer {number} digest", before, computed.digest())
    return layers["entries"]


def _check_digest(source: str, name: str, kept: bytes, computed: bytes) -> None:
    if kept != computed:
        raise Fault(source, name, f"{kept.hex()} computed {computed.hex()}")


def _header(content: bytes, length: int, source: str, model: Model | None) -> Header:
    if content[:4] != b"ACXT"[: len(content)]:
        raise Fault(source, "magic", "is not ACXT")
    if len(content) < HEADER.itemsize:
        raise Fault(source, "length", f"{length}, less than the {HEADER.itemsize} of a header")
    fields = np.frombuffer(content, dtype=HEADER)[0]
    version, digest, shape = int(fields["version"]), fields["model"].tobytes(), fields["shape"].tolist()
    if version not in VERSIONS:
        raise Fault(source, "version", str(version))
    if model is not None and digest != model.digest:
        raise Fault(source, "other model", f"{digest.hex()} found {model.digest.hex()} of {model.source}")
    header = Header(version, digest, *shape)
    _check_shape(shape, source, model)
    if math.prod(header.shape) > GREATEST_ENTRIES:
        raise Fault(source, "shape", f"has {math.prod(header.shape)} entries, over {GREATEST_ENTRIES}")
    return header


def _check_shape(shape: list[int], source: str, model: Model | None) -> None:
    for place, (number, (least, greatest)) in enumerate(zip(shape, SHAPE_LIMITS)):
        if not least <= number <= greatest:
            raise Fault(source, f"shape {place}", f"is {number}, outside {least} to {greatest}")
    if model is None:
        return
    expected = [*model.shape[2:], len(model.advisories), model.horizon]
    for place, (number, wanted) in enumerate(zip(shape, expected)):
        if number != wanted:
            raise Fault(source, f"shape {place}", f"is {number} not {wanted}")


def check_advice(advice: np.ndarray, source: str, model: Model | None) -> None:
    """Refuses the first advice that may not stand where it does. `advice` has the shape of the entries and whole numbers from 0 to 255."""
    advisories = advice.shape[1]
    wrong = advice >= advisories
    wrong[0] = advice[0] != NO_ADVICE
    if wrong.any():
        place = int(np.argmax(wrong))
        raise Fault(source, state_at(advice.shape, place), f"byte {advice.flat[place]}")
    if model is not None:
        _check_choices(advice[1:], source, model)


def _check_choices(advice: np.ndarray, source: str, model: Model) -> None:
    """Refuses the first advice that is none of the choices. `advice` is that of the layers from 1 on."""
    allowed = np.zeros((len(model.advisories), len(model.advisories)), dtype=bool)
    for number, advisory in enumerate(model.advisories):
        allowed[number, list(advisory.choices)] = True
    present = np.arange(len(model.advisories)).reshape(1, -1, 1, 1, 1)
    wrong = ~allowed[present, advice]
    if wrong.any():
        place = int(np.argmax(wrong)) + math.prod(model.shape[1:])
        raise Fault(source, state_at(model.shape, place), "advice not allowed")


def state_at(shape: tuple[int, ...], place: int) -> str:
    """The layer and the state of the entry at a place among all."""
    layer, state = divmod(place, math.prod(shape[1:]))
    return f"layer {layer} state {state}"
