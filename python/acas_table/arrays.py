"""The arrays of a table's entries, as they are handed in."""
import numpy as np

from acas_texts import Fault
from acas_table.model import Model
from acas_table.table import check_advice, state_at

LEAST, GREATEST = -(2**63), 2**63 - 1
"""The least and the greatest whole number of 64 bits."""
GREATEST_BYTE = 255


def refuse_values(values: np.ndarray, source: str, model: Model) -> None:
    """Refuses what are no values of a table of this model: whole numbers of 64 bits, of the shape of its entries."""
    _refuse(values, source, model, LEAST, GREATEST)


def refuse_advice(advice: np.ndarray, source: str, model: Model) -> None:
    """Refuses what is no advice of a table of this model: numbers of advisories that may be chosen, and 255 in layer 0."""
    _refuse(advice, source, model, 0, GREATEST_BYTE)
    check_advice(advice, source, model)


def _refuse(array: np.ndarray, source: str, model: Model, least: int, greatest: int) -> None:
    """Refuses what is no array of whole numbers within limits, with the shape of the model's entries."""
    if not isinstance(array, np.ndarray) or isinstance(array, np.ma.MaskedArray):
        raise Fault(source, "type", f"is {type(array).__name__} not ndarray")
    if array.dtype.kind not in "iu":
        raise Fault(source, "dtype", f"{array.dtype} is none of whole numbers")
    if array.shape != model.shape:
        raise Fault(source, "shape", f"is {array.shape} not {model.shape}")
    wrong = (array < least) | (array > greatest)
    if wrong.any():
        place = int(np.argmax(wrong))
        raise Fault(source, state_at(model.shape, place), f"is {array.flat[place]}, outside {least} to {greatest}")
