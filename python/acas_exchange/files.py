"""The file that is written."""
import os
from typing import Iterable

from acas_texts import Fault


def refuse_read(path: str, others: Iterable[str]) -> None:
    """Refuses to write over a file that is read."""
    if os.path.exists(path) and any(os.path.samefile(path, other) for other in others):
        raise Fault(path, "is read:", "it would be written over")


def cannot_be_written(path: str, error: OSError) -> Fault:
    """The fault that the system does not take a file."""
    return Fault(path, "cannot be written:", error.strerror or str(error))
