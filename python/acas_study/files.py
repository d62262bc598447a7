"""Files that are whole or as they were."""
import os
from pathlib import Path

from acas_texts import Fault


def write_whole(path: Path, content: bytes) -> None:
    """Writes a file under another name and gives it its own once it is whole."""
    part = path.with_name(f".{path.name}.{os.getpid()}.part")
    try:
        part.write_bytes(content)
        os.replace(part, path)
    except OSError as error:
        raise Fault(str(path), "cannot be written:", error.strerror or str(error)) from None
    finally:
        part.unlink(missing_ok=True)


def write_changed(path: Path, content: bytes) -> None:
    """Writes a file unless it has this content, so that what was made from it stays current."""
    if not path.is_file() or path.read_bytes() != content:
        write_whole(path, content)
