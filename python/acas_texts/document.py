"""The TOML document of a file's bytes."""
from acas_texts import toml
from acas_texts.fault import Cause, Fault


def document_of(content: bytes, source: str) -> toml.Table:
    """The TOML document of a file's bytes. A fault names the line on which they are none."""
    try:
        return toml.read(content)
    except toml.NotToml as error:
        raise Fault(source, "not toml:", str(error), Cause("not_toml", allowed=(error,))) from None


def content_of(path: str) -> bytes:
    """The bytes of a file of text, which are at most as many as are read of one."""
    with open(path, "rb") as file:
        content = file.read(toml.GREATEST_BYTES + 1)
    if len(content) > toml.GREATEST_BYTES:
        raise Fault(path, "length", f"is over {toml.GREATEST_BYTES} bytes", Cause("too_long"))
    return content
