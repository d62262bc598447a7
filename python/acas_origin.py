"""Of which files a printed text is. Beside the file OUT stands OUT.from, in JSON: the words of the run, its exit code, and the SHA-256
of what it printed and of each file that it read. It needs no package."""
import hashlib
import json
from dataclasses import dataclass
from pathlib import Path

FORMS = {
    "values": ("model",), "check": ("model", "table"), "audit": ("model", "table"), "regions": ("model", "boxes"),
    "manoeuvre": ("model", "boxes"), "replay": ("model", "table", "encounter"), "risk": ("model", "table"),
    "safeable": ("model", "table"),
}
"""The commands that print what is kept, and the files that each reads, in the order of the words."""
NUMBERS = {"manoeuvre": 2}
"""How many numbers stand behind the files: of `manoeuvre` the intruder's greatest acceleration and its greatest rate."""
FILES = ("model", "table", "boxes", "encounter")
DIGITS = frozenset("0123456789abcdef")


@dataclass(frozen=True)
class Origin:
    """A run, and the digests of its files as 64 hexadecimal digits."""

    words: tuple[str, ...]
    code: int
    output: str
    files: dict[str, str]
    """By `model`, `table`, `boxes` and `encounter`, those of them that the run read."""


def digest_of(path: Path | str) -> str:
    """SHA-256 of a file's bytes."""
    with open(path, "rb") as file:
        return hashlib.file_digest(file, "sha256").hexdigest()


def beside(path: Path | str) -> Path:
    """The file that says of which files a text is."""
    return Path(f"{path}.from")


def text_of(origin: Origin) -> str:
    """The text of such a file."""
    document = {"version": 1, "words": list(origin.words), "code": origin.code, "output": origin.output, "files": origin.files}
    return json.dumps(document, indent=1) + "\n"


def origin_of(text: str) -> Origin:
    """The origin that a text says; a ValueError where it says none."""
    document = json.loads(text)
    if not isinstance(document, dict) or set(document) != {"version", "words", "code", "output", "files"} or document["version"] != 1:
        raise ValueError("it has not the keys of version 1")
    words, code, output, files = (document[key] for key in ("words", "code", "output", "files"))
    if not isinstance(words, list) or not all(isinstance(word, str) for word in words) or type(code) is not int:
        raise ValueError("words and code are no list of words and no number")
    if not isinstance(files, dict) or not set(files) <= set(FILES) or not all(map(_is_digest, [output, *files.values()])):
        raise ValueError("output and files are no digests")
    return Origin(tuple(words), code, output, files)


def _is_digest(text: object) -> bool:
    return isinstance(text, str) and len(text) == 64 and DIGITS.issuperset(text)
