"""What is wrong with a text that is refused, in lines for who has to mend it: where, what was found, what is wanted, and what to do."""
import re
from typing import Any, Callable, Mapping

from acas_texts import toml
from acas_texts.advice import Advice
from acas_texts.fault import Cause, Fault
from acas_texts.site import Site, schema_of

LONGEST_LINE = 100
TOO_LONG = f"{toml.GREATEST_BYTES} bytes are read of a file: take remarks out, or make two files of the boxes"


def clean(text: str) -> str:
    """A text in one line, whatever it does to a terminal."""
    return "".join(letter if letter.isprintable() else "?" for letter in text)


def line_in(content: bytes, number: int) -> str:
    """A line of a file, without the white space round it, and cut where it is long."""
    lines = content.decode("utf-8", "replace").removeprefix("\ufeff").split("\n")
    text = clean(lines[number - 1].strip()) if number <= len(lines) else ""
    return text if len(text) <= LONGEST_LINE else f"{text[:LONGEST_LINE]}.."


def explained(content: bytes, kind: str, fault: Fault, rules: Mapping[str, Callable[[Site, Cause], Advice]]) -> list[str]:
    """The lines on a fault of the bytes of a file of this kind, by the advice on each rule."""
    cause = fault.cause or Cause("")
    if cause.rule == "too_long":
        return [f"to do: {TOO_LONG}"]
    if cause.rule == "not_toml":
        (error,) = cause.allowed
        return [f"line {error.line}: {line_in(content, error.line)}", f"found: {error.message}", f"to do: {error.advice}"]
    site = Site(kind, toml.read(content), cause.steps)
    lines = [f"line {site.line}: {line_in(content, site.line)}"] if cause.steps else []
    found, advice, *wanted = rules[cause.rule](site, cause)
    said = {"found": found, "wanted": wanted[0] if wanted else site.description, "to do": advice}
    return [clean(line) for line in [*lines, *(f"{label}: {text}" for label, text in said.items() if text)]]


def names_in(schema: dict[str, Any]) -> set[str]:
    """All keys of a kind of file."""
    found: set[str] = set()
    for name, inner in schema.get("properties", {}).items():
        found |= {name} | names_in(inner)
    return found | (names_in(schema["items"]) if isinstance(schema.get("items"), dict) else set())


def kind_by_keys(content: bytes, kinds: list[str]) -> str:
    """The kind of file that has most of the keys with which lines of a text begin; of several the first."""
    names = set(re.findall(r"(?m)^[ \t]*\[{0,2}[ \t]*\"?([A-Za-z0-9_-]+)", content.decode("utf-8", "replace").removeprefix("\ufeff")))
    return max(kinds, key=lambda kind: len(names & names_in(schema_of(kind))))


def kind_named(content: bytes, kinds: list[str]) -> str | None:
    """The kind of file whose schema the first line of a text names, or None."""
    words = content.decode("utf-8", "replace").removeprefix("\ufeff").split("\n", 1)[0].split()
    if len(words) != 2 or words[0] != "#:schema":
        return None
    named = [kind for kind in kinds if words[1].split("/")[-1] == f"{kind}.schema.json"]
    return named[0] if named else None
