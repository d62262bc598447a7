"""The place of a text that a fault is about: its line, its value, and what the schema says of it."""
import json
from pathlib import Path
from typing import Any

from acas_texts.fault import path_of
from acas_texts.toml import Array, Table, Tables

SCHEMAS = Path(__file__).resolve().parent.parent.parent / "schema"
LONGEST = 60


def schema_of(kind: str) -> dict[str, Any]:
    """The JSON schema of a kind of file."""
    return json.loads((SCHEMAS / f"{kind}.schema.json").read_text(encoding="utf-8"))


class Site:
    """A way to a key or to an item in a document of a kind, which may lead to nothing that is there."""

    def __init__(self, kind: str, document: Table, steps: tuple[str | int, ...]) -> None:
        self.kind = kind
        self.document = document
        self.steps = steps

    def at(self, *steps: str | int) -> "Site":
        """Another place of the same document."""
        return Site(self.kind, self.document, steps)

    @property
    def inside(self) -> "Site":
        """The table or the list that has the key or the item."""
        return self.at(*self.steps[:-1])

    @property
    def value(self) -> Any:
        """What stands there, or None."""
        found: Any = self.document
        for step in self.steps:
            is_there = step in found if isinstance(found, dict) else isinstance(found, list) and isinstance(step, int) and step < len(found)
            if not is_there:
                return None
            found = found[step]
        return found

    @property
    def line(self) -> int:
        """The line on which it begins, or else that of what it is to stand in."""
        if not self.steps:
            return 1
        if len(self.steps) == 1 and self.value is None:
            headers = [value.line for value in self.document.values() if isinstance(value, (Table, Tables))]
            return min(headers, default=1)
        holder, step = self.inside.value, self.steps[-1]
        if isinstance(holder, Table) and step in holder.lines:
            # a table that a header has made begins where its own header is
            return self.value.line if isinstance(self.value, Table) else holder.lines[step]
        if isinstance(holder, Array) and isinstance(step, int) and step < len(holder.lines):
            return holder.lines[step]
        return self.inside.line

    @property
    def where(self) -> str:
        """Where its key stands, or is to stand, in words."""
        if len(self.steps) < 2:
            return "at the top, above the first line in brackets"
        table, line = self.inside.steps, self.inside.line
        name = f"[[{table[0]}]]" if isinstance(table[-1], int) else f"[{path_of(table)}]"
        return f"in the {name} of line {line}"

    @property
    def description(self) -> str:
        """What the schema says of the key or the item."""
        found, said = schema_of(self.kind), ""
        for step in self.steps:
            found = found.get("items", {}) if isinstance(step, int) else found.get("properties", {}).get(step, {})
            said = found.get("description", said)
        return said

    @property
    def known(self) -> list[str]:
        """The keys that the table may have there."""
        found = schema_of(self.kind)
        for step in self.steps:
            found = found.get("items", {}) if isinstance(step, int) else found.get("properties", {}).get(step, {})
        return list(found.get("properties", {}))


def shown(value: Any) -> str:
    """A value as a text has it, cut where it is long."""
    if isinstance(value, dict):
        return f"a table of {len(value)} keys"
    if isinstance(value, list):
        return f"a list of {len(value)}"
    text = json.dumps(value) if isinstance(value, (bool, str)) else str(value)
    return text if len(text) <= LONGEST else text[:LONGEST] + ".."
