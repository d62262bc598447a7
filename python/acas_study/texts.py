"""The text of a TOML document, and keys of it by their paths."""
import json
import re
from typing import Any

from acas_texts import Cause, Fault

STEP = re.compile(r"([A-Za-z0-9_-]+)((?:\[[0-9]*\])*)")


def text_of(document: dict[str, Any]) -> str:
    """A TOML text of a document whose tables and lists of tables have no tables of their own, as those of models have none."""
    plain, tables = [], []
    for name, value in document.items():
        if isinstance(value, dict):
            tables.append(f"[{name}]\n{_lines(value)}")
        elif isinstance(value, list) and value and all(isinstance(item, dict) for item in value):
            tables += [f"[[{name}]]\n{_lines(item)}" for item in value]
        else:
            plain.append(f"{name} = {_value(value)}\n")
    return "\n".join(["".join(plain), *tables])


def _lines(table: dict[str, Any]) -> str:
    return "".join(f"{name} = {_value(value)}\n" for name, value in table.items())


def _value(value: Any) -> str:
    # Whole numbers, fractions, truth values, ASCII texts and lists of them are written by TOML as they are by JSON.
    return json.dumps(value, default=str)


def set_key(document: dict[str, Any], path: str, value: Any, source: str, at: tuple[str | int, ...] = ()) -> None:
    """Sets a key by its path, as `pilot.pull` or `advisory[1].costs[2]`; `advisory[]` is every table of the list. `at` is the way to
    the path in the file of a study."""
    steps: list[str | int | None] = []
    for part in path.split("."):
        match = STEP.fullmatch(part)
        if match is None:
            raise Fault(source, f"key {path}", "is no path: NAME, NAME[PLACE] or NAME[], joined by points", Cause("no_path", at))
        steps.append(match[1])
        steps += [int(place) if place else None for place in re.findall(r"\[([0-9]*)\]", match[2])]
    _set(document, steps, value, Fault(source, f"key {path}", "is not in the model", Cause("absent_key", at, (path, document))))


def _set(inside: Any, steps: list, value: Any, absent: Fault) -> None:
    step, *rest = steps
    if step is None:
        if not isinstance(inside, list) or not inside:
            raise absent
        for place in range(len(inside)):
            _set(inside, [place, *rest], value, absent)
    elif rest:
        _set(_item(inside, step, absent), rest, value, absent)
    elif isinstance(inside, dict) and isinstance(step, str):
        inside[step] = value
    else:
        _item(inside, step, absent)
        inside[step] = value


def _item(inside: Any, step: str | int, absent: Fault) -> Any:
    try:
        return inside[step]
    except (KeyError, IndexError, TypeError):
        raise absent from None
