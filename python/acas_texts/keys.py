"""The typed keys of a TOML table: the value of a key, or a fault that names it by its path."""
from typing import Any, Iterator

from acas_texts.fault import Cause, Fault, path_of

NAME_LETTERS = frozenset("ABCDEFGHIJKLMNOPQRSTUVWXYZabcdefghijklmnopqrstuvwxyz0123456789_-")
LONGEST_NAME = 32


def is_name(text: str) -> bool:
    """Whether a text is a name: 1 to 32 ASCII letters, digits, `_` and `-`."""
    return 1 <= len(text) <= LONGEST_NAME and NAME_LETTERS.issuperset(text)


class Keys:
    """The keys of one table of a TOML document, which stands at a path: `pilot` or `advisory[1]`, and none for the whole."""

    def __init__(self, source: str, data: dict[str, Any], steps: tuple[str | int, ...] = ()) -> None:
        self.source = source
        self.data = data
        self.steps = steps

    def fault(self, rule: str, problem: str, *steps: str | int, allowed: tuple[Any, ...] = ()) -> Fault:
        """The fault of a key or of an item."""
        whole = (*self.steps, *steps)
        return Fault(self.source, f"key {path_of(whole)}", problem, Cause(rule, whole, allowed))

    def only(self, *names: str) -> None:
        """Refuses the least key, by its bytes, that is none of these."""
        unknown = sorted(self.data.keys() - set(names), key=str.encode)
        if unknown:
            raise self.fault("unknown", "unknown", unknown[0], allowed=names)

    def value(self, name: str, kind: type) -> Any:
        """The value of a key that has to be of this very kind."""
        if name not in self.data:
            raise self.fault("missing", "missing", name, allowed=(kind,))
        return self._of_kind(self.data[name], kind, name)

    def number(self, name: str, least: int, greatest: int) -> int:
        """A whole number from the least to the greatest."""
        return self._within(self.value(name, int), least, greatest, name)

    def numbers(self, name: str, least: int, greatest: int) -> list[int]:
        """A list of whole numbers, each from the least to the greatest."""
        return [self._item(name, place, item, least, greatest) for place, item in enumerate(self.value(name, list))]

    def pair(self, name: str, least: int, greatest: int) -> tuple[int, int]:
        """A list of two whole numbers, the second of which is no less than the first."""
        items = self.value(name, list)
        self.count(name, len(items), 2, 2)
        first = self._item(name, 0, items[0], least, greatest)
        return first, self._item(name, 1, items[1], first, greatest)

    def count(self, name: str, found: int, least: int, greatest: int) -> None:
        """Refuses a list of the wrong length."""
        if not least <= found <= greatest:
            raise self.fault("count", f"value {found} outside {least} to {greatest}", name, allowed=(found, least, greatest))

    def table(self, name: str, *names: str) -> "Keys":
        """A table that has these keys alone."""
        keys = Keys(self.source, self.value(name, dict), (*self.steps, name))
        keys.only(*names)
        return keys

    def tables(self, name: str, least: int, greatest: int) -> Iterator["Keys"]:
        """The tables of a list, of which there are so many."""
        items = self.value(name, list)
        self.count(name, len(items), least, greatest)
        for place, item in enumerate(items):
            yield Keys(self.source, self._of_kind(item, dict, name, place), (*self.steps, name, place))

    def name(self, name: str) -> str:
        """A name: 1 to 32 ASCII letters, digits, `_` and `-`."""
        return self._named(self.value(name, str), name)

    def texts(self, name: str) -> Iterator[str]:
        """The texts of a list, one by one."""
        for place, item in enumerate(self.value(name, list)):
            yield self._of_kind(item, str, name, place)

    def _named(self, text: str, *steps: str | int) -> str:
        if not is_name(text):
            raise self.fault("name", "wrong kind", *steps)
        return text

    def _of_kind(self, item: Any, kind: type, *steps: str | int) -> Any:
        # No isinstance of a number or a text: to Python a truth value is a whole number, to TOML it is not; nor is a date a text.
        if not (isinstance(item, kind) if kind in (dict, list) else type(item) is kind):
            raise self.fault("kind", "wrong kind", *steps, allowed=(kind,))
        return item

    def _item(self, name: str, place: int, item: Any, least: int, greatest: int) -> int:
        return self._within(self._of_kind(item, int, name, place), least, greatest, name, place)

    def _within(self, number: int, least: int, greatest: int, *steps: str | int) -> int:
        if not least <= number <= greatest:
            raise self.fault("outside", f"value {number} outside {least} to {greatest}", *steps, allowed=(least, greatest))
        return number
