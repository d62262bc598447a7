"""The words of a printed line, one after another."""
import re
from fractions import Fraction
from typing import Iterator

import numpy as np

from acas_texts import Fault

NUMBER = "(?:0|-?[1-9][0-9]{0,17})(?:/(?:[2-9]|[1-9][0-9]{1,17}))?"
"""A whole number or a fraction of at most 18 digits each in its one spelling, whether or not it is in lowest terms."""
TERMS = re.compile("[ @]-?([0-9]+/[0-9]+)")


def lines_of(text: str, source: str) -> Iterator["Words"]:
    """The lines of a text, each of which ends with a newline. No text is a fault of its first line."""
    *lines, rest = text.split("\n")
    for place, line in enumerate(lines, 1):
        yield Words(line, f"{source} line {place}")
    if rest or not lines:
        raise Fault(f"{source} line {len(lines) + 1}", "end", "is missing: the text is cut off")


class Words:
    """The words of a line, read one by one; each fault names the word by what it stands for."""

    def __init__(self, line: str, source: str) -> None:
        self.source = source
        self.rest = line.split(" ")
        self.rest.reverse()

    def fault(self, field: str, found: str, wanted: str) -> Fault:
        """The fault that a word is another one."""
        return Fault(self.source, field, f"is {found!r}, not {wanted}")

    def peek(self) -> str:
        """The next word, or an empty one behind the last."""
        return self.rest[-1] if self.rest else ""

    def text(self) -> str:
        """The words that are left."""
        return " ".join(reversed(self.rest))

    def next(self, field: str) -> str:
        """The next word."""
        if not self.rest:
            raise Fault(self.source, field, "is missing")
        return self.rest.pop()

    def word(self, *wanted: str) -> str:
        """The next word, which has to be one of these."""
        found = self.next(f"word {wanted[0]}")
        if found not in wanted:
            raise self.fault(f"word {wanted[0]}", found, " or ".join(wanted))
        return found

    def name(self, field: str) -> str:
        """The next word, as a name."""
        found = self.next(field)
        if not found:
            raise self.fault(field, found, "a name")
        return found

    def whole(self, field: str, least: int | None = None, greatest: int | None = None) -> int:
        """The next word, as a whole number that may have a least and a greatest value."""
        found = self.next(field)
        number = whole_of(found)
        if number is None:
            raise self.fault(field, found, "a whole number")
        if (least is not None and number < least) or (greatest is not None and number > greatest):
            raise self.fault(field, found, f"from {least} to {greatest}" if greatest is not None else f"at least {least}")
        return number

    def millionths(self, field: str, least: int, greatest: int) -> int:
        """The next word, a number with six decimals, in millionths, which has a least and a greatest value."""
        found = self.next(field)
        number = millionths_of(found)
        if number is None:
            raise self.fault(field, found, "a number with six decimals")
        if not least <= number <= greatest:
            raise self.fault(field, found, f"from {text_of_millionths(least)} to {text_of_millionths(greatest)}")
        return number

    def fraction(self, field: str) -> Fraction:
        """The next word, as a whole number or a fraction in lowest terms."""
        return self.fraction_of(field, self.next(field))

    def fraction_of(self, field: str, found: str) -> Fraction:
        """A word, or a part of it, as such a number."""
        number = fraction_of(found)
        if number is None:
            raise self.fault(field, found, "a number in lowest terms")
        return number

    def labelled(self, field: str) -> Fraction:
        """The next two words: a label, and the number of that name."""
        self.word(field)
        return self.fraction(field)

    def end(self) -> None:
        """Refuses another word."""
        if self.rest:
            raise Fault(self.source, "end", f"is missing: {self.rest[-1]!r} follows")


def whole_of(word: str) -> int | None:
    """A whole number in its one spelling, or None."""
    digits = word.removeprefix("-")
    if not (digits.isascii() and digits.isdigit()) or (digits[0] == "0" and word != "0"):
        return None
    return int(word)


def millionths_of(word: str) -> int | None:
    """The millionths of a number with six decimals in its one spelling, or None."""
    whole, point, decimals = word.partition(".")
    units = whole_of(whole.removeprefix("-"))
    if units is None or units < 0 or not point or len(decimals) != 6 or not (decimals.isascii() and decimals.isdigit()):
        return None
    number = 1_000_000 * units + int(decimals)
    return None if whole.startswith("-") and number == 0 else -number if whole.startswith("-") else number


def text_of_millionths(number: int) -> str:
    """A number of millionths with six decimals."""
    units, rest = divmod(abs(number), 1_000_000)
    return f"{'-' if number < 0 else ''}{units}.{rest:06d}"


def fraction_of(word: str) -> Fraction | None:
    """A number in its one spelling, or None."""
    top, bar, bottom = word.partition("/")
    numerator, denominator = whole_of(top), whole_of(bottom) if bar else 1
    if numerator is None or denominator is None or denominator < (2 if bar else 1):
        return None
    number = Fraction(numerator, denominator)
    return number if number.denominator == denominator else None


def are_in_lowest_terms(text: str) -> bool:
    """Whether each fraction behind a space or an `@` is, where each is a `NUMBER`."""
    numbers = np.fromstring(" ".join(TERMS.findall(text)).replace("/", " "), dtype=np.int64, sep=" ")
    return bool(np.all(np.gcd(numbers[::2], numbers[1::2]) == 1))
