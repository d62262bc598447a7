"""The numbers, the truth values, the dates and the times of TOML 1.1."""
import datetime
import re

RADICES = {"0x": (16, "0-9A-Fa-f"), "0o": (8, "0-7"), "0b": (2, "01")}
# The form of a number of any size.
DIGITS = "[0-9](?:_?[0-9])*"
NUMBER = re.compile(f"[+-]?(?:0|[1-9](?:_?[0-9])*)(?:\\.{DIGITS})?(?:[eE][+-]?{DIGITS})?|0x[0-9A-Fa-f_]+|0o[0-7_]+|0b[01_]+")
DECIMAL = re.compile(r"(?:0|[1-9][0-9]*)(\.[0-9]+)?([eE][+-]?[0-9]+)?")
DATE = r"(?P<date>[0-9]{4}-[0-9]{2}-[0-9]{2})"
TIME = r"(?P<hour>[0-9]{2}):(?P<minute>[0-9]{2})(?::(?P<second>[0-9]{2})(?:\.[0-9]+)?)?"
OFFSET = r"(?:[Zz]|[+-](?P<hours>[0-9]{2}):(?P<minutes>[0-9]{2}))"
MOMENT = re.compile(f"{DATE}(?:[Tt ]{TIME}{OFFSET}?)?")
TIME_OF_DAY = re.compile(TIME)


class Moment(str):
    """A date, a time or both, as it is written."""


def matches(pattern, word):
    return re.fullmatch(pattern, word, re.ASCII) is not None


def whole_of(digits, radix, is_negative):
    """The whole number of these digits where 64 bits with a sign hold it, or None."""
    digits = digits.lstrip("0") or "0"
    number = int(digits, radix) if len(digits) <= 64 else 2**64
    if is_negative:
        number = -number
    return number if -(2**63) <= number < 2**63 else None


def number_of(word):
    """The number that a word writes, or None."""
    radix, digits = RADICES.get(word[:2], (10, "0-9"))
    if re.search(f"(?<![{digits}])_|_(?![{digits}])", word):
        return None
    word = word.replace("_", "")
    if radix != 10:
        return whole_of(word[2:], radix, False) if matches(f"[{digits}]+", word[2:]) else None
    is_negative, size = word[:1] == "-", word[1:] if word[:1] in ("-", "+") else word
    if size in ("inf", "nan"):
        return float(word)
    found = DECIMAL.fullmatch(size)
    if not found:
        return None
    if found[1] is None and found[2] is None:
        return whole_of(size, 10, is_negative)
    number = float(word)
    return number if abs(number) != float("inf") else None


def is_time(found):
    """Whether the numbers of a time are in their ranges; a minute may have a leap second."""
    second, offset = found["second"] or "0", found.groupdict()
    hours, minutes = offset.get("hours") or "0", offset.get("minutes") or "0"
    return int(found["hour"]) < 24 and int(found["minute"]) < 60 and int(second) < 61 and int(hours) < 24 and int(minutes) < 60


def is_date(text):
    """Whether there is such a day. The year 0 has the days of the year 400."""
    year, month, day = (int(part) for part in text.split("-"))
    try:
        datetime.date(year or 400, month, day)
    except ValueError:
        return False
    return True


def moment_of(word):
    """The date, the time or both that a word writes, or None."""
    if word[2:3] == ":":
        found = TIME_OF_DAY.fullmatch(word)
        return Moment(word) if found and is_time(found) else None
    found = MOMENT.fullmatch(word)
    if not found or not is_date(found["date"]) or (found["hour"] and not is_time(found)):
        return None
    return Moment(word)


def value_of(word):
    """The value that a word writes, or None."""
    if word in ("true", "false"):
        return word == "true"
    if re.match("[0-9]+[-:]", word, re.ASCII):
        return moment_of(word)
    return number_of(word)
