"""What the program takes for a TOML document, as a reader of its own that can say on which line a text is none, and where each key
and each item stands.

It is TOML 1.1 with the program's limits: at most 80 arrays and inline tables within one another and 80 parts in a key, whole
numbers of 64 bits, floats that are finite. Python's tomllib reads TOML 1.0 and has other limits. `schema/test-texts PROGRAM` and
`schema/test-faults PROGRAM` compare it with the program.
"""
import re
from bisect import bisect_left
from typing import Any

from acas_texts.scalars import NUMBER, matches, value_of

GREATEST_BYTES = 1000000
DEPTH = 80
WORD = re.compile(r"[A-Za-z0-9_+.:-]*")
BARE = re.compile(r"[A-Za-z0-9_-]+")
WHITE = re.compile(r"[ \t]*")
# White space and newlines; and the same with comments.
LINES = re.compile(r"(?:[ \t\n]|\r\n)*")
BLANK = re.compile(r"(?:[ \t\n]|\r\n|#[^\x00-\x08\x0a-\x1f\x7f]*(?=\n|\r|\Z))*")
PLAIN = {'"': re.compile(r'[^\x00-\x08\x0a-\x1f\x7f"\\]+'), "'": re.compile(r"[^\x00-\x08\x0a-\x1f\x7f']+")}
ESCAPES = {"b": "\b", "e": "\x1b", "f": "\f", "n": "\n", "r": "\r", "t": "\t", '"': '"', "\\": "\\"}
HEX_DIGITS = {"x": 2, "u": 4, "U": 8}


class NotToml(Exception):
    """Why bytes are no TOML document, on which line, counted from 1, and what to do there."""

    def __init__(self, line, message, advice=""):
        super().__init__(f"line {line}: {message}")
        self.line = line
        self.message = message
        self.advice = advice


class Table(dict):
    """A table; what made it: a header that passes through it, a dotted key, a header of its own, or a value; and the lines on which it
    and its keys begin."""

    def __init__(self, origin, line=1):
        super().__init__()
        self.origin = origin
        self.line = line
        self.lines = {}


class Array(list):
    """A list, and the lines on which it and its items begin."""

    def __init__(self, line):
        super().__init__()
        self.line = line
        self.lines = []


class Tables(Array):
    """A list of tables that headers in double brackets made."""


class Reader:
    """A text, and the place up to which it is read."""

    def __init__(self, text):
        self.text = text
        self.place = 0
        self.newlines = [found.start() for found in re.finditer("\n", text)]

    def line_of(self, place):
        """The line of a place, counted from 1."""
        return bisect_left(self.newlines, place) + 1

    def fault(self, message, advice, place=None):
        return NotToml(self.line_of(self.place if place is None else place), message, advice)

    def next(self, piece):
        return self.text.startswith(piece, self.place)

    def take(self, piece):
        """Goes past a piece where it is next."""
        if not self.next(piece):
            return False
        self.place += len(piece)
        return True

    def skip(self, pattern):
        """Goes past what a pattern matches, and gives it."""
        found = pattern.match(self.text, self.place)
        if not found:
            return ""
        self.place = found.end()
        return found[0]

    def escape(self, is_multiline):
        """What stands behind a backslash."""
        start = self.place - 1
        if is_multiline:
            self.skip(WHITE)
            if self.next("\n") or self.next("\r\n"):
                self.skip(LINES)
                return ""
            self.place = start + 1
        letter = self.text[self.place : self.place + 1]
        self.place += 1
        if letter in ESCAPES:
            return ESCAPES[letter]
        digits = self.text[self.place : self.place + HEX_DIGITS.get(letter, 0)]
        if letter in HEX_DIGITS and matches(f"[0-9A-Fa-f]{{{HEX_DIGITS[letter]}}}", digits):
            code = int(digits, 16)
            if code < 0xD800 or 0xE000 <= code <= 0x10FFFF:
                self.place += len(digits)
                return chr(code)
        raise self.fault("no such escape", "write a backslash as `\\\\`, or the text between two '", start)

    def closes(self, delimiter):
        """Whether a string of several lines ends here, at a delimiter: three of them do, and up to two before them are text."""
        count = len(re.compile(delimiter + "*").match(self.text, self.place)[0])
        if count > 5:
            raise self.fault("too many quotes", "three end the text; two more at most may stand before them")
        self.place += 3 if count == 3 else 1
        return count == 3

    def string(self, may_be_multiline):
        start, delimiter = self.place, self.text[self.place]
        is_multiline = may_be_multiline and self.take(3 * delimiter)
        if is_multiline:
            _ = self.take("\n") or self.take("\r\n")
        else:
            self.take(delimiter)
        parts = []
        while True:
            parts.append(self.skip(PLAIN[delimiter]))
            if self.next(delimiter):
                if not is_multiline:
                    self.take(delimiter)
                    return "".join(parts)
                if self.closes(delimiter):
                    return "".join(parts)
                parts.append(delimiter)
            elif delimiter == '"' and self.take("\\"):
                parts.append(self.escape(is_multiline))
            elif is_multiline and (self.next("\n") or self.next("\r\n")):
                parts.append(self.text[self.place])
                self.place += 1
            elif self.place == len(self.text) or self.next("\n") or self.next("\r\n"):
                raise self.fault("a text is not closed", f"end it with {delimiter * (3 if is_multiline else 1)}", start)
            else:
                raise self.fault("a character that no text may have", "take it out; an escape such as \\u0007 stands for it between two \"")

    def key(self):
        """The parts of a key, and the white space behind it."""
        start, parts = self.place, []
        while True:
            if self.next('"') or self.next("'"):
                parts.append(self.string(False))
            else:
                part = self.skip(BARE)
                if not part:
                    raise self.fault("a key is wanted", "write a name of letters, digits, `_` and `-`, or one between quotes")
                parts.append(part)
            self.skip(WHITE)
            if not self.take("."):
                return parts
            if len(parts) == DEPTH:
                raise self.fault("a key of more than 80 parts", "write fewer", start)
            self.skip(WHITE)

    def pair(self, depth):
        """A key with its value, and the place of the key."""
        start, parts = self.place, self.key()
        if not self.take("="):
            raise self.fault("`=` is wanted behind a key", "write KEY = VALUE, or # before a remark")
        self.skip(WHITE)
        return parts, self.value(depth), start

    def scalar(self):
        start = self.place
        if self.next('"') or self.next("'"):
            return self.string(True)
        word = self.skip(WORD)
        if re.match(" [0-9]", self.text[self.place : self.place + 2], re.ASCII):
            self.place += 1
            word += " " + self.skip(WORD)
        value = value_of(word) if word else None
        if value is not None:
            return value
        if not word:
            raise self.fault("a value is wanted", "write it in the line of its key: a number, a text between quotes, a list in [ ]", start)
        if NUMBER.fullmatch(word):
            raise self.fault(f"`{word[:40]}` is beyond 64 bits", "write a smaller number", start)
        raise self.fault(f"`{word[:40]}` is no value", "put a text between quotes; a number has no unit and no leading zeros", start)

    def value(self, depth):
        """A value with so many arrays and inline tables within one another."""
        is_list = self.next("[")
        if not is_list and not self.next("{"):
            return self.scalar()
        if depth == 0:
            raise self.fault("more than 80 arrays and inline tables within one another", "nest them less")
        start, closing = self.place, "]" if is_list else "}"
        found = Array(self.line_of(start)) if is_list else Table("dotted", self.line_of(start))
        self.place += 1
        while True:
            self.skip(BLANK)
            if self.take(closing):
                return found if is_list else closed(found)
            if self.place == len(self.text):
                raise self.fault(f"`{closing}` is wanted for what is opened here", "close it", start)
            if is_list:
                found.lines.append(self.line_of(self.place))
                found.append(self.value(depth - 1))
            else:
                parts, value, place = self.pair(depth - 1)
                self.put(found, parts, value, place)
            self.skip(BLANK)
            if not self.take(",") and not self.next(closing):
                raise self.fault(f"`,` or `{closing}` is wanted", "put a comma between two of them")

    def put(self, table, parts, value, place):
        """Puts a value at a dotted key, which passes through no table that a header or a value made."""
        for part in parts[:-1]:
            if part not in table:
                table[part] = Table("dotted", self.line_of(place))
                table.lines[part] = self.line_of(place)
            line, table = table.lines[part], table[part]
            if not isinstance(table, Table) or table.origin not in ("implicit", "dotted"):
                raise self.fault(f"`{part}` cannot be added to", f"write its keys where it is made, in line {line}", place)
            table.origin = "dotted"
        if parts[-1] in table:
            raise self.twice(table, parts[-1], place)
        table[parts[-1]] = value
        table.lines[parts[-1]] = self.line_of(place)

    def twice(self, table, key, place):
        advice = f"line {table.lines[key]} has it too: take one of the two out"
        return self.fault(f"`{key}` is there twice", advice, place)

    def through(self, table, parts, place):
        """The table to which a header's parts lead; it passes through tables, and into the last element of a list of them."""
        for part in parts:
            if part not in table:
                table[part] = Table("implicit", self.line_of(place))
                table.lines[part] = self.line_of(place)
            line, table = table.lines[part], table[part]
            if isinstance(table, Tables):
                table = table[-1]
            elif not isinstance(table, Table) or table.origin == "value":
                raise self.fault(f"`{part}` is no table of a header", f"write its keys where it is made, in line {line}", place)
        return table

    def header(self, document):
        """The table of a header."""
        place, is_list = self.place, self.take("[[")
        if not is_list:
            self.take("[")
        self.skip(WHITE)
        parts = self.key()
        if not self.take("]]" if is_list else "]"):
            raise self.fault(f"`{']]' if is_list else ']'}` is wanted behind a header", "close it")
        table, last = self.through(document, parts[:-1], place), parts[-1]
        known = table.get(last)
        line = self.line_of(place)
        if is_list and (last not in table or isinstance(known, Tables)):
            table.setdefault(last, Tables(line)).append(Table("header", line))
            table[last].lines.append(line)
            table.lines.setdefault(last, line)
            return table[last][-1]
        if not is_list and last not in table:
            table[last], table.lines[last] = Table("header", line), line
            return table[last]
        if not is_list and isinstance(known, Table) and known.origin == "implicit":
            known.origin, known.line = "header", line
            return known
        raise self.twice(table, last, place)

    def document(self):
        document = table = Table("header")
        while True:
            self.skip(BLANK)
            if self.place == len(self.text):
                return document
            if self.next("["):
                table = self.header(document)
            else:
                parts, value, place = self.pair(DEPTH)
                self.put(table, parts, value, place)
            self.skip(WHITE)
            if self.place < len(self.text) and not any(self.next(piece) for piece in ("#", "\n", "\r")):
                raise self.fault("the line goes on where it is to end", "begin another line, or write # before a remark")


def closed(table):
    """An inline table, to which nothing can be added, nor to the tables in it."""
    table.origin = "value"
    for inner in table.values():
        if isinstance(inner, Table) and inner.origin != "value":
            closed(inner)
    return table


def read(content: bytes) -> Table:
    """The document that bytes are, a Table; NotToml where they are none."""
    try:
        text = content.decode("utf-8")
    except UnicodeDecodeError as error:
        line = content.count(b"\n", 0, error.start) + 1
        raise NotToml(line, "not UTF-8", "store the file in UTF-8, or take the character out") from None
    return Reader(text.removeprefix("\ufeff")).document()


def plain(value: Any) -> Any:
    """A value without what is known of its lines: tables as dict, lists as list."""
    if isinstance(value, dict):
        return {key: plain(item) for key, item in value.items()}
    return [plain(item) for item in value] if isinstance(value, list) else value
