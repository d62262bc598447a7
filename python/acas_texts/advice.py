"""What was found where a rule is broken, and what to do: a function for each rule, by its name in the cause of a fault."""
import difflib
from typing import Any, Callable

from acas_texts.fault import Cause, path_of
from acas_texts.keys import LONGEST_NAME, NAME_LETTERS
from acas_texts.model import GREATEST_ENTRIES, GREATEST_WINDOW
from acas_texts.scalars import Moment
from acas_texts.site import Site, shown

Advice = tuple[str, ...]
"""What was found, and what to do; and what is wanted, where the schema does not say it."""
KINDS = {int: "a whole number", str: "a text", list: "a list", dict: "a table"}


def nearest(name: str, names: Any) -> str | None:
    """The name that is spelt most like another one, small and capital letters alike."""
    by_small = {one.lower(): one for one in names}
    found = difflib.get_close_matches(name.lower(), by_small, 1, 0.6)
    return by_small[found[0]] if found else None


def kind_of(value: Any) -> str:
    """What a value is, in words."""
    if isinstance(value, bool):
        return f"the truth value {shown(value)}"
    if isinstance(value, Moment):
        return f"the date or time {value}"
    if isinstance(value, float):
        return f"{shown(value)}, a number that is no whole one"
    if isinstance(value, str):
        return f"the text {shown(value)}"
    return shown(value)


def homes(site: Site, name: str) -> list[str]:
    """The tables of a kind of file that have a key of this name."""
    top = site.at()
    places = [("", ()), *((key, (key,)) for key in top.known), *((key, (key, 0)) for key in top.known)]
    return [f"`{label}`" if label else "the top" for label, steps in places if name in site.at(*steps).known]


def unknown(site: Site, cause: Cause) -> Advice:
    name, known = str(site.steps[-1]), [str(key) for key in cause.allowed]
    found = f"a key {shown(name)} {site.where if len(site.steps) > 1 else 'at the top'}"
    return found, _instead(site, name, known), f"one of the keys {', '.join(known)}"


def _instead(site: Site, name: str, known: list[str]) -> str:
    """What to do with an unknown key."""
    if site.steps == ("pilot", "delay"):
        return "delay is a key of version 2: write version = 2, or take the line out"
    if name in site.inside.known:
        return "values stands in the place of from, to and by: take the one or the others out"
    near, others = nearest(name, known), homes(site, name)
    if others:
        return f"{name} is a key of {' and of '.join(others)}: write it there, or take it out"
    if near is None:
        return "take the line out"
    there = site.at(*site.steps[:-1], near)
    if there.value is not None:
        return f"nearest is {near}, which line {there.line} has: take one of the two out"
    return f"nearest is {near}: write {near} in its place"


def missing(site: Site, cause: Cause) -> Advice:
    name = str(site.steps[-1])
    found = f"no key {name} {site.where}"
    if cause.allowed == (dict,):
        return found, f"write a line [{name}], and below it its keys {', '.join(site.known)}"
    if cause.allowed == (list,) and site.at(*site.steps, 0).known:
        return found, f"write a line [[{name}]] for each, and below it its keys {', '.join(site.at(*site.steps, 0).known)}"
    if len(site.steps) == 1:
        strays = [table for table, value in site.document.items() if isinstance(value, dict) and name in value]
        if strays:
            stray = site.at(strays[0], name)
            return found, f"line {stray.line} has it {stray.where}: move that line to the top, above the first line in brackets"
        return found, f"write {name} = .. above the first line in brackets"
    return found, f"write {name} = .. below that line"


def kind(site: Site, cause: Cause) -> Advice:
    (wanted,), value = cause.allowed, site.value
    found = kind_of(value)
    if wanted is int and type(value) is float and value.is_integer():
        return found, f"write {int(value)}, without a point"
    if wanted is int and type(value) is str and value.lstrip("-").isdigit():
        return found, f"write {value}, without quotes"
    if wanted is list and isinstance(value, int) and not isinstance(value, bool):
        return found, f"write a list: [{value}, {value}] of two, [{value}] of one"
    if wanted is str and not isinstance(value, (dict, list)):
        return found, "write a text, between quotes"
    if wanted is dict:
        name = str(site.steps[0])
        header = f"[[{name}]]" if isinstance(site.steps[-1], int) else f"[{name}]"
        return found, f"write a line {header}, and its keys below it"
    return found, f"write {KINDS[wanted]}"


def name(site: Site, cause: Cause) -> Advice:
    text = site.value
    others = [letter for letter in text if letter not in NAME_LETTERS]
    if not text:
        return "an empty text", "write 1 to 32 letters, digits, `_` and `-`"
    if others:
        return f"{kind_of(text)}, which has {shown(others[0])}", "write ASCII letters, digits, `_` and `-` alone"
    return f"{kind_of(text)} of {len(text)} characters", f"write {LONGEST_NAME} of them at most"


def outside(site: Site, cause: Cause) -> Advice:
    least, greatest = cause.allowed
    found = shown(site.value)
    other = {("closing", "greatest"): ("closing", "least"), ("pilot", "limit"): ("pilot", "pull")}.get(site.steps)
    if site.kind == "boxes" and site.steps[-1] == 1:
        other = (*site.steps[:-1], 0)
    if other and site.value < least and least == site.at(*other).value:
        return found, f"it is less than {path_of(other)}, {least} in line {site.at(*other).line}: raise it to that, or lower the other one"
    return found, f"write a number from {least} to {greatest}"


def count(site: Site, cause: Cause) -> Advice:
    number, least, greatest = cause.allowed
    items = "tables" if site.at(*site.steps, 0).known else "items"
    found = f"{number} {items}"
    other = {"costs": "choices", "intruder_accel": "own_accel"}.get(str(site.steps[-1]))
    if other:
        there = site.at(*site.steps[:-1], other)
        return found, f"{other} in line {there.line} has {least}: give as many"
    if number < least:
        return found, f"add {least - number} at least" if least != greatest else f"add {least - number}"
    return found, f"take {number - greatest} out" if least == greatest else f"take {number - greatest} at least out"


def short_axis(site: Site, cause: Cause) -> Advice:
    return shown(site.value), "give two numbers at least"


def long_axis(site: Site, cause: Cause) -> Advice:
    number, greatest = cause.allowed
    return f"a list of {number}", f"take {number - greatest} at least out: a wider gap does it"


def not_rising(site: Site, cause: Cause) -> Advice:
    place = int(site.steps[-1])
    before = site.inside.value[place - 1]
    return f"{site.value} behind {before}", "write the numbers in order, the least first, and each once"


def repeated_name(site: Site, cause: Cause) -> Advice:
    (first,) = cause.allowed
    line = site.at("advisory", first, "name").line
    return f"{shown(site.value)}, which line {line} has too", "give one of the two another name; its choices too"


def interval(site: Site, cause: Cause) -> Advice:
    table = site.inside.value
    return f"lo = {table['lo']} and hi = {table['hi']}", "lo is the lesser one: exchange them"


def no_choice(site: Site, cause: Cause) -> Advice:
    return "an empty list", f"name one advisory at least; {shown(site.inside.value['name'])} if it is to stay"


def unknown_name(site: Site, cause: Cause) -> Advice:
    found, names = shown(site.value), [str(one) for one in cause.allowed]
    if not names:
        return found, "write the name of an advisory of the model: 1 to 32 ASCII letters, digits, `_` and `-`"
    near = nearest(str(site.value), names)
    return found, f"nearest is {near}: write {near} in its place" if near else "write one of these", f"one of the advisories {', '.join(names)}"


def repeated_choice(site: Site, cause: Cause) -> Advice:
    first = site.inside.value.index(site.value)
    return f"{shown(site.value)}, which stands at {first} too", "name it once, and take its cost out too"


def weights(site: Site, cause: Cause) -> Advice:
    total, greatest = cause.allowed
    found = " + ".join(str(point["weight"]) for point in site.value)
    return f"{found} = {total}", f"divide all weights by a common factor: together they are at most {greatest}"


def window(site: Site, cause: Cause) -> Advice:
    model, needed, allowed = cause.allowed
    horizon, speed, radius = model.horizon, model.closing_least, model.radius
    found = f"horizon {horizon} * closing.least {speed} + 2 * puck.radius {radius} = {needed}"
    ways = [f"closing.least at least {-(-2 * radius // (GREATEST_WINDOW - horizon))} (closing.greatest no less)"]
    ways += [f"puck.radius at most {most}" for most in [(GREATEST_WINDOW - horizon) * speed // 2] if most >= 1]
    ways += [f"horizon at most {most}" for most in [(allowed - 2 * radius) // speed] if most >= 0]
    return f"{found}, over {GREATEST_WINDOW} * closing.least = {allowed}", f"one of these is enough: {'; '.join(ways)}"


def entries(site: Site, cause: Cause) -> Advice:
    model, number, greatest = cause.allowed
    names = ("layers (horizon + 1)", "advisories", "altitudes", "own rates", "intruder rates")
    found = f"{' * '.join(f'{many} {of}' for many, of in zip(model.shape, names))} = {number}"
    most = greatest // (number // model.shape[0]) - 1
    ways = f"a horizon of at most {most}, or fewer numbers on an axis" if most >= 0 else "fewer numbers on an axis, or fewer advisories"
    return found, f"take {ways}: at most {GREATEST_ENTRIES} entries"


def box_window(site: Site, cause: Cause) -> Advice:
    farthest, slowest, radius = cause.allowed
    found = f"range[1] {farthest} + puck.radius {radius} of the model = {farthest + radius}, over {GREATEST_WINDOW} * closing[0] {slowest}"
    ways = [f"closing[0] at least {-(-(farthest + radius) // GREATEST_WINDOW)}"]
    ways += [f"range[1] at most {most}" for most in [GREATEST_WINDOW * slowest - radius] if most >= 0]
    return f"{found} = {GREATEST_WINDOW * slowest}", f"one of these is enough: {'; '.join(ways)}"


def box_rate(site: Site, cause: Cause) -> Advice:
    least, greatest, rate = cause.allowed
    fastest = max(-least, greatest)
    return f"[{least}, {greatest}]", f"write rates from -{rate} to {rate}, or give the intruder a rate of at least {fastest} among the words"


RULES: dict[str, Callable[[Site, Cause], Advice]] = {
    rule.__name__: rule
    for rule in (
        unknown, missing, kind, name, outside, count, short_axis, long_axis, not_rising, repeated_name, interval, no_choice,
        unknown_name, repeated_choice, weights, window, entries, box_window, box_rate,
    )
}
"""The rules of models, boxes and encounters, and of the keys of a study."""
