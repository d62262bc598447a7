"""What a study is made of: a folder of models, or one model with values for some keys."""
import copy
import itertools
import math
import re
from dataclasses import dataclass
from pathlib import Path
from typing import Any, Sequence

from acas_study.columns import BEHIND, COUNTED
from acas_study.texts import set_key, text_of
from acas_texts import Cause, Fault
from acas_texts.document import content_of, document_of
from acas_texts.keys import Keys
from acas_texts.model import model_text_of
from acas_texts.toml import plain

MOST_MODELS = 10_000
NO_NAME = "is none of up to 200 letters, digits, `_`, `-` and points"
FILE_NAME = re.compile(r"[A-Za-z0-9_][A-Za-z0-9_.-]{0,199}")


@dataclass(frozen=True)
class Varied:
    """One model of a study."""

    name: str
    text: bytes
    values: tuple[str, ...]
    """What is varied, by the names of `Study.varied`."""


@dataclass(frozen=True)
class Study:
    """The models of a study, and which columns of its table the picture of the trade shows."""

    varied: tuple[str, ...]
    """The names of what is varied."""
    models: tuple[Varied, ...]
    across: str
    up: str


@dataclass(frozen=True)
class Vary:
    """Keys that are set to the same value, one value after another."""

    name: str
    keys: tuple[str, ...]
    values: tuple[Any, ...]

    def label(self, place: int) -> str:
        """A value in a name: itself where it is a whole number or a name, and else its place."""
        value = self.values[place]
        return str(value) if isinstance(value, (int, str)) and FILE_NAME.fullmatch(f"_{value}") else f"no{place}"


ACROSS, UP = "advised", "reported"


def read_study(path: Path) -> Study:
    """The study of a folder or of a file. Each of its models is looked at by every rule of a model."""
    return _study_of_folder(path) if path.is_dir() else _study_of_file(path)


def _study_of_folder(folder: Path) -> Study:
    models = []
    for file in sorted(folder.glob("*.toml")):
        text = file.read_bytes()
        _check_model(text, str(file))
        if not FILE_NAME.fullmatch(file.stem):
            raise Fault(str(file), "name", NO_NAME)
        models.append(Varied(file.stem, text, ()))
    if not models:
        raise Fault(str(folder), "models", "are missing: no file of the folder ends in .toml")
    return Study((), tuple(models), ACROSS, UP)


def _study_of_file(path: Path) -> Study:
    source = str(path)
    keys = Keys(source, document_of(content_of(source), source))
    keys.only("version", "model", "vary", "trade")
    keys.number("version", 1, 1)
    base = path.parent / keys.value("model", str)
    content = _model_in(base)
    varies = tuple(_vary(table) for table in keys.tables("vary", 1, 8))
    names = tuple(vary.name for vary in varies)
    _refuse_twice(source, ["model", *BEHIND, *names], "column")
    count = math.prod(len(vary.values) for vary in varies)
    if count > MOST_MODELS:
        cause = Cause("many_models", ("vary",), tuple(len(vary.values) for vary in varies))
        raise Fault(source, "key vary", f"makes {count} models, over {MOST_MODELS}", cause)
    document = plain(document_of(content, str(base)))
    places = itertools.product(*(range(len(vary.values)) for vary in varies))
    trade = keys.table("trade", "across", "up") if "trade" in keys.data else None
    across, up = (trade.value("across", str), trade.value("up", str)) if trade else (ACROSS, UP)
    models = tuple(_varied(document, varies, chosen, source) for chosen in places)
    _refuse_twice(source, [model.name for model in models], "model")
    return Study(names, models, across, up)


def _model_in(path: Path) -> bytes:
    """The bytes of the model that is varied."""
    try:
        content = content_of(str(path))
    except OSError as error:
        raise Fault(str(path), "cannot be used:", error.strerror or str(error), Cause("absent_model", ("model",), (str(path),))) from None
    _check_model(content, str(path))
    return content


def _refuse_twice(source: str, names: list[str], of_what: str) -> None:
    """Refuses the first name that stands in a list before."""
    for place, name in enumerate(names):
        if name in names[:place]:
            raise Fault(source, "key vary", f"makes two {of_what}s of the name {name}", Cause("twice", ("vary",), (of_what, name)))


def check_columns(study: Study, source: str) -> None:
    """Refuses a trade over what is no column of numbers."""
    for key, column in (("across", study.across), ("up", study.up)):
        if column in study.varied:
            numbers = [model.values[study.varied.index(column)] for model in study.models]
            if all(number.lstrip("-").isdigit() for number in numbers):
                continue
        if column not in COUNTED:
            problem = f"{column} is no column of numbers; those are {', '.join(COUNTED)}"
            raise Fault(source, f"key trade.{key}", problem, Cause("column", ("trade", key), (*COUNTED, *study.varied)))


def _vary(keys: Keys) -> Vary:
    keys.only("name", "keys", "values", "from", "to", "by")
    name, paths = keys.name("name"), keys.value("keys", list)
    keys.count("keys", len(paths), 1, 100)
    for path in paths:
        if not isinstance(path, str):
            raise keys.fault("kind", "wrong kind", "keys", allowed=(str,))
    if "values" in keys.data:
        keys.only("name", "keys", "values")
        values: Sequence[Any] = keys.value("values", list)
    else:
        first, last = keys.number("from", -(10**9), 10**9), keys.number("to", -(10**9), 10**9)
        values = range(first, last + 1, keys.number("by", 1, 10**9))
    keys.count("values", len(values), 1, MOST_MODELS)
    return Vary(name, tuple(paths), tuple(values))


def _varied(document: dict[str, Any], varies: tuple[Vary, ...], places: tuple[int, ...], source: str) -> Varied:
    changed = copy.deepcopy(document)
    labels = tuple(vary.label(place) for vary, place in zip(varies, places))
    for number, (vary, place) in enumerate(zip(varies, places)):
        for at, path in enumerate(vary.keys):
            set_key(changed, path, vary.values[place], source, ("vary", number, "keys", at))
    name = "-".join(f"{vary.name}-{label}" for vary, label in zip(varies, labels))
    if not FILE_NAME.fullmatch(name):
        raise Fault(source, f"name {name}", NO_NAME, Cause("model_name", ("vary",)))
    text = text_of(changed).encode()
    try:
        _check_model(text, f"{source} {name}")
    except Fault as fault:
        cause = Cause("varied_model", _vary_of(fault, varies), (name, fault))
        raise Fault(fault.source, fault.field, fault.problem, cause) from None
    return Varied(name, text, labels)


def _vary_of(fault: Fault, varies: tuple[Vary, ...]) -> tuple[str | int, ...]:
    """The way to the key of a study that sets the key of a fault, or to all that is varied."""
    steps = fault.cause.steps if fault.cause else ()
    for number, vary in enumerate(varies):
        for at, path in enumerate(vary.keys):
            if path.split(".")[-1].split("[")[0] in steps:
                return ("vary", number, "keys", at)
    return ("vary",)


def _check_model(text: bytes, source: str) -> None:
    """Refuses what is no model, and one that has nothing to audit."""
    if model_text_of(text, source).horizon == 0:
        raise Fault(source, "key horizon", "is 0: there is nothing to audit", Cause("nothing_to_audit", ("horizon",)))
