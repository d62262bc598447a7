"""What was found where a rule of a study's file is broken, and what to do, as `acas_texts.advice` says it of the other files."""
from typing import Any

from acas_study.description import MOST_MODELS, NO_NAME
from acas_texts.advice import RULES, Advice, nearest
from acas_texts.fault import Cause, path_of
from acas_texts.site import Site, shown


def absent_model(site: Site, cause: Cause) -> Advice:
    (path,) = cause.allowed
    return f"{shown(site.value)}, which is {path}", "write the name of a model's file, as it is called from the folder of this file"


def nothing_to_audit(site: Site, cause: Cause) -> Advice:
    return "horizon = 0", "a model of a study has a horizon of at least 1: with no second to go there is nothing to audit"


def many_models(site: Site, cause: Cause) -> Advice:
    return f"{' * '.join(map(str, cause.allowed))} models", f"vary less: there are at most {MOST_MODELS}"


def twice(site: Site, cause: Cause) -> Advice:
    of_what, name = cause.allowed
    if of_what == "column":
        return f"two columns {name}", "give each `vary` a name of its own, which is none of the other columns"
    return f"two models {name}", "take out the value that is there twice; a value that is no whole number or name counts by its place"


def model_name(site: Site, cause: Cause) -> Advice:
    return f"a name that {NO_NAME}", "shorten the names or the values"


def no_path(site: Site, cause: Cause) -> Advice:
    return shown(site.value), "write it as pilot.pull, advisory[1].costs[2] or advisory[].costs[2]"


def paths_in(value: Any, steps: tuple[str | int, ...] = ()) -> list[str]:
    """The paths of all that is in a model."""
    items = value.items() if isinstance(value, dict) else enumerate(value) if isinstance(value, list) else []
    inner = [path for step, item in items for path in paths_in(item, (*steps, step))]
    return [path_of(steps), *inner] if steps else inner


def absent_key(site: Site, cause: Cause) -> Advice:
    path, document = cause.allowed
    near = nearest(path.replace("[]", "[0]"), paths_in(document))
    return shown(site.value), f"the model has no such key; nearest is {near}" if near else "the model has no such key: write one that it has"


def varied_model(site: Site, cause: Cause) -> Advice:
    name, fault = cause.allowed
    near = nearest(str(fault.cause.steps[-1]), fault.cause.allowed) if fault.cause.rule == "unknown" else None
    advice = f"nearest is {near}" if near else "change the value, or what else of the model it does not go with"
    return f"the model {name} is refused: {fault.words}", advice


def column(site: Site, cause: Cause) -> Advice:
    near = nearest(str(site.value), cause.allowed)
    return shown(site.value), f"nearest is {near}" if near else f"write one of {', '.join(cause.allowed)}"


RULES_OF_STUDIES = RULES | {
    rule.__name__: rule
    for rule in (absent_model, nothing_to_audit, many_models, twice, model_name, no_path, absent_key, varied_model, column)
}
"""The rules of all files."""
