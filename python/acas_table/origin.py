"""Of which model and table a printed text is, by the file that `python/acas_run` writes beside it."""
import os
import warnings
from pathlib import Path

from acas_origin import Origin, beside, digest_of, origin_of
from acas_texts import Fault
from acas_table.model import Model
from acas_table.replay import Replay, check_replay, read_replay
from acas_table.report import Progress, Report, numbered, read_report
from acas_table.risk import Risk, gridded, read_risk
from acas_table.safeable import Safeable, clear_cells, read_safeable
from acas_table.table import Table


def check_origin(path: str | os.PathLike[str], model: Model, table: Table | None = None) -> Origin | None:
    """What the file beside a report, a replay or a risk says of it, once that is found to be of this text, this model and this table.

    Without a table, that one is not looked at. None where there is no such file: then nothing tells of which model the text is.
    """
    file = beside(path)
    if not file.exists():
        return None
    try:
        origin = origin_of(file.read_text(encoding="utf-8"))
    except ValueError as error:
        raise Fault(str(file), "origin", f"is none: {error}") from None
    if digest_of(path) != origin.output:
        raise Fault(str(path), "text", f"is not the one of {file}")
    _check(path, origin, "model", model.digest.hex(), model.source)
    if table is not None:
        _check(path, origin, "table", digest_of(table.source), table.source)
    return origin


def _check(path: str | os.PathLike[str], origin: Origin, kind: str, found: str, source: str) -> None:
    said = origin.files.get(kind)
    if said != found:
        words = " ".join(origin.words)
        raise Fault(str(path), f"other {kind}", f"{said or 'none'} found {found} of {source}: {beside(Path(path).name)} has it from acas {words}")


def read_report_of(path: str | os.PathLike[str], model: Model, table: Table | None = None, progress: Progress | None = None) -> Report:
    """The report of a file, which has to be one of this model, and of this table where one is given.

    Its lines are looked at as by `numbered`, and what is written beside it as by `check_origin`: where nothing is, they are all that
    tells, and a `UserWarning` says so.
    """
    _warn(path, check_origin(path, model, table))
    report = read_report(Path(path).read_text(encoding="utf-8"), str(path), progress)
    numbered(report, model)
    return report


def read_replay_of(path: str | os.PathLike[str], model: Model, table: Table) -> Replay:
    """The replay of a file, which has to be one of this model and this table, as `read_report_of` reads a report."""
    _warn(path, check_origin(path, model, table))
    replay = read_replay(Path(path).read_text(encoding="utf-8"), str(path))
    check_replay(replay, model, table)
    return replay


def read_risk_of(path: str | os.PathLike[str], model: Model, table: Table | None = None) -> Risk:
    """The risk of a file, which has to be one of this model, and of this table where one is given, as `read_report_of` reads a report."""
    _warn(path, check_origin(path, model, table))
    risk = read_risk(Path(path).read_text(encoding="utf-8"), str(path))
    gridded(risk, model)
    return risk


def read_safeable_of(path: str | os.PathLike[str], model: Model, table: Table | None = None) -> Safeable:
    """The report on clear cells of a file, which has to be one of this model, and of this table where one is given, as `read_report_of`
    reads a report."""
    _warn(path, check_origin(path, model, table))
    safeable = read_safeable(Path(path).read_text(encoding="utf-8"), str(path))
    clear_cells(safeable, model)
    return safeable


def _warn(path: str | os.PathLike[str], origin: Origin | None) -> None:
    if origin is None:
        warnings.warn(f"{path}: no {beside(Path(path).name)} says of which model and table it is", stacklevel=3)
