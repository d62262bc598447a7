"""The command `acas_plot`, once its words are found to be such."""
import argparse
import sys
from pathlib import Path

from matplotlib.figure import Figure

from acas_pictures.canvas import check_ending, resize, save
from acas_pictures.cost import draw_cost
from acas_pictures.difference import draw_difference
from acas_pictures.encounter import draw_replay
from acas_pictures.policy import draw_policy
from acas_pictures.progress import Progress
from acas_pictures.risk import draw_risk
from acas_pictures.safeable import draw_safeable
from acas_pictures.separation import draw_separation
from acas_pictures.slices import layer_of, name_of, slice_of
from acas_pictures.verdicts import cell_slice, draw_verdicts
from acas_pictures.witness import draw_witness, title_of
from acas_origin import beside
from acas_table import (
    BoxLine, Fault, Manoeuvre, Model, Table, check_flight, check_origin, check_replay, read_line, read_model, read_replay, read_report,
    read_risk, read_safeable, read_separations, read_table,
)
from acas_table.comparison import check_grids
from acas_table.report import check_line

WORDS = argparse.Namespace
CONTACT = "How can it come to contact?"


def policy(words: WORDS) -> Figure:
    """The picture of `acas_plot policy`."""
    model = read_model(words.model)
    return draw_policy(model, read_table(words.table, model), slice_of(model, words.present, words.own, words.intruder), words.title)


def cost(words: WORDS) -> Figure:
    """The picture of `acas_plot cost`."""
    model = read_model(words.model)
    return draw_cost(model, read_table(words.table, model), slice_of(model, words.present, words.own, words.intruder), words.title)


def difference(words: WORDS) -> Figure:
    """The picture of `acas_plot difference`."""
    model = read_model(words.model)
    other = model if words.other_model is None else read_model(words.other_model)
    check_grids(model, other, model.source, other.source)
    part = layer_of(model, words.layer, words.present, words.intruder)
    return draw_difference(model, read_table(words.table, model), read_table(words.other, other), part, words.title)


def verdicts(words: WORDS) -> Figure:
    """The picture of `acas_plot verdicts`."""
    model = read_model(words.model)
    part = cell_slice(model, words.present, words.own, words.intruder)
    report = read_report(text_of(words.report), words.report, Progress(words.report))
    table = table_of(words, model)
    words.note = note_of(words.report, model, table)
    return draw_verdicts(model, report, part, words.title, table)


def risk(words: WORDS) -> Figure:
    """The picture of `acas_plot risk`."""
    model = read_model(words.model)
    part = slice_of(model, words.present, words.own, words.intruder)
    found = read_risk(text_of(words.risk), words.risk)
    words.note = note_of(words.risk, model, table_of(words, model))
    return draw_risk(model, found, part, words.title)


def safeable(words: WORDS) -> Figure:
    """The picture of `acas_plot safeable`."""
    model = read_model(words.model)
    part = cell_slice(model, words.present, words.own, words.intruder)
    report = read_report(text_of(words.report), words.report, Progress(words.report))
    found = read_safeable(text_of(words.safeable), words.safeable, Progress(words.safeable))
    table = table_of(words, model)
    notes = [note_of(name, model, table) for name in (words.report, words.safeable)]
    words.note = next(filter(None, notes), "")
    return draw_safeable(model, report, found, part, words.title)


def witness(words: WORDS) -> Figure:
    """The picture of `acas_plot witness`."""
    model = read_model(words.model)
    line = read_line(sys.stdin.read() if words.line == "-" else words.line)
    if isinstance(line, BoxLine):
        return _box_witness(model, line, words)
    if words.advisory is not None:
        raise Fault("line", "advice", f"is {line.advice}: --advisory is for the lines of acas regions and acas manoeuvre")
    _refuse_against(words)
    advisory = check_line(model, line, "line")
    return draw_witness(model, advisory, line.flight, f"{CONTACT}\n{title_of(model, line)}" if words.title is None else words.title)


def _box_witness(model: Model, line: BoxLine, words: WORDS) -> Figure:
    name = words.advisory
    if name is None:
        raise Fault("line", "advisory", "is not said by a line of acas regions or acas manoeuvre: give --advisory NAME")
    advisory = model.advisories[model.number(name)]
    if line.flight is None:
        raise Fault("line", "verdict", "is certified, and no flight is printed")
    if line.flight.against is None:
        _refuse_against(words)
    check_flight(model, advisory, line.flight, "line", Manoeuvre(*words.against or ()))
    title = f"{CONTACT}\n{name_of(model)}: box {line.box} under {name}"
    if words.against is not None:
        title += ", an intruder of up to {} ft/min per s and {} ft/min".format(*words.against)
    return draw_witness(model, advisory, line.flight, title if words.title is None else words.title)


def _refuse_against(words: WORDS) -> None:
    if words.against is not None:
        raise Fault("line", "against", "is not there: --against is for the lines of acas manoeuvre")


def separation(words: WORDS) -> Figure:
    """The picture of `acas_plot separation`."""
    model = read_model(words.model)
    found = read_separations(text_of(words.separations), words.separations)
    words.note = note_of(words.separations, model, None, "study/separation")
    return draw_separation(model, found, words.box, words.title)


def replay(words: WORDS) -> Figure:
    """The picture of `acas_plot replay`."""
    model = read_model(words.model)
    table = read_table(words.table, model)
    found = read_replay(text_of(words.replay), words.replay)
    words.note = note_of(words.replay, model, table)
    return draw_replay(model, found, check_replay(found, model, table), words.title)


def table_of(words: WORDS, model: Model) -> Table | None:
    """The table that a text is to be of, where one is named."""
    return read_table(words.table, model) if words.table is not None else None


def note_of(name: str, model: Model, table: Table | None, writer: str = "acas_run") -> str:
    """What is to be said of a text that nothing ties to its model; a fault where the file beside it says that it is of another."""
    if name == "-":
        return "input: nothing says of which model and table it is"
    if check_origin(name, model, table) is None:
        return f"{name}: no {beside(Path(name).name)} says of which model and table it is: {writer} writes one"
    return ""


def text_of(name: str) -> str:
    """The text of a file, or for `-` of the input."""
    content = sys.stdin.buffer.read() if name == "-" else Path(name).read_bytes()
    try:
        return content.decode("utf-8")
    except UnicodeDecodeError:
        raise Fault(name, "text", "is not UTF-8") from None


DRAWN = {
    "policy": policy, "cost": cost, "difference": difference, "verdicts": verdicts, "risk": risk, "safeable": safeable, "witness": witness,
    "separation": separation, "replay": replay,
}


def main(chosen: WORDS) -> int:
    """Draws the picture that the words choose, or says in one line what is wrong. The exit code is 0 or 1."""
    chosen.note = ""
    try:
        check_ending(Path(chosen.picture))
        figure = DRAWN[chosen.command](chosen)
        resize(figure, chosen.size, chosen.dpi)
        save(figure, Path(chosen.picture))
    except Fault as fault:
        print(f"acas_plot: {fault}", file=sys.stderr)
        return 1
    except OSError as error:
        print(f"acas_plot: {error.filename}: cannot be read: {error.strerror}", file=sys.stderr)
        return 1
    if chosen.note:
        print(f"acas_plot: {chosen.note}", file=sys.stderr)
    return 0
