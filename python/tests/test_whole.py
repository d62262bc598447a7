"""Reports without their certified lines, beside the table that they are of."""
import dataclasses

import numpy as np
import pytest
from conftest import EXAMPLES

from acas_pictures.verdicts import cell_slice, draw_verdicts
from acas_table import Fault, numbered, read_model, read_report, read_table, whole_lines
from test_report import CERTIFIED, REPORTED, WHOLE

SHORT = REPORTED + "certified 1 reported 1 clear 2\n"


@pytest.fixture
def model():
    return read_model(EXAMPLES / "c.toml")


@pytest.fixture
def table(model):
    return read_table(EXAMPLES / "c2.acxt", model)


def pixels(figure) -> np.ndarray:
    figure.canvas.draw()
    return np.asarray(figure.canvas.buffer_rgba())


def test_same_lines_and_the_same_picture(model, table):
    """The one advised cell has climb at one corner and descend at another; descend is reported, and so climb is certified."""
    whole, short = read_report(WHOLE), read_report(SHORT)
    assert CERTIFIED + SHORT == WHOLE and not short.is_whole
    assert whole_lines(short, model, table).tolist() == numbered(whole, model).tolist() == [(0, 0, 0, 0, 0, 1, False), (0, 0, 0, 0, 0, 2, True)]
    part = cell_slice(model, "clear", 0, -60)
    assert (pixels(draw_verdicts(model, short, part, None, table)) == pixels(draw_verdicts(model, whole, part))).all()


def test_lines_of_an_example(acas):
    """Of examples/d.toml the table alone tells the 40 lines of its audit."""
    path = EXAMPLES / "d.toml"
    model = read_model(path)
    table = read_table(acas.table(path), model)
    lines = numbered(read_report(acas.output("audit", path, table.source)), model)
    for name, places in (("second", [25, 29]), ("present", [0, 3]), ("altitude", [1, 2])):
        assert [lines[name].min(), lines[name].max()] == places
    none = read_report("certified 40 reported 0 clear 680\n")
    found = whole_lines(none, model, table)
    found["reported"] = True
    assert found.tolist() == lines.tolist()


@pytest.mark.parametrize(("text", "fault"), [
    (REPORTED + "certified 2 reported 1 clear 2\n", "report: counts say certified 2, and .*c2.acxt has 1$"),
    (REPORTED + "certified 1 reported 1 clear 1\n", "report: counts say clear 1, and .*c2.acxt has 2$"),
    ("certified 1 reported 0 clear 2\n", "report: counts say certified 1, and .*c2.acxt has 2$"),
    (SHORT.replace("cell 0 clear", "cell 0 climb"), "report line 1: advice descend is tabled at no corner of the cell in .*c2.acxt$"),
])
def test_reports_that_are_none_of_the_table(model, table, text, fault):
    with pytest.raises(Fault, match=fault):
        whole_lines(read_report(text), model, table)


def test_without_a_table_it_is_not_known(model):
    with pytest.raises(Fault, match="give the report without --reported, or its table too"):
        whole_lines(read_report(SHORT), model)


def test_advices_of_all_corners(model, table):
    """Each of the eight corners counts, and layer 0 none."""
    for corner in range(8):
        layers = table.layers.copy()
        layers["advice"][1] = 0
        layers["advice"][(1, 2, *np.unravel_index(corner, (2, 2, 2)))] = 1
        found = whole_lines(read_report("certified 1 reported 0 clear 2\n"), model, dataclasses.replace(table, layers=layers))
        assert found.tolist() == [(0, 2, 0, 0, 0, 1, False)]
