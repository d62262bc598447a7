"""Two tables of one grid beside each other, and what is said of two that are not."""
import dataclasses

import numpy as np
import pytest
from conftest import EXAMPLES
from look import colour_at, legend_of

from acas_pictures.colours import CLEAR, DOWN, UP
from acas_pictures.difference import draw_difference
from acas_pictures.slices import layer_of
from acas_table import Fault, read_model, read_table

MODEL = EXAMPLES / "c.toml"
COLOURS = {"clear": CLEAR, "climb": UP[1], "descend": DOWN[1]}


@pytest.fixture
def model():
    return read_model(MODEL)


def test_difference_of_known_entries(model):
    """At -1000 ft and an own rate of 0 the other table has clear in the place of climb, and costs 2 units less; at -170 ft and 60 ft/min it
    costs half a unit more, and advises the same."""
    table = read_table(EXAMPLES / "c.acxt", model)
    layers = table.layers.copy()
    changed = layers[1, 0, :, :, 0]
    changed["advice"][0, 0] = 0
    changed["upper"][0, 0] -= 2_000_000
    changed["upper"][1, 1] += 500_000
    figure = draw_difference(model, table, dataclasses.replace(table, source="new/other.acxt", layers=layers), layer_of(model, 1, "clear", -60))
    first, second, third, bar = figure.axes
    names = [model.names[number] for number in table.layers["advice"][1, 0, :, :, 0].ravel()]
    points = [(own, altitude) for altitude in (-900, -300) for own in (10, 50)]
    assert [colour_at(figure, first, *point, reach=3) for point in points] == [COLOURS[name] for name in names]
    assert names[0] == "climb" and colour_at(figure, second, *points[0]) == CLEAR
    assert [colour_at(figure, second, *point, reach=3) for point in points[1:]] == [COLOURS[name] for name in names[1:]]
    for axes in (first, second):
        (dots,) = [line for line in axes.lines if line.get_label() == "differs"]
        assert (list(dots.get_xdata()), list(dots.get_ydata())) == ([0], [-1000])
    assert np.asarray(third.collections[0].get_array()).ravel().tolist() == [-2, 0, 0, 0.5]
    (hatched,) = [one for one in third.collections if one.get_hatch()]
    assert [path.vertices[:2].tolist() for path in hatched.get_paths()] == [[[0, -1000], [30, -1000]]]
    assert (bar.get_ylabel(), third.collections[0].get_clim()) == ("units of cost", (-2, 2))
    assert {axes.get_xlabel() for axes in (first, second, third)} == {"own rate [ft/min]"}
    assert first.get_ylabel() == "intruder's altitude less the own [ft]"
    assert [axes.get_title("left") for axes in (first, second)] == ["advice of c.acxt", "advice of other.acxt"]
    assert set(legend_of(second)) == {"the advice differs", "clear", *names}
    assert figure._suptitle.get_text() == "Where do two tables differ?\nc.toml: 1 s to go, clear is present, intruder's rate -60 ft/min"


def test_tables_that_do_not_differ(model):
    """Version 1 and version 2 of one table."""
    tables = [read_table(EXAMPLES / name, model) for name in ("c.acxt", "c2.acxt")]
    first, _, third, _ = draw_difference(model, *tables, layer_of(model, 1, "climb", 0), "none").axes
    assert "differs" not in [line.get_label() for line in first.lines]
    assert not np.asarray(third.collections[0].get_array()).any()
    assert third.get_legend() is None and not any(one.get_hatch() for one in third.collections)


def test_layers_with_advice(model):
    for seconds in (0, 2):
        with pytest.raises(Fault, match=f"horizon is 1: no layer {seconds} has an advice"):
            layer_of(model, seconds, "clear", 0)
