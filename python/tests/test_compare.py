"""Two tables of one grid: where they differ, and which are refused."""
import numpy as np
import pytest
from conftest import EXAMPLES

from acas_table import Fault, compare, read_model, read_table, write_table

MODEL, TABLE = EXAMPLES / "c.toml", EXAMPLES / "c2.acxt"
ENTRIES = 48
"""Of the table of examples/c.toml, 24 in each of two layers."""


@pytest.fixture
def table():
    return read_table(TABLE, read_model(MODEL))


@pytest.fixture
def written(table, tmp_path):
    """Writes the table of examples/c.toml with other numbers at some places, and reads it."""

    def make(name, changes, version=2, model=MODEL):
        layers = table.layers.copy()
        for field, place, number in changes:
            layers[field][place] = number
        of = read_model(model)
        write_table(tmp_path / name, of, layers["upper"], layers["lower"], layers["advice"], version)
        return read_table(tmp_path / name, of)

    return make


def test_the_same_table(table, written):
    """Also in the other version."""
    for other in (table, read_table(EXAMPLES / "c.acxt"), written("same.acxt", [], 1)):
        found = compare(table, other)
        assert (found.first, found.second) == (str(TABLE), other.source)
        assert not found.advice.any() and not found.upper.any() and not found.lower.any()
        assert found.advices_by_layer.tolist() == found.values_by_layer.tolist() == [0, 0]
        assert (found.greatest_upper, found.greatest_lower) == (0, 0)


def test_counts_and_greatest_differences(table, written):
    """The values are 10 and -10 units. One entry differs in both values, one in the lower value, and two in the advice."""
    one, two, three = (0, 2, 1, 1, 1), (1, 0, 0, 0, 0), (1, 0, 1, 0, 0)
    changes = [
        ("upper", one, 10**7 + 3), ("lower", one, -(10**7) + 5), ("lower", two, -(10**7) - 8), ("advice", two, 2), ("advice", three, 0),
    ]
    changed = written("changed.acxt", changes)
    for pair in ((table, changed), (changed, table)):
        found = compare(*pair)
        assert np.argwhere(found.advice).tolist() == [list(two), list(three)]
        assert np.argwhere(found.upper).tolist() == [list(one)] and found.upper[one] == 3
        assert np.argwhere(found.lower).tolist() == [list(one), list(two)] and (found.lower[one], found.lower[two]) == (5, 8)
        assert found.advice.shape == found.upper.shape == found.lower.shape == table.layers.shape
        assert (found.advices_by_layer.tolist(), found.values_by_layer.tolist()) == ([0, 2], [1, 1])
        assert (found.greatest_upper, found.greatest_lower) == (3, 8)
        assert repr(found) == f"<Comparison of {found.first} and {found.second}: of {ENTRIES} entries 2 in advice, 2 in values>"


def test_farthest_values(written):
    """Numbers of 64 bits may be farther apart than such a number tells."""
    place = (1, 1, 1, 1, 1)
    low, high = (written(f"{number}.acxt", [("upper", place, number)]) for number in (-(2**63), 2**63 - 1))
    assert compare(low, high).greatest_upper == compare(high, low).greatest_upper == 2**64 - 1


def test_tables_of_two_models(table, written, changed):
    """One with other costs has the same grid, and has to be read with its model."""
    dear = changed("c.toml", ("contact = 5", "contact = 6"))
    other = written("dear.acxt", [("upper", (0, 0, 0, 0, 0), 11 * 10**6)], model=dear)
    assert compare(table, other).greatest_upper == 10**6
    assert table.header.model_digest != other.header.model_digest
    for pair, name in (((read_table(TABLE), other), TABLE), ((table, read_table(other.source)), other.source)):
        with pytest.raises(Fault) as raised:
            compare(*pair)
        assert str(raised.value) == f"{name}: model is not known, and the two are of two models: read each with its own"


GRIDS = [
    ("c.toml", "altitude = [-1000, -170]", "altitude = [-1000, -171]", "other grid.altitude -1000, -171 found -1000, -170 of "),
    ("c.toml", "own_rate = [0, 60]", "own_rate = [0, 61]", "other grid.own_rate 0, 61 found 0, 60 of "),
    ("c.toml", "intruder_rate = [-60, 0]", "intruder_rate = [-61, 0]", "other grid.intruder_rate -61, 0 found -60, 0 of "),
    ("c.toml", '"climb"', '"up"', "other advisories clear, up, descend found clear, climb, descend of "),
]


@pytest.mark.parametrize(("example", "old", "new", "fault"), GRIDS)
def test_two_grids_are_refused(table, written, changed, example, old, new, fault):
    other = written("other.acxt", [], model=changed(example, (old, new)))
    with pytest.raises(Fault) as raised:
        compare(table, other)
    assert str(raised.value) == f"{other.source}: {fault}{TABLE}"


def test_costs_and_the_puck_may_differ(table, written, changed):
    other = written("other.acxt", [], model=changed("c.toml", ("contact = ", "contact = 1"), ("half_height = 100", "half_height = 101")))
    assert compare(table, other).greatest_upper == 0


def test_two_horizons_are_refused(table, changed, tmp_path):
    model = read_model(changed("c.toml", ("horizon = 1", "horizon = 2")))
    layers = table.layers[[0, 1, 1]]
    write_table(tmp_path / "long.acxt", model, layers["upper"], layers["lower"], layers["advice"])
    with pytest.raises(Fault, match=f"other horizon 2 found 1 of {TABLE}$"):
        compare(table, read_table(tmp_path / "long.acxt", model))
