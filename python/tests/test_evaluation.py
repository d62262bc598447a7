"""Bounds of advices: those of compiled tables, of any advice, and by either kind of whole numbers."""
import numpy as np
import pytest
from conftest import EXAMPLES
from policies import extreme_text, random_advice, random_text, reference_table

from acas_table import Fault, gridded, read_model, read_risk, read_table, table_of_advice, write_table
from acas_table.arrays import GREATEST
from acas_table.evaluation import evaluated_bounds
from acas_table.means import Means, greatest_value

MODELS = {
    **{name: (EXAMPLES / name).read_text(encoding="utf-8") for name in ("a.toml", "b.toml", "c.toml", "d.toml")},
    **{f"random {seed}": random_text(seed) for seed in range(3)}, "dearest": extreme_text(1), "cheapest": extreme_text(-1),
}


@pytest.fixture(params=MODELS.values(), ids=list(MODELS))
def path(request, tmp_path):
    """The file of a model."""
    path = tmp_path / "model.toml"
    path.write_text(request.param, encoding="utf-8")
    return path


def test_a_compiled_table_is_that_of_its_advice(path, tmp_path):
    """By whole numbers of any size, and by 64 bits where they are enough."""
    model = read_model(path)
    compiled = reference_table(path, tmp_path / "compiled")
    layers = read_table(tmp_path / "compiled", model).layers
    write_table(tmp_path / "new", model, *table_of_advice(model, layers["advice"]))
    assert (tmp_path / "new").read_bytes() == compiled
    upper, lower = evaluated_bounds(model, layers["advice"], object)
    assert np.array_equal(upper, layers["upper"]) and np.array_equal(lower, layers["lower"])


def test_any_advice_is_accepted_with_its_bounds_and_with_no_closer_ones(acas, path, tmp_path):
    """What `acas risk` says of it is the same for all bounds, and has the evaluated upper values."""
    model, table = read_model(path), tmp_path / "t.acxt"
    risks = []
    for bounds in ("loose", "evaluated"):
        entries = table_of_advice(model, random_advice(model, 5), bounds)
        write_table(table, model, *entries)
        assert acas.output("check", path, table) == f"accepted layers {model.shape[0]} states {np.prod(model.shape[1:])}\n"
        risks.append(acas.output("risk", path, table))
    assert risks[0] == risks[1]
    assert np.array_equal(gridded(read_risk(risks[0]), model)["cost"]["upper"], entries.upper[-1])
    made = np.random.default_rng(7)
    for name, change in (("upper", -1), ("lower", 1), ("upper", -1), ("lower", 1)):
        place = tuple(made.integers(0, model.shape))
        closer = getattr(entries, name).copy()
        closer[place] += change
        write_table(table, model, *entries._replace(**{name: closer}))
        refused = acas.run("check", path, table)
        state = int(np.ravel_multi_index(place[1:], model.shape[1:]))
        assert refused.returncode == 5 and f"refused: layer {place[0]} state {state} {name} " in refused.stderr


def test_bounds_known_by_hand(changed):
    """With no contact in reach a second costs what the advice does while that advisory is present, and at least the cheapest choice."""
    model = read_model(changed("c.toml", ("costs = [0, 0, 0]", "costs = [4, 3, 7]"), ("horizon = 1", "horizon = 2")))
    advice = np.full(model.shape, 255, dtype=np.uint8)
    advice[1:] = np.array([0, 1, 2]).reshape(-1, 1, 1, 1)
    entries = table_of_advice(model, advice)
    assert entries.upper[:, :, 0, 0, 0].tolist() == [[0, 0, 0], [4000000, 3000000, 7000000], [8000000, 6000000, 14000000]]
    assert entries.lower[:, :, 1, 1, 1].tolist() == [[0, 0, 0], [3000000] * 3, [6000000] * 3]
    loose = table_of_advice(model, advice, "loose")
    assert loose.upper[:, 0, 0, 0, 0].tolist() == [5000000, 12000000, 19000000]
    assert loose.lower[:, 0, 0, 0, 0].tolist() == [0, 3000000, 6000000]
    assert all(array.dtype == np.int64 for array in (entries.upper, entries.lower, loose.upper, loose.lower))
    assert np.array_equal(entries.advice, advice) and entries.advice.dtype == np.uint8


def test_64_bits_are_taken_as_far_as_they_go(tmp_path):
    """With the greatest cost of contact for which they are enough, and with one more: each bound is that of whole numbers of any size."""
    path = tmp_path / "model.toml"
    for seed in range(4):
        found = []
        path.write_text(random_text(seed, 0), encoding="utf-8")
        model = read_model(path)
        widest = Means(model).widest
        contact = (GREATEST - widest) // (widest // greatest_value(model) * 10**6)
        for more in (0, 1):
            path.write_text(random_text(seed, contact + more), encoding="utf-8")
            model = read_model(path)
            found.append(Means(model).numbers)
            advice = random_advice(model, seed)
            exact = evaluated_bounds(model, advice, object)
            assert np.array_equal(evaluated_bounds(model, advice), exact)
        assert found == [np.int64, object]


@pytest.mark.parametrize(("name", "numbers"), [("d.toml", np.int64), ("random 0", np.int64), ("dearest", object), ("cheapest", object)])
def test_for_which_models_64_bits_are_enough(tmp_path, name, numbers):
    path = tmp_path / "model.toml"
    path.write_text(MODELS[name], encoding="utf-8")
    assert Means(read_model(path)).numbers is numbers


def test_what_is_no_advice_is_named():
    model = read_model(EXAMPLES / "c.toml")
    advice = random_advice(model, 0)
    for wrong, bounds, fault in (
        (advice[1:], "evaluated", r"advice: shape is \(1, 3, 2, 2, 2\) not \(2, 3, 2, 2, 2\)"),
        (advice / 1, "evaluated", "advice: dtype float64 is none of whole numbers"),
        (np.zeros_like(advice), "loose", "advice: layer 0 state 0 byte 0"),
        (advice, "tight", "bounds: tight is neither evaluated nor loose"),
    ):
        with pytest.raises(Fault, match=fault):
            table_of_advice(model, wrong, bounds)
