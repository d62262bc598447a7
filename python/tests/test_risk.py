"""The reader of risks: chances that are worked out by hand, and broken texts."""
import numpy as np
import pytest
from conftest import EXAMPLES

from acas_table import RISK, Fault, gridded, ratios, read_model, read_risk

# Of examples/b.toml: the chances of its eight vertices, from the lowest altitude on, and with each of them the lower and the upper bound.
# Under each advisory clear alone may be chosen, contact costs 1 and a second nothing: all three quantities are the same.
STATES = (
    "0 0 0 : 0.814814 0.814816", "0 0 600 : 0.524690 0.524692", "0 600 0 : 0.981481 0.981482", "0 600 600 : 0.913579 0.913581",
    "30 0 0 : 0.086419 0.086421", "30 0 600 : 0.018518 0.018519", "30 600 0 : 0.475308 0.475310", "30 600 600 : 0.185184 0.185186",
)
TEXT = "".join(
    f"{present} {state} risk {bounds} clear {bounds} cost {bounds}\n"
    for present in ("clear", "level") for state, bounds in (line.split(" : ") for line in STATES)
) + "states 16\n"
FIRST = "clear 0 0 0 risk 0.814814 0.814816 clear 0.814814 0.814816 cost 0.814814 0.814816\n"
DESCENT = (("[-1000, -170]", "[0, 1000]"), ('["clear", "climb", "descend"]\ncosts = [0, 0, 0]', '["descend"]\ncosts = [7]'))


@pytest.fixture
def model():
    return read_model(EXAMPLES / "b.toml")


def test_the_program_prints_the_text_of_these_tests(acas):
    assert acas.output("risk", EXAMPLES / "b.toml", acas.table(EXAMPLES / "b.toml")) == TEXT


def test_states_known_by_hand(model):
    """Level at the same altitude while the intruder climbs with 600 ft/min, 2 s before: 85 of 162. 30 ft above: 1/3 of 1/6."""
    risk = read_risk(TEXT)
    assert (len(risk.states), risk.source) == (16, "risk")
    assert risk.states["present"].tolist() == ["clear"] * 8 + ["level"] * 8
    assert risk.states[["altitude", "own_rate", "intruder_rate"]][5].tolist() == (30, 0, 600)
    found = gridded(risk, model)
    assert found.dtype == RISK and found.shape == (2, 2, 2, 2)
    for state, chance in ((found[0, 0, 0, 1], 85 / 162), (found[1, 1, 0, 1], 1 / 54)):
        for name in ("risk", "clear", "cost"):
            assert state[name]["lower"] <= chance * 10**6 <= state[name]["upper"]
    assert found[0, 0, 0, 1].tolist() == ((524690, 524692),) * 3


def test_ratios_known_by_hand(acas, changed):
    """1000 ft above contact nothing is near it. On its edge of 0 ft a descent of a second makes 4 ft, a level flight none."""
    path = changed("c.toml", *DESCENT)
    model = read_model(path)
    states = gridded(read_risk(acas.output("risk", path, acas.table(path))), model)
    level = states[0, 0, 0, 1]
    assert level.tolist() == ((996000, 996000), (1000000, 1000000), (11980000, 11980000))
    found = ratios(states)
    assert found.shape == states.shape and found[0, 0, 0, 1].tolist() == (0.996, 0.996)
    assert np.isnan(found["lower"][:, 1, 0, 1]).all() and np.isnan(found["upper"][:, 1, 0, 1]).all()


@pytest.mark.parametrize(("risk", "clear", "ratio"), [
    ((0, 0), (0, 0), None), ((0, 2), (0, 2), None), ((2, 4), (0, 5), None), ((0, 0), (1, 1), (0, 0)), ((0, 3), (1, 2), (0, 3)),
    ((200, 300), (400, 500), (0.4, 0.75)), ((10**6, 10**6), (1, 10**6), (1, 10**6)),
])
def test_bounds_of_ratios(risk, clear, ratio):
    found = ratios(np.array([(risk, clear, (0, 0))], dtype=RISK))[0].tolist()
    assert found == ratio if ratio is not None else np.isnan(found).all()


def test_an_advisory_of_the_name_of_the_last_line():
    risk = read_risk(FIRST.replace("clear", "states", 1) + "states 1\n")
    assert risk.states["present"].tolist() == ["states"]


def test_numbers_below_zero_and_great_ones():
    risk = read_risk(FIRST.replace("cost 0.814814 0.814816", "cost -120000000000.000001 -0.999999") + "states 1\n")
    assert risk.states["cost"][0].tolist() == (-120000000000000001, -999999)


BROKEN = [
    ("no text", "", "risk line 1: end is missing"),
    ("no count", FIRST, "risk: count is missing"),
    ("cut", TEXT[:-1], "risk line 17: end is missing"),
    ("cut in a line", TEXT[:100], "risk line 2: end is missing"),
    ("line behind the count", TEXT + FIRST, "risk line 18: end is missing: a line follows the count"),
    ("line left out", TEXT.replace(FIRST, ""), "risk: count says states 16, but so many lines are: 15"),
    ("count", TEXT.replace("states 16", "states 016"), "risk line 17: states is '016', not a whole number"),
    ("no number", TEXT.replace("states 16", "states"), "risk line 17: states is missing"),
    ("word", TEXT.replace("risk", "chance", 1), "risk line 1: word risk is 'chance', not risk"),
    ("order", TEXT.replace("risk", "clear", 1), "risk line 1: word risk is 'clear', not risk"),
    ("spelling", TEXT.replace("0 0 600 risk", "0 0 0600 risk", 1), "risk line 2: intruder_rate is '0600', not a whole number"),
    ("far", TEXT.replace("0 0 600 risk", "0 0 10001 risk", 1), "risk line 2: intruder_rate is '10001', not from -10000 to 10000"),
    ("decimals", TEXT.replace("0.814814", "0.81481", 1), "risk line 1: lower risk is '0.81481', not a number with six decimals"),
    ("whole", TEXT.replace("0.814814", "1", 1), "risk line 1: lower risk is '1', not a number with six decimals"),
    ("leading", TEXT.replace("0.814814", "00.814814", 1), "risk line 1: lower risk is '00.814814', not a number with six decimals"),
    ("point", TEXT.replace("0.814814", ".814814", 1), "risk line 1: lower risk is '.814814', not a number with six decimals"),
    ("exponent", TEXT.replace("0.814814", "0.8148e0", 1), "risk line 1: lower risk is '0.8148e0', not a number with six decimals"),
    ("sign", TEXT.replace("0.814814", "-0.000000", 1), "risk line 1: lower risk is '-0.000000', not a number with six decimals"),
    ("below", TEXT.replace("0.814814", "-0.000001", 1), "risk line 1: lower risk is '-0.000001', not from 0.000000 to 1.000000"),
    ("above", TEXT.replace("0.814816", "1.000001", 1), "risk line 1: upper risk is '1.000001', not from 0.814814 to 1.000000"),
    ("bounds", TEXT.replace("clear 0.814814 0.814816", "clear 0.814814 0.814813", 1), "risk line 1: upper clear is '0.814813', not from 0.8"),
    ("cost", TEXT.replace("cost 0.814814", "cost 0.814817", 1), "risk line 1: upper cost is '0.814816', not from 0.814817 to "),
    ("tail", TEXT.replace("0.814816\n", "0.814816 1\n", 1), "risk line 1: end is missing: '1' follows"),
    ("no name", TEXT.replace("clear 0", " 0", 1), "risk line 1: present is '', not a name"),
]


@pytest.mark.parametrize(("name", "text", "fault"), BROKEN, ids=[name for name, _, _ in BROKEN])
def test_broken_risks_name_the_word(name, text, fault):
    with pytest.raises(Fault) as raised:
        read_risk(text)
    assert str(raised.value).startswith(fault)


OTHERS = [
    ("count", TEXT.replace(FIRST, "").replace("states 16", "states 15"), "risk: count is 15, and .* has 16 states"),
    ("name", TEXT.replace("level", "climb"), "risk line 9: present climb is not the one of the state in "),
    ("altitude", TEXT.replace("30 0 0", "40 0 0", 1), "risk line 5: altitude 40 is not the one of the state in "),
    ("order", "".join(reversed(TEXT.splitlines(keepends=True)[:-1])) + "states 16\n", "risk line 1: present level is not the one"),
    ("apart", TEXT.replace("cost 0.814814", "cost 0.814811", 1), "risk line 1: cost has bounds that are over 4 millionths apart"),
    ("clear", TEXT.replace("clear 0.018518", "clear 0.018517", 1), "risk line 14: clear has bounds that another present advisory does not"),
]


@pytest.mark.parametrize(("name", "text", "fault"), OTHERS, ids=[name for name, _, _ in OTHERS])
def test_risks_of_another_model_name_the_line(model, name, text, fault):
    with pytest.raises(Fault, match=fault):
        gridded(read_risk(text), model)


def test_every_chance_of_an_example_is_within_its_bounds(acas):
    """Of examples/d.toml the chances and costs are from 0, and what the table costs is what its compiled entry says."""
    model = read_model(EXAMPLES / "d.toml")
    states = gridded(read_risk(acas.output("risk", EXAMPLES / "d.toml", acas.table(EXAMPLES / "d.toml"))), model)
    assert states.shape == (4, 4, 3, 2)
    for name in ("risk", "clear", "cost"):
        assert np.all(states[name]["lower"] >= 0) and np.all(states[name]["lower"] <= states[name]["upper"])
    printed = [line.split(" ") for line in acas.output("values", EXAMPLES / "d.toml").splitlines()]
    uppers = [round(float(words[6]) * 10**6) for words in printed if words[0] == "30"]
    assert states["cost"]["upper"].ravel().tolist() == uppers
