"""The reader of replays: an encounter worked out by hand, and broken texts."""
import pytest
from conftest import EXAMPLES

from acas_table import Fault, check_replay, read_model, read_replay, read_table
from acas_table.replay import layers_at, nearest

# For examples/c.toml and its table: clear is present, the intruder is 200 ft below, and descends from second 1 on.
ENCOUNTER = """version = 1
advisory = "clear"
range = 1500
closing = 500
altitude = -200
own = 0
intruder = 0
own_accel = [0, 0, -480, 0]
intruder_accel = [0, -60, 0, 0]
"""
# With 1000 ft to the loss of horizontal separation 2 seconds are to go, which is beyond the horizon of 1; then one, and then none.
# At -200 ft, and at -205 ft, the altitude -170 is nearest, where to descend is advised while clear is present, and else clear.
TEXT = """0 clear range 1500 ticks -24000 own 0 intruder 0 apart
1 descend range 1000 ticks -24000 own 0 intruder 0 apart
2 clear range 500 ticks -24060 own 0 intruder -60 apart
3 descend range 0 ticks -23700 own -480 intruder -60 apart
seconds 4 contact 0
"""


@pytest.fixture
def model():
    return read_model(EXAMPLES / "c.toml")


@pytest.fixture(params=["c.acxt", "c2.acxt"])
def table(request, model):
    """The same table in version 1 and in version 2."""
    return read_table(EXAMPLES / request.param, model)


def test_the_program_prints_the_text_of_these_tests(acas, tmp_path):
    encounter = tmp_path / "encounter.toml"
    encounter.write_text(ENCOUNTER)
    assert acas.output("replay", EXAMPLES / "c.toml", EXAMPLES / "c.acxt", encounter) == TEXT


def test_seconds(model, table):
    replay = read_replay(TEXT)
    assert replay.seconds["advice"].tolist() == ["clear", "descend", "clear", "descend"]
    assert replay.seconds["range"].tolist() == [1500, 1000, 500, 0]
    assert replay.seconds["ticks"].tolist() == [-24000, -24000, -24060, -23700]
    assert replay.seconds["own"].tolist() == [0, 0, 0, -480] and replay.seconds["intruder"].tolist() == [0, 0, -60, -60]
    assert replay.seconds["contact"].tolist() == [False] * 4
    assert check_replay(replay, model, table).tolist() == [0, 2, 0, 2]


def test_layers(model):
    """The radius is 500 ft, the horizon 1: a layer is advised within the radius ahead and behind, and up to 500 ft beyond it."""
    assert [layers_at(model, far, 500) for far in (-501, -500, 500, 501, 1000, 1001)] == [[0], [1], [1], [1], [1], [0]]
    assert layers_at(model, 1000, None) == [0, 1]


def test_nearest(model):
    """Half of the way between -1000 and -170 is -585, which is taken to the first."""
    assert [nearest(model.altitude, altitude) for altitude in (-2000, -585, -584, 0)] == [0, 0, 1, 1]


BROKEN = [
    ("no text", "", "replay line 1: end is missing"),
    ("no counts", TEXT[: TEXT.index("seconds")], "replay: counts are missing"),
    ("cut", TEXT[:-1], "replay line 5: end is missing"),
    ("number", TEXT.replace("2 clear", "3 clear"), "replay line 3: second is '3', not from 2 to 2"),
    ("contact", TEXT.replace("apart", "contact", 1), "replay: counts say seconds 4 contact 0, but there are 4 and 1"),
    ("last word", TEXT.replace("apart", "near", 1), "replay line 1: word apart is 'near', not apart or contact"),
    ("range", TEXT.replace("range 500", "range 501"), "replay line 3: range 501 does not follow from the line before"),
    ("ticks", TEXT.replace("ticks -24060", "ticks -24061"), "replay line 3: ticks -24061 does not follow from the line before"),
    ("fraction", TEXT.replace("own -480", "own 1/2"), "replay line 4: own is '1/2', not a whole number"),
]


@pytest.mark.parametrize(("name", "text", "fault"), BROKEN, ids=[name for name, _, _ in BROKEN])
def test_broken_replays_name_the_word(name, text, fault):
    with pytest.raises(Fault) as raised:
        read_replay(text)
    assert str(raised.value).startswith(fault)


@pytest.mark.parametrize(("old", "new", "fault"), [
    ("1 descend", "1 climb", "replay line 2: advice is climb, where .* advises descend"),
    ("3 descend", "3 clear", "replay line 4: advice is clear, where .* advises descend"),
    ("1 descend", "1 level", "replay line 2: advice level is no advisory of "),
])
def test_replays_of_another_table_name_the_line(model, table, old, new, fault):
    with pytest.raises(Fault, match=fault):
        check_replay(read_replay(TEXT.replace(old, new)), model, table)
