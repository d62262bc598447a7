"""What is shown of what is read: one line each, of which file it is and how much is in it."""
import pytest
from conftest import EXAMPLES

from acas_table import read_model, read_regions, read_replay, read_report, read_risk, read_safeable, read_table
from test_replay import TEXT as REPLAY
from test_report import MEETINGS, WHOLE
from test_risk import TEXT as RISK
from test_safeable import TEXT as SAFEABLE

TABLE = EXAMPLES / "c2.acxt"
SHOWN = [
    (read_table(TABLE), f"<Table {TABLE}: version 2, 2 layers, 3 advisories, 2 altitudes, 2 own rates, 2 intruder rates>"),
    (read_report(WHOLE, "c.audit"), "<Report c.audit: 2 lines; certified 1, reported 1, clear 2>"),
    (read_report(WHOLE, "c.audit").flights, "<Flights c.audit: 2 lines>"),
    (read_regions(MEETINGS), "<Regions regions: 3 boxes, 2 reported>"),
    (read_risk(RISK, "b.risk"), "<Risk b.risk: 16 states under 2 present advisories>"),
    (read_safeable(SAFEABLE), "<Safeable safeable: 3 lines; safeable 3, open 0, near 3>"),
    (read_replay(REPLAY), "<Replay replay: 4 seconds, 0 in contact>"),
]


@pytest.mark.parametrize(("found", "shown"), SHOWN, ids=[shown.split()[0][1:] for _, shown in SHOWN])
def test_one_line(found, shown):
    assert repr(found) == str(found) == shown


def test_table_knows_its_model():
    model = read_model(EXAMPLES / "c.toml")
    assert read_table(TABLE, model).model is model and read_table(TABLE).model is None
