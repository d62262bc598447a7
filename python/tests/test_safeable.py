"""The reader of reports on clear cells: cells that are worked out by hand, and broken texts."""
import pytest
from conftest import EXAMPLES

from acas_table import Fault, check_audit, clear_cells, read_model, read_report, read_safeable, read_safeable_of

# Of examples/c.toml with two seconds to go and the intruder 2000 to 3000 ft below: far enough for a climb a second later. With the intruder
# at most 100 ft below, nothing is shown to help.
TEXT = "".join(f"cell 1 {present} 0 0 0 safeable climb\n" for present in ("clear", "climb", "descend")) + "safeable 3 open 0 near 3\n"
FIRST = "cell 1 clear 0 0 0 safeable climb\n"
OPEN = TEXT.replace("safeable climb", "open").replace("safeable 3 open 0", "safeable 0 open 3")
TWO_SECONDS = ("horizon = 1", "horizon = 2")
FAR, NEAR = ("[-1000, -170]", "[-3000, -2000]"), ("[-1000, -170]", "[-100, 0]")
NOTHING_ADVISED = "certified 0 reported 0 clear 6\n"


@pytest.fixture
def path(changed):
    return changed("c.toml", TWO_SECONDS, FAR)


@pytest.fixture
def model(path):
    return read_model(path)


def test_the_program_prints_the_text_of_these_tests(acas, path):
    acas.output("compile", path, "far.acxt")
    ended = acas.run("safeable", path, "far.acxt")
    assert (ended.returncode, ended.stdout, ended.stderr) == (0, TEXT, "")


def test_the_program_prints_open_cells(acas, changed):
    path = changed("c.toml", TWO_SECONDS, NEAR)
    acas.output("compile", path, "near.acxt")
    ended = acas.run("safeable", path, "near.acxt")
    assert (ended.returncode, ended.stdout, ended.stderr) == (1, OPEN, "")


def test_lines_and_counts(model):
    report = read_safeable(TEXT)
    assert (report.safeable, report.open, report.near, report.source) == (3, 0, 3, "safeable")
    assert report.cells["present"].tolist() == ["clear", "climb", "descend"]
    assert report.cells["advice"].tolist() == ["climb"] * 3
    assert clear_cells(report, model).tolist() == [(1, present, 0, 0, 0, 1) for present in range(3)]


def test_open_cells(model):
    report = read_safeable(OPEN)
    assert (report.safeable, report.open, report.near) == (0, 3, 3) and report.cells["advice"].tolist() == [""] * 3
    assert clear_cells(report, model)["advice"].tolist() == [0, 0, 0]


def test_no_cells(acas):
    """With no second to go there is no cell, and with one all are near."""
    for name, near in (("a.toml", 0), ("c.toml", 3)):
        text = acas.output("safeable", EXAMPLES / name, acas.table(EXAMPLES / name))
        report, model = read_safeable(text), read_model(EXAMPLES / name)
        assert (text, report.near, len(clear_cells(report, model))) == (f"safeable 0 open 0 near {near}\n", near, 0)


BROKEN = [
    ("no text", "", "safeable line 1: end is missing"),
    ("no counts", FIRST, "safeable: counts are missing"),
    ("cut in the counts", TEXT[:-2], "safeable line 4: end is missing"),
    ("cut in a line", TEXT[:50], "safeable line 2: end is missing"),
    ("line behind the counts", TEXT + FIRST, "safeable line 5: end is missing: a line follows the counts"),
    ("line left out", TEXT.replace(FIRST, ""), "safeable: counts say safeable 3, but so many lines are: 2"),
    ("open", TEXT.replace("open 0", "open 1"), "safeable: counts say open 1, but so many lines are: 0"),
    ("word", TEXT.replace("cell 1", "box 1", 1), "safeable line 1: word cell is 'box', not cell"),
    ("verdict", TEXT.replace("safeable climb", "safe climb", 1), "safeable line 1: word safeable is 'safe', not safeable or open"),
    ("certified", TEXT.replace("safeable climb", "certified", 1), "safeable line 1: word safeable is 'certified', not safeable or open"),
    ("no advice", TEXT.replace("safeable climb", "safeable", 1), "safeable line 1: advice is missing"),
    ("advice of an open cell", OPEN.replace("open\n", "open climb\n", 1), "safeable line 1: end is missing: 'climb' follows"),
    ("no place", TEXT.replace("clear 0 0 0", "clear 0 0"), "safeable line 1: place of intruder_rate is 'safeable'"),
    ("spelling", TEXT.replace("cell 1", "cell 01", 1), "safeable line 1: seconds is '01', not a whole number"),
    ("near", TEXT.replace("cell 1", "cell 0", 1), "safeable line 1: seconds is '0', not from 1 to 119"),
    ("counts", TEXT.replace(" near 3", " near"), "safeable line 4: near is missing"),
    ("other counts", TEXT.replace("near 3", "near -1"), "safeable line 4: near is '-1', not at least 0"),
    ("counts of an audit", FIRST + NOTHING_ADVISED, "safeable line 2: word cell is 'certified', not cell"),
]


@pytest.mark.parametrize(("name", "text", "fault"), BROKEN, ids=[name for name, _, _ in BROKEN])
def test_broken_reports_name_the_word(name, text, fault):
    with pytest.raises(Fault) as raised:
        read_safeable(text)
    assert str(raised.value).startswith(fault)


OTHERS = [
    ("name", TEXT.replace("cell 1 climb", "cell 1 level"), "safeable line 2: present level is no advisory of "),
    ("advice", TEXT.replace("safeable climb", "safeable level", 1), "safeable line 1: advice level is no advisory of "),
    ("clear", TEXT.replace("safeable climb", "safeable clear", 1), "safeable line 1: advice clear is clear of conflict"),
    ("second", TEXT.replace("cell 1", "cell 2", 1), "safeable line 1: second 2 is not from 0 to 1"),
    ("place", TEXT.replace("clear 0 0 0", "clear 0 1 0"), "safeable line 1: own_rate 1 is not from 0 to 0"),
    ("order", "".join(sorted(TEXT.splitlines(keepends=True)[:3], reverse=True)) + TEXT.splitlines()[3] + "\n", "safeable line 1: second 1 "),
    ("twice", FIRST + TEXT.replace("safeable 3", "safeable 4"), "safeable line 2: second 1 stands in a line that is out of order"),
    ("two outlooks", TEXT.replace("climb\n", "descend\n", 1), "safeable line 2: advice climb is not what is said of the cell under another"),
    ("near", TEXT.replace("near 3", "near 4"), "safeable: counts say near 4, and "),
]


@pytest.mark.parametrize(("name", "text", "fault"), OTHERS, ids=[name for name, _, _ in OTHERS])
def test_reports_of_another_model_name_the_line(model, name, text, fault):
    with pytest.raises(Fault) as raised:
        clear_cells(read_safeable(text), model)
    assert str(raised.value).startswith(fault)


def test_advice_that_is_no_choice_of_clear(changed):
    choices = ('choices = ["clear", "climb", "descend"]\ncosts = [0, 0, 0]', 'choices = ["clear", "descend"]\ncosts = [0, 0]')
    model = read_model(changed("c.toml", TWO_SECONDS, FAR, choices))
    with pytest.raises(Fault, match="^safeable line 1: advice climb is no choice of clear in "):
        clear_cells(read_safeable(TEXT), model)
    assert len(clear_cells(read_safeable(TEXT.replace("climb\n", "descend\n")), model)) == 3


def test_both_reports_of_a_table_fit_together(acas, model, path):
    acas.output("compile", path, "far.acxt")
    audit = read_report(acas.output("audit", path, "far.acxt"))
    clear, advised = check_audit(read_safeable(TEXT), audit, model)
    assert (len(clear), len(advised)) == (3, 0)


ADVISED = "cell 1 climb 0 0 0 climb certified\n"
UNFIT = [
    ("both", ADVISED + "certified 1 reported 0 clear 5\n", TEXT, "safeable line 2: second 1 is of a cell that has an advice in report"),
    ("near", NOTHING_ADVISED, TEXT.replace("near 3", "near 2"), "safeable: counts say near 2, and report leaves 3 cells of 0 s without an advice"),
    ("total", NOTHING_ADVISED, "safeable 0 open 0 near 3\n", "safeable: counts make 3 clear cells, and report has 6"),
    ("few", "certified 1 reported 0 clear 5\n", TEXT, "report: counts are of certified lines that are left out"),
]


@pytest.mark.parametrize(("name", "audit", "text", "fault"), UNFIT, ids=[name for name, *_ in UNFIT])
def test_reports_that_do_not_fit_together(model, name, audit, text, fault):
    with pytest.raises(Fault) as raised:
        check_audit(read_safeable(text), read_report(audit), model)
    assert str(raised.value).startswith(fault)


def test_reports_of_an_example_fit_together(acas):
    """Of the 680 clear cells of examples/d.toml 24 are near, 160 an advisory keeps safe a second later, and of 496 none is shown to."""
    path = EXAMPLES / "d.toml"
    model = read_model(path)
    safeable = read_safeable(acas.output("safeable", path, acas.table(path)))
    assert (safeable.safeable, safeable.open, safeable.near) == (160, 496, 24)
    clear, advised = check_audit(safeable, read_report(acas.output("audit", path, acas.table(path))), model)
    assert (len(clear), len(advised)) == (656, 40)


def test_report_of_a_file_without_an_origin(tmp_path, model):
    (tmp_path / "out").write_text(TEXT)
    with pytest.warns(UserWarning, match="out.from says of which model"):
        assert read_safeable_of(tmp_path / "out", model).safeable == 3
