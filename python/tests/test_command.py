"""The command acas_plot: its pictures, and what it says of bad input, in one line, with nothing half written."""
import re
import struct
import subprocess
import sys
from pathlib import Path

import pytest
from conftest import EXAMPLES, TOP

from test_replay import TEXT as REPLAY
from test_report import CERTIFIED, CHASED, MET, REPORTED
from test_report import WHOLE as REPORT
from test_risk import TEXT as RISK
from test_safeable import FAR, NOTHING_ADVISED, TWO_SECONDS
from test_safeable import TEXT as SAFEABLE

SEPARATIONS = "box,accel,rate,below,above\n0,1,1500,357,3070\n0,480,1500,-101,3602\n"
PLOT = TOP / "python" / "acas_plot"
LEVEL = ("--present", "clear", "--own", "0", "--intruder", "0")
CELLS = ("--present", "clear", "--own", "0", "--intruder", "-60")
LAYER = ("--present", "clear", "--layer", "1", "--intruder", "0")
MODEL, TABLE = EXAMPLES / "c.toml", EXAMPLES / "c.acxt"
OF_RISK = EXAMPLES / "b.toml"


def plot(*words, given: str = "") -> subprocess.CompletedProcess:
    """A run of the command with a text on its input."""
    command = [sys.executable, "-B", str(PLOT), *map(str, words)]
    return subprocess.run(command, input=given, capture_output=True, text=True, check=False)


@pytest.fixture
def files(tmp_path) -> Path:
    """A folder with the report and the replay of the examples' smallest table, the risk of another, a model whose cells are clear with both
    reports on its table, and with an older picture."""
    (tmp_path / "report.txt").write_text(REPORT)
    (tmp_path / "replay.txt").write_text(REPLAY)
    (tmp_path / "risk.txt").write_text(RISK)
    (tmp_path / "far.toml").write_text((EXAMPLES / "c.toml").read_text().replace(*TWO_SECONDS).replace(*FAR))
    (tmp_path / "clear.txt").write_text(NOTHING_ADVISED)
    (tmp_path / "safeable.txt").write_text(SAFEABLE)
    (tmp_path / "separations.txt").write_text(SEPARATIONS)
    (tmp_path / "old.png").write_bytes(b"old")
    return tmp_path


@pytest.mark.parametrize(("ending", "begin"), [("png", b"\x89PNG\r\n\x1a\n"), ("svg", b"<?xml version"), ("PNG", b"\x89PNG"), ("pdf", b"%PDF-")])
def test_each_picture_by_its_ending(files, ending, begin):
    picture = files / f"picture.{ending}"
    for words in (
        ("policy", MODEL, TABLE, picture, *LEVEL), ("cost", MODEL, TABLE, picture, *LEVEL),
        ("difference", MODEL, TABLE, EXAMPLES / "c2.acxt", picture, *LAYER),
        ("verdicts", MODEL, files / "report.txt", picture, *CELLS), ("witness", MODEL, REPORTED, picture),
        ("replay", MODEL, TABLE, files / "replay.txt", picture), ("risk", OF_RISK, files / "risk.txt", picture, *LEVEL),
        ("safeable", files / "far.toml", files / "clear.txt", files / "safeable.txt", picture, *CELLS),
        ("witness", EXAMPLES / "d.toml", CHASED, picture, "--advisory", "climb"),
        ("separation", EXAMPLES / "d.toml", files / "separations.txt", picture),
    ):
        ended = plot(*words)
        assert (ended.returncode, ended.stdout) == (0, "")
        said = r"acas_plot: .*/(report|replay|risk|clear|safeable|separations).txt: no .* says of which model and table it is.*\n"
        assert not ended.stderr or re.fullmatch(said, ended.stderr)
        assert picture.read_bytes().startswith(begin)
        picture.unlink()
    kept = ["clear.txt", "far.toml", "old.png", "replay.txt", "report.txt", "risk.txt", "safeable.txt", "separations.txt"]
    assert sorted(path.name for path in files.iterdir()) == kept


def test_svg_has_its_words_as_text(files):
    picture = files / "picture.svg"
    plot("policy", MODEL, TABLE, picture, *LEVEL)
    text = picture.read_text(encoding="utf-8")
    for words in ("climb", "descend", "time to loss of horizontal separation [s]", "intruder's altitude less the own [ft]"):
        assert f">{words}</text>" in text


def test_title_size_and_points(files):
    """Of each command: the title stands in the .svg, and a .png has the points that are asked for."""
    given = ("--title", "Advice for $5 & more", "--size", "6x4.5", "--dpi", "100")
    for words in (
        ("policy", MODEL, TABLE, *LEVEL), ("cost", MODEL, TABLE, *LEVEL), ("verdicts", MODEL, files / "report.txt", *CELLS),
        ("difference", MODEL, TABLE, TABLE, *LAYER),
        ("witness", MODEL, REPORTED), ("replay", MODEL, TABLE, files / "replay.txt"), ("risk", OF_RISK, files / "risk.txt", *LEVEL),
        ("safeable", files / "far.toml", files / "clear.txt", files / "safeable.txt", *CELLS),
        ("separation", EXAMPLES / "d.toml", files / "separations.txt"), ("witness", EXAMPLES / "d.toml", MET, "--advisory", "climb"),
    ):
        count = 4 if words[0] in ("replay", "safeable", "difference") else 3
        for name in ("picture.svg", "picture.png"):
            assert plot(*words[:count], files / name, *words[count:], *given).returncode == 0
        assert ">Advice for $5 &amp; more</text>" in (files / "picture.svg").read_text(encoding="utf-8")
        assert struct.unpack(">II", (files / "picture.png").read_bytes()[16:24]) == (600, 450)


@pytest.mark.parametrize("name", ["picture.png", "picture.svg", "picture.pdf"])
def test_two_runs_write_the_same(files, name):
    contents = []
    for _ in range(2):
        plot("verdicts", MODEL, files / "report.txt", files / name, *CELLS)
        contents.append((files / name).read_bytes())
    assert contents[0] == contents[1]


@pytest.mark.parametrize(("words", "options", "given"), [
    (("witness", MODEL, "-"), (), REPORTED),
    (("verdicts", MODEL, "-"), CELLS, REPORT),
    (("replay", MODEL, TABLE, "-"), (), REPLAY),
    (("risk", OF_RISK, "-"), LEVEL, RISK),
    (("separation", EXAMPLES / "d.toml", "-"), (), SEPARATIONS),
])
def test_input_in_the_place_of_a_file(files, words, options, given):
    ended = plot(*words, files / "new.svg", *options, given=given)
    said = "" if words[0] == "witness" else "acas_plot: input: nothing says of which model and table it is\n"
    assert (ended.returncode, ended.stderr) == (0, said)
    assert (files / "new.svg").exists()


def test_line_of_a_box_wants_its_advisory(files):
    line = "box 1 reported time 20 range 10500 speed 500 ticks 43320 own 0 intruder 0 response 25/8@480 135/8@0"
    words = ("witness", EXAMPLES / "d.toml", line, files / "old.png")
    assert plot(*words, "--advisory", "climb").returncode == 0
    assert plot(*words).stderr == "acas_plot: line: advisory is not said by a line of acas regions or acas manoeuvre: give --advisory NAME\n"
    assert plot(*words, "--advisory", "descend").stderr.startswith("acas_plot: line: response does not meet descend in ")
    given = plot(*words, "--advisory", "climb", "--against", "480", "1500")
    assert given.stderr == "acas_plot: line: against is not there: --against is for the lines of acas manoeuvre\n"


def test_line_of_an_intruder_that_manoeuvres(files):
    """What it may do is in the title, and a line of one that does more is refused."""
    words = ("witness", EXAMPLES / "d.toml", CHASED, files / "new.svg", "--advisory", "climb")
    assert plot(*words, "--against", "480", "1500").returncode == 0
    text = (files / "new.svg").read_text(encoding="utf-8")
    title = "d.toml: box 0 under climb, an intruder of up to 480 ft/min per s and 1500 ft/min"
    assert f">{title}</text>" in text and ">intruder's manoeuvre</text>" in text
    ended = plot(*words, "--against", "480", "1499")
    assert (ended.returncode, ended.stderr) == (1, "acas_plot: line: against has the rate 1500 ft/min, over 1499\n")
    assert (files / "new.svg").read_text(encoding="utf-8") == text
    ended = plot("witness", MODEL, REPORTED, files / "old.png", "--against", "480", "1500")
    assert ended.stderr == "acas_plot: line: against is not there: --against is for the lines of acas manoeuvre\n"


BAD = [
    ("table of another model", ("policy", EXAMPLES / "d.toml", TABLE, "old.png", *LEVEL), f"{TABLE}: other model "),
    ("no table", ("policy", MODEL, MODEL, "old.png", *LEVEL), f"{MODEL}: magic is not ACXT"),
    ("no model", ("policy", TABLE, TABLE, "old.png", *LEVEL), f"{TABLE}: not toml:"),
    ("absent", ("policy", "nowhere.toml", TABLE, "old.png", *LEVEL), "nowhere.toml: cannot be read: No such file or directory"),
    ("two grids", ("difference", MODEL, TABLE, TABLE, "old.png", *LAYER, "--other-model", OF_RISK), f"{OF_RISK}: other advisories clear, level found clear, climb, descend of {MODEL}"),
    ("layer", ("difference", MODEL, TABLE, TABLE, "old.png", *LAYER[:2], "--layer", "2", *LAYER[4:]), f"{MODEL}: horizon is 1: no layer 2"),
    ("other table", ("difference", MODEL, TABLE, MODEL, "old.png", *LAYER), f"{MODEL}: magic is not ACXT"),
    ("name", ("policy", MODEL, TABLE, "old.png", "--present", "level", *LEVEL[2:]), f"{MODEL}: advisory level is not in the model"),
    ("rate", ("cost", MODEL, TABLE, "old.png", *LEVEL[:2], "--own", "1", *LEVEL[4:]), f"{MODEL}: grid.own_rate has no 1, but 0, 60"),
    ("last rate", ("verdicts", MODEL, "report.txt", "old.png", *LEVEL), f"{MODEL}: grid.intruder_rate ends at 0, and no cell begins"),
    ("report of another model", ("verdicts", EXAMPLES / "b.toml", "report.txt", "old.png", *LEVEL), "report.txt line 1: advice climb is"),
    ("risk of another model", ("risk", MODEL, "risk.txt", "old.png", *LEVEL), f"risk.txt: count is 16, and {MODEL} has 24 states"),
    ("no risk", ("risk", MODEL, "replay.txt", "old.png", *LEVEL), "replay.txt line 1: altitude is 'clear', not a whole number"),
    ("table of another model beside a risk", ("risk", OF_RISK, "risk.txt", "old.png", *LEVEL, "--table", TABLE), f"{TABLE}: other model "),
    ("clear cells of another model", ("safeable", MODEL, "report.txt", "safeable.txt", "old.png", *CELLS), "safeable.txt line 1: second 1 is"),
    ("no clear cells", ("safeable", "far.toml", "clear.txt", "replay.txt", "old.png", *CELLS), "replay.txt line 1: word cell is '0', not cell"),
    ("certified lines", ("safeable", "far.toml", "few.txt", "safeable.txt", "old.png", *CELLS), "few.txt: cannot be read: No such file"),
    ("no report", ("verdicts", MODEL, "replay.txt", "old.png", *CELLS), "replay.txt line 1: word cell is '0', not cell"),
    ("replay of another model", ("replay", EXAMPLES / "c.toml", TABLE, "report.txt", "old.png"), "report.txt line 1: second is 'cell'"),
    ("certified", ("witness", MODEL, CERTIFIED, "old.png"), "line: verdict is certified, and no flight is printed"),
    ("two lines", ("witness", MODEL, CERTIFIED + CERTIFIED, "old.png"), "line: word certified is 'certified\\ncell'"),
    ("line of another model", ("witness", EXAMPLES / "d.toml", REPORTED, "old.png"), "line: ticks is -20400, outside the cell in "),
    ("meeting of another model", ("witness", MODEL, CHASED, "old.png", "--advisory", "descend"), "line: response does not meet descend in "),
    ("no separations", ("separation", MODEL, "replay.txt", "old.png"), "replay.txt line 1: columns are "),
    ("no such box", ("separation", MODEL, "separations.txt", "old.png", "--box", "1"), "separations.txt: box 1 is not there"),
    ("ending", ("policy", MODEL, TABLE, "old.gif", *LEVEL), "old.gif: ending is none of .png, .svg and .pdf"),
    ("too many points", ("policy", MODEL, TABLE, "old.png", *LEVEL, "--size", "40x40", "--dpi", "2400"), "words: size makes 96000 by 96000 points"),
    ("no folder", ("policy", MODEL, TABLE, "nowhere/new.png", *LEVEL), "nowhere/new.png: cannot be written: No such file or directory"),
    ("folder", ("policy", MODEL, TABLE, "folder.png", *LEVEL), "folder.png: cannot be written: Is a directory"),
]
WRONG = [
    ("no command", (), "the following arguments are required: COMMAND"),
    ("other command", ("draw",), "argument COMMAND: invalid choice: 'draw'"),
    ("too few words", ("policy", MODEL, TABLE), "the following arguments are required: PICTURE, --present, --own, --intruder"),
    ("no rate", ("cost", MODEL, TABLE, "old.png", *LEVEL[:2], "--own", "up", *LEVEL[4:]), "argument --own: invalid int value"),
    ("word of another command", ("witness", MODEL, REPORTED, "old.png", "--own", "0"), "unrecognized arguments: --own 0"),
    ("size", ("policy", MODEL, TABLE, "old.png", *LEVEL, "--size", "7"), "argument --size: '7' is not WIDTHxHEIGHT, each 1 to 40 inches"),
    ("great size", ("policy", MODEL, TABLE, "old.png", *LEVEL, "--size", "7x41"), "argument --size: '7x41' is not WIDTHxHEIGHT, each 1 to 40"),
    ("dpi", ("policy", MODEL, TABLE, "old.png", *LEVEL, "--dpi", "-1"), "argument --dpi: '-1' is not a whole number from 20 to 2400"),
    ("half of an intruder", ("witness", MODEL, CHASED, "old.png", "--against", "480"), "argument --against: expected 2 arguments"),
    ("no box", ("separation", MODEL, "separations.txt", "old.png", "--box", "first"), "argument --box: invalid int value"),
    ("two lines in a word", ("policy", MODEL, TABLE, "old.png", *LEVEL, "a\nb"), "unrecognized arguments: a b"),
]


@pytest.mark.parametrize(("name", "words", "fault"), BAD, ids=[name for name, _, _ in BAD])
def test_bad_input_is_one_line_and_nothing_is_written(files, monkeypatch, name, words, fault):
    monkeypatch.chdir(files)
    (files / "folder.png").mkdir()
    before = sorted(files.iterdir())
    ended = plot(*words)
    assert ended.returncode == 1 and ended.stdout == ""
    assert ended.stderr.startswith(f"acas_plot: {fault}") and ended.stderr.count("\n") == 1 and ended.stderr.endswith("\n")
    assert sorted(files.iterdir()) == before
    assert (files / "old.png").read_bytes() == b"old"


@pytest.mark.parametrize("options", [("-B",), ("-S",)], ids=["with packages", "without packages"])
@pytest.mark.parametrize(("name", "words", "fault"), WRONG, ids=[name for name, _, _ in WRONG])
def test_wrong_words_are_one_line_and_the_code_2(files, monkeypatch, options, name, words, fault):
    """Also where no package is installed, as without the folders of packages."""
    monkeypatch.chdir(files)
    command = [sys.executable, *options, str(PLOT), *map(str, words)]
    ended = subprocess.run(command, capture_output=True, text=True, check=False)
    assert (ended.returncode, ended.stdout) == (2, "")
    assert ended.stderr.startswith(f"acas_plot: words: {fault}") and ended.stderr.count("\n") == 1
    assert ended.stderr.endswith("; use: acas_plot COMMAND ..; acas_plot --help says more\n")
    assert (files / "old.png").read_bytes() == b"old"


def test_missing_package_is_named():
    command = [sys.executable, "-S", str(PLOT), "policy", str(MODEL), str(TABLE), "a.png", *LEVEL]
    ended = subprocess.run(command, capture_output=True, text=True, check=False)
    lacking = "acas_plot needs the Python package numpy and matplotlib: apt-get install python3-numpy python3-matplotlib\n"
    assert (ended.returncode, ended.stdout, ended.stderr) == (2, "", lacking)
