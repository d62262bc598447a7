"""Separations of boxes from an intruder that manoeuvres: what study/separation finds with a program whose verdicts are known, and readers."""
import subprocess
import sys
from fractions import Fraction
from importlib.machinery import SourceFileLoader
from importlib.util import module_from_spec, spec_from_loader
from pathlib import Path

import numpy as np
import pytest
from conftest import EXAMPLES, TOP
from test_command import plot

from acas_origin import digest_of, origin_of
from acas_study.separation import LIMIT, least, separations
from acas_table import Fault, check_origin, read_model, read_separations

SCRIPT = TOP / "study" / "separation"
TEXT = """box,accel,rate,below,above
0,1,1500,357,3070
0,480,1500,-101,3602
0,2000,1500,-130,3631
1,1,1500,none,none
1,2000,1500,none,none
2,480,1500,-10000,none
"""
# A program that reports a box where its altitudes have one from -10 - ACCEL to 5 + RATE ft, or all of them where the box is to be one of those.
PROGRAM = """#!{python}
import sys, tomllib
verb, model, boxes, accel, rate = sys.argv[1:]
assert verb == "manoeuvre" and model.endswith("d.toml") and 1 <= int(accel) <= 2000
with open({calls!r}, "a") as file:
    file.write(accel + "\\n")
with open(boxes, "rb") as file:
    boxes = tomllib.load(file)["box"]
for place, box in enumerate(boxes):
    if max(map(abs, box["intruder"])) > int(rate):
        print(f"acas: input refused: rate at {{place}}", file=sys.stderr)
        sys.exit(6)
reported = 0
for place, box in enumerate(boxes):
    least, greatest = box["altitude"]
    is_met = box["advisory"] == "level" or least <= 5 + int(rate) and greatest >= -10 - int(accel)
    reported += is_met
    print(f"box {{place}} " + ("reported time 1" if is_met else "certified"))
print(f"certified {{len(boxes) - reported}} reported {{reported}}")
sys.exit(reported > 0)
"""
BOX = """[[box]]
advisory = "{}"
range = [10500, 11000]
closing = [500, 500]
altitude = [0, 7]
own = [0, 0]
intruder = [{}, 0]
"""


@pytest.fixture
def stub(tmp_path) -> Path:
    path = tmp_path / "stub"
    path.write_text(PROGRAM.format(python=sys.executable, calls=str(tmp_path / "calls")))
    path.chmod(0o755)
    return path


def boxes(folder: Path, *named: tuple[str, int]) -> Path:
    """A file of boxes, each with an advisory and a least rate of the intruder."""
    path = folder / "boxes.toml"
    path.write_text("version = 1\n" + "".join(BOX.format(*one) for one in named))
    return path


def run(*words) -> subprocess.CompletedProcess:
    """A run of the script by a Python without packages."""
    return subprocess.run([sys.executable, "-B", "-S", SCRIPT, *map(str, words)], capture_output=True, text=True, check=False)


@pytest.mark.parametrize(("border", "found"), [
    (-LIMIT - 1, -LIMIT), (-LIMIT, -LIMIT), (-LIMIT + 1, -LIMIT + 1), (-1, -1), (0, 0), (1, 1), (6383, 6383), (LIMIT, LIMIT), (LIMIT + 1, None),
])
def test_least_altitude_by_halving(border, found):
    """Each altitude that is asked about is one that a box may have."""
    asked = []

    def are_enough(altitudes):
        asked.extend(altitudes)
        return [altitude >= border for altitude in altitudes]

    assert least(are_enough, 2) == [found, found]
    assert len(asked) == 30 and all(-LIMIT <= altitude <= LIMIT for altitude in asked)


def test_sides_of_boxes():
    """A box is reported from -100.5 to 3601.2 ft, another one nowhere, and a third everywhere. The other keys stay as they are."""
    spans = [(Fraction(-201, 2), Fraction(18006, 5)), (1, 0), (-LIMIT, LIMIT)]

    def ask(asked):
        assert all(set(box) == {"own", "altitude"} and -LIMIT <= box["altitude"][0] <= box["altitude"][1] <= LIMIT for box in asked)
        return [not (max(box["altitude"][0], spans[box["own"]][0]) <= min(box["altitude"][1], spans[box["own"]][1])) for box in asked]

    assert separations(ask, [{"own": place, "altitude": [1, 1]} for place in range(3)]) == [(-101, 3602), (LIMIT, -LIMIT), (None, None)]


def test_table_of_two_boxes(stub, tmp_path):
    """The borders are those of the stub, by box and acceleration; there are fifteen runs for each acceleration, and one before all."""
    out, two = tmp_path / "out.csv", boxes(tmp_path, ("climb", 0), ("level", -1500))
    ended = run("--acas", stub, "--accels", "1,480,2000", EXAMPLES / "d.toml", two, 1500, out)
    assert (ended.returncode, ended.stdout, ended.stderr) == (0, "", "")
    assert out.read_text() == (
        "box,accel,rate,below,above\n0,1,1500,-12,1506\n0,480,1500,-491,1506\n0,2000,1500,-2011,1506\n"
        "1,1,1500,none,none\n1,480,1500,none,none\n1,2000,1500,none,none\n"
    )
    assert (tmp_path / "calls").read_text().split() == ["1"] + ["1"] * 15 + ["480"] * 15 + ["2000"] * 15
    origin = origin_of((tmp_path / "out.csv.from").read_text())
    assert origin.words == ("manoeuvre", str(EXAMPLES / "d.toml"), str(two), "1,480,2000", "1500") and origin.output == digest_of(out)
    assert origin.files == {"model": digest_of(EXAMPLES / "d.toml"), "boxes": digest_of(two)}
    assert sorted(path.name for path in tmp_path.iterdir()) == ["boxes.toml", "calls", "out.csv", "out.csv.from", "stub"]


def test_table_is_drawn_with_its_model(stub, tmp_path):
    out = tmp_path / "out.csv"
    assert run("--acas", stub, "--accels", "1,480", EXAMPLES / "d.toml", boxes(tmp_path, ("climb", 0)), 1500, out).returncode == 0
    ended = plot("separation", EXAMPLES / "d.toml", out, tmp_path / "p.png")
    assert (ended.returncode, ended.stderr) == (0, "") and (tmp_path / "p.png").read_bytes().startswith(b"\x89PNG")
    assert check_origin(out, read_model(EXAMPLES / "d.toml")).code == 0
    ended = plot("separation", EXAMPLES / "d-late.toml", out, tmp_path / "q.png")
    assert ended.returncode == 1 and ended.stderr.startswith(f"acas_plot: {out}: other model ") and not (tmp_path / "q.png").exists()


def test_accelerations_that_are_not_given():
    loader = SourceFileLoader("separation", str(SCRIPT))
    script = module_from_spec(spec_from_loader("separation", loader))
    loader.exec_module(script)
    assert script.parts(["m", "b", "1500", "o"]) == (str(TOP / "acas"), [1, *range(100, 2001, 100)], "m", "b", 1500, "o")


def test_borders_by_hand(tmp_path):
    """Of the first box of the example, with bench/audits for the program: an intruder that climbs as the own aircraft does is met 100 ft below,
    and one that descends so 3601 ft above, where the highest climb is 432145.83 ticks over it after 23 s."""
    out, audits = tmp_path / "out.csv", TOP / "bench" / "audits"
    ended = run("--acas", audits, "--accels", "480", EXAMPLES / "d.toml", boxes(tmp_path, ("climb", 0)), 1500, out)
    assert (ended.returncode, ended.stderr) == (0, "") and out.read_text() == "box,accel,rate,below,above\n0,480,1500,-101,3602\n"


def test_refusals_of_the_program(stub, tmp_path):
    """Its code and its line, of the file that was given, and nothing is written."""
    two = boxes(tmp_path, ("climb", 0), ("level", -1501))
    words = ("--acas", stub, EXAMPLES / "d.toml", two, 1500, tmp_path / "out.csv")
    ended = run(*words)
    line = f"separation: acas manoeuvre {EXAMPLES / 'd.toml'} {two} 1 1500: ended with the code 6: acas: input refused: rate at 1\n"
    assert (ended.returncode, ended.stdout, ended.stderr) == (1, "", line)
    assert not (tmp_path / "out.csv").exists() and not (tmp_path / "out.csv.from").exists()
    two.write_text("version 1\n")
    assert run(*words).stderr.startswith(f"separation: {two}: not toml: line 1")


@pytest.mark.parametrize("words", [
    (), ("m", "b", "1500"), ("m", "b", "0", "o"), ("m", "b", "10001", "o"), ("m", "b", "01", "o"), ("m", "b", "1500", "o", "p"),
    ("--accels", "0", "m", "b", "1", "o"), ("--accels", "2001", "m", "b", "1", "o"), ("--accels", "2,1", "m", "b", "1", "o"),
    ("--accels", "1,1", "m", "b", "1", "o"), ("--accels", "", "m", "b", "1", "o"), ("--rate", "1", "m", "b", "1", "o"),
])
def test_wrong_words(words):
    ended = run(*words)
    assert (ended.returncode, ended.stdout) == (2, "") and ended.stderr.startswith("use: study/separation ") and ended.stderr.count("\n") == 1


def test_read_table():
    found = read_separations(TEXT)
    assert found.rows["box"].tolist() == [0, 0, 0, 1, 1, 2] and found.of(0)["accel"].tolist() == [1, 480, 2000]
    assert found.of(0)["below"].tolist() == [357, -101, -130] and found.of(0)["above"].tolist() == [3070, 3602, 3631]
    assert np.isnan(found.of(1)["below"]).all() and found.of(2)["below"].tolist() == [-10000]


@pytest.mark.parametrize(("text", "fault"), [
    ("", "separations line 1: columns are '', not box,accel,rate,below,above"),
    ("box,accel,rate,below,above", "separations line 1: end is missing: the text is cut off"),
    (TEXT[:-1], "separations line 7: end is missing: the text is cut off"),
    (TEXT.replace("above", "over"), "separations line 1: columns are 'box,accel,rate,below,over'"),
    (TEXT.replace(",3070", ""), "separations line 2: columns are 4, not 5"),
    (TEXT.replace("3070", "10001"), "separations line 2: above is '10001', not from -10000 to 10000"),
    (TEXT.replace("0,1,", "0,0,"), "separations line 2: accel is '0', not from 1 to 2000"),
    (TEXT.replace("0,1,", "0,none,"), "separations line 2: accel is 'none', not from 1 to 2000"),
    (TEXT.replace("3070", "357"), "separations line 2: above is 357, at or under below 357"),
    (TEXT.replace("0,480", "0,1"), "separations line 3: box 0 with accel 1 is out of order"),
    (TEXT.replace("2,480", "1,480"), "separations line 7: box 1 with accel 480 is out of order"),
])
def test_broken_tables_name_the_column(text, fault):
    with pytest.raises(Fault) as raised:
        read_separations(text)
    assert str(raised.value).startswith(fault)
