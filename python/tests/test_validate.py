"""schema/validate: what it says of each kind of file that is refused."""
import shutil
import subprocess
import sys

import pytest
from conftest import EXAMPLES, TOP

VALIDATE = TOP / "schema" / "validate"


def said(folder, *words) -> tuple[int, list[str]]:
    """The exit code and the lines of a call in a folder, by a Python without packages."""
    command = [sys.executable, "-B", "-S", VALIDATE, *map(str, words)]
    ended = subprocess.run(command, cwd=folder, capture_output=True, text=True, check=False)
    assert not ended.stderr, ended.stderr
    return ended.returncode, ended.stdout.splitlines()


@pytest.mark.parametrize(("example", "old", "new", "words", "lines"), [
    ("b.toml", "horizon = 2", "horizn = 2", [], [
        "t: model refused: key horizn unknown", "  line 5: horizn = 2", '  found: a key "horizn" at the top',
        "  wanted: one of the keys version, horizon, grid, puck, closing, pilot, cost, advisory, sigma",
        "  to do: nearest is horizon: write horizon in its place"]),
    ("a.toml", "least = 500", "least = 1", [], [
        "t: model refused: window 1000 over 600", "  line 32: least = 1",
        "  found: horizon 0 * closing.least 1 + 2 * puck.radius 500 = 1000, over 600 * closing.least = 600",
        "  wanted: The least closing speed in ft/s, 1 to 5000.",
        "  to do: one of these is enough: closing.least at least 2 (closing.greatest no less); puck.radius at most 300"]),
    ("b.toml", "version = 1", "version 1", [], [
        "t: model refused: not toml: line 4: `=` is wanted behind a key", "  line 4: version 1", "  found: `=` is wanted behind a key",
        "  to do: write KEY = VALUE, or # before a remark"]),
    ("b.toml", "radius = 500", "radius = 500.0", [], [
        "t: model refused: key puck.radius wrong kind", "  line 13: radius = 500.0", "  found: 500.0, a number that is no whole one",
        "  wanted: The puck's radius in feet, 1 to 5000. No value of the table depends on it.", "  to do: write 500, without a point"]),
    ("d-boxes.toml", 'advisory = "climb"', 'advisory = "Climb"', ["--model", EXAMPLES / "d.toml"], [
        "t: input refused: unknown advisory at 0", '  line 17: advisory = "Climb"', '  found: "Climb"',
        "  wanted: one of the advisories clear, climb, descend, level", "  to do: nearest is climb: write climb in its place"]),
    ("d-boxes.toml", "", "", ["--model", EXAMPLES / "d.toml", "--rate", "999"], [
        "t: input refused: rate at 3", "  line 57: intruder = [0, 1000]", "  found: [0, 1000]",
        "  wanted: The least and the greatest vertical rate of the intruder in ft/min, -10000 to 10000. Up is positive.",
        "  to do: write rates from -999 to 999, or give the intruder a rate of at least 1000 among the words"]),
    ("d-boxes.toml", "range = [10500, 11000]", "range = [10500, 299501]", ["--model", EXAMPLES / "d.toml", "--rate", "1"], [
        "t: input refused: window at 0", "  line 19: range = [10500, 299501]",
        "  found: range[1] 299501 + puck.radius 500 of the model = 300001, over 600 * closing[0] 500 = 300000",
        "  wanted: The least and the greatest range in feet, 0 to 3000000.",
        "  to do: one of these is enough: closing[0] at least 501; range[1] at most 299500"]),
    ("e-encounter.toml", "-300, -300, ", "", [], [
        "t: input refused: key intruder_accel value 26 outside 28 to 28", "  line 40: intruder_accel = [", "  found: 26 items",
        "  wanted: The intruder's acceleration in each second, in ft/min per second: as many numbers as in `own_accel`, each -2000 to 2000.",
        "  to do: own_accel in line 33 has 28: give as many"]),
    ("trade/study.toml", "pilot.pull", "pilot.pul", [], [
        "t: study refused: key pilot.pul unknown", '  line 18: keys = ["pilot.pul"]',
        "  found: the model cost-1-pull-240 is refused: key pilot.pul unknown",
        "  wanted: Keys of the model that are set to the same value, 1 to 100: `pilot.pull`, `advisory[1].costs[2]`, and "
        "`advisory[].costs[2]` in every advisory.", "  to do: nearest is pull"]),
    ("b.toml", "", "", ["--as", "boxes"], [
        "t: input refused: key advisory unknown", "  line 29: [[advisory]]", '  found: a key "advisory" at the top',
        "  wanted: one of the keys version, box", "  to do: advisory is a key of `box`: write it there, or take it out",
        "  note: by its keys it is a model: is it the right file, and in its place among the words?"]),
])
def test_refused(tmp_path, example, old, new, words, lines):
    text = (EXAMPLES / example).read_text(encoding="utf-8")
    assert old in text
    shutil.copy(EXAMPLES / "trade" / "model.toml", tmp_path)
    (tmp_path / "t").write_text(text.replace(old, new, 1) if old else text, encoding="utf-8")
    assert said(tmp_path, *words, "t") == (1, lines)


@pytest.mark.parametrize(("example", "what"), [
    ("b.toml", "a model"), ("e-encounter.toml", "an encounter beside a model with the advisory clear"),
    ("d-boxes.toml", "boxes beside a model with the advisories climb, descend, clear"), ("trade/study.toml", "a study of 12 models"),
])
def test_kinds_by_their_keys(tmp_path, example, what):
    """Without a line that names the schema."""
    _, text = (EXAMPLES / example).read_text(encoding="utf-8").split("\n", 1)
    shutil.copy(EXAMPLES / "trade" / "model.toml", tmp_path)
    (tmp_path / "t").write_text(text, encoding="utf-8")
    assert said(tmp_path, "t") == (0, [f"t: ok, {what}"])


def test_what_boxes_ask_of_a_model(tmp_path):
    """As the program refuses them beside a model with a greater puck, so they are ok beside one with a lesser."""
    text = (EXAMPLES / "d-boxes.toml").read_text(encoding="utf-8").replace("range = [10500, 11000]", "range = [10500, 299501]")
    (tmp_path / "t").write_text(text, encoding="utf-8")
    what = "boxes beside a model with the advisories climb, descend, clear and a puck.radius of at most 499"
    assert said(tmp_path, "t") == (0, [f"t: ok, {what}"])
    assert said(tmp_path, "--model", EXAMPLES / "d.toml", "t")[1][:3] == [
        "t: input refused: window at 0", "  line 19: range = [10500, 299501]",
        "  found: range[1] 299501 + puck.radius 500 of the model = 300001, over 600 * closing[0] 500 = 300000"]


def test_rates_of_an_intruder(tmp_path):
    """Boxes are ok with the greatest rate that one of them has, and without a model too; a rate that is none is no word."""
    for words in (("--rate", "1000"), ("--model", EXAMPLES / "d.toml", "--rate", "10000"), ()):
        assert said(tmp_path, *words, EXAMPLES / "d-boxes.toml")[0] == 0
    assert said(tmp_path, "--rate", "999", EXAMPLES / "d-boxes.toml")[1][0].endswith("input refused: rate at 3")
    for rate in ("0", "10001", "-1", "1.0", "one"):
        command = [sys.executable, "-B", "-S", VALIDATE, "--rate", rate, EXAMPLES / "d-boxes.toml"]
        assert subprocess.run(command, capture_output=True, check=False).returncode == 2


def test_a_refused_model_beside(tmp_path):
    (tmp_path / "m").write_text("version = 3\n", encoding="utf-8")
    code, lines = said(tmp_path, "--model", "m", EXAMPLES / "d-boxes.toml")
    assert code == 1 and lines[0] == "m: model refused: key version value 3 outside 1 to 2"


def test_a_long_file(tmp_path):
    (tmp_path / "t").write_bytes(b"#" * 1_000_001)
    assert said(tmp_path, "t")[1][0] == "t: too long"
