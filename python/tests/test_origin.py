"""What python/acas_run writes, and that a report or a replay of other files is refused by it."""
import hashlib
import json
import shutil
import subprocess
import sys
import warnings
from pathlib import Path

import pytest
from conftest import EXAMPLES, TOP

from acas_origin import digest_of, origin_of
from acas_table import Fault, check_origin, read_model, read_replay_of, read_report_of, read_risk_of, read_safeable_of, read_table
from test_command import CELLS, plot

RUN = TOP / "python" / "acas_run"
WORDS = ("audit", "c.toml", "c.acxt")


@pytest.fixture
def folder(tmp_path, monkeypatch) -> Path:
    """A folder with a model and its table, in which the scripts are called."""
    for name in ("c.toml", "c.acxt"):
        shutil.copy(EXAMPLES / name, tmp_path)
    monkeypatch.chdir(tmp_path)
    return tmp_path


def run(acas, *words) -> subprocess.CompletedProcess:
    """A run of acas_run with the program of the tests."""
    command = [sys.executable, "-S", str(RUN), "--acas", acas.program, *map(str, words)]
    return subprocess.run(command, capture_output=True, text=True, check=False)


def dearer(folder: Path) -> Path:
    """The model with another cost of contact, which no report shows."""
    text = (folder / "c.toml").read_text()
    (folder / "dear.toml").write_text(text.replace("contact = 5", "contact = 7"))
    assert (folder / "dear.toml").read_text() != text
    return folder / "dear.toml"


def test_report_and_what_it_is_of(acas, folder):
    ended = run(acas, "out", *WORDS)
    assert (ended.returncode, ended.stdout, ended.stderr) == (1, "", "")
    assert (folder / "out").read_text() == acas.output("audit", folder / "c.toml", folder / "c.acxt")
    digests = {name: hashlib.sha256((folder / name).read_bytes()).hexdigest() for name in ("out", "c.toml", "c.acxt")}
    assert json.loads((folder / "out.from").read_text()) == {
        "version": 1, "words": list(WORDS), "code": 1, "output": digests["out"],
        "files": {"model": digests["c.toml"], "table": digests["c.acxt"]},
    }
    assert sorted(path.name for path in folder.iterdir()) == ["c.acxt", "c.toml", "out", "out.from"]


@pytest.mark.parametrize("words", [
    ("values", "c.toml"), ("check", "c.toml", "c.acxt"), (*WORDS, "--reported"), ("regions", "d.toml", "d-boxes.toml"),
    ("replay", "c.toml", "c.acxt", "e.toml"), ("risk", "c.toml", "c.acxt"), ("safeable", "c.toml", "c.acxt"),
    ("manoeuvre", "d.toml", "d-boxes.toml", "480", "1500"),
])
def test_each_command_that_prints(acas, folder, words):
    for name in ("d.toml", "d-boxes.toml"):
        shutil.copy(EXAMPLES / name, folder)
    numbers = "".join(f"{key} = {value}\n" for key, value in (("range", 500), ("closing", 500), ("altitude", 101), ("own", 0), ("intruder", 0)))
    (folder / "e.toml").write_text(f'version = 1\nadvisory = "clear"\n{numbers}own_accel = [0, 0]\nintruder_accel = [0, 0]\n')
    plain = subprocess.run([acas.program, *words], capture_output=True, text=True, check=False)
    ended = run(acas, "out", *words)
    assert plain.returncode in (0, 1) and ended.returncode == plain.returncode
    origin = origin_of((folder / "out.from").read_text())
    assert (folder / "out").read_text() == plain.stdout and origin.words == words and origin.code == plain.returncode
    assert sorted(origin.files.values()) == sorted(digest_of(word) for word in words[1:] if word.endswith(("toml", "acxt")))


@pytest.mark.parametrize(("words", "code", "said"), [
    (("audit", "nowhere.toml", "c.acxt"), 3, "acas: absent: nowhere.toml\n"),
    (("audit", "c.toml", "c.toml"), 5, "acas: table refused: "),
    (("check", "c.acxt", "c.acxt"), 4, "acas: model refused: "),
    (("audit", "c.toml"), 2, "use: acas_run "),
    (("compile", "c.toml", "new.acxt"), 2, "use: acas_run "),
    (("migrate", "c.toml", "c.acxt", "new.acxt"), 2, "use: acas_run "),
    (("manoeuvre", "c.toml", "c.acxt", "480"), 2, "use: acas_run "),
    (("manoeuvre", "c.toml", "c.acxt", "480", "0"), 2, "acas: words refused\n"),
    (("manoeuvre", "c.toml", "c.toml", "480", "1500"), 6, "acas: input refused: "),
])
def test_what_acas_refuses_is_not_written(acas, folder, words, code, said):
    """The code and the line are those of acas, and the files that were there stay."""
    run(acas, "out", *WORDS)
    before = {path.name: path.read_bytes() for path in folder.iterdir()}
    ended = run(acas, "out", *words)
    assert ended.returncode == code and ended.stdout == "" and ended.stderr.startswith(said)
    assert {path.name: path.read_bytes() for path in folder.iterdir()} == before


def test_file_that_changes_meanwhile(acas, folder):
    changing = folder / "changing"
    changing.write_text(f'#!/bin/sh\necho >>c.toml\nexec "{acas.program}" "$@"\n')
    changing.chmod(0o755)
    ended = subprocess.run([sys.executable, "-S", RUN, "--acas", changing, "out", "values", "c.toml"], capture_output=True, text=True, check=False)
    assert (ended.returncode, ended.stderr) == (7, "acas_run: out: not written: a file has changed while acas ran\n")
    assert not (folder / "out").exists() and not (folder / "out.from").exists()


def test_files_that_are_read_are_not_written_over(acas, folder):
    before = (folder / "c.toml").read_bytes()
    ended = run(acas, "./c.toml", *WORDS)
    assert (ended.returncode, ended.stderr) == (7, "acas_run: ./c.toml: would be written over, and is read\n")
    assert (folder / "c.toml").read_bytes() == before


def test_report_of_a_model_that_differs_in_costs_alone(acas, folder):
    run(acas, "out", *WORDS)
    assert plot("verdicts", "c.toml", "out", "p.png", *CELLS, "--table", "c.acxt").stderr == ""
    (folder / "p.png").unlink()
    ended = plot("verdicts", dearer(folder), "out", "p.png", *CELLS)
    found = digest_of(folder / "dear.toml")
    line = f"other model {digest_of('c.toml')} found {found} of {folder}/dear.toml: out.from has it from acas audit c.toml c.acxt"
    assert (ended.returncode, ended.stderr) == (1, f"acas_plot: out: {line}\n")
    assert not (folder / "p.png").exists()


def test_report_of_another_table(acas, folder):
    acas.output("compile", folder / "c.toml", folder / "new.acxt")
    run(acas, "out", *WORDS)
    model = read_model("c.toml")
    assert check_origin("out", model, read_table("c.acxt", model)).code == 1
    with pytest.raises(Fault, match="^out: other table "):
        check_origin("out", model, read_table("new.acxt", model))
    ended = plot("verdicts", "c.toml", "out", "p.png", *CELLS, "--table", "new.acxt")
    assert ended.returncode == 1 and ended.stderr.startswith("acas_plot: out: other table ")


def test_report_of_the_same_table_in_another_version(acas, folder):
    """Its lines are the same, and its bytes are not: it is another table, until it is audited too."""
    acas.output("migrate", folder / "c.toml", folder / "c.acxt", folder / "new.acxt")
    run(acas, "out", *WORDS)
    model = read_model("c.toml")
    with pytest.raises(Fault, match="^out: other table "):
        read_report_of("out", model, read_table("new.acxt", model))
    first = (folder / "out").read_text()
    run(acas, "out", "audit", "c.toml", "new.acxt")
    assert (folder / "out").read_text() == first
    assert read_report_of("out", model, read_table("new.acxt", model)).reported == 1


def test_text_that_was_changed_behind_its_origin(acas, folder):
    run(acas, "out", *WORDS)
    (folder / "out").write_text((folder / "out").read_text().replace("-960", "-961"))
    with pytest.raises(Fault, match="^out: text is not the one of out.from$"):
        check_origin("out", read_model("c.toml"))


@pytest.mark.parametrize("text", ["", "{}", "[]", '{"version": 2, "words": [], "code": 0, "output": "", "files": {}}',
                                  '{"version": 1, "words": [], "code": 0, "output": "ab", "files": {}}'])
def test_origin_that_is_none(folder, text):
    (folder / "out").write_text("")
    (folder / "out.from").write_text(text)
    with pytest.raises(Fault, match="^out.from: origin is none: "):
        check_origin("out", read_model("c.toml"))


def test_report_without_an_origin_is_drawn_and_it_is_said(acas, folder):
    report = acas.output("audit", folder / "c.toml", folder / "c.acxt")
    (folder / "out").write_text(report)
    assert check_origin("out", read_model("c.toml")) is None
    ended = plot("verdicts", "c.toml", "out", "p.png", *CELLS)
    assert (ended.returncode, ended.stderr) == (0, "acas_plot: out: no out.from says of which model and table it is: acas_run writes one\n")
    ended = plot("verdicts", "c.toml", "-", "p.png", *CELLS, given=report)
    assert (ended.returncode, ended.stderr) == (0, "acas_plot: input: nothing says of which model and table it is\n")


def test_readers_of_files(acas, folder):
    """Without the file beside it a report is read with a warning; with it, without one, and refused where it is of another model."""
    model = read_model("c.toml")
    table = read_table("c.acxt", model)
    (folder / "out").write_text(acas.output("audit", folder / "c.toml", folder / "c.acxt"))
    with pytest.warns(UserWarning, match="^out: no out.from says of which model and table it is$"):
        assert read_report_of("out", model, table).reported == 1
    run(acas, "out", *WORDS)
    with warnings.catch_warnings():
        warnings.simplefilter("error")
        assert read_report_of("out", model, table).reported == read_report_of("out", model).reported == 1
    with pytest.raises(Fault, match="^out: other model "):
        read_report_of("out", read_model(dearer(folder)))


def test_replay_of_a_file(acas, folder):
    model = read_model("c.toml")
    numbers = "".join(f"{key} = {value}\n" for key, value in (("range", 500), ("closing", 500), ("altitude", 101), ("own", 0), ("intruder", 0)))
    (folder / "e.toml").write_text(f'version = 1\nadvisory = "clear"\n{numbers}own_accel = [0, 0]\nintruder_accel = [0, 0]\n')
    run(acas, "out", "replay", "c.toml", "c.acxt", "e.toml")
    assert len(read_replay_of("out", model, read_table("c.acxt", model)).seconds) == 2
    acas.output("compile", folder / "c.toml", folder / "new.acxt")
    with pytest.raises(Fault, match="^out: other table "):
        read_replay_of("out", model, read_table("new.acxt", model))


def test_risk_of_a_file(acas, folder):
    """A risk names neither model nor table: what acas_run writes beside it does."""
    model = read_model("c.toml")
    table = read_table("c.acxt", model)
    assert run(acas, "out", "risk", "c.toml", "c.acxt").returncode == 0
    assert len(read_risk_of("out", model, table).states) == len(read_risk_of("out", model).states) == 24
    level = ("--present", "clear", "--own", "0", "--intruder", "0")
    assert plot("risk", "c.toml", "out", "p.png", *level, "--table", "c.acxt").stderr == ""
    (folder / "p.png").unlink()
    ended = plot("risk", dearer(folder), "out", "p.png", *level)
    assert ended.returncode == 1 and ended.stderr.startswith("acas_plot: out: other model ") and not (folder / "p.png").exists()
    acas.output("compile", folder / "c.toml", folder / "new.acxt")
    with pytest.raises(Fault, match="^out: other table "):
        read_risk_of("out", model, read_table("new.acxt", model))


def test_clear_cells_of_a_file(acas, folder):
    """A report on clear cells names neither model nor table, and is drawn with the audit of the same table alone."""
    model = read_model("c.toml")
    table = read_table("c.acxt", model)
    for out, command in (("report", "audit"), ("out", "safeable")):
        assert run(acas, out, command, "c.toml", "c.acxt").returncode in (0, 1)
    assert read_safeable_of("out", model, table).near == read_safeable_of("out", model).near == 2
    assert plot("safeable", "c.toml", "report", "out", "p.png", *CELLS, "--table", "c.acxt").stderr == ""
    (folder / "p.png").unlink()
    ended = plot("safeable", dearer(folder), "report", "out", "p.png", *CELLS)
    assert ended.returncode == 1 and ended.stderr.startswith("acas_plot: report: other model ") and not (folder / "p.png").exists()
    acas.output("compile", folder / "c.toml", folder / "new.acxt")
    with pytest.raises(Fault, match="^out: other table "):
        read_safeable_of("out", model, read_table("new.acxt", model))
