"""Studies: three small models from end to end, a run that is interrupted, and what is said of bad input."""
import csv
import os
import shutil
import signal
import subprocess
import sys
import time
from importlib.machinery import SourceFileLoader
from importlib.util import module_from_spec, spec_from_loader
from pathlib import Path

import pytest
from conftest import EXAMPLES, TOP

from acas_origin import digest_of, origin_of
from acas_study.columns import COUNTED, DIGESTS
from acas_study.command import FOLDERS, lock, prepare
from acas_study.description import check_columns, read_study
from acas_study.rows import row_of
from acas_study.texts import set_key, text_of
from acas_study.trade import Point, draw_trade
from acas_table import Fault, read_model, read_report, read_risk, read_safeable, read_table
from acas_table.model import model_of
from acas_texts.document import document_of
from test_risk import TEXT as RISK

RUN = TOP / "study" / "run"
TRADE = EXAMPLES / "trade"
# examples/c.toml with 1, 2 and 3 as the cost of contact.
STUDY = """version = 1
model = "c.toml"
[[vary]]
name = "contact"
keys = ["cost.contact"]
from = 1
to = 3
by = 1
"""
# Of examples/d.toml: the means over the 24 states under clear, of its upper bounds with the table and its lower ones without.
RISK_OF_D = {"mean_risk": "0.192516", "mean_risk_clear": "0.216044", "risk_ratio": "0.891094"}
# And its clear cells, of which 496 of 680 are open.
CELLS_OF_D = {"safeable": "160", "open": "496", "near": "24", "open_share": "0.7294"}


@pytest.fixture
def study(tmp_path) -> Path:
    shutil.copy(EXAMPLES / "c.toml", tmp_path)
    path = tmp_path / "study.toml"
    path.write_text(STUDY)
    return path


def run(acas, *words) -> subprocess.CompletedProcess:
    """A run of a study with the program of the tests."""
    command = [sys.executable, "-B", str(RUN), "--acas", acas.program, *map(str, words)]
    return subprocess.run(command, capture_output=True, text=True, check=False)


def rows_of(results: Path) -> list[dict[str, str]]:
    with open(results / "study.csv", encoding="utf-8", newline="") as file:
        return list(csv.DictReader(file))


def test_three_models_of_a_folder(acas, tmp_path):
    """All cells of d.toml with an advice are reported; the tables of b.toml and c.toml advise nothing."""
    models, results = tmp_path / "models", tmp_path / "results"
    models.mkdir()
    for name in ("b.toml", "c.toml", "d.toml"):
        shutil.copy(EXAMPLES / name, models)
    ended = run(acas, models, results)
    assert (ended.returncode, ended.stdout) == (0, f"studied 3 models: {results}/study.csv {results}/page.html\n")
    assert ended.stderr == f"study: 3 models; what Snakemake says goes to {results}/snakemake.log\n"
    assert "20 of 20 steps (100%) done" in (results / "snakemake.log").read_text()
    rows = {row["model"]: row for row in rows_of(results)}
    assert list(rows) == ["b", "c", "d"]
    files = {"model": digest_of(results / "models" / "d.toml"), "table": digest_of(results / "tables" / "d.acxt")}
    assert rows["d"] == {
        "model": "d", "layers": "31", "states": "96", "bytes": "51644", "cells": "720", "advised": "40", "lines": "40",
        "certified": "0", "reported": "40", "clear": "680", "advised_share": "0.0556", "reported_share": "1.0000", **RISK_OF_D, **CELLS_OF_D,
        "model_sha256": files["model"], "table_sha256": files["table"],
    }
    assert (rows["c"]["cells"], rows["c"]["clear"], rows["c"]["reported_share"]) == ("3", "3", "0.0000")
    page = (results / "page.html").read_text(encoding="utf-8")
    pictures = ["trade", *(f"{name}-{kind}" for name in "bcd" for kind in ("policy", "verdicts", "risk", "safeable"))]
    for picture in pictures:
        assert f'src="pictures/{picture}.png"' in page
        assert (results / "pictures" / f"{picture}.png").read_bytes().startswith(b"\x89PNG")
    assert (results / "checks" / "d.txt").read_text() == "accepted layers 31 states 96\n"
    origin = origin_of((results / "reports" / "d.txt.from").read_text())
    assert (origin.words, origin.code) == (("audit", "models/d.toml", "tables/d.acxt"), 1)
    assert origin.files == files
    assert all(origin_of((results / folder / "d.txt.from").read_text()).files == files for folder in ("risks", "safeables"))


def test_steps_of_a_model_and_of_the_study(acas, tmp_path, monkeypatch):
    """What the workflow calls for each model and at the end, in its order, without Snakemake."""
    models, results = tmp_path / "models", tmp_path / "results"
    models.mkdir()
    for name in ("b.toml", "d.toml"):
        shutil.copy(EXAMPLES / name, models)
    study = read_study(models)
    prepare(study, results)
    assert {path.name for path in results.iterdir()} == {*FOLDERS, "plan.json", "columns.json"}
    monkeypatch.chdir(results)
    step = [sys.executable, "-B", TOP / "study" / "step"]
    for name in ("b", "d"):
        files = [f"models/{name}.toml", f"tables/{name}.acxt"]
        acas.output("compile", *map(Path.absolute, map(Path, files)))
        for verb, folder in (("audit", "reports"), ("risk", "risks"), ("safeable", "safeables")):
            kept = [sys.executable, "-S", TOP / "python" / "acas_run", "--acas", acas.program, f"{folder}/{name}.txt", verb, *files]
            assert subprocess.run(kept, check=False).returncode in (0, 1)
        subprocess.run([*step, "row", name], check=True)
    subprocess.run([*step, "gather", "two"], check=True)
    rows = {row["model"]: row for row in rows_of(results)}
    assert {key: rows["d"][key] for key in RISK_OF_D | CELLS_OF_D} == RISK_OF_D | CELLS_OF_D and rows["b"]["mean_risk"] == "0.500001"
    assert [rows["b"][key] for key in CELLS_OF_D] == ["0", "2", "2", "0.5000"]
    page = (results / "page.html").read_text(encoding="utf-8")
    assert all((f"<th>{column}</th>" in page) == (column in COUNTED) for column in (*COUNTED, *DIGESTS))
    assert f"<td>{RISK_OF_D['risk_ratio']}</td>" in page and digest_of("tables/d.acxt") not in page
    assert [rows["b"][column] for column in DIGESTS] == [digest_of("models/b.toml"), digest_of("tables/b.acxt")]
    pictures = [f"pictures/{name}-{kind}.png" for name in "bd" for kind in ("risk", "safeable")]
    assert all(f'src="{picture}"' in page and Path(picture).is_file() for picture in pictures)
    os.remove("risks/d.txt.from")
    said = subprocess.run([*step, "row", "d"], capture_output=True, text=True, check=False)
    assert (said.returncode, said.stderr) == (1, "study: risks/d.txt: origin is missing: nothing says of which model and table it is\n")


def test_means_of_risks(acas):
    """Of examples/b.toml the eight chances under clear add up to 4: the bounds to 4.000007 and 3.999993."""
    model = read_model(EXAMPLES / "b.toml")
    table = read_table(acas.table(EXAMPLES / "b.toml"), model)
    report = read_report("certified 0 reported 0 clear 4\n")
    safeable = read_safeable("cell 1 clear 0 0 0 open\ncell 1 level 0 0 0 open\nsafeable 0 open 2 near 2\n")

    def means(text):
        row = row_of(model, table, report, read_risk(text), safeable)
        return [row.cell(name) for name in ("mean_risk", "mean_risk_clear", "risk_ratio")]

    assert means(RISK) == ["0.500001", "0.499999", "1.000004"]
    nothing = "".join(
        " ".join([*line.split(" ")[:4], *(f"{name} 0.000000 0.000000" for name in ("risk", "clear", "cost"))]) + "\n"
        for line in RISK.splitlines()[:-1]
    )
    assert means(nothing + "states 16\n") == ["0.000000", "0.000000", "nan"]


def test_trade_leaves_out_what_has_no_number():
    axes = draw_trade([Point("models", "a", 1, float("nan")), Point("models", "b", 2, 0.5)], "bytes", "risk_ratio", "").axes[0]
    assert [line.get_xdata().tolist() for line in axes.lines] == [[2]] and axes.get_ylabel() == "ratio of the mean chances, at most"


def test_killed_run_goes_on(acas, study, tmp_path):
    """A run is killed, with all of its processes, while the third model's audit hangs; the next one leaves alone what was done."""
    results, hanging = tmp_path / "results", tmp_path / "hanging"
    hanging.write_text(f'#!/bin/sh\ncase $1.$2 in audit.*contact-3*) sleep 600;; esac\nexec "{acas.program}" "$@"\n')
    hanging.chmod(0o755)
    begun = [results / "reports" / "contact-3.txt.part", *(results / "rows" / f"contact-{number}.csv" for number in (1, 2))]
    kept = [results / "tables" / "contact-3.acxt", *(results / "reports" / f"contact-{number}.txt" for number in (1, 2))]
    command = [sys.executable, "-B", RUN, "--acas", hanging, study, results, "--cores", "2"]
    with subprocess.Popen(command, stderr=subprocess.DEVNULL, start_new_session=True) as running:
        while not all(path.exists() for path in begun):
            assert running.poll() is None
            time.sleep(0.1)
        os.killpg(running.pid, signal.SIGKILL)
    assert not (results / "study.csv").exists()
    before = [path.stat().st_mtime_ns for path in kept]
    ended = run(acas, study, results)
    assert ended.returncode == 0, ended.stderr
    assert [path.stat().st_mtime_ns for path in kept] == before
    assert [(row["model"], row["contact"]) for row in rows_of(results)] == [(f"contact-{n}", str(n)) for n in (1, 2, 3)]
    ended = run(acas, study, results)
    assert ended.returncode == 0 and ended.stdout.startswith("studied 3 models: ")
    assert "Nothing to be done" in (results / "snakemake.log").read_text()


def test_older_results_without_the_digests(acas, study, tmp_path):
    """The next call makes the rows, the table and the page, and calls the program for none of the models."""
    results, idle = tmp_path / "results", tmp_path / "idle"
    idle.write_text(f'#!/bin/sh\n[ "$1" = values ] || exit 7\nexec "{acas.program}" "$@"\n')
    idle.chmod(0o755)
    assert run(acas, study, results).returncode == 0
    whole, rows = (results / "study.csv").read_text(), sorted((results / "rows").iterdir())
    texts = [path.read_text() for path in rows]
    for path, text in zip(rows, texts):
        path.write_text(",".join(text.rstrip("\n").split(",")[: len(COUNTED)]) + "\n")
    (results / "columns.json").unlink()
    # Of older results Snakemake has kept no digest of the columns.
    shutil.rmtree(results / ".snakemake")
    command = [sys.executable, "-B", RUN, "--acas", idle, study, results]
    ended = subprocess.run(command, capture_output=True, text=True, check=False)
    assert ended.returncode == 0 and ended.stdout.startswith("studied 3 models: "), ended.stderr
    assert [path.read_text() for path in rows] == texts and (results / "study.csv").read_text() == whole
    assert "5 of 5 steps (100%) done" in (results / "snakemake.log").read_text()


def test_step_that_fails(acas, study, tmp_path):
    """It is said which file was not made, and last that the study is not done; the log has what Snakemake says of the step."""
    results, failing = tmp_path / "results", tmp_path / "failing"
    failing.write_text(f'#!/bin/sh\ncase $1.$2 in check.*contact-3*) exit 7;; esac\nexec "{acas.program}" "$@"\n')
    failing.chmod(0o755)
    command = [sys.executable, "-B", RUN, "--acas", failing, study, results]
    ended = subprocess.run(command, capture_output=True, text=True, check=False)
    assert (ended.returncode, ended.stdout) == (1, "")
    log = f"{results}/snakemake.log"
    assert ended.stderr.splitlines() == [
        f"study: 3 models; what Snakemake says goes to {log}", "study: not made: checks/contact-3.txt",
        f"study: {results}: study is not done: Snakemake ended with the code 1, and {log} says why; the same command goes on",
    ]
    assert "Error in rule check" in (results / "snakemake.log").read_text()
    assert not (results / "study.csv").exists() and not (results / "checks" / "contact-3.txt").exists()


def test_dry_run_studies_nothing(acas, study, tmp_path):
    """Nothing is said to be there that is not; and once a model is changed, what is there is not said to be of it."""
    results = tmp_path / "results"
    ended = run(acas, study, results, "--dry-run")
    said = f"not studied: the further words leave out some of 20 steps that are to be done; {results}/snakemake.log has what Snakemake said\n"
    assert (ended.returncode, ended.stdout) == (0, said)
    assert not (results / "study.csv").exists() and not (results / "page.html").exists()
    assert "reports/contact-2.txt" in (results / "snakemake.log").read_text()
    assert run(acas, study, results).stdout.startswith("studied 3 models: ")
    assert run(acas, study, results, "-n").stdout.startswith("studied 3 models: ")
    model = study.parent / "c.toml"
    model.write_text(model.read_text().replace("greatest = ", "greatest = 1"))
    assert run(acas, study, results, "-n").stdout == said


def test_words_that_are_none_of_snakemakes(acas, study, tmp_path):
    """One line and the code 2, before anything is made, and no word of going on."""
    ended = run(acas, study, tmp_path / "results", "--zoom", "3")
    line = "study: words: unrecognized arguments: --zoom; use: study/run STUDY RESULTS ..; study/run --help says more\n"
    assert (ended.returncode, ended.stdout, ended.stderr) == (2, "", line)
    assert not (tmp_path / "results").exists()
    ended = run(acas, study, tmp_path / "results", "--cores", "many")
    last = ended.stderr.splitlines()[-1]
    assert ended.returncode == 1 and "Error parsing number of cores" in last and "goes on" not in last


def test_models_of_the_example():
    study = read_study(EXAMPLES / "trade" / "study.toml")
    assert [model.name for model in study.models[:3]] == ["cost-1-pull-240", "cost-1-pull-480", "cost-3-pull-240"]
    assert len(study.models) == 12 and (study.varied, study.across, study.up) == (("cost", "pull"), "advised_share", "reported_share")
    model = model_of(study.models[-2].text, "m")
    assert model.pull == 240 and {advisory.costs for advisory in model.advisories} == {(0, 300, 300)}


@pytest.mark.parametrize("name", ["a.toml", "b.toml", "c.toml", "d.toml", "e.toml"])
def test_written_model_is_the_read_one(name):
    path = EXAMPLES / name
    read, written = read_model(path), model_of(text_of(document_of(path.read_bytes(), name)).encode(), name)
    for field in ("horizon", "radius", "pull", "contact", "advisories", "sigma"):
        assert getattr(read, field) == getattr(written, field)
    assert read.altitude.tolist() == written.altitude.tolist()


def test_keys_by_their_paths():
    document = {"pilot": {"pull": 1}, "advisory": [{"costs": [1, 2]}, {"costs": [3, 4]}]}
    set_key(document, "pilot.delay", 5, "s")
    set_key(document, "advisory[].costs[1]", 9, "s")
    set_key(document, "advisory[0].costs[0]", 8, "s")
    assert document == {"pilot": {"pull": 1, "delay": 5}, "advisory": [{"costs": [8, 9]}, {"costs": [3, 9]}]}
    for path in ("pilots.pull", "advisory[2].costs[0]", "advisory[0].costs[2]", "pilot[].pull", "pilot.pull.least"):
        with pytest.raises(Fault, match=r"is not in the model"):
            set_key(document, path, 1, "s")
    with pytest.raises(Fault, match="is no path"):
        set_key(document, "pilot..pull", 1, "s")


@pytest.mark.parametrize(("old", "new", "fault"), [
    ("version = 1", "version = 2", "study.toml: key version value 2 outside 1 to 1"),
    ("by = 1", "by = 0", "study.toml: key vary[0].by value 0 outside 1 to 1000000000"),
    ("to = 3", "to = 0", "study.toml: key vary[0].values value 0 outside 1 to 10000"),
    ("by = 1", "", "study.toml: key vary[0].by missing"),
    ("to = 3", "to = 999999999", "study.toml: key vary[0].values value 999999999 outside 1 to 10000"),
    ("from = 1\nto = 3\nby = 1", "values = [1, 2, 1]", "study.toml: key vary makes two models of the name contact-1"),
    ('name = "contact"', 'name = "cells"', "study.toml: key vary makes two columns of the name cells"),
    ('name = "contact"', 'name = "risk_ratio"', "study.toml: key vary makes two columns of the name risk_ratio"),
    ('name = "contact"', 'name = "open_share"', "study.toml: key vary makes two columns of the name open_share"),
    ('name = "contact"', 'name = "model_sha256"', "study.toml: key vary makes two columns of the name model_sha256"),
    ('name = "contact"', 'name = "table_sha256"', "study.toml: key vary makes two columns of the name table_sha256"),
    ("[[vary]]", '[trade]\nacross = "advised"\nup = "model_sha256"\n[[vary]]', "study.toml: key trade.up model_sha256 is no column of numbers"),
    ("by = 1", "by = 1\nvalues = [1]", "study.toml: key vary[0].by unknown"),
    ("cost.contact", "cost.contacts", "study.toml contact-1: key cost.contacts unknown"),
    ('"cost.contact"]\nfrom = 1', '"horizon"]\nfrom = 0', "study.toml contact-0: key horizon is 0: there is nothing to audit"),
    ('"c.toml"', '"nowhere.toml"', "nowhere.toml: cannot be used: No such file or directory"),
    ("[[vary]]", '[trade]\nacross = "contact"\nup = "advice"\n[[vary]]', "study.toml: key trade.up advice is no column of numbers"),
])
def test_bad_studies_are_one_line_and_make_nothing(acas, study, tmp_path, old, new, fault):
    assert old in STUDY
    study.write_text(STUDY.replace(old, new, 1))
    ended = run(acas, study, tmp_path / "results")
    assert ended.returncode == 1 and ended.stdout == ""
    assert fault in ended.stderr and ended.stderr.count("\n") == 1
    assert not (tmp_path / "results").exists()


def broken_studies() -> list[tuple[str, bool, str]]:
    """The texts of schema/test that are broken studies, whether the schema refuses each, and what is said of it."""
    loader = SourceFileLoader("schema_test", str(TOP / "schema" / "test"))
    module = module_from_spec(spec_from_loader("schema_test", loader))
    loader.exec_module(module)
    return list(module.broken((TRADE / "study.toml").read_text(encoding="utf-8"), module.STUDIES))


@pytest.mark.parametrize(("text", "is_refused", "line"), broken_studies(), ids=lambda value: value if isinstance(value, str) and "\n" not in value else "")
def test_studies_that_the_schema_knows(tmp_path, text, is_refused, line):
    """What schema/test has a broken study for, is said of it; and what the schema refuses, is refused."""
    shutil.copy(TRADE / "model.toml", tmp_path)
    path = tmp_path / "study.toml"
    path.write_text(text)
    with pytest.raises(Fault) as fault:
        check_columns(read_study(path), str(path))
    assert str(fault.value).startswith(f"{path}: {line}")


def test_study_without_what_may_be_left_out(tmp_path):
    shutil.copy(TRADE / "model.toml", tmp_path)
    path = tmp_path / "study.toml"
    text = (TRADE / "study.toml").read_text(encoding="utf-8")
    path.write_text(text[: text.index("[trade]")])
    assert (read_study(path).across, read_study(path).up) == ("advised", "reported")


def test_folder_without_models_and_folder_in_use(acas, study, tmp_path):
    empty = tmp_path / "empty"
    empty.mkdir()
    assert run(acas, empty, tmp_path / "results").stderr == f"study: {empty}: models are missing: no file of the folder ends in .toml\n"
    (tmp_path / "results").mkdir()
    with lock(tmp_path / "results"):
        ended = run(acas, study, tmp_path / "results")
    assert (ended.returncode, ended.stderr) == (1, f"study: {tmp_path / 'results'}: folder is in use by another run\n")
