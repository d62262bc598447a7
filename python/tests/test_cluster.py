"""Studies whose steps are jobs of a cluster: a whole run, one whose job is lost, and one that is killed itself."""
import os
import signal
import subprocess
import sys
import time
from pathlib import Path

import pytest

from test_study import RUN, rows_of, run, study

__all__ = ["study"]


def test_cluster_executor_without_a_change(acas, study, tmp_path):
    """A cluster whose command for a job is the shell."""
    ended = run(acas, study, tmp_path / "results", "--cluster", "sh", "--jobs", "2")
    assert ended.returncode == 0, ended.stderr
    assert len(rows_of(tmp_path / "results")) == 3


# A scheduler with the words of Grid Engine: a job is a process group, whose number is that of the job.
SCHEDULER = {
    "qsub": """while [ $# -gt 1 ]; do [ "$1" != -o ] || log=$2; shift; done
setsid sh "$1" >"$log" 2>&1 </dev/null &
echo $!
""",
    "qstat": 'kill -0 "$2" 2>/dev/null || { echo "Following jobs do not exist: $2" >&2; exit 1; }; echo "job $2"\n',
    "qdel": 'for job; do kill -s KILL -- "-$job"; done\n',
}


@pytest.fixture
def cluster(acas, tmp_path, monkeypatch) -> Path:
    """The commands of a scheduler, and a program that hangs at the audit of the third model as long as a file is there."""
    commands = tmp_path / "commands"
    commands.mkdir()
    for name, text in SCHEDULER.items():
        (commands / name).write_text(f"#!/bin/sh\n{text}")
        (commands / name).chmod(0o755)
    monkeypatch.setenv("PATH", f"{commands}:{os.environ['PATH']}")
    monkeypatch.delenv("USER", raising=False)
    hanging = tmp_path / "hanging"
    wait = f"while [ -e {tmp_path}/hang ]; do sleep 0.1; done"
    hanging.write_text(f'#!/bin/sh\ncase $1.$2 in audit.*contact-3*) {wait};; esac\nexec "{acas.program}" "$@"\n')
    hanging.chmod(0o755)
    return hanging


def begun(hanging, study, results) -> subprocess.Popen:
    words = [sys.executable, "-B", RUN, study, results, "--profile", "study/cluster", "--acas", hanging]
    pipes = {"stdout": subprocess.PIPE, "stderr": subprocess.PIPE, "text": True}
    return subprocess.Popen(words, start_new_session=True, **pipes)


def wait_for_the_third(results: Path, running: subprocess.Popen) -> str:
    """The number of the job that hangs, once the other two are done."""
    while len(list((results / "rows").glob("*.csv"))) < 2 or len(jobs := list((results / "jobs").glob("*.json"))) != 1:
        assert running.poll() is None
        time.sleep(0.1)
    return jobs[0].stem


def test_cluster_profile(cluster, study, tmp_path):
    """One job a model. One is killed: the others are done, it is said, and the next call makes what is left."""
    results = tmp_path / "results"
    (tmp_path / "hang").touch()
    with begun(cluster, study, results) as running:
        os.killpg(int(wait_for_the_third(results, running)), signal.SIGKILL)
        output, error = running.communicate()
    assert (running.returncode, output) == (1, "")
    assert "study: not made: rows/contact-3.csv\n" in error and error.endswith("says why; the same command goes on\n")
    assert (results / "snakemake.log").read_text().count("with external jobid") == 3
    (tmp_path / "hang").unlink()
    before = [path.stat().st_mtime_ns for path in sorted((results / "rows").glob("*.csv"))]
    with begun(cluster, study, results) as running:
        output, error = running.communicate()
    assert running.returncode == 0 and output.startswith("studied 3 models: "), error
    assert [path.stat().st_mtime_ns for path in sorted((results / "rows").glob("*.csv"))][:2] == before
    assert (results / "snakemake.log").read_text().count("with external jobid") == 1
    assert list((results / "jobs").iterdir()) == []


def test_cluster_run_that_is_killed(cluster, study, tmp_path):
    """The job that it leaves is cancelled by the next run, and its steps are done anew."""
    results = tmp_path / "results"
    (tmp_path / "hang").touch()
    with begun(cluster, study, results) as running:
        job = int(wait_for_the_third(results, running))
        os.killpg(running.pid, signal.SIGKILL)
    os.kill(job, 0)
    (tmp_path / "hang").unlink()
    with begun(cluster, study, results) as running:
        output, error = running.communicate()
    assert running.returncode == 0 and output.startswith("studied 3 models: "), error
