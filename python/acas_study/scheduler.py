"""Jobs of a study that a scheduler of a cluster runs: how each is submitted, how it ends, and how it is cancelled.

A job writes down by which code it ends, so that no accounting of the scheduler's is needed. Of one that has written nothing the
scheduler is asked now and then, and a job that it does not have any more is lost. It needs no package. All paths are those of the folder
of the results, in which Snakemake calls these functions.
"""
import json
import os
import re
import shlex
import subprocess
import sys
import time
from pathlib import Path
from typing import Iterator

JOBS = Path("jobs")
"""The folder for what is known of the jobs."""
PROFILE = "ACAS_PROFILE"
"""The variable with the profile's folder, in which the file `commands` is."""
EVERY = 5
"""So many seconds pass at least between two questions for one job."""
AGAIN = (2, 5)
"""So many seconds pass before a job is submitted again which the scheduler did not take."""
GRACE = 10
"""So many seconds what a job has written down may take until it is seen, once the scheduler has the job no more."""
SCRIPT = """#!/bin/sh
# A job of a study: it runs the steps below, and writes down by which code they end.
cd {folder} || exit 1
(
{steps}
)
code=$?
echo "$code" >{mark}.part && mv {mark}.part {mark}
exit "$code"
"""


class Failed(Exception):
    """A command of the scheduler that failed, in one line."""


def commands_of(profile: Path) -> dict[str, str]:
    """The lines NAME = WORDS of the file `commands` of a profile."""
    lines = (profile / "commands").read_text(encoding="utf-8").splitlines()
    named = (line.split("=", 1) for line in lines if "=" in line and not line.startswith("#"))
    return {name.strip(): words.strip() for name, words in named}


def ran(words: list[str]) -> subprocess.CompletedProcess[str]:
    """A command of the scheduler, and what it says on both outputs."""
    try:
        return subprocess.run(words, stdout=subprocess.PIPE, stderr=subprocess.STDOUT, text=True, check=False)
    except OSError as error:
        raise Failed(f"{words[0]}: {error.strerror}") from None


def name_of(properties: dict) -> str:
    """The name of a job: that of the model whose files it makes."""
    outputs = [Path(path) for path in properties.get("output", [])]
    models = [path.stem for path in outputs if path.parent.name == "tables"] or [path.stem for path in outputs]
    return re.sub(r"[^A-Za-z0-9_.-]", "_", "-".join(["acas", *models[:1]]))[:60]


def submit(script: Path, profile: Path) -> str:
    """Submits a job that Snakemake wrote, and gives its number."""
    text = script.read_text(encoding="utf-8")
    found = re.search(r"(?m)^# properties = (.*)$", text)
    properties = json.loads(found[1]) if found else {}
    name, resources = name_of(properties), properties.get("resources", {})
    JOBS.mkdir(exist_ok=True)
    token = f"{name}.{time.time_ns()}"
    own, mark = JOBS / f"{token}.sh", JOBS / f"{token}.ended"
    own.write_text(SCRIPT.format(folder=shlex.quote(os.getcwd()), steps=text, mark=shlex.quote(str(mark))), encoding="utf-8")
    known = {"name": name, "log": str(JOBS / f"{name}.log"), "memory": resources.get("mem_mb", 2000)}
    known["processors"] = resources.get("_cores", properties.get("threads", 1))
    words = [word.format_map(known) for word in shlex.split(commands_of(profile)["submit"])]
    ended = ran([*words, str(own)])
    for wait in AGAIN:
        if ended.returncode == 0:
            break
        time.sleep(wait)
        ended = ran([*words, str(own)])
    number = re.search(r"[0-9][A-Za-z0-9_.-]*", ended.stdout)
    if ended.returncode != 0 or number is None:
        raise Failed(f"{shlex.join(words)}: ended with {ended.returncode}: {' '.join(ended.stdout.split())}")
    write_record(number[0], {"token": token, "profile": str(profile), "asked": time.time(), "gone": None})
    return number[0]


def record_of(number: str) -> Path:
    """The file with what is known of a job."""
    return JOBS / f"{number}.json"


def write_record(number: str, record: dict) -> None:
    part = JOBS / f"{number}.part"
    part.write_text(json.dumps(record), encoding="utf-8")
    os.replace(part, record_of(number))


def is_known(number: str, profile: Path) -> bool:
    """Whether the scheduler has a job still; True too where it does not answer, since it may be away for a while."""
    commands = commands_of(profile)
    ended = ran([*shlex.split(commands["query"]), number])
    is_gone = not ended.stdout.strip() if ended.returncode == 0 else re.search(commands["gone"], ended.stdout, re.IGNORECASE)
    return not is_gone


def status(number: str) -> str:
    """How it stands with a job: `running`, which is said of one that waits too, `success` or `failed`."""
    file = record_of(number)
    if not file.exists():
        return "failed"
    record, now = json.loads(file.read_text(encoding="utf-8")), time.time()
    mark = JOBS / f"{record['token']}.ended"
    if mark.exists():
        is_good = mark.read_text(encoding="utf-8").strip() == "0"
        forget(number, record, is_good)
        return "success" if is_good else "failed"
    if record["gone"] is not None:
        if now - record["gone"] < GRACE:
            return "running"
        forget(number, record, False)
        return "failed"
    if now - record["asked"] >= EVERY:
        record |= {"asked": now, "gone": None if is_known(number, Path(record["profile"])) else now}
        write_record(number, record)
    return "running"


def forget(number: str, record: dict, with_log: bool) -> None:
    """Takes away what is known of a job, and where it went well also what it said."""
    token = record["token"]
    files = [record_of(number), JOBS / f"{token}.sh", JOBS / f"{token}.ended"]
    for file in files + [JOBS / f"{token.rsplit('.', 1)[0]}.log"] * with_log:
        file.unlink(missing_ok=True)


def cancel(numbers: list[str], profile: Path) -> None:
    """Cancels jobs."""
    ended = ran([*shlex.split(commands_of(profile)["cancel"]), *numbers])
    for number in numbers:
        if record_of(number).exists():
            forget(number, json.loads(record_of(number).read_text(encoding="utf-8")), False)
    if ended.returncode != 0:
        raise Failed(f"cancelling ended with {ended.returncode}: {' '.join(ended.stdout.split())}")


def left(results: Path) -> Iterator[tuple[str, dict]]:
    """The jobs that a run has left which was killed itself, each with what is known of it."""
    for file in sorted((results / JOBS).glob("*.json")):
        record = json.loads(file.read_text(encoding="utf-8"))
        if not (results / JOBS / f"{record['token']}.ended").exists():
            yield file.stem, record


def profile_here(script: str) -> Path:
    """The profile of this call: that which study/run names, or the folder of a script."""
    return Path(os.environ.get(PROFILE) or Path(script).resolve().parent)


def answer(call, *words) -> int:
    """The status of a call whose answer is printed."""
    try:
        said = call(*words)
    except Failed as fault:
        print(f"study: {fault}", file=sys.stderr)
        return 1
    if said is not None:
        print(said)
    return 0
