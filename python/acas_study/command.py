"""The command `study/run`."""
import argparse
import fcntl
import json
import os
import pwd
import re
import shutil
import subprocess
import sys
import time
from pathlib import Path
from typing import IO, Sequence

from acas_study import scheduler
from acas_study.columns import BEHIND
from acas_study.description import Study, check_columns, read_study
from acas_study.files import write_changed
from acas_study.steps import PLAN
from acas_study.words import TOP
from acas_texts import Fault

FOLDERS = ("models", "tables", "checks", "reports", "risks", "safeables", "rows", "pictures")
PROCESSORS = ("-c", "--cores", "-j", "--jobs", "--profile")
"""Snakemake's words that say how much runs at a time."""
DRY = frozenset(("-n", "--dry-run", "--dryrun"))
"""Snakemake's words for a run that does nothing."""
LOG = "snakemake.log"
"""The file of the results to which all goes that Snakemake and its steps say."""
COLUMNS = "columns.json"
"""The file of the results from which rows are made anew where they are of other columns."""
LOOK = """import sys
try:
    from snakemake.cli import get_argument_parser
except ImportError:
    from snakemake import get_argument_parser
sys.argv[0] = "snakemake"
get_argument_parser().parse_args(sys.argv[1:])
"""
"""Ends with 2, and a last line that says why, where words are none of Snakemake's."""
EVERY = 0.5
"""So many seconds pass between two looks at how far a run is."""
LONGEST_END = 30
"""So many seconds a cancelled job may take to end."""


def prepare(study: Study, results: Path) -> None:
    """Writes the models, the plan and the columns, where they are not yet there as they have to be."""
    for folder in FOLDERS:
        (results / folder).mkdir(parents=True, exist_ok=True)
    for model in study.models:
        write_changed(results / "models" / f"{model.name}.toml", model.text)
    models = {model.name: model.values for model in study.models}
    plan = {"varied": study.varied, "models": models, "across": study.across, "up": study.up}
    write_changed(results / PLAN, (json.dumps(plan, indent=1) + "\n").encode())
    write_changed(results / COLUMNS, (json.dumps(BEHIND, indent=1) + "\n").encode())


def lock(results: Path) -> IO[bytes]:
    """Keeps a second run out of the same folder, as long as the file that is given back is open, and no longer."""
    file = open(results / ".lock", "wb")
    try:
        fcntl.flock(file, fcntl.LOCK_EX | fcntl.LOCK_NB)
    except BlockingIOError:
        file.close()
        raise Fault(str(results), "folder", "is in use by another run") from None
    return file


def snakemake_words(results: Path, program: Path, title: str, others: Sequence[str]) -> list[str]:
    """The command that runs the workflow."""
    words = [sys.executable, "-m", "snakemake", "--snakefile", str(TOP / "study" / "Snakefile"), "--directory", str(results)]
    # The lock of this command ends with its process; Snakemake's own outlives a run that is killed.
    words += ["--nolock", "--rerun-incomplete", "--rerun-triggers", "mtime"]
    if not any(word.split("=")[0] in PROCESSORS for word in others):
        words += ["--cores", "all"]
    return [*words, *others, "--config", f"acas={program}", f"title={title}"]


def with_profile(others: Sequence[str], environment: dict[str, str]) -> list[str]:
    """The further words, with the whole path of a profile that is a folder here or in this repository; the scripts of the profile are
    told of it by the environment."""
    words = [part for word in others for part in (word.split("=", 1) if word.startswith("--profile=") else [word])]
    for place, word in enumerate(words[:-1]):
        if word == "--profile":
            for folder in (Path(words[place + 1]), TOP / words[place + 1]):
                if (folder / "config.yaml").is_file():
                    words[place + 1] = environment[scheduler.PROFILE] = str(folder.resolve())
                    return words
    return words


def user_name() -> str:
    """The name of the user, for which an executor of Snakemake's asks the variable USER; where there is none, the number."""
    try:
        return pwd.getpwuid(os.getuid()).pw_name
    except KeyError:
        return str(os.getuid())


def cancel_left(results: Path) -> None:
    """Cancels the jobs that a run has left which was killed itself, since this one does their steps."""
    numbers = []
    for number, record in scheduler.left(results):
        profile = Path(record["profile"])
        if scheduler.is_known(number, profile):
            scheduler.cancel([number], profile)
            numbers.append((number, profile))
    until = time.monotonic() + LONGEST_END
    while any(scheduler.is_known(*job) for job in numbers) and time.monotonic() < until:
        time.sleep(EVERY)
    shutil.rmtree(results / scheduler.JOBS, ignore_errors=True)
    if numbers:
        jobs, are = ("job", "is") if len(numbers) == 1 else ("jobs", "are")
        print(f"study: {len(numbers)} {jobs} of a run before {are} cancelled", file=sys.stderr)


def build(program: Path) -> None:
    """Has the program built before many processes call it."""
    example = TOP / "examples" / "a.toml"
    try:
        code = subprocess.run([program, "values", example], stdout=subprocess.DEVNULL, check=False).returncode
    except OSError as error:
        raise Fault(str(program), "program", f"cannot be run: {error.strerror}") from None
    if code != 0:
        raise Fault(str(program), "program", f"ends with the code {code} on {example}")


def refusal_of(others: Sequence[str]) -> str | None:
    """What Snakemake says of words that are none of its own; None where all are."""
    looked = subprocess.run([sys.executable, "-B", "-c", LOOK, *others], capture_output=True, text=True, check=False)
    if looked.returncode != 2:
        return None
    return " ".join(looked.stderr.strip().splitlines()[-1].removeprefix("snakemake: error:").split())


def wait_for(words: list[str], held: IO[bytes], log: Path, environment: dict[str, str]) -> int:
    """The exit code of a command, which holds the lock too, and all of whose words go to a file.

    Where both are interrupted it is waited for, since it ends by itself.
    """
    is_interrupted = False
    how = {"pass_fds": [held.fileno()], "env": environment}
    with open(log, "wb") as file, subprocess.Popen(words, stdout=file, stderr=file, **how) as running:
        while running.poll() is None:
            try:
                running.wait(EVERY)
            except subprocess.TimeoutExpired:
                show_progress(log)
            except KeyboardInterrupt:
                is_interrupted = True
    show_progress(log, is_over=True)
    if is_interrupted:
        raise KeyboardInterrupt
    return running.returncode


def show_progress(log: Path, is_over: bool = False) -> None:
    """How many steps of how many are done, for who waits at a terminal."""
    if sys.stderr.isatty():
        steps = re.findall(r"(?m)^(\d+ of \d+ steps) \(", text_of(log))
        end = "\r\033[K" if is_over else f"\rstudy: {steps[-1]}" if steps else ""
        print(end, end="", file=sys.stderr, flush=True)


def text_of(log: Path) -> str:
    """What Snakemake has said so far."""
    return log.read_text(encoding="utf-8", errors="replace")


def is_done(study: Study, results: Path) -> bool:
    """Whether all that a study makes is there, and no file is older than one that it is made from."""
    for last in ("study.csv", "page.html"):
        chains = [[PLAN, last]]
        for name in (model.name for model in study.models):
            chains.append([COLUMNS, f"rows/{name}.csv", last])
            for report in ("checks", "reports", "risks", "safeables"):
                chains.append([f"models/{name}.toml", f"tables/{name}.acxt", f"{report}/{name}.txt", f"rows/{name}.csv", last])
        for chain in chains:
            paths = [results / name for name in chain]
            if not all(path.is_file() for path in paths):
                return False
            times = [path.stat().st_mtime_ns for path in paths]
            if times != sorted(times):
                return False
    return True


def refuse_undone(code: int, results: Path, log: Path) -> None:
    """Says which files were not made where steps failed, and else the last line of Snakemake's."""
    said = text_of(log)
    failed = re.findall(r"(?m)^Error in rule \w+:\n(?: {4}.*\n)*? {4}output: (.*)$", said)
    # of the steps of a job that the cluster lost, in any order, that of the row is the last one
    failed += re.findall(r"(?m)^Error in group .*\n(?: {4}.*\n)*? {12}output: (rows/[^,\n]*)", said)
    for output in dict.fromkeys(failed):
        print(f"study: not made: {output}", file=sys.stderr)
    if failed or code < 0:
        raise Fault(str(results), "study", f"is not done: Snakemake ended with the code {code}, and {log} says why; the same command goes on")
    # what a script of the profile said, or else the last line that is not of Snakemake's own log
    own = re.findall(r"(?m)^study: (.*)$", said)
    lines = [line.strip() for line in said.splitlines() if line.strip() and not line.startswith("Complete log:")]
    last = (own or lines[-1:] or ["it said nothing"])[0]
    raise Fault(str(results), "study", f"is not done: Snakemake ended with the code {code}: {last}; {log} has all of it")


def run(chosen: argparse.Namespace, others: Sequence[str]) -> int:
    """Runs a study to its end, or as far as the further words go."""
    refused = refusal_of(others)
    if refused is not None:
        print(f"study: words: {refused}; use: study/run STUDY RESULTS ..; study/run --help says more", file=sys.stderr)
        return 2
    study = read_study(chosen.study)
    check_columns(study, str(chosen.study))
    program, results = chosen.acas.resolve(), chosen.results.resolve()
    build(program)
    results.mkdir(parents=True, exist_ok=True)
    log = chosen.results / LOG
    environment = {"USER": user_name()} | os.environ
    with lock(results) as held:
        if not DRY.intersection(others):
            cancel_left(results)
        prepare(study, results)
        print(f"study: {len(study.models)} models; what Snakemake says goes to {log}", file=sys.stderr)
        words = snakemake_words(results, program, chosen.study.name, with_profile(others, environment))
        code = wait_for(words, held, log, environment)
    if code != 0:
        refuse_undone(code, chosen.results, log)
    if is_done(study, results):
        print(f"studied {len(study.models)} models: {chosen.results}/study.csv {chosen.results}/page.html")
    else:
        total = re.findall(r"(?m)^total +(\d+)\b", text_of(log))
        steps = f"{total[-1]} steps" if total else "some steps"
        print(f"not studied: the further words leave out some of {steps} that are to be done; {log} has what Snakemake said")
    return 0


def main(chosen: argparse.Namespace, others: Sequence[str]) -> int:
    """Runs a study, or says in one line what is wrong. The exit code is 0 or 1, or 2 where words are none of Snakemake's either."""
    try:
        return run(chosen, others)
    except Fault as fault:
        print(f"study: {fault}", file=sys.stderr)
    except OSError as error:
        print(f"study: {error.filename}: cannot be used: {error.strerror}", file=sys.stderr)
    except KeyboardInterrupt:
        print(f"study: {chosen.results}: stopped; the same command goes on", file=sys.stderr)
    return 1
