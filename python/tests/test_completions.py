"""What tools/completions offers, in each shell that is there."""
import shutil
import subprocess
import sys
from pathlib import Path

import pytest
from conftest import TOP

VERBS = ["values", "compile", "check", "risk", "audit", "regions", "manoeuvre", "safeable", "replay", "migrate", "drill"]
FILES = ["a file.toml", "b.acxt", "folder"]
# What stands before the cursor, and what is offered there.
CASES = [
    ([""], [*VERBS, "--help", "--version"]),
    (["r"], ["risk", "regions", "replay"]),
    (["--v"], ["--version"]),
    (["values", ""], FILES),
    (["check", "b"], ["b.acxt"]),
    (["audit", "m", "t", ""], ["--reported"]),
    (["audit", "m", "t", "--reported", ""], []),
    (["values", "m", ""], []),
    (["manoeuvre", "m", "a"], ["a file.toml"]),
    (["manoeuvre", "m", "b", ""], []),
    (["replay", "m", "t", "f"], ["folder"]),
    (["migrate", "m", "t", ""], FILES),
    (["drill", ""], []),
    (["nothing", ""], []),
]
# How a shell is asked: the text, then a line that sets the words and prints what is offered, one a line.
BASH = """source {text}
COMP_WORDS=(acas "$@"); COMP_CWORD=$#; _acas
printf '%s\\n' "${{COMPREPLY[@]}}"
"""
# zsh offers by words of its own, which print here; those that the last word begins are left.
ZSH = """compdef() {{ :; }}
compadd() {{ shift; for it; do [[ $it == $words[-1]* ]] && print -r -- $it; done }}
_files() {{ for it in *; do [[ $it == $words[-1]* ]] && print -r -- $it; done }}
source {text}
words=(acas "$@"); CURRENT=$#words; _acas
true
"""
FISH = """source {text}
set -l line acas (string escape -- $argv[1..-2])
complete -C (string join -- ' ' $line)" $argv[-1]" | string replace -r '\\t.*' '' | string unescape
true
"""
ASKED = {"bash": (BASH, ["--norc", "--noprofile"]), "zsh": (ZSH, ["-f"]), "fish": (FISH, ["--no-config"])}


@pytest.fixture(scope="module")
def texts(tmp_path_factory) -> Path:
    """A folder with what is printed for each shell, and how it is asked."""
    folder = tmp_path_factory.mktemp("texts")
    for shell, (asked, _) in ASKED.items():
        printed = subprocess.run([sys.executable, "-S", TOP / "tools" / "completions", shell], capture_output=True, text=True, check=True)
        (folder / shell).write_text(printed.stdout)
        (folder / f"ask.{shell}").write_text(asked.format(text=folder / shell))
    return folder


@pytest.mark.parametrize("shell", sorted(ASKED))
def test_each_place(texts, tmp_path, monkeypatch, shell):
    if shutil.which(shell) is None:
        pytest.skip(f"there is no {shell}")
    for name in FILES[:2]:
        (tmp_path / name).touch()
    (tmp_path / "folder").mkdir()
    monkeypatch.setenv("HOME", str(tmp_path / "folder"))
    assert subprocess.run([shell, "-n", texts / shell], capture_output=True, text=True, check=False).stderr == ""
    wrong = []
    for words, offered in CASES:
        asked = [shell, *ASKED[shell][1], texts / f"ask.{shell}", *words]
        ended = subprocess.run(asked, cwd=tmp_path, stdin=subprocess.DEVNULL, capture_output=True, text=True, check=False)
        found = sorted(line.rstrip("/") for line in ended.stdout.splitlines() if line)
        if (ended.returncode, found, ended.stderr) != (0, sorted(offered), ""):
            wrong.append((words, ended.returncode, found, ended.stderr))
    assert not wrong


def test_file_that_zsh_loads(texts, tmp_path):
    """As one of zsh's own files it is the function, from the first call on."""
    if shutil.which("zsh") is None:
        pytest.skip("there is no zsh")
    shutil.copy(texts / "zsh", tmp_path / "_acas")
    asked = f"fpath=({tmp_path}); autoload -Uz _acas; compadd() {{ shift; print -r -- $@ }}; words=(acas audit m t ''); CURRENT=5; _acas; _acas"
    ended = subprocess.run(["zsh", "-f", "-c", asked], capture_output=True, text=True, check=False)
    assert (ended.stdout, ended.stderr) == ("--reported\n--reported\n", "")
