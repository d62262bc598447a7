"""The lines of README.md that read a table and take its numbers out."""
import re
import shutil
import subprocess
import sys

import pytest
from conftest import TOP

PAGE = (TOP / "python" / "README.md").read_text(encoding="utf-8")


def block(kind: str, place: int = 0) -> str:
    """A block of a kind, the first where no place is given."""
    return re.findall(rf"(?ms)^```{kind}\n(.*?)^```$", PAGE)[place]


def output(*words: str) -> str:
    return subprocess.run(words, cwd=TOP, capture_output=True, text=True, check=True).stdout


def test_python():
    assert output(sys.executable, "-B", "-c", block("python")) == block("text")
    printed = output(sys.executable, "-B", "-c", block("python", 1))
    assert printed == "10.0 -10.0 descend\n" and f"It prints `{printed.strip()}`." in PAGE


@pytest.mark.skipif(shutil.which("julia") is None, reason="there is no Julia")
def test_julia():
    assert output("julia", "-e", block("julia")) == "10.0 -10.0 2\n"
