"""What the tests share: the program, and the tables and reports that it makes of the examples."""
import hashlib
import subprocess
import sys
from dataclasses import dataclass
from pathlib import Path

import pytest

TOP = Path(__file__).resolve().parent.parent.parent
EXAMPLES = TOP / "examples"
sys.path.insert(0, str(TOP / "python"))


def pytest_addoption(parser):
    parser.addoption("--acas", default=str(TOP / "acas"), help="the program that makes the tables")


@dataclass(frozen=True)
class Acas:
    """The program, which is called in a folder of the tests' own."""

    program: str
    folder: Path

    def run(self, *words) -> subprocess.CompletedProcess:
        """A run of the program: its code, and what it printed on either stream."""
        return subprocess.run([self.program, *map(str, words)], cwd=self.folder, capture_output=True, text=True, check=False)

    def output(self, *words) -> str:
        """What a run prints that is done, with the code 0 or 1."""
        ended = self.run(*words)
        assert ended.returncode in (0, 1), ended.stderr
        return ended.stdout

    def table(self, model: Path) -> Path:
        """The table of a model, compiled where it is not there yet."""
        table = self.folder / f"{model.stem}-{hashlib.sha256(model.read_bytes()).hexdigest()[:16]}.acxt"
        if not table.exists():
            self.output("compile", model, table)
        return table


@pytest.fixture(scope="session")
def acas(request, tmp_path_factory) -> Acas:
    return Acas(str(Path(request.config.getoption("--acas")).resolve()), tmp_path_factory.mktemp("acas"))


@pytest.fixture
def changed(tmp_path):
    """Makes a model of an example's text by replacing pieces of it, each of which stands there."""

    def make(example: str, *pieces: tuple[str, str]) -> Path:
        text = (EXAMPLES / example).read_text(encoding="utf-8")
        for old, new in pieces:
            assert old in text
            text = text.replace(old, new)
        path = tmp_path / example
        path.write_text(text, encoding="utf-8")
        return path

    return make
