"""What tools/evidence hands over: that `again` finds it the same, that a change of each file is found, and what is refused."""
import hashlib
import re
import shutil
import subprocess
import sys
from pathlib import Path

import pytest
from conftest import EXAMPLES, TOP

from acas_origin import Origin, origin_of

EVIDENCE = TOP / "tools" / "evidence"
MODEL = EXAMPLES / "d.toml"
TEXTS = ("check.txt", "audit.txt", "risk.txt", "safeable.txt")
BESIDE = tuple(f"{name}.from" for name in TEXTS)
NAMES = {"README.md", "SHA256SUMS", "again", "model.toml", "program.txt", "table.acxt", *TEXTS, *BESIDE}


def make(program, *words) -> tuple[int, str, str]:
    """A call of tools/evidence: its exit code and both outputs."""
    ended = subprocess.run([sys.executable, "-S", EVIDENCE, "--acas", program, *words], capture_output=True, text=True, check=False)
    return ended.returncode, ended.stdout, ended.stderr


def again(folder: Path, program) -> tuple[int, list[str]]:
    """A call of `again`: its exit code, and the things that are not the same."""
    ended = subprocess.run([folder / "again", program], capture_output=True, text=True, check=False)
    lines = ended.stdout.splitlines()
    told = [line.partition(": ") for line in lines if ": " in line and not line.endswith(": FAILED")]
    others = [name for word, _, name in told if word == "not the same"]
    assert lines[-1] == f"{len(told)} things, {len(others)} not the same" and len(told) == 10
    return ended.returncode, others


def sums(folder: Path) -> str:
    """The digests of all files but SHA256SUMS, as sha256sum prints them."""
    paths = sorted(path for path in folder.iterdir() if path.name != "SHA256SUMS")
    return "".join(f"{hashlib.sha256(path.read_bytes()).hexdigest()}  {path.name}\n" for path in paths)


def are_right(folder: Path) -> bool:
    """What `sha256sum -c` says of the folder."""
    return subprocess.run(["sha256sum", "-c", "--quiet", "--strict", "SHA256SUMS"], cwd=folder, capture_output=True, check=False).returncode == 0


@pytest.fixture(scope="module")
def handed(acas, tmp_path_factory) -> Path:
    """The evidence on an example."""
    folder = tmp_path_factory.mktemp("evidence") / "d"
    assert make(acas.program, MODEL, folder) == (0, "", "")
    assert [path.name for path in folder.parent.iterdir()] == ["d"]
    return folder


@pytest.fixture
def copy(handed, tmp_path) -> Path:
    """The same, to be changed."""
    return Path(shutil.copytree(handed, tmp_path / "copy"))


def test_what_is_there(acas, handed, tmp_path):
    assert {path.name for path in handed.iterdir()} == NAMES
    assert (handed / "model.toml").read_bytes() == MODEL.read_bytes()
    subprocess.run([sys.executable, TOP / "bench" / "reference", MODEL, tmp_path / "table"], stdout=subprocess.DEVNULL, check=True)
    assert (handed / "table.acxt").read_bytes() == (tmp_path / "table").read_bytes()
    assert (handed / "SHA256SUMS").read_text() == sums(handed) and are_right(handed)
    for name in TEXTS:
        command = name.removesuffix(".txt")
        code = acas.run(command, handed / "model.toml", handed / "table.acxt").returncode
        assert (handed / name).read_text() == acas.output(command, handed / "model.toml", handed / "table.acxt")
        digests = {kind: hashlib.sha256((handed / file).read_bytes()).hexdigest() for kind, file in (("model", "model.toml"), ("table", "table.acxt"))}
        output = hashlib.sha256((handed / name).read_bytes()).hexdigest()
        assert origin_of((handed / f"{name}.from").read_text()) == Origin((command, "model.toml", "table.acxt"), code, output, digests)
    assert hashlib.sha256(Path(acas.program).read_bytes()).hexdigest() in (handed / "program.txt").read_text() or acas.program == str(TOP / "acas")


def test_page(handed):
    """It says of each file what it shows, and names promises by the names that they have."""
    page = (handed / "README.md").read_text()
    rows = dict(line.strip("| ").split(" | ", 1) for line in page.splitlines() if line.startswith("| ") and " | " in line[2:])
    assert set(rows) - {"file"} == (NAMES - {"README.md", *BESIDE}) | {"*.txt.from"}
    promises = (TOP / "docs" / "PROMISES.md").read_text(encoding="utf-8")
    named = [name for row in rows.values() for name in row.partition(" | ")[2].strip("| ").split("; ") if name and name != "by which promises"]
    assert len(named) == 10 and all(f"\n| **{name}**" in promises for name in named)
    for name in ("audit.txt", "safeable.txt"):
        assert f"`{(handed / name).read_text().splitlines()[-1]}`" in page


def test_again(acas, handed, tmp_path):
    before = {path.name: path.read_bytes() for path in handed.iterdir()}
    assert again(handed, acas.program) == (0, [])
    assert {path.name: path.read_bytes() for path in handed.iterdir()} == before
    for words in (["nowhere"], [acas.program, acas.program], ["--again"]):
        ended = subprocess.run([handed / "again", *words], cwd=tmp_path, capture_output=True, text=True, check=False)
        assert (ended.returncode, ended.stdout, ended.stderr) == (2, "", "use: again [PROGRAM]\n")
    ended = subprocess.run([handed / "again", "--help"], capture_output=True, text=True, check=False)
    assert ended.returncode == 0 and ended.stdout.startswith("again [PROGRAM]: ") and ended.stdout.count("\n") > 3


@pytest.mark.parametrize("name", sorted(NAMES))
def test_changed_byte(acas, copy, name):
    """`sha256sum -c` finds a changed byte of each file, and `again` one of each file but itself."""
    content = bytearray((copy / name).read_bytes())
    content[len(content) // 2] ^= 1
    (copy / name).write_bytes(content)
    assert not are_right(copy)
    if name != "again":
        code, others = again(copy, acas.program)
        assert code == 1 and "the files of SHA256SUMS" in others


@pytest.mark.parametrize(("name", "others"), [
    *((name, [name]) for name in ("table.acxt", *TEXTS, *BESIDE)),
    ("model.toml", ["table.acxt", *BESIDE]),
])
def test_change_with_new_digests(acas, copy, name, others):
    """What is made anew is compared with what is there, whatever the digests say. A comment more is another model with the same texts."""
    content = (copy / name).read_bytes()
    (copy / name).write_bytes(content + (b"# more\n" if name == "model.toml" else b" "))
    (copy / "SHA256SUMS").write_text(sums(copy))
    code, found = again(copy, acas.program)
    assert (code, sorted(found)) == (1, sorted(others))


def test_refused(acas, tmp_path, changed):
    broken, out = changed("d.toml", ("horizon = 30", "horizn = 30")), tmp_path / "out"
    said = acas.run("values", broken).stderr
    assert said.startswith("acas: model refused: ") and make(acas.program, broken, out) == (1, "", said)
    (tmp_path / "failing").write_text(f'#!/bin/sh\nif [ "$1" = risk ]; then echo acas: out of memory >&2; exit 12; fi\nexec "{acas.program}" "$@"\n')
    (tmp_path / "failing").chmod(0o755)
    assert make(tmp_path / "failing", MODEL, out) == (1, "", "acas: out of memory\n")
    assert sorted(path.name for path in tmp_path.iterdir()) == ["d.toml", "failing"]
    out.write_text("mine\n")
    assert make(acas.program, MODEL, out) == (1, "", f"evidence: {out}: is there already\n")
    assert out.read_text() == "mine\n"


def test_identity_of_another_program(acas, tmp_path):
    """Of a program that is not the one of ./acas nothing is said but its digest."""
    other = Path(shutil.copy(acas.program, tmp_path / "other"))
    if acas.program == str(TOP / "acas"):
        pytest.skip("a copy of the script alone runs no program")
    assert make(other, MODEL, tmp_path / "out")[0] == 0
    text = (tmp_path / "out" / "program.txt").read_text()
    assert text.startswith(f"program {hashlib.sha256(other.read_bytes()).hexdigest()}\n") and not re.search("(?m)^sources ", text)
