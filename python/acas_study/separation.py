"""How far above or below an intruder has to be for a box to be certified, over the acceleration that it may have. The command is
`study/separation`, which needs no package."""
import csv
import io
import subprocess
import tempfile
from pathlib import Path
from typing import Any, Callable, NamedTuple, Sequence

from acas_origin import Origin, beside, digest_of, text_of as text_of_origin
from acas_study.files import write_whole
from acas_study.texts import text_of
from acas_texts import Fault
from acas_texts.document import content_of, document_of
from acas_texts.toml import plain

LIMIT = 10_000
"""No altitude of a box is farther from 0, in ft."""
HALVES = tuple(2**power for power in range(14, -1, -1))
"""Together they lead from below the least altitude beyond the greatest."""
COLUMNS = ("box", "accel", "rate", "below", "above")
NONE = "none"
"""In the place of an altitude, where a box is certified at none."""
Ask = Callable[[list[dict[str, Any]]], list[bool]]
"""Says of boxes which of them are certified."""


class Job(NamedTuple):
    """Which program is asked about which boxes beside which model, and what the intruder may do."""

    program: str
    model: str
    boxes: str
    accels: Sequence[int]
    rate: int

    def verdicts(self, accel: int, boxes: str) -> list[bool]:
        """Which boxes of a file are certified."""
        words = ["manoeuvre", self.model, boxes, str(accel), str(self.rate)]
        ended = subprocess.run([self.program, *words], capture_output=True, text=True, check=False)
        if ended.returncode not in (0, 1):
            raise Fault(f"acas {' '.join(words)}", "ended", f"with the code {ended.returncode}: {ended.stderr.strip()}")
        return [line.split(" ")[2] == "certified" for line in ended.stdout.splitlines()[:-1]]


def least(are_enough: Callable[[list[int]], list[bool]], count: int) -> list[int | None]:
    """Of so many questions the least altitude that is enough, by halving: a greater one is enough too. None where none is."""
    short = [-LIMIT - 1] * count
    for half in HALVES:
        tried = [altitude + half for altitude in short]
        enough = are_enough([min(altitude, LIMIT) for altitude in tried])
        short = [old if is_enough or new > LIMIT else new for old, new, is_enough in zip(short, tried, enough, strict=True)]
    return [None if altitude == LIMIT else altitude + 1 for altitude in short]


def separations(ask: Ask, boxes: Sequence[dict[str, Any]]) -> list[tuple[int | None, int | None]]:
    """Of each box, whatever its own altitudes are: up to which altitude, and from which one on, it is certified.

    All altitudes from an end of the format's to a border are asked at once, so that a box with more of them is never certified where
    one with fewer is not.
    """
    sides = [(box, is_above) for box in boxes for is_above in (False, True)]

    def are_enough(altitudes: list[int]) -> list[bool]:
        return ask([
            box | {"altitude": [altitude, LIMIT] if is_above else [-LIMIT, -altitude]}
            for (box, is_above), altitude in zip(sides, altitudes)
        ])

    found = least(are_enough, len(sides))
    return [(None if below is None else -below, above) for below, above in zip(found[::2], found[1::2])]


def rows(job: Job) -> list[list[str]]:
    """The rows of the table: of each box in order, by acceleration. A file that the program refuses is a fault with its line."""
    boxes = plain(document_of(content_of(job.boxes), job.boxes)).get("box")
    job.verdicts(job.accels[0], job.boxes)
    found = {accel: _borders(job, accel, boxes) for accel in job.accels}
    return [
        [str(place), str(accel), str(job.rate), *(NONE if border is None else str(border) for border in found[accel][place])]
        for place in range(len(boxes)) for accel in job.accels
    ]


def _borders(job: Job, accel: int, boxes: list[dict[str, Any]]) -> list[tuple[int | None, int | None]]:
    with tempfile.TemporaryDirectory() as folder:
        path = Path(folder) / "boxes.toml"

        def ask(asked: list[dict[str, Any]]) -> list[bool]:
            path.write_text(text_of({"version": 1, "box": asked}), encoding="utf-8")
            return job.verdicts(accel, str(path))

        return separations(ask, boxes)


def write(job: Job, out: Path) -> None:
    """Writes the table of a job to a file, and beside it of which files that is."""
    text = io.StringIO()
    before = {kind: digest_of(path) for kind, path in (("model", job.model), ("boxes", job.boxes))}
    csv.writer(text, lineterminator="\n").writerows([COLUMNS, *rows(job)])
    write_whole(out, text.getvalue().encode())
    words = ("manoeuvre", job.model, job.boxes, ",".join(map(str, job.accels)), str(job.rate))
    write_whole(beside(out), text_of_origin(Origin(words, 0, digest_of(out), before)).encode())
