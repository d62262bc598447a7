"""Which program ./acas has built, of which sources, and for which logic of the kit."""
import hashlib
import re
import subprocess
from dataclasses import dataclass
from pathlib import Path

import use

MARK = Path(f"{use.PROGRAM}.built")
"""The sums of the sources and of the program, as ./acas has kept them when it built it."""
NOT_CURRENT = "the program is not built, or is not that of the sources as they stand: `./acas values examples/a.toml` proves and builds it"


class Refused(Exception):
    """Why nothing is made, in one line."""


@dataclass(frozen=True)
class Identity:
    """The bytes of a program, the sum of its sources and the kit's logic."""

    program: bytes
    sources: str
    logic: str

    def text(self):
        """A line for each, the program by its SHA-256."""
        return f"sources {self.sources}\nprogram {hashlib.sha256(self.program).hexdigest()}\nlogic {self.logic}\n"


def identity():
    """That of the program of ./acas; refused where the script says that it is none of the sources as they stand."""
    said = subprocess.run([use.SCRIPT, "--version"], capture_output=True, text=True, check=True).stdout
    if ", not built yet" in said:
        raise Refused(NOT_CURRENT)
    sources, digest = re.findall(r"\b[0-9a-f]{64}\b", MARK.read_text(encoding="utf-8"))
    program = Path(use.PROGRAM).read_bytes()
    if hashlib.sha256(program).hexdigest() != digest:
        raise Refused(NOT_CURRENT)
    (logic,) = re.findall(r"(?m)^logic=([0-9a-f]+)$", Path(use.SCRIPT).read_text(encoding="utf-8"))
    return Identity(program, sources, logic)
