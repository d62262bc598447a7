"""What is wrong with a file, in one line."""
from dataclasses import dataclass
from typing import Any


@dataclass(frozen=True)
class Cause:
    """Which rule of a text is broken, and where."""

    rule: str
    """The rule, by the name of the function that explains it."""
    steps: tuple[str | int, ...] = ()
    """The way to the key or to the item: `("advisory", 1, "costs")`."""
    allowed: tuple[Any, ...] = ()
    """What the rule allows: the known keys, a kind, the least and the greatest number, or what else it goes by."""


class Fault(ValueError):
    """A file, a text or a word is not as it has to be.

    Its text is `SOURCE: FIELD PROBLEM`, in one line: of which file, which field of it, and what is wrong there. What the program
    `acas` refuses by a line of its own is named by the same words here.
    """

    def __init__(self, source: str, field: str, problem: str = "", cause: Cause | None = None) -> None:
        super().__init__(f"{source}: {field} {problem}".rstrip())
        self.source = source
        self.field = field
        self.problem = problem
        self.cause = cause

    @property
    def words(self) -> str:
        """What is wrong, without the file."""
        return f"{self.field} {self.problem}".rstrip()


def path_of(steps: tuple[str | int, ...]) -> str:
    """The path of a key or of an item as the program prints it, such as `advisory[1].costs`."""
    path = ""
    for place, step in enumerate(steps):
        path += f"[{step}]" if isinstance(step, int) else f".{step}" if place else step
    return path
