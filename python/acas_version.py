"""The version of what is installed. There are no numbered versions: it is 0, and the date of the newest heading of CHANGES.md."""
import re
from datetime import datetime
from pathlib import Path

CHANGES = Path(__file__).resolve().parent.parent / "CHANGES.md"


def date_of(changes: str) -> datetime:
    """The date of the first heading that begins with one, as `## 28 November 2026, at night`; a ValueError where there is none."""
    heading = re.search(r"(?m)^## (\d{1,2} [A-Z][a-z]+ \d{4})\b", changes)
    if heading is None:
        raise ValueError(f"{CHANGES} has no heading with a date")
    return datetime.strptime(heading[1], "%d %B %Y")


def version_of(changes: str) -> str:
    """The version, as `0.20261128`."""
    return f"0.{date_of(changes):%Y%m%d}"
