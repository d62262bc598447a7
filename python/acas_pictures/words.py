"""The words of the command `acas_plot`. They are looked at before any package is needed."""
import argparse
import re
from typing import NoReturn

GREATEST_SIZE = 40

PLACES = {
    "present": {"metavar": "NAME", "help": "the advisory that is present"},
    "layer": {"metavar": "SECONDS", "type": int, "help": "how many seconds are to go, from 1 on"},
    "own": {"metavar": "RATE", "type": int, "help": "the own rate in ft/min, a number of the grid"},
    "intruder": {"metavar": "RATE", "type": int, "help": "the intruder's rate, likewise"},
}
"""What says which part of a table is shown."""
SLICE, LAYER = ("present", "own", "intruder"), ("present", "layer", "intruder")
COMMANDS = (
    ("policy", ("MODEL", "TABLE"), SLICE, "the advice over seconds to go and relative altitude"),
    ("cost", ("MODEL", "TABLE"), SLICE, "the upper value, and how far it is above the lower value"),
    ("difference", ("MODEL", "TABLE", "OTHER"), LAYER, "where the advice of two tables differs, and how far their upper values are apart"),
    ("verdicts", ("MODEL", "REPORT"), SLICE, "the verdicts on the cells from two rates to the next ones, and the counts"),
    ("risk", ("MODEL", "RISK"), SLICE, "the chance of contact with the table and without, and the ratio of the two"),
    ("safeable", ("MODEL", "REPORT", "SAFEABLE"), SLICE, "the verdicts on those cells, and what safeable says of the clear ones"),
    ("witness", ("MODEL", "LINE"), (), "the vertical profile of a reported flight"),
    ("separation", ("MODEL", "SEPARATIONS"), (), "the altitudes at which a box is certified, over the intruder's acceleration"),
    ("replay", ("MODEL", "TABLE", "REPLAY"), (), "the profile of an encounter with the advice of each second"),
)
"""Each command: the files that it reads, the words of `PLACES` that it has, and what it draws."""
HELP = {
    "MODEL": "the file of a model",
    "TABLE": "a table of it",
    "OTHER": "the table that is compared with it",
    "REPORT": "a file with what acas audit has printed; - for the input",
    "RISK": "a file with what acas risk has printed; - for the input",
    "SAFEABLE": "a file with what acas safeable has printed; - for the input",
    "LINE": "a line of acas audit, acas regions or acas manoeuvre; - for the input",
    "SEPARATIONS": "a table that study/separation has written; - for the input",
    "REPLAY": "a file with what acas replay has printed; - for the input",
    "PICTURE": "the file to write, which ends in .png, .svg or .pdf",
}


class Parser(argparse.ArgumentParser):
    """Refuses wrong words by one line and the exit code 2."""

    def error(self, message: str) -> NoReturn:
        self.exit(2, f"acas_plot: words: {' '.join(message.split())}; use: acas_plot COMMAND ..; acas_plot --help says more\n")


def parser() -> Parser:
    """The words of the command."""
    whole = Parser(prog="acas_plot", description="Draws what acas makes and prints, to a file whose name ends in .png, .svg or .pdf.")
    commands = whole.add_subparsers(dest="command", required=True, metavar="COMMAND")
    for name, files, places, says in COMMANDS:
        command = commands.add_parser(name, help=says, description=says)
        for file in (*files, "PICTURE"):
            command.add_argument(file.lower(), metavar=file, help=HELP[file])
        for place in places:
            command.add_argument(f"--{place}", required=True, **PLACES[place])
        if name == "difference":
            command.add_argument("--other-model", metavar="MODEL", help="the model of the other table, where that is another one")
        if name in ("verdicts", "risk", "safeable"):
            command.add_argument("--table", metavar="TABLE", help=f"the table that the {files[-1].lower()} is to be of")
        if name == "witness":
            command.add_argument("--advisory", metavar="NAME", help="of a line of acas regions or acas manoeuvre: the advisory of its box")
            command.add_argument(
                "--against", nargs=2, type=int, metavar=("ACCEL", "RATE"), help="of a line of acas manoeuvre: what the intruder may do"
            )
        if name == "separation":
            command.add_argument("--box", type=int, default=0, metavar="PLACE", help="which box of the file, counted from 0, else the first")
        command.add_argument("--title", metavar="TEXT", help="the title, in the place of one that says what is drawn")
        command.add_argument("--size", metavar="WIDTHxHEIGHT", type=size, help="the size in inches, as 7x4.5")
        command.add_argument("--dpi", metavar="NUMBER", type=dpi, help="how many points a .png has for each inch, else 150")
    return whole


def size(text: str) -> tuple[float, float]:
    """A width and a height in inches."""
    parts = re.fullmatch(r"(\d{1,3}(?:\.\d{1,3})?)x(\d{1,3}(?:\.\d{1,3})?)", text)
    if not parts or not all(1 <= float(part) <= GREATEST_SIZE for part in parts.groups()):
        raise argparse.ArgumentTypeError(f"{text!r} is not WIDTHxHEIGHT, each 1 to {GREATEST_SIZE} inches")
    return float(parts[1]), float(parts[2])


def dpi(text: str) -> int:
    """A number of points for each inch."""
    if not re.fullmatch(r"[0-9]{1,4}", text) or not 20 <= int(text) <= 2400:
        raise argparse.ArgumentTypeError(f"{text!r} is not a whole number from 20 to 2400")
    return int(text)
