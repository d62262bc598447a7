"""The words of `study/run`. They are looked at before any package is needed."""
import argparse
from pathlib import Path
from typing import NoReturn

from acas_use import program_of

TOP = Path(__file__).resolve().parent.parent.parent


class Parser(argparse.ArgumentParser):
    """Refuses wrong words by one line and the exit code 2."""

    def error(self, message: str) -> NoReturn:
        self.exit(2, f"study: words: {' '.join(message.split())}; use: study/run STUDY RESULTS ..; study/run --help says more\n")


def parser() -> Parser:
    """The words of the command."""
    says = "Compiles, checks and audits each model of a study, and goes on where it stopped. Further words are Snakemake's."
    words = Parser(prog="study/run", description=says, allow_abbrev=False)
    words.add_argument("study", metavar="STUDY", type=Path, help="a folder of models, or a file that varies one model")
    words.add_argument("results", metavar="RESULTS", type=Path, help="the folder for all that is made, itself too")
    words.add_argument("--acas", type=Path, default=Path(program_of(TOP)), metavar="PROGRAM", help="the program, where it is another one")
    return words
