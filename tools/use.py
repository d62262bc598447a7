"""What the scripts of this repository share: how they are started, which is `acas_use`, and the program that ./acas builds."""
import os
import subprocess
import sys

TOP = os.path.dirname(os.path.dirname(os.path.abspath(__file__)))
sys.path.insert(0, os.path.join(TOP, "python"))
from acas_use import Lacking, program_of, start  # noqa: E402, F401

SCRIPT, PROGRAM = os.path.join(TOP, "acas"), os.path.join(TOP, "crates", "acas", "out", "acas")


def built(path):
    """The path of a program that is there. The script ./acas stands for the program that it builds, and says on the standard error
    how far it is."""
    path = os.path.abspath(path)
    os.stat(path)
    if not os.path.isfile(SCRIPT) or not os.path.samefile(path, SCRIPT):
        return path
    subprocess.run([SCRIPT, "values", os.path.join(TOP, "examples", "a.toml")], stdout=subprocess.DEVNULL, check=True)
    return PROGRAM
