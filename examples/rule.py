#!/usr/bin/python3
"""examples/rule.py MODEL TABLE: writes the table of a rule that is made by hand, in the place of one that `acas compile` finds.

The model has the advisories clear, climb and descend, each of which may follow each, as examples/c.toml, d.toml and e.toml do. The rule
stands below, and any other may stand in its place.
"""
import importlib.util
import os
import sys
from pathlib import Path

TOP = Path(__file__).resolve().parent.parent
sys.path[:0] = [str(TOP / "python"), str(TOP / "tools")]
sys.dont_write_bytecode = True
import use  # noqa: E402


def rule(model):
    """Climb or descend, away from an intruder that would be less than 300 ft above or below at the end if both kept their rates."""
    import numpy as np

    altitude, own, intruder = np.meshgrid(model.altitude, model.own_rate, model.intruder_rate, indexing="ij")
    advice = np.full(model.shape, 255, dtype=np.uint8)  # in layer 0, with no second to go, nothing is advised
    for seconds in range(1, model.horizon + 1):
        at_end = 60 * altitude + seconds * (intruder - own)  # in feet, times 60
        away = np.where(at_end > 0, model.number("descend"), model.number("climb"))
        advice[seconds] = np.where(abs(at_end) < 60 * 300, away, model.number("clear"))
    return advice


def main(words):
    os.stat(words[0])
    if importlib.util.find_spec("numpy") is None:
        raise use.Lacking("the Python package numpy: apt-get install python3-numpy")
    from acas_table import Fault, read_model, table_of_advice, write_table

    try:
        model = read_model(words[0])
        write_table(words[1], model, *table_of_advice(model, rule(model)))
    except Fault as fault:
        print(f"rule: {fault}", file=sys.stderr)
        return 1
    return 0


if __name__ == "__main__":
    use.start(__doc__, main, lambda words: len(words) == 2 and not any(word.startswith("--") for word in words))
