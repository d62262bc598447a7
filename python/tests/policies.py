"""What the tests of written tables share: models and advices by a seed, and what bench/reference makes of them."""
import random
import subprocess
import sys
from pathlib import Path

import numpy as np
from conftest import TOP

from acas_table import NO_ADVICE, Model

REFERENCE = TOP / "bench" / "reference"


def text_of(axes, horizon: int, contact: int, choices, sigma) -> str:
    """The text of a model. `choices` has, of each advisory, the numbers that may follow it with their costs; `sigma` are weight, own, intruder."""
    lines = ["version = 1", f"horizon = {horizon}", "[grid]"]
    lines += [f"{name} = {axis}" for name, axis in zip(("altitude", "own_rate", "intruder_rate"), axes)]
    lines += ["[puck]", "radius = 500", "half_height = 100", "[closing]", "least = 500", "greatest = 500"]
    lines += ["[pilot]", "pull = 480", "limit = 960", "[cost]", f"contact = {contact}"]
    for number, costs in enumerate(choices):
        lo, hi = ((-10000, 10000), (1500, 10000), (-10000, -1500))[number]
        lines += ["[[advisory]]", f'name = "a{number}"', f"lo = {lo}", f"hi = {hi}"]
        lines += ["choices = [" + ", ".join(f'"a{chosen}"' for chosen in costs) + "]", f"costs = {list(costs.values())}"]
    for weight, own, intruder in sigma:
        lines += ["[[sigma]]", f"weight = {weight}", f"own = {own}", f"intruder = {intruder}"]
    return "\n".join(lines) + "\n"


def random_text(seed: int, contact: int = 50) -> str:
    """A small model with uneven gaps, three advisories of which not each may follow each, and noise in both rates."""
    made = random.Random(seed)
    axes = [sorted({0, *made.sample(range(-far, far + 1), count)}) for far, count in ((600, 4), (2500, 2), (2500, 1))]
    choices = [{chosen: made.randint(-3, 9) for chosen in made.sample(range(3), made.randint(2, 3))} for _ in range(3)]
    sigma = [(made.randint(1, 9), made.randint(-300, 300), made.randint(-300, 300)) for _ in range(3)]
    return text_of(axes, 4, contact, choices, sigma)


def extreme_text(sign: int) -> str:
    """Numbers at their limits: the widest and the narrowest gaps, the greatest costs in either direction, weight and horizon."""
    axes = ([-10000, -9999, 0, 10000], [-10000, 10000], [-10000, 9999])
    dear = sign * 10**9
    choices = [{0: dear, 1: dear - sign}, {1: dear, 0: 0}]
    return text_of(axes, 120, dear, choices, [(1, 5000, -5000), (332, -4999, 0), (667, 1, 4999)])


def random_advice(model: Model, seed: int) -> np.ndarray:
    """An advice that chooses anything that may be chosen, uint8, of the shape of the entries."""
    made = np.random.default_rng(seed)
    advice = np.full(model.shape, NO_ADVICE, dtype=np.uint8)
    for present, advisory in enumerate(model.advisories):
        advice[1:, present] = made.choice(np.array(advisory.choices, dtype=np.uint8), size=advice[1:, present].shape)
    return advice


def reference_table(model: Path, table: Path) -> bytes:
    """The compiled table of a model as bench/reference works it out."""
    subprocess.run([sys.executable, REFERENCE, model, table], check=True)
    return table.read_bytes()
