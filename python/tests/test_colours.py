"""Whether people with each kind of colour blindness tell the colours apart."""
import itertools
from dataclasses import replace

import numpy as np
import pytest
from conftest import EXAMPLES
from look import colour_at
from matplotlib.colors import to_rgb

from acas_pictures.canvas import fill_cells, new_figure
from acas_pictures.colours import (
    ANY, CERTIFIED, CLEAR, DOWN, FIRST_HATCHES, HATCHES, LEVEL, MIXED, NEAR, OPEN, REPORTED, SAFEABLE, UP, Paint, colour_of, hatches_of,
    paints,
)
from acas_table import read_model

# What red, green and blue light become to who lacks one kind of cone, in linear light, by Machado, Oliveira and Fernandes (2009).
SIGHTS = {
    "all cones": np.eye(3),
    "no red cones": np.array([[0.152286, 1.052583, -0.204868], [0.114503, 0.786281, 0.099216], [-0.003882, -0.048116, 1.051998]]),
    "no green cones": np.array([[0.367322, 0.860646, -0.227968], [0.280085, 0.672501, 0.047413], [-0.011820, 0.042940, 0.968881]]),
    "no blue cones": np.array([[1.255528, -0.076749, -0.178779], [-0.078411, 0.930809, 0.147602], [0.004733, 0.691367, 0.303900]]),
}
TO_XYZ = np.array([[0.4124564, 0.3575761, 0.1804375], [0.2126729, 0.7151522, 0.0721750], [0.0193339, 0.1191920, 0.9503041]])
COLOURS = (*UP, *DOWN, LEVEL, ANY)
LEAST_DIFFERENCE = 12
"""In CIELAB, where 2 to 3 is what is just seen side by side."""


def lab(colour: str, sight: np.ndarray) -> np.ndarray:
    """A colour as it is seen, in CIELAB."""
    light = np.array([part / 12.92 if part <= 0.04045 else ((part + 0.055) / 1.055) ** 2.4 for part in to_rgb(colour)])
    xyz = TO_XYZ @ np.clip(sight @ light, 0, 1) / (TO_XYZ @ np.ones(3))
    x, y, z = (part ** (1 / 3) if part > 216 / 24389 else (24389 / 27 * part + 16) / 116 for part in xyz)
    return np.array([116 * y - 16, 500 * (x - y), 200 * (y - z)])


@pytest.mark.parametrize("sight", SIGHTS)
@pytest.mark.parametrize(
    "colours", [(CLEAR, *UP, *DOWN, LEVEL, ANY), (CLEAR, CERTIFIED, MIXED, REPORTED), (CERTIFIED, MIXED, REPORTED, SAFEABLE, OPEN, NEAR)],
    ids=["advisories", "verdicts", "cells"],
)
def test_colours_are_told_apart(sight, colours):
    for one, other in itertools.combinations(colours, 2):
        assert np.linalg.norm(lab(one, SIGHTS[sight]) - lab(other, SIGHTS[sight])) >= LEAST_DIFFERENCE, (one, other)


@pytest.mark.parametrize(("lo", "hi", "colour"), [
    (0, 10000, UP[0]), (-500, 10000, UP[0]), (-1999, 2000, UP[0]), (0, 500, UP[0]),
    (1, 10000, UP[1]), (1500, 1500, UP[1]), (1999, 10000, UP[1]), (2000, 10000, UP[2]), (2500, 3000, UP[2]),
    (-10000, 0, DOWN[0]), (-10000, 500, DOWN[0]), (-2000, 1999, DOWN[0]), (-500, 0, DOWN[0]),
    (-10000, -1, DOWN[1]), (-1500, -1500, DOWN[1]), (-10000, -1999, DOWN[1]), (-10000, -2000, DOWN[2]), (-3000, -2500, DOWN[2]),
    (0, 0, LEVEL), (-500, 500, LEVEL), (-1999, 1999, LEVEL), (-2000, 2000, ANY), (-10000, 10000, ANY), (-2000, 10000, ANY),
])
def test_colour_goes_by_what_is_asked(lo, hi, colour):
    assert colour_of(lo, hi) == colour


def test_names_play_no_part(changed):
    """A descent is as red by the name of DES1500 as by that of descend, and also by that of climb."""
    for climb, descend in (("climb", "descend"), ("CL1500", "DES1500"), ("descend", "climb")):
        swapped = (('"climb"', '"1"'), ('"descend"', '"2"'), ('"1"', f'"{climb}"'), ('"2"', f'"{descend}"'))
        model = read_model(changed("c.toml", ('"clear"', '"COC"'), *swapped))
        assert model.names == ("COC", climb, descend)
        assert paints(model) == (Paint(CLEAR), Paint(UP[1]), Paint(DOWN[1], FIRST_HATCHES[DOWN[1]]))


def test_advisories_of_one_kind_have_hatches_by_what_they_ask():
    """Of e.toml: no-climb, no-descend, level, climb, descend and climb-fast; then two climbs, of which one asks for more."""
    model = read_model(EXAMPLES / "e.toml")
    assert [paint.colour for paint in paints(model)[1:]] == [DOWN[0], UP[0], LEVEL, UP[1], DOWN[1], UP[2]]
    assert [paint.hatch for paint in paints(model)] == ["", "\\\\\\\\", "", "----", "", "\\\\\\\\", ""]
    changed_advisories = tuple(replace(one, lo=1000) if one.name == "climb-fast" else one for one in model.advisories)
    filled = paints(replace(model, advisories=changed_advisories))
    assert (filled[4], filled[6]) == (Paint(UP[1], HATCHES[1]), Paint(UP[1]))


def test_first_advisory_is_clear_whatever_its_name(changed):
    model = read_model(changed("c.toml", ('name = "clear"', 'name = "none"'), ('"clear"', '"none"')))
    assert paints(model)[0].colour == CLEAR


def test_many_advisories_are_all_filled_otherwise(changed):
    text = '[[advisory]]\nname = "{}"\nlo = 0\nhi = 1\nchoices = ["clear"]\ncosts = [0]\n\n'
    more = "".join(text.format(f"own-{number}") for number in range(13))
    model = read_model(changed("c.toml", ("[[sigma]]", more + "[[sigma]]")))
    assert len(set(paints(model))) == 16 and len(set(HATCHES)) == 15
    assert all(sorted(hatches_of(colour)) == sorted(HATCHES) for colour in (*UP, *DOWN, LEVEL, ANY))


def test_advisories_are_told_apart_without_colour():
    """Two that may be next to each other differ in their lightness or in their hatch."""
    light = {paint: lab(paint.colour, np.eye(3))[0] for paint in [Paint(CLEAR), *(Paint(colour, hatches_of(colour)[0]) for colour in COLOURS)]}
    for one, other in itertools.combinations(light, 2):
        assert one.hatch != other.hatch or abs(light[one] - light[other]) >= LEAST_DIFFERENCE, (one, other)


def test_hatch_is_drawn():
    """A rectangle with a hatch shows its colour and what is nearly black, one without shows its colour alone."""
    figure = new_figure(3, 2)
    axes = figure.add_subplot()
    fill_cells(axes, np.array([0, 1, 2]), np.array([0, 1]), np.array([[0, 1]]), [Paint("#7CC5EE"), Paint("#7CC5EE", "////")])
    points = [part / 40 for part in range(4, 36)]
    plain, hatched = ({colour_at(figure, axes, x + across, 0.5, reach=0) for x in points} for across in (0, 1))
    assert plain == {"#7CC5EE"} and "#7CC5EE" in hatched
    assert min(max(to_rgb(colour)) for colour in hatched) < 0.1
