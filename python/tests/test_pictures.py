"""What the pictures show: axes, units, legends, and colours at entries that are known by hand."""
import re
from fractions import Fraction

import numpy as np
import pytest
from conftest import EXAMPLES
from look import colour_at, hex_of, legend_of, line_of

from acas_pictures.canvas import edges_between, resize
from acas_pictures.colours import CERTIFIED, CLEAR, DOWN, MIXED, NEAR, NO_RATIO, OPEN, REPORTED, SAFEABLE, UNADVISED, UP, WITH_TABLE
from acas_pictures.cost import draw_cost
from acas_pictures.encounter import draw_replay, profile
from acas_pictures.policy import draw_policy
from acas_pictures.risk import draw_risk
from acas_pictures.safeable import draw_safeable
from acas_pictures.separation import draw_separation
from acas_pictures.slices import slice_of
from acas_pictures.verdicts import cell_slice, draw_verdicts
from acas_pictures.witness import draw_witness, title_of
from acas_table import (
    Fault, check_replay, read_line, read_model, read_replay, read_report, read_risk, read_safeable, read_separations, read_table,
)
from test_replay import TEXT as REPLAY
from test_report import AT_ONCE, CHASED, MET
from test_report import CERTIFIED as CERTIFIED_LINE
from test_report import REPORTED as REPORTED_LINE
from test_report import WHOLE as REPORT
from test_risk import TEXT as RISK
from test_safeable import FAR, NOTHING_ADVISED, TWO_SECONDS
from test_safeable import OPEN as OPEN_CELLS
from test_safeable import TEXT as SAFEABLE_CELLS
from test_separation import TEXT as SEPARATIONS

COLOURS = {"climb": UP[1], "descend": DOWN[1]}
TO_GO = "time to loss of horizontal separation [s]"
ALTITUDE = "intruder's altitude less the own [ft]"


@pytest.fixture
def model():
    return read_model(EXAMPLES / "c.toml")


@pytest.fixture(params=["c.acxt", "c2.acxt"])
def table(request, model):
    """The same table in version 1 and in version 2."""
    return read_table(EXAMPLES / request.param, model)


def policy_of(model, table, present):
    figure = draw_policy(model, table, slice_of(model, present, 0, 0))
    return figure, figure.axes[0]


def test_edges_are_half_of_the_way():
    assert edges_between(np.array([-1000, -670, 0, 1000])).tolist() == [-1000, -835, -335, 500, 1000]


def test_policy_colours_known_entries(model, table):
    """With a second to go and clear present: climb at -1000 ft, descend at -170 ft, and half of the way between them is -585."""
    figure, axes = policy_of(model, table, "clear")
    for altitude, advice in ((-995, "climb"), (-590, "climb"), (-580, "descend"), (-175, "descend")):
        assert colour_at(figure, axes, 0.5, altitude) == COLOURS[advice]
    assert legend_of(axes) == {"climb": COLOURS["climb"], "descend": COLOURS["descend"]}


def test_title_of_a_cell_is_in_feet(model):
    """The cell of the reported line: the places 0 0 0 of a second 0."""
    title = "c.toml: 0 to 1 s to go, clear is present, under descend\naltitude -1000 to -170 ft, own rate 0 to 60, intruder's rate -60 to 0 ft/min"
    assert title_of(model, read_line(REPORTED_LINE)) == title


def test_title_and_size_that_are_given(model, table):
    figure = draw_policy(model, table, slice_of(model, "clear", 0, 0), "what $2 and $3 cost")
    assert figure.axes[0].get_title("left") == "what $2 and $3 cost"
    resize(figure, (5, 3.5), 200)
    figure.canvas.draw()
    assert np.asarray(figure.canvas.buffer_rgba()).shape[:2] == (700, 1000)
    with pytest.raises(Fault, match="words: size makes 80000 by 80000 points, over 100000000 in all"):
        resize(figure, (40, 40), 2000)


def test_policy_under_another_advisory(model, table):
    figure, axes = policy_of(model, table, "climb")
    assert colour_at(figure, axes, 0.5, -590) == colour_at(figure, axes, 0.5, -300) == CLEAR
    assert legend_of(axes) == {"clear": CLEAR}


def test_policy_axes(model, table):
    _, axes = policy_of(model, table, "clear")
    assert (axes.get_xlabel(), axes.get_ylabel()) == (TO_GO, ALTITUDE)
    assert axes.get_title("left") == "What is advised?\nc.toml: clear is present, own rate 0, intruder's rate 0 ft/min"
    assert axes.get_xlim() == (0, 1)
    assert axes.get_legend().get_title().get_text() == "advice"


def test_policy_of_each_example_shows_each_entry(acas):
    """In the middle of each entry's rectangle stands the colour that the legend gives for the advice that the program prints."""
    for name in ("b.toml", "d.toml"):
        model = read_model(EXAMPLES / name)
        figure = draw_policy(model, read_table(acas.table(EXAMPLES / name), model), slice_of(model, "clear", 0, 0))
        legend, edges = legend_of(figure.axes[0]), edges_between(model.altitude)
        middles = dict(zip(model.altitude.tolist(), (edges[:-1] + edges[1:]) / 2))
        for line in acas.output("values", EXAMPLES / name).splitlines():
            second, present, altitude, own, intruder, _, _, advice = line.split(" ")
            if (present, own, intruder) == ("clear", "0", "0") and second != "0" and abs(middles[int(altitude)]) > 110:
                assert colour_at(figure, figure.axes[0], int(second) - 0.5, middles[int(altitude)]) == legend[advice]


def test_policy_without_seconds(acas):
    model = read_model(EXAMPLES / "a.toml")
    with pytest.raises(Fault, match="horizon is 0"):
        draw_policy(model, read_table(acas.table(EXAMPLES / "a.toml"), model), slice_of(model, "clear", 0, 0))


def test_cost_shows_the_values(acas):
    """The intruder climbs 600 ft/min: at the same altitude contact is certain now, and has a chance of 2/3 with a second to go.

    30 ft above, with two seconds to go, there is a chance only where it levels off at first, by 1/3, and then descends: 1/3 of 1/6.
    """
    model = read_model(EXAMPLES / "b.toml")
    figure = draw_cost(model, read_table(acas.table(EXAMPLES / "b.toml"), model), slice_of(model, "clear", 0, 600))
    left, right, *bars = figure.axes
    upper, gap = (np.asarray(axes.collections[0].get_array()).reshape(2, 3).tolist() for axes in (left, right))
    assert upper == [[1.0, 0.666667, 0.524692], [0.0, 0.0, 0.018519]]
    assert gap == [[0, 1, 2], [0, 0, 1]]
    assert (left.get_xlabel(), left.get_ylabel(), right.get_xlabel()) == ("seconds to go [s]", ALTITUDE, "seconds to go [s]")
    assert [bar.get_ylabel() for bar in bars] == ["upper value [units of cost]", "upper less lower value [millionths]"]
    assert left.get_xlim() == (-0.5, 2.5)


def test_verdicts_colours_and_counts(model):
    """The one cell while clear is present is certified under climb and reported under descend; the others are clear."""
    figure = draw_verdicts(model, read_report(REPORT), cell_slice(model, "clear", 0, -60))
    cells, by_advice, by_second = figure.axes
    assert colour_at(figure, cells, 0.5, -500) == MIXED
    assert legend_of(cells) == {"clear at all corners": CLEAR, "certified": CERTIFIED, "some advice reported": MIXED, "reported": REPORTED}
    assert (cells.get_xlabel(), cells.get_ylabel()) == (TO_GO, ALTITUDE)
    title = "Where does the advice leave danger?\nc.toml: clear is present, own rate 0 to 60, intruder's rate -60 to 0 ft/min"
    assert cells.get_title("left") == title
    assert [label.get_text() for label in by_advice.get_yticklabels()] == ["climb", "descend"]
    assert [bar.get_width() for bar in by_advice.containers[0]] == [0, 1]
    assert [bar.get_width() for bar in by_advice.containers[1]] == [1, 0]
    assert by_second.containers[0][0].get_height() == by_second.containers[1][0].get_height() == 1
    assert (by_advice.get_xlabel(), by_second.get_xlabel()) == ("lines of the report, by advice", TO_GO)


@pytest.mark.parametrize(("text", "colour"), [
    (CERTIFIED_LINE + "certified 1 reported 0 clear 2\n", CERTIFIED),
    (REPORTED_LINE + "certified 0 reported 1 clear 2\n", REPORTED),
    ("certified 0 reported 0 clear 3\n", CLEAR),
])
def test_verdicts_of_one_kind(model, text, colour):
    figure = draw_verdicts(model, read_report(text), cell_slice(model, "clear", 0, -60))
    assert colour_at(figure, figure.axes[0], 0.5, -500) == colour


def test_verdicts_of_an_example(acas):
    """All cells of examples/d.toml with an advice are reported, and each is of the last five seconds."""
    model = read_model(EXAMPLES / "d.toml")
    report = read_report(acas.output("audit", EXAMPLES / "d.toml", acas.table(EXAMPLES / "d.toml")))
    figure = draw_verdicts(model, report, cell_slice(model, "clear", 0, 0))
    cells, _, by_second = figure.axes
    assert [colour_at(figure, cells, second, 500) for second in (24.5, 25.5)] == [CLEAR, REPORTED]
    assert [colour_at(figure, cells, 27.5, altitude) for altitude in (-800, -500, 500)] == [CLEAR, REPORTED, REPORTED]
    assert [bar.get_height() for bar in by_second.containers[0]] == [0] * 25 + [8] * 5


def test_verdicts_want_the_certified_lines(model):
    report = read_report(REPORTED_LINE + "certified 1 reported 1 clear 2\n")
    with pytest.raises(Fault, match="give the report without --reported"):
        draw_verdicts(model, report, cell_slice(model, "clear", 0, -60))


def test_risk_shows_the_chances():
    """In examples/b.toml clear alone may be chosen: both lines are the same, at the upper bounds, and each ratio is about 1."""
    model = read_model(EXAMPLES / "b.toml")
    figure = draw_risk(model, read_risk(RISK), slice_of(model, "clear", 0, 600))
    left, right, bar = figure.axes
    for label in ("with the table", "always clear"):
        assert line_of(left, label) == ([0.524692, 0.018519], [0, 30])
    assert legend_of(left) == {"always clear": UNADVISED, "with the table": WITH_TABLE}
    band = left.collections[1].get_paths()[0].vertices.tolist()
    assert [0.52469, 0] in band and [0.524692, 0] in band and [0.018518, 30] in band
    found = np.ma.getdata(right.collections[0].get_array()).reshape(2, 2)
    assert found[0, 0] == pytest.approx(524692 / 524690) and found[1, 0] == pytest.approx(18519 / 18518)
    assert (left.get_xlabel(), left.get_ylabel(), right.get_xlabel()) == ("chance of contact", ALTITUDE, "own rate [ft/min]")
    assert (bar.get_ylabel(), right.get_xlim(), right.get_ylim()) == ("risk ratio, upper bound", (0, 600), (0, 30))
    assert figure._suptitle.get_text() == "How likely is contact?\nb.toml: clear is present, own rate 0, intruder's rate 600 ft/min"
    assert left.get_xscale() == "linear" and right.get_legend() is None


def test_risk_by_powers_of_ten():
    """A chance of less than a hundredth has its own power of ten; 0 has a place too."""
    model = read_model(EXAMPLES / "b.toml")
    text = RISK.replace("risk 0.018518 0.018519", "risk 0.000000 0.000003").replace("risk 0.185184 0.185186", "risk 0.000000 0.000000")
    figure = draw_risk(model, read_risk(text), slice_of(model, "clear", 0, 600))
    left, _, bar = figure.axes
    figure.canvas.draw()
    assert left.get_xscale() == "symlog" and left.get_xlim()[0] < 0 < left.get_xlim()[1]
    assert [label.get_text() for label in left.get_xticklabels()] == ["0", "0.000001", "0.00001", "0.0001", "0.001", "0.01", "0.1", "1"]
    assert [label.get_text() for label in bar.get_yticklabels()][:2] == ["0", "0.0001"]


def test_risk_without_a_ratio_and_above_one():
    """Where the chance without advice is 0 nothing but grey is drawn; where the table surely makes contact likelier a hatch is."""
    model = read_model(EXAMPLES / "b.toml")
    text = RISK.replace("clear 0.018518 0.018519", "clear 0.000000 0.000001").replace("clear 0.524690 0.524692", "clear 0.100000 0.100002")
    figure = draw_risk(model, read_risk(text), slice_of(model, "clear", 0, 600))
    right = figure.axes[1]
    assert colour_at(figure, right, 150, 24) == NO_RATIO
    assert set(legend_of(right)) == {"no ratio", "surely above 1"}
    (hatched,) = [one for one in right.collections if one.get_hatch()]
    assert len(hatched.get_paths()) == 1 and hatched.get_paths()[0].vertices[:2].tolist() == [[0, 0], [300, 0]]


def test_risk_with_no_second_to_go(acas):
    model = read_model(EXAMPLES / "a.toml")
    text = acas.output("risk", EXAMPLES / "a.toml", acas.table(EXAMPLES / "a.toml"))
    left, right, _ = draw_risk(model, read_risk(text), slice_of(model, "clear", 0, 0)).axes
    assert line_of(left, "with the table") == ([1, 0], [0, 200])
    assert right.collections[0].get_array().mask.reshape(2, 2).tolist() == [[False] * 2, [True] * 2]


@pytest.mark.parametrize(("text", "colour", "bars"), [
    (SAFEABLE_CELLS, SAFEABLE, [[0, 0], [0, 3], [3, 0]]), (OPEN_CELLS, OPEN, [[0, 3], [0, 0], [3, 0]]),
])
def test_safeable_shows_clear_cells(changed, text, colour, bars):
    """The cell of the first second is near, the other one as the text says."""
    model = read_model(changed("c.toml", TWO_SECONDS, FAR))
    figure = draw_safeable(model, read_report(NOTHING_ADVISED), read_safeable(text), cell_slice(model, "clear", 0, -60))
    axes, below = figure.axes
    cells = np.asarray(axes.collections[0].get_array()).ravel()
    filled = [axes.collections[0].cmap(axes.collections[0].norm(cell)) for cell in cells]
    assert [hex_of(one) for one in filled] == [NEAR, colour]
    assert [[bar.get_height() for bar in container] for container in below.containers] == bars
    assert (axes.get_xlabel(), axes.get_ylabel(), below.get_xlabel(), below.get_ylabel()) == (TO_GO, ALTITUDE, TO_GO, "clear cells")
    title = "Where can advice wait a second?\nc.toml: clear is present, own rate 0 to 60, intruder's rate -60 to 0 ft/min"
    assert axes.get_title("left") == title
    assert legend_of(axes) == {
        "advised and certified": CERTIFIED, "some advice reported": MIXED, "advised and reported": REPORTED,
        "clear and safeable": SAFEABLE, "clear and open": OPEN, "clear and near": NEAR,
    }


def test_safeable_of_an_example(acas):
    """Five cells of examples/d.toml under clear, by their second and their place among the altitudes, and the bars of all clear cells."""
    path = EXAMPLES / "d.toml"
    model, words = read_model(path), (path, acas.table(path))
    report, safeable = read_report(acas.output("audit", *words)), read_safeable(acas.output("safeable", *words))
    axes, below = draw_safeable(model, report, safeable, cell_slice(model, "clear", 0, 0)).axes
    mesh = axes.collections[0]
    kinds = np.asarray(mesh.get_array()).reshape(3, 30)
    for second, place, colour in ((0, 0, NEAR), (1, 0, SAFEABLE), (1, 1, OPEN), (29, 0, OPEN), (29, 1, REPORTED)):
        assert hex_of(mesh.cmap(mesh.norm(kinds[place, second]))) == colour
    heights = [sum(bar.get_height() for bar in container) for container in below.containers]
    assert heights == [496, 160, 24]


def test_safeable_wants_both_reports_of_one_table(changed):
    model = read_model(changed("c.toml", TWO_SECONDS, FAR))
    audit = read_report("cell 1 clear 0 0 0 climb certified\ncertified 1 reported 0 clear 5\n")
    with pytest.raises(Fault, match="safeable line 1: second 1 is of a cell that has an advice in report"):
        draw_safeable(model, audit, read_safeable(SAFEABLE_CELLS), cell_slice(model, "clear", 0, -60))


def test_last_rate_begins_no_cell(model):
    with pytest.raises(Fault, match="grid.own_rate ends at 60, and no cell begins there"):
        cell_slice(model, "clear", 60, -60)


def test_witness_by_hand(model):
    """The intruder stays 170 ft below. After 3 s the own aircraft is 72 ft lower, and the puck reaches from -172 ft to 28 ft.

    It closes in from 1000 ft with 500 ft/s, so the puck's 500 ft are reached after 1 s and left after 3 s.
    """
    figure = draw_witness(model, model.advisories[2], read_line(REPORTED_LINE).flight, "title")
    axes = figure.axes[0]
    times, altitudes = line_of(axes, "own path")
    assert (times[0], altitudes[0], times[-1], altitudes[-1]) == (0, 0, 3, -72)
    assert altitudes[times.index(1.5)] == -18
    assert line_of(axes, "intruder's path") == ([0, 3], [-170, -170])
    assert line_of(axes, "contact at 3 s") == ([3], [-170])
    (puck,) = [one for one in axes.patches if one.get_label() == "puck at contact"]
    assert puck.get_bbox().bounds == (1, -172, 2, 200)
    low, high = (line_of(axes, f"{way} climb") for way in ("lowest", "highest"))
    assert low[1][low[0].index(1.625)] == pytest.approx(-8 * 1.625**2)
    assert high[1][high[0].index(1.625)] == pytest.approx(-4 * 1.625**2)
    assert (axes.get_xlabel(), axes.get_ylabel()) == ("time [s]", "altitude above the own at first [ft]")
    assert [axis.get_xlabel() for axis in axes.child_axes] == ["range [ft]"]
    assert list(legend_of(axes)) == ["highest climb", "lowest climb", "puck at contact", "own path", "intruder's path", "contact at 3 s"]


def test_witness_with_a_hold(changed):
    """A pilot who holds for 5 s, and then climbs, has gained 39.0625 ft after 8.125 s, and 25 ft in each of the 11.875 s after it."""
    late = read_model(changed("d.toml", ("version = 1", "version = 2"), ("limit = 960", "limit = 960\ndelay = 5")))
    words = "box 0 reported time 20 range 10500 speed 500 ticks 43200 own 0 intruder 0 response 5@0 25/8@480 95/8@0"
    figure = draw_witness(late, late.advisories[1], read_line(words).flight, "title")
    times, altitudes = line_of(figure.axes[0], "own path")
    assert [altitudes[times.index(time)] for time in (5, 8.125, 20)] == [0, 39.0625, 335.9375]
    text = figure.axes[0].texts[0].get_text()
    assert text.splitlines() == ["response", "5 s at the same rate", "3.125 s at +480 ft/min per s", "11.875 s at the same rate"]


def test_witness_of_contact_at_once(model):
    flight = read_line("box 0 reported time 0 range 300 speed 500 ticks 1200 own 0 intruder 0 response none").flight
    axes = draw_witness(model, model.advisories[1], flight, "title").axes[0]
    assert line_of(axes, "contact at 0 s") == ([0], [10])
    assert axes.get_xlim() == pytest.approx((0, 1.6 + 0.2))


def test_witness_of_a_manoeuvre():
    """The intruder climbs 39.0625 ft in 3.125 s from 100 ft below, and 25 ft a second then, as the own aircraft does. It is drawn to the contact,
    with a square where each of its two segments begins."""
    other = read_model(EXAMPLES / "d.toml")
    axes = draw_witness(other, other.advisories[1], read_line(CHASED).flight, "title").axes[0]
    times, altitudes = line_of(axes, "intruder's path")
    assert [altitudes[times.index(time)] for time in (0, 3.125, 20)] == [-100, -60.9375, 360.9375]
    own_times, own = line_of(axes, "own path")
    assert times == own_times and [high - low for high, low in zip(own, altitudes)] == pytest.approx([100] * len(own))
    (path,) = [line for line in axes.lines if line.get_label() == "intruder's path"]
    assert path.get_marker() == "s" and [times[place] for place in path.get_markevery()] == [0, 3.125]
    assert line_of(axes, "contact at 20 s") == ([20], [360.9375])
    segments = ["3.125 s at +480 ft/min per s", "16.875 s at the same rate"]
    assert axes.texts[0].get_text().splitlines() == ["response", *segments, "", "intruder's manoeuvre", *segments]
    assert list(legend_of(axes)) == ["highest climb", "lowest climb", "puck at contact", "own path", "intruder's path", "contact at 20 s"]
    low, high = axes.get_ylim()
    assert low < -100 and high > 560.9375


def test_witness_of_a_manoeuvre_that_comes_down():
    """The intruder, 120 ft up, may end above the puck: it takes back its climb at 1482.875 ft/min, and is 99.9988 ft above the own aircraft."""
    other = read_model(EXAMPLES / "d.toml")
    axes = draw_witness(other, other.advisories[1], read_line(MET).flight, "title").axes[0]
    times, altitudes = line_of(axes, "intruder's path")
    assert (times[0], altitudes[0], times[-1]) == (0, 120, 3.2) and 179.99 < altitudes[-1] < 180
    assert line_of(axes, "own path")[1][-1] == 80


def test_witness_of_a_manoeuvre_at_once():
    other = read_model(EXAMPLES / "d.toml")
    axes = draw_witness(other, other.advisories[1], read_line(AT_ONCE).flight, "title").axes[0]
    assert line_of(axes, "intruder's path") == ([0], [0])
    assert axes.texts[0].get_text().splitlines() == ["no response", "", "no intruder's manoeuvre"]


def test_separation_by_hand():
    """Up to an acceleration the borders are those found for it, and one that is nowhere leaves all reported."""
    other = read_model(EXAMPLES / "d.toml")
    figure = draw_separation(other, read_separations(SEPARATIONS), 0)
    high, low = figure.axes
    assert line_of(high, "above which it is certified") == ([1, 480, 2000], [3070, 3602, 3631])
    assert line_of(low, "below which it is certified") == ([1, 480, 2000], [357, -101, -130])
    assert high.get_xlim() == low.get_xlim() == (1, 2000)
    for accel, altitude, colour in ((200, -90, REPORTED), (200, -110, CERTIFIED), (1000, -125, REPORTED), (1000, -135, CERTIFIED)):
        assert colour_at(figure, low, accel, altitude) == colour
    for accel, altitude, colour in ((200, 3590, REPORTED), (200, 3615, CERTIFIED), (1000, 3620, REPORTED), (1000, 3640, CERTIFIED)):
        assert colour_at(figure, high, accel, altitude) == colour
    assert legend_of(high) == {"certified": CERTIFIED, "reported at the next mark": REPORTED}
    assert (low.get_xlabel(), figure._supylabel.get_text()) == ("intruder's greatest acceleration [ft/min per s]", ALTITUDE)
    assert high.get_title("left") == "From which altitude on is it safe?\nd.toml: box 0, an intruder of up to 1500 ft/min"
    puck = [line.get_ydata()[0] for line in low.lines if line.get_color() == "white"]
    assert puck == [-100, 100] and not any(line.get_color() == "white" for line in high.lines)


def test_separation_of_a_box_that_is_never_certified():
    other = read_model(EXAMPLES / "d.toml")
    figure = draw_separation(other, read_separations(SEPARATIONS), 1)
    high, low = figure.axes
    assert colour_at(figure, high, 1000, 500) == REPORTED and colour_at(figure, low, 1000, -9000) == REPORTED
    assert high.get_ylim() == (-10000, 10000)
    for box, fault in ((2, "box 2 has one acceleration, and a picture wants two"), (3, "box 3 is not there")):
        with pytest.raises(Fault, match=fault):
            draw_separation(other, read_separations(SEPARATIONS), box)


def test_replay_by_hand(model, table):
    """The own aircraft is level until second 2, and then loses 4 ft; the intruder begins 200 ft below."""
    replay = read_replay(REPLAY)
    figure = draw_replay(model, replay, check_replay(replay, model, table))
    axes, strip = figure.axes
    times, own = line_of(axes, "own path")
    assert [own[times.index(second)] for second in (0, 2, 2.5, 3)] == [0, 0, -1, -4]
    times, intruder = line_of(axes, "intruder's path")
    assert [intruder[times.index(second)] for second in (0, 1, 2, 3)] == [-200, -200, -200.5, -201.5]
    assert [colour_at(figure, strip, second + 0.5, 0.5) for second in range(4)] == [CLEAR, COLOURS["descend"]] * 2
    assert legend_of(strip) == {"clear": CLEAR, "descend": COLOURS["descend"]}
    assert (strip.get_xlabel(), axes.get_ylabel()) == ("time [s]", "altitude above the own at first [ft]")
    assert [axis.get_xlabel() for axis in axes.child_axes] == ["range [ft]"]
    assert axes.get_xlim() == (0, 4)


def test_replay_marks_contact(model):
    """In the seconds of contact the background is another one than in those without."""
    text = re.sub("apart", "contact", REPLAY, count=1).replace("contact 0", "contact 1")
    figure = draw_replay(model, read_replay(text), np.zeros(4, dtype=np.uint8))
    axes = figure.axes[0]
    assert colour_at(figure, axes, 0.5, -150) != colour_at(figure, axes, 1.5, -150) == "#FFFFFF"
    assert "contact" in legend_of(axes)


def test_paths_meet_the_next_second(model):
    """The climb of the last drawn second is that of the rates: 2*v*t + a*t*t ticks."""
    times, own, _ = profile(read_replay(REPLAY).seconds)
    assert own[times == 2.25].tolist() == [float(Fraction(-480) * Fraction(1, 16) / 120)]
