"""The reader of reports: examples whose lines are worked out by hand, and broken texts."""
import random
from fractions import Fraction

import pytest
from conftest import EXAMPLES

from acas_table import BoxLine, Fault, Manoeuvre, Segment, check_flight, numbered, read_line, read_model, read_regions, read_report
from acas_table.columns import columns_of
from acas_table.flight import climb, highest_response, lowest_response
from acas_table.report import _check_counts, _read_lines, check_line

CERTIFIED = "cell 0 clear 0 0 0 climb certified\n"
REPORTED = (
    "cell 0 clear 0 0 0 descend reported time 3 range 1000 speed 500 ticks -20400 own 0 intruder 0 response 3@-960\n"
)
COUNTS = "certified 1 reported 1 clear 2\n"
WHOLE = CERTIFIED + REPORTED + COUNTS
# Of examples/d.toml, under climb: an intruder 100 ft below that climbs as the own aircraft does, and one that ends just above the puck.
CHASED = (
    "box 0 reported time 20 range 10500 speed 500 ticks -12000 own 0 intruder 0 response 25/8@480 135/8@0 against 25/8@480 135/8@0\n"
)
MET = (
    "box 2 reported time 16/5 range 15500 speed 5000 ticks 14400 own 1500 intruder 0 response 16/5@0 "
    "against 11863/7680@960 12713/7680@0\n"
)
MEETINGS = CHASED + "box 1 certified\n" + MET + "certified 1 reported 2\n"
AT_ONCE = "box 0 reported time 0 range 0 speed 500 ticks 0 own 0 intruder 0 response none against none\n"


@pytest.fixture
def model():
    return read_model(EXAMPLES / "c.toml")


def test_the_program_prints_the_text_of_these_tests(acas):
    assert acas.output("audit", EXAMPLES / "c.toml", EXAMPLES / "c.acxt") == WHOLE


def test_lines_and_counts(model):
    report = read_report(WHOLE)
    assert (report.certified, report.reported, report.clear, report.is_whole) == (1, 1, 2, True)
    assert report.cells["present"].tolist() == ["clear", "clear"]
    assert report.cells["advice"].tolist() == ["climb", "descend"]
    assert report.cells["reported"].tolist() == [False, True]
    assert numbered(report, model).tolist() == [(0, 0, 0, 0, 0, 1, False), (0, 0, 0, 0, 0, 2, True)]


def test_flight_by_hand():
    """A descent of 960 ft/min per second for 3 s is one of 72 ft, which leaves 98 of 170."""
    none, flight = read_report(WHOLE).flights
    assert none is None
    assert (flight.time, flight.range, flight.speed, flight.ticks) == (3, 1000, 500, -20400)
    assert flight.response == (Segment(Fraction(3), Fraction(-960)),)
    assert flight.own_at(Fraction(3)) == -72 * 120
    assert flight.intruder_at(Fraction(3)) - flight.own_at(Fraction(3)) == -98 * 120
    assert flight.range_at(Fraction(3)) == -500


def test_without_certified_lines(model):
    report = read_report(REPORTED + COUNTS)
    assert (report.certified, report.reported, report.is_whole) == (1, 1, False)
    assert len(numbered(report, model)) == 1


def test_whole_report_of_an_example(acas):
    model = read_model(EXAMPLES / "d.toml")
    report = read_report(acas.output("audit", EXAMPLES / "d.toml", acas.table(EXAMPLES / "d.toml")))
    assert (report.certified, report.reported, report.clear) == (0, 40, 680)
    assert len(numbered(report, model)) == 40


BROKEN = [
    ("no text", "", "report line 1: end is missing"),
    ("no counts", CERTIFIED + REPORTED, "report: counts are missing"),
    ("cut in the counts", WHOLE[:-2], "report line 3: end is missing"),
    ("cut in a line", CERTIFIED + REPORTED[:60], "report line 2: end is missing"),
    ("line behind the counts", WHOLE + CERTIFIED, "report line 4: end is missing: a line follows the counts"),
    ("line left out", CERTIFIED + COUNTS, "report: counts say reported 1, but so many lines are: 0"),
    ("line twice", CERTIFIED + CERTIFIED + REPORTED + COUNTS, "report: counts say certified 1, but so many lines are: 2"),
    ("no verdict", WHOLE.replace(" certified\n", "\n", 1), "report line 1: word certified is missing"),
    ("other verdict", WHOLE.replace(" certified\n", " sure\n", 1), "report line 1: word certified is 'sure', not certified or reported"),
    ("no place", WHOLE.replace("clear 0 0 0 climb", "clear 0 0 climb"), "report line 1: place of intruder_rate is 'climb'"),
    ("spelling", WHOLE.replace("cell 0 clear", "cell 00 clear", 1), "report line 1: seconds is '00', not a whole number"),
    ("seconds", WHOLE.replace("cell 0 clear", "cell 120 clear", 1), "report line 1: seconds is '120', not from 0 to 119"),
    ("two spaces", WHOLE.replace("cell 0", "cell  0", 1), "report line 1: seconds is '', not a whole number"),
    ("terms", WHOLE.replace("time 3", "time 6/2"), "report line 2: time is '6/2', not a number in lowest terms"),
    ("no label", WHOLE.replace("speed 500", "500"), "report line 2: word speed is '500', not speed"),
    ("response", WHOLE.replace("3@-960", "3"), "report line 2: response is '3', not DURATION@ACCELERATION"),
    ("no response", WHOLE.replace(" 3@-960", ""), "report line 2: response is missing"),
    ("tail", WHOLE.replace("climb certified", "climb certified 1"), "report line 1: end is missing: '1' follows"),
]


@pytest.mark.parametrize(("name", "text", "fault"), BROKEN, ids=[name for name, _, _ in BROKEN])
def test_broken_reports_name_the_word(name, text, fault):
    with pytest.raises(Fault) as raised:
        read_report(text)
    assert str(raised.value).startswith(fault)


LATE = REPORTED.replace("cell 0 clear", "cell 119 no-climb").replace("3@-960", "5@0 25/8@480 95/8@0")
LEVEL = REPORTED.replace("0 0 0 descend", "127 9 10 level").replace("3@-960", "none").replace("time 3", "time 7/2")
MANY = CERTIFIED + REPORTED + LATE + CERTIFIED.replace("climb", "level") + LEVEL + LATE + "certified 2 reported 4 clear 20\n"
PIECES = ["", " ", "  ", "0", "1", "7", "10", "120", "128", "-", "-0", "00", "1/2", "2/4", "4/2", "0/3", "3/1", "/", "@", "\n", "\r", "\n\n",
    "none", "none ", "certified", "certified\n", "reported ", "against 3@0", "cell ", "x", "\u00b2", "9" * 18, "9" * 19, "1/" + "9" * 19]


def as_read(reader, text):
    """What a reader makes of a text: its lines, its flights and its counts, or the words of a fault."""
    try:
        report = reader(text)
        _check_counts(report)
    except Fault as fault:
        return str(fault)
    return report.cells.dtype, report.cells.tolist(), tuple(report.flights), (report.certified, report.reported, report.clear)


def test_all_at_once_is_read_as_line_by_line():
    """Texts with a piece put in or in the place of some letters: the same lines and flights, or the same fault."""
    chosen, outcomes = random.Random(1), {str: 0, tuple: 0}
    for text in [MANY, *(piece for _, piece, _ in BROKEN)]:
        assert as_read(read_report, text) == as_read(lambda text: _read_lines(text, "report", None), text)
    for _ in range(600):
        place, length = chosen.randrange(len(MANY)), chosen.choice([0, 0, 1, 1, 2, 5, 60])
        text = MANY[:place] + chosen.choice(PIECES) + MANY[place + length :]
        found = as_read(read_report, text)
        assert found == as_read(lambda text: _read_lines(text, "report", None), text), text
        outcomes[type(found)] += 1
    assert min(outcomes.values()) > 50


def test_flights_are_made_when_they_are_asked_for():
    flights = columns_of(MANY, "report").flights
    assert len(flights) == 6 and flights[0] is None and flights[3] is None
    assert flights[2] is flights[-1] and flights[2].response[1] == Segment(Fraction(25, 8), Fraction(480))
    assert flights[4].response == () and flights[4].time == Fraction(7, 2)
    assert flights[1:5:3] == (flights[1], flights[4]) and list(flights) == [flights[place] for place in range(6)]
    assert flights == tuple(flights) and flights == columns_of(MANY, "report").flights and flights != (None,)
    assert columns_of(MANY.replace("2 reported 4", "2 reported 4"), "report").counts == (2, 4, 20)
    with pytest.raises(IndexError):
        flights[6]


OTHERS = [
    ("name", WHOLE.replace("climb", "level"), "report line 1: advice level is no advisory of "),
    ("clear", WHOLE.replace("0 climb", "0 clear"), "report line 1: advice clear is clear, which is clear of conflict"),
    ("second", WHOLE.replace("cell 0 clear", "cell 1 clear"), "report line 1: second 1 is not from 0 to 0"),
    ("place", WHOLE.replace("clear 0 0 0 climb", "clear 0 0 1 climb"), "report line 1: intruder_rate 1 is not from 0 to 0"),
    ("order", REPORTED + CERTIFIED + COUNTS, "report line 1: second 0 stands in a line that is out of order"),
    ("cells", WHOLE.replace("clear 2\n", "clear 3\n"), "report: counts make 4 cells, and "),
    ("state", WHOLE.replace("ticks -20400", "ticks -20399"), "report line 2: ticks is -20399, outside the cell in "),
    ("own rate", WHOLE.replace("own 0", "own 61"), "report line 2: own is 61, outside the cell in "),
    ("speed", WHOLE.replace("speed 500", "speed 499"), "report line 2: speed is 499, outside the closing speeds of "),
    ("range", WHOLE.replace("range 1000", "range 1001"), "report line 2: range is 1001, outside the cell in "),
    ("time", WHOLE.replace("time 3", "time 2"), "report line 2: response lasts 3 s, not the time 2"),
    ("slow", WHOLE.replace("3@-960", "3@-479"), "report line 2: response does not meet descend in "),
    ("hard", WHOLE.replace("3@-960", "3@-961"), "report line 2: response does not meet descend in "),
    ("held", WHOLE.replace("3@-960", "1@0 2@-960"), "report line 2: response does not meet descend in "),
    ("apart", WHOLE.replace("3@-960", "3@-480"), "report line 2: ticks differ by 16080 at the end, outside the puck of "),
    ("far", WHOLE.replace("time 3", "time 7/2").replace("3@", "7/2@"), "report line 2: range is 750 ft at the end, outside the puck"),
]


@pytest.mark.parametrize(("name", "text", "fault"), OTHERS, ids=[name for name, _, _ in OTHERS])
def test_reports_of_another_model_name_the_line(model, name, text, fault):
    with pytest.raises(Fault) as raised:
        numbered(read_report(text), model)
    assert str(raised.value).startswith(fault)


def test_single_lines(model):
    line = read_line(REPORTED)
    assert check_line(model, line, "line") == model.advisories[2]
    with pytest.raises(Fault, match="line: verdict is certified, and no flight is printed"):
        check_line(model, read_line(CERTIFIED), "line")
    box = read_line("box 1 reported time 20 range 10500 speed 500 ticks 43320 own 0 intruder 0 response 25/8@480 135/8@0")
    assert isinstance(box, BoxLine) and box.box == 1
    assert box.flight.response == (Segment(Fraction(25, 8), Fraction(480)), Segment(Fraction(135, 8), Fraction(0)))
    assert read_line("box 3 certified").flight is None
    assert read_line("box 0 reported time 0 range 0 speed 1 ticks 0 own 0 intruder 0 response none").flight.response == ()


def test_meetings():
    regions = read_regions(MEETINGS)
    assert [line.box for line in regions.lines] == [0, 1, 2] and [line.box for line in regions.reported] == [0, 2]
    chased, none, met = (line.flight for line in regions.lines)
    assert none is None
    assert chased.response == chased.against == (Segment(Fraction(25, 8), Fraction(480)), Segment(Fraction(135, 8), Fraction(0)))
    assert met.against == (Segment(Fraction(11863, 7680), Fraction(960)), Segment(Fraction(12713, 7680), Fraction(0)))
    assert read_line(MET) == regions.lines[2] and read_line(AT_ONCE).flight.against == ()
    plain = read_regions("box 0 reported time 3 range 15500 speed 5000 ticks 14400 own 1500 intruder 0 response 3@0\ncertified 0 reported 1\n")
    assert plain.lines[0].flight.against is None and read_regions("certified 0 reported 0\n").lines == ()


def test_intruder_by_hand():
    """The first climbs 39.0625 ft in 3.125 s, and 25 ft a second from then on, 100 ft below the own aircraft. The other comes up to 1482.875
    ft/min, and is then 80 ft and not quite 100 ft more above the own first altitude, which the own aircraft has left by 80 ft."""
    chased, met = (read_line(line).flight for line in (CHASED, MET))
    assert [chased.intruder_at(Fraction(time)) for time in (0, 1, 2)] == [-12000, -12000 + 480, -12000 + 1920]
    assert chased.intruder_at(Fraction(25, 8)) == -12000 + Fraction(625, 16) * 120
    assert chased.intruder_at(Fraction(20)) == -12000 + (Fraction(625, 16) + 25 * Fraction(135, 8)) * 120
    for time in (Fraction(0), Fraction(7, 3), Fraction(25, 8), Fraction(20)):
        assert chased.own_at(time) - chased.intruder_at(time) == 12000
    turned = Fraction(11863, 7680)
    assert met.intruder + 960 * turned == Fraction(11863, 8)
    assert met.intruder_at(turned) == 14400 + 960 * turned**2
    assert met.intruder_at(met.time) == 14400 + 960 * turned**2 + 2 * Fraction(11863, 8) * (met.time - turned)
    assert met.own_at(met.time) == 9600 and 11999 < met.intruder_at(met.time) - 9600 < 12000


def test_meetings_are_looked_at():
    """In examples/d.toml: the intruder's segments last as long, keep to what it may do, and it ends in the puck."""
    model = read_model(EXAMPLES / "d.toml")
    climbing = model.advisories[1]
    for line, may in ((CHASED, (480, 1500)), (MET, (960, 10000)), (AT_ONCE, (1, 1))):
        check_flight(model, climbing, read_line(line).flight, "line", Manoeuvre(*may))
        check_flight(model, climbing, read_line(line).flight, "line")
    for line, may, fault in [
        (CHASED, (479, 1500), "line: against accelerates by 480 ft/min per s, over 479"),
        (CHASED, (480, 1499), "line: against has the rate 1500 ft/min, over 1499"),
        (CHASED.replace("against 25/8@480 ", "against 25/8@-480 "), (480, 1500), "line: ticks differ by 122625 at the end, outside the puck of "),
        (CHASED.replace("against 25/8@480 135/8@0", "against 25/8@480"), (480, 1500), "line: against lasts 25/8 s, not the time 20"),
        (CHASED.replace("against 25/8@480 135/8@0", "against none"), (480, 1500), "line: against lasts 0 s, not the time 20"),
        (CHASED.replace("against 25/8@480 135/8@0", "against 21@0 -1@0"), (480, 1500), "line: against has a segment of -1 s"),
        (CHASED.replace("intruder 0", "intruder 1501"), (480, 1500), "line: against has the rate 1501 ft/min, over 1500"),
        (CHASED.replace("against 25/8@480 135/8@0", "against 20@2001"), (2000, 10000), "line: against accelerates by 2001 ft/min per s, over 2000"),
        (CHASED.replace("response 25/8@480 135/8@0", "response 20@0"), (480, 1500), "line: response does not meet climb in "),
        (MET.replace("11863/7680@960 12713/7680@0", "16/5@960"), (960, 10000), "line: ticks differ by 73152/5 at the end, outside the puck of "),
    ]:
        with pytest.raises(Fault) as raised:
            check_flight(model, climbing, read_line(line).flight, "line", Manoeuvre(*may))
        assert str(raised.value).startswith(fault)


@pytest.mark.parametrize(("text", "fault"), [
    ("", "regions line 1: end is missing"),
    (MEETINGS[:-2], "regions line 4: end is missing"),
    (CHASED, "regions: counts are missing"),
    (MEETINGS + CHASED, "regions line 5: end is missing: a line follows the counts"),
    (MEETINGS.replace("box 1 certified\n", ""), "regions line 2: box is 2, not 1"),
    (MEETINGS.replace("certified 1 r", "certified 2 r"), "regions: counts say certified 2, but so many lines are: 1"),
    (MEETINGS.replace("reported 2\n", "reported 1\n"), "regions: counts say reported 1, but so many lines are: 2"),
    (MEETINGS.replace("reported 2\n", "reported 2 clear 0\n"), "regions line 4: end is missing: 'clear' follows"),
    (MEETINGS.replace(" against 11863/7680@960 12713/7680@0", ""), "regions: against stands in some reported lines, and not in all"),
    (MEETINGS.replace(" against 11863/7680@960 12713/7680@0", " against"), "regions line 3: against is missing"),
    (MEETINGS.replace("7680@0", "7680"), "regions line 3: against is '12713/7680', not DURATION@ACCELERATION"),
    (MEETINGS.replace("against 25/8@480", "against 50/16@480"), "regions line 1: against is '50/16', not a number in lowest terms"),
    (MEETINGS.replace("response 16/5@0 against", "response against"), "regions line 3: response is 'against', not DURATION@ACCELERATION"),
    (MEETINGS.replace("against", "again"), "regions line 1: response is 'again', not DURATION@ACCELERATION"),
    (AT_ONCE.replace("none\n", "none 1@0\n") + "certified 0 reported 1\n", "regions line 1: end is missing: '1@0' follows"),
    (REPORTED + COUNTS, "regions line 1: word box is 'cell', not box"),
])
def test_broken_meetings_name_the_word(text, fault):
    with pytest.raises(Fault) as raised:
        read_regions(text)
    assert str(raised.value).startswith(fault)


def test_cells_have_no_manoeuvre():
    with pytest.raises(Fault, match="report line 2: end is missing: 'against' follows"):
        read_report(WHOLE.replace("3@-960", "3@-960 against 3@0"))


def test_program_prints_meetings(acas):
    """What the program prints on the example's boxes meets the advisory, keeps to what the intruder may do, and ends in contact."""
    model = read_model(EXAMPLES / "d.toml")
    for may in (Manoeuvre(480, 1500), Manoeuvre(960, 10000), Manoeuvre(1, 1)):
        regions = read_regions(acas.output("manoeuvre", EXAMPLES / "d.toml", EXAMPLES / "d-manoeuvre.toml", *may))
        assert len(regions.lines) == 3
        for line in regions.reported:
            check_flight(model, model.advisories[1], line.flight, f"box {line.box}", may)


def test_curves_by_hand(changed):
    """Told to climb from level flight with a delay of 5 s, the slowest pilot has gained 25/8*12.5 ft by 65/8 s, and then 25 ft a second."""
    late = read_model(changed("d.toml", ("version = 1", "version = 2"), ("limit = 960", "limit = 960\ndelay = 5")))
    level, end = Fraction(0), Fraction(20)
    lowest = lowest_response(late, late.advisories[1], level, end)
    assert lowest[:2] == (Segment(Fraction(5), Fraction(0)), Segment(Fraction(25, 8), Fraction(480)))
    assert climb(level, lowest, Fraction(5)) == 0
    assert climb(level, lowest, Fraction(65, 8)) == Fraction(625, 16) * 120
    assert climb(level, lowest, end) == (Fraction(625, 16) + 25 * Fraction(95, 8)) * 120
    highest = highest_response(late, late.advisories[1], level, end)
    assert highest[0] == Segment(Fraction(10000, 960), Fraction(960))
    assert climb(level, highest, Fraction(2)) == 960 * 4
