"""Studies: the built network against the hand-written one, what is rounded, and mistakes told in one line."""

import plain_model
import pytest

from ctmtools import Problem, build, read_network, read_study
from ctmtools.network_file.network import network_of

from .corridor import HEAD as OPEN_HEAD, corridor
from .examples import EXAMPLES

STUDIES = sorted(path.stem for path in EXAMPLES.glob("*.toml") if path.with_suffix(".csv").exists())


def sorted_rows(frame, by):
    return frame.drop(columns="record").sort_values(by).reset_index(drop=True)


@pytest.mark.parametrize("name", STUDIES)
def test_the_built_network_is_the_hand_written_one(name):
    built = network_of(build(read_study(EXAMPLES / f"{name}.toml")).text.encode())
    written = read_network(EXAMPLES / f"{name}.csv")
    assert built.steps == written.steps
    assert built.cells.drop(columns="record").equals(written.cells.drop(columns="record"))
    for sort, by in (("links", ["up", "down"]), ("signals", ["cell"]), ("limits", ["cell", "from"]),
                     ("demands", ["gate", "from"]), ("turns", ["cell", "from"])):
        assert sorted_rows(getattr(built, sort), by).equals(sorted_rows(getattr(written, sort), by)), sort


@pytest.mark.parametrize("name", STUDIES)
def test_and_has_its_report(name):
    text = build(read_study(EXAMPLES / f"{name}.toml")).text.encode()
    assert plain_model.report(text) == (EXAMPLES / f"{name}.report").read_bytes()


def test_each_hand_written_example_has_its_study():
    """But for the two ramps, which are given in vehicles and steps alone."""
    assert sorted([*STUDIES, "ramp-narrow", "ramp-wide"]) == sorted(path.stem for path in EXAMPLES.glob("*.csv"))


HEAD = OPEN_HEAD.format(end="07:00")
ROAD = "[roads.m]\nlength = 1\nlanes = 2\n[gates.g]\ninto = \"m\"\ndemand = 1000\n[exits.x]\nfrom = \"m\"\n"


def study(tmp_path, text):
    path = tmp_path / "study.toml"
    path.write_text(text)
    return read_study(path).scenario


def built(tmp_path, text):
    return build(study(tmp_path, text))


def roundings(made):
    return {note.what: (float(note.asked), float(note.modelled)) for note in made.rounding.differing}


def records(made, kind):
    return [line for line in made.text.splitlines() if line.startswith(kind + ",")]


def test_what_is_rounded_by_more_than_a_thousandth_is_told(tmp_path):
    made = built(tmp_path, HEAD + ROAD.replace("length = 1", "length = 1.1"))
    assert roundings(made) == {"length of road m": (1.1, 1.0)}
    assert records(made, "demand") == ["demand,g,0,360,2.777778"]  # 1,000/360, to a millionth


@pytest.mark.parametrize("length, told", [("1.0009", False), ("1.0011", True)])
def test_a_thousandth_is_the_bound(tmp_path, length, told):
    made = built(tmp_path, HEAD + ROAD.replace("length = 1", f"length = {length}"))
    assert ("length of road m" in roundings(made)) == told


def test_each_rounding_is_told_once(tmp_path):
    made = built(tmp_path, HEAD + ROAD + '[[closures]]\nroad = "m"\ncapacity = 0.001\n')
    assert [note.what for note in made.rounding.differing] == ["closures[1]: what is left"]


def test_an_end_is_measured_by_what_it_ends(tmp_path):
    wide = OPEN_HEAD.format(end="24:00") + ROAD + """[[closures]]
road = "m"
lanes = 1
start = "20:00:04"
end = "20:00:24"
[[signals]]
road = "m"
cycle = 90
green = 40
first_green = 28804
"""
    # 4 s are little of a day and much of a closure of 20 s or a cycle of 90 s.
    assert set(roundings(built(tmp_path, wide))) == {"start of closures[1]", "end of closures[1]",
                                                     "first green of signals[1]"}


def test_a_small_share_is_told_though_the_other_hardly_changes(tmp_path):
    text = HEAD + ROAD.replace("[exits.x]\nfrom = \"m\"\n", "[exits.x]\n[exits.y]\n[[diverges]]\nfrom = \"m\"\n"
                               "into = [\"x\", \"y\"]\nshares = [1999, 1]\n")
    assert roundings(built(tmp_path, text)) == {"diverges[1]: share of the first": (99.95, pytest.approx(100 - 100 / 1001))}


@pytest.mark.parametrize("road, cells, wanted", [
    ("a7", "", ["a7.1", "a7.2", "a7.3", "a7.4"]), ("m", 'cells = "z2"\n', ["z2.1", "z2.2", "z2.3", "z2.4"]),
    ("a7-north", "", ["a7-north1", "a7-north2", "a7-north3", "a7-north4"])])
def test_names_of_cells_arent_read_as_another_number(tmp_path, road, cells, wanted):
    made = built(tmp_path, HEAD + ROAD.replace("lanes = 2\n", "lanes = 2\n" + cells).replace("roads.m", f"roads.{road}")
                 .replace('"m"', f'"{road}"'))
    assert made.units.roads == {road: wanted}


def test_units_may_be_written(tmp_path):
    text = HEAD.replace("90", '"25 m/s"').replace("step = 10", 'step = "10 s"') + ROAD.replace("= 1\n", '= "1000 m"\n')
    assert built(tmp_path, text).text.split("\n\n", 1)[1] == built(tmp_path, HEAD + ROAD).text.split("\n\n", 1)[1]


def test_miles_are_read(tmp_path):
    text = HEAD.replace("90", '"90 mph"').replace("18\n", '"18 mph"\n').replace("144", '"144 vehicles/mi"') \
        + ROAD.replace("= 1\n", '= "1 mi"\n')
    made = built(tmp_path, text)
    # A cell is the way of 10 s at 90 mph, a quarter of a mile, with room for a quarter of 144 vehicles in a lane.
    assert records(made, "road") == [f"road,m{i},72,12,1,5,0" for i in range(1, 5)]
    assert made.units.cells["m4"]["to_km"] == pytest.approx(1.609344)
    assert made.units.cells["m4"]["free_flow_kmh"] == pytest.approx(144.84096)


def test_a_byte_order_mark_is_dropped(tmp_path):
    assert built(tmp_path, "\ufeff" + HEAD + ROAD).text == built(tmp_path, HEAD + ROAD).text


def test_a_time_between_steps_is_rounded(tmp_path):
    made = built(tmp_path, HEAD + ROAD.replace("1000", '[["06:00:04", "06:30:06", 360]]'))
    assert records(made, "demand") == ["demand,g,0,181,1"]
    assert roundings(made)["end of gates.g.demand[1]"] == (1806, 1810)


@pytest.mark.parametrize("lanes, told", [(1, "1 lane"), (2, "2 lanes"), (3, "3 lanes")])
def test_a_built_network_tells_the_lanes_of_its_roads(tmp_path, lanes, told):
    assert f"# m1 to m4: road m, {told}, cells of 250 m, 90 km/h, " in corridor(tmp_path, lanes=lanes).text


def test_times_after_midnight(tmp_path):
    text = HEAD.replace("06:00", "23:30").replace("07:00", "00:30") + ROAD.replace("1000", '[["23:50", "00:10", 360]]')
    assert records(built(tmp_path, text), "demand") == ["demand,g,120,240,1"]


def test_a_study_that_ends_at_midnight(tmp_path):
    text = HEAD.replace("06:00", "23:00").replace("07:00", "00:00") + ROAD.replace("1000", '[["23:30", "00:00", 360]]')
    assert records(built(tmp_path, text), "demand") == ["demand,g,180,360,1"]


def test_shares_in_per_cent(tmp_path):
    text = HEAD + ROAD + """[roads.r]
length = 0.5
lanes = 1
[exits.y]
from = "r"
[[off_ramps]]
road = "m"
ramp = "r"
at = 0.5
shares = [90.0, 10.0]
turns = [{ start = "06:30", end = "06:40", shares = [0, 1] }]
"""
    made = built(tmp_path, text)
    assert records(made, "diverge") == ["diverge,m2,m3,r1,9,1"]
    assert records(made, "turn") == ["turn,m2,180,240,1,1000"]
    assert records(made, "ctm") == ["ctm,2"]
    assert roundings(made)["off_ramps[1].turns[1]: share of the first"] == (0, pytest.approx(100 / 1001))


def test_closures_by_lanes_and_by_capacity(tmp_path):
    text = HEAD + ROAD + """[[closures]]
road = "m"
from = 0.5
to = 0.75
lanes = 1
start = "06:10"
end = "06:20"
[[closures]]
road = "m"
from = 0.9
capacity = 900
"""
    assert records(built(tmp_path, text), "limit") == ["limit,m3,60,120,6", "limit,m4,0,360,2.5"]


def test_signals_turn_green_when_they_should(tmp_path):
    text = HEAD + ROAD + """[[signals]]
road = "m"
at = [0.25, 0.5, 1.0]
cycle = 90
green = 40
first_green = 20
offset = 30
[[signals]]
road = "g"
cycle = 60
green = 30
offset = 10
"""
    made = built(tmp_path, text)
    assert records(made, "signal") == ["signal,m1,9,7,0,4", "signal,m2,9,4,0,4", "signal,m4,9,1,0,4",
                                       "signal,g,6,5,0,3"]


def test_counts_from_a_file(tmp_path):
    (tmp_path / "counts.csv").write_text("time;north;south\n06:00;100;7,5\n06:15;50;0\n06:30;30;3\n06:45;3;1\n"
                                         "07:00;1;1\n")
    text = HEAD + ROAD.replace("1000", '{ counts = "counts.csv", column = "south", separator = ";", decimal = "," }')
    assert records(built(tmp_path, text), "demand") == ["demand,g,0,90,0.083333", "demand,g,180,270,0.033333",
                                                        "demand,g,270,360,0.011111"]


def test_counts_of_a_whole_day(tmp_path):
    (tmp_path / "counts.csv").write_text("time,n\n00:10,1\n05:50,20\n06:10,60\n06:30,30\n06:50,6\n23:50,4\n")
    text = HEAD + ROAD.replace("1000", '{ counts = "counts.csv", column = "n", interval = "20 min" }')
    assert records(built(tmp_path, text), "demand") == ["demand,g,0,60,0.166667", "demand,g,60,180,0.5",
                                                        "demand,g,180,300,0.25", "demand,g,300,360,0.05"]


def test_points_and_places_are_kept(tmp_path):
    made = built(tmp_path, HEAD + ROAD.replace("lanes = 2", "lanes = 2\npoints = [[0, 0], [1, 1.5]]"))
    assert made.units.points == {"m": [[0.0, 0.0], [1.0, 1.5]]}
    assert made.units.cells["m3"] == {"road": "m", "from_km": 0.5, "to_km": 0.75, "lanes": 2, "free_flow_kmh": 90.0,
                                      "wave_kmh": 18.0}


CLOSURE = HEAD + ROAD + '[[closures]]\nroad = "m"\n'
MISTAKES = {
    "no such key": (HEAD + ROAD.replace("lanes", "lane"), "roads.m.lane: no such key; is lanes meant?"),
    "a unit of another sort": (HEAD + ROAD.replace("= 1\n", '= "1 h"\n'), "roads.m.length: expected a length"),
    "no lanes": (HEAD + ROAD.replace("lanes = 2\n", ""), "roads.m.lanes: is missing"),
    "lanes that aren't whole": (HEAD + ROAD.replace("lanes = 2", "lanes = 2.5"), "whole number"),
    "waves faster than traffic": (HEAD.replace("18", "118") + ROAD, "at most the free-flow speed"),
    "a road that isn't there": (HEAD + ROAD.replace('into = "m"', 'into = "n"'), "there is no road n"),
    "a road that is misspelt": (HEAD + ROAD.replace("roads.m", "roads.main").replace('into = "m"', 'into = "mian"'),
                                "gates.g.into: there is no road mian; is main meant?"),
    "no end": (HEAD.replace('end = "07:00"', "") + ROAD, "either end, a clock time, or duration"),
    "a decimal comma": (HEAD + ROAD.replace("length = 1", "length = 1,5"), "`length = 1,5`. Is a decimal comma meant?"),
    "a time without quotes": (HEAD.replace('"06:00"', "06:00") + ROAD, "Put a clock time in quotes"),
    "a semicolon": (HEAD.replace("10", "10;") + ROAD, "Take the semicolon away"),
    "a unit without quotes": (HEAD + ROAD.replace("length = 1", "length = 500 m"),
                              "Put a number with its unit in quotes"),
    "a text without quotes": (HEAD + ROAD.replace('"m"', "m"), "Put a text in quotes"),
    "a colon": (HEAD.replace("step =", "step:") + ROAD, "equals sign"),
    "a workbook": ("PK\x03\x04", "Excel"),
    "a clock time without a colon": (HEAD + ROAD.replace("1000", '[["6.00", "07:00", 5]]'), "clock time"),
    "a range backwards": (HEAD + ROAD.replace("1000", '[["06:30", "06:10", 5]]'), "isn't after the start"),
    "a time before the start": (HEAD + ROAD.replace("1000", '[["05:30", "06:30", 5]]'),
                                "gates.g.demand[1]: 05:30 is before the study's start, 06:00"),
    "a time behind the end": (HEAD + ROAD.replace("1000", '[["08:30", "09:30", 5]]'),
                              "outside the study's time, 06:00 to 07:00"),
    "a signal too short": (HEAD + ROAD + '[[signals]]\nroad = "m"\ncycle = 60\ngreen = 4\n', "never green"),
    "a closure beyond the road": (CLOSURE + "from = 5\nlanes = 1\n",
                                  "closures[1].from: km 5 is beyond road m, which has 1 km"),
    "a closure that ends beyond it": (CLOSURE + "to = 5\nlanes = 1\n", "closures[1].to: km 5 is beyond road m"),
    "a signal beyond the road": (HEAD + ROAD + '[[signals]]\nroad = "m"\nat = 2\ncycle = 60\ngreen = 30\n',
                                 "signals[1].at: km 2 is beyond road m"),
    "a ramp beyond the road": (HEAD + ROAD + '[[on_ramps]]\nroad = "m"\nramp = "g"\nat = 3\npriorities = [1, 1]\n',
                               "on_ramps[1].at: km 3 is beyond road m"),
    "a lane on which nobody moves": (HEAD.replace("90", "0") + ROAD, "lane.free_flow_speed: must be above 0"),
    "more lanes closed than there are": (CLOSURE + "lanes = 3\n", "the road has 2"),
    "a closure of nothing": (CLOSURE, "either lanes"),
    "two ways out": (HEAD + ROAD + '[exits.y]\nfrom = "m"\n', "leads on already"),
    "a ramp at the road's end": (HEAD + ROAD + '[[on_ramps]]\nroad = "m"\nramp = "g"\nat = 1\npriorities = [1, 1]\n',
                                 "within its road"),
    "no counts": (HEAD + ROAD.replace("1000", '{ counts = "none.csv", column = "g" }'), "none.csv: no such file"),
    "two names that meet": (HEAD + ROAD + "[roads.m1]\nlength = 1\nlanes = 1\ncells = \"m\"\n[roads.m0]\nlength = 0.25\n"
                            "lanes = 1\n[exits.m2]\nfrom = \"m0\"\n", "would be named m2"),
    "no number": (HEAD + ROAD.replace("length = 1", "length = nan"), "roads.m.length: expected a number, found nan"),
    "a table for a list of tables": (CLOSURE.replace("[[closures]]", "[closures]"),
                                     "closures: expected a list of tables, found one table; head it [[closures]]"),
    "a title in two lines": ("title = \"a\\nb\"\n" + HEAD + ROAD, "title: expected a text in one line"),
    "a key twice": (HEAD.replace("step = 10", "step = 10\nstep = 5") + ROAD, "It stands above already"),
    "a demand too great": (HEAD + ROAD.replace("1000", '"99999999 vehicles/s"'), "OutOfRange"),
}


@pytest.mark.parametrize("mistake", MISTAKES)
def test_mistakes(mistake, tmp_path):
    text, wanted = MISTAKES[mistake]
    with pytest.raises(Problem) as found:
        built(tmp_path, text)
    assert wanted in str(found.value) and "\n" not in str(found.value)
    assert str(found.value).startswith(str(tmp_path))


def test_a_wave_speed_of_thousandths_of_the_free_flow_speed(tmp_path):
    made = corridor(tmp_path, head=OPEN_HEAD.replace("= 90", "= 100").replace("= 18", "= 17.1"))
    assert {tuple(line.split(",")[4:6]) for line in made.text.splitlines() if line.startswith("road,")} == {("171", "1000")}
    with pytest.raises(Problem, match="roads.m.wave_speed: is less than a thousandth of the free-flow speed"):
        corridor(tmp_path, head=OPEN_HEAD.replace("= 90", "= 100").replace("= 18", "= 0.04"))
