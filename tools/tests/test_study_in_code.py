"""A study that is made in code, changed and written, and given to functions as itself, as a path or as a text."""

from fractions import Fraction

import numpy
import pandas
import pytest

import ctmtools
from ctmtools import Problem, Study, build, read_study
from ctmtools.study.reading import LANE, values_of
from ctmtools.study.study import StudyKeys, study_from

from .examples import EXAMPLES

LANE_OF_MOTORWAYS = {"free_flow_speed": 90, "wave_speed": 18, "jam_density": 144, "saturation_flow": 2160}
ROAD = """\
# why
step = "10 s"  # long
end = "00:10"
lane = { free_flow_speed = 90, wave_speed = 18, jam_density = 144, saturation_flow = 2160 }

[roads.m]
length = 1.5
lanes = 2  # of both

[gates.g]
into = "m"
demand = "720 vehicles/h"

[gates.h]
into = "n"
demand = [["00:00", "00:05", 100], { start = "00:05", flow = 0.5 }]

[roads.n]
length = 1.5
lanes = 1

[exits.x]
from = "m"

[exits.y]
from = "n"

[[signals]]
road = "m"
cycle = 60
green = 30

[[signals]]
road = "n"
cycle = 60
green = 20
"""


def road(**more):
    return Study(step="10 s", end="00:10", lane=LANE_OF_MOTORWAYS, roads={"m": {"length": 1.5, "lanes": 2}},
                 gates={"g": {"into": "m", "demand": 720}}, exits={"x": {"from": "m"}}, **more)


def test_a_study_made_in_code_is_that_of_its_text():
    made = road(title="Road")
    text = 'title = "Road"\nstep = "10 s"\nend = "00:10"\nlane = { free_flow_speed = 90, wave_speed = 18, jam_density = 144, ' \
           'saturation_flow = 2160 }\n[roads.m]\nlength = 1.5\nlanes = 2\n[gates.g]\ninto = "m"\ndemand = 720\n[exits.x]\nfrom = "m"\n'
    assert build(made).text == build(text).text and "gate,g" in build(made).text
    assert made.title == "Road" and list(made.roads) == ["m"] and list(made.gates) == ["g"] and list(made.exits) == ["x"]
    assert Study.of_text(made.to_toml()) == made and hash(Study.of_text(made.to_toml())) == hash(made)
    assert made != road() and made != "Road" and repr(made) == "<Study 'Road': 1 roads, 1 gates, 1 exits>"


def test_numbers_of_python_are_the_decimals_that_they_show():
    made = road(yield_interval=numpy.float64(60.1), notes=("a", "b"), signals=numpy.array([]))
    assert made.values["yield_interval"] == Fraction("60.1") and made.values["notes"] == ["a", "b"] and made.values["signals"] == []
    assert made.values["roads"]["m"] == {"length": Fraction("1.5"), "lanes": 2}
    with pytest.raises(Problem, match=r"^signals: expected a number, a text, a time, a table or a list, found <object "):
        road(signals=object())
    with pytest.raises(Problem, match="^yield_interval: expected a number, .* found inf$"):
        road(yield_interval=float("inf"))


@pytest.mark.parametrize("keys, told", [
    ({"raods": {}}, "^the study: raods: no such key; is roads meant"), ({"roads": {"m": {"lanes": 2}}}, "^the study: roads.m.length: is missing"),
    ({"step": 0}, "^the study: step: must be above 0"), ({"path": "s.toml"}, "^the study: path: no such key")])
def test_a_fault_of_a_study_in_code_is_told_when_it_is_made(keys, told):
    with pytest.raises(Problem, match=told):
        Study({"step": 10, "end": "00:10", "lane": LANE_OF_MOTORWAYS, **keys})


def test_a_changed_study_keeps_its_comments_and_the_first_stays():
    study = Study.of_text(ROAD)
    changed = study.with_({"roads.m.lanes": 3, "signals.offset": 10, "signals.2.green": 25, "lane.wave_speed": Fraction(37, 2)},
                          title="Other", step="5 s", notes=["seen"])
    assert study.to_toml() == ROAD
    assert "# why\n" in changed.text and "lanes = 3  # of both\n" in changed.text and 'step = "5 s"  # long\n' in changed.text
    values = changed.values
    assert values["title"] == "Other" and values["notes"] == ["seen"] and values["lane"]["wave_speed"] == Fraction(37, 2)
    assert [(one["offset"], one["green"]) for one in values["signals"]] == [(10, 30), (10, 25)]
    assert [signal.first_green for signal in changed.scenario.signals] == [10, 10]


def test_tables_are_put_and_taken_away():
    study = Study.of_text(ROAD)
    other = study.with_(closures=[{"road": "m", "from": 0.5, "to": 1, "lanes": 1}, {"road": "n", "lanes": 1}], signals=None)
    assert "signals" not in other.values and len(other.scenario.closures) == 2
    assert '[[closures]]\nroad = "m"\nfrom = 0.5\nto = 1\nlanes = 1\n' in other.text
    more = other.with_({"roads.o": {"length": 2, "lanes": 1}, "gates.i": {"into": "o"}, "exits.z": {"from": "o"}})
    assert set(more.roads) == {"m", "n", "o"} and more.roads["o"].length == 2
    assert list(study.with_({"gates.h": None, "roads.n": None, "exits.y": None, "signals": None}).roads) == ["m"]


@pytest.mark.parametrize("change, told", [
    ({"roads.q.lanes": 2}, "^roads.q.lanes: the study has no q there"), ({"signals.3.green": 2}, "^signals.3.green: there are 2 of these"),
    ({"crs": None}, "^crs: the study has no crs there"), ({"demand": -1}, "^demand: expected a factor, 0 or more, found -1"),
    ({"demand": "much"}, '^demand: expected a factor, 0 or more, found "much"'), ({"demand.q": 1}, "^demand.q: the study has no gate q"),
    ({"demand": True}, "^demand: expected a factor, 0 or more, found True"),
    ({"roads.m.lanes": 0}, "^the study: roads.m.lanes: expected a whole number"), ({"lane.spede": 2}, "^the study: lane.spede: no such key")])
def test_a_change_that_cannot_be(change, told):
    with pytest.raises(Problem, match=told):
        Study.of_text(ROAD).with_(change)


def test_a_factor_multiplies_numbers_texts_and_rows_of_demand():
    one, all_ = Study.of_text(ROAD).with_({"demand.h": 0.1}), Study.of_text(ROAD).with_({"demand": 3})
    assert one.values["gates"]["g"]["demand"] == "720 vehicles/h"
    assert one.values["gates"]["h"]["demand"] == [["00:00", "00:05", 10], {"start": "00:05", "flow": Fraction("0.05")}]
    assert all_.gates["g"].demand[0].flow == 2160 and [flow.flow for flow in all_.gates["h"].demand] == [300, Fraction("1.5")]


def test_a_factor_of_what_is_of_files_is_refused(tmp_path):
    (tmp_path / "c.csv").write_text("time,flow\n00:00,10\n00:05,20\n")
    text = ROAD.replace('demand = "720 vehicles/h"', 'demand = { counts = "c.csv", column = "flow" }')
    study = Study.of_text(text, tmp_path / "s.toml")
    assert study.gates["g"].demand
    with pytest.raises(Problem, match="^gates.g.demand: is of files, so no factor of it can stand in the study"):
        study.with_({"demand": 2})


def test_a_factor_multiplies_the_demand_of_trips():
    text = ROAD.replace('demand = "720 vehicles/h"\n', "") + '[[trips]]\nfrom = "g"\nto = "x"\ndemand = 100\n'
    assert Study.of_text(text).with_({"demand.g": 1.5}).gates["g"].demand[0].flow == 150


def test_a_study_is_given_as_itself_as_a_path_or_as_a_text(plain, tmp_path):
    path = EXAMPLES / "arterial-0.toml"
    delays = [ctmtools.run(one).delay_vehicle_hours for one in (path, str(path), read_study(path), path.read_text(), Study(read_study(path).values))]
    assert delays == pytest.approx([33] * 5)
    green = read_study(path).with_({"signals.offset": 40})
    assert ctmtools.run(green).delay_vehicle_hours == pytest.approx(6.75)
    frame = ctmtools.compare(path, green)
    assert frame.delay_rise.sum() == pytest.approx(6.75 - 33)
    pandas.testing.assert_frame_equal(frame, ctmtools.compare(ctmtools.run(path), ctmtools.run(green)))
    (tmp_path / "green.toml").write_text(green.to_toml())
    assert read_study(tmp_path / "green.toml").values == green.values


def test_the_keys_of_python_are_those_of_the_file():
    with pytest.raises(Problem) as told:
        study_from('step = 10\nend = "00:10"\nnosuchkeyatall = 1\n')
    assert set(str(told.value).partition("known are ")[2].split(", ")) == set(StudyKeys.__annotations__)
    assert set(LANE) == set(LANE_OF_MOTORWAYS) and values_of(b"a = 0.1", "s")["a"] == Fraction(1, 10)
