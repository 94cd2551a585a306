"""Several meters of one study: which of them a mistake is blamed on, and whose time the run has."""

import pytest

from ctmtools import Problem
from ctmtools.moments.moment import Runner
from ctmtools.moments.metering import Metering, gauge_of
from ctmtools.study.plan import Meter

from .corridor import corridor
from .test_measures import RAMP


@pytest.mark.parametrize("intervals, odd", [((60, 30, 60), 2), ((60, 60, 30), 3), ((30, 60, 60), 2)])
def test_the_first_meter_with_another_interval_is_blamed(tmp_path, intervals, odd):
    built = corridor(tmp_path, RAMP, lanes=1)
    gauges = [gauge_of(Meter("r", interval=interval, place=f"meters[{i}]"), built.network, built.units) for i, interval in enumerate(intervals, 1)]
    with pytest.raises(Problem) as found:
        Metering(built, gauges, Runner("made"))
    assert str(found.value) == f"meters[{odd}].interval: all meters of a study have one interval"


@pytest.mark.parametrize("terms, told", [
    ({"occupancy": 0}, "meters[1].occupancy: must be above 0 and below 100 %"), ({"least": 2161}, "meters[1].least: is above the most, 2160 vehicles/h"),
    ({"road": "m", "at": 1.01}, "meters[1].at: km 1.01 is beyond road m, which has 1 km"), ({"ramp": "x"}, "meters[1].ramp: there is no road and no gate x")])
def test_what_a_meter_can_not_have(tmp_path, terms, told):
    built = corridor(tmp_path, RAMP.replace("[[on", "capacity = 2160\n[[on"), lanes=1)
    with pytest.raises(Problem) as found:
        gauge_of(Meter(**{"ramp": "r", "place": "meters[1]", **terms}), built.network, built.units)
    assert told in str(found.value)


# A place between cells is of the cell that ends there.
@pytest.mark.parametrize("at, cell", [(0, "m1"), (0.25, "m1"), (0.26, "m2"), (0.5, "m2"), (1, "m4")])
def test_the_detector_is_the_cell_at_its_kilometre(tmp_path, at, cell):
    built = corridor(tmp_path, RAMP, lanes=1)
    assert gauge_of(Meter("r", road="m", at=at), built.network, built.units).detector == cell


def test_a_meter_ends_with_the_study(tmp_path):
    built = corridor(tmp_path, RAMP, lanes=1)
    spans = [gauge_of(Meter("r", start=start, end=end), built.network, built.units) for start, end in ((0, None), (120, 300), (124, 99999))]
    assert [(gauge.begin, gauge.end) for gauge in spans] == [(0, 360), (12, 30), (12, 360)]
