"""Measures against what they are in the literature: levels of service, GEH, the parts of a diagram, critical occupancy."""

import itertools

import numpy
import pandas
import pytest
from scipy.optimize import minimize

from ctmtools import Problem
from ctmtools.calibration.diagram import fit
from ctmtools.calibration.fitting import by_place, distance, geh
from ctmtools.calibration.observed import Observed
from ctmtools.moments.metering import gauge_of
from ctmtools.report.by_road import level
from ctmtools.study.plan import Meter

from .corridor import HEAD, corridor

# Highway Capacity Manual 2010, exhibit 11-5: level of service of basic freeway segments by density, in pc/mi/ln: A up to 11, B
# above 11 up to 18, C above 18 up to 26, D above 26 up to 35, E above 35 up to 45, F above that.
MOST = {"A": 11, "B": 18, "C": 26, "D": 35, "E": 45}
MILE = 1.609344  # km


@pytest.mark.parametrize("name, following", itertools.pairwise("ABCDEF"))
def test_a_level_of_service_ends_at_its_density(name, following):
    assert level((MOST[name] - 0.01) / MILE) == name and level((MOST[name] + 0.01) / MILE) == following


# The GEH of a modelled flow and a count, of the definition in the Design Manual for Roads and Bridges, volume 12, section 2,
# part 1, 4.4: the root of the squared difference by the mean of both.
@pytest.mark.parametrize("model, count, wanted", [(150, 50, 10), (50, 150, 10), (1250, 1150, 100 / 1200 ** 0.5), (8, 0, 4), (0, 0, 0)])
def test_geh_of_a_flow_and_a_count(model, count, wanted):
    assert geh(pandas.Series([model]), pandas.Series([count])).tolist() == pytest.approx([wanted])


def observed(*rows):
    return Observed("d.csv", pandas.DataFrame(rows, columns=["place", "flow", "speed"]))


def test_the_fit_of_each_detector():
    seen = observed(("a", 150, 50), ("b", 600, 90), ("a", 250, 70), ("b", 600, 90))
    model = pandas.DataFrame({"flow": [50, 630, 250, 570], "speed": [47, 90, 74, 90]})
    found = by_place(model, seen)
    # Of a the GEH are 10 and 0, of b 30 by the root of 615 and of 585: both below 5.
    assert found.index.tolist() == ["a", "b"] and found.rows.tolist() == [2, 2] and found.below_5.tolist() == [0.5, 1]
    assert found.geh.tolist() == pytest.approx([5, 15 / 615 ** 0.5 + 15 / 585 ** 0.5])
    assert found.rmse_flow.tolist() == pytest.approx([5000 ** 0.5, 30]) and found.rmse_speed.tolist() == pytest.approx([12.5 ** 0.5, 0])
    # Flows are off by 1/4, 3/40 twice and none of their mean, 400; speeds by 1/25 and 4/75 of theirs, 75.
    flow, speed = (1 / 16 + 2 * 9 / 1600) / 4, (9 / 5625 + 16 / 5625) / 4
    assert distance(model, seen) == pytest.approx(((flow + speed) / 2) ** 0.5)


def test_a_geh_of_five_is_not_below_five():
    # Differences of 40, 50 and 55 at a mean of 100: 4, 5 and 5.5.
    model = pandas.DataFrame({"flow": [120, 125, 127.5], "speed": [50, 50, 50]})
    found = by_place(model, observed(("a", 80, 50), ("a", 75, 50), ("a", 72.5, 50)))
    assert found.geh.tolist() == pytest.approx([14.5 / 3]) and found.below_5.tolist() == pytest.approx([1 / 3])


def rows(*parts):
    """Flow and density of a lane: for each part so many rows with a speed, their densities spread evenly over a range."""
    density = numpy.concatenate([numpy.linspace(low, high, count) for count, _, low, high in parts])
    speed = numpy.concatenate([numpy.full(count, kmh) for count, kmh, _, _ in parts])
    return pandas.DataFrame({"flow": speed * density, "density": density})


def test_queued_traffic_is_below_four_fifths_of_the_speed_that_85_in_100_do_not_pass():
    # Of 100 rows 16 are as fast as 100 km/h, so that is the 85 % quantile, and the 84 at 79 km/h are below 80 % of it.
    assert fit(rows((84, 79, 5, 20), (16, 100, 5, 20))).rows == 100
    for few in (rows((84, 81, 5, 20), (16, 100, 5, 20)), rows((86, 79, 5, 20), (14, 100, 5, 20))):
        with pytest.raises(Problem, match="0 rows are of queued traffic, too few"):
            fit(few)


def test_four_of_five_queued_rows_lie_between_low_and_high():
    # A triangle of 100 km/h, 20 km/h and 150 vehicles/km has its top at 25 vehicles/km.
    density = numpy.concatenate([numpy.linspace(2, 24, 45), numpy.linspace(40, 140, 101)])
    found = fit(pandas.DataFrame({"flow": numpy.minimum(100 * density, 20 * (150 - density)), "density": density}))
    assert (found.queued, found.low, found.high) == pytest.approx((101, 50, 130)) and found.warning is None
    assert found.rmse == pytest.approx(0, abs=0.5)


def test_a_spread_below_a_fifth_of_the_queued_branch_is_warned_of():
    # The branch reaches from 25 to 150 vehicles/km, so a fifth of it is 25; nine rows of ten lie within 0.8 of their range.
    for reach, warned in ((30, True), (33, False)):
        density = numpy.concatenate([numpy.linspace(2, 24, 45), numpy.linspace(60, 60 + reach, 101)])
        found = fit(pandas.DataFrame({"flow": numpy.minimum(100 * density, 20 * (150 - density)), "density": density}))
        assert (found.warning is not None) == warned


def test_the_triangle_has_the_least_misses():
    # Most rows are of little traffic, so that the quantiles of flow differ, and one in five has a third of its flow.
    drawn = numpy.random.default_rng(5)
    density = numpy.concatenate([drawn.uniform(2, 6, 120), drawn.uniform(6, 25, 40), drawn.uniform(25, 120, 40)])
    flow = numpy.minimum(100 * density, 20 * (150 - density)) * numpy.where(drawn.uniform(0, 1, 200) < 0.2, 1 / 3, 1)
    found = fit(pandas.DataFrame({"flow": flow, "density": density}))

    def misses(terms):
        # By the 95 % quantile of flow; what is off by far more than a tenth counts as it is, and less by its square.
        speed, wave, jam = terms
        off = (numpy.minimum(speed * density, wave * (jam - density)) - flow) / numpy.quantile(flow, 0.95)
        return ((1 + (off / 0.1) ** 2) ** 0.5 - 1).sum()

    least = minimize(misses, [100, 20, 150], method="Nelder-Mead", options={"xatol": 1e-6, "fatol": 1e-12, "maxiter": 5000})
    assert (found.speed, found.wave, found.jam) == pytest.approx(tuple(least.x), rel=1e-3)


RAMP = '[gates.r]\ndemand = 900\n[[on_ramps]]\nroad = "m"\nat = 0.5\nramp = "r"\npriorities = [1, 1]\n'


@pytest.mark.parametrize("saturation_flow, wanted", [(1440, 100 / 9), (2160, 100 / 6), (2880, 100 / 6)])
def test_critical_occupancy_is_that_at_which_most_passes(tmp_path, saturation_flow, wanted):
    # A cell of 250 m has room for 36 vehicles. At 90 and 18 km/h the triangle's top is a sixth of it, 6 vehicles, that pass in
    # 10 s; where fewer may pass, 4 of 1,440 vehicles/h, these are enough.
    head = HEAD.replace("saturation_flow = 2160", f"saturation_flow = {saturation_flow}")
    built = corridor(tmp_path, RAMP, lanes=1, head=head)
    assert gauge_of(Meter("r"), built.network, built.units).wanted == pytest.approx(wanted)
