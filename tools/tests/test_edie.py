"""Density, flow and speed are Edie's wherever they stand: told alike by all, and those of the whole run however it is recorded."""

from itertools import pairwise
from types import SimpleNamespace

import numpy
import pandas
import pytest

from ctmtools import by_road, read_report, states
from ctmtools.calibration.observed import Observed, modelled
from ctmtools.exports.geojson import features
from ctmtools.pages.content import data_of
from ctmtools.plots.time_space import _values
from ctmtools.report.by_road import network_states
from ctmtools.units import clock_text, seconds_of_clock

from .examples import save_report
from .page_data import decoded

EVERY = [1, 7, 60]
NAMES = ["density", "flow", "speed"]
ROAD = "c"  # of arterial-0, with a signal in each of eight of its cells, before which platoons come and go


@pytest.fixture(scope="module")
def made(tmp_path_factory):
    """The report of arterial-0 recorded every so many steps, and its states as arrays: a row for each time, a column for each cell."""
    kept = {}

    def of(every):
        if every not in kept:
            report = read_report(save_report(tmp_path_factory.mktemp("edie"), "arterial-0", every))
            frame = states(report)
            told = {name: frame.pivot(index="step", columns="cell", values=name)[report.units.roads[ROAD]].to_numpy()[:-1] for name in NAMES}
            kept[every] = SimpleNamespace(report=report, cells=report.units.roads[ROAD], **told)
        return kept[every]
    return of


@pytest.fixture(scope="module")
def truth(made):
    """The vehicle-kilometres and vehicle-hours on each cell of the road, by what the text of a report of all steps says of each."""
    report, hour = made(1).report, made(1).report.units.step / 3600
    held, left = ({cell: [] for cell in report.cells.index} for _ in range(2))
    for line in open(report.name):
        if line.startswith("at,"):
            _, _, cell, n, gone = line.split(",")
            held[cell].append(float(n))
            left[cell].append(float(gone))
    lengths = {cell: row["to_km"] - row["from_km"] for cell, row in report.units.cells.items()}
    return {cell: (lengths[cell] * left[cell][-1], hour * sum(held[cell][:-1]), lengths[cell]) for cell in made(1).cells}


@pytest.mark.parametrize("every", EVERY)
def test_flow_is_density_times_speed_and_nobody_is_faster_than_free_flow(made, every):
    one = made(every)
    free = one.report.units.cells[one.cells[0]]["free_flow_kmh"]
    assert numpy.nanmax(one.speed) == pytest.approx(free) and (numpy.isnan(one.speed) == (one.density == 0)).all()
    assert one.flow == pytest.approx(numpy.nan_to_num(one.density * one.speed), abs=1e-6)


@pytest.mark.parametrize("every", EVERY)
def test_the_whole_run_has_the_programs_own_however_it_is_recorded(made, truth, every):
    one = made(every)
    report, hours = one.report, numpy.diff(one.report.times) * one.report.units.step / 3600
    for place, cell in enumerate(one.cells):
        distance, spent, length = truth[cell]
        assert (one.flow[:, place] * hours).sum() * length == pytest.approx(distance, rel=1e-6)
        assert (one.density[:, place] * hours).sum() * length == pytest.approx(spent, rel=1e-6)
    row = by_road(report).set_index("road").loc[ROAD]
    distance, spent, lengths = (sum(values) for values in zip(*(truth[cell] for cell in one.cells)))
    lanes = report.units.cells[one.cells[0]]["lanes"]
    whole = report.steps * report.units.step / 3600 * lengths * lanes
    assert (row.speed, row.density) == pytest.approx((distance / spent, spent / whole), rel=1e-6)
    if every == 1:
        assert row.speed < 0.8 * report.units.cells[one.cells[0]]["free_flow_kmh"]  # so who wait count


@pytest.mark.parametrize("every", EVERY)
def test_geojson_has_that_of_the_states(made, every):
    one = made(every)
    rows = [row["properties"] for row in features(one.report, every * one.report.units.step)]
    for place, cell in enumerate(one.cells):
        told = [row for row in rows if row["cell"] == cell]
        for name in NAMES:
            values = [numpy.nan if row[name] is None else row[name] for row in told]
            assert values == pytest.approx(getattr(one, name)[:, place].round(3).tolist(), abs=0.0011, nan_ok=True)


@pytest.mark.parametrize("every", EVERY)
def test_the_page_has_that_of_the_states(made, every):
    one = made(every)
    data = data_of([one.report])
    assert len(data["times"]) == len(one.report.times)
    for name in ("density", "flow"):
        shown, told = decoded(data, name), getattr(one, name)
        for place, cell in enumerate(one.cells):
            assert shown[cell] == pytest.approx(told[:, place], abs=told[:, place].max() / 65535 + 1e-5)


@pytest.mark.parametrize("every", EVERY)
def test_pictures_shade_that_of_the_states(made, every):
    one = made(every)
    lengths = numpy.array([one.report.units.length(cell) for cell in one.cells])
    for name in NAMES:
        assert _values(one.report, one.cells, lengths, name)[0].T == pytest.approx(getattr(one, name), abs=1e-8, nan_ok=True)


@pytest.mark.parametrize("every", EVERY)
def test_a_road_has_that_of_its_cells(made, every):
    one = made(every)
    lengths = numpy.array([one.report.units.length(cell) for cell in one.cells])
    lanes = one.report.units.cells[one.cells[0]]["lanes"]
    rows = by_road(one.report, every * one.report.units.step)
    rows = rows[rows.road == ROAD]
    spent, driven = one.density @ lengths, one.flow @ lengths
    assert rows.density.to_numpy() == pytest.approx(spent / lengths.sum() / lanes)
    with numpy.errstate(invalid="ignore"):
        assert rows.speed.to_numpy() == pytest.approx(driven / spent, nan_ok=True)
    assert rows.flow.to_numpy() == pytest.approx(one.flow[:, -1])


@pytest.mark.parametrize("every", EVERY)
def test_detectors_are_compared_with_that_of_the_states(made, every):
    one = made(every)
    units, cell = one.report.units, one.cells[5]
    seconds = [seconds_of_clock(clock_text((units.start or 0) + step * units.step, True)) for step in one.report.times]
    rows = [{"place": f"{ROAD}.{units.cells[cell]['to_km']:g}", "start": begin, "end": end, "flow": 0.0} for begin, end in pairwise(seconds)]
    found = modelled(one.report, Observed("d.csv", pandas.DataFrame(rows)))
    for name in ("flow", "speed"):
        assert found[name].to_numpy() == pytest.approx(getattr(one, name)[:, 5], nan_ok=True)


@pytest.mark.parametrize("every", EVERY)
def test_the_diagram_of_the_network_has_the_programs_own(made, every):
    report = made(every).report
    point, = network_states(report).itertuples()
    rows = [(one.n, one.gone, one.wait, report.units.length(one.Index), report.units.cells[one.Index]["lanes"])
            for one in report.cells.itertuples() if report.network.kinds[one.Index] == "road"]
    area, hour = sum(length * lanes for *_, length, lanes in rows), report.units.step / 3600
    assert point.density == pytest.approx(sum(gone + wait for _, gone, wait, *_ in rows) / report.steps / area, rel=1e-6)
    assert point.flow == pytest.approx(sum(gone * length for _, gone, _, length, _ in rows) / (report.steps * hour) / area, rel=1e-6)
