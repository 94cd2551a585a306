"""Random studies: no vehicle is lost, and the delay is the same wherever it is told."""

import pytest
from hypothesis import HealthCheck, assume, given, settings

from ctmtools import Problem
from ctmtools.exports.geojson import features
from ctmtools.pages.tables import table_of
from ctmtools.report.by_road import by_road
from ctmtools.runs.running import opened
from ctmtools.runs.running import run as run_network

from .random_studies import studies

FEW = settings(max_examples=25, deadline=None, derandomize=True, suppress_health_check=list(HealthCheck))


def report_of(text, folder, every=6):
    """The program's report of a study, and its network; a study that is refused is none to try."""
    path = folder / "study.toml"
    path.write_text(text)
    try:
        prepared = opened(path)
    except Problem:
        assume(False)
    report = run_network(prepared.content, "study.toml", prepared.units, every, network=prepared.network)[1]
    return report, prepared.content.decode()


def records(text, kind):
    return [line.split(",") for line in text.splitlines() if line.startswith(f"{kind},")]


def came(text):
    """The vehicles that stand in a network at first and come to its gates, in millionths, as its records say."""
    steps = int(records(text, "steps")[0][1])
    first = [fields[-1] for kind in ("road", "gate") for fields in records(text, kind)]
    each = [(fields[4], min(int(fields[3]), steps) - min(int(fields[2]), steps)) for fields in records(text, "demand")]
    return sum(map(parts, first)) + sum(parts(amount) * lasts for amount, lasts in each)


def parts(amount):
    return round(float(amount) * 1e6)


@pytest.fixture(scope="module")
def folder(program, tmp_path_factory):
    return tmp_path_factory.mktemp("random")


@FEW
@given(text=studies())
def test_no_vehicle_is_lost(folder, text):
    report, network = report_of(text, folder)
    total = report.total
    inside, left = parts(total.inside), parts(total.left)
    assert inside + left == came(network)
    # Exits hold who was served.
    held = report.cells.n.map(parts)
    exits = [fields[1] for fields in records(network, "exit")]
    assert (held.drop(exits).sum(), held[exits].sum()) == (inside, left)
    # What has gone out of a cell has come into it before, and what hasn't stands there.
    for name, cell in report.cells.iterrows():
        assert parts(cell.gone) <= parts(cell.come) + came_first(network, name), name


def came_first(network, name):
    first = [fields[-1] for kind in ("road", "gate") for fields in records(network, kind) if fields[1] == name]
    return sum(map(parts, first))


@FEW
@given(text=studies())
def test_the_delay_is_the_same_wherever_it_is_told(folder, text):
    report, _ = report_of(text, folder)
    delay = report.delay_vehicle_hours
    assert report.units.hours(report.cells.wait.sum()) == pytest.approx(delay, abs=1e-6)
    assert by_road(report).delay.sum() == pytest.approx(delay, abs=1e-6)
    assert by_road(report, 300).delay.sum() == pytest.approx(delay, abs=1e-6)
    for every in None, 300:
        told = [feature["properties"]["delay"] for feature in features(report, every)]
        assert sum(told) == pytest.approx(delay, abs=1e-6 * len(told))
    table = table_of([report])
    rows = [row["of"][0][1] or 0 for row in table["rows"]]
    assert sum(rows) == pytest.approx(delay, abs=1e-6 * len(rows)) and table["total"][0][1] == pytest.approx(delay, abs=1e-6)
