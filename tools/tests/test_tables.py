"""Tables of comparisons line by line: heads, figures and what stands at the right."""

import numpy
import pandas
import pytest
from click.testing import CliRunner

from ctmtools.commands.branch import beside_each_other
from ctmtools.commands.compare import command
from ctmtools.pages.tables import reports_of
from ctmtools.problem import Problem
from ctmtools.report.comparing import compare, part_of, side_by_side, totals, travel
from ctmtools.units import Units

from .test_lines import corridors


def test_reports_beside_each_other():
    one, two = corridors(60, a=20), corridors(60, a=19)
    # The queue of 20 waits 400 vehicle-steps, that of 19 waits 361: 39 less, which are 9.75 in a hundred.
    assert list(beside_each_other(side_by_side({"now": one, "then": two}), "future")) == [
        "  future  entered  left  inside  delay, vehicle-steps  against now", "  now          40    40       0                   400",
        "  then         38    38       0                   361          -39  -9.8%"]
    for report in (one, two):
        report.units = Units(step=1800)
    lines = list(beside_each_other(side_by_side({"now": one, "then": two}, 10), ""))
    assert lines[0].split() == ["entered", "left", "inside", "delay,", "vehicle-hours", "against", "now", "cost"]
    assert lines[1].split() == ["now", "40", "40", "0", "200", "2,000"] and lines[2].split()[-3:] == ["-19.5", "-9.8%", "1,805"]
    assert lines[0].endswith("    cost") and lines[1].endswith("   2,000") and lines[2].endswith("  1,805")


def test_a_change_below_a_twentieth_of_a_per_cent_has_no_share():
    frame = side_by_side({"now": corridors(60, a=20), "then": corridors(60, a=20)})
    for part, shown in ((0.0004, False), (0.0006, True), (-0.0006, True)):
        frame.loc["then", "part"] = part
        assert (list(beside_each_other(frame, ""))[2].split()[-1] == f"{part:+.1%}") == shown


@pytest.mark.parametrize("wait, shown", [(400.0, True), (0.0049, False), (0.0, False)])
def test_a_rise_over_a_delay_that_is_told_as_0_has_no_share(wait, shown):
    one, two = corridors(60, a=20), corridors(60, a=20)
    one.total["delay"] = wait
    assert side_by_side({"now": one, "then": two}).part.notna().tolist() == [shown, shown]


def test_the_sums_of_two_reports():
    one, two = corridors(30, a=20), corridors(60, a=19)
    frame = totals(one, two)
    # At step 30 28 of 40 have gone out.
    assert frame.index.tolist() == ["entered", "left", "inside at the end", "delay"] and frame["first"].tolist()[:3] == [40, 28, 12]
    assert frame["second"].tolist()[:3] == [38, 38, 0] and frame["rise"].tolist()[:3] == [-2, 10, -12]
    with pytest.raises(Problem, match="--value-of-time: the units aren't known"):
        totals(one, two, 5)
    for report in (one, two):
        report.units = Units(step=3600)
    frame = totals(one, two, 5)
    assert frame.loc["cost of the delay", "second"] == 5 * 361 and frame.loc["delay", "second"] == 361


def test_cells_of_two_reports():
    frame = compare(corridors(60, a=20, b=5), corridors(60, b=6, a=18))
    # 400 and 324 of a, 25 and 36 of b; of the exits what came to them.
    assert frame.index.tolist()[:2] == ["a", "b"] and frame.delay_rise.tolist()[:2] == [-76, 11]
    assert frame.loc["a"].tolist() == [400, 324, -76, 40, 36, -4] and frame.loc["xb", "left_rise"] == 2 and frame.loc["xb", "left_first"] == 10
    alone = compare(corridors(60, a=20), corridors(60, b=6))
    assert alone.loc["a", "delay_rise"] == -400 and alone.loc["b", "delay_rise"] == 36 and numpy.isnan(alone.loc["b", "delay_first"])
    assert alone.loc["a", "left_rise"] == -40 and alone.loc["b", "left_rise"] == 12


def test_the_rise_as_a_part_of_the_first_delay():
    frame = side_by_side({"now": corridors(9, a=2), "then": corridors(60, a=20)})
    assert frame.loc["now", "delay"] == 4 and frame.loc["then", "part"] == 99


@pytest.mark.parametrize("rise, first, part", [(0.005, 0.005, 1), (-0.005, 0.005, -1), (0.002, 0.0049, None), (5, 0, None),
                                               (200, 2, 100), (201, 2, None), (461.25, 0.005, None), (-1, 1000, -0.001)])
def test_no_part_is_told_of_next_to_nothing(rise, first, part):
    assert part_of(rise, first) == pytest.approx(part if part is not None else float("nan"), nan_ok=True)


def test_a_first_delay_of_next_to_nothing_has_no_per_cent(monkeypatch):
    # One waits for a step beside 20 of whom 400 are lost, so 399 times as much: neither the page nor the commands tell 39,900 %.
    one, two = corridors(9, a=1), corridors(60, a=20)
    first, second = reports_of([one, two], ["now", "then"])["rows"]
    assert second[-2:] == [399, None]
    assert list(beside_each_other(side_by_side({"now": one, "then": two}), "future"))[2].split()[-1] == "+399"
    monkeypatch.setattr("ctmtools.commands.compare.read_report", lambda path, *_: {"one": one, "two": two}[path])
    told = CliRunner().invoke(command, ["one", "two"])
    assert not told.exception and next(line for line in told.output.splitlines() if "delay, vehicle-steps" in line).split()[-1] == "+399"


def test_mean_travel_times_of_two_reports():
    one, two = corridors(60, a=20), corridors(60, a=10)
    for report in (one, two):
        report.units = Units(step=120, roads={"a": ["a"]})
    frame = travel(one, two)
    # Those who enter in pairs wait for those before them: 1 in the mean of the first pair, and half more for each pair.
    assert list(frame.columns) == ["first", "second", "rise"] and frame.rise["a"] == pytest.approx(frame.second["a"] - frame["first"]["a"])
    assert frame["first"]["a"] - frame.second["a"] == pytest.approx(2 * (10 - 5), abs=0.01)
    one.units.step = None
    assert travel(one, two).empty and isinstance(travel(one, two), pandas.DataFrame)
