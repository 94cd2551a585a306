"""Draws: means and percentiles that are worked on paper, the same bytes by any number of workers, and going on."""

import csv
import importlib.util
import re
from fractions import Fraction
from types import SimpleNamespace

import numpy
import pandas
import pytest

from ctmtools import Problem, build, draw, read_study, run
from ctmtools.many_runs.kept_rows import KeptValues
from ctmtools.many_runs.task import study
from ctmtools.plans.choosing import candidate, judged
from ctmtools.plots import draws
from ctmtools.study.network_text import BuiltOnce
from ctmtools.study.plan import Closure, RoadPart
from ctmtools.uncertainty.incident import drawn, happened
from ctmtools.uncertainty.drawn_runs import DrawnRuns, Wanted
from ctmtools.uncertainty.results import results_of
from ctmtools.uncertainty.task import Asked

from .clusters import at_row, done_by, kill_a_worker, two_workers, wait_until
from .corridor import GATE
from .examples import EXAMPLES
from .test_interrupt import interrupted, stand_in
from .test_pictures import assert_readable

STUDY = EXAMPLES / "uncertain.toml"
SHOULDER = EXAMPLES / "uncertain-shoulder.toml"
UNIFORM = '[[uncertain]]\nkey = "demand"\nfactor = "uniform"\nleast = 0.9\nmost = 1.2\n'
# Where the queue clears within a step the sum over steps is at most an eighth of a step's flow above the area.
STEPS_ERROR = 20 / 8 / 60 + 1e-4  # vehicle-hours


def delay(demand):
    """The area between the curves of arrival and departure, in vehicle-hours: a triangle of (D - C) height and D/C width."""
    return demand * (demand - 1200) / 2400


def written(folder, text, name="s.toml"):
    (folder / name).write_text(text)
    return folder / name


def chosen_of(tasks, _):
    """The runs of the gate, which the program makes as plans of `choose`, 16 in a call; it tells the delay of each and no more."""
    candidates = [candidate(study(task.plan)) for task in tasks]
    for place, vehicle_steps in enumerate(found for group in judged(candidates) for found in group):
        hours = float(vehicle_steps * 60 / 3600)
        yield place, {"delay_vehicle_hours": hours, "left_vehicles": 1500.0, "inside_vehicles": 0.0, "last_queue_s": None,
                      "delays": {"gate on": hours}, "travel": {}, "free": {}, "past": {}, "incidents": 0, "network": "", "rounded": "",
                      "error": ""}


def test_each_run_has_the_delay_that_is_a_square_of_its_demand(program, tmp_path):
    drawn_runs = DrawnRuns([written(tmp_path, GATE + UNIFORM)], Wanted(60, 1))
    for _ in drawn_runs.run():
        pass
    own = results_of(drawn_runs).own("s")
    assert numpy.abs(own.delay_vehicle_hours - delay(1500 * own.demand.to_numpy())).max() < STEPS_ERROR
    assert (own["delay_vehicle_hours gate on"] - own.delay_vehicle_hours).abs().max() < 1e-6  # all wait before the gate


def test_delays_that_are_a_square_of_the_demand_lie_as_on_paper(program, tmp_path, monkeypatch):
    """Of 2,000 draws, each of whose networks the program runs."""
    monkeypatch.setattr("ctmtools.many_runs.workers.here", chosen_of)
    drawn_runs = DrawnRuns([written(tmp_path, GATE + UNIFORM)], Wanted(2000, 1))
    assert sum(1 for _ in drawn_runs.run(jobs=1)) == 2000
    results = results_of(drawn_runs)
    own = results.own("s")
    assert numpy.abs(own.delay_vehicle_hours - delay(1500 * own.demand.to_numpy())).max() < STEPS_ERROR
    # With D uniform from 1,350 to 1,800 the mean of D(D - C) is (a² + ab + b²)/3 - C (a + b)/2, and a percentile is that of D.
    low, high = 1350, 1800
    mean = ((low**2 + low * high + high**2) / 3 - 1200 * (low + high) / 2) / 2400
    exact = numpy.linspace(low, high, 100_001)
    found = results.spreads("s")["delay"]
    assert mean == pytest.approx(253.125)
    assert found.mean == pytest.approx(mean, abs=4 * delay(exact).std() / 2000**0.5)
    for percent, value in found.percentiles.items():
        error = 4 * (percent / 100 * (1 - percent / 100) / 2000) ** 0.5
        ends = [delay(low + (high - low) * min(1, percent / 100 + sign * error)) for sign in (-1, 1)]
        assert ends[0] <= value <= ends[1]
    assert found.of_mean[0] <= mean <= found.of_mean[1]


def test_without_variance_it_is_the_delay_of_a_run_to_the_last_digit(tool, program, tmp_path):
    path = written(tmp_path, (EXAMPLES / "bottleneck.toml").read_text() + """
[[uncertain]]
key = "demand"
factor = "normal"
mean = 1
deviation = 0
[[uncertain]]
key = "lane.saturation_flow"
factor = "lognormal"
mean = 1
deviation = 0
""")
    status, out, err = tool("draw", path, "--runs", "3", "-j", "1")
    assert status == 0 and "461.25  461.25" in out, err
    exact = run(path).delay_vehicle_hours
    assert set(pandas.read_csv("s.draw/draws.csv").delay_vehicle_hours) == {exact} == {461.25}


def bytes_of(folder):
    return [(folder / name).read_bytes() for name in ("draws.csv", "summary.csv")]


def test_the_same_seed_gives_the_same_bytes_by_any_number_of_workers_and_going_on(tool, program, tmp_path):
    path = written(tmp_path, GATE + UNIFORM)
    for folder, words in (("one", ["-j", "1"]), ("four", ["-j", "4"]), ("gone-on", ["-j", "2"])):
        if folder == "gone-on":
            assert tool("draw", path, "--runs", "5", "-o", folder)[0] == 0
            rows = (tmp_path / folder / "runs.csv").read_text().splitlines(keepends=True)
            (tmp_path / folder / "runs.csv").write_text("".join(rows[:5]) + rows[5][:30])  # ended in the middle of a row
        status, out, err = tool("draw", path, "--runs", "12", "--seed", "7", "-o", folder, *words)
        assert status == 0, err
    assert tool("draw", path, "--runs", "12", "--seed", "7", "-o", "four")[1].startswith("12 of 12 runs stand in four/runs.csv already")
    assert bytes_of(tmp_path / "one") == bytes_of(tmp_path / "four") == bytes_of(tmp_path / "gone-on")
    assert tool("draw", path, "--runs", "12", "--seed", "8", "-o", "other")[0] == 0
    assert bytes_of(tmp_path / "one") != bytes_of(tmp_path / "other")


@pytest.mark.skipif(importlib.util.find_spec("distributed") is None, reason="python3-distributed is missing")
def test_a_cluster_that_loses_a_worker_gives_the_same_bytes(tool, program, tmp_path, monkeypatch):
    """One of two workers is killed when all runs are done, of which the results of some lay there alone."""
    path = written(tmp_path, GATE + UNIFORM)
    assert tool("draw", path, "--runs", "40", "-j", "1", "-o", "here")[0] == 0
    with two_workers(monkeypatch) as cluster:
        def lose():
            wait_until(lambda: done_by(cluster) == 40)
            kill_a_worker(cluster)

        at_row(monkeypatch, KeptValues, 3, lose)
        status, out, err = tool("draw", path, "--runs", "40", "--dask", cluster.scheduler_address, "-o", "there")
    assert status == 0, err
    assert bytes_of(tmp_path / "here") == bytes_of(tmp_path / "there")


def test_another_uncertainty_in_the_same_folder_is_drawn_anew(tool, program, tmp_path):
    for least in ("0.9", "1.1"):
        path = written(tmp_path, GATE + UNIFORM.replace("0.9", least))
        status, out, err = tool("draw", path, "--runs", "2", "-j", "1")
        assert status == 0 and "stand in" not in out, err
        assert pandas.read_csv("s.draw/draws.csv").demand.min() >= float(least)


@pytest.mark.parametrize("name", ["bottleneck", "grid", "arterial-ten"])
@pytest.mark.parametrize("factor", ["0", "1", "1.0437"])
def test_a_network_of_which_the_demand_alone_is_made_anew_is_the_one_that_is_built(name, factor):
    base, other = (read_study(EXAMPLES / f"{name}.toml").scenario for _ in range(2))
    for gate in other.gates.values():
        for flow in gate.demand:
            flow.flow *= Fraction(factor)
    found, wanted = BuiltOnce(base).with_demand(other), build(other)
    assert (found.text, found.units) == (wanted.text, wanted.units)
    assert found.network.records == wanted.network.records and found.rounding.differing == wanted.rounding.differing


def test_a_demand_that_no_network_can_have_is_refused_as_by_a_build():
    base, other = (read_study(EXAMPLES / "bottleneck.toml").scenario for _ in range(2))
    for flow in other.gates["on"].demand:
        flow.flow *= 10**6
    with pytest.raises(Problem, match="the built network has a fault: .*OutOfRange"):
        BuiltOnce(base).with_demand(other)


def test_draws_of_a_demand_build_its_network_once(program, tmp_path, monkeypatch):
    built = []
    monkeypatch.setattr("ctmtools.study.network_text.build", lambda study: built.append(study.title) or build(study))
    monkeypatch.setattr("ctmtools.many_runs.task.settled_by_runs", None)
    drawn_runs = DrawnRuns([written(tmp_path, GATE + UNIFORM)], Wanted(3, 1))
    assert len(list(drawn_runs.run(jobs=1))) == 3 and not drawn_runs.failures and len(built) == 1


def test_an_interrupt_loses_the_runs_under_way_alone(tool, program, tmp_path):
    path = written(tmp_path, GATE + UNIFORM)
    words = ["draw", path, "--runs", "9", "-j", "1"]
    status, err, _ = interrupted(tmp_path, words, stand_in(tmp_path, program, 8, "exec sleep 1000"))
    assert status == 130 and re.fullmatch(r"ctm-tools: stopped with [1-8] of 9 runs left; the same call goes on with them\n", err)
    status, out, err = tool(*words)
    assert status == 0 and re.match("[1-8] of 9 runs stand in s.draw/runs.csv already", out)


def test_two_plans_have_the_same_draws_and_are_compared_draw_by_draw(tool, program, tmp_path):
    """The second lets 1,400 vehicles/h pass; the third has a hundredth more to do with."""
    text = GATE + UNIFORM
    paths = [written(tmp_path, text), written(tmp_path, text.replace("capacity = 1200", "capacity = 1400"), "wide.toml"),
             written(tmp_path, GATE.replace("1500", "1515"), "more.toml")]
    status, out, err = tool("draw", *paths, "--runs", "40", "-j", "2")
    assert status == 0, err
    frame = pandas.read_csv("s.draw/draws.csv").pivot(index="draw", columns="plan", values=["demand", "delay_vehicle_hours"])
    assert (frame.demand.s == frame.demand.wide).all() and (frame.demand.s == frame.demand.more).all()
    demand = 1500 * frame.demand.s
    less = delay(demand) - numpy.where(demand > 1400, demand * (demand - 1400) / 2800, 0)
    assert numpy.abs(frame.delay_vehicle_hours.s - frame.delay_vehicle_hours.wide - less).max() < 0.1
    assert "\ns:\n" in out and "\nwide:\n" in out and "wide has less delay than s in 100% of draws (95 % interval 91 to 100 %)" in out
    told = re.search(r"It has ([\d.]+) vehicle-hours less in the mean, 95 % interval ([\d.]+) to ([\d.]+); in 95 % of draws ([\d.]+) to ([\d.]+)", out)
    mean, low, high, least, most = map(float, told.groups())
    assert mean == pytest.approx(less.mean(), abs=0.1)
    assert (high - low) / 2 == pytest.approx(2.0227 * less.std(ddof=1) / 40**0.5, abs=0.1)  # Student's t of 39
    assert [least, most] == pytest.approx(list(numpy.percentile(less, [2.5, 97.5])), abs=0.1)
    assert "more has less delay than s in 0% of draws (95 % interval 0 to 9 %)" in out and "vehicle-hours more in the mean" in out
    with open("s.draw/summary.csv") as file:
        rows = {(row["plan"], row["figure"]): row for row in csv.DictReader(file)}
    assert float(rows["wide", "delay less s's"]["mean"]) == pytest.approx(-mean, abs=0.01)


def test_draws_end_where_the_interval_is_narrow_enough_whoever_makes_them(tool, program, tmp_path):
    path = written(tmp_path, GATE + UNIFORM.replace("0.9", "1.1"))
    # Delays from 309 to 450 with a deviation of 41: by 20 draws the mean is known to 19, by 40 to 13.
    words = ["draw", path, "--runs", "100", "--until-within", "15.5"]
    outs = [tool(*words, "-j", jobs, "-o", f"by{jobs}")[1] for jobs in ("1", "4")]
    assert all("40 draws, seed 1, where the interval was narrow enough; 100 were asked for" in out for out in outs)
    assert bytes_of(tmp_path / "by1") == bytes_of(tmp_path / "by4")
    status, out, err = tool("draw", path, "--runs", "40", "--until-within", "0.1%", "-o", "by1")
    assert status == 0 and out.startswith("40 of 40 runs stand in") and "The interval isn't as narrow as was asked for" in out


def test_queues_and_travel_times_of_the_example_are_those_on_paper(program, recording_program):
    """In each draw of D vehicles/h: the queue reaches back (D - 4320)/144 km and clears D/4320 h and 10 min after 06:00, and
    the mean travel time over the road's 17.5 km is 11 min 40 s and (D - 4320)/8640 h."""
    kilometres = (6.0, 9.0, 12.0)
    drawn_runs = DrawnRuns([STUDY], Wanted(30, 3, asked=Asked(places=tuple(f"m.{km:g}" for km in kilometres), routes=(("m.15", "off"),))))
    for _ in drawn_runs.run():
        pass
    own = results_of(drawn_runs).own("uncertain")
    demand = 4800 * own.demand
    for km in kilometres:
        beyond = (demand - 4320) / 144 - (15 - km)
        sure = beyond.abs() > 1  # two cells
        assert ((own[f"queue_past m.{km:g}"] == 1) == (beyond > 0))[sure].all() and sure.sum() > 18
    assert (own.last_queue_s - (600 + demand / 4320 * 3600)).abs().max() <= 40
    assert (own["travel_min m"] - (35 / 3 + (demand - 4320) / 144)).abs().max() < 0.02
    assert (own["travel_min m.15 to off"] - 5 / 3).abs().max() < 0.02


@pytest.mark.parametrize("factor, wanted", [("1.2", 59.13), ("1.5", 216.5)])
def test_those_give_way_in_a_draw_who_do_in_a_run(tool, recording_program, tmp_path, factor, wanted):
    """The village of examples/README.md, which has these delays on paper."""
    path = written(tmp_path, (EXAMPLES / "village-stop.toml").read_text() +
                   f'[[uncertain]]\nkey = "demand"\nfactor = "given"\nvalues = [{factor}]\n')
    status, out, err = tool("draw", path, "--runs", "1", "-j", "1")
    assert status == 0 and "doesn't give way" not in out, err
    assert pandas.read_csv("s.draw/draws.csv").delay_vehicle_hours[0] == pytest.approx(wanted, rel=0.006)


def test_an_incident_delays_as_a_closure_that_is_written(program, tmp_path):
    entry = '[[uncertain]]\nincidents = "m"\nrate = 100\nto = 10\nduration = "20 min"\nlanes = 2\nlength = "500 m"\n'
    path = written(tmp_path, STUDY.read_text() + entry)
    drawn_runs = DrawnRuns([path, SHOULDER], Wanted(4, 1))
    for _ in drawn_runs.run():
        pass
    frame = drawn_runs.frame()
    incidents = frame.pivot(index="draw", columns="plan", values="incidents")
    assert (incidents.s == incidents["uncertain-shoulder"]).all() and incidents.s.nunique() > 1
    row = frame[(frame.plan == "s") & (frame.incidents > 0)].iloc[0]
    plan = read_study(path).scenario
    factor = drawn(drawn_runs.uncertainty, 1, row.draw)["demand"]
    for flow in plan.gates["on"].demand:
        flow.flow *= factor
    without = run(plan)
    closures = happened(drawn_runs.uncertainty.incidents, without, plan, 1, int(row.draw))
    plan.closures = [Closure(RoadPart("m", one.part.start_km, one.part.start_km + Fraction(1, 2), one.part.start,
                                       min(one.part.start + 1200, plan.duration), "by hand"), Fraction(2)) for one in closures]
    assert len(closures) == row.incidents and run(plan).delay_vehicle_hours == row.delay_vehicle_hours
    assert row.delay_vehicle_hours > without.delay_vehicle_hours


def test_a_file_of_its_own_stands_in_the_place_of_what_the_study_says(tool, program, tmp_path):
    path = written(tmp_path, GATE + UNIFORM)
    other = written(tmp_path, '[[uncertain]]\nkey = "gates.on.capacity"\nvalue = "given"\nvalues = [900]', "with.toml")
    status, out, err = tool("draw", path, "--with", other, "--runs", "2", "-j", "1")
    assert status == 0, err
    # 1,500 come in an hour and 900 pass: 1500 · 600 / 1800.
    assert set(pandas.read_csv("s.draw/draws.csv").delay_vehicle_hours) == {500}


@pytest.mark.parametrize("text, words, wanted", [
    (GATE, [], r"s.toml: has no \[\[uncertain\]\] with a key, incidents or arrivals, and no file is named by --with"),
    (GATE + UNIFORM.replace('"demand"', '"demand.sea"'), [], "s.toml: uncertain: demand.sea: the study has no gate sea"),
    (GATE + UNIFORM.replace('"demand"', '"roads.n.lanes"'), [], "s.toml: uncertain: roads.n.lanes: the study has no n there"),
    (GATE + UNIFORM.replace('"demand"', '"roads.m.lan"'), [], "s.toml: uncertain: roads.m.lan: the study says nothing there that a factor"),
    (GATE + UNIFORM.replace('"demand"', '"start"'), [], 's.toml: uncertain: start: a factor multiplies a number, found "06:00"'),
    (GATE + '[[uncertain]]\nincidents = "n"\nrate = 1\nduration = 60\nlanes = 1', [], r"s.toml: uncertain\[1\].incidents: the study has no road n"),
    (GATE + UNIFORM, ["--queue-past", "m.9"], "s.toml: --queue-past m.9: road m has 1 km"),
    (GATE + UNIFORM, ["--queue-after", "9"], '--queue-after: expected a clock time such as "06:30"'),
    (GATE + UNIFORM, ["--until-within", "x"], "--until-within x: expected vehicle-hours above 0"),
    (GATE + UNIFORM, ["--route", "m.0", "m.7"], "s.toml: --to m.7: road m has 1 km"),
    (GATE + UNIFORM, ["s.toml"], "s.toml: each plan is named once"),
    (GATE + UNIFORM, ["--with", "s.toml"], "s.toml: step: no such key; known are uncertain"),
    (GATE + UNIFORM, [EXAMPLES / "bottleneck.toml"], "bottleneck.toml: is of another time than s.toml"),
    (GATE + UNIFORM, [EXAMPLES / "uncertain.toml"], r"uncertain.toml: its \[\[uncertain\]\] isn't that of s.toml"),
    (GATE + '[[uncertain]]\nkey = "roads.m.lan"\nvalue = "uniform"\nleast = 1\nmost = 2', [], "roads.m.lan: no such key; is lanes meant")])
def test_what_cannot_be_drawn_is_refused_before_a_run(tool, program, tmp_path, text, words, wanted):
    written(tmp_path, text)
    status, out, err = tool("draw", "s.toml", *words)
    assert status == 2 and re.search(wanted, err) and err.count("\n") == 1 and not out, (out, err)


def test_a_draw_that_cannot_be_run_says_why_and_the_others_are_told(tool, program, tmp_path):
    written(tmp_path, GATE + '[[uncertain]]\nkey = "lane.wave_speed"\nvalue = "given"\nvalues = [20, 90]')
    status, out, err = tool("draw", "s.toml", "--runs", "12", "-j", "2")
    found = re.search(r"(\d+) of 12 runs failed; the same call tries them again; the first, draw \d+ of s: .*at most the free-flow speed", out)
    assert status == 0 and 0 < int(found[1]) < 12
    frame = pandas.read_csv("s.draw/draws.csv")
    assert frame.error.notna().sum() == int(found[1]) and frame.delay_vehicle_hours.notna().sum() == 12 - int(found[1])


def test_a_plan_of_which_no_run_succeeds_is_told_beside_the_other(tool, program, tmp_path):
    text = GATE + '[[uncertain]]\nkey = "lane.wave_speed"\nvalue = "given"\nvalues = [20]'
    paths = [written(tmp_path, text), written(tmp_path, text.replace("free_flow_speed = 60, wave_speed = 20",
                                                                     "free_flow_speed = 15, wave_speed = 10"), "slow.toml")]
    status, out, err = tool("draw", *paths, "--runs", "2", "-j", "1", "--queue-after", "07:00")
    assert status == 0 and "2 of 4 runs failed" in out and "slow:\n  No run succeeded.\n" in out, err
    assert "s and slow have no draw in common in which both succeeded" in out and set(pandas.read_csv("s.draw/summary.csv").plan) == {"s"}
    status, out, err = tool("draw", paths[1], "--runs", "2", "-j", "1")
    assert (status, err) == (2, "ctm-tools: no run succeeded\n") and "2 of 2 runs failed" in out


@pytest.mark.parametrize("runs, jobs, address, wanted", [
    (1, 2, None, ("here", 1)), (3, 1, None, ("here", 3)), (3, 2, None, ("beside", 3, 2)), (2, 4, None, ("beside", 2, 2)),
    (1, 1, "tcp://a:1", ("cluster", 1, "tcp://a:1"))])
def test_who_does_the_runs(tmp_path, monkeypatch, program, runs, jobs, address, wanted):
    calls = []

    def does(name):
        def done(tasks, *words):
            calls.append((name, len(tasks), *words[:-1]))
            yield from ()
        return done

    for name in ("here", "beside", "cluster"):
        monkeypatch.setattr(f"ctmtools.many_runs.workers.{name}", does(name))
    assert not list(DrawnRuns([written(tmp_path, GATE + UNIFORM)], Wanted(runs, 1)).run(jobs, address)) and calls == [wanted]


def test_the_picture_can_be_read(program):
    picture = draws.draw(draw(STUDY, SHOULDER, runs=20))
    assert_readable(picture)
    assert len(picture.axes) == 2 and [text.get_text() for text in picture.legends[0].texts] == \
        ["A lane drop, demand uncertain", "The same with a hard shoulder"]
    across = [line.get_ydata()[0] for line in picture.axes[1].lines if list(line.get_xdata()) == [0, 1]]
    assert across == picture.axes[1].get_yticks().tolist()[1:] == [0.5, 0.8, 0.95]


def test_the_picture_rises_by_a_part_at_each_delay():
    results = SimpleNamespace(delays_by_plan={"s": numpy.array([5.0, 2.0, 3.0, 9.0])}, titles={"s": "s"}, title="s", count=4)
    below = draws.draw(results).axes[1]
    rise = next(line for line in below.lines if len(line.get_xdata()) == 6)
    assert list(rise.get_xdata())[1:-1] == [2, 3, 5, 9] and list(rise.get_ydata()) == [0, 0.25, 0.5, 0.75, 1, 1]
    # Halfway, four fifths and 0.95 of the three ways between them lie 1.5, 2.4 and 2.85 ways behind the first.
    marks = next(line for line in below.lines if line.get_marker() == "o")
    assert list(marks.get_xdata()) == pytest.approx([4, 6.6, 8.4]) and list(marks.get_ydata()) == pytest.approx([0.5, 0.8, 0.95])


def test_the_function_for_python_gives_what_the_command_writes(tool, program, tmp_path):
    paths = [written(tmp_path, GATE + UNIFORM), written(tmp_path, GATE.replace("capacity = 1200", "capacity = 1400"), "wide.toml")]
    results = draw(*paths, runs=6, jobs=2, queue_after=["07:20"])
    assert tool("draw", *paths, "--runs", "6", "-j", "1", "--queue-after", "07:20")[0] == 0
    for made, name in ((results.rows, "draws"), (results.summary, "summary")):
        pandas.testing.assert_frame_equal(made.replace("", numpy.nan), pandas.read_csv(f"s.draw/{name}.csv"), check_dtype=False)
    # 1,500 vehicles and a factor of them take an hour and more to pass: past 07:20 where it is above 1,600 of them.
    late = (1500 * results.own("s").demand > 1600).mean()
    assert results.lasting("s", "07:20").part == pytest.approx(late) and results.compared("wide").less.part == 1
