"""Sweeps: every combination, the best first, going on where one was stopped, and on a cluster that loses a worker."""

import importlib.util
import multiprocessing
import os
import signal
import subprocess
import sys
from fractions import Fraction

import pytest

from ctmtools.many_runs import workers
from ctmtools.many_runs.task import Task, fingerprint
from ctmtools.many_runs.variations import changed, combinations, variation
from ctmtools.problem import Problem
from ctmtools.sweeps.sweeping import SweptRows, measure
from ctmtools.study.reading import read_values

from .clusters import PATIENCE, at_row, kill_a_worker, two_workers, wait_until
from .examples import EXAMPLES

STUDY = EXAMPLES / "arterial-0.toml"
WITH_DASK = pytest.mark.skipif(importlib.util.find_spec("distributed") is None, reason="python3-distributed is missing")


def task(program, **changes):
    return Task(read_values(STUDY), str(STUDY), changes, program)


def test_variations():
    assert [float(value) for value in variation("demand=0.8:1.2:0.1").values] == [0.8, 0.9, 1.0, 1.1, 1.2]
    assert variation("roads.m.lanes=2,3").values == (2, 3)
    assert variation("start=06:00,07:00").values == ("06:00", "07:00")
    assert len(combinations([variation("a=1:3:1"), variation("b=1,2")])) == 6
    for text in ("demand", "demand=", "=1", "demand=1:0:1", "demand=0:1:0", "demand=0:9:0.001"):
        with pytest.raises(Problem):
            variation(text)


def test_changes_of_a_study():
    values = {"step": 10, "signals": [{"offset": 1}, {"offset": 2}], "roads": {"m": {"lanes": 2}}}
    made, factors = changed(values, {"signals.offset": 5, "demand": 2, "demand.on": 3, "roads.m.lanes": 4})
    assert made["signals"] == [{"offset": 5}, {"offset": 5}] and made["roads"]["m"]["lanes"] == 4
    assert factors == {"": 2, "on": 3} and values["signals"][0]["offset"] == 1
    assert changed(values, {"signals.2.offset": 7})[0]["signals"] == [{"offset": 1}, {"offset": 7}]
    for key in ("roads.q.lanes", "signals.3.offset", "signals.1", "step.x"):
        with pytest.raises(Problem):
            changed(values, {key: 1})


def of_run(one):
    return workers.apart(measure, one)


def test_a_run_is_measured(plain):
    measured = of_run(task(plain, **{"signals.offset": Fraction(40)}))
    # 21 cells of 10 s with the gate, and 6.75 vehicle-hours of 1,080 vehicles.
    assert measured == {"delay_vehicle_hours": pytest.approx(6.75), "longest_queue_km": pytest.approx(0.125),
                        "most_waiting_vehicles": pytest.approx(18), "left_vehicles": 1080, "inside_vehicles": 0,
                        "travel_time_min": pytest.approx((210 + 22.5) / 60, abs=0.01), "waiting_upstream_vehicles": 0,
                        "rounded": "", "error": ""}
    assert "length of road c: 2.5 km asked, 2.5375 km modelled and" in of_run(task(plain, step=Fraction(7)))["rounded"]
    assert of_run(task(plain, **{"demand": Fraction(2)}))["left_vehicles"] > 1080
    assert "no such key" in of_run(task(plain, **{"signals.ofset": 40}))["error"]
    assert "no program" in of_run(task("/none"))["error"]


def rounded_lines(tool, *values):
    """What a sweep over a step and offsets prints of what was rounded: the remarks of its rows, and its line of all rows."""
    status, out, err = tool("sweep", STUDY, *(word for value in values for word in ("--vary", value)), "-j", "1")
    assert status == 0, err
    return [line.partition("ounded")[2] for line in out.splitlines() if "ounded" in line]


def test_what_is_rounded_in_all_rows_is_told_once(tool, plain):
    """By steps of 7 s a cell is 87.5 m and 2.5 km are 29 of them, 2.5375 km; by steps of 10 s they are 20 of 125 m."""
    road = "length of road c: 2.5 km asked, 2.5375 km modelled"
    once, = rounded_lines(tool, "step=7", "signals.offset=0,7")
    assert once.startswith(f" in each of them: {road}")
    of_one_row, = rounded_lines(tool, "step=7", "signals.offset=7")
    assert of_one_row.startswith(f": {road}")
    of_one_of_two, = rounded_lines(tool, "step=7,10", "signals.offset=0")
    assert of_one_of_two.startswith(f": {road}")
    assert rounded_lines(tool, "step=10", "signals.offset=0,10") == []


def test_a_fingerprint_tells_studies_apart(plain):
    marks = {fingerprint(task(plain)), fingerprint(task(plain, **{"signals.offset": Fraction(40)})),
             fingerprint(task(plain, demand=1))}
    assert len(marks) == 3 and fingerprint(task(plain)) in marks


def test_a_sweep_goes_on_where_it_was_stopped(tool, plain):
    words = ["sweep", STUDY, "--vary", "signals.offset=0:50:10", "--vary", "demand=1,x", "-j", "1"]
    status, out, err = tool(*words)
    assert status == 0 and "6 of 12 runs failed" in out and "failed: " in out and "stand in" not in out
    rows = open("arterial-0.sweep/results.csv").read().splitlines(keepends=True)
    assert os.path.getsize("arterial-0.sweep/plot.png") and rows[0].startswith("signals.offset,demand,delay")
    with open("arterial-0.sweep/results.csv", "w") as file:  # stopped in the middle of a row
        file.write("".join(rows[:4]) + rows[4][:20])
    status, out, err = tool("sweep", STUDY, "--vary", "signals.offset=0:50:10", "--vary", "demand=1", "-j", "2")
    assert status == 0 and "of 6 runs stand in" in out
    best = out.splitlines()[2].split()
    assert best[:3] == ["40", "1", "6.75"]
    assert tool("sweep", STUDY, "--vary", "signals.offset=0:50:10", "--vary", "demand=1")[1].startswith("6 of 6 runs")
    assert tool("sweep", STUDY, "--vary", "signals.offset=40", "--vary", "demand=1")[1].startswith("1 of 1 runs")
    assert tool("sweep", STUDY, "--vary", "signals.offset=0:50:10", "--vary", "demand=1")[1].startswith("6 of 6 runs")
    status, out, err = tool("sweep", STUDY, "--vary", "signals.offset=40")
    assert status == 2 and "a sweep over signals.offset, demand; name another folder" in err
    with open("arterial-0.sweep/table.csv") as table:
        assert len(table.readlines()) == 7


def test_a_sweep_over_one_value_and_over_names(tool, plain):
    assert tool("sweep", STUDY, "--vary", "signals.offset=0,40", "-j", "1", "--over", "signals.offset")[0] == 0
    status, out, err = tool("sweep", STUDY, "--vary", "signals.offset=0,40", "--over", "demand")
    assert status == 2 and "isn't varied" in err


@pytest.mark.parametrize("key, wanted", [
    ("roads.n.lanes", "--vary roads.n.lanes: the study has no n there"), ("roads.c.lans", "no such key; is lanes meant?"),
    ("demand.sea", "--vary demand.sea: the study has no gate sea"), ("signals.9.offset", "there are 1 of these")])
def test_a_key_that_the_study_does_not_have_is_refused_before_a_run(tool, plain, key, wanted):
    status, out, err = tool("sweep", STUDY, "--vary", f"{key}=1,2")
    assert status == 2 and wanted in err and err.count("\n") == 1 and not out
    assert not os.path.exists("arterial-0.sweep")


def test_a_sweep_warns_before_its_results(tool, plain, tmp_path):
    slow = STUDY.read_text().replace("free_flow_speed = 45", "free_flow_speed = 30")
    (tmp_path / "s.toml").write_text(slow)
    status, out, err = tool("sweep", "s.toml", "--vary", "signals.offset=0", "-j", "1")
    assert status == 0 and out.startswith("warning: roads.c.free_flow_speed: 30 km/h on 2 lanes is hardly")


def test_an_ended_process_loses_nothing(plain, tmp_path):
    """One of two processes is ended from outside; its run is done again."""
    tasks = [task(plain, **{"signals.offset": i % 12 * 10}) for i in range(8)]
    done = {}
    for i, measured in workers.beside(tasks, 2, measure):
        if not done:
            os.kill(multiprocessing.active_children()[0].pid, signal.SIGKILL)
        done[i] = measured
    assert sorted(done) == list(range(8)) and not any(measured["error"] for measured in done.values())


@WITH_DASK
def test_a_lost_worker_of_a_cluster_loses_nothing(tool, plain, monkeypatch):
    """One of two workers is killed while both are at work."""
    with two_workers(monkeypatch) as cluster:
        at_row(monkeypatch, SweptRows, 2, lambda: kill_a_worker(cluster))
        status, out, err = tool("sweep", STUDY, "--vary", "signals.offset=0:110:10", "--dask", cluster.scheduler_address)
    assert status == 0, err
    rows = [line for line in open("arterial-0.sweep/table.csv")][1:]
    assert len(rows) == 12 and not any("failed" in row or "lost" in row for row in rows)
    assert out.splitlines()[1].split()[:2] == ["40", "6.75"]


@WITH_DASK
@pytest.mark.parametrize("number", [signal.SIGKILL, signal.SIGINT])
def test_a_scheduler_that_dies_is_told_with_what_to_do(tool, plain, tmp_path, monkeypatch, number):
    monkeypatch.setattr(workers, "PATIENCE", PATIENCE)
    scheduler = subprocess.Popen([sys.executable, "-c", SCHEDULER, tmp_path / "address"], stdout=subprocess.DEVNULL,
                                 stderr=subprocess.DEVNULL)

    def end_it():
        scheduler.send_signal(number)
        scheduler.wait(PATIENCE)

    try:
        wait_until(lambda: (tmp_path / "address").exists() or scheduler.poll() is not None)
        address = (tmp_path / "address").read_text()
        at_row(monkeypatch, SweptRows, 2, end_it)
        status, out, err = tool("sweep", STUDY, "--vary", "signals.offset=0:110:10", "--dask", address)
    finally:
        scheduler.kill()
        scheduler.wait()
    assert status == 2 and err.count("\n") == 1
    assert f"--dask {address}: the scheduler doesn't answer any more; begin it and its workers again, and the same call goes on" in err
    assert len(open("arterial-0.sweep/results.csv").readlines()) >= 3


# A scheduler and a worker in one process, which write their address into a file, and take leave at an interrupt.
SCHEDULER = """
import os, signal, sys
from distributed import LocalCluster
if __name__ == "__main__":
    signal.pthread_sigmask(signal.SIG_BLOCK, {signal.SIGINT})
    cluster = LocalCluster(n_workers=1, threads_per_worker=1, processes=False, protocol="tcp://", host="127.0.0.1",
                           dashboard_address=None)
    open(sys.argv[1] + ".new", "w").write(cluster.scheduler_address)
    os.rename(sys.argv[1] + ".new", sys.argv[1])
    signal.sigwait({signal.SIGINT})
    cluster.close()
    os._exit(0)
"""


def test_no_scheduler(tool, plain, monkeypatch):
    monkeypatch.setattr(workers, "PATIENCE", 1)
    status, out, err = tool("sweep", STUDY, "--vary", "demand=1", "--dask", "tcp://127.0.0.1:1")
    assert status == 2 and "no scheduler answers there" in err


def test_a_queue_that_reaches_the_upstream_end_is_told_in_its_row(tool, plain, tmp_path):
    # A kilometre before the lane drop 144 of the 450 vehicles that wait at 08:00 find room, 36 in each of four cells.
    text = (EXAMPLES / "bottleneck.toml").read_text().replace("length = 7.5", "length = 3.5").replace("from = 5.0", "from = 1.0")
    (tmp_path / "s.toml").write_text(text)
    status, out, err = tool("sweep", "s.toml", "--vary", "demand=0.7,1", "-j", "1")
    rows = {line.split()[0]: line for line in out.splitlines() if line.strip().startswith(("0.7", "1 "))}
    assert "a queue reaches the upstream end: 306 wait in a gate behind it" in rows["1"] and "upstream" not in rows["0.7"]
    with open("s.sweep/results.csv") as file:
        text = file.read()
    with open("s.sweep/results.csv", "w") as file:
        file.write(text.replace(",waiting_upstream_vehicles", ""))
    assert "has other measures, as another version of these tools wrote it" in tool("sweep", "s.toml", "--vary", "demand=0.7,1")[2]
