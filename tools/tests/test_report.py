"""What is read from a report: its records, states, queues, routes and comparisons, against figures on paper."""

import warnings
from types import SimpleNamespace

import pandas
import plain_model
import pytest

from ctmtools import Problem, queues_of, read_report, states, totals
from ctmtools.report.comparing import compare
from ctmtools.report.queues import queues_in
from ctmtools.report.reading import report_of
from ctmtools.report.routes import kilometres, route_of
from ctmtools.units import Units

from .examples import EXAMPLES, save_report
from .plain_reports import at_a_light, plain_report


def test_the_states_are_in_the_units_of_the_road(report):
    frame = states(report("bottleneck"))
    assert list(frame.columns)[:6] == ["time", "cell", "vehicles", "flow", "density", "speed"]
    assert frame.attrs["units"] == {"time": "time of day", "vehicles": "vehicles", "flow": "vehicles/h",
                                    "density": "vehicles/km", "speed": "km/h"}
    quarter_to_eight = frame[frame.time == "1900-01-01 07:45"]
    row = quarter_to_eight[quarter_to_eight.cell == "m19"].iloc[0]
    # In the queue a cell of 250 m holds 48 vehicles, of which 12 leave in a step of 10 s: a quarter of 90 km/h.
    assert (row.vehicles, row.flow, row.density, row.speed) == pytest.approx((48, 4320, 192, 22.5), abs=1e-3)
    free = quarter_to_eight[quarter_to_eight.cell == "m25"].iloc[0]
    assert (free.flow, free.density, free.speed) == pytest.approx((4320, 48, 90))
    gate = quarter_to_eight[quarter_to_eight.cell == "on"].iloc[0]
    assert gate.flow == pytest.approx(4500) and gate.density != gate.density and gate.speed != gate.speed


def test_times_are_datetimes_and_kilometres_numbers(report):
    frame, ends = states(report("bottleneck")), totals(report("bottleneck"))
    assert frame.dtypes["time"] == "datetime64[ns]" and frame.time.iloc[-1] == pandas.Timestamp("1900-01-01 10:00")
    for made in (frame, ends):
        assert made.dtypes["from_km"] == made.dtypes["to_km"] == float and made.dtypes["lanes"] == "Int64"
        row = made[made.cell == "m20"].iloc[0]
        assert (row.road, row.from_km, row.to_km, row.lanes) == ("m", 4.75, 5.0, 3)
        assert made[(made.road == "m") & (made.lanes == 2)].cell.unique().tolist() == [f"m{i}" for i in range(21, 31)]
        assert made[made.cell == "on"].iloc[0][["from_km", "lanes"]].isna().all()


def test_times_go_on_behind_midnight(tmp_path):
    text = (EXAMPLES / "bottleneck.toml").read_text().replace('start = "06:00"\nend = "10:00"',
                                                              'start = "23:50"\nduration = "20 min"')
    (tmp_path / "night.toml").write_text(text.split("[gates.on]")[0] + '[gates.on]\ninto = "m"\ndemand = 3600\n'
                                         '[exits.off]\nfrom = "m"\n')
    read = read_report(save_report(tmp_path, tmp_path / "night"))
    frame = states(read)
    assert frame.time.is_monotonic_increasing and frame.time.iloc[-1] == pandas.Timestamp("1900-01-02 00:10")


NIGHT = """step = 10
start = "23:50"
duration = "{}"
[lane]
free_flow_speed = 90
wave_speed = 18
jam_density = 144
saturation_flow = 2160
[roads.m]
length = 1
lanes = 2
[gates.on]
into = "m"
demand = 1000
[exits.off]
from = "m"
"""


@pytest.mark.parametrize("lasting, first, last", [("9 min", "23:50:00", "23:59:00"),
                                                  ("10 min", "1900-01-01 23:50:00", "1900-01-02 00:00:00"),
                                                  ("20 min", "1900-01-01 23:50:00", "1900-01-02 00:10:00")])
def test_the_times_of_a_table_are_read_by_pandas_at_midnight_and_past_it(tool, tmp_path, lasting, first, last):
    (tmp_path / "night.toml").write_text(NIGHT.format(lasting))
    status, out, err = tool("table", save_report(tmp_path, tmp_path / "night"))
    times = [line.partition(",")[0] for line in out.splitlines()[1:]]
    assert status == 0 and (times[0], times[-1]) == (first, last)
    assert pandas.to_datetime(pandas.Series(times)).is_monotonic_increasing


def test_a_time_past_midnight_is_told_with_its_day():
    units = Units(step=10, start=23 * 3600 + 50 * 60)
    assert [units.clock(step) for step in (0, 60, 61, 120, 60 + 8640, 120 + 8640)] == [
        "23:50", "24:00", "00:00:10 +1 day", "00:10 +1 day", "24:00 +1 day", "00:10 +2 days"]


def test_no_table_has_what_differences_leave_of_nothing(tool, tmp_path):
    (tmp_path / "night.toml").write_text(NIGHT.format("20 min").replace("demand = 1000", "demand = 1234.567"))
    path = save_report(tmp_path, tmp_path / "night")
    for words in (["--by", "road"], ["--by", "road", "--interval", "5 min"], [], ["--totals"]):
        out = tool("table", path, *words)[1]
        small = [field for line in out.splitlines()[1:] for field in line.split(",") if "e-" in field]
        assert not small, small


def test_queues_as_a_frame(report):
    frame = queues_of(report("bottleneck"))
    row = frame.iloc[0]
    assert len(frame) == 1 and (row.cell, row.road, row.km, row.farthest, row.spells) == ("m20", "m", 5.0, "m08", 1)
    # 14 vehicles come to m20 at 07:03:30, of which 12 leave. With the next 14 it holds 16, of which 12 are less than 80 %.
    assert row.began == pandas.Timestamp("1900-01-01 07:03:40")
    assert row.cleared == pandas.Timestamp("1900-01-01 08:40:50")
    assert (row.reach, row.most_waiting, row.delay) == (3.25, pytest.approx(450, abs=1), pytest.approx(461.25, abs=0.3))
    assert frame.attrs["units"]["delay"] == "vehicle-hours" and frame.attrs["units"]["reach"] == "km"


def test_no_queues_as_a_frame(report):
    frame = queues_of(report("workzone-none"))
    assert len(frame) == 0 and {"cell", "began", "cleared", "delay"} <= set(frame.columns)


def test_the_states_where_no_units_are_known(reports, tmp_path):
    source = reports("bottleneck")
    for ending in (".csv", ".report"):
        (tmp_path / f"b{ending}").write_bytes(source.with_suffix(ending).read_bytes())
    frame = states(read_report(tmp_path / "b.report"))
    row = frame[(frame.cell == "m19") & (frame.time == 630)].iloc[0]
    assert (row.vehicles, row.flow, row.density, row.speed) == pytest.approx((48, 12, 48, 0.25), abs=1e-3)
    assert frame.attrs["units"]["flow"] == "vehicles in a step"


def test_states_of_sparse_records_keep_the_flow(reports, tmp_path):
    dense, sparse = read_report(reports("interchange")), read_report(save_report(tmp_path, "interchange", every=7))
    assert list(sparse.times[:2]) == [0, 7] and sparse.times[-1] == sparse.steps
    assert sparse.passed.sum(axis=0) == pytest.approx(dense.cells.gone.to_numpy())
    assert queues_in(sparse)[0].origin == "r2"


def test_routes(report):
    read = report("interchange")
    assert route_of(read)[0] == "m01" and route_of(read)[-1] == "m32"
    assert route_of(read, "m23", "r2") == ["m23", "m24", "r1", "r2"]
    assert route_of(read, end="a2") == ["a1", "a2"]
    assert route_of(read, road="r") == ["r1", "r2"]
    assert kilometres(read, ["m09", "m10"]) == ([2.0, 2.25, 2.5], True)
    for words in ({"road": "q"}, {"start": "q"}, {"start": "r1", "end": "m01"}):
        with pytest.raises(Problem):
            route_of(read, **words)


def test_compare(report):
    frame = compare(report("arterial-0"), report("arterial-wave"))
    assert list(frame.index[:4]) == ["c08", "c12", "c16", "c20"]
    assert frame.delay_rise.sum() == pytest.approx(-26.25)
    other = compare(report("event-one"), report("event"))
    assert other.loc["town", "left_second"] == pytest.approx(3002.000956) and other.loc["e01"].isna().any()


def test_where_nobody_waits_nothing_is_divided():
    with warnings.catch_warnings():
        warnings.simplefilter("error")
        assert not at_a_light(0).waited.any()


def test_what_waits_in_a_last_interval_that_is_shorter():
    """Six vehicles in a gate whose exit takes none wait 6 vehicle-steps a step, in all 60 in 10 steps."""
    report = plain_report("ctm,1\nsteps,10\ngate,g,9,6\nexit,x,0\nlink,g,x\n", every=4)
    assert report.waited[:, report.place("g")].tolist() == pytest.approx([24, 24, 12])


def test_what_waits_between_records_is_divided_evenly_over_time():
    """A vehicle that comes to the light in step 6 waits until the green of step 10, and at each recorded step the cell is empty."""
    report = plain_report("ctm,1\nsteps,40\ngate,g,9,0\nroad,a,60,9,1,5,0\nexit,x,9\nlink,g,a\nlink,a,x\nsignal,a,10,0,0,5\n"
                          "demand,g,4,5,1\n", every=15)
    assert report.vehicles.a.tolist() == [0, 0, 0, 0]
    wait = report.cells.wait["a"]
    assert wait > 0 and report.waited[:, report.place("a")].tolist() == pytest.approx([wait * 15 / 40, wait * 15 / 40, wait * 10 / 40])


def test_a_cell_of_one_report_alone_rises_from_nothing_or_falls_to_it():
    one, two = (SimpleNamespace(units=Units(), cells=pandas.DataFrame({"wait": wait, "gone": gone, "come": gone}, index=names))
                for names, wait, gone in ((["a", "b"], [3, 1], [5, 7]), (["b", "c"], [2, 9], [8, 6])))
    frame = compare(one, two)
    assert frame.delay_rise.to_dict() == {"c": 9, "a": -3, "b": 1} and frame.left_rise.to_dict() == {"c": 6, "a": -5, "b": 1}


def test_totals_of_a_report_without_records():
    frame = totals(read_report(EXAMPLES / "bottleneck.report"))
    assert frame.delay.sum() == pytest.approx(166050)
    assert list(frame.columns) == ["cell", "vehicles", "entered", "left", "delay"]


@pytest.mark.parametrize("content", [b"", b"report,3\n", b"report,3,1\ntotal,0,0,0,0\n",
                                     b"report,1,1\ncell,x,1,1,1\ntotal,1,1,1,1\n",
                                     b"report,1,1\nat,0,x,0,0\nat,1,x,0\ncell,x,1,1,1,1\ntotal,1,1,1,1\n",
                                     b"report,1,1\nat,0,x,0,0\nit,1,x,0,0\ncell,x,1,1,1,1\ntotal,1,1,1,1\n",
                                     b"ctm,1\nsteps,3\n", b"report,1,1\nat,0,y,0,0\ncell,x,1,1,1,1\ntotal,1,1,1,1\n"])
def test_no_report(content, tmp_path):
    (tmp_path / "b.report").write_bytes(content)
    with pytest.raises(Problem, match="b.report: (no report of ctm|this report is cut short or isn't one of ctm)"):
        read_report(tmp_path / "b.report")


def test_records_are_read_when_they_are_asked_for():
    whole = plain_model.report((EXAMPLES / "interchange.csv").read_bytes(), 1)
    report = report_of(whole.replace(b"at,5,m02,", b"at,5,m02,x"))
    assert report.recorded and report.total.left == report_of(whole).total.left
    with pytest.raises(Problem, match="cut short"):
        states(report)


@pytest.mark.parametrize("amount", ["1.2.3", "12345678.9012345", "x.000000", "1.00000/", "1.00000:", "-1.000000", "", "/.000000", "1 .000000"])
def test_an_amount_of_a_record_is_a_number(amount):
    report = report_of(f"report,1,1\nat,0,x,1.000000,0.000000\nat,1,x,{amount},0.000000\ncell,x,1,1,1,1\ntotal,1,1,1,1\n".encode())
    with pytest.raises(Problem, match="cut short"):
        report.records.read()


@pytest.mark.parametrize("amount, parts", [("0.000000", 0), ("10000000.000000", 10 ** 13), ("9876543.210987", 9876543210987), ("7", 7 * 10 ** 6),
                                           ("123456789.5", 123456789500000), ("3.25", 3250000)])
def test_the_parts_of_an_amount(amount, parts):
    report = report_of(f"report,1,1\nat,0,x,{amount},0.000001\nat,1,x,0.000009,{amount}\ncell,x,1,1,1,1\ntotal,1,1,1,1\n".encode())
    assert report.records.vehicles.tolist() == [[parts], [9]] and report.records.left.tolist() == [[1], [parts]]
