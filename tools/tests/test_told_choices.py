"""The lines of choices and of compared cells, and options of tables that go together."""

from types import SimpleNamespace as Some

import pandas
import pytest

from ctmtools.commands.choose import _tell
from ctmtools.report.summary import _seen
from ctmtools.report.routes import main_route
from ctmtools.network_file.network import network_of
from ctmtools.many_runs.task import Task, fingerprint
from ctmtools.units import Units


def choices(*rows):
    return pandas.DataFrame(rows, columns=["a", "delay_vehicle_hours", "rounded", "error"])


def test_the_lines_of_a_choice(capsys):
    _tell(Some(keys=["a"]), choices((10, 1234.5, "", ""), (7, 2, "b: 1 s asked", ""), ("x", None, "", "no\nnumber"), (1, 3, "", "")), 3)
    assert capsys.readouterr().out.splitlines() == ["   a  delay (vehicle-hours)", "  10                1,234.5", "   7                      2  rounded: b: 1 s asked",
                                                    "   x                         failed: no number", "  and 1 more rows"]


def test_what_is_rounded_in_all_is_told_once(capsys):
    _tell(Some(keys=["a"]), choices((1, 2, "r", ""), (2, 3, "r", "")), 2)
    assert capsys.readouterr().out.splitlines()[1:] == ["  1                      2", "  2                      3", "  Rounded in each of them: r"]
    _tell(Some(keys=["a"]), choices((1, 2, "r", "")), 2)
    assert capsys.readouterr().out.splitlines()[1:] == ["  1                      2  rounded: r"]
    _tell(Some(keys=["a"]), choices((1, 2, "", ""), (2, 3, "", "")), 2)
    assert len(capsys.readouterr().out.splitlines()) == 3


def test_cells_that_are_compared_stand_in_columns(tool, reports):
    out = tool("compare", reports("arterial-0"), reports("arterial-wave"), "--rows", "1")[1].splitlines()
    begin = next(i for i, line in enumerate(out) if line.startswith("The greatest changes of delay, 1 of "))
    # In the wave nobody waits at the second stop line, which all 1,080 vehicles pass.
    head, row = out[begin + 2:begin + 4]
    assert head == "  cell     A  B  B - A  left A  left B  B - A" and row.startswith("  c08   ") and row.endswith("   1,080   1,080      0")
    assert row.split()[2] == "0" and row.split()[3] == f"-{row.split()[1]}"


def test_the_value_of_time_goes_with_roads_ramps_and_totals(tool, reports):
    path = reports("arterial-0")
    status, out, err = tool("table", path, "--totals", "--cell", "c04", "--value-of-time", "4")
    assert status == 0 and out.splitlines() == ["cell,vehicles,entered,left,delay,road,from_km,to_km,lanes,cost", "c04,0,1080,1080,6.75,c,0.375,0.5,2,27"]
    for words in (["--value-of-time", "4"], ["--interval", "5 min"], ["--by", "road", "--totals"], ["--totals", "--interval", "5 min"]):
        assert "go with --by road" in tool("table", path, *words)[2]
    for words in (["--separator", ";;"], ["--decimal", ""], ["--separator", "."]):
        assert "one character each, and differ" in tool("table", path, *words)[2]


@pytest.mark.parametrize("every, step, told", [(1, 10, ""), (6, 10, ", seen every 60 s"), (6, None, ", seen every 6 steps")])
def test_how_often_queues_are_seen(every, step, told):
    assert _seen(Some(times=[0, every, 2 * every], units=Units(step=step))) == told


def test_the_main_route_is_the_longest_from_a_gate():
    rows = "".join(f"road,{name},60,9,1,5,0\n" for name in "abcd")
    links = "link,g,a\nlink,a,x\nlink,h,b\nlink,b,c\nlink,c,d\nlink,d,y\n"
    network = network_of(f"ctm,1\nsteps,9\nexit,x,1\nexit,y,1\ngate,g,1,0\ngate,h,1,0\n{rows}{links}".encode())
    assert main_route(network) == ["h", "b", "c", "d", "y"]
    ring = network_of(f"ctm,1\nsteps,9\n{rows}link,a,b\nlink,b,a\nlink,c,d\n".encode())
    assert main_route(ring) == ["c", "d"]  # what nothing leads into begins a chain


def test_a_study_is_another_where_its_counts_are(tmp_path):
    values = {"gates": {"g": {"demand": {"counts": "c.csv", "column": "n"}}}}
    task = Task(values, str(tmp_path / "s.toml"), {}, "")
    marks = [fingerprint(task)]
    for text in ("time,n\n", "time,m\n"):
        (tmp_path / "c.csv").write_text(text)
        marks.append(fingerprint(task))
    assert len(set(marks)) == 3 and fingerprint(task) == marks[-1]
