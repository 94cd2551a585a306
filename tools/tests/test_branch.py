"""Several futures of one saved moment: each has the report of its whole run, and one that differs before it is refused."""

import plain_model
import pytest

from ctmtools import build, read_study
from ctmtools.moments.moment import Runner

from .examples import EXAMPLES

STUDY = EXAMPLES / "bottleneck.toml"
CLOSED = """
[[closures]]
road = "m"
from = 5
to = 5.25
start = "{}"
end = "{}"
lanes = 1
"""


@pytest.fixture
def saved(tmp_path, program):
    """A lane drop that is saved at 08:00, and two futures: as it is, and with a lane closed from 08:30 to 09:30."""
    moment = Runner("bottleneck").moment(build(read_study(STUDY)).text.encode(), 720)
    (tmp_path / "eight.saved").write_bytes(moment.text)
    (tmp_path / "closed.toml").write_text(STUDY.read_text() + CLOSED.format("08:30", "09:30"))
    return tmp_path


def test_two_futures(tool, saved):
    status, out, err = tool("branch", "eight.saved", STUDY, "closed.toml", "-o", "futures", "--value-of-time", "12")
    assert status == 0 and out.startswith("eight.saved: saved at 08:00:00, 2 futures\n")
    rows = {line.split()[0]: line.split() for line in out.splitlines() if line.startswith("  ")}
    whole = plain_model.report(build(read_study(saved / "closed.toml")).text.encode())
    delay = float(whole.splitlines()[-1].split(b",")[4]) * 10 / 3600
    assert rows["bottleneck"][1:] == ["12,900", "12,900", "0", "461.25", "5,535"]
    assert float(rows["closed"][4].replace(",", "")) == pytest.approx(delay, abs=0.005)
    assert float(rows["closed"][5].replace(",", "")) == pytest.approx(delay - 461.25, abs=0.005)
    assert (saved / "futures/closed.report").read_bytes() == whole
    status, out, err = tool("compare", "futures/bottleneck.report", "futures/closed.report")
    assert status == 0 and f"{delay:,.2f}".rstrip("0") in out


def test_files_of_one_name_and_of_a_network(tool, saved, tmp_path):
    (tmp_path / "other").mkdir()
    (tmp_path / "other/closed.toml").write_text(STUDY.read_text() + CLOSED.format("08:00", "08:10"))
    assert tool("build", STUDY)[0] == 0
    status, out, err = tool("branch", "eight.saved", "bottleneck.csv", "closed.toml", "other/closed.toml", "-j", "2", "-o", "f")
    assert status == 0 and [line.split()[0] for line in out.splitlines() if line.startswith("  ")][1:] == [
        "bottleneck", "closed", "closed-2"]
    assert sorted(path.name for path in (tmp_path / "f").glob("*.report")) == ["bottleneck.report", "closed-2.report",
                                                                               "closed.report"]


@pytest.mark.parametrize("parts, told", [
    (CLOSED.format("07:59:50", "08:30"), "since it differs from the saved network before 08:00: from 07:59:50 on the capacity of "
     "road m from km 5 to 5.25 is 2,160 vehicles/h, and 4,320 vehicles/h in the saved one"),
    ('[[openings]]\nroad = "m"\nfrom = 5\nto = 6\nlanes = 1\nstart = "09:00"\nend = "10:00"\n', "from 06:00 on the N of road m21 is 108, "
     "and 72 in the saved one")])
def test_a_study_that_differs_earlier_is_refused(tool, saved, parts, told):
    (saved / "early.toml").write_text(STUDY.read_text() + "\n" + parts)
    status, out, err = tool("branch", "eight.saved", STUDY, "early.toml")
    assert status == 2 and "early.toml: is no future of eight.saved" in err and told in err


def test_a_study_that_ends_earlier_is_refused_and_one_that_is_longer_is_told(tool, saved):
    text = STUDY.read_text()
    assert 'end = "10:00"' in text
    (saved / "long.toml").write_text(text.replace('end = "10:00"', 'end = "11:00"'))
    status, out, err = tool("branch", "eight.saved", STUDY, "long.toml")
    assert status == 0 and "warning: A is bottleneck, B is long: A is of 1,440 steps of 10 s, 06:00 to 10:00, B of 1,800" in out
    network = build(read_study(STUDY)).text.replace("steps,1440", "steps,700")
    (saved / "short.csv").write_text(network)
    assert "it ends at step 700, before step 720" in tool("branch", "eight.saved", "short.csv")[2]


def test_what_is_no_saved_run(tool, saved):
    assert "no saved run" in tool("branch", STUDY, STUDY)[2]
    assert "no such file" in tool("branch", "none.saved", STUDY)[2]
    assert "Missing argument" in tool("branch", "eight.saved")[2]
