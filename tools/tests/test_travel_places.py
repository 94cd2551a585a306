"""Places of routes and of detectors: the nearest boundary between cells, and gates."""

import pytest

from ctmtools.calibration.observed import modelled, read_observed
from ctmtools.report.travel import cell_before, chain_of

from .corridor import corridor
from .plain_reports import reported


# Cells end at 0.25, 0.5, 0.75 and 1 km.
@pytest.mark.parametrize("begin, end, cells", [
    ("m.0", "m.1", "1234"), ("m.0.12", "m.0.88", "1234"), ("m.0.13", "m.0.87", "23"), ("m.0.4", "m.1", "34"), ("m.0.37", "m.1", "234"),
    ("m.0", "m.0.6", "12"), ("m.0", "m.0.63", "123"), ("m.0.9", "m.1", "4"), ("m.0", "m.0.1", "1")])
def test_the_nearest_boundary(tmp_path, begin, end, cells):
    assert chain_of(reported(corridor(tmp_path)), begin, end) == [f"m{i}" for i in cells]


def test_a_detector_may_stand_at_a_gate(tmp_path):
    report = reported(corridor(tmp_path, demand=1440))
    (tmp_path / "d.csv").write_text("place,start,end,flow\ng,06:10,06:20,1400\n")
    assert cell_before(report, "g") == "g" and modelled(report, read_observed(tmp_path / "d.csv")).flow.tolist() == [1440]
