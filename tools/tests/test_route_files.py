"""The trips of SUMO's route files: how many come from when to when, as its documents define flows, vehicles and trips."""

import pytest

from ctmtools.imports.sumo import read_network
from ctmtools.imports.sumo_trips import read_trips

from .test_import import net


@pytest.fixture
def trips(tmp_path):
    """The trips until 3,600 s of the elements of a route file: their streets, begin, end and vehicles."""
    def read(elements, until=3600):
        (tmp_path / "t.net.xml").write_text(net())
        (tmp_path / "t.rou.xml").write_text(f"<routes>{elements}</routes>")
        found = read_network(tmp_path / "t.net.xml")
        read_trips(found, [tmp_path / "t.rou.xml"], [], until)
        notes = [note for note in found.notes if note.startswith("t.rou.xml") or "at random" in note]
        return [(" ".join(trip.route), trip.begin, trip.end, pytest.approx(trip.vehicles)) for trip in found.trips], notes
    return read


FLOW = '<flow id="1" from="a" to="d" {}/>'


# A flow without an end goes on for a day; `number` vehicles at a rate take so long; `exp(X)` are X in a second in the mean.
@pytest.mark.parametrize("terms, wanted", [
    ('begin="600" end="1800" vehsPerHour="360"', (600, 1800, 120)), ('begin="600" end="1800" perHour="360"', (600, 1800, 120)),
    ('begin="600" end="1800" period="20"', (600, 1800, 60)), ('begin="600" end="1800" number="90"', (600, 1800, 90)),
    ('begin="600" number="50" period="4"', (600, 800, 50)), ('begin="600" number="50" vehsPerHour="900"', (600, 800, 50)),
    ('vehsPerHour="360"', (0, 3600, 360)), ('begin="0" end="7200" number="100"', (0, 3600, 50)),
    ('begin="3000" end="4200" vehsPerHour="360"', (3000, 3600, 60)), ('begin="600" end="600" number="5"', (600, 600, 5))])
def test_flows(trips, terms, wanted):
    assert trips(FLOW.format(terms)) == ([("a d", *wanted)], [])


@pytest.mark.parametrize("terms, vehicles", [('probability="0.1"', 120), ('period="exp(0.2)"', 240)])
def test_flows_that_sumo_draws_have_their_mean_and_are_told(trips, terms, vehicles):
    assert trips(FLOW.format(f'begin="600" end="1800" {terms}')) == (
        [("a d", 600, 1800, vehicles)], [f"{vehicles} vehicles come in flows that SUMO draws at random: these are their means"])


@pytest.mark.parametrize("terms", ['begin="3600" end="4000" number="5"', 'begin="600" end="700" number="0"'])
def test_flows_of_nobody(trips, terms):
    assert trips(FLOW.format(terms)) == ([], [])


def test_a_route_of_its_own_and_ways_over_stops(trips):
    found, notes = trips('<vehicle id="1" depart="5"><route edges="a c"/></vehicle><trip id="2" depart="6" from="a" to="e" via="c"/>'
                         '<trip id="3" depart="7" from="a" to="b"/><vehicle id="4" depart="8"><route edges="a e"/></vehicle>'
                         '<vehicle id="5" depart="9"><route edges="a q"/></vehicle><vehicle id="6" depart="triggered"><route edges="a c"/>'
                         '</vehicle><flow id="7" begin="0" end="10" number="3"><route edges=""/></flow>')
    assert found == [("a c", 5, 5, 1), ("a c e", 6, 6, 1)]
    assert notes == ["t.rou.xml: 6 vehicles without a route over the network are left out, as trip 3 from a to b, which no connection joins",
                     "t.rou.xml: 1 vehicles that depart triggered are left out, as vehicle 6"]
