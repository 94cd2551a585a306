"""Studies that nobody can mean: each key of who gives way, of a median, of a permitted turn and of a green that follows traffic with
bad values, which are refused with their place and the cause, before anything is written."""

import pytest

from .test_yield import CROSSING, SIDE, write

SIGN = {"movement": '["e", "y"]', "yields_to": '[["n", "x"], ["s", "y"]]', "kind": '"minor-left"'}
LIGHT = {"movement": '["s", "y"]', "yields_to": '[["n", "x"]]'}
MEDIAN = {**SIGN, "median": "1", "first": '[["n", "x"]]'}
PHASES = 'cycle = 60\nphases = [{ from = ["n", "s"], green = 30, permitted = PERMITTED }, { from = ["e"], start = 35, green = 20 }]\n'
FOLLOWS = 'cycle = 60\nintergreen = 4\nphases = [{ from = ["n", "s"], green = 26, actuated = HOW }, { from = ["e"], green = 26 }]\n'


def row(terms):
    return "yields = [{ " + ", ".join(f"{key} = {value}" for key, value in terms.items()) + " }]"


def light(permitted='[["s", "y"]]', **terms):
    return PHASES.replace("PERMITTED", permitted) + row({**LIGHT, **terms})


def follows(how):
    return FOLLOWS.replace("HOW", how)


# The junction's keys, the key that is named, and the cause.
HOSTILE = [
    (row({**SIGN, "yields_to": '[["n", "x"], ["n", "x"]]'}), "yields[1].yields_to", "n to x stands twice"),
    (row({**SIGN, "yields_to": '[["e", "y"]]'}), "yields[1].yields_to", "expected other movements than its own"),
    (row({**SIGN, "yields_to": '[["n", "x", 11]]'}), "yields[1].yields_to[1][3]", "above 0 and at most 10"),
    (row({**SIGN, "yields_to": '[["n", "x", nan]]'}), "yields[1].yields_to[1][3]", "expected a number"),
    (row({**SIGN, "movement": '["e", "w"]'}), "yields[1].movement", "w isn't of this junction"),
    (row({**SIGN, "legs": "2"}), "yields[1].legs", "expected 3 or 4 legs, found 2"),
    (row({**SIGN, "priority_lanes": "3"}), "yields[1].priority_lanes", "expected 2, 4 or 6 lanes"),
    (row({**SIGN, "critical_gap": "0"}), "yields[1].critical_gap", "the more pass the more have priority"),
    (row({**SIGN, "critical_gap": "1e300"}), "yields[1].critical_gap", "expected half of the follow-up gap of 3.5 s to an hour"),
    (row({**SIGN, "follow_up": "1e-320"}), "yields[1].follow_up", "expected 0.1 s to an hour"),
    (row({**SIGN, "kind": '"roundabout"', "follow_up": '"2 h"'}), "yields[1].follow_up", "expected 0.1 s to an hour"),
    (row({**SIGN, "kind": '"roundabout"', "follow_up": "60"}), "yields[1].critical_gap", "half of the follow-up gap of 60 s"),
    (row({**SIGN, "sneakers": "2"}), "yields[1].sneakers", "this junction has no signal"),
    (row({**SIGN, "stage_gap": "5"}), "yields[1].stage_gap", "goes with median"),
    (row({**MEDIAN, "median": "1e30"}), "yields[1].median", "room for at most 20 vehicles"),
    (row({**MEDIAN, "median": "-1"}), "yields[1].median", "expected a whole number, 1 or more"),
    (row({**MEDIAN, "first": '[["n", "x"], ["s", "y"]]'}), "yields[1].first", "some are crossed behind it"),
    (row({**MEDIAN, "stage_gap": "1"}), "yields[1].stage_gap", "half of the follow-up gap"),
    (row({key: MEDIAN[key] for key in MEDIAN if key != "median"}), "yields[1].first", "with a median"),
    (light(median="1", first='[["n", "x"]]'), "yields[1].median", "is of junctions without a signal"),
    (light(sneakers="-1"), "yields[1].sneakers", "expected 0 to 20 vehicles"),
    (light(sneakers="1e300"), "yields[1].sneakers", "expected 0 to 20 vehicles"),
    (light(sneakers="1e305"), "yields[1].sneakers", "found one beyond 1e300"),
    (light(permitted='[["e", "x"]]'), "phases[1].permitted", "isn't green in it"),
    (light(permitted='"s"'), "phases[1].permitted", "expected a list"),
    (follows("{ least = 0, most = 40, gap = 4 }"), "phases[1].actuated.least", "must be above 0 s and at most the most, 40 s"),
    (follows("{ least = 50, most = 40, gap = 4 }"), "phases[1].actuated.least", "at most the most, 40 s"),
    (follows("{ least = 5, most = 40, gap = 1e300 }"), "phases[1].actuated.gap", "must be at most the most, 40 s"),
    (follows("{ least = 5, most = 40 }"), "phases[1].actuated.gap", "is missing"),
    (follows("{ least = 5, most = inf, gap = 4 }"), "phases[1].actuated.most", "expected a number"),
    (follows("[5, 40, 4]"), "phases[1].actuated", "expected a table")]


@pytest.mark.parametrize("more, key, why", HOSTILE, ids=[f"{key} {i}" for i, (_, key, _) in enumerate(HOSTILE)])
def test_a_bad_value_is_refused_with_its_place_and_nothing_is_written(tmp_path, tool, more, key, why):
    write(tmp_path, CROSSING.format(more=more))
    status, out, err = tool("run", "study.toml")
    assert status and not out and err.count("\n") == 1
    assert f"study.toml: junctions[1].{key}: " in err and why in err
    assert [path.name for path in tmp_path.iterdir()] == ["study.toml"]


@pytest.mark.parametrize("key", ['kind = "roundabout"', "critical_gap = 5", 'control = "stop"', "legs = 3"])
def test_gaps_of_a_merge_without_priority_are_refused(tmp_path, tool, key):
    write(tmp_path, SIDE.format(main=600, low=300, high=600).replace('yields_to = "before"', key))
    status, out, err = tool("build", "study.toml")
    assert status and not out and f"merges[1].{key.split()[0]}: goes with yields_to" in err
    assert [path.name for path in tmp_path.iterdir()] == ["study.toml"]


def test_an_interval_longer_than_the_study_is_the_whole_of_it(tmp_path, recording_program, tool):
    write(tmp_path, SIDE.format(main=600, low=300, high=300).replace("step = 2\n", "step = 2\nyield_interval = 1e30\n"))
    status, out, _ = tool("run", "study.toml")
    # One interval of an hour, in which a little less than 600 pass with priority, of whom the first take 29 s to the end of the road.
    assert status == 0 and "merges[1], side: 5" in out
