"""A study while it is changed by the page that answers: patches, undoing, saving, and results that are those of `run`."""

import os
import random
from pathlib import Path

import pytest

from ctmtools.live.document import patched
from ctmtools.live.fields import fields_of, value_typed, values_in
from ctmtools.live.results import Results, fault_of, packet, page_data, write_report
from ctmtools.live.session import MOST_LETTERS, MOST_PLANS, Session
from ctmtools.problem import NoSuchKey, Problem

# 2 km at 90 km/h are 8 cells of 250 m in steps of 10 s; ten minutes are 60 steps.
STUDY = """# A short road
title = "Short"  # as it is called
step = 10  # s
start = "06:00"
end = "06:10"

[lane]
free_flow_speed = 90  # km/h
wave_speed = 18  # km/h
jam_density = 144  # vehicles/km
saturation_flow = 2160  # vehicles/h

# The road
[roads.m]
length = 2  # km
lanes = 2  # of them

[gates.on]
into = "m"
demand = [
  ["06:00", "06:05", 3600], # vehicles/h
  ["06:05", "06:10", 1800], # fewer
]

[exits.off]
from = "m"
"""
CLOSURE = {"road": "m", "from": 1, "to": 1.5, "start": "06:02", "end": "06:05", "lanes": 1}
CLOSED = """
[[closures]]
road = "m"
from = 1
to = 1.5
start = "06:02"
end = "06:05"
lanes = 1
"""


@pytest.fixture
def path(tmp_path):
    found = tmp_path / "short.toml"
    found.write_text(STUDY)
    return found


@pytest.fixture
def session(path):
    return Session.of_file(path)


@pytest.mark.parametrize("key, value, old, new", [
    ("roads.m.lanes", 3, "lanes = 2  # of them", "lanes = 3  # of them"),
    ("lane.wave_speed", 20.5, "wave_speed = 18  #", "wave_speed = 20.5  #"),
    ("title", '<b>"x"', '"Short"', '"<b>\\"x\\""'),
    ("gates.on.demand", [["06:00", "06:05", 3000], ["06:05", "06:10", 1800]], "3600], # vehicles/h", "3000], # vehicles/h"),
    ("gates.on.demand", [["06:05", "06:10", 1800]], '  ["06:00", "06:05", 3600], # vehicles/h\n', ""),
    ("gates.on.demand", [["06:00", "06:05", 3600], ["06:05", "06:10", 1800], ["06:10", "06:20", 5]],
     "# fewer\n", '# fewer\n  ["06:10", "06:20", 5],\n'),
    ("gates.on.capacity", 900, "# fewer\n]\n", "# fewer\n]\ncapacity = 900\n"),
    ("demand", 0.5, '3600], # vehicles/h\n  ["06:05", "06:10", 1800]', '1800], # vehicles/h\n  ["06:05", "06:10", 900]'),
    ("exits.off", {"from": "m", "capacity": 9}, '[exits.off]\nfrom = "m"\n', '[exits.off]\nfrom = "m"\ncapacity = 9\n\n')])
def test_a_patch_changes_what_it_names_and_no_more(key, value, old, new):
    assert STUDY.count(old) == 1
    assert patched(STUDY, [(key, value)]) == STUDY.replace(old, new)


def test_rows_that_follow_each_other_are_changed_each_in_its_place():
    text = STUDY.replace('"06:05", 3600], # vehicles/h', '"06:02", 3600], # vehicles/h\n  ["06:02", "06:05", 2400], # then')
    wanted = text.replace('"06:05", 2400]', '"06:04", 2000]').replace('["06:05", "06:10", 1800]', '["06:04", "06:10", 1000]')
    rows = [["06:00", "06:02", 3600], ["06:02", "06:04", 2000], ["06:04", "06:10", 1000]]
    assert wanted != text != STUDY and patched(text, [("gates.on.demand", rows)]) == wanted


def test_tables_are_added_and_taken_away():
    one = patched(STUDY, [("closures.+", CLOSURE)])
    assert one == STUDY + CLOSED
    two = patched(one, [("closures.+", {**CLOSURE, "lanes": 2})])
    assert two == one + CLOSED.replace("lanes = 1", "lanes = 2")
    assert patched(two, [("closures.1", None)]).endswith("lanes = 2\n") and patched(two, [("closures.1", None)]).count("[[closures]]") == 1
    assert patched(one, [("closures.1", None)]).rstrip() == STUDY.rstrip()
    assert values_in(patched(STUDY, [("roads.b", {"length": 1, "lanes": 1})]))["roads"] == {"m": {"length": 2, "lanes": 2}, "b": {"length": 1, "lanes": 1}}


def test_a_row_is_taken_away_by_its_number_however_deep_it_stands():
    assert patched(STUDY, [("gates.on.demand.2", None)]) == STUDY.replace('  ["06:05", "06:10", 1800], # fewer\n', "")


@pytest.mark.parametrize("key, value", [("closures.1", None), ("roads.x.lanes", 1), ("roads..lanes", 1), ("demand.x", 1), ("demand", -1),
                                        ("gates.on.limits", None), ("roads.m.lanes", float("nan"))])
def test_a_patch_that_cannot_be_changes_nothing(session, key, value):
    with pytest.raises(Problem):
        session.change([("roads.m.lanes", 3), (key, value)])
    assert session.text == STUDY and session.version == 0 and not session.can_undo


def test_a_factor_of_a_demand_needs_a_study(session):
    session.change([("roads.m.lanes", 0.5)])
    with pytest.raises(Problem, match=r"roads\.m\.lanes"):
        session.change([("demand", 2)])


def test_undo_and_redo(session):
    for lanes in (3, 4, 5):
        session.change([("roads.m.lanes", lanes)], group="drag" if lanes > 3 else None)
    assert "lanes = 5" in session.text
    session.undo()  # both of the drag
    assert "lanes = 3" in session.text and session.can_redo
    session.undo()
    session.undo()
    assert session.text == STUDY and not session.can_undo
    session.redo()
    session.redo()
    session.redo()
    assert "lanes = 5" in session.text and not session.can_redo
    session.undo()
    session.change([("roads.m.lanes", 6)])
    assert not session.can_redo


def test_a_drag_behind_an_undone_one_is_a_change_of_its_own(session):
    session.change([("roads.m.lanes", 3)], group="drag")
    session.undo()
    session.change([("roads.m.lanes", 4)], group="drag")
    session.undo()
    assert session.text == STUDY


def test_saving(session, path):
    assert session.is_saved
    session.change([("roads.m.lanes", 3)])
    assert not session.is_saved and path.read_text() == STUDY
    session.save()
    assert session.is_saved and path.read_text() == STUDY.replace("lanes = 2", "lanes = 3")


def test_a_study_that_was_changed_on_the_disk_is_not_written_over(session, path):
    path.write_text(STUDY.replace("Short", "Other"))
    session.change([("roads.m.lanes", 3)])
    assert session.on_disk() == "changed"
    with pytest.raises(Problem, match="was changed meanwhile"):
        session.save()
    assert "Other" in path.read_text()
    session.read_anew()
    assert "Other" in session.text and session.is_saved and session.on_disk() == "same"
    session.undo()
    assert "lanes = 3" in session.text and not session.is_saved
    path.write_text(STUDY)
    session.save(over=True)
    assert "lanes = 3" in path.read_text()


def test_a_study_that_is_gone_is_written_anew(session, path):
    path.unlink()
    assert session.on_disk() == "gone"
    session.save()
    assert path.read_text() == STUDY


def test_a_new_study(tmp_path, program):
    path = tmp_path / "new.toml"
    session = Session.new(path)
    assert not path.exists() and not session.is_saved and session.on_disk() == "same"
    session.save()
    assert path.read_text() == session.text


def test_plans(session):
    session.keep("wide")
    session.change([("roads.m.lanes", 3)])
    session.keep(" three ")
    assert session.plans == {"as opened": STUDY, "wide": STUDY, "three": session.text}
    for i in range(MOST_PLANS - 3):
        session.keep(f"plan {i}")
    with pytest.raises(Problem, match="8 plans are kept already"):
        session.keep("one more")
    session.keep("three")  # over itself
    session.forget("wide")
    with pytest.raises(Problem, match="there is no plan wide"):
        session.take_plan("wide")
    session.take_plan("as opened")
    assert session.text == STUDY and session.can_undo


def test_fields_have_keys_units_and_what_is_typed():
    fields = {field["key"]: field for field in fields_of(values_in(STUDY + CLOSED))}
    assert list(fields)[:4] == ["title", "step", "start", "end"]
    assert fields["roads.m.length"] == {"key": "roads.m.length", "table": "roads.m", "name": "length", "value": "2", "unit": "km"}
    assert fields["gates.on.demand"]["rows"] == [["06:00", "06:05", "3600"], ["06:05", "06:10", "1800"]]
    assert (fields["closures.1.from"]["unit"], fields["exits.off.from"]["unit"]) == ("km", "")
    assert (fields["closures.1.start"]["unit"], fields["gates.on.demand"]["unit"]) == ("clock", "vehicles/h")


@pytest.mark.parametrize("typed, name, old, value", [
    ("3", "lanes", 2, 3), (" 2.5 ", "length", 2, 2.5), ("20 m/s", "free_flow_speed", 90, "20 m/s"), ("06:30", "start", "06:00", "06:30"),
    ("12", "title", "Short", "12"), ("[1, 2]", "priorities", [4, 1], [1, 2]), ("m", "from", "n", "m"), ("1.5", "from", 1, 1.5)])
def test_what_is_typed_into_a_field(typed, name, old, value):
    names = ["exits", "off", name] if typed == "m" else ["closures", "1", name]
    assert value_typed(typed, names, old) == value


def test_a_list_that_is_none():
    with pytest.raises(Problem, match=r"merges\.1\.priorities: expected a list"):
        value_typed("[1, 2", ["merges", "1", "priorities"], [4, 1])


def test_a_field_that_is_emptied_is_taken_away(session):
    session.type("lane.wave_speed", "")
    assert "wave_speed" not in session.text


@pytest.mark.parametrize("patch, key, line", [
    (("roads.m.lanes", 0.5), "roads.m.lanes", "roads.m.lanes: "), (("closures.+", {**CLOSURE, "road": "x"}), "closures.1", "x"),
    (("closures.+", {**CLOSURE, "start": "07:00"}), "closures.1.start", "is outside the study's time")])
def test_a_fault_is_told_by_its_key(session, patch, key, line):
    session.change([patch])
    with pytest.raises(Problem) as told:
        Results(session.path).of(session.text)
    found = fault_of(told.value, session.path)
    assert found["key"].startswith(key) and line in found["line"]


def test_a_result_is_kept_as_run_writes_it(session, path, tool, program):
    result = Results(path).of(session.text)
    write_report(result, path)
    made = {name: path.with_suffix(name).read_bytes() for name in (".report", ".csv", ".units.json")}
    for name in made:
        path.with_suffix(name).unlink()
    assert tool("run", path, "-o", path.with_suffix(".report"))[0] == 0
    assert {name: path.with_suffix(name).read_bytes() for name in made} == made


def changes(draw, session):
    """A random change of a session: a value, a table that is added or taken away, an undo, a redo, or what is typed."""
    boxes = values_in(session.text).get("closures", [])
    what = draw.randrange(8)
    if what == 0:
        session.undo()
    elif what == 1:
        session.redo()
    elif what == 2 and boxes:
        session.change([(f"closures.{draw.randint(1, len(boxes))}", None)])
    elif what == 3:
        begin, first = draw.randrange(9), draw.randrange(7) / 4
        session.change([("closures.+", {"road": "m", "from": first, "to": first + 0.25, "start": f"06:0{begin}", "end": f"06:{begin + 1:02}",
                                        "lanes": draw.randint(1, 2)})])
    elif what == 4:
        session.change([("gates.on.demand", [["06:00", "06:04", draw.randrange(5000)], ["06:04", "06:10", draw.randrange(5000)]])], "drag")
    elif what == 5:
        session.type("roads.m.length", str(draw.randint(4, 12) / 4))
    elif what == 6:
        session.change([("demand.on", draw.choice([0.9, 1.1]))])
    else:
        session.type("roads.m.lanes", str(draw.randint(1, 4)))


@pytest.mark.parametrize("seed", range(50))
def test_reports_behind_random_changes_are_those_of_run(session, path, tool, program, seed):
    """The report of each that can be one, to the last byte; of another the fault that `run` tells."""
    draw = random.Random(seed)
    for _ in range(draw.randint(1, 12)):
        try:
            changes(draw, session)
        except Problem as problem:  # as a factor of a study that can't be read
            assert str(problem)
    session.save()
    try:
        content = Results(path).of(session.text).content
    except Problem as problem:
        assert tool("run", path, "-o", path.with_suffix(".report"))[2] == f"ctm-tools: {problem}\n"
    else:
        assert tool("run", path, "-o", path.with_suffix(".report"))[0] == 0
        assert path.with_suffix(".report").read_bytes() == content


def test_the_data_of_two_plans(session, program):
    results = Results(session.path)
    first = results.of(session.text)
    session.change([("closures.+", CLOSURE)])
    data = page_data([first, results.of(session.text)], ["as opened", "at hand"])
    assert data["names"] == ["as opened", "at hand"] and len(data["reports"]) == 2 and data["title"] == "Short"
    assert data["tables"]["reports"]["rows"][1][0] == "at hand"
    head = int.from_bytes(packet(data)[:4], "little")
    # 60 frames of the gate, 8 cells and the exit: two arrays of 16 bits and one of bits for each of two reports.
    assert len(packet(data)) - 4 - head == 2 * (2 * 2 * 60 * 10 + 76)


def test_plans_of_other_times_do_not_stand_beside(session, program):
    results = Results(session.path)
    first = results.of(session.text)
    session.change([("end", "06:15")])
    assert page_data([first, results.of(session.text)], ["as opened", "at hand"])["names"] == ["at hand"]


def test_a_key_that_is_none():
    with pytest.raises(NoSuchKey):
        patched(STUDY, [("", 1)])


def test_half_a_letter_is_refused_since_no_file_can_have_it(session):
    with pytest.raises(Problem, match="half a letter"):
        session.replace(f"{session.text}# \ud800")
    assert session.version == 0 and session.text == STUDY


def test_more_keys_at_once_than_a_page_has_are_refused(session):
    with pytest.raises(Problem, match="10,000 keys at once; at most 100 are changed"):
        session.change([("title", str(i)) for i in range(10_000)])
    assert session.version == 0


@pytest.mark.parametrize("value", ["x" * 10_001, ["x", {"y": "x" * 10_001}]])
def test_a_text_that_would_take_long_is_refused(session, value):
    with pytest.raises(Problem, match="title: a text has at most 10,000 letters"):
        session.change([("title", value)])
    assert session.text == STUDY


def test_a_pipe_or_a_huge_file_in_the_place_of_the_study_is_changed_and_not_read(session, monkeypatch):
    monkeypatch.setattr(Path, "read_bytes", lambda path: pytest.fail("it is read"))
    with open(session.path, "wb") as file:
        file.truncate(1 << 32)
    assert session.on_disk() == "changed"
    session.path.unlink()
    os.mkfifo(session.path)
    assert session.on_disk() == "changed"


def test_what_can_be_undone_of_large_texts_is_bounded(session):
    for i in range(20):
        session.replace(f"#{i}" + " " * (MOST_LETTERS // 4))
    done = 0
    while session.can_undo:
        session.undo()
        done += 1
    assert done == 3
