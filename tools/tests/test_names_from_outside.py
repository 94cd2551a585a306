"""Names that mean more than a name: in maps, studies, reports, files' names, tables, pages, pictures and messages they are text."""

import csv
import json
import tomllib
from pathlib import Path
from xml.sax.saxutils import quoteattr

import plain_model
import pytest

from ctmtools import Problem, build, read_report, read_study
from ctmtools.exports.geojson import collection
from ctmtools.runs.outputs import write_network
from ctmtools.pages.html_page import page_of
from ctmtools.plots.figure import save
from ctmtools.plots.pictures import picture
from ctmtools.study.writing import study_text
from ctmtools.visible import is_visible, visible

from .test_import import ROUTES, net
from .test_import_osm import TOWN

# What XML may have, what a study may have, and what neither may.
CLOSING = 'c\n[[closures]]\nroad = "a"\nlanes = 1\n#'
MARKS = {"line feeds": CLOSING, "return": "c\rtitle = 1", "quotes": "c\"'''\"\"\"\\", "comment": "c # = ]]", "separator": "c\u2028title = 1",
         "bidi": "c\u202etoml", "isolate": "c\u2066toml", "control": "c\x9b2J", "script": "c</script><script>alert(1)</script><!--"}
SEEN = {name: text for name, text in MARKS.items() if is_visible(text)} | {"formula": "=1+1", "mathtext": "c $\\frac{$"}
HIDDEN = {name: text for name, text in MARKS.items() if not is_visible(text)} | {"escape": "c\x1b[2J", "zero": "c\0"}


def is_text(text):
    """Whether a text of several lines has nothing in it that isn't shown."""
    return all(map(is_visible, text.split("\n")))


def test_letters_that_are_not_shown_are_escaped():
    assert visible("a\x1b[2J\n\u202e\u2028\x9b\ud800\U000e0041") == "a\\x1b[2J\\n\\u202e\\u2028\\x9b\\ud800\\U000e0041"
    shown = "Straße der Jugend 5, خیابان‌ها, 東京、\u00a0№"  # the second has a joiner within a word
    assert visible(shown) == shown and visible(visible("\x1b")) == "\\x1b"


@pytest.mark.parametrize("name", [*MARKS.values(), *HIDDEN.values()], ids=[*MARKS, *HIDDEN])
def test_any_text_is_written_to_a_study_and_read_again(name):
    values = {"title": name, name: 1, "notes": [name], "roads": {name: {name: name}}}
    text = study_text(values, name)
    assert tomllib.loads(text) == values and is_text(text)


def imported_net(folder, old, new):
    """Writes a network of SUMO with an edge named otherwise, with its routes."""
    for name, text in (("town.net.xml", net()), ("town.rou.xml", ROUTES)):
        text = text.replace("c_0", "c0")
        for key in ("id", "from", "to"):
            text = text.replace(f'{key}="{old}"', f"{key}={quoteattr(new)}")
        (folder / name).write_text(text.replace(f'"{old} e"', quoteattr(f"{new} e")), encoding="utf-8")


@pytest.mark.parametrize("name", MARKS.values(), ids=MARKS)
def test_an_edge_of_sumo(tool, tmp_path, name):
    plain = study_of_sumo(tool, tmp_path, "c", "c")[0]
    values, text, out = study_of_sumo(tool, tmp_path, "c", name)
    assert is_text(text) and is_text(out)
    assert "closures" not in values and values.keys() == plain.keys() and len(values["roads"]) == len(plain["roads"])
    assert visible(name) in text.replace('\\"', '"').replace("\\\\", "\\") and is_text(build(read_study("town.toml")).text)


def study_of_sumo(tool, folder, old, new):
    """The values and the text of the study of such a network without routes, and what is told."""
    imported_net(folder, old, new)
    status, out, err = tool("import", "sumo", "town.net.xml", "-o", "town.toml")
    assert status == 0, err
    text = Path("town.toml").read_text(encoding="utf-8")
    return tomllib.loads(text), text, out


@pytest.mark.parametrize("name", [*MARKS.values(), HIDDEN["escape"]], ids=[*MARKS, "escape"])
def test_a_link_of_gmns(tool, tmp_path, name):
    folder = tmp_path / "town"
    folder.mkdir()
    (folder / "config.csv").write_text("long_length,speed\nm,kph\n")
    (folder / "node.csv").write_text("node_id\n1\n2\n3\n")
    one_line = " ".join(name.splitlines())  # its reader takes a file line by line
    with open(folder / "link.csv", "w", newline="", encoding="utf-8") as file:
        csv.writer(file).writerows([("link_id", "name", "from_node_id", "to_node_id", "length", "free_speed", "lanes"),
                                    (one_line, one_line, 1, 2, 500, 60, 1), ("b", "b", 2, 3, 500, 60, 2)])
    status, out, err = tool("import", "gmns", "town", "-o", "t.toml")
    assert status == 0, err
    text = Path("t.toml").read_text(encoding="utf-8")
    assert is_text(text) and is_text(out) and set(tomllib.loads(text)) == {"title", "step", "start", "duration", "notes", "lane", "roads", "gates", "exits"}
    assert is_text(build(read_study("t.toml")).text)


@pytest.mark.parametrize("words", [[], ["--trips"]], ids=["demand", "trips"])
def test_a_street_of_openstreetmap(tool, tmp_path, words):
    for name in ("separator", "bidi", "quotes", "script"):
        (tmp_path / "m.osm").write_text(TOWN.read_text().replace('"Seestraße"', quoteattr(MARKS[name])), encoding="utf-8")
        status, out, err = tool("import", "osm", "m.osm", "-o", "m.toml", *words)
        assert status == 0, err
        assert is_text(out) and any(visible(" ".join(MARKS[name].split())) in road for road in read_study("m.toml").roads)
        for path in tmp_path.glob("m.*"):
            assert path.name == "m.osm" or is_text(path.read_text(encoding="utf-8"))
            if path.suffix == ".csv":
                path.unlink()


@pytest.mark.parametrize("name", [CLOSING, "c\x1b[2J", "c\u202e", "c\udcff"], ids=["line feeds", "escape", "bidi", "no letters"])
def test_the_name_of_a_file(tool, tmp_path, name):
    name = name.replace("/", "")
    (tmp_path / f"{name}.net.xml").write_text(net())
    status, out, err = tool("import", "sumo", f"{name}.net.xml", "-o", "a.toml")
    text = (tmp_path / "a.toml").read_text()
    assert status == 0 and is_text(text) and "closures" not in tomllib.loads(text)
    (tmp_path / "a.toml").rename(tmp_path / f"{name}.toml")
    (tmp_path / f"{name}.toml").write_text("".join(line for line in text.splitlines(True) if not line.startswith("title")))
    status, out, err = tool("build", f"{name}.toml", "-o", "a.csv")
    built = (tmp_path / "a.csv").read_text()
    assert status == 0 and is_text(out) and is_text(built) and "closures" not in [line for line in built.splitlines() if line[0:1] != "#"]
    for words in (["build", f"{name}.none"], ["build", "a.toml", "-o", f"{name}/b.csv"], ["table", f"{name}.toml"], ["plot", "map", f"{name}.toml"],
                  [name], ["run", "a.toml", f"--{name}"], ["import", "osm", f"{name}.toml"], ["import", "gmns", name]):
        status, out, err = tool(*words)
        assert (status, out) == (2, "") and err.count("\n") == 1 and is_text(err), words


def study(name):
    """A study of a road of some name, which is as text a name of TOML too."""
    return study_text({"title": name, "step": 10, "duration": "10 min", "notes": [name], "gates": {"in": {"into": name, "demand": 900}},
                       "roads": {name: {"length": 1, "lanes": 1, "cells": "m", "free_flow_speed": 72, "wave_speed": 18, "jam_density": 150,
                                        "saturation_flow": 1800}}, "exits": {"out": {"from": name}}})


@pytest.mark.parametrize("name", SEEN.values(), ids=SEEN)
def test_a_road_of_a_study(tool, tmp_path, name):
    (tmp_path / "s.toml").write_text(study(name), encoding="utf-8")
    status, out, err = tool("build", "s.toml")
    assert status == 0 and is_text(out)
    built = build(read_study("s.toml"))
    write_network(built, tmp_path / "s.csv")
    (tmp_path / "s.report").write_bytes(plain_model.report(built.text.encode(), 1))
    report = read_report("s.report")
    for kind in ("time-space", "delay", "map", "mfd"):
        save(picture(report, kind), tmp_path / f"{kind}.svg")
    assert f"{collection(report)['features'][1]['properties']['road']}" == name
    page = page_of([report], library="")
    assert json.dumps(name).replace("<", "\\u003c") in page and page.count("<script>") == 3 and "<!--" not in page
    status, out, err = tool("table", "s.report", "--by", "road")
    assert status == 0 and is_text(out)


@pytest.mark.parametrize("name", HIDDEN.values(), ids=HIDDEN)
@pytest.mark.parametrize("place", ["title", "roads", "gates", "notes"])
def test_what_is_not_shown_is_no_name_of_a_study(tool, tmp_path, name, place):
    wrong = {"title": ('title = "c"', "title = " + json.dumps(name)), "roads": ("[roads.c]", f"[roads.{json.dumps(name)}]"),
             "gates": ("[gates.in]", f"[gates.{json.dumps(name)}]"), "notes": ('notes = ["c"]', f"notes = [{json.dumps(name)}]")}
    (tmp_path / "s.toml").write_text(study("c").replace(*wrong[place]), encoding="utf-8")
    status, out, err = tool("build", "s.toml")
    assert (status, out) == (2, "") and err.count("\n") == 1 and is_text(err) and f"s.toml: {place}" in err
    with pytest.raises(Problem) as refused:
        read_study("s.toml")
    assert is_visible(str(refused.value))  # for who calls from Python


def test_stations_of_detectors(tool, tmp_path):
    (tmp_path / "d.csv").write_text("time,station,flow (vehicles/h)\n" + "".join(f"06:0{i},a\x1b[2J\u202e,60\n" for i in range(9)), encoding="utf-8")
    status, out, err = tool("detectors", "d.csv", "-o", "e.csv")
    assert status == 0 and is_text(out) and "a\\x1b[2J\\u202e" in out and is_text((tmp_path / "e.csv").read_text())
