"""Files of other programs that are cut, nested beyond all measure, or in an encoding that nobody knows: a line with the file, status 2."""

import gzip

import pytest

from ctmtools import Problem, read_study
from ctmtools.detectors.table import text_of

DEEP = 100_000
# A stored block of deflate whose length and its complement differ, behind the head of gzip.
CORRUPT = gzip.compress(b"")[:10] + b"\x01\x05\x00\x00\x00hello" + bytes(8)
XML = {"encoding": b'<?xml version="1.0" encoding="martian"?><net/>', "many bytes": b'<?xml version="1.0" encoding="utf-7"?><net/>',
       "cut": b"<net><edge", "empty": b"", "zeros": bytes(100)}


@pytest.mark.parametrize("text", ["a = " + "[" * DEEP, "a = " + "{b=" * DEEP, "a = " + "[" * DEEP + "]" * DEEP, "[" + "a." * DEEP + "a]",
                                  "a." * DEEP + "a = 1", "'a b' . " * DEEP + "a = 1"], ids=["lists", "tables", "closed", "head", "key", "quoted"])
def test_a_deep_study(tool, tmp_path, text):
    (tmp_path / "deep.toml").write_text(text)
    status, out, err = tool("build", "deep.toml")
    assert (status, out) == (2, "") and err.startswith("ctm-tools: deep.toml: ") and err.count("\n") == 1 and len(err) < 300
    with pytest.raises(Problem):
        read_study(tmp_path / "deep.toml")


@pytest.mark.parametrize("content", XML.values(), ids=XML)
@pytest.mark.parametrize("words", [["sumo"], ["osm"]], ids=" ".join)
def test_no_xml(tool, tmp_path, content, words):
    (tmp_path / "m.osm").write_bytes(content)
    status, out, err = tool("import", *words, "m.osm")
    assert (status, out) == (2, "") and err.startswith("ctm-tools: m.osm: ") and err.count("\n") == 1


@pytest.mark.parametrize("content", [CORRUPT, gzip.compress(b"<net>" + b"<a/>" * 99)[:-20], b"no gzip", gzip.compress(XML["encoding"])],
                         ids=["corrupt", "cut", "other", "encoding"])
@pytest.mark.parametrize("name, words", [("m.net.xml.gz", ["sumo"]), ("m.osm.gz", ["osm"])])
def test_a_broken_archive(tool, tmp_path, content, name, words):
    (tmp_path / name).write_bytes(content)
    status, out, err = tool("import", *words, name)
    assert (status, out) == (2, "") and err.startswith(f"ctm-tools: {name}: ") and err.count("\n") == 1


def test_an_archive_that_is_broken_behind_its_beginning(tool, tmp_path):
    whole = gzip.compress(b"<net>" + b"".join(b"<edge id='%d'/>" % i for i in range(99_999)) + b"</net>")
    (tmp_path / "m.net.xml.gz").write_bytes(whole[:len(whole) // 2] + CORRUPT + whole[len(whole) // 2 + 40:])
    status, out, err = tool("import", "sumo", "m.net.xml.gz")
    assert (status, out) == (2, "") and err.startswith("ctm-tools: m.net.xml.gz: ") and err.count("\n") == 1


def test_detectors_in_a_broken_archive(tmp_path):
    (tmp_path / "d.csv.gz").write_bytes(CORRUPT)
    with pytest.raises(Problem, match="d.csv.gz: is packed by gzip, and isn't whole"):
        text_of(tmp_path / "d.csv.gz")


def test_a_folder_in_place_of_a_file(tool, tmp_path):
    (tmp_path / "f.toml").mkdir()
    (tmp_path / "f.units.json").mkdir()
    for words in (["build", "f.toml"], ["import", "sumo", "f.toml"], ["import", "osm", "f.toml"], ["import", "gmns", "f.toml"], ["lint", "f.csv"],
                  ["table", "f.report"], ["detectors", "f.toml"], ["sweep", "f.toml", "--vary", "demand=1"]):
        status, out, err = tool(*words)
        assert (status, out) == (2, "") and err.count("\n") == 1, words


def test_a_folder_that_can_not_be_written_to(tool, plain, tmp_path):
    (tmp_path / "s.toml").write_text('step = 10\nduration = "1 h"\nroads.m = {length = 1, lanes = 1}\nlane = {free_flow_speed = 72, '
                                     'wave_speed = 18, jam_density = 150, saturation_flow = 1800}\ngates.g = {into = "m"}\n')
    for words in (["build", "s.toml", "-o", "/proc/x.csv"], ["sweep", "s.toml", "--vary", "demand=1", "-o", "/proc/x"],
                  ["draw", "s.toml", "--runs", "1", "-o", "/proc/x"]):
        status, out, err = tool(*words)
        assert status == 2 and err.count("\n") == 1, words
