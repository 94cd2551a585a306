"""What commands write over: files of their own sort, and nothing else without `--force`."""

import shutil

import pytest

from .examples import EXAMPLES

HEAD = "time,place,count\n06:00,a,12\n"  # a table of others


@pytest.fixture
def beside(reports, tmp_path):
    """A report in the folder of the call, with its network and units."""
    for path in reports("arterial-0").parent.glob("arterial-0.*"):
        shutil.copy(path, tmp_path)
    return tmp_path


@pytest.mark.parametrize("words", [
    ("table", "arterial-0.report"), ("table", "arterial-0.report", "--by", "road"), ("table", "arterial-0.report", "--totals"),
    ("travel-time", "arterial-0.report"), ("compare", "arterial-0.report", "arterial-0.report")])
def test_a_table_is_not_written_over_a_network(tool, beside, words):
    before = (beside / "arterial-0.csv").read_bytes()
    status, out, err = tool(*words, "-o", "arterial-0.csv")
    assert (status, out) == (2, "") and err == ("ctm-tools: arterial-0.csv: stands there, and isn't what this command makes; name another file, "
                                                "or say --force\n")
    assert (beside / "arterial-0.csv").read_bytes() == before
    for name in ("arterial-0.report", "arterial-0.units.json"):
        assert tool(*words, "-o", name)[0] == 2
    # A new file is written, and written again; with --force that of others is too.
    assert [tool(*words, "-o", "own.csv")[0] for _ in range(2)] == [0, 0]
    (beside / "others.csv").write_text(HEAD)
    assert tool(*words, "-o", "others.csv")[0] == 2 and (beside / "others.csv").read_text() == HEAD
    assert tool(*words, "-o", "others.csv", "--force")[0] == 0 and (beside / "others.csv").read_text() != HEAD
    assert tool(*words, "-o", "arterial-0.csv")[0] == 2  # a later call isn't forced


@pytest.mark.parametrize("words, name", [
    (("plot", "time-space", "arterial-0.report"), "p.png"), (("plot", "queue", "arterial-0.report"), "p.svg"),
    (("plot", "queue", "arterial-0.report"), "p.pdf"), (("report", "arterial-0.report"), "p.html"),
    (("export", "geojson", "arterial-0.report"), "p.geojson"), (("table", "arterial-0.report"), "p.xlsx")])
def test_a_file_of_each_sort_is_written_over_its_own_and_none_of_others(tool, beside, words, name):
    assert [tool(*words, "-o", name)[0] for _ in range(2)] == [0, 0]
    others = b"<html><body>notes</body></html>\n"
    (beside / name).write_bytes(others)
    assert tool(*words, "-o", name)[0] == 2 and (beside / name).read_bytes() == others
    assert tool(*words, "-o", name, "--force")[0] == 0 and (beside / name).read_bytes() != others


@pytest.mark.parametrize("words, name", [
    (("plot", "queue", "arterial-0.report"), "arterial-0-queue.png"), (("report", "arterial-0.report"), "arterial-0.html"),
    (("export", "geojson", "arterial-0.report"), "arterial-0.geojson")])
def test_a_file_of_others_at_the_usual_place_stays(tool, beside, words, name):
    (beside / name).write_text(HEAD)
    assert tool(*words)[0] == 2 and (beside / name).read_text() == HEAD


def test_a_report_is_not_written_over_a_study_beside_its_units(tool, tmp_path):
    shutil.copy(EXAMPLES / "bottleneck.toml", tmp_path)
    (tmp_path / "bottleneck.units.json").write_text("{}")
    status, _, err = tool("run", "bottleneck.toml", "-o", "bottleneck.toml")
    assert status == 2 and "bottleneck.toml: stands there and wasn't made by ctm-tools" in err
    assert (tmp_path / "bottleneck.toml").read_bytes() == (EXAMPLES / "bottleneck.toml").read_bytes()


def test_an_import_is_not_written_over_a_study_of_others(tool, tmp_path):
    (tmp_path / "n.toml").write_text('title = "mine"\n')
    (tmp_path / "n.net.xml").write_text("<net/>")
    status, _, err = tool("import", "sumo", "n.net.xml", "-o", "n.toml")
    assert status == 2 and err.startswith("ctm-tools: n.toml: stands there")


@pytest.mark.parametrize("words, name", [(("sweep", "--vary", "gates.on.capacity=5000"), "table.csv"), (("draw", "--runs", "2"), "summary.csv")])
def test_a_folder_with_a_file_of_others_is_refused_before_the_runs(tool, tmp_path, words, name):
    (tmp_path / name).write_text(HEAD)
    status, _, err = tool(words[0], EXAMPLES / "uncertain.toml", *words[1:], "-o", ".")
    assert status == 2 and err.startswith(f"ctm-tools: {name}: stands there") and [path.name for path in tmp_path.iterdir()] == [name]
