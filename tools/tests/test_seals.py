"""Kept files carry the seal of their content: one that was changed is refused, with its place, the cause and a cure."""

import json
import re

import pytest

from ctmtools.network_file.checksums import checksum
from ctmtools.many_runs.kept_rows import KeptValues
from ctmtools.moments.moment import Moment, Row, kept_state, read_moment, state_text
from ctmtools.runs.stretches import kept_moment
from ctmtools.network_file.network import network_of
from ctmtools.problem import Problem
from ctmtools.files.seals import sealed_text, unsealed_text
from ctmtools.sweeps.sweeping import SweptRows
from ctmtools.uncertainty.results import BESIDE, DRAWS, read_results
from ctmtools.units import Units, read_units, units_text

from .examples import EXAMPLES

NETWORK = b"ctm,1\nsteps,4\ngate,g,9,0\nexit,x,9\nlink,g,x\n"
MOMENT = Moment([2], [Row(0, 1, 2, 1, 7, 1), Row(0, 1, 1, 0, 0, 0)], NETWORK)


@pytest.mark.parametrize("content", [b"", b"one", b"one\n", b"one\n\n", b"# seal " + 64 * b"0" + b"\n"])
def test_a_text_is_read_again_as_it_was(content):
    assert unsealed_text(sealed_text(content), "a") == content


def test_a_text_without_a_seal_has_none():
    assert unsealed_text(b"one\n", "a") is None


def test_a_changed_checkpoint_is_refused(tmp_path):
    path = tmp_path / "a.saved"
    path.write_bytes(sealed_text(MOMENT.text).replace(b",7,", b",8,"))
    with pytest.raises(Problem, match=r"a\.saved: it was changed after it was written.*take it away, and the run begins anew"):
        kept_moment(path, network_of(NETWORK), Units())
    path.write_bytes(sealed_text(MOMENT.text))
    assert kept_moment(path, network_of(NETWORK), Units()) == MOMENT
    assert read_moment(str(path)) == MOMENT


def test_a_saved_run_without_a_seal_is_no_checkpoint(tmp_path):
    path = tmp_path / "a.saved"
    path.write_bytes(MOMENT.text)
    with pytest.raises(Problem, match=r"a\.saved: stands there and isn't whole"):
        kept_moment(path, network_of(NETWORK), Units())
    assert read_moment(str(path)) == MOMENT  # as `ctm save` writes it


def test_a_run_refuses_a_changed_checkpoint(tool, tmp_path, program):
    status, _, _ = tool("build", EXAMPLES / "bottleneck.toml")
    network = (tmp_path / "bottleneck.csv").read_bytes()
    rows = [Row(0, 0, 0, 0, 0, 0)] * len(network_of(network).cells)
    saved = sealed_text(Moment([360], rows, network).text)
    (tmp_path / "bottleneck.saved").write_bytes(saved.replace(b"row,0,0,0,0,0,0", b"row,0,0,0,0,9,0", 1))
    status, out, err = tool("run", "--checkpoint", "1 h", EXAMPLES / "bottleneck.toml")
    assert status == 2 and out == "" and "bottleneck.saved: it was changed after it was written" in err


def test_a_changed_state_of_a_run_is_refused(tmp_path):
    path = tmp_path / "a.meter.json"
    path.write_text(state_text("mark", MOMENT, reached=3))
    assert kept_state(path, "mark")["reached"] == 3
    path.write_text(path.read_text().replace('"reached": 3', '"reached": 4'))
    with pytest.raises(Problem, match=r"a\.meter\.json: what is kept of the run was changed.*take it away"):
        kept_state(path, "mark")


def test_a_changed_row_of_a_search_is_refused(tmp_path):
    path = tmp_path / "rows.csv"
    kept = KeptValues(path, "mark", ["search", "point", "value"])
    kept.put("one", "1.5")
    kept.put("two", "2.5")
    kept.kept.file.close()
    assert KeptValues(path, "mark", ["search", "point", "value"]).values == {"one": "1.5", "two": "2.5"}
    path.write_text(path.read_text().replace("2.5", "0.5"))
    with pytest.raises(Problem, match=r"rows\.csv: row 3 was changed"):
        KeptValues(path, "mark", ["search", "point", "value"])


@pytest.mark.parametrize("content", [b"mark,one,\xff,3\n", b"mark," + b"9" * 200_000 + b",3\n", None], ids=["letters", "long", "folder"])
@pytest.mark.parametrize("read", [lambda path: KeptValues(path, "mark", ["search", "point", "value"]), lambda path: SweptRows(path, ["green"], [])],
                         ids=["search", "sweep"])
def test_kept_rows_that_are_no_table_are_refused(tmp_path, content, read):
    path = tmp_path / "rows.csv"
    if content is None:
        path.mkdir()
    else:
        read(path).kept.file.close()
        path.write_bytes(path.read_bytes() + content)
    with pytest.raises(Problem, match=r"rows\.csv: (isn't a table as these tools write it; take the file away|is a directory)"):
        read(path)


def test_a_changed_row_of_a_sweep_is_refused(tmp_path):
    path, mark = tmp_path / "results.csv", 16 * "a"
    results = SweptRows(path, ["green"], [mark])
    measured = dict.fromkeys(results.columns[1:-1], 1.5) | {"rounded": "", "error": "", "longest_queue_km": None}
    results.put({"green": 20}, measured, mark)
    results.kept.file.close()
    assert SweptRows(path, ["green"], [mark]).done == {mark}
    path.write_text(path.read_text().replace("1.5", "0.5", 1))
    with pytest.raises(Problem, match=r"results\.csv: line 2 was changed"):
        SweptRows(path, ["green"], [mark])


def test_changed_units_are_refused_and_those_by_hand_are_not(tmp_path):
    path = tmp_path / "a.units.json"
    path.write_text(units_text(Units(title="A title", step=10.0, start=0.0, cells={"a": {"road": "m", "from_km": 0.0, "to_km": 0.25}})))
    assert read_units(path).step == 10
    path.write_text(path.read_text().replace("10.0", "20.0"))
    with pytest.raises(Problem, match=r"a\.units\.json: it was changed after it was written.*take its line `seal` away"):
        read_units(path)
    path.write_text(re.sub(r',\n  "seal": "[0-9a-f]+"', "", path.read_text()))
    assert read_units(path).step == 20


def test_changed_terms_of_draws_are_refused(tool, tmp_path, program):
    status, _, err = tool("draw", EXAMPLES / "uncertain.toml", "--runs", "4", "-o", "drawn")
    assert status == 0, err
    terms = json.loads((tmp_path / "drawn" / BESIDE).read_text())
    assert terms["draws_checksum"] == checksum((tmp_path / "drawn" / DRAWS).read_bytes())
    (tmp_path / "drawn" / BESIDE).write_text(json.dumps({**terms, "seed": 12345}))
    with pytest.raises(Problem, match=f"{BESIDE}: it was changed after it was written"):
        read_results(tmp_path / "drawn")
