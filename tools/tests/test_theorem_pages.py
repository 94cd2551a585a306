"""The theorem as pages: each mode's contract with every definition behind it, once, with links both ways."""

import re

import pytest
from built_pages import Sections
from reading import MODES as COUNTED_MODES
from reading import of_mode
from theorem_order import MODES, reached
from theorem_pages import FOLDER, anchor, made_pages, readings
from theorem_sources import Place, Sources

from .examples import TOOLS

ROWS = "crates/flow_model/specs/Rows.antt"
NEXT_ROW = """<div class="definition" id="flow_model-Rows-next_row">
<p>The row of cell i after step t, by its row before and what each cell held before</p>
<pre><code>unfoldable pub next_row : """


@pytest.fixture(scope="module")
def sources():
    return Sources()


@pytest.fixture(scope="module")
def made(sources):
    return made_pages(sources)


def parsed(text):
    sections = Sections()
    sections.feed(text)
    return sections


def test_there_is_a_page_for_each_mode_in_the_order_of_the_count(made):
    assert list(made) == [FOLDER / f"{mode}.md" for mode in MODES]
    assert list(MODES) == [mode for mode, _, _ in COUNTED_MODES]


def test_a_page_has_each_definition_that_its_texts_rest_on(made, sources):
    for mode, crate, name in COUNTED_MODES:
        shown = {place for place in reached(sources, mode) if place.is_ours}
        of_texts = of_mode(sources.definitions, mode, sources.definitions.path(f"Rattle.{crate}.specs.{name}"))
        assert {Place(str(path), word) for path, word in of_texts.definitions} <= shown, mode
    names = [name for text in made.values() for name in re.findall(r'class="definition" id="([^"]+)"', text)]
    assert len(names) == len(set(names)) > 400
    assert {anchor(place) for mode in MODES for place in reached(sources, mode) if place.is_ours} <= set(names)


def test_each_link_leads_to_a_definition_and_each_name_has_one_place(made):
    pages = {path.with_suffix(".html").name: parsed(text) for path, text in made.items()}
    for name, page in pages.items():
        for link in page.links:
            file, _, there = link.partition("#")
            assert there in pages[file or name].names, (name, link)


def test_a_definition_has_its_comment_its_text_and_who_names_it(made):
    run = made[FOLDER / "run.md"]
    assert NEXT_ROW in run
    block = run[run.index(NEXT_ROW):]
    assert 'href="#flow_model-Rows-moved_row">moved_row</a>' in block[:block.index("</div>")]
    moved = run[run.index('id="flow_model-Rows-moved_row"'):]
    named = moved[moved.index('class="named">Named by '):moved.index("</div>")]
    assert '<a href="#flow_model-Rows-next_row">next_row</a>' in named


def test_what_names_stands_before_what_is_named(made):
    run = made[FOLDER / "run.md"]
    begins = [run.index(f'id="{name}"') for name in (
        "ctm_call-call-ctm", "run_modes-RunMode-IsRunText", "delay_report-Report-report_of", "flow_model-State-state_at",
        "flow_model-Rows-next_row", "flow_model-Flows-outflow", "ordinary_link-Flows-sending_flow")]
    assert begins == sorted(begins)


def test_the_contract_begins_the_first_page_and_what_is_made_stands_with_its_mode(made):
    assert made[FOLDER / "run.md"].index("## The contract of the call") < made[FOLDER / "run.md"].index("crates/call_ending")
    assert "crates/net_make/" not in made[FOLDER / "run.md"]
    assert "crates/net_make/specs/Made.antt" in made[FOLDER / "sample.md"]


def test_each_word_of_the_toolchain_has_its_reading_and_no_other(sources):
    words = {place.name for mode in MODES for place in reached(sources, mode) if not place.is_ours}
    assert words == set(readings())


def test_a_struct_of_private_fields_shows_what_contracts_see(sources):
    taken = sources.item(Place("crates/region_slots/src/taken.rt", "Taken"))
    assert taken.text.endswith("{ .. }\n// Contracts see it as a MomentValue.")
    assert Place("crates/region_slots/specs/Moments.antt", "MomentValue") in {place for _, _, place in taken.links}


def test_a_definition_by_modes_has_the_lines_of_the_page_s_mode(made):
    run, watch = made[FOLDER / "run.md"], made[FOLDER / "watch.md"]
    block = run[run.index('id="ctm_call-Answer-IsTextBy"'):]
    block = block[:block.index("</div>")]
    assert "IsRunText" in block and "IsWatchText" not in block and "-- and lines on other modes" in block
    lines = watch[watch.index("## Lines on this mode"):]
    assert re.search(r'Of <a href="run.html#ctm_call-Answer-IsTextBy">IsTextBy</a>:</p>\n<pre><code>.*Watch.*IsWatchText', lines)
