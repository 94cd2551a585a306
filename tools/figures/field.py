"""The picture of the shared field: a turn and a shot in time, by two threads beside each other, with the words that they share."""

import re
from pathlib import Path
from typing import NamedTuple

from .drawing import Drawing

WIDTH, TOP, ROW, CELL = 1040, 70, 34, 52
LEFT, WORDS = 330, ("claim", "step", "even", "odd")


class Moment(NamedTuple):
    """What one thread does at a moment: its words, the word that it loads or stores, and the value after it."""

    thread: str
    told: str
    region: str = ""
    word: str = ""
    stored: int | None = None
    call: str = ""  # the function of the crate that makes the atomic step


# Region a is at step 4 and its neighbour b too; the number in a row is the step whose occupancies stand there.
MOMENTS = [
    Moment("A", "takes a: its claim word was 0", "a", "claim", 1, "try_claim"),
    Moment("A", "loads a's step: 4", "a", "step", None, "load_own_step"),
    Moment("B", "finds a's claim word 1, lets others go on", "a", "claim", None, "try_claim"),
    Moment("A", "tells the observer: a is held at 4"),
    Moment("A", "loads b's step: 4, so b is cleared", "b", "step", None, "load_neighbour_step"),
    Moment("A", "loads b's row of step 4", "b", "even", None, "load_border_word"),
    Moment("A", "advances a: no word is touched"),
    Moment("A", "stores a's row of step 5", "a", "odd", 5, "store_border_word"),
    Moment("A", "publishes step 5", "a", "step", 5, "publish_step"),
    Moment("A", "frees a", "a", "claim", 0, "free"),
    Moment("A", "tells the observer: a is freed at 5"),
    Moment("B", "tries again and takes a", "a", "claim", 1, "try_claim"),
    Moment("B", "loads a's step: 5", "a", "step", None, "load_own_step"),
    Moment("B", "takes b", "b", "claim", 1, "try_claim"),
    Moment("B", "loads b's step: 4", "b", "step", None, "load_own_step"),
    Moment("B", "loads word 0: a at 5, b at 4, together", "a", "claim", None, "sees_together"),
    Moment("B", "copies a and b to the room"),
    Moment("B", "frees b", "b", "claim", 0, "free"),
    Moment("B", "frees a", "a", "claim", 0, "free"),
]
AT_FIRST = {(region, word): value for region in "ab" for word, value in zip(WORDS, (0, 4, 4, 3))}


def field_picture(top: Path) -> str:
    """The picture as SVG."""
    known = set(re.findall(r"fn (\w+)", "".join(path.read_text() for path in (top / "crates/region_slots/src").glob("*.rt"))))
    unknown = {moment.call for moment in MOMENTS} - known - {""}
    if unknown:
        raise ValueError(f"region_slots has no {', '.join(sorted(unknown))}")
    drawing = Drawing(WIDTH, TOP + ROW * (len(MOMENTS) + 1) + 10, "A turn and a shot, by two threads, with the words that they share")
    heads(drawing)
    words = dict(AT_FIRST)
    draw_words(drawing, TOP, words, None)
    for number, moment in enumerate(MOMENTS, 1):
        draw_moment(drawing, TOP + ROW * number, moment, words)
    return drawing.text()


def heads(drawing: Drawing) -> None:
    right = LEFT + CELL * 8
    drawing.words(LEFT - 20, 24, "thread A: a turn on region a", anchor="end")
    drawing.words(right + 20, 24, "thread B: a shot of a and b", anchor="start")
    for number, region in enumerate("ab"):
        drawing.words(LEFT + CELL * (4 * number + 2), 24, f"the words of region {region}")
        for place, word in enumerate(WORDS):
            drawing.words(LEFT + CELL * (4 * number + place + 0.5), 52, word, "faint", size=12)
    drawing.words(LEFT - 20, TOP + 19, "time goes down", "faint", "end", 12)


def draw_moment(drawing: Drawing, y: float, moment: Moment, words: dict[tuple[str, str], int]) -> None:
    """A row: what the thread does, an arrow to or from its word, and all words after it."""
    touched = (moment.region, moment.word) if moment.word else None
    if touched and moment.stored is not None:
        words[touched] = moment.stored
    draw_words(drawing, y, words, touched if moment.stored is not None else None)
    left, right = moment.thread == "A", LEFT + CELL * 8
    drawing.words(LEFT - 20 if left else right + 20, y + 24, moment.told, anchor="end" if left else "start")
    if touched:
        x = LEFT + CELL * (4 * "ab".index(moment.region) + WORDS.index(moment.word) + (0 if left else 1))
        edge = (LEFT - 14) if left else right + 14
        inner = x + (6 if left else -6)
        ends = (edge, inner) if moment.stored is not None or moment.call == "try_claim" else (inner, edge)
        drawing.arrow(ends[0], y + 29, ends[1])


def draw_words(drawing: Drawing, y: float, words: dict[tuple[str, str], int], new: tuple[str, str] | None) -> None:
    for place, (word, value) in enumerate(words.items()):
        drawing.box(LEFT + CELL * place + 3, y + 2, CELL - 6, 22, "new" if word == new else "old")
        drawing.words(LEFT + CELL * (place + 0.5), y + 18, str(value))
