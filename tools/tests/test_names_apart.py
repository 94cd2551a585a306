"""Names in a picture: the room that is kept around each, and which are left out."""

import numpy
import pytest

from ctmtools.plots.figure import figure
from ctmtools.plots.labels import Label, Place, _written, write


@pytest.fixture
def axes():
    """Axes whose layout stays."""
    found = figure()[1]
    found.set_xlim(0, 1)
    found.set_ylim(0, 1)
    found.figure.draw_without_rendering()
    return found


def test_two_dots_are_kept_round_a_name(axes):
    annotation, box = _written(axes, Label("name", (0.5, 0.5), []), Place(0, 0))
    drawn = annotation.get_window_extent(axes.figure.canvas.get_renderer())
    assert (box.x0, box.y0, box.x1, box.y1) == pytest.approx((drawn.x0 - 2, drawn.y0 - 2, drawn.x1 + 2, drawn.y1 + 2))


def test_a_name_takes_the_first_place_that_is_free(axes):
    places = [Place(0, 0), Place(0, 30)]
    labels = [Label(name, (0.5, 0.5), places) for name in ("one", "two", "three")]
    assert [label.text for label in write(axes, labels)] == ["three"]
    assert sorted((text.get_text(), text.xyann) for text in axes.texts) == [("one", (0, 0)), ("two", (0, 30))]


def test_a_name_stands_within_the_figure(axes):
    assert write(axes, [Label("out", (0.5, 0.5), [Place(5000, 0)])]) and not axes.texts


def test_a_name_shuns_points_and_gives_up_where_it_stands_over_too_many(axes):
    (x, y), = axes.transData.transform([(0.5, 0.5)])
    points = numpy.array([(x, y), (x + 1, y), (x, y + 40 * 120 / 72)])
    places = [Place(0, 0), Place(0, 40)]
    assert not write(axes, [Label("a", (0.5, 0.5), places)], points) and axes.texts[0].xyann == (0, 40)
    for most, left in ((0, 1), (1, 0), (None, 0)):
        for text in list(axes.texts):
            text.remove()
        assert len(write(axes, [Label("a", (0.5, 0.5), places, most_crossed=most)], points)) == left
