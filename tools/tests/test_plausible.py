"""What in a study can hardly be meant, to the edges of the ranges that tools/README.md has."""

import pytest

from ctmtools import build, read_study
from ctmtools.study.layout import Layout
from ctmtools.study.plausible import implausible
from ctmtools.study.scale import Rounding

from .corridor import HEAD

ROAD = '[roads.m]\nlength = {length}\nlanes = {lanes}\n[gates.g]\ninto = "m"\ndemand = 100\n[exits.x]\nfrom = "m"\n'


def lines(tmp_path, lanes=2, length=10, step=10, **keys):
    head = HEAD.format(end="07:00").replace("step = 10", f"step = {step}")
    for key, value in keys.items():
        old = next(line for line in head.splitlines() if line.startswith(key))
        head = head.replace(old, f"{key} = {value}")
    path = tmp_path / "study.toml"
    path.write_text(head + ROAD.format(length=length, lanes=lanes))
    study = read_study(path).scenario
    return list(implausible(study, Layout(study, Rounding())))


# On a road of one lane, or of two, a key with the least and the most that a road has.
@pytest.mark.parametrize("lanes, key, least, most", [
    (1, "free_flow_speed", 15, 160), (2, "free_flow_speed", 40, 160), (1, "wave_speed", 8, 40), (1, "jam_density", 70, 250),
    (1, "saturation_flow", 500, 3000)])
def test_the_ranges_of_a_lane(tmp_path, lanes, key, least, most):
    others = {"wave_speed": 10} if key == "free_flow_speed" else {}
    told = [lines(tmp_path, lanes, **{**others, key: value}) for value in (least, most, least - 0.1, most + 0.1)]
    assert told[:2] == [[], []] and all(len(one) == 1 and one[0].startswith(f"roads.m.{key}: ") for one in told[2:])
    assert f"is hardly what a road has, {least} to {most:,} " in told[2][0] and f"{least - 0.1:g} " in told[2][0]


def test_a_road_of_more_than_200_km(tmp_path):
    assert not lines(tmp_path, length=200)
    line, = lines(tmp_path, length=250)
    assert line == 'roads.m.length: 250 km, which makes 1,000 cells; are metres meant? Then write "250 m"'


def test_more_than_20_000_cells(tmp_path):
    # In a step of 0.4 s a cell has 10 m.
    assert not lines(tmp_path, length=200, step=0.4)
    path = tmp_path / "study.toml"
    text = path.read_text().replace('[gates.g]', '[roads.n]\nlength = 0.01\nlanes = 1\n[gates.g]').replace('from = "m"', 'from = "n"')
    path.write_text(text + '[[links]]\nfrom = "m"\ninto = "n"\n')
    study = read_study(path).scenario
    line, = implausible(study, Layout(study, Rounding()))
    assert line.startswith("the study has 20,001 cells, which take long; a longer step gives fewer: with 0.4 s ")


def test_the_lines_are_warnings_of_a_built_study(tmp_path):
    lines(tmp_path, wave_speed=41)
    made = build(read_study(tmp_path / "study.toml"))
    assert any("roads.m.wave_speed: 41 km/h is hardly what a road has, 8 to 40 km/h" in str(line) for line in made.warnings)
