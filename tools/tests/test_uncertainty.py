"""What is uncertain: distributions against scipy's, draws that depend on seed, number and key alone, and entries that are refused."""

from fractions import Fraction
from types import SimpleNamespace

import numpy
import pandas
import pytest
from scipy import stats

from ctmtools.problem import Problem
from ctmtools.study.reading import read_scenario, read_values
from ctmtools.study.keys import gate_of_factor
from ctmtools.report.travel import trips
from ctmtools.study.distribution import Given, Lognormal, Normal, Triangular, Uniform
from ctmtools.uncertainty.incident import drawn, happened
from ctmtools.uncertainty.reliability import (DELAY, TRAVEL, buffer_index, of_mean, of_percentile, of_probability, planning_time_index,
                                              spread, within)
from ctmtools.uncertainty.plan import with_drawn
from ctmtools.uncertainty.messages import plan_lines
from ctmtools.uncertainty.results import Draws
from ctmtools.uncertainty import task as draw_task
from ctmtools.uncertainty.task import Asked, DrawTask, figures, measure
from ctmtools.study.uncertainty import Varying

from .corridor import corridor
from .examples import EXAMPLES
from .plain_reports import reported

SCORES = [-3.0, -1.2815515655446004, -0.3, 0.0, 0.5, 1.6448536269514722, 2.7]
SCALE = numpy.sqrt(numpy.log(1 + 0.25**2))  # of a lognormal distribution whose deviation is a quarter of its mean
BASE = (EXAMPLES / "uncertain.toml").read_text().partition("[[uncertain]]")[0]


def uncertain(folder, *entries, base=BASE):
    """What is uncertain of the example with other entries, which are told in TOML."""
    path = folder / "s.toml"
    path.write_text(base + "".join(f"[[uncertain]]\n{entry}\n" for entry in entries))
    return read_scenario(path).uncertain


@pytest.mark.parametrize("ours, theirs", [
    (Normal(5, 2, -1e9, 1e9), stats.norm(5, 2)),
    (Normal(1, 0.5, 0.4, 1.2), stats.truncnorm(-1.2, 0.4, 1, 0.5)),
    (Lognormal(8, 2), stats.lognorm(SCALE, scale=8 * numpy.exp(-SCALE**2 / 2))),
    (Uniform(2, 7), stats.uniform(2, 5)),
    (Triangular(2, 3, 7), stats.triang(0.2, 2, 5)),
    (Triangular(2, 2, 7), stats.triang(0, 2, 5)),
    (Given((1.0, 2.0, 4.0), (2.0, 1.0, 1.0)), stats.rv_discrete(values=([1, 2, 4], [0.5, 0.25, 0.25])))],
    ids=["normal", "cut normal", "lognormal", "uniform", "triangular", "triangular from its mode on", "given"])
def test_a_value_lies_as_high_as_its_score(ours, theirs):
    for score in SCORES:
        below = stats.norm.cdf(score) + (1e-12 if isinstance(ours, Given) and score == 0 else 0)  # a step belongs to what follows
        assert ours.at(score) == pytest.approx(theirs.ppf(below), rel=1e-9)


@pytest.mark.parametrize("one", [Normal(2160, 0, 0, 1e9), Lognormal(2160, 0), Uniform(2160, 2160), Triangular(2160, 2160, 2160)])
def test_without_variance_there_is_one_value(one):
    assert {f"{one.at(score):.9g}" for score in SCORES} == {"2160"}


def test_a_draw_depends_on_the_seed_its_number_and_the_key_alone(tmp_path):
    demand, lanes = 'key = "demand"\nfactor = "normal"\nmean = 1\ndeviation = 0.1', 'key = "roads.m.lanes"\nvalue = "given"\nvalues = [2, 3]'
    alone = [drawn(uncertain(tmp_path, demand), 1, number)["demand"] for number in range(1, 9)]
    beside = [drawn(uncertain(tmp_path, lanes, demand), 1, number) for number in range(1, 9)]
    assert [row["demand"] for row in beside] == alone and len(set(alone)) == 8
    assert {row["roads.m.lanes"] for row in beside} == {2, 3}
    assert alone != [drawn(uncertain(tmp_path, demand), 2, number)["demand"] for number in range(1, 9)]


@pytest.mark.parametrize("correlation", [0.8, -0.5, 1.0])
def test_keys_vary_together_as_their_correlation_says(tmp_path, correlation):
    entries = [f'key = "{key}"\nvalue = "normal"\nmean = {mean}\ndeviation = 10' for key, mean in
               (("roads.m.saturation_flow", 2000), ("lane.jam_density", 140))]
    found = uncertain(tmp_path, *entries, f'keys = ["roads.m.saturation_flow", "lane.jam_density"]\ncorrelation = {correlation}')
    rows = numpy.array([[float(value) for value in drawn(found, 1, number).values()] for number in range(1, 2001)])
    assert numpy.corrcoef(rows.T)[0, 1] == pytest.approx(correlation, abs=1e-6 + 4 * (1 - correlation**2) / 2000**0.5)
    for column, mean in enumerate((2000, 140)):
        assert rows[:, column].mean() == pytest.approx(mean, abs=4 * 10 / 2000**0.5)
        assert rows[:, column].std() == pytest.approx(10, rel=4 / (2 * 2000) ** 0.5)


def test_what_is_drawn_stands_in_the_study(tmp_path):
    found = uncertain(tmp_path, 'key = "roads.m.length"\nfactor = "given"\nvalues = [1.1]',
                      'key = "roads.m.sections.lanes"\nvalue = "given"\nvalues = [1]', base=BASE.replace("17.5", '"17500 m"'))
    made = with_drawn(read_values(tmp_path / "s.toml"), found.varying, drawn(found, 1, 1))
    assert made["roads"]["m"]["length"] == "19250.000000000 m" and made["roads"]["m"]["sections"] == [{"from": Fraction(15), "lanes": 1}]


def test_one_of_a_list_is_drawn_by_its_number_from_1():
    values = {"signals": [{"offset": 1}, {"offset": 2}]}
    varying = [Varying("signals.2.offset", False, Given((7,), (1,)))]
    assert with_drawn(values, varying, {"signals.2.offset": 7}) == {"signals": [{"offset": 1}, {"offset": 7}]}
    for number in (0, 3):
        with pytest.raises(Problem, match="there are 2 of these"):
            with_drawn(values, [Varying(f"signals.{number}.offset", False, Given((7,), (1,)))], {f"signals.{number}.offset": 7})


def test_values_that_are_given_may_be_texts(tmp_path):
    found = uncertain(tmp_path, 'key = "roads.m.length"\nvalue = "given"\nvalues = ["17500 m"]')
    assert drawn(found, 1, 1) == {"roads.m.length": "17500 m"}


@pytest.mark.parametrize("key, wanted", [("demand", True), ("demand.on", True), ("demand.on.flow", False), ("gates.on.demand", False)])
def test_the_demand_of_all_gates_or_of_one_is_multiplied_once_the_study_is_read(key, wanted):
    assert (gate_of_factor(key) is not None) == wanted


NORMAL = 'factor = "normal"\nmean = 1\ndeviation = 0.1'


@pytest.mark.parametrize("entry, wanted", [
    (f'{NORMAL}', r"uncertain\[1\]: say one of key, keys, incidents and arrivals"),
    ('arrivals = "even"', r'uncertain\[1\].arrivals: expected random, found "even"; without it they come evenly'),
    ('arrivals = "random"\nseed = 1', r"uncertain\[1\].seed"),
    ('key = "demand"', r"uncertain\[1\].factor: say either factor or value, with its distribution"),
    ('key = "demand"\nvalue = "normal"\nmean = 1\ndeviation = 0', r"uncertain\[1\].value: demand is varied by a factor"),
    ('key = "demand"\nfactor = "norml"', r'uncertain\[1\].factor: expected normal, lognormal, .* or given, found "norml"'),
    ('key = "demand"\nfactor = "normal"\nmean = 1', r"uncertain\[1\].deviation: is missing"),
    (f'key = "demand"\n{NORMAL}\nmen = 2', r"uncertain\[1\].men: no such key; is mean meant"),
    ('key = "demand"\nfactor = "normal"\nmean = 1\ndeviation = -1', r"uncertain\[1\].deviation: a standard deviation isn't negative"),
    ('key = "demand"\nfactor = "normal"\nmean = 1\ndeviation = 1\nleast = 2', r"uncertain\[1\].mean: lies between least"),
    ('key = "demand"\nfactor = "triangular"\nleast = 1\nmode = 3\nmost = 2', r"uncertain\[1\].most: expected least, mode and most"),
    ('key = "demand"\nfactor = "lognormal"\nmean = 0\ndeviation = 1', r"uncertain\[1\].mean: must be above 0"),
    ('key = "demand"\nfactor = "given"\nvalues = []', r"uncertain\[1\].values: has no values"),
    ('key = "demand"\nfactor = "given"\nvalues = [1, 2]\nweights = [0, 0]', r"uncertain\[1\].weights: expected numbers"),
    ('key = "demand"\nfactor = "given"\nvalues = [1, 2]\nweights = [3, -1]', r"uncertain\[1\].weights: expected numbers"),
    (f'key = "demand"\n{NORMAL}\n[[uncertain]]\nkey = "demand"\n{NORMAL}', r"uncertain\[2\].key: demand varies already"),
    ('keys = ["demand", "demand"]\ncorrelation = 1', r"uncertain\[1\].keys: expected two keys or more, each once"),
    ('keys = ["demand", "demand.on"]\ncorrelation = 0.5', r"uncertain: demand has a correlation and doesn't vary"),
    ('keys = ["a", "b"]\ncorrelation = 1.5', r"uncertain\[1\].correlation: no values vary together like this"),
    ('keys = ["a", "b"]\ncorrelation = [[1, 0.5], [0.4, 1]]', r"uncertain\[1\].correlation: expected the same both ways"),
    ('keys = ["a"]\ncorrelation = 0.5', r"uncertain\[1\].keys: expected two keys or more"),
    ('incidents = "m"\nrate = -1\nduration = "20 min"\nlanes = 1', r"uncertain\[1\].rate: a rate isn't negative"),
    ('incidents = "m"\nrate = 1\nlanes = 1', r"uncertain\[1\].duration: is missing")])
def test_an_entry_that_says_nothing_is_refused(tmp_path, entry, wanted):
    with pytest.raises(Problem, match=f"s.toml: {wanted}"):
        uncertain(tmp_path, entry)


def test_indices_of_ten_times():
    # The 95th percentile of 1, 2 .. 9 and 20 lies 0.55 of the way from the ninth to the tenth; the mean is 6.5, the median 5.5.
    times = spread([*(float(time) for time in range(1, 10)), 20.0])
    assert times.percentiles == {50: pytest.approx(5.5), 80: pytest.approx(8.2), 95: pytest.approx(15.05)}
    assert planning_time_index(times, 0.5) == pytest.approx(30.1) and buffer_index(times) == pytest.approx((15.05 - 6.5) / 6.5)


@pytest.mark.parametrize("ways, told", [(12, []), (13, ["and 1 more roads in summary.csv"])])
def test_roads_beyond_the_twelve_of_the_table_are_counted(ways, told):
    roads = [f"m{number}" for number in range(ways)]
    figures_of_runs = {DELAY: 5.0, **{TRAVEL + road: 3.0 for road in roads}}
    rows = pandas.DataFrame({"plan": "s", "draw": [1, 2], "error": "", "inside_vehicles": 0, **figures_of_runs})
    found = Draws(rows, title="s", titles={}, seed=1, count=2, asked_for=2, places=(), times={}, stand={"s": figures_of_runs},
                  free={"s": dict.fromkeys(roads, 2.0)}, networks={})
    assert list(plan_lines(found, "s")) == told


@pytest.mark.parametrize("inside, told", [([0, 0], []), ([3, 0], ["In 1 draw vehicles are"]), ([3, 4], ["In 2 draws vehicles are"])])
def test_it_is_told_in_how_many_draws_vehicles_are_inside_at_the_end(inside, told):
    rows = pandas.DataFrame({"plan": "s", "draw": [1, 2], "error": "", DELAY: 5.0, "inside_vehicles": inside})
    found = Draws(rows, title="s", titles={}, seed=1, count=2, asked_for=2, places=(), times={}, stand={"s": {DELAY: 5.0}}, free={"s": {}},
                  networks={})
    assert list(plan_lines(found, "s")) == [f"{line} inside at the end: a part of their delay is still to come." for line in told]


def test_intervals_of_textbooks():
    # Student's t of 9 degrees of freedom is 2.262; Wilson's interval of 8 in 10 is 0.490 to 0.943 (Agresti and Coull, 1998).
    low, high = of_mean([float(value) for value in range(1, 11)])
    assert (high - low) / 2 == pytest.approx(2.262 * (55 / 6) ** 0.5 / 10**0.5, rel=1e-3)
    assert of_probability(8, 10) == (pytest.approx(0.490, abs=5e-4), pytest.approx(0.943, abs=5e-4))
    # Of the median of 100 values the 40th and the 61st (Conover, Practical Nonparametric Statistics, binomial table).
    assert of_percentile(list(range(1, 101)), 50) == (40, 61)
    assert within("2%").is_reached([100.0, 100.1, 99.9]) and not within("0.01").is_reached([100.0, 100.1, 99.9])
    # Of 2 degrees of freedom it is 4.303, so the half width of these is 0.2484.
    assert within("0.249").is_reached([100.0, 100.1, 99.9]) and not within("0.248").is_reached([100.0, 100.1, 99.9])
    for text in ("0", "-1", "2 vehicles", ""):
        with pytest.raises(Problem, match="--until-within"):
            within(text)


def test_as_many_incidents_happen_as_rate_and_kilometres_make(tmp_path, report):
    """On the lane drop 12,900 vehicles drive 1.5 km before the queue comes there, so 50 in a million make 0.9675 in a run."""
    entry = 'incidents = "m"\nrate = 50\nto = 1.5\nlanes = {distribution = "given", values = [1, 2]}\n' \
        'duration = {distribution = "uniform", least = "10 min", most = "30 min"}'
    found = uncertain(tmp_path, entry, base=(EXAMPLES / "bottleneck.toml").read_text()).incidents
    read, study = report("bottleneck"), read_scenario(tmp_path / "s.toml")
    draws = [happened(found, read, study, 1, number) for number in range(1, 1001)]
    counts = numpy.array([len(draw) for draw in draws])
    assert counts.mean() == pytest.approx(0.9675, abs=4 * (0.9675 / 1000) ** 0.5)
    assert counts.var() == pytest.approx(0.9675, abs=4 * ((0.9675 + 2 * 0.9675**2) / 1000) ** 0.5)  # as a Poisson process has it
    closures = [closure for draw in draws for closure in draw]
    assert {float(one.lanes) for one in closures} == {1, 2} and all(0 <= one.part.start_km < one.part.end_km <= 1.5 for one in closures)
    lasting = numpy.array([float(one.part.end - one.part.start) for one in closures if one.part.start < 12600])
    assert lasting.min() >= 600 and lasting.max() <= 1800 and lasting.mean() == pytest.approx(1200, abs=4 * 347 / len(lasting) ** 0.5)
    # Of the 12,900 come 4,770 from 07:00 to 08:00, and are on this part 35 s later in the mean.
    hour = numpy.mean([3635 <= one.part.start < 7235 for one in closures])
    assert hour == pytest.approx(4770 / 12900, abs=4 * (0.37 * 0.63 / len(closures)) ** 0.5)
    assert happened(found, read, study, 1, 3) == draws[2]


def test_a_summary_has_the_interval_of_the_mean_from_its_lower_end_on():
    rows = pandas.DataFrame({"plan": "s", "draw": range(1, 11), "error": "", "inside_vehicles": 0, DELAY: numpy.arange(1.0, 11)})
    found = Draws(rows, title="s", titles={}, seed=1, count=10, asked_for=10, places=(), times={}, stand={"s": {DELAY: 5.0}},
                  free={"s": {}}, networks={}).summary.iloc[0]
    # The variance of 1 to 10 is 55/6, and Student's t of 9 degrees of freedom 2.262.
    half = 2.262 * (55 / 6) ** 0.5 / 10**0.5
    assert (found["mean"], found.mean_low, found.mean_high) == pytest.approx((5.5, 5.5 - half, 5.5 + half), rel=1e-3)


def test_incidents_happen_within_the_time_of_their_entry(tmp_path):
    """20 of 60 vehicle-kilometres are driven in the entry's 20 minutes, so 100,000 incidents in a million make 2 in a run."""
    made = corridor(tmp_path, demand=60)
    base = (tmp_path / "study.toml").read_text()
    entry = 'incidents = "m"\nrate = 100000\nlanes = 1\nduration = "5 min"\nstart = "06:20"\nend = "06:40"'
    found, report = uncertain(tmp_path, entry, base=base).incidents, reported(made)
    study = read_scenario(tmp_path / "s.toml")
    draws = [happened(found, report, study, 1, number) for number in range(1, 301)]
    begins = [float(one.part.start) for draw in draws for one in draw]
    assert 20 * 60 <= min(begins) and max(begins) < 40 * 60
    assert len(begins) / 300 == pytest.approx(2, abs=4 * (2 / 300) ** 0.5)


def test_incidents_happen_where_vehicles_drive_and_not_cell_by_cell(tmp_path):
    """Half of the way is two cells of 250 m, the other half four of 125 m: as many vehicle-kilometres, and twice the cells."""
    made = corridor(tmp_path, parts="[[roads.m.sections]]\nfrom = 0.5\nfree_flow_speed = 45\n")
    text = (tmp_path / "study.toml").read_text()
    found = uncertain(tmp_path, 'incidents = "m"\nrate = 3000\nlanes = 1\nduration = "5 min"', base=text).incidents
    report, study = reported(made), read_scenario(tmp_path / "s.toml")
    parts = [closure.part for number in range(1, 301) for closure in happened(found, report, study, 1, number)]
    assert {(float(part.start_km) < 0.5, float(part.end_km - part.start_km)) for part in parts} == {(True, 0.25), (False, 0.125)}
    assert numpy.mean([part.start_km < 0.5 for part in parts]) == pytest.approx(0.5, abs=4 * (0.25 / len(parts)) ** 0.5)


def test_a_queue_passes_the_places_that_it_stood_before(tmp_path):
    """Two minutes of 3,000 vehicles/h come to a lane that passes 2,160: 28 wait in the cell of 250 m before it, which has room for 72.
    100 vehicles take 167 s past km 0.5, where the first is after 20 s."""
    report = reported(corridor(tmp_path, demand='[["06:00", "06:02", 3000]]', parts="[[roads.m.sections]]\nfrom = 0.5\nlanes = 1\n"))
    found = figures(report, Asked(places=("m.0.25", "m.0.5", "m.0.75")))
    assert found["past"] == {"m.0.25": False, "m.0.5": True, "m.0.75": False}
    assert found["last_queue_s"] == pytest.approx(187, abs=20)


def test_too_many_incidents_are_told(tmp_path, report):
    found = uncertain(tmp_path, 'incidents = "m"\nrate = 12_000\nduration = "20 min"\nlanes = 1', base=(EXAMPLES / "bottleneck.toml").read_text())
    with pytest.raises(Problem, match="1,161 incidents in a run; it is for a million vehicle-km"):
        happened(found.incidents, report("bottleneck"), read_scenario(EXAMPLES / "bottleneck.toml"), 1, 1)


@pytest.mark.parametrize("happening, same, wanted", [([], True, 1), ([], False, 2), (["one"], True, 2)])
def test_a_draw_in_which_no_incident_happens_is_run_once(happening, same, wanted, monkeypatch, tmp_path):
    report, runs = reported(corridor(tmp_path)), []

    def ran(made, one, _):
        runs.append(list(made.closures))
        return SimpleNamespace(report=report, checksum="", notes="")

    monkeypatch.setattr(draw_task, "study", lambda one: SimpleNamespace(closures=[]))
    monkeypatch.setattr(draw_task, "ran", ran)
    monkeypatch.setattr(draw_task, "happened", lambda *_: happening)
    found = measure(DrawTask("plan", "plan" if same else "first", ("incidents",), 1, 1, Asked()))
    # Where one happens, or another plan is the first, the first is run without closures and then the plan with them.
    assert len(runs) == wanted and runs[-1] == happening and found["incidents"] == len(happening)


def test_who_passes_free_cells_needs_a_step_for_each(tmp_path):
    # At 90 km/h a cell is 250 m, the way of a step of 10 s; who would arrive behind the last step hasn't arrived.
    report = reported(corridor(tmp_path, demand='[["06:00", "06:30", 1440]]'))
    cells = list(report.units.roads["m"])
    found = trips(report, cells)
    arrived = found.of(~numpy.isnan(found.steps))
    assert len(arrived.steps) and arrived.steps == pytest.approx(numpy.full(len(arrived.steps), len(cells)), abs=0.01)
    assert numpy.isnan(found.steps).sum() == (found.entered + len(cells) > report.times[-1]).sum()
