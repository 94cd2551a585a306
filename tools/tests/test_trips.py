"""Trips in studies: tables, lists and matrices of them, given routes, and what is refused."""

import pytest

from ctmtools import read_study
from ctmtools.problem import Problem
from ctmtools.study.plan import Flow

from .test_assign import assigned
from .trips import TWO_PAIRS, TWO_WAYS

ROADS = TWO_PAIRS.split("[[trips]]")[0]


def study_of(folder, text, **files):
    for name, content in files.items():
        (folder / f"{name}.csv").write_text(content)
    (folder / "s.toml").write_text(text)
    return read_study(folder / "s.toml").scenario


def flows(study):
    return {(trips.source, trips.into): [(flow.start, flow.end, flow.flow) for flow in trips.demand]
            for trips in study.trips}


def test_a_list_and_matrices_say_the_same(tmp_path):
    listed = study_of(tmp_path, ROADS + '[trips]\nfile = "od.csv"\n', od=(
        "from,to,start,end,vehicles\ng,x,07:00,07:15,100\ng,y,07:00,07:15,25\ng,x,07:15,07:30,50\n"))
    assert flows(listed) == {("g", "x"): [(0, 900, 400), (900, 1800, 200)], ("g", "y"): [(0, 900, 100)]}
    squares = study_of(tmp_path, ROADS + '[trips]\nmatrices = [{ file = "a.csv", start = "07:00", end = "07:15" }, '
                       '{ file = "b.csv", start = "07:15", end = "07:30" }]\n', a=",x,y\ng,100,25\n", b="from,x,y\ng,50,0\n")
    assert flows(squares) == flows(listed)
    # A gate has the demand that its trips are together.
    assert listed.gates["g"].demand == [Flow(0, 900, 500), Flow(900, 1800, 200)]


@pytest.mark.parametrize("text, told", [
    ('[[trips]]\nfrom = "h"\nto = "x"\ndemand = 1\n', "trips[1]: from h: is no gate of the study, which has g"),
    ('[[trips]]\nfrom = "g"\nto = "z"\ndemand = 1\n', "trips[1]: to z: is no exit of the study, which has x, y"),
    ('[[trips]]\nfrom = "g"\nto = "x"\ndemand = -1\n', "trips[1].demand: a flow isn't negative"),
    ('[[trips]]\nfrom = "g"\nto = "x"\ndemand = "many"\n', "trips[1].demand: expected a flow"),
    ('[trips]\nfile = "none.csv"\n', "none.csv: no such file"),
    ('[trips]\n', "trips.file: say either file"),
    ('[trips]\nmatrices = [{ file = "short.csv" }]\n', "short.csv: line 2 has 1 numbers for 2 exits"),
    ('[trips]\nmatrices = [{ file = "minus.csv" }]\n', "minus.csv: line 2, x: a number of vehicles isn't negative"),
    ('[trips]\nmatrices = [{ file = "word.csv" }]\n', "word.csv: line 2, y: expected a number of vehicles"),
    ('[trips]\nfile = "short.csv"\n', "short.csv: line 1 has no column from"),
    ('[trips]\nfile = "twice.csv"\n', "twice.csv: line 1 has 2 columns to; it has from, to, start, end, vehicles, to"),
    ('[trips]\nfile = "a\\u0000b"\n', "a\\x00b': no file has such a name"),
    ('[[trips]]\nfrom = "g"\nto = "x"\ndemand = { counts = "a\\u0000b" }\n', "a\\x00b': no file has such a name"),
    (f'[[trips]]\nfrom = "g"\nto = "x"\ndemand = {{ counts = "{"a" * 300}" }}\n', "a: file name too long"),
    ('[[routes]]\nfrom = "g"\nto = "x"\nroads = ["m"]\n', "routes: there are no trips"),
    ('[[trips]]\nfrom = "g"\nto = "x"\ndemand = 1\n[[routes]]\nfrom = "g"\nto = "y"\nroads = ["m"]\n',
     "routes[1]: there are no trips from g to y")])
def test_trips_that_cannot_be_are_refused(tmp_path, text, told):
    with pytest.raises(Problem) as found:
        study_of(tmp_path, ROADS + text, short=",x,y\ng,1\n", twice="from,to,start,end,vehicles,to\n", minus=",x,y\ng,-1,0\n",
                 word=",x,y\ng,1,two\n")
    assert told in str(found.value)


@pytest.mark.parametrize("row, told", [
    ("g,x,07:00,07:10,-1", "line 2, vehicles: a number of vehicles isn't negative"),
    *((f"g,x,07:00,07:10,{text}", "line 2, vehicles: expected a number of vehicles")
      for text in ("ten", "nan", "inf", "1e400", "1_0", "1/2", "")),
    pytest.param(f"g,x,07:00,07:10,{'9' * 5000}", "line 2, vehicles: expected a number of vehicles", id="many digits"),
    pytest.param("x" * 140_000 + ",x,07:00,07:10,1", "line 2: field larger than field limit", id="a long field"),
    ("g,x,07:10,07:00,1", "line 2, end: the end isn't after the start"),
    ("g,x,7,07:10,1", "line 2, start: expected a clock time"),
    ("h,x,07:00,07:10,1", "line 2: from: is no gate of the study, which has g"),
    ("g,z,07:00,07:10,1", "line 2: to: is no exit of the study, which has x, y"),
    ("g,x,07:00,07:10", "line 2 has 4 fields, and 5 are expected")])
def test_a_row_of_a_list_that_cannot_be_is_refused_with_its_line(tmp_path, row, told):
    with pytest.raises(Problem) as found:
        study_of(tmp_path, ROADS + '[trips]\nfile = "od.csv"\n', od=f"from,to,start,end,vehicles\n{row}\n")
    assert f"od.csv: {told}" in str(found.value)


@pytest.mark.parametrize("matrix, told", [
    (",x,y\ng,1,2,3\n", "line 2 has 3 numbers for 2 exits"), (",x,x\ng,1,2\n", "line 1 has the exit x twice"),
    (",x,y\ng,1,2\ng,1,2\n", "line 3: the gate of this row has another one already"), (",x,z\ng,1,2\n", "line 2: to: is no exit of the study"),
    (",x,y\nh,1,2\n", "line 2: from: is no gate of the study"), (",x,y\ng,1,\n", "line 2, y: expected a number of vehicles"),
    pytest.param("".join(f",x{i}" for i in range(10_000)) + "\ng,1\n", "line 1 has 10,001 fields; a row may have 10,000", id="many"),
    ("", "is empty")])
def test_a_matrix_that_is_not_one_of_gates_and_exits_is_refused(tmp_path, matrix, told):
    with pytest.raises(Problem) as found:
        study_of(tmp_path, ROADS + '[trips]\nmatrices = [{ file = "m.csv" }]\n', m=matrix)
    assert f"m.csv: {told}" in str(found.value)


@pytest.mark.parametrize("text, vehicles", [("25", 25), ("2.5e1", 25), (".5", 0.5), ("5.", 5), ("+5", 5)])
def test_numbers_of_vehicles_are_read_as_programs_write_them(tmp_path, text, vehicles):
    study = study_of(tmp_path, ROADS + '[trips]\nfile = "od.csv"\n', od=f"from,to,start,end,vehicles\ng,x,07:00,08:00,{text}\n")
    assert flows(study) == {("g", "x"): [(0, 3600, vehicles)]}


EUROPEAN = ROADS + '[trips]\nmatrices = [{ file = "m.csv", start = "07:00", end = "07:30" }]\n'


@pytest.mark.parametrize("content", [
    "von;x;y\ng;12,5;3\n", "von\tx\ty\ng\t12,5\t3\n", ";x;y\r\n\r\ng;12,50;3\r\n", 'von,x,y\ng,"12,5",3\n', "von;x;y\ng;12.5;3\n"])
def test_a_matrix_of_a_european_excel_has_its_trips(tmp_path, content):
    # 12.5 vehicles in half an hour are 25 an hour.
    assert flows(study_of(tmp_path, EUROPEAN, m=content)) == {("g", "x"): [(0, 1800, 25)], ("g", "y"): [(0, 1800, 6)]}


def test_unicode_text_of_excel_is_read(tmp_path):
    (tmp_path / "m.csv").write_bytes("von\tx\ty\r\ng\t12,5\t3\r\n".encode("utf-16"))
    assert flows(study_of(tmp_path, EUROPEAN)) == {("g", "x"): [(0, 1800, 25)], ("g", "y"): [(0, 1800, 6)]}


def test_a_list_of_a_european_excel_has_its_trips_and_names_of_columns_in_any_case(tmp_path):
    study = study_of(tmp_path, ROADS + '[trips]\nfile = "od.csv"\n', od="From;To;Start;End;Vehicles\ng;x;07:00;07:30;1250,5\n")
    assert flows(study) == {("g", "x"): [(0, 1800, 2501)]}


@pytest.mark.parametrize("matrix, told", [
    ("from\ng\n", "line 1 has no exits, a column for each; is the separator another?"),
    ("from:x:y\ng:1:2\n", "line 1 has no exits, a column for each; is the separator another?"),
    ("from;x;y\ng;1.250;3\n", "line 2, x: may have decimals, or be a number of thousands; write it without the point"),
    ("from;x;y\ng;1.250,5;3\n", "line 2, x: expected a number of vehicles"),
    ("from,x,z\ng,1,0\n", "line 2: to: is no exit of the study, which has x, y"),
    ("from,x,y\nh,0,0\ng,1,2\n", "line 2: from: is no gate of the study, which has g")])
def test_a_matrix_that_would_lose_trips_is_refused(tmp_path, matrix, told):
    with pytest.raises(Problem) as found:
        study_of(tmp_path, EUROPEAN, m=matrix)
    assert told in str(found.value)


def test_a_matrix_of_zeros_is_told(tmp_path):
    assert "trips: there are no trips in it" in study_of(tmp_path, EUROPEAN, m="from,x,y\ng,0,0\n").remarks


def test_slices_that_overlap_and_gates_without_trips_are_said(tmp_path):
    study = study_of(tmp_path, ROADS + '[gates.h]\n[trips]\nmatrices = [{ file = "m.csv", start = "07:00", end = "07:30" }, '
                     '{ file = "m.csv", start = "07:20", end = "07:40" }, { file = "m.csv", start = "07:40", end = "07:50" }]\n',
                     m="from,x\ng,10\n")
    assert [one for one in study.remarks if "trips" in one] == [
        "trips.matrices[2]: overlaps trips.matrices[1] from 07:20 to 07:30, and the vehicles of both come", "no trips come from gate h"]
    # 10 in 30 minutes, and 10 in 20: 20 and 30 an hour, 50 where both come; 10 in 10 minutes are 60.
    assert [flow.flow for flow in study.gates["g"].demand] == [20, 50, 30, 60]


@pytest.mark.parametrize("change, told", [
    (lambda text: text.replace('into = "m"', 'into = "m"\ndemand = 10'), "gates.g.demand: trips come from this gate"),
    (lambda text: text.replace('into = ["x", "y"]', 'into = ["x", "y"]\nshares = [1, 1]'),
     "diverges[1].shares: trips part here, as those from g of trips[1]"),
    (lambda text: text.replace('into = ["x", "y"]', 'into = ["x", "y"]\nturns = [{ shares = [1, 1] }]'),
     "diverges[1].turns: shares by time stand without shares"),
    (lambda text: text.replace("y = {}", "y = {}\nz = { capacity = 900 }").replace('to = "y"', 'to = "z"'),
     "trips[2]: no route leads from g to z; the last road that is reached is m")])
def test_a_network_on_which_trips_cannot_be_is_refused(tool, tmp_path, change, told):
    (tmp_path / "s.toml").write_text(change(TWO_PAIRS))
    status, _, err = tool("assign", "s.toml")
    assert status == 2 and told in err and err.count("\n") == 1
    assert sorted(path.name for path in tmp_path.iterdir()) == ["s.toml"]


def test_shares_that_are_left_out_need_trips_and_an_assignment(tool, tmp_path):
    (tmp_path / "s.toml").write_text(TWO_PAIRS)
    assert "`ctm-tools assign` finds them" in tool("build", "s.toml")[2]
    (tmp_path / "s.toml").write_text(ROADS)
    assert "diverges[1].shares: is missing" in tool("build", "s.toml")[2]
    (tmp_path / "s.toml").write_text(ROADS.replace('into = ["x", "y"]', 'into = ["x", "y"]\nshares = [1, 1]'))
    assert "trips: are missing" in tool("assign", "s.toml")[2]


def test_given_routes_are_taken_as_they_say(tmp_path, recording_program):
    routes = "".join(f'[[routes]]\nfrom = "home"\nto = "work"\nroads = ["{road}"]\nshare = {share}\n' for road, share in
                     (("short", '[["07:00", "07:30", 1], ["07:30", "09:00", 3]]'), ("long", 1)))
    made, rounds = assigned(tmp_path, TWO_WAYS + routes)
    (choice,) = made.choices
    assert len(choice.ways) == 2 and rounds[-1].gap.relative == 0
    assert choice.parts[0, :6] == pytest.approx(0.5) and choice.parts[0, 6:] == pytest.approx(0.75)
    assert made.report.cells.gone["long01"] == pytest.approx(1125, abs=5)


def route(roads, more=""):
    return f'[[routes]]\nfrom = "home"\nto = "work"\nroads = {roads}\n{more}'


@pytest.mark.parametrize("text, told", [
    (route('["lane"]'), "routes[1].roads: there is no road lane"), (route("[]"), "routes[1].roads: expected the roads of the route"),
    (route('["b", "short"]'), "routes[1].roads: no route leads from b1 to road short"),
    (route('["short"]', "share = -1\n"), "routes[1].share: a share isn't negative"),
    (route('["short"]', "share = []\n"), "routes[1].share: expected a number or rows of [start, end, share], found none"),
    (route('["short"]', "share = 1\n") + route('["long"]'), "routes[1].share: either all routes from home to work have shares or none"),
    (route('["short"]', 'share = [["07:30", "09:00", 1]]\n'),
     "routes[1].share: no route from home to work has a share at 07:02:30, when drivers depart")])
def test_a_route_that_cannot_be_driven_or_shared_is_refused(tool, tmp_path, text, told):
    (tmp_path / "s.toml").write_text(TWO_WAYS + text)
    status, _, err = tool("assign", "s.toml")
    assert status == 2 and f"s.toml: {told}" in err and [path.name for path in tmp_path.iterdir()] == ["s.toml"]


@pytest.mark.parametrize("line, told", [
    ("ways = 0", "routing.ways: expected a whole number"), ("ways = 2\ninformed = 1.5", "routing.informed: expected a part from 0 to 1"),
    ("ways = 2\ninformed = -0.1", "routing.informed: expected a part from 0 to 1")])
def test_routing_that_cannot_be_is_refused(tmp_path, line, told):
    with pytest.raises(Problem) as found:
        study_of(tmp_path, TWO_WAYS.replace("ways = 8", line))
    assert told in str(found.value)


def test_trips_come_by_a_flow_by_rows_or_by_counts(tmp_path):
    said = {"600": [(0, 3600, 600)], '[["07:00", "07:30", 600], ["07:30", "08:00", 300]]': [(0, 1800, 600), (1800, 3600, 300)],
            '{ counts = "c.csv", column = "n" }': [(0, 1800, 600), (1800, 3600, 300)]}  # 300 and 150 in half an hour
    for demand, wanted in said.items():
        study = study_of(tmp_path, ROADS + f'[[trips]]\nfrom = "g"\nto = "x"\ndemand = {demand}\n', c="time,n\n07:00,300\n07:30,150\n")
        assert flows(study) == {("g", "x"): wanted}


def test_where_a_junction_leaves_out_a_movement_no_way_leads_over_it(tmp_path, recording_program):
    text = TWO_PAIRS.split("[roads]")[0] + """[roads]
p = { length = 1, lanes = 1 }
q = { length = 1, lanes = 1 }
quick = { length = 1, lanes = 1 }
slow = { length = 2, lanes = 1 }
last = { length = 1, lanes = 1 }
[gates]
g = { into = "p" }
h = { into = "q" }
[exits.x]
from = "last"
[[junctions]]
from = ["p", "q"]
into = ["quick", "slow"]
lanes = [[0, 1], [1, 1]]
[[merges]]
from = ["quick", "slow"]
into = "last"
priorities = [1, 1]
""" + "".join(f'[[trips]]\nfrom = "{gate}"\nto = "x"\ndemand = [["07:00", "07:10", 600]]\n' for gate in "gh")
    made, _ = assigned(tmp_path, text)
    assert {(row.source, row.roads[-2]) for row in made.rows()} == {("g", "slow"), ("h", "quick")}
    assert [(fork.row, fork.columns, fork.cells) for fork in made.forks] == [(1, (0, 1), ("q4",))]  # from q, of four cells, alone two lead
