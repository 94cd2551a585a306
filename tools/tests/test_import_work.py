"""Imports of large networks: twice the junctions are twice the work, counted in lines of Python that are run."""

import sys

from ctmtools.imports.gmns import read_folder
from ctmtools.imports.streets import ALL_STOP, LEFT, RIGHT, Connection, Program, Stage, Street, Streets
from ctmtools.imports.study_file import Terms, Writer
from ctmtools.imports.traffic import traffic_of

JUNCTIONS = 60
MOST = 2.2  # times the lines of half the network; where each movement looks at all others it is nearer to 4


def lines_run(work):
    """How many lines of Python a call runs, each turn of a loop counted."""
    lines = 0

    def trace(frame, event, _):
        nonlocal lines
        lines += event == "line"
        return trace

    before = sys.gettrace()
    sys.settrace(trace)
    try:
        work()
    finally:
        sys.settrace(before)
    return lines


def row_of(junctions):
    """A road with a side street and a street out of it at each of some junctions. From the side street one turns right, giving way,
    and crosses; every third junction is an all-way stop, and every third has a signal whose greens follow traffic."""
    found = Streets("row")
    for i in range(junctions):
        for name, start, end in ((f"m{i}", f"J{i}", f"J{i + 1}"), (f"b{i}", f"J{i + 1}", f"J{i}"), (f"s{i}", f"S{i}", f"J{i}"),
                                 (f"o{i}", f"J{i}", f"O{i}")):
            found.streets[name] = Street(name, start, end, 0.2, 1, 50.0)
    for i in range(1, junctions):
        greens = [(0.0, 25.0)], [(30.0, 55.0)]
        if i % 3 == 0:
            found.programs[f"J{i}"] = Program(60, 0, [Stage(0, 25, 5, 40, 3), Stage(30, 25, 5, 40, 3)], f"J{i}")
        through, right, left = (f"m{i - 1}", f"m{i}"), (f"s{i}", f"m{i}"), (f"s{i}", f"b{i - 1}")
        back, out = (f"b{i}", f"b{i - 1}"), (f"b{i}", f"o{i}")
        control = ALL_STOP if i % 3 == 1 else "stop"
        found.ways |= {through: Connection(1, 4, greens[0]), back: Connection(1, 4, greens[0]), out: Connection(1, 4, greens[0], turns=RIGHT)}
        for way, turns, others in ((right, RIGHT, {through}), (left, LEFT, {through, back})):
            found.ways[way] = Connection(1, 1, greens[1], turns=turns, control=control, yields=others if i % 3 else set())
    return found


def test_a_study_of_twice_the_junctions_is_twice_the_work():
    def write(junctions):
        found = row_of(junctions)
        return Writer(found, traffic_of(found, 900, 900), Terms(2, "00:00", 3600)).text()

    assert all(word in write(6) for word in ("yields_to", "actuated", "all-way stop"))
    assert lines_run(lambda: write(2 * JUNCTIONS)) < MOST * lines_run(lambda: write(JUNCTIONS))


def write_gmns(folder, junctions):
    """A road in GMNS with a side street at each of some junctions that gives way; every second has a signal of two phases."""
    folder.mkdir()
    tables = {"node": ["node_id,x_coord,y_coord"], "link": ["link_id,from_node_id,to_node_id,length,lanes,free_speed,directed"],
              "movement": ["mvmt_id,node_id,ib_link_id,ob_link_id,ctrl_type"],
              "signal_timing_plan": ["timing_plan_id,controller_id,cycle_length"],
              "signal_timing_phase": ["timing_phase_id,timing_plan_id,max_green"],
              "signal_phase_mvmt": ["timing_phase_id,mvmt_id,protection"]}
    for i in range(junctions):
        tables["node"] += [f"{i},{1000 * i},0", f"s{i},{1000 * i},1000"]
        tables["link"] += [f"m{i},{i},{i + 1},1,1,50,1", f"s{i},s{i},{i},1,1,50,1"]
        if i:
            tables["movement"] += [f"t{i},{i},m{i - 1},m{i},", f"r{i},{i},s{i},m{i},{'yield' if i % 2 else ''}"]
        if i and i % 2 == 0:
            tables["signal_timing_plan"].append(f"p{i},c{i},60")
            tables["signal_timing_phase"] += [f"a{i},p{i},25", f"b{i},p{i},25"]
            tables["signal_phase_mvmt"] += [f"a{i},t{i},protected", f"b{i},r{i},protected"]
    tables["node"].append(f"{junctions},{1000 * junctions},0")
    for name, rows in tables.items():
        (folder / f"{name}.csv").write_text("\n".join(rows) + "\n")


def test_a_folder_of_gmns_of_twice_the_junctions_is_twice_the_work(tmp_path):
    lines = []
    for junctions in (JUNCTIONS, 2 * JUNCTIONS):
        write_gmns(tmp_path / str(junctions), junctions)
        lines.append(lines_run(lambda: read_folder(tmp_path / str(junctions))))
    assert lines[1] < MOST * lines[0]
    found = read_folder(tmp_path / str(JUNCTIONS))
    assert found.ways["s1", "m1"].yields == {("m0", "m1")} and found.ways["s2", "m2"].green == [(25, 50)]


def test_ways_of_gmns_without_movements_are_twice_the_work_for_twice_the_junctions(tmp_path):
    lines = []
    for junctions in (JUNCTIONS, 2 * JUNCTIONS):
        write_gmns(tmp_path / str(junctions), junctions)
        (tmp_path / str(junctions) / "movement.csv").unlink()
        lines.append(lines_run(lambda: read_folder(tmp_path / str(junctions))))
    assert lines[1] < MOST * lines[0]
