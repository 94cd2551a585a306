"""Movements of imported networks that give way to others: by which gaps they do in the study, and which can't, and why."""

import re
import tomllib
from types import SimpleNamespace

import pytest

from ctmtools import build, read_study
from ctmtools.imports.gmns import read_folder
from ctmtools.imports.giving_way import GivesWay
from ctmtools.imports.streets import LEFT, RIGHT, THROUGH
from ctmtools.imports.sumo import read_network
from ctmtools.imports.turning import turn_of
from ctmtools.runs.running import settled_by_runs

from .test_gmns import TABLES

# A cross of a road from W to E, one from E to W, and one from S. Who turns left from w into n crosses e to o, over a second
# lane within the junction on which he waits; who comes from s gives way to w to p, which he meets, and to e to o too.
NET = """<net>
    <edge id="w" from="W" to="J"><lane index="0" speed="{speed}" length="250"/></edge>
    <edge id="e" from="E" to="J"><lane index="0" speed="{speed}" length="250"/></edge>
    <edge id="s" from="S" to="J"><lane index="0" speed="{speed}" length="250"/></edge>
    <edge id="o" from="J" to="O"><lane index="0" speed="{speed}" length="250"/></edge>
    <edge id="p" from="J" to="P"><lane index="0" speed="{speed}" length="250"/></edge>
    <edge id="n" from="J" to="N"><lane index="0" speed="{speed}" length="250"/></edge>
    {signal}
    <junction id="J" type="{sort}" x="0" y="0" incLanes="w_0 e_0 s_0" intLanes=":J_0_0 :J_4_0 :J_2_0 :J_3_0">
        <request index="0" response="0000" foes="1000"/><request index="1" response="0100" foes="0100"/>
        <request index="2" response="0000" foes="0010"/><request index="3" response="{right}" foes="0001"/>
    </junction>
    <connection from="w" to="p" fromLane="0" toLane="0" via=":J_0_0" {tl}="0" dir="s" state="M"/>
    <connection from="w" to="n" fromLane="0" toLane="0" via=":J_1_0" {tl}="1" dir="l" state="m"/>
    <connection from="e" to="o" fromLane="0" toLane="0" via=":J_2_0" {tl}="2" dir="s" state="M"/>
    <connection from="s" to="p" fromLane="0" toLane="0" via=":J_3_0" {tl}="3" dir="{turn}" state="{sign}"/>
    <connection from=":J_1" to="n" fromLane="0" toLane="0" via=":J_4_0" state="m"/>
    <connection from=":J_4" to="n" fromLane="0" toLane="0" state="M"/>
    {more}
</net>
"""
SIGNAL = '<tlLogic id="J" type="{}" programID="0" offset="0"><phase duration="30" state="{}" {}/><phase duration="30" state="{}"/></tlLogic>'
FLOWS = {"w n": 90, "w p": 300, "e o": 300, "s p": 60}
UNOPPOSED = "movements that give way to others run unopposed, so their delay is too low, since "


@pytest.fixture
def import_net(tool, tmp_path):
    """What an import tells of the network, with a signal of two phases or without one, and with flows."""
    def imported(*phases, flows=FLOWS, net=NET, logic="static", limits="", **terms):
        (tmp_path / "n.net.xml").write_text(net.format(
            sort="traffic_light" if phases else "priority",
            signal=SIGNAL.format(logic, phases[0], limits, phases[1]) if phases else "", tl='tl="J" linkIndex' if phases else "none",
            **{"right": "0001", "speed": 12.5, "turn": "r", "sign": "m", "more": "", **terms}))
        (tmp_path / "n.rou.xml").write_text("<routes>" + "".join(
            f'<flow id="{route}" begin="0" end="3600" number="{count}"><route edges="{route}"/></flow>'
            for route, count in flows.items()) + "</routes>")
        status, out, err = tool("import", "sumo", "n.net.xml", "--routes", "n.rou.xml", "-o", "n.toml")
        assert (status, err) == (0, "")
        return out
    return imported


def gives_way(out):
    """The movements of which an import tells that they give way; none where nobody does."""
    found = re.search(r"\d+ movements give way to others, by the gaps of their kind: (.*)", out)
    return found and found[1]


def study():
    with open("n.toml", "rb") as file:
        return tomllib.load(file)


def yields_of(joint):
    return {tuple(one.pop("movement")): one for one in joint["yields"]}


def bare(text):
    """The network without the lanes within its junction."""
    return re.sub(r' via="[^"]*"| intLanes="[^"]*"', lambda found: ' intLanes=""' if "int" in found[0] else "",
                  re.sub(r'<connection from=":.*/>|<request .*/>', "", text))


@pytest.mark.parametrize("phases, wanted", [((), "w to n, s to p"), (("GgGr", "rrrG"), "w to n"), (("GGGr", "rrrG"), None)])
def test_a_network_without_lanes_within_junctions_says_who_gives_way(import_net, phases, wanted):
    assert gives_way(import_net(*phases, net=bare(NET))) == wanted


def test_a_left_turn_and_a_side_street_give_way_by_the_gaps_of_their_kind(import_net):
    out = import_net(right="0101")
    assert gives_way(out) == "w to n, s to p" and UNOPPOSED not in out
    (junction,) = study()["junctions"]
    assert yields_of(junction) == {
        ("w", "n"): {"yields_to": [["e", "o"]], "kind": "major-left"},
        ("s", "p"): {"yields_to": [["e", "o"], ["w", "p"]], "kind": "minor-right", "control": "give_way"}}
    # The study is built as it stands.
    assert len(read_study("n.toml").scenario.yields) == 2 and build(read_study("n.toml")).text


def test_what_passes_of_them_is_that_of_the_formula(import_net, recording_program):
    import_net()
    found = settled_by_runs(read_study("n.toml").scenario)
    # Through 300 vehicles/h: 300·exp(-300·4.1/3600)/(1 - exp(-300·2.2/3600)) turn left, 300·exp(-300·6.2/3600)/(1 -
    # exp(-300·3.3/3600)) come out of the side street. The left turn, 1,272.8, shares its lane: 90/(90/1,272.8 + 300/1,800).
    names = {one.road: next(float(each.flow) for each in one.capacities if each.start < 3000 < each.end) for one in found.study.yields}
    assert names == {"w-n": pytest.approx(379.1, rel=0.01), "s-p": pytest.approx(744.3, rel=0.01)}


@pytest.mark.parametrize("terms, wanted", [
    ({"sign": "s"}, {"kind": "minor-right"}), ({"turn": "l"}, {"kind": "minor-left", "control": "give_way"}),
    # Who drives through and crosses nobody merges, as one who turns to the right.
    ({"turn": "s", "sign": "s"}, {"kind": "minor-right"}), ({"turn": "L", "sign": "="}, {"kind": "minor-left", "control": "give_way"}),
    ({"more": '<roundabout nodes="J" edges="w p"/>'}, {"kind": "roundabout"})])
def test_signs_turns_and_roundabouts_say_the_kind(import_net, terms, wanted):
    import_net(**terms)
    found = yields_of(study()["junctions"][0])["s", "p"]
    assert found == {"yields_to": [["w", "p"]], **wanted}


def test_an_entry_into_two_lanes_or_more_of_a_roundabout_has_the_gaps_of_those():
    one, two, three = (GivesWay({}, "roundabout", 2, 4, False, lanes).terms() for lanes in (1, 2, 3))
    assert one == {"kind": "roundabout"} and two == three
    # By Siegloch 3600/f·exp(-(c - f/2)·v/3600) pass, which the manual has as 1,420·exp(-0.00085·v) (2016, chapter 22).
    critical, follow_up = (float(two[key]) for key in ("critical_gap", "follow_up"))
    assert (3600 / follow_up, (critical - follow_up / 2) / 3600) == pytest.approx((1420, 0.00085), rel=1e-3)


def test_a_left_turn_where_three_streets_meet_has_the_gaps_of_that(import_net):
    import_net(turn="l", net=NET.replace('to="O"', 'to="W"').replace('to="P"', 'to="E"').replace('to="N"', 'to="S"'))
    found = yields_of(study()["junctions"][0])["s", "p"]
    assert found == {"yields_to": [["w", "p"]], "kind": "minor-left", "legs": 3, "control": "give_way"}


def test_who_drives_through_and_crosses_another_has_the_gaps_of_that(import_net):
    import_net(right="0101", turn="s")
    found = yields_of(study()["junctions"][0])["s", "p"]
    assert (found["yields_to"], found["kind"]) == ([["e", "o"], ["w", "p"]], "minor-through")


def test_a_left_turn_that_has_priority_over_a_side_street_counts_twice_there(import_net):
    # w to n is a left turn out of the street with priority, to which who drives through from s gives way.
    import_net(right="0011", turn="s")
    assert yields_of(study()["junctions"][0])["s", "p"]["yields_to"] == [["w", "n", 2], ["w", "p"]]


# The street before leads to the east; up to 45 degrees are no turn.
@pytest.mark.parametrize("said, before, behind, wanted", [
    ("", [(0, 0), (1, 0)], [(1, 0), (1, 1)], LEFT), ("", [(0, 0), (1, 0)], [(1, 0), (1, -1)], RIGHT),
    ("", [(0, 0), (1, 0)], [(1, 0), (2, 0.9)], THROUGH), ("", [(0, 0), (1, 0)], [(1, 0), (2, -1.1)], RIGHT),
    ("", [], [(1, 0), (1, 1)], THROUGH), ("", [(0, 0), (1, 0)], [], THROUGH), ("thru", [(0, 0), (1, 0)], [(1, 0), (1, 1)], THROUGH)])
def test_where_a_movement_turns_is_what_is_said_or_by_its_streets(said, before, behind, wanted):
    assert turn_of(said, SimpleNamespace(points=before), SimpleNamespace(points=behind)) == wanted


def test_where_one_drives_on_the_left_a_right_turn_crosses(import_net):
    import_net(net=NET.replace("<net>", '<net lefthand="true">'), turn="l")
    found = yields_of(study()["junctions"][0])
    # The letter l of w to n is a turn to the side on which one drives there.
    assert found["w", "n"]["kind"] == "minor-right" and found["s", "p"]["kind"] == "minor-right"


def test_two_streets_that_merge_are_a_merge(import_net):
    out = import_net(flows={"w p": 300, "s p": 60})
    (merge,) = study()["merges"]
    assert gives_way(out) == "s to p"
    assert (merge["yields_to"], merge["kind"], merge["control"]) == ("w", "minor-right", "give_way")


def test_streets_that_only_cross_become_one_junction(import_net):
    import_net(flows={"w n": 90, "e o": 300})
    (junction,) = study()["junctions"]
    assert junction["from"] == ["w", "e"] and junction["into"] == ["n", "o"] and junction["shares"] == [[100, 0], [0, 100]]


@pytest.mark.parametrize("terms, why", [
    ({"sign": "w"}, "at an all-way stop no stream has priority: s to p"),
    ({"sign": "Z"}, "they merge in turn with the streams that they meet: s to p"),
    ({"speed": 30}, "streams that meet at more than 80 km/h don't take gaps as on streets: s to p")])
def test_who_cant_give_way_is_told_with_the_reason(import_net, terms, why):
    out = import_net(**terms)
    assert f"  1 {UNOPPOSED}{why}\n" in out and gives_way(out) == "w to n"
    # The study has it at its junction, and it is told by each run.
    with open("n.toml") as file:
        assert "# Give way to others, and don't wait for them here: s to p" in file.read()
    assert f"1 {UNOPPOSED}{why}" in build(read_study("n.toml")).remarks


def test_a_movement_whose_others_have_no_traffic_gives_way_to_nobody(import_net):
    out = import_net(flows={"w n": 90, "w p": 300})
    assert gives_way(out) is None and UNOPPOSED not in out


@pytest.mark.parametrize("phases, wanted", [
    (("GgGr", "rrrG"), "w to n"), (("GGGr", "rrrG"), None), (("GgrG", "rrGr"), None), (("GgGr", "rrrg"), "w to n"),
    (("rrGg", "GGrr"), None)])
def test_at_a_signal_a_green_without_priority_counts_while_the_others_have_theirs(import_net, phases, wanted):
    assert gives_way(import_net(*phases)) == wanted


def test_a_green_without_priority_is_permitted_in_its_phase(import_net):
    import_net("GgGr", "rGrG")  # w to n is green without priority for 30 s, and alone then
    (junction,) = study()["junctions"]
    assert junction["phases"] == [
        {"start": 0, "green": 30, "movements": [["w", "n"], ["w", "p"], ["e", "o"]], "permitted": [["w", "n"]]},
        {"start": 30, "green": 30, "movements": [["w", "n"], ["s", "p"]]}]
    assert yields_of(junction) == {("w", "n"): {"yields_to": [["e", "o"]], "kind": "permitted-left"}}
    (one,) = read_study("n.toml").scenario.yields
    assert one.permission.permitted == [(0, 30)]


def test_a_movement_that_gives_way_in_the_shorter_of_two_greens_alone_is_told(import_net):
    net = NET.replace("{signal}", '<tlLogic id="J" type="static" programID="0" offset="0"><phase duration="10" state="rgGr"/>'
                      '<phase duration="20" state="GrGr"/><phase duration="30" state="rGrG"/><phase duration="9" state="rrrr"/></tlLogic>')
    out = import_net("", "", net=net)
    assert f"  1 {UNOPPOSED}in the green that is kept of them they don't give way: w to n\n" in out


def test_greens_between_a_least_and_a_most_follow_traffic(import_net):
    out = import_net("GGGr", "rrrG", logic="actuated", limits='minDur="5" maxDur="45"')
    (junction,) = study()["junctions"]
    assert junction["phases"] == [
        {"start": 0, "green": 30, "movements": [["w", "n"], ["w", "p"], ["e", "o"]], "actuated": {"least": 5, "most": 45, "gap": 3}},
        {"start": 30, "green": 30, "movements": [["s", "p"]]}]
    assert "1 signals follow traffic, each green between its least and its most" in out and len(read_study("n.toml").scenario.actuated) == 1


def test_a_street_alone_at_a_signal_follows_traffic_too(import_net):
    out = import_net("GGGr", "rrrG", logic="actuated", limits='minDur="0" maxDur="9999"', flows={"w p": 300})
    (signal,) = study()["signals"]
    # A green lasts a second or more, and an hour at most.
    assert signal["actuated"] == {"least": 1, "most": 3600, "gap": 3} and "1 signals follow traffic" in out
    assert len(read_study("n.toml").scenario.actuated) == 1


@pytest.mark.parametrize("phases, why", [
    (("GgGr", "rrrG"), "some are green there while they give way: J"),
    (("GrGr", "rGrG"), "movements of one approach have greens of their own: J")])
def test_greens_that_cant_follow_traffic_are_fixed_and_told(import_net, phases, why):
    out = import_net(*phases, logic="actuated", limits='minDur="5" maxDur="45"')
    assert f"1 signals that follow traffic keep the lengths of their phases as fixed ones, since {why}" in out
    assert not any("actuated" in phase for phase in study()["junctions"][0]["phases"])


def test_a_signal_of_another_sort_keeps_its_greens(import_net):
    out = import_net("GGGr", "rrrG", logic="delay_based", limits='minDur="5" maxDur="45"')
    assert "1 signals follow traffic otherwise than by a least and a most of their greens (J); the lengths of their phases are" in out


def test_a_ring_and_a_net_on_the_left_with_a_signal_that_follows_traffic(import_net, tmp_path):
    import_net("GgGr", "rrrG", logic="actuated", limits='minDur="5"', more='<roundabout nodes="J" edges="w p"/>')
    (tmp_path / "n.net.xml").write_text((tmp_path / "n.net.xml").read_text().replace("<net>", '<net lefthand="true">'))
    found = read_network(tmp_path / "n.net.xml")
    assert found.ways["s", "p"].ring == 1 and found.programs["J"].stages


def gmns(tool, tmp_path, tables):
    (tmp_path / "town").mkdir(exist_ok=True)
    for name, text in tables.items():
        (tmp_path / "town" / f"{name}.csv").write_text(text)
    return tool("import", "gmns", "town", "-o", "n.toml")


UNSIGNALLED = {name: text for name, text in TABLES.items() if not name.startswith("signal")}


@pytest.mark.parametrize("control, wanted", [
    ("yield", {"control": "give_way"}), ("stop", {}), ("stop_2_way", {}), ("no_control", None), ("", None)])
def test_the_control_of_a_movement_of_gmns_says_how_it_gives_way(tool, tmp_path, control, wanted):
    status, out, _ = gmns(tool, tmp_path, {**UNSIGNALLED, "movement": TABLES["movement"].replace("c,signal,\n", f"c,{control},\n")})
    assert status == 0
    # b comes from the north and turns left into c by its shape, which meets a to c. As neither turns right it crosses a to d, a
    # left turn out of the street with priority, which counts twice. Three streets meet.
    joints = study()["junctions"]
    if wanted is None:
        assert gives_way(out) is None and "yields" not in joints[0]
    else:
        assert yields_of(joints[0]) == {("b", "c"): {"yields_to": [["a", "c"], ["a", "d", 2]], "kind": "minor-left", "legs": 3, **wanted}}


def test_a_node_of_gmns_at_which_all_stop_is_told(tool, tmp_path):
    node = TABLES["node"].replace("y_coord\n", "y_coord,ctrl_type\n").replace("2,1609,0\n", "2,1609,0,stop_4_way\n")
    node = node.replace("1,0,0\n", "1,0,0,\n").replace("3,3218,0\n", "3,3218,0,\n").replace("4,1609,1609\n", "4,1609,1609,\n")
    movement = TABLES["movement"].replace("signal", "")
    _, out, _ = gmns(tool, tmp_path, {**UNSIGNALLED, "node": node, "movement": movement})
    assert f"3 {UNOPPOSED}at an all-way stop no stream has priority: a to c, a to d, b to c\n" in out
    _, out, _ = gmns(tool, tmp_path, {**UNSIGNALLED, "node": node.replace("stop_4_way", "stop_2_way"), "movement": movement})
    assert "1 nodes have a ctrl_type, as stop_2_way, and no movement that says which gives way: 2\n" in out


UNTIMED = "1 nodes have ctrl_type signal and no times of one, so all movements are green at all times and the delay is too low: 2\n"


def node_with(control):
    return re.sub(r"$", ",", TABLES["node"], flags=re.MULTILINE).replace("y_coord,", "y_coord,ctrl_type").replace("2,1609,0,", f"2,1609,0,{control}")


@pytest.mark.parametrize("tables, told", [
    ({**UNSIGNALLED, "node": node_with("signal")}, True), (UNSIGNALLED, True), (TABLES, False),
    ({**UNSIGNALLED, "movement": TABLES["movement"].replace("signal", "")}, False),
    ({**{name: text for name, text in UNSIGNALLED.items() if name != "movement"}, "node": node_with("Signal")}, True)])
def test_a_signal_of_gmns_without_times_is_told(tool, tmp_path, tables, told):
    status, out, _ = gmns(tool, tmp_path, tables)
    assert status == 0 and (UNTIMED in out) == told


@pytest.mark.parametrize("control", ["stop", "yield", "stop_4_way"])
def test_a_node_of_gmns_without_movements_does_not_lose_its_control_without_a_word(tool, tmp_path, control):
    tables = {name: text for name, text in UNSIGNALLED.items() if name != "movement"}
    _, out, _ = gmns(tool, tmp_path, {**tables, "node": node_with(control)})
    assert f"1 nodes have a ctrl_type, as {control}, and no movement that says which gives way: 2\n" in out


def test_a_node_of_gmns_where_nobody_has_priority_is_told(tool, tmp_path):
    _, out, _ = gmns(tool, tmp_path, {**UNSIGNALLED, "movement": TABLES["movement"].replace("signal", "stop")})
    assert "3 movements give way by their ctrl_type, and so do all that they meet, so none has priority: a to c, a to d, b to c\n" in out


def test_a_control_that_gmns_doesnt_know_is_refused_with_its_place(tool, tmp_path):
    status, _, err = gmns(tool, tmp_path, {**TABLES, "movement": TABLES["movement"].replace("c,signal,\n", "c,yeld,\n")})
    assert status == 2 and 'movement.csv: line 4, ctrl_type: expected no_control, signal, yield, stop, stop_2_way, stop_4_way' in err
    assert 'found "yeld"' in err and not (tmp_path / "n.toml").exists()


# In the ring beside it a first phase and 5 s, and then from 15 to 45 s or from 35 to 65 s the one of the street that a to d meets.
@pytest.mark.parametrize("first, wanted", [(10, {("b", "c")}), (30, set())])
def test_a_permitted_phase_of_gmns_gives_way_to_greens_that_begin_within_it(tool, tmp_path, first, wanted):
    phases = TABLES["signal_timing_phase"].partition("p4")[0] + f"p5,day,5,{first},5,2,1,1\np6,day,6,30,5,2,1,2\n"
    gmns(tool, tmp_path, {**TABLES, "signal_timing_phase": phases, "signal_phase_mvmt": TABLES["signal_phase_mvmt"].replace("p4", "p6")})
    found = read_folder(tmp_path / "town")
    assert found.ways["a", "d"].permitted == [(0, 25)] and found.ways["a", "d"].yields == wanted


def test_a_permitted_phase_of_gmns_gives_way_in_its_green(tool, tmp_path):
    _, out, _ = gmns(tool, tmp_path, {**TABLES, "signal_phase_mvmt": TABLES["signal_phase_mvmt"].replace(
        "p2,2,permitted\np4,3", "p2,2,permitted\np2,3")})
    assert gives_way(out) == "a to d"
    (junction,) = study()["junctions"]
    assert junction["phases"][0]["permitted"] == [["a", "d"]]
