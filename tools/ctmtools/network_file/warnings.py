"""A network file examined: what the program says of it, the first fault explained, and what no refusal covers as warnings."""

from __future__ import annotations

from collections.abc import Collection, Iterable, Iterator, Mapping, Sequence
from dataclasses import dataclass, field

from ..problem import Problem
from ..program.calls import News, ask, why
from ..texts.amounts import PARTS
from ..units import Units, units_path
from .checksums import check_network
from .faults import Fault, first_fault
from .kinds import NUMBERS, Record
from .naming import Naming
from .network import Network, clipped, fault_line, network_of
from .records import FileRecord, line_of, read_records, text_of_line

FAR_ABOVE = 2  # a demand is far above a gate's capacity from this many times it on
RANGED = ("demand", "limit", "turn", "speed")  # the kinds of records that are of some steps
SUPPOSED_STEP = 10  # seconds, in a warning's example where the step isn't known
MOST_OF_A_KIND = 5  # of each kind of warning so many are printed, and the others counted
MOST_SHOWN = 100  # letters of a line of the file


@dataclass(frozen=True)
class Warning:
    """A warning: its kind, the line that it is of, and a text of one sentence or two."""

    kind: str
    line: int
    text: str


def warnings_of(network: Network, units: Units | None = None) -> list[Warning]:
    """The warnings of a network without a fault, in the order of the file's lines within each kind.

    They are in roads, kilometres, clock times and vehicles/h where the units of the network know these.
    """
    naming = Naming(network, units)
    found: list[Warning] = []
    for check in (_dead_ends, _unreached, _gates_without_demand, _high_demands, _late, _twice, _overlapping,
                  _short_of_capacity, _high_limits, _never_green):
        found += sorted(check(network, naming), key=lambda warning: warning.line)
    return found


def shortened(warnings: Sequence[Warning], lines: bool = True) -> list[str]:
    """The warnings as lines of text, the first few of each kind and the number of the others.

    Without `lines` they don't say where in the network file they are of, as for a study.
    """
    told: list[str] = []
    for kind in dict.fromkeys(warning.kind for warning in warnings):
        own = [warning for warning in warnings if warning.kind == kind]
        told += [f"line {warning.line}: {warning.text}" if lines else warning.text for warning in own[:MOST_OF_A_KIND]]
        if len(own) > MOST_OF_A_KIND:
            told.append(f"and {len(own) - MOST_OF_A_KIND} more: {kind}")
    return told


def _line(network: Network, cell: str) -> int:
    return network.line(network.of_cells[cell]["record"])


def _dead_ends(network: Network, naming: Naming) -> Iterator[Warning]:
    """Roads and gates that nothing leads out of."""
    names = list(network.kinds)
    for number, (cell, kind) in enumerate(network.kinds.items()):
        if kind == "exit" or network.downs[cell]:
            continue
        place = naming.place(cell)
        if place:
            yield Warning("dead ends", _line(network, cell),
                          f"road {place['road']} at km {place['to_km']:.6g} leads neither to an exit nor to a road, "
                          "so vehicles that come there stay")
            continue
        follower = _follower(network, names, number)
        hint = f" Is a link,{cell},{follower} forgotten?" if follower else ""
        yield Warning("dead ends", _line(network, cell),
                      f"the {kind} {cell} is a dead end: nothing leads out of it, so what comes in stays.{hint}")


def _follower(network: Network, names: Sequence[str], number: int) -> str | None:
    """The next cell in the file, where nothing leads into it: a link to it may be forgotten."""
    if number + 1 < len(names):
        following = names[number + 1]
        if network.kinds[following] != "gate" and not network.ups[following]:
            return following
    return None


def _unreached(network: Network, naming: Naming) -> Iterator[Warning]:
    """Roads and exits that no vehicle comes to; of cells that lead to each other the first alone is reported."""
    reached = {gate for _, (gate, begin, _, amount) in network.numbered("demand") if amount > 0 and begin < network.steps}
    reached |= {cell for cell, row in network.of_cells.items() if row["kind"] == "gate" or row["first"] > 0}
    _spread(network.downs, reached)
    told = set(reached)
    first = [cell for cell in network.kinds if all(up in reached for up in network.ups[cell])]
    for cell in [*first, *network.kinds]:  # those that begin a chain, and then those of rings
        if cell in told:
            continue
        behind = {cell}
        _spread(network.downs, behind, told)
        told |= behind
        more = f", nor {len(behind) - 1} more behind it" if len(behind) > 1 else ""
        yield Warning("cells that nothing reaches", _line(network, cell),
                      f"no vehicle ever reaches {naming.cell(cell)}{more}: no gate leads to it")


def _spread(downs: Mapping[str, Iterable[str]], cells: set[str], barred: Collection[str] = frozenset()) -> None:
    """Adds to a set of cells all that can be reached from them, but for those that are barred."""
    waiting = list(cells)
    while waiting:
        for down in downs[waiting.pop()]:
            if down not in cells and down not in barred:
                cells.add(down)
                waiting.append(down)


def _gates_without_demand(network: Network, naming: Naming) -> Iterator[Warning]:
    fed = {gate for _, (gate, *_) in network.numbered("demand")}
    for cell, row in network.of_cells.items():
        if row["kind"] == "gate" and cell not in fed and not row["first"]:
            yield Warning("gates without demand", _line(network, cell), f"the gate {cell} has no demand: no vehicle comes")


def _high_demands(network: Network, naming: Naming) -> Iterator[Warning]:
    """Demands far above the greatest capacity that their gates ever have."""
    step = naming.units.step
    seconds = step or SUPPOSED_STEP
    told = f"with {'the' if step else 'a'} step of {seconds:g} s"
    most = dict(network.capacities)
    for _, (cell, _, _, capacity) in network.numbered("limit"):
        most[cell] = max(most[cell], capacity)
    for number, (gate, begin, _, amount) in network.numbered("demand"):
        if amount <= FAR_ABOVE * most[gate]:
            continue
        if naming.of_study:
            text = (f"the demand of gate {gate} from {naming.time(begin)} on, {naming.flow(amount)}, is far "
                    f"above its capacity of {naming.flow(most[gate])}")
        else:
            text = (f"the demand of {amount:g} in a step is far above the gate {gate}'s Q of "
                    f"{most[gate]:g}. A demand is vehicles in a step; {told}, {amount:g} vehicles/h are "
                    f"{amount * seconds / 3600:.6g}.")
        yield Warning("demands far above a gate's capacity", network.line(number), text)


def _late(network: Network, naming: Naming) -> Iterator[Warning]:
    for kind in RANGED:
        for number, (_, begin, *_) in network.numbered(kind):
            if begin >= network.steps:
                yield Warning("ranges behind the last step", network.line(number),
                              f"this {kind} begins behind the last step, {network.steps - 1}, so it does nothing")


def _twice(network: Network, naming: Naming) -> Iterator[Warning]:
    """Records that stand twice; only those that the program accepts twice are left: demands, limits, turns and speeds."""
    seen: dict[Record, int] = {}
    for number, record in enumerate(network.records, 2):
        if record in seen:
            does = "their amounts add up" if record.kind == "demand" else "the second does nothing"
            text = f"{record.text} stands in line {network.line(seen[record])} too; {does}."
            if naming.of_study:
                cell, begin = record.values[:2]
                text = f"two {record.kind}s of {cell} are the same from {naming.time(begin)} on; {does}"
            yield Warning("records that stand twice", network.line(number), text)
        else:
            seen[record] = number


def _overlapping(network: Network, naming: Naming) -> Iterator[Warning]:
    """Demands, limits, turns and speeds of one cell whose ranges overlap, but for those that stand twice."""
    for kind in RANGED:
        does = "their amounts add up" if kind == "demand" else "the last one in the file holds there"
        for cell, begin, record, other in _overlaps(network, kind):
            where = "" if naming.of_study else f", with line {network.line(other)}"
            yield Warning(f"{kind}s that overlap", network.line(record),
                          f"the {kind}s of {cell} overlap from {naming.time(begin)} on{where}; {does}")


def _overlaps(network: Network, kind: str) -> Iterator[tuple[str, int, int, int]]:
    """Where ranges of a cell overlap: the cell, from which step, and the numbers of both records, the later first."""
    # Of the cell's ranges so far the one that reaches farthest: its cell, end, the record's number and the record.
    last: tuple[str, int, int, Record] | None = None
    for number, (cell, begin, end, *_) in sorted(network.numbered(kind), key=lambda one: one[1][:2]):
        record = network.records[number - 2]
        same = last if last and last[0] == cell else None
        if same and begin < same[1] and record != same[3]:
            yield cell, begin, max(number, same[2]), min(number, same[2])
        if not same or end > same[1]:
            last = cell, end, number, record


def _lasting(network: Network) -> dict[str, float]:
    """The greatest lasting flow of each road, N·A/(A + B), in vehicles a step."""
    return {cell: row["N"] * row["A"] / (row["A"] + row["B"]) for cell, row in network.of_cells.items() if row["kind"] == "road"}


def _short_of_capacity(network: Network, naming: Naming) -> Iterator[Warning]:
    """Roads whose greatest lasting flow is below Q; of a study's road the cells that are alike together."""
    groups: dict[tuple[str, float, float], list[str]] = {}
    for cell, flow in _lasting(network).items():
        most = network.capacities[cell]
        if most - flow > max(most / 1_000_000, 1 / PARTS):
            place = naming.place(cell)
            groups.setdefault((place["road"] if place else cell, flow, most), []).append(cell)
    for (road, flow, capacity), cells in groups.items():
        text = (f"the road {road} can carry N·A/(A + B) = {naming.flow(flow)} for long, which is below its Q of "
                f"{capacity:g}")
        if naming.place(cells[0]):
            text = (f"{naming.cell(cells[0], cells[-1])} can carry {naming.flow(flow)} for long by its jam density and "
                    f"its speeds, which is below its saturation flow of {naming.flow(capacity)}")
        yield Warning("roads that can't carry Q for long", _line(network, cells[0]), text)


def _high_limits(network: Network, naming: Naming) -> Iterator[Warning]:
    """Limits above what their road can carry for long."""
    lasting = _lasting(network)
    for number, (cell, begin, _, most) in network.numbered("limit"):
        if cell in lasting and most > max(lasting[cell] * (1 + 1e-6), network.capacities[cell]):
            yield Warning("limits above what a road can carry for long", network.line(number),
                          f"the limit of {cell} from {naming.time(begin)} on, {naming.flow(most)}, is above the "
                          f"{naming.flow(lasting[cell])} that it can carry for long, N·A/(A + B)")


def _never_green(network: Network, naming: Naming) -> Iterator[Warning]:
    """Signals that are green in no step of the run."""
    for number, (cell, cycle, offset, begin, end) in network.numbered("signal"):
        steps = range(min(network.steps, cycle))
        if not any(begin <= (step + offset) % cycle < end for step in steps):
            whole = "the study" if naming.of_study else f"the run of {network.steps}"
            yield Warning("signals that are never green", network.line(number),
                          f"the signal of {cell} is green in no step of the run: its cycle of {naming.lasting(cycle)} "
                          f"is longer than {whole}")


@dataclass
class Findings:
    """What was found: the program's own line, the fault in one line with the line of the file, or the warnings."""

    answer: str
    fault: str = ""
    shown: str = ""
    warnings: list[Warning] = field(default_factory=list)


def examine(content: bytes, name: str, news: News | None = None, units: Units | None = None) -> Findings:
    """The findings on the bytes of a network file; `units` are those of the network, where they are known."""
    answer = ask(("check",), content, news=news)
    if answer.status == 0:
        network = network_of(content, name)
        check_network(network, units or Units(), name, units_path(name))
        return Findings(answer.out.decode().strip(), warnings=warnings_of(network, units))
    if answer.status != 3:
        raise Problem(f"{name}: {why(answer)}")
    records = read_records(content)
    fault = first_fault(records)
    own = f"ctm: network: record {fault.record} code {NUMBERS[fault.code]} {fault.code}" if fault else "no fault"
    if fault is None or own != answer.line:
        raise Problem(f"{name}: {answer.line}; these tools find {own}, so no hint can be given")
    return Findings(answer.line, fault_line(content, records, fault), _shown(content, records, fault))


def _shown(content: bytes, records: Sequence[FileRecord], fault: Fault) -> str:
    """The line of the file that the fault stands in, as far as it goes on a screen."""
    if fault.record > len(records):
        return ""
    line = line_of(content, records[fault.record - 1].place)
    return f"{line:6d} | {clipped(text_of_line(content, line).expandtabs(2), MOST_SHOWN)}"
