"""From a study to the text of its network file, its units, and what was rounded; its demand, step by step."""

from __future__ import annotations

from collections import Counter
from collections.abc import Iterable, Iterator, Sequence
from dataclasses import dataclass, field, replace
from fractions import Fraction
from itertools import groupby

from ..network_file.faults import NAME, fault_of_made
from ..network_file.kinds import COUNTED, KINDS, MOST_PARTS, MOST_RECORDS, NAME_RULE, Record, headings, record
from ..network_file.network import Network, fault_line
from ..network_file.records import read_records
from ..problem import Problem
from ..texts.amounts import PARTS, rounded_parts
from ..texts.quantities import HOUR
from ..units import Units, clock_text
from ..visible import visible
from .approaches import note_approaches
from .junctions import Junctions
from .layout import Layout, RoadCell, Stretch
from .limits import Limits
from .plan import Scenario, Section
from .plausible import implausible
from .scale import Rounding, Scale, rounded_text
from .signals import Signals
from .speeds import Speeds

MADE = "# Made by ctm-tools build"
DEMAND = f"\n# {headings('demand')}\n".encode()
MOST_FREE = 8  # of those who give way a network without it names so many
FIXED = "are as long as `green` says in this network"


@dataclass
class Built:
    """A network made of a study, its units, what was rounded, and remarks on what it is made of.

    `warnings` are lines on what of the study isn't in the network, and on what in it can hardly be meant.
    """

    network: Network = field(repr=False)
    units: Units
    rounding: Rounding = field(repr=False)
    remarks: list[str] = field(repr=False, default_factory=list)
    warnings: list[str] = field(repr=False, default_factory=list)

    @property
    def text(self) -> str:
        """The text of the network's file."""
        return self.network.content.decode()


def build(study: Scenario, shares_follow: bool = False) -> Built:
    """The network of a study. Shares that go by trips are even in it, and refused where they aren't said to follow."""
    try:
        if study.by_trips and not shares_follow:
            raise Problem(f"{study.by_trips[0]}.shares: are left out, so they follow from the trips; `ctm-tools assign` finds "
                          "them")
        return Builder(study).build()
    except Problem as problem:
        raise Problem(f"{study.path}: {problem}") from None


class Builder:
    """Makes the text of a study's network, sort by sort."""

    def __init__(self, study: Scenario) -> None:
        _check_names(study)
        self.study = study
        self.rounding = Rounding()
        self.layout = Layout(study, self.rounding)
        self.scale = Scale(study, self.rounding)
        self.junctions = Junctions(study, self.layout, self.scale)
        self.limits = Limits(study, self.junctions, self.scale)
        self.speeds = Speeds(study, self.junctions, self.scale)
        self.signals = Signals(study, self.junctions, self.scale, self.limits)

    def build(self) -> Built:
        """The built network."""
        sections = self.sections()
        records = [record("steps", self.scale.steps), *(one for _, own in sections for one in own)]
        lines = [*self._head(), f"ctm,{form_of(records)}", records[0].text]
        for comment, own in sections:
            lines += ["", f"# {comment}", *(one.text for one in own)] if own else []
        network = Network(self.scale.steps, records, "".join(f"{line}\n" for line in lines).encode())
        _check(network)
        remarks = [*self.study.remarks, *self._opened(), *self.limits.overlaps(), *self.speeds.remarks(), *self.signals.remarks]
        warnings = [*self._left_out(), *self.speeds.idle(), *implausible(self.study, self.layout)]
        return Built(network, self._units(), self.rounding, remarks, warnings)

    def sections(self) -> list[tuple[str, list[Record]]]:
        """The records behind that of the steps, sort by sort, each sort with the comment that names its fields."""
        made: list[tuple[str, Iterable[Record]]] = [
            (headings("gate"), self._gates()), (headings("road"), self._roads()), (headings("exit"), self._exits()),
            (headings("link", "merge", "diverge", "turn"), [*self.junctions.connectors, *self.junctions.turns]),
            (headings("signal"), self.signals.records), (headings("limit"), self.limits.records()),
            (headings("speed"), self.speeds.records()), (headings("demand"), demands(self.study, self.scale))]
        return [(comment, list(records)) for comment, records in made]

    def _left_out(self) -> Iterator[str]:
        """What of the study isn't in the network: meters with feedback and who gives way."""
        for meter in self.study.meters:
            yield (f"{meter.place}: a meter with feedback is run by `ctm-tools meter` alone; ramp {meter.ramp} isn't "
                   "metered here")
        for junction in self.study.actuated:
            yield f"{junction.place}: its greens {FIXED}; `ctm-tools run` has them follow traffic"
        free = [one.name for one in self.study.yields if one.capacities is None]
        for name in free[:MOST_FREE]:
            yield f"{name}: doesn't give way in this network; `ctm-tools run` works out what passes, and writes the network with it"
        if len(free) > MOST_FREE:
            yield f"and {len(free) - MOST_FREE} more that don't give way in this network"

    def _opened(self) -> Iterator[str]:
        """What an opening makes of the room of its cells, which a closed lane has too."""
        for opening in self.study.openings:
            cells = self.junctions.cells_of(opening.part)
            yield (f"{opening.part.place}: road {opening.part.road} from km {rounded_text(cells[0].start)} to "
                   f"{rounded_text(cells[-1].end)} has the room of the opened lanes at all times")

    def _head(self) -> Iterator[str]:
        """The comment that says the units."""
        study = self.study
        step = float(study.step)
        yield f"{MADE} from {visible(study.path.name)}: {study.title}"
        yield "#"
        yield (f"# A step is {step:g} s; step 0 is {clock_text(float(study.start))}. Amounts are vehicles, Q and "
               f"demand in a step: 1 is {3600 / step:g} vehicles/h.")
        for road, cells in self.layout.cells.items():
            for part, section in zip(self.layout.stretches[road], study.roads[road].sections):
                names = dict.fromkeys([cells[part.first].name, cells[part.first + part.count - 1].name])
                yield (f"# {' to '.join(names)}: road {road}, {section.lanes} lane{'s'[:section.lanes != 1]}, cells of "
                       f"{float(part.length) * 1000:g} m, {float(section.free_flow_speed):g} km/h, waves "
                       f"{float(section.wave_speed):g} km/h; in a lane {float(section.jam_density):g} vehicles/km and "
                       f"{float(section.saturation_flow):g} vehicles/h")
            for opened, group in groupby(cells, lambda cell: cell.opened):
                row = list(group)
                if opened:
                    names = dict.fromkeys([row[0].name, row[-1].name])
                    yield f"# {' to '.join(names)}: with room for {float(opened):g} more, opened at times"
        yield ""

    def _capacity(self, what: str, flow: Fraction | None, cells: Iterable[str]) -> int:
        """The parts that pass in a step: of a flow where it is said, else as much as the cells beside it."""
        if flow is not None:
            return self.scale.flow(what, flow)
        known = {cell.name: cell.most for row in self.layout.cells.values() for cell in row}
        found = [known[name] for name in cells if name in known]
        if not found:
            raise Problem(f"{what}: is missing, and no road stands beside it")
        return sum(found)

    def _gates(self) -> Iterator[Record]:
        for gate in self.study.gates.values():
            downs = self.junctions.led_to(gate.name)
            capacity = self._capacity(f"gates.{gate.name}.capacity", gate.capacity, downs)
            yield record("gate", gate.name, capacity, rounded_parts(gate.first))

    def _roads(self) -> Iterator[Record]:
        for road, cells in self.layout.cells.items():
            for cell in cells:
                yield record("road", cell.name, cell.room, cell.capacity, *cell.ratio.as_integer_ratio(), cell.first)
            for part, section in zip(self.layout.stretches[road], self.study.roads[road].sections):
                self._note_section(f"of road {road} from km {float(part.start):g}", section, cells[part.first], part)

    def _note_section(self, where: str, section: Section, cell: RoadCell, part: Stretch) -> None:
        note, lanes = self.rounding.note, section.lanes
        note(f"wave speed {where}", section.wave_speed, cell.ratio * section.free_flow_speed, "km/h")
        note(f"jam density {where}", section.jam_density * (lanes + cell.opened),
             Fraction(cell.room, PARTS) / part.length, "vehicles/km")
        note(f"saturation flow {where}", section.saturation_flow * lanes,
             Fraction(cell.capacity, PARTS) * HOUR / self.study.step, "vehicles/h")

    def _exits(self) -> Iterator[Record]:
        for exit_ in self.study.exits.values():
            ups = [up for up, (downs, _) in self.junctions.out_of.items() if exit_.name in downs]
            capacity = self._capacity(f"exits.{exit_.name}.capacity", exit_.capacity, ups)
            yield record("exit", exit_.name, capacity)

    def _units(self) -> Units:
        units = Units(title=self.study.title, step=float(self.study.step), start=float(self.study.start), cycles=self.signals.cycles,
                      crs=self.study.crs, date=None if self.study.date is None else self.study.date.isoformat())
        for road, row in self.layout.cells.items():
            units.roads[road] = [cell.name for cell in row]
            if self.study.roads[road].points:
                units.points[road] = self.study.roads[road].points
            for cell in row:
                section = cell.section
                units.cells[cell.name] = {"road": road, "from_km": float(cell.start), "to_km": float(cell.end),
                                          "lanes": section.lanes, "free_flow_kmh": float(section.free_flow_speed),
                                          "wave_kmh": float(section.wave_speed)}
        note_approaches(self.study, units)
        return units


def _check_names(study: Scenario) -> None:
    for name in [*study.gates, *study.exits]:
        if not NAME.fullmatch(name):
            raise Problem(f"{name}: a gate's or an exit's name is {NAME_RULE}")
        if name in study.roads or name in study.gates and name in study.exits:
            raise Problem(f"{name}: a road, a gate and an exit have names of their own")


def form_of(records: Iterable[Record]) -> int:
    """The first format that a file with these records may be of."""
    counts = Counter(record.kind for record in records)
    sorts = Counter(record.sort for record in records)
    forms = [KINDS[kind].form for kind in counts]
    return max([2 if any(sorts[sort] > MOST_RECORDS[1] for sort in COUNTED) else 1, *forms])


def _check(network: Network) -> None:
    """The problem of a built network that the program would refuse, as one with too many cells."""
    fault = fault_of_made(form_of(network.records), network.records)
    if fault:
        raise Problem("the built network has a fault: " + fault_line(network.content, read_records(network.content), fault))


def demands(study: Scenario, scale: Scale) -> Iterator[Record]:
    """A record for each flow that comes to a gate before the study's end."""
    lasting = study.duration
    for gate in study.gates.values():
        asked = modelled = Fraction(0)
        for i, demand in enumerate(gate.demand, 1):
            what = f"gates.{gate.name}.demand[{i}]"
            begin, end = scale.span(what, demand.start, min(demand.end, lasting))
            parts = scale.flow(what, demand.flow)
            asked += demand.flow * (min(demand.end, lasting) - demand.start) / HOUR
            modelled += Fraction(parts * (min(end, scale.steps) - begin), PARTS)
            if parts:
                yield record("demand", gate.name, begin, end, parts)
        scale.rounding.note(f"vehicles that come to gate {gate.name}", asked, modelled, "vehicles")


class BuiltOnce:
    """The network of a study as it stands, and those of studies that differ from it by their demand alone, as draws may."""

    def __init__(self, study: Scenario) -> None:
        self.study, self.built = study, build(study)
        network = self.built.network
        self.records = [one for one in network.records if one.kind != "demand"]
        self.head = network.content.partition(DEMAND)[0]
        self.first = sum(one.named["first"] for one in self.records if one.kind in ("road", "gate"))
        own, _ = self._demand(study)
        duration, *_ = own.notes  # which is the study's
        self.notes = [note for note in self.built.rounding.notes if note == duration or note not in own.notes]

    def with_demand(self, study: Scenario) -> Built:
        """The network with the demand of another study."""
        rounding, made = self._demand(study)
        if self._is_beyond(made):
            return build(study)  # which says why there is none
        text = DEMAND + b"".join(f"{one.text}\n".encode() for one in made) if made else b""
        network = Network(self.built.network.steps, [*self.records, *made], self.head + text)
        rounding.notes = {**dict.fromkeys(self.notes), **rounding.notes}
        return replace(self.built, network=network, rounding=rounding)

    def _demand(self, study: Scenario) -> tuple[Rounding, list[Record]]:
        """The records of a study's demand, and what is rounded in them."""
        rounding = Rounding()
        return rounding, list(demands(study, Scale(study, rounding)))

    def _is_beyond(self, made: Sequence[Record]) -> bool:
        """Whether there may be a fault in a demand, or so many that the file has another format."""
        parts = sum(one.named["amount"] * (one.named["to"] - one.named["from"]) for one in made)
        return self.first + parts > MOST_PARTS or len(made) > MOST_RECORDS[1]
