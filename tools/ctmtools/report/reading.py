"""The text of a report, as data frames in the program's own units, and whether it is of the units and the network beside it.

A report is the proved program's text and has no room for a checksum. So the file of units keeps that of its network, and of
the report that was last written beside it that of the report and of the network that it was run of. A report that was made
by hand is held against the network: its steps, its cells, and what came to each gate.
"""

from __future__ import annotations

from collections.abc import Iterable
from dataclasses import dataclass, field
from functools import cached_property
from pathlib import Path
from typing import TYPE_CHECKING, NamedTuple

import numpy

from ..arrays import Numbers, Wholes
from ..files.reading import kind_of, read_bytes
from ..network_file.checksums import check_network, checksum, of_runs, units_of
from ..network_file.network import Network, network_of, read_network
from ..problem import Problem
from ..texts.amounts import PARTS
from ..units import Units, read_units, units_path
from ..visible import visible
from .records import Records, TextRecords

if TYPE_CHECKING:
    import pandas

MOST_HEAD = 100  # letters of a report's first line
ADVICE = "run the network again, or build the study as it was"


class Amounts(NamedTuple):
    """What the program says of each cell at the last step: what it holds, has got and let go, in vehicles, and vehicle-steps waited."""

    n: Numbers
    come: Numbers
    gone: Numbers
    wait: Numbers


class Sums(NamedTuple):
    """What the program says of the whole network at the last step, in vehicles, and the delay in vehicle-steps."""

    inside: float
    entered: float
    left: float
    delay: float


@dataclass(eq=False, repr=False)
class Report:
    """A report, with its units and its network where these are known.

    `names` are those of the cells, and `amounts` what is said of each at the last step, which `cells` has as a frame; `sums`, and
    `total` as a series, have inside, entered, left (vehicles) and delay (vehicle-steps), which `delay_vehicle_hours` has in vehicle-hours.
    `records` are the recorded steps; what follows from them is worked out when it is first asked for.
    """

    steps: int
    names: list[str]
    amounts: Amounts
    sums: Sums
    records: Records
    units: Units = field(default_factory=Units)
    network: Network | None = None
    name: str = ""

    def __repr__(self) -> str:
        recorded = f"recorded {len(self.times)} times" if self.recorded else "without records"
        return f"<Report {self.title!r}: {len(self.names)} cells, {self.steps} steps, {recorded}>"

    @property
    def recorded(self) -> bool:
        """Whether the report has records, which a run with --every gives."""
        return len(self.records) > 1

    @property
    def times(self) -> Wholes:
        """The recorded steps."""
        return self.records.times

    @property
    def delay_vehicle_hours(self) -> float:
        """The delay of all cells in vehicle-hours, or the problem that the seconds of a step aren't known."""
        if not self.units.known:
            raise Problem(f"{self.name}: the units aren't known, so the delay is {self.sums.delay:g} vehicle-steps")
        return float(self.units.hours(self.sums.delay))

    @property
    def title(self) -> str:
        """The title of the study, or the name of the file."""
        return self.units.title or visible(Path(self.name).stem)

    @cached_property
    def cells(self) -> pandas.DataFrame:
        """n, come, gone (vehicles) and wait (vehicle-steps) at the last step, by the cell's name."""
        import pandas  # here and below, so that a run of which no frame is asked doesn't load it

        return pandas.DataFrame(self.amounts._asdict(), index=pandas.Index(self.names, name="cell"))

    @cached_property
    def total(self) -> pandas.Series:
        """The sums, by name."""
        import pandas

        return pandas.Series(self.sums._asdict())

    @cached_property
    def vehicles(self) -> pandas.DataFrame:
        """The vehicles that each cell holds: a row for each recorded step, a column for each cell."""
        return self._by_time(self.records.vehicles / PARTS, self.times)

    @cached_property
    def left(self) -> pandas.DataFrame:
        """All vehicles that have left each cell until each recorded step, as `vehicles`."""
        return self._by_time(self.records.left / PARTS, self.times)

    @cached_property
    def flow(self) -> pandas.DataFrame:
        """Vehicles a step that leave each cell from a recorded step to the next, indexed by the first of both."""
        return self._by_time(self.passed / self.lasting, self.times[:-1])

    @cached_property
    def held(self) -> pandas.DataFrame:
        """Vehicles in each cell in the mean from a recorded step to the next, as `flow`."""
        return self._by_time(self.spent / self.lasting, self.times[:-1])

    def _by_time(self, values: Numbers, times: Wholes) -> pandas.DataFrame:
        import pandas

        return pandas.DataFrame(values, index=times, columns=self.names)

    @cached_property
    def lasting(self) -> Wholes:
        """The steps from each recorded step to the next, as a column."""
        return numpy.diff(self.times)[:, None]

    @cached_property
    def passed(self) -> Numbers:
        """Vehicles that leave each cell from a recorded step to the next: a row for each of these, a column for each cell."""
        return numpy.diff(self.records.left, axis=0) / PARTS

    @cached_property
    def waited(self) -> Numbers:
        """Vehicle-steps that each cell's vehicles wait from a recorded step to the next, as `passed`.

        Those of a cell add up to what the program says of it, `wait`. Where each step is recorded they are what stays in the cell.
        Else they are in proportion to what the cell would hold beyond what leaves it, had what it holds changed evenly, and where
        that is nowhere anything evenly over time.
        """
        waited: Numbers = self._held() - numpy.diff(self.records.left, axis=0)
        numpy.maximum(waited, 0, out=waited)
        whole, wait = waited.sum(axis=0), numpy.rint(self.amounts.wait * PARTS)
        waited *= wait / numpy.where(whole > 0, whole, 1)
        if (lost := (whole <= 0) & (wait > 0)).any():
            waited[:, lost] = self.lasting / self.lasting.sum() * wait[lost]
        waited /= PARTS
        return waited

    @cached_property
    def spent(self) -> Numbers:
        """Vehicle-steps that are spent in each cell from a recorded step to the next, as `passed`.

        Who leaves a cell has driven in it for a step, and all other time is waiting. An exit lets nobody go, so there it is what the
        exit holds.
        """
        spent = self.passed + self.waited
        if len(kept := self._exits):
            spent[:, kept] = self._held(kept) / PARTS
        return spent

    def _held(self, places: Wholes | slice = slice(None)) -> Numbers:
        """The sums over the steps from a recorded step to the next of the parts in cells, if these changed evenly between them."""
        held = self.records.vehicles[:, places]
        if (self.lasting == 1).all():
            return held[:-1].astype(float)
        sums: Numbers = held[:-1] * self.lasting + numpy.diff(held, axis=0) * ((self.lasting - 1) / 2)
        return sums

    @cached_property
    def _exits(self) -> Wholes:
        """The places of the exits, or without a network of cells that nobody leaves and in which nobody waits."""
        if self.network is not None:
            return numpy.flatnonzero([self.network.kinds.get(cell) == "exit" for cell in self.names])
        return numpy.flatnonzero((self.amounts.gone == 0) & (self.amounts.wait == 0))

    @cached_property
    def free_parts(self) -> Numbers:
        """The part of its own free-flow speed that each cell has from a recorded step to the next, as `passed`.

        It is 1 but where a speed limit holds.
        """
        parts = numpy.ones((len(self.times) - 1, len(self.names)))
        for cell, pace in (self.network.paces if self.network else {}).items():
            if cell in self._numbers:  # of a part of the network
                parts[:, self.place(cell)] = pace.mean(self.times)
        return parts

    @cached_property
    def slowed(self) -> Numbers:
        """Vehicle-steps that those who leave each cell have lost by driving at its speed limit, as `passed`.

        They are a part of what the program counts as delay, which is the time beyond one step in a cell.
        """
        return self.passed * (1 / self.free_parts - 1)

    @property
    def lengths(self) -> Numbers:
        """The length of each cell in km, or 1 where the seconds of a step aren't known; lacking where a cell has none, as a gate."""
        if self.units.step is not None:
            return numpy.array([self.units.length(cell) or numpy.nan for cell in self.names])
        kinds = self.network.kinds if self.network else {}
        return numpy.array([1.0 if kinds.get(cell, "road") == "road" else numpy.nan for cell in self.names])

    @cached_property
    def _numbers(self) -> dict[str, int]:
        return {name: number for number, name in enumerate(self.names)}

    def place(self, cell: str) -> int:
        """The number of a cell, from 0."""
        return self._numbers[cell]

    def places(self, cells: Iterable[str]) -> Wholes:
        """The numbers of cells, from 0."""
        return numpy.array([self._numbers[cell] for cell in cells], dtype=int)

    def part(self, places: Wholes) -> Report:
        """The report of the cells with these numbers alone; the amounts of others aren't read for it."""
        names = [self.names[place] for place in places.tolist()]
        return Report(self.steps, names, Amounts(*(column[places] for column in self.amounts)), self.sums, self.records.of(places), self.units,
                      self.network, self.name)

    @cached_property
    def waiting(self) -> Report:
        """The report of those cells alone in which anyone has waited."""
        return self.part(numpy.flatnonzero(self.amounts.wait > 0))

    def need_records(self) -> None:
        """The problem of a report without records, where there are none."""
        if not self.recorded:
            raise Problem(f"{self.name}: the report has no records; `ctm-tools run` and `ctm run --every E` write them")

    def need_network(self) -> Network:
        """The network, or the problem that it isn't known."""
        if self.network is None:
            raise Problem(f"{self.name}: the network of this report isn't known; name its file with --network")
        return self.network


def read_report(path: str | Path, units: str | Path | None = None, network: str | Path | None = None) -> Report:
    """The report in a file, in vehicles and steps, with the units that stand beside it and the network they name.

    `units` and `network` are paths that are taken in place of these. A network is also found beside the report, under
    its name with the ending .csv.
    """
    path = Path(path)
    content = read_bytes(path)
    report = report_of(content, str(path))
    report.records.read()
    units_file = Path(units) if units else units_path(path)
    if units and not units_file.exists():
        raise Problem(f"{units_file}: no such file or directory")
    report.units = read_units(units_file)
    by_run = check_report(report, content, path, units_file)
    report.network = _network_beside(path, units_file, report, network)
    if by_run and report.network is not None:
        check_run(report, report.network, network or report.units.network.path or path.with_suffix(".csv"))
    if report.network is not None and not report.units.known and not units:
        report.units = _units_of_network(report, network)
    if report.network is not None:
        report.units = of_runs(report.units, report.network)
    return report


def _units_of_network(report: Report, network: str | Path | None) -> Units:
    """The units that stand beside the network's file, where the report has none of its own."""
    return units_of(report.need_network(), network) if network else report.units


def _network_beside(path: Path, units_file: Path, report: Report, network: str | Path | None) -> Network | None:
    if network:
        found = read_network(network)
        what = unlike_network(report, found)
        if what:
            raise Problem(f"{path}: isn't of the network {network}: {what}")
        return found
    named = units_file.parent / report.units.network.path if report.units.network.path else None
    for name in filter(None, (named, path.with_suffix(".csv"))):
        if name.exists() and name != path:
            return _fitting(_named_network(name, units_file) if name == named else read_network(name), report, name, units_file)
    return None


def _named_network(path: Path, units_file: Path) -> Network:
    """The network that units name. They may name any file, so nothing of one that is no network is quoted."""
    content = read_bytes(path) if path.is_file() else b""
    if kind_of(path, content) != "a network":
        raise Problem(f"{units_file}: names the network {path}, which is none; name the network's file with --network")
    return network_of(content, str(path))


def _fitting(network: Network, report: Report, name: Path, units_file: Path) -> Network | None:
    """The network where the report may be of it. Where it can't be, the problem, or none where no units name a network."""
    check_network(network, report.units, name, units_file)
    what = unlike_network(report, network)
    if what and report.units.known:
        raise Problem(f"{report.name}: isn't of the network {name}: {what}; {ADVICE}")
    return None if what else network


def report_of(content: bytes, name: str = "the report") -> Report:
    """The report that the bytes spell, in vehicles and steps, its records as they are asked for."""
    head = content[:MOST_HEAD].partition(b"\n")[0]
    terms, begin = head.split(b","), len(head) + 1
    if len(terms) != 3 or terms[0] != b"report":
        raise Problem(f"{name}: no report of ctm; `ctm-tools run` writes one")
    try:
        steps, count = int(terms[1]), int(terms[2])
        end = begin if content.startswith(b"cell,", begin) else content.index(b"\n", content.rindex(b"\nat,") + 1) + 1
        *lines, last = content[end:].decode("ascii").splitlines()
        rows = [line.split(",") for line in lines]
        if len(rows) != count or any(row[0] != "cell" for row in rows) or not last.startswith("total,"):
            raise ValueError
        names = [row[1] for row in rows]
        amounts = Amounts(*numpy.array([row[2:6] for row in rows], dtype=float).reshape(count, len(Amounts._fields)).T)
        sums = Sums(*map(float, last.split(",")[1:]))
    except (ValueError, IndexError, TypeError):
        raise Problem(f"{name}: this report is cut short or isn't one of ctm") from None
    return Report(steps, names, amounts, sums, TextRecords(content, begin, end, names, name), name=name)


def check_report(report: Report, content: bytes, name: str | Path, units_name: str | Path) -> bool:
    """Refuses a report whose units, or whose network, are of another run; gives whether it is the one that they were written with."""
    units = report.units
    known = set(report.names)
    strange = next((cell for cell in units.named_cells() if cell not in known), None)
    if units.report.checksum == checksum(content):
        if units.report.network != units.network.checksum:
            raise Problem(f"{name}: is of another network than {units_name}, which was made after it; {ADVICE}")
        if strange is not None:
            raise Problem(f"{units_name}: names a cell {strange}, which {name} hasn't; {ADVICE}")
        return True
    if units.network.steps not in (None, report.steps):
        raise Problem(f"{name}: is of another network than {units_name}: of {report.steps:,} steps, and not {units.network.steps:,}; "
                      f"{ADVICE}")
    if strange is not None:
        raise Problem(f"{name}: is of another network than {units_name}: it has no cell {strange}; {ADVICE}")
    return False


def check_run(report: Report, network: Network, network_name: str | Path) -> None:
    """Refuses a network that isn't the one of which the report that `run` wrote is."""
    if report.units.report.network not in (None, checksum(network.content)):
        raise Problem(f"{report.name}: is of another network than {network_name}, which was changed after it; {ADVICE}")


def unlike_network(report: Report, network: Network) -> str | None:
    """In what a report differs from the runs of a network, or None where it may be one."""
    if list(network.kinds) != report.names:
        return "it has other cells"
    if network.steps != report.steps:
        return f"it has {report.steps:,} steps, and not {network.steps:,}"
    demands = network.demands
    lasting = demands["to"].clip(upper=network.steps) - demands["from"].clip(upper=network.steps)
    wanted = (demands["amount"] * lasting).groupby(demands.gate).sum()
    for gate, kind in network.kinds.items():
        came = report.cells.come[gate]
        if kind == "gate" and round(float(wanted.get(gate, 0.0)) * PARTS) != round(came * PARTS):
            return f"to gate {gate} came {came:,.6g} vehicles, and not {wanted.get(gate, 0.0):,.6g}"
    return None
