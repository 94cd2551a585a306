"""Where the cells of a network lie on its map: by the points of the study, else drawn out from the main route."""

from __future__ import annotations

import math
from collections import deque
from collections.abc import Iterator, Mapping, Sequence

import networkx

from ..chains import chains
from ..report.reading import Report
from ..report.routes import main_route

Point = tuple[float, float]
Line = list[Point]
Joint = tuple[str, str]  # a sort of joint, and the cell that names it

ROUNDS = 100  # after which joints of a junction stay where they are, to what can be seen
TURN = math.radians(32)  # by which a branch leaves the road that it leaves or joins
BEND = 0.25  # of the way between two placed ends by which a road bends aside
STUB = 0.6  # of a mean road cell: how long a gate or an exit is
MOST_WITHIN = 2  # cells of a way within a junction that is drawn between the roads around it


def middle(points: list[Point]) -> Point:
    """The mean of some points."""
    return sum(x for x, _ in points) / len(points), sum(y for _, y in points) / len(points)


def middles(graph: networkx.Graph, placed: Mapping[Joint, Point]) -> dict[Joint, Point]:
    """A place for each joint of a graph that has none: the mean of the places of the joints beside it."""
    loose = [joint for joint in graph if joint not in placed]
    places = {joint: placed[joint] for joint in graph if joint in placed}
    start = middle(list(places.values()))
    places |= {joint: start for joint in loose}
    for _ in range(ROUNDS):
        for joint in loose:
            places[joint] = middle([places[other] for other in graph[joint]])
    return {joint: places[joint] for joint in loose}


def lay_out(report: Report) -> dict[str, Line]:
    """For each cell the line that it is drawn as, two or more points in km (or cells), in the direction of travel."""
    return Map(report).lines


class Map:
    """The map in the making: the places of joints, which are connectors and loose ends, and the lines of cells."""

    def __init__(self, report: Report) -> None:
        self.report, self.network = report, report.need_network()
        self.kinds = self.network.kinds
        lengths = [report.units.length(cell) or 1.0 for cell in self.network.cells.index if self.kinds[cell] == "road"]
        self.stub = STUB * (sum(lengths) / len(lengths) if lengths else 1.0)
        self.places: dict[Joint, Point] = {}
        self.lines: dict[str, Line] = {}
        self.side = 1
        self.chains = chains(self.network.graph, self._follower)
        self._place_points()
        self._place_ends()
        self._settle()
        self.given = set(self.places)  # the joints that the points of the study place
        if not self.places:
            self._place_chain(main_route(self.network), (0.0, 0.0), 0.0)
        self._grow()

    def _length(self, cell: str) -> float:
        if self.kinds[cell] != "road":
            return self.stub
        return (self.report.units.length(cell) if self.report.units.known else None) or 1.0

    def _head(self, cell: str) -> Joint:
        """The joint at a cell's upstream end: the first cell of those that its connector leads into."""
        ups = list(self.network.graph.predecessors(cell))
        return ("joint", min(self.network.graph.successors(ups[0]))) if ups else ("source", cell)

    def _tail(self, cell: str) -> Joint:
        downs = list(self.network.graph.successors(cell))
        return self._head(downs[0]) if downs else ("sink", cell)

    def _follower(self, cell: str) -> str | None:
        """The cell that goes on where one ends, by a plain link."""
        downs = list(self.network.graph.successors(cell))
        return downs[0] if len(downs) == 1 and self.network.graph.in_degree(downs[0]) == 1 else None

    def _place_points(self) -> None:
        """Roads whose points the study gives."""
        for road, points in self.report.units.points.items():
            if len(points) > 1:
                self._along(self.report.units.roads[road], [(x, y) for x, y in points])

    def _place_ends(self) -> None:
        """Gates and exits at roads whose points are given: each in line with its road."""
        for cell, kind in self.kinds.items():
            beside = [*self.network.graph.successors(cell), *self.network.graph.predecessors(cell)]
            if kind == "road" or len(beside) != 1 or beside[0] not in self.lines:
                continue
            line = self.lines[beside[0]]
            if kind == "gate":
                self._along([cell], [_beyond(line[1], line[0], self.stub), line[0]])
            else:
                self._along([cell], [line[-1], _beyond(line[-2], line[-1], self.stub)])

    def _settle(self) -> None:
        """Junctions between roads whose points are given: the joints within them."""
        joints = networkx.Graph()
        for run in (run for chain in self.chains for run in self._bare(chain)):
            joints.add_edge(self._head(run[0]), self._tail(run[-1]), run=run)
        within = joints.subgraph([joint for joint in joints if joint not in self.places])
        for loose in list(networkx.connected_components(within)):
            junction = joints.edge_subgraph(joints.edges(loose))
            placed = [self.places[joint] for joint in junction if joint in self.places]
            if len(placed) > 1 and all(len(run) <= MOST_WITHIN for _, _, run in junction.edges(data="run")):
                for joint in loose:
                    self._place_loose_end(joint, middle(placed))
                self.places |= middles(junction, self.places)

    def _place_loose_end(self, joint: Joint, centre: Point) -> None:
        """The end of an exit or a gate at a junction: straight on from the road with which it shares most traffic."""
        sort, cell = joint
        graph, come = self.network.graph, self.report.cells.come
        if sort == "joint" or cell not in self.kinds or self.kinds[cell] == "road":
            return
        way, beside = [cell], graph.predecessors if sort == "sink" else graph.successors
        while way[-1] not in self.lines:
            following = [other for other in beside(way[-1]) if other not in way]
            if not following:
                return
            way.append(max(following, key=come.__getitem__))
        line = self.lines[way[-1]]
        one, two = line[-2:] if sort == "sink" else (line[1], line[0])
        ahead = _beyond(one, two, 1.0)
        across = (centre[0] - two[0]) * (ahead[0] - two[0]) + (centre[1] - two[1]) * (ahead[1] - two[1])
        self.places[joint] = _beyond(one, two, 2 * max(across, 0.0) + self.stub)

    def _along(self, cells: Sequence[str], points: Sequence[Point]) -> None:
        """Lays cells along a line of points, each with its part of the length."""
        reach = [0.0]
        for one, two in zip(points, points[1:]):
            reach.append(reach[-1] + math.dist(one, two))
        total = sum(map(self._length, cells))
        done = 0.0
        for cell in cells:
            begin, done = done, done + self._length(cell)
            ends = [_at(points, reach, part / total * reach[-1]) for part in (begin, done)]
            self.lines[cell] = [ends[0], *_between(points, reach, begin / total * reach[-1], done / total * reach[-1]),
                                ends[1]]
            self.places.setdefault(self._head(cell), ends[0])
            self.places.setdefault(self._tail(cell), ends[1])

    def _place_chain(self, chain: Sequence[str], start: Point, angle: float) -> None:
        """Lays a chain that isn't placed yet as a straight line from a point, or from its end back."""
        chain = [cell for cell in chain if cell not in self.lines]
        x, y = start
        for cell in chain:
            head = self.places.setdefault(self._head(cell), (x, y))
            x, y = head[0] + self._length(cell) * math.cos(angle), head[1] + self._length(cell) * math.sin(angle)
            x, y = self.places.setdefault(self._tail(cell), (x, y))
            self.lines[cell] = [head, (x, y)]

    def _grow(self) -> None:
        """Places the other chains, from those that touch what is placed on."""
        waiting = deque(run for chain in self.chains for run in self._bare(chain))
        stuck = 0
        while waiting:
            chain = waiting.popleft()
            head, tail = self._head(chain[0]), self._tail(chain[-1])
            if head in self.given and tail in self.given and self.places[head] != self.places[tail]:
                self._along(chain, [self.places[head], self.places[tail]])
            elif head in self.places and tail in self.places:
                self._bend(chain, self.places[head], self.places[tail])
            elif head in self.places:
                self.side = -self.side
                self._place_chain(chain, self.places[head], self.side * TURN)
            elif tail in self.places:
                self.side = -self.side
                self._place_back(chain, self.places[tail], self.side * TURN)
            elif stuck > len(waiting):
                left = min(x for x, _ in self.places.values()) if self.given else 0.0
                low = min(y for _, y in self.places.values())
                self._place_chain(chain, (left, low - 3 * self.stub - 1), 0.0)
            else:
                waiting.append(chain)
                stuck += 1
                continue
            stuck = 0

    def _bare(self, chain: Sequence[str]) -> Iterator[list[str]]:
        """The stretches of a chain that aren't placed yet."""
        run: list[str] = []
        for cell in [*chain, None]:
            if cell is None or cell in self.lines:
                if run:
                    yield run
                run = []
            else:
                run.append(cell)

    def _place_back(self, chain: Sequence[str], end: Point, angle: float) -> None:
        """Lays a chain so that it ends in a point, coming from aside."""
        total = sum(map(self._length, chain))
        start = end[0] - total * math.cos(angle), end[1] + total * math.sin(angle)
        self._along(chain, [start, end])

    def _bend(self, chain: Sequence[str], start: Point, end: Point) -> None:
        """Lays a chain between two placed points, aside from the straight way between them."""
        self.side = -self.side
        width, height = end[0] - start[0], end[1] - start[1]
        way = math.hypot(width, height) or sum(map(self._length, chain)) / 2
        bend = self.side * max(BEND * way, 0.5 * math.sqrt(max(0.0, sum(map(self._length, chain)) ** 2 - way ** 2)))
        across = (-height / way, width / way) if math.hypot(width, height) else (0.0, 1.0)
        points: Line = [start]
        for part in (0.15, 0.3, 0.5, 0.7, 0.85):
            rise = bend * math.sin(math.pi * part)
            points.append((start[0] + part * width + rise * across[0], start[1] + part * height + rise * across[1]))
        self._along(chain, [*points, end])


def _at(points: Sequence[Point], reach: Sequence[float], way: float) -> Point:
    """The point of a line at a way from its beginning."""
    for i in range(1, len(points)):
        if way <= reach[i] or i == len(points) - 1:
            part = (way - reach[i - 1]) / ((reach[i] - reach[i - 1]) or 1)
            (x, y), (u, v) = points[i - 1], points[i]
            return x + part * (u - x), y + part * (v - y)
    return points[0]


def _between(points: Sequence[Point], reach: Sequence[float], begin: float, end: float) -> Line:
    """The points of a line that lie between two ways."""
    return [point for point, way in zip(points, reach) if begin < way < end]


def _beyond(one: Point, two: Point, way: float) -> Point:
    """The point that lies so far beyond the second of two points, in line with them."""
    length = math.dist(one, two) or 1.0
    return two[0] + way * (two[0] - one[0]) / length, two[1] + way * (two[1] - one[1]) / length
