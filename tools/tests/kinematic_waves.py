"""The theory of kinematic waves for one road before a lane drop, exactly, by Newell's least of two curves.

Flow and density make a triangle: free-flow speed v and wave speed w in km/h, jam density in vehicles/km. The road is
`length` km long and ends in a drop that passes `capacity` vehicles/h; `demand` has rows of start and end in h and of
vehicles/h. All times are in h, all places in km.
"""

import numpy

GRID = 1.25  # seconds between the points that the curve of departures is held at


class LaneDrop:
    """The cumulative curves of a road that ends in a lane drop."""

    def __init__(self, v, w, jam, length, capacity, demand, delay=0.0):
        self.v, self.w, self.jam, self.length, self.capacity = v, w, jam, length, capacity
        self.demand, self.delay = demand, delay
        grid = numpy.arange(0, (demand[-1][1] + 2) * 3600, GRID) / 3600
        arrivals = self.come(grid - length / v)
        departures = numpy.minimum.accumulate(arrivals - capacity * grid) + capacity * grid
        self.gone = lambda time: numpy.interp(time, grid, departures, left=0.0)

    def come(self, time):
        """The vehicles that have come to the road's beginning until a time."""
        time = numpy.asarray(time) - self.delay
        return sum(flow * numpy.clip(time - start, 0, end - start) for start, end, flow in self.demand)

    def passed(self, place, time):
        """The vehicles that have passed a place until a time: the least of what came and what the queue lets by."""
        back = self.length - place
        return numpy.minimum(self.come(time - place / self.v), self.gone(time - back / self.w) + self.jam * back)

    def held(self, bounds, times):
        """The vehicles between neighbouring places, a row for each time."""
        passed = self.passed(numpy.asarray(bounds)[None, :], numpy.asarray(times)[:, None])
        return -numpy.diff(passed, axis=1)


class SpeedLimit:
    """The densities on a road with a steady flow of which a stretch has a lower free-flow speed for some time.

    The wave speed w and the jam density stay. The flow is above what the stretch passes at the lower speed u, the top of its
    triangle, and the front of that has come through the stretch before the limit ends. Between `first` and `last` km the limit
    holds from the time 0 to `end`.
    """

    def __init__(self, v, u, w, jam, flow, first, last, end):
        self.v, self.u, self.w, self.jam, self.flow, self.first, self.last, self.end = v, u, w, jam, flow, first, last, end
        self.free = flow / v
        self.left = jam * w * u / (u + w)  # what passes the stretch for long
        self.queued = jam - self.left / w  # before the stretch, and at the speed u within it
        self.most = jam * w * v / (v + w)  # what the queue lets go after the end
        self.tail = (flow - self.left) / (self.free - self.queued)
        self.met = end + (last - first - self.tail * end) / (self.w + self.tail)  # when the release reaches the tail

    def density(self, place, time):
        """The density at a place and a time."""
        if time < 0:
            return self.free
        behind = place - self.last
        if time >= self.end and behind < self.v * (time - self.end) and behind > -self.w * (min(time, self.met) - self.end) + \
                self.v * max(0, time - self.met):
            return self.most / self.v
        if place >= self.last:
            return self._beyond(behind, time)
        if place >= self.first and time < self.end and place - self.first >= self.u * time:
            return self.free  # who stood in the stretch at the time 0 drives on at the speed u
        return self.queued if time < self.met and place >= self.first + self.tail * time else self.free

    def _beyond(self, behind, time):
        """The density behind the stretch: first what it lets go of those who were in it, then what passes it for long."""
        if behind >= self.v * time:
            return self.free
        since = time - (self.last - self.first) / self.u
        return self.left / self.v if behind < self.v * since else self.free * self.u / self.v

    def held(self, bounds, time, points=200):
        """The mean densities between neighbouring places at a time."""
        return [numpy.mean([self.density(begin + (i + 0.5) / points * (end - begin), time) for i in range(points)])
                for begin, end in zip(bounds, bounds[1:])]
