"""What the tools make of a junction of bench/towns: what passes of the watched movements, and what each of their vehicles loses."""
from pathlib import Path

from town_junctions import STEP

LASTING = 1200  # s
BEGINS = 320  # s until those who pass are counted, and 11 cycles behind
DRAWS = 10


class Tools:
    """The tools on studies that are written into a folder."""

    def __init__(self, folder):
        self.folder = Path(folder)

    def _opened(self, made):
        from ctmtools.runs.running import opened
        path = self.folder / "study.toml"
        path.write_text(made.study(LASTING))
        return opened(path)

    def report(self, made):
        from ctmtools.runs.running import run
        prepared = self._opened(made)
        return run(prepared.content, "study", prepared.units, 1, network=prepared.network)[1]

    def passes(self, made):
        """The vehicles/h of the watched movements that leave the stop line."""
        report = self.report(made)
        left = sum(report.left[report.units.roads[road][-1]] for road in made.watched_roads)
        return float(left.iloc[-1] - left.loc[BEGINS // STEP]) * 3600 / (LASTING - BEGINS)

    def may_pass(self, made):
        """The vehicles/h of the watched movements that may pass at the flow that they have."""
        return float(self._watched(made).capacity.sum())

    def lost(self, made, at_random=False):
        """What each vehicle of the watched movements loses, in s."""
        if at_random:
            return self._at_random(made)
        own = self._watched(made)
        return float((own.delay_each * own.left).sum() / own.left.sum())

    def _watched(self, made):
        from ctmtools.approaches.by_approach import by_approach
        frame = by_approach(self.report(made), by="movement")
        return frame[[made.watches(*names) for names in zip(frame.approach, frame.movement)]]

    def _at_random(self, made):
        """The same in the mean of runs with arrivals at random."""
        from ctmtools.uncertainty.seeds import seeded
        frame = seeded(self._opened(made), DRAWS)
        own = frame[frame.road.isin(made.watched_approaches)]
        return float(own.delay.sum() * 3600 / own[own.road == made.watched_approaches[0]].left.sum())
