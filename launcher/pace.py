"""How long the rest of a build takes here: by the costs of its crates, and by how long those took that this build has proved."""

KNOWN = 60  # seconds at the pace of the costs that count beside what the first crate shows; each further crate has them count less
LEAST_LEFT = 0.1  # the part of its cost that a crate has left at least for as long as it runs
ROUNDS = 20  # until the pace stands by which what runs is as far as the pace says


class Pace:
    """`schedule` has the costs and the order; `done` the crates that stood before the build."""

    def __init__(self, schedule, done):
        self.schedule, self.stood = schedule, len(done)
        self.whole = schedule.seconds_left(done, {}, {})

    def seconds_left(self, done, jobs, spent, elapsed):
        """The seconds from now on; `spent` has how long each crate that runs has done so, and `elapsed` the whole build."""
        known = KNOWN / (1 + len(done) - self.stood)
        pace = 1
        for _ in range(ROUNDS):
            rest = self.schedule.seconds_left(done, jobs, self.left(jobs, spent, pace))
            pace = (elapsed + known) / (max(0, self.whole - rest) + known)
        return rest * pace

    def left(self, jobs, spent, pace):
        """What is left of the costs of the crates that run."""
        costs, speeds = self.schedule.costs, self.schedule.speeds(jobs)
        return {it: max(costs[it] - spent[it] * speeds[it] / pace, LEAST_LEFT * costs[it]) for it in jobs}
