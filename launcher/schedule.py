"""In which order crates are proved and by how many jobs, and how long that takes.

The crates behind which the longest chain of others waits come first. Such a crate is begun as soon as it can be, by as
many jobs as there are processors, or by its share of them where several come first. All others get one job each, since
more jobs take more time of the processors in all, and run at a lower priority: they take what is left idle.
"""

SPEED_OF_A_JOB = 0.3  # what each job beyond the first adds to a check's speed, as a first command from nothing showed
FIRST = 0.95  # a crate comes first where its chain is at least this part of the longest one
LEAST = 0.1  # the part of the processors that the others have even where those that come first could take all


class Schedule:
    def __init__(self, names, uses, costs, processors, most_jobs):
        self.names, self.uses, self.costs = names, uses, costs
        self.processors = processors
        self.most_jobs = most_jobs  # of all crates together, as many as memory holds
        self.chains = {}
        for name in reversed(names):
            above = [self.chains[it] for it in names if it in self.chains and name in uses[it]]
            self.chains[name] = costs[name] + max(above, default=0)

    def next_start(self, done, jobs):
        """The crate to start now and its jobs, or None; `jobs` has the jobs of each crate that runs."""
        ready = [it for it in self.names if it not in done and it not in jobs and done.issuperset(self.uses[it])]
        free = self.most_jobs - sum(jobs.values())
        if not ready or (jobs and free < 1):
            return None
        name = max(ready, key=self.chains.get)
        firsts = [it for it in (*ready, *jobs) if self.comes_first(it, [*ready, *jobs])]
        if name not in firsts:
            return (name, 1) if len(jobs) < self.processors else None
        taken = sum(jobs[it] for it in firsts if it in jobs)
        share = (self.processors - taken) // sum(it not in jobs for it in firsts)
        return name, max(1, min(share, free))

    def comes_first(self, name, others):
        """Whether the chain of crates that wait for this one is about as long as the longest of these others."""
        return self.chains[name] >= FIRST * max((self.chains[it] for it in others), default=0)

    def seconds_left(self, done, jobs, left):
        """How long the rest takes; `left` has what is left of the costs of the crates that run."""
        done, jobs, left, seconds = set(done), dict(jobs), dict(left), 0
        while len(done) < len(self.names):
            start = self.next_start(done, jobs)
            if start:
                jobs[start[0]] = start[1]
                left[start[0]] = self.costs[start[0]]
                continue
            speeds = self.speeds(jobs)
            step = min(left[it] / speeds[it] for it in jobs)
            seconds += step
            left = {it: left[it] - step * speeds[it] for it in jobs}
            for it in [it for it in jobs if left[it] < 1e-6]:
                done.add(it)
                del jobs[it], left[it]
        return seconds

    def speeds(self, jobs):
        """How fast each crate that runs gets on. Those with more than one job come first, and the others share the rest."""
        first = {it: self.speed(jobs[it]) for it in jobs if jobs[it] > 1}
        taken = sum(first.values())
        share = min(1, self.processors / taken) if first else 1
        rest = max(self.processors - taken, LEAST * self.processors) / max(1, len(jobs) - len(first))
        return {it: share * first[it] if it in first else min(1, rest) for it in jobs}

    def speed(self, jobs):
        return 1 + SPEED_OF_A_JOB * (jobs - 1)
