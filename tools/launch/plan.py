"""In which order the crates of a first build begin, and with how many jobs.

The longest chain of crates decides how long a build takes, so a crate's weight is the seconds that it takes and those
of the longest chain that waits for it. The heaviest crate that can begin goes first.
"""
import time
from pathlib import Path

from seconds import SECONDS, SECONDS_A_LINE
from sources import files_of

# a build works alone while it reads and while it writes, so work for more processors leaves fewer of them idle
SPARE = 1
# the chain that decides gets three jobs, one this near to it two, and one this much shorter steps back by its niceness
LEADING, NEAR, FAR = 3, 0.7, 0.6
# how many processors so many jobs of a library keep at work, and by how much it is done faster than by one
GAIN = {1: 1, 2: 1.6, 3: 2}
# a program is the last crate, and most of its time one processor lowers it or clang compiles it, alone
PROGRAM_JOBS, PROGRAM_GAIN = 2, 1.3
NAMES_A_LINE = 5
# the seconds of a run, and those of the table that were built in it, after which it shows how fast the machine is
SHOWS, ENOUGH = 60, 20


def gain_of(jobs):
    return GAIN[min(jobs, max(GAIN))]


def seconds_of(name):
    """About how long a first build of a crate takes on one processor."""
    return SECONDS.get(name) or SECONDS_A_LINE * sum(Path(it).read_bytes().count(b"\n") for it in files_of(name))


def table(seconds):
    """The lines of the table of seconds."""
    rows = [f'"{name}": {it},' for name, it in sorted(seconds.items())]
    lines = [" ".join(rows[at:at + NAMES_A_LINE]) for at in range(0, len(rows), NAMES_A_LINE)]
    return ["SECONDS = {", *(f"    {it}" for it in lines), "}"]


class Plan:
    """What begins next, for crates that each have those that they stand on, on so many processors; one of them may be
    the program that stands on all others."""

    def __init__(self, crates, processors, seconds=None, program=None):
        self.crates, self.processors, self.program = crates, processors, program
        self.seconds = seconds or {name: seconds_of(name) for name in crates}
        self.weights = {}
        for name in crates:
            self.weigh(name)

    def weigh(self, name):
        """The crate's seconds and those of the longest chain of crates that waits for it."""
        if name not in self.weights:
            above = [self.weigh(it) for it in self.crates if name in self.crates[it]]
            self.weights[name] = self.seconds[name] + max(above, default=0)
        return self.weights[name]

    def pace(self, name, jobs):
        """How many seconds of a processor are done of a crate in a second."""
        return PROGRAM_GAIN if name == self.program else gain_of(jobs)

    def wanted(self, running):
        """How many processors the crates that run would keep at work, which each have so many jobs."""
        return sum(self.pace(name, jobs) for name, jobs in running.items())

    def share(self, running):
        """How much slower each of them goes since there are only so many processors."""
        return min(1, self.processors / self.wanted(running))

    def shares(self, rest):
        """How long what is left takes by the clock, in three parts: the libraries shared among all processors, their
        longest chain, and the program."""
        program = self.seconds[self.program] if self.program in rest else 0
        work, chain = sum(self.seconds[it] for it in rest), max(self.weights[it] for it in rest)
        return (work - program) / self.processors, (chain - program) / gain_of(LEADING), program / PROGRAM_GAIN

    def ready(self, todo, done):
        return [it for it in todo if done.issuperset(self.crates[it])]

    def jobs_for(self, name, longest, running, others):
        """How many jobs a crate gets beside others that are ready, and a longest chain of so many seconds."""
        if name == self.program:
            return PROGRAM_JOBS
        if self.weights[name] == longest:
            return max(LEADING, self.processors - sum(running.values()) - others)
        return 2 if self.weights[name] >= NEAR * longest else 1

    def next(self, todo, running, done):
        """The crate that begins now, its jobs, and whether it steps back before others; None where none is to begin.

        `running` has the jobs of each crate that runs.
        """
        ready = self.ready(todo, done)
        if not ready:
            return None
        name = max(sorted(ready), key=self.weights.get)
        longest = max(self.weights[it] for it in todo | set(running))
        # the chain that decides waits for nobody
        if self.weights[name] < longest and self.wanted(running) >= self.processors + SPARE:
            return None
        return name, self.jobs_for(name, longest, running, len(ready) - 1), self.weights[name] < FAR * longest


class Pace:
    """How many seconds by the clock it takes here what takes one by the plan, as the machine's other work lets it."""

    def __init__(self):
        self.start = time.monotonic()
        self.built = self.took = 0

    def add(self, seconds, pace, took):
        """Counts a crate that was built, of so many seconds of the table, of which by the plan so many are done in one,
        and which took so many by the clock."""
        self.built += seconds
        self.took += took * pace

    def shows(self):
        return time.monotonic() - self.start >= SHOWS and self.built >= ENOUGH

    def minutes(self, work, chain, last):
        """Between which minutes the rest is done, by the shares that the plan gives.

        Not before the greater of the first two, and not after both of them one behind the other: Graham's bounds for
        whoever gives each free processor work that is there. The last comes behind them.
        """
        return [self.took / self.built * (it + last) / 60 for it in (max(work, chain), work + chain)]


class Run:
    """A build as the plan's seconds foretell it: where there is work for more processors, each crate goes slower."""

    def __init__(self, plan):
        self.plan = plan
        self.begins = []  # the second, the crate and its jobs, in the order of beginning
        self.idle = []  # from when to when so many processors had nothing to do, and the crates that were ready then
        self.end = 0.0
        self.go()

    def go(self):
        todo, running, done, left = set(self.plan.crates), {}, set(), {}
        while todo or running:
            while begins := self.plan.next(todo, running, done):
                name, jobs, _ = begins
                todo.remove(name)
                running[name], left[name] = jobs, self.plan.seconds[name]
                self.begins.append((self.end, name, jobs))
            self.pass_time(todo, running, done, left)

    def pass_time(self, todo, running, done, left):
        """Goes on to the moment at which the next crate is done."""
        wanted = self.plan.wanted(running)
        share = self.plan.share(running)
        pace = {it: self.plan.pace(it, jobs) * share for it, jobs in running.items()}
        first = min(running, key=lambda it: (left[it] / pace[it], it))
        took = left[first] / pace[first]
        if wanted < self.plan.processors:
            self.idle.append((self.end, took, self.plan.processors - wanted, self.plan.ready(todo, done)))
        for it in running:
            left[it] -= pace[it] * took
        self.end += took
        del running[first]
        done.add(first)

    def told(self):
        """A line for each crate, and the sums."""
        width = max(map(len, self.plan.crates))
        lines = [f"{at:6.0f} s  {name:{width}}  {self.plan.seconds[name]:4.0f} s of a processor, {jobs} jobs"
                 for at, name, jobs in self.begins]
        idle = sum(took * count for _, took, count, _ in self.idle)
        work = sum(self.plan.seconds.values())
        return [*lines, f"{self.end:6.0f} s  all are done: {work:.0f} s of a processor, "
                        f"of {self.plan.processors} processors {idle:.0f} s idle"]
