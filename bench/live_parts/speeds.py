"""Calls a second, processor time and latencies: every peer in every case, interleaved in rounds."""
import statistics
import time
from collections import defaultdict, namedtuple

from live_parts.peers import SIZES, running

MIXES = {"get": 0, "set": 1, "1 write in 10": .1}
CONNECTIONS = [1, 4, 16]
DEPTHS = [1, 16]
KEYS = 10_000
# Many connections, as web services hold them: these runs are four times as long.
MANY = [100, 1000]


class Case(namedtuple("Case", "mix size connections depth")):
    """What is run: which calls, how many bytes of data, and over how many connections with how many calls in flight."""

    head = ["calls", "bytes", "connections", "in flight"]

    def texts(self):
        return [self.mix, f"{self.size}", f"{self.connections}", f"{self.depth}"]

    def words(self):
        """What the load generator has to be told, but for how long it runs."""
        return ["--sets", MIXES[self.mix], "--connections", self.connections, "--depth", self.depth, "--keys", KEYS]


CASES = [Case(mix, size, connections, depth)
         for mix in MIXES for size in SIZES for depth in DEPTHS for connections in CONNECTIONS]
CASES += [Case("1 write in 10", 100, connections, 1) for connections in MANY]


class Samples:
    """Loads by case and peer: one a round."""

    def __init__(self):
        self.loads = defaultdict(dict)

    def add(self, case, peer, turn, load):
        self.loads[case, peer][turn] = load

    def numbers(self, case, peer, field):
        return [getattr(load, field) for load in self.loads[case, peer].values()]

    def median(self, case, peer, field):
        return statistics.median(self.numbers(case, peer, field))

    def mean(self, case, peer, field):
        return statistics.mean(self.numbers(case, peer, field))

    def ratios(self, case, peer, other, field="rate"):
        """Of the calls a second or another number, round by round."""
        loads, others = self.loads[case, peer], self.loads[case, other]
        return [getattr(loads[turn], field) / getattr(others[turn], field) for turn in loads if turn in others]

    def has(self, case, peer):
        return bool(self.loads[case, peer])

    def rounds(self):
        return max((len(loads) for loads in self.loads.values()), default=0)


def quartiles(numbers):
    """The lower quartile, the median and the upper quartile."""
    if len(numbers) == 1:
        return numbers * 3
    return statistics.quantiles(numbers, n=4, method="inclusive")


class Course:
    """Rounds of runs of this many seconds, of these cases; no run begins after the limit, in seconds."""

    def __init__(self, generator, cases, seconds, limit):
        self.generator, self.cases, self.seconds = generator, cases, seconds
        self.until, self.samples = time.monotonic() + limit, Samples()

    def is_over(self):
        return time.monotonic() > self.until

    def fill(self, peers):
        for peer in peers:
            for size in SIZES:
                if peer.name != "echo":
                    self.generator.fill(peer, size, KEYS)

    def go_round(self, peers, turn, cases=None):
        """Each peer has each of these cases once, in an order that goes round; all cases if none are given."""
        for place, case in enumerate(cases or self.cases):
            first = (turn + place) % len(peers)
            for peer in peers[first:] + peers[:first]:
                if self.is_over():
                    return
                self.samples.add(case, peer.name, turn, self.one_run(peer, case))

    def one_run(self, peer, case):
        seconds = self.seconds * (4 if case.connections in MANY else 1)
        words = ["--seconds", seconds, "--warm-up", max(.01, seconds / 8)]
        return self.generator.run(peer, case.size, *case.words(), *words)


def measure(course, peers, rounds):
    """This many rounds of peers that run."""
    course.fill(peers)
    for turn in range(rounds):
        course.go_round(peers, turn)
    return course.samples


def measure_anew(course, makers, rounds):
    """The same of peers that are started anew for each round, since one start of a program can be faster than another:
    so what differs between two starts is part of what the quartiles show."""
    for turn in range(rounds):
        if not course.is_over():
            with running([make() for make in makers]) as peers:
                course.fill(peers)
                course.go_round(peers, turn)
    return course.samples
