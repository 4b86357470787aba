"""What a call costs with many keys, how long calls wait while the tables grow, and how many bytes a key takes."""
import statistics
from collections import defaultdict, namedtuple

from live_parts.peers import running
from live_parts.speeds import MIXES, Course

SIZE, CONNECTIONS, DEPTHS = 100, 16, [1, 16]
COUNTS, QUICK_COUNTS = [10_000, 100_000, 1_000_000, 4_000_000], [10_000, 100_000]
# How keys are drawn: each as often as any other, or the k-th most frequent one as often as 1 / k^.99.
DRAWN = {"evenly": [], "zipf .99": ["--zipf", .99]}
# Of fewer keys the bytes aren't told: malloc's large pages are 2 MiB each.
LEAST_FOR_BYTES = 100_000


class Case(namedtuple("Case", "keys mix drawn depth")):
    """What is run once there are this many keys."""

    head = ["keys", "calls", "drawn", "in flight"]
    size, connections = SIZE, CONNECTIONS

    def texts(self):
        return [f"{self.keys:,}", self.mix, self.drawn, f"{self.depth}"]

    def words(self):
        return ["--sets", MIXES[self.mix], "--connections", CONNECTIONS, "--depth", self.depth, "--keys", self.keys,
                *DRAWN[self.drawn]]


def cases_of(keys):
    return [Case(keys, mix, drawn, depth) for mix in ("get", "set") for drawn in DRAWN for depth in DEPTHS]


class Fills:
    """What came of filling servers, by their name and the number of keys: one each round."""

    def __init__(self):
        self.loads, self.bytes = defaultdict(list), defaultdict(list)

    def fill(self, generator, peer, keys):
        """Sets each key once at this peer, which has none."""
        before = peer.memory()
        self.loads[peer.name, keys].append(generator.fill(peer, SIZE, keys))
        self.bytes[peer.name, keys].append((peer.memory() - before) / keys)

    def texts(self, name, keys):
        loads, middle = self.loads[name, keys], statistics.median
        longest = [load.longest / 1000 for load in loads]
        a_key = f"{middle(self.bytes[name, keys]):,.0f}" if keys >= LEAST_FOR_BYTES else ""
        return [f"{keys:,}", name, a_key, f"{middle(load.rate for load in loads):,.0f}",
                f"{middle(load.p999 for load in loads) / 1000:.2f}", f"{middle(longest):.2f}", f"{min(longest):.2f}"]

    def table(self, names, counts):
        head = ["keys", "", "bytes a key", "sets a second", "p99.9, ms", "longest wait, ms", "least of the rounds"]
        return [head, *(self.texts(name, keys) for keys in counts for name in names if self.loads[name, keys])]


def measure(generator, makers, counts, rounds, seconds, limit):
    """For each number of keys rounds with servers that are started anew and filled. Gives the cases, their samples and
    the fills."""
    cases, fills = [case for keys in counts for case in cases_of(keys)], Fills()
    course = Course(generator, cases, seconds, limit)
    for keys in counts:
        for turn in range(rounds):
            if not course.is_over():
                with running([make() for make in makers]) as peers:
                    for peer in peers:
                        fills.fill(generator, peer, keys)
                    course.go_round(peers, turn, cases_of(keys))
    return cases, course.samples, fills
