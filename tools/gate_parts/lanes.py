#!/usr/bin/env python3
"""Lanes: runs the tasks of many crates side by side, in the order of what each was measured to cost.

A task is what the kit's `rt` makes of it: under a key (crate, kind) the tuple (waits, lines, needs, call). It begins
once all keys of `waits` have ended; `lines` is its work in lines of code, 0 if there is none; `needs` is the memory in
bytes that the kit expects; call(given, jobs) does it with that many processes, and what it returns stands in `given`
under its key from then on. A call itself looks in `given` whether what it waits for went well.

The task that is ready and has the longest chain of others after it begins first, with one process more than there are
lanes idle, if there are four lanes or more. How many processes each gets is found by playing the whole on the clock of the
costs, again and again with one change, and keeping what ends sooner. It is played with other costs too, which differ a
little: else what ends soonest by the costs ends late once one of them is wrong. No verdict rests on the costs: a wrong
figure costs time alone.

  lanes.py --selftest     tries the order and the limits on made-up tasks
"""
import bisect
import heapq
import os
import random
import re
import sys
import tempfile
import time
from collections import Counter
from concurrent.futures import FIRST_COMPLETED, ThreadPoolExecutor, wait
from typing import NamedTuple

# What N processes of one check divide its seconds by, and what they multiply its processor seconds by.
SPEED = {1: 1.0, 2: 1.75, 3: 2.2, 4: 2.5}
WORK = {1: 1.0, 2: 1.15, 3: 1.33, 4: 1.5}
# The same of edits, which are tried in several checks side by side. They share no memory.
EDITS_SPEED = {1: 1.0, 2: 1.8, 3: 2.5, 4: 3.2}
EDITS_WORK = {1: 1.0, 2: 1.1, 3: 1.2, 4: 1.25}
# What each process after the first adds to a check's memory, as a part of the first's: most is shared.
MORE_MEMORY = 0.25
# A check may take so much more memory than it did when it was measured.
MARGIN = 1.15
# Seconds of a line of code that was never measured.
OF_A_LINE = 0.3
# Shorter tasks get one process.
SHORT = 60
# With this many lanes, what begins the longest chain may have one process more than there are lanes idle.
WIDE = 4
# How many changes of a plan are played, with how many other costs each, and how far these are from the measured ones.
STEPS = 1200
OTHERS = 3
APART = 0.2
# Where the costs of this repository's crates stand.
FILE = os.path.join(os.path.dirname(os.path.realpath(__file__)), "costs.txt")
# The first lines of a file of costs.
HEAD = """\
# Of each crate: processor seconds of its proof, of its tests and of its edits (at one process), and the MB of its
# largest process. Measured by runs; 0 is none, or not measured. They order work, and no verdict rests on them.
"""
# Kinds of work that use one process, whatever they are given.
NARROW = ("tools",)
# Kinds of work that cost what another does: a seed is a check of the crate from nothing.
LIKE = {"seed": "proof", "tools": "tests"}


class Cost(NamedTuple):
    """What a crate's work costs: processor seconds at one process (0: none, or not measured), and the MB of its largest
    process (0: not measured)."""

    proof: float = 0
    tests: float = 0
    edits: float = 0
    memory: float = 0


# The kinds of work whose cost is kept, in that order.
MEASURED = Cost._fields[:3]


def read_costs(file):
    """The costs that stand in the file, by crate; none if there is no such file."""
    found = {}
    try:
        with open(file, encoding="utf-8") as it:
            rows = [line.split() for line in it if line.strip() and not line.startswith("#")]
    except FileNotFoundError:
        return found
    for row in rows:
        try:
            found[row[0]] = Cost(*map(float, row[1:]))
        except (TypeError, ValueError):
            raise SystemExit(f"{file}: not a crate's name and up to four numbers: {' '.join(row)}") from None
    return found


def write_costs(file, costs):
    """Writes the costs, a row a crate, in the order of their names."""
    with open(file, "w", encoding="utf-8") as it:
        it.write(HEAD)
        for name in sorted(costs):
            it.write(" ".join([name, *(f"{number:.0f}" for number in costs[name])]) + "\n")


def at_one_job(key, seconds, jobs):
    """The processor seconds that the task would have used at one process, of those that it used at `jobs`."""
    return seconds / work_of(key, min(jobs, max(WORK)))


def speed_of(key, jobs):
    """What `jobs` processes divide the task's seconds by."""
    return (EDITS_SPEED if kind_of(key) == "edits" else SPEED)[jobs]


def work_of(key, jobs):
    """What `jobs` processes multiply the task's processor seconds by."""
    return (EDITS_WORK if kind_of(key) == "edits" else WORK)[jobs]


def usable(free, most=None):
    """The bytes of memory that tasks may take of those that are free, and at most `most`."""
    return min(0.85 * free, most or float("inf"))


class Plan:
    """What each task is expected to take, how much lies behind it, and how many processes it is to get."""

    def __init__(self, tasks, costs, lanes, memory):
        check_waits(tasks)
        self.tasks, self.lanes, self.room = tasks, max(1, lanes), memory
        self.whole = Counter()
        for key, (_, lines, *_) in tasks.items():
            self.whole[key[0], kind_of(key)] += lines
        self.seconds = {key: self.cost_of(key, costs) for key in tasks}
        self.memory = {key: self.memory_of(key, costs) for key in tasks}
        self.above = all_above(tasks)
        self.order = in_order(tasks, self.above)
        self.set_wanted(dict.fromkeys(tasks, 1))
        self.choose()

    def cost_of(self, key, costs):
        """Seconds at one process. Several tasks of one kind share what their crate's work of this kind costs."""
        lines = self.tasks[key][1]
        if not lines:
            return 0.0
        known = getattr(costs.get(key[0], Cost()), LIKE.get(kind_of(key), kind_of(key)), 0)
        return known * lines / self.whole[key[0], kind_of(key)] if known else OF_A_LINE * lines

    def memory_of(self, key, costs):
        """Bytes at one process."""
        known = costs.get(key[0], Cost()).memory
        return 1e6 * known * MARGIN if known else self.tasks[key][2]

    def held(self, key, jobs):
        return self.memory[key] * (1 + (1 if kind_of(key) == "edits" else MORE_MEMORY) * (jobs - 1))

    def choose(self):
        """Finds how many processes each task should get, so that all ends soonest by the costs."""
        most = min(self.lanes, max(SPEED))
        able = [it for it in self.tasks if self.seconds[it] >= SHORT and kind_of(it) not in NARROW]
        if most < 2 or not able:
            return
        picks = random.Random(0)
        clocks = [self.seconds, *(self.differing(picks) for _ in range(OTHERS))]
        best, least = self.wanted, self.worth(clocks)
        for _ in range(STEPS):
            changed = dict(best)
            for it in picks.sample(able, min(len(able), picks.choice((1, 1, 2, 3)))):
                changed[it] = picks.randint(1, most)
            self.set_wanted(changed)
            found = self.worth(clocks)
            if found <= least:
                best, least = changed, found
        self.set_wanted(best)

    def set_wanted(self, wanted):
        """From now on each task gets this many processes, and its place goes by the time that they take."""
        self.wanted, self.behind = wanted, {}
        for key in reversed(self.order):
            after = max((self.behind[it] for it in self.above[key]), default=0)
            self.behind[key] = self.seconds[key] / speed_of(key, wanted[key]) + after

    def differing(self, picks):
        """Seconds of each task that differ from the expected ones."""
        return {key: seconds * picks.uniform(1 - APART, 1 + APART) for key, seconds in self.seconds.items()}

    def worth(self, clocks):
        """What this choice takes on these clocks, and a little for each processor second."""
        found = [played(self, seconds=it) for it in clocks]
        return sum(clock + used / (20 * self.lanes) for clock, used, _ in found)

    def next_of(self, queue, running):
        """The task to begin now and its processes, or None. `running` has the processes of each running task."""
        idle = self.lanes - sum(running.values())
        if idle < 1:
            return None
        room = self.room - sum(self.held(key, jobs) for key, jobs in running.items())
        longest = max((self.behind[it] for it in (*running, *queue.ready)), default=0)
        for key in queue.ready:
            if running and self.held(key, 1) > room:
                continue
            # the last task gets the lanes that nobody else waits for
            wanted = idle if queue.count == 1 and kind_of(key) not in NARROW else self.wanted[key]
            # all wait for the longest chain, so it doesn't begin with one process because a lane is free too late
            more = self.lanes >= WIDE and self.behind[key] == longest
            jobs = max(1, min(wanted, idle + more, max(SPEED)))
            while jobs > 1 and self.held(key, jobs) > room:
                jobs -= 1
            return key, jobs
        return None


class Queue:
    """The tasks that haven't begun: those that are ready, with the longest chain after them first, and how many in all."""

    def __init__(self, plan, running=(), done=()):
        left = [it for it in plan.tasks if it not in done and it not in running]
        self.plan, self.count = plan, len(left)
        self.waits = {it: sum(below not in done for below in plan.tasks[it][0]) for it in left}
        self.ready = sorted((it for it in left if not self.waits[it]), key=self.place)
        if left and not self.ready and not running:
            raise ValueError(f"tasks wait for each other: {left[0]}")

    def place(self, key):
        return -self.plan.behind[key]

    def begun(self, key):
        self.ready.remove(key)
        self.count -= 1

    def ended(self, key):
        for it in self.plan.above[key]:
            if it in self.waits:
                self.waits[it] -= 1
                if not self.waits[it]:
                    bisect.insort(self.ready, it, key=self.place)


def kind_of(key):
    """The kind of work that a key names: `edits` of ("world", "edits 2")."""
    return key[1].partition(" ")[0]


def check_waits(tasks):
    for key, (waits, *_) in tasks.items():
        for it in waits:
            if it not in tasks:
                raise ValueError(f"the task {key} waits for {it}, which isn't there")


def all_above(tasks):
    """Of each task those that wait for it."""
    above = {it: [] for it in tasks}
    for key, (waits, *_) in tasks.items():
        for it in set(waits):
            above[it].append(key)
    return above


def in_order(tasks, above):
    """The tasks, each after all that it waits for."""
    waits = {key: len(set(it[0])) for key, it in tasks.items()}
    found = [it for it in tasks if not waits[it]]
    for key in found:
        for it in above[key]:
            waits[it] -= 1
            if not waits[it]:
                found.append(it)
    if len(found) < len(tasks):
        raise ValueError(f"tasks wait for each other: {next(it for it in tasks if waits[it])}")
    return found


def in_lanes(plan, told=None):
    """Runs the tasks of the plan, in at most its lanes and bytes of memory, and returns what each gave. A task that needs
    more memory than there is runs alone. told(key, 'begun', jobs, 0) and told(key, 'ended', result, seconds) are called in
    the caller's thread. If a call or `told` raises, nothing more begins, and it is raised here once all have ended."""
    queue, running, given, futures = Queue(plan), {}, {}, {}
    told = told or (lambda *_: None)

    def timed(key, jobs):
        began = time.monotonic()
        return plan.tasks[key][3](given, jobs), time.monotonic() - began

    with ThreadPoolExecutor(plan.lanes) as pool:
        while queue.count or futures:
            chosen = plan.next_of(queue, running)
            if chosen:
                key, jobs = chosen
                queue.begun(key)
                running[key] = jobs
                told(key, "begun", jobs, 0.0)
                futures[pool.submit(timed, key, jobs)] = key
                continue
            for it in wait(futures, return_when=FIRST_COMPLETED).done:
                key = futures.pop(it)
                del running[key]
                given[key], seconds = it.result()
                queue.ended(key)
                told(key, "ended", given[key], seconds)
    return given


def played(plan, running=None, done=(), seconds=None):
    """Plays the lanes on the clock of the costs, or of these seconds: the seconds on the clock, the processor seconds
    and the bytes held at most of all tasks, or of what is left if some are `done` and some running ({key: (jobs,
    seconds since it began)})."""
    now, used, most, running, seconds = 0.0, 0.0, 0.0, running or {}, seconds or plan.seconds
    ends = [(max(0.0, seconds[key] / speed_of(key, jobs) - gone), str(key), key) for key, (jobs, gone) in running.items()]
    heapq.heapify(ends)
    running = {key: jobs for key, (jobs, _) in running.items()}
    queue = Queue(plan, running, done)
    while queue.count or ends:
        chosen = plan.next_of(queue, running)
        if chosen:
            key, jobs = chosen
            queue.begun(key)
            running[key] = jobs
            heapq.heappush(ends, (now + seconds[key] / speed_of(key, jobs), str(key), key))
            most = max(most, sum(plan.held(*it) for it in running.items()))
            continue
        end, _, key = heapq.heappop(ends)
        now = max(now, end)
        used += seconds[key] * work_of(key, running.pop(key))
        queue.ended(key)
    return now, used, most


# --- the selftest


class Watched:
    """Made-up tasks that note what runs beside them."""

    def __init__(self, tasks, costs, lanes, memory):
        self.tasks, self.events, self.running, self.most = {}, [], {}, [0, 0.0]
        for key, (waits, lines, needs, result) in tasks.items():
            call = lambda given, _jobs, key=key, result=result: self.called(key, given, result)  # noqa: E731
            self.tasks[key] = waits, lines, needs, call
        self.plan = Plan(self.tasks, costs, lanes, memory)
        self.given = in_lanes(self.plan, self.told)

    def called(self, key, given, result):
        time.sleep(0.02)
        if isinstance(result, Exception):
            raise result
        return bool(result and all(given[it] for it in self.tasks[key][0]))

    def told(self, key, what, result, seconds):
        self.events.append((key, what, result))
        if what == "begun":
            self.running[key] = result
        else:
            del self.running[key]
        held = sum(self.plan.held(key, jobs) for key, jobs in self.running.items())
        self.most = [max(self.most[0], sum(self.running.values())), max(self.most[1], held)]

    def begun(self):
        return [key for key, what, _ in self.events if what == "begun"]

    def is_after(self, key, other):
        """Whether the task began once the other had ended."""
        happened = [it[:2] for it in self.events]
        return happened.index((key, "begun")) > happened.index((other, "ended"))

    def jobs(self):
        return {key: result for key, what, result in self.events if what == "begun"}


def proofs(**waits):
    """Tasks of one kind, each of 100 lines and 1 GB."""
    return {(name, "proof"): ([(it, "proof") for it in of.split()], 100, 1e9, True) for name, of in waits.items()}


def raised(what, *given):
    try:
        what(*given)
    except (Exception, SystemExit) as it:
        return type(it)
    return None


def selftest():
    fork = proofs(short="", low="", mid="low", high="mid short")
    costs = {"short": Cost(50), "low": Cost(100), "mid": Cost(300), "high": Cost(200)}
    one = Watched(fork, costs, 1, 1e12)
    wide = Watched(fork, costs, 4, 1e12)
    tight = Watched(proofs(a="", b="", c="", d=""), {}, 4, 2.5e9)
    large = Watched({**proofs(a="", b=""), ("c", "proof"): ([], 100, 9e9, True)}, {}, 4, 2.5e9)
    several = {**proofs(a=""), **{("a", f"edits {at}"): ([("a", "proof")], 30 * at, 1e9, True) for at in (1, 2)}}
    shares = [Plan(several, {"a": Cost(40, 0, 900)}, 4, 1e12).seconds["a", f"edits {at}"] for at in (1, 2)]
    seeds = Plan({**several, ("a", "seed"): ([], 100, 1e9, True)}, {"a": Cost(40, 0, 900)}, 4, 1e12)
    unknown = Plan(proofs(a=""), {}, 1, 1e12)
    raising = {("a", "proof"): ([], 1, 1, KeyError())}
    kinds = Watched(several, {"a": Cost(40, 0, 900)}, 4, 1e12)
    failing = proofs(low="", side="", high="low", top="high")
    failing["low", "proof"] = [], 100, 1e9, False
    failed = Watched(failing, {}, 2, 1e12).given
    idle = Watched({**proofs(a=""), ("a", "tests"): ([("a", "proof")], 0, 1e9, True)}, {"a": Cost(100, 500)}, 2, 1e12)
    clock, used, held = played(Plan(fork, costs, 1, 1e12))
    half = played(Plan(fork, costs, 1, 1e12), {("mid", "proof"): (1, 100.0)}, [("short", "proof"), ("low", "proof")])[0]
    ends = {lanes: played(Plan(fork, costs, lanes, 1e12))[0] for lanes in (2, 4)}
    begun = one.begun()
    cases = {
        "the longest chain begins first": begun == [(it, "proof") for it in ("low", "mid", "short", "high")],
        "a task begins once those that it waits for have ended": all(
            run.is_after((name, "proof"), (below, "proof"))
            for run in (one, wide)
            for name, below in (("mid", "low"), ("high", "mid"), ("high", "short"))
        ),
        "one lane runs one task at a time": one.most[0] == 1,
        "the chain gets several processes": wide.jobs()["mid", "proof"] > 1 >= wide.jobs()["short", "proof"],
        "lanes are kept, but for one process of the longest chain": wide.most[0] <= 5 and tight.most[0] <= 5,
        "a few lanes are kept": Watched(fork, costs, 2, 1e12).most[0] <= 2,
        "memory is kept": 0 < tight.most[1] <= 2.5e9 and len(tight.given) == 4,
        "a task that needs more memory than there is runs alone": large.most == [2, 9e9],
        "tasks of one kind share its cost by their lines": shares == [300, 600],
        "edits get several checks side by side": kinds.jobs()["a", "edits 2"] > 1,
        "checks of edits share no memory": kinds.plan.held(("a", "edits 2"), 3) == 3 * kinds.plan.memory["a", "edits 2"],
        "what edits used is told for one process": at_one_job(("a", "edits 2"), 125, 4) == 100,
        "a seed costs what a proof does": seeds.seconds["a", "seed"] == 40,
        "what nobody measured goes by its lines": [*unknown.seconds.values()] == [OF_A_LINE * 100],
        "work of no lines costs nothing": idle.plan.seconds["a", "tests"] == 0 and idle.given["a", "tests"],
        "a task that failed is given, and those above it see so": [*failed.values()].count(False) == 3
        and failed["side", "proof"],
        "what a call raises comes out": raised(Watched, raising, {}, 2, 1e9) is KeyError,
        "a ring of tasks is refused": raised(Plan, proofs(a="b", b="a"), {}, 2, 1e12) is ValueError,
        "a task that isn't there is refused": raised(Plan, proofs(a="b"), {}, 2, 1e12) is ValueError,
        "the clock of one lane is the sum of the costs": (clock, used) == (650, 650),
        "what is done and begun is left out": half == 400,
        "more lanes take no longer": ends[4] < ends[2] < clock,
        "what is held is told": held == 1e9,
        "costs are read as they were written": read_back(lambda it: write_costs(it, costs)) == costs,
        "a file of costs that isn't there has none": read_back(lambda it: None) == {},
        "costs that can't be read are refused": raised(read_back, written("a 1 two\n")) is SystemExit,
        "costs of too many numbers are refused": raised(read_back, written("a 1 2 3 4 5\n")) is SystemExit,
    }
    bad = [it for it, is_well in cases.items() if not is_well]
    for it in bad:
        print(f"lanes: FAILED: {it}")
    print(f"lanes: {len(cases) - len(bad)} of {len(cases)} well")
    return 1 if bad else 0


def read_back(write):
    """The costs of a file that `write` has made."""
    with tempfile.TemporaryDirectory() as room:
        write(f"{room}/costs")
        return read_costs(f"{room}/costs")


def written(text):
    def write(file):
        with open(file, "w", encoding="utf-8") as it:
            it.write(text)

    return write


if __name__ == "__main__":
    if sys.argv[1:] != ["--selftest"]:
        print(__doc__, end="", file=sys.stderr)
        sys.exit(2)
    sys.exit(selftest())
