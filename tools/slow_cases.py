"""Cases of tools/test_leases on a machine that is slow: what runs is stopped and let go on all the time. A server that
is only slow may be called gone then, too early. Nothing that is answered may be wrong for that.

Verdicts rest on what was answered, and on how processes ended. Whether a server is called gone is up to the machine; if
one is, it has to end as such, by its own word, and the clients at it go to another one.
"""
import random
import re
import signal
import threading
import time
from typing import NamedTuple, Optional

from chain_clients import LIMIT, Closed, Wrong
from failover_cases import BEAT, ENDED, NONE_LEFT
from lease_cases import Leased, is_gone, strange
from lease_witnesses import PAUSE, Witness, late
from server_checks import differing
from server_processes import run_clients

# How long a slow process runs, and then stands on average, in seconds: it runs for a tenth of the time.
RUNS, STANDS = .03, .27
# Each stop takes between these parts of the average, so that processes don't stand together.
PARTS = .5, 1.5
# Of this many stops one is long, if some are: on average as long as a silence for which a server is called gone.
OF_STOPS = 8
# For how many seconds it is slow, for each round of the clients.
SECONDS = .08
# So long a server is held until the others were told. On a machine that is slow itself the master may hear nobody, and
# then it calls nobody gone.
HELD = 15
SILENT, TOLD = re.compile(r"server (\d+): no answer for "), "gone {} told "


class Slowness(NamedTuple):
    """What is slow, beside the servers, and what happens meanwhile."""

    of_master: bool = False
    has_long_stops: bool = False
    held: Optional[int] = None  # this server stands until the others were told that it is gone
    seconds: float = 0


class Brake(threading.Thread):
    """Makes a process slow until it is released."""

    def __init__(self, process, long):
        """Some stops take `long` seconds on average, if that isn't 0."""
        super().__init__(daemon=True)
        self.process, self.long, self.over = process, long, threading.Event()
        self.start()

    def run(self):
        while not self.over.wait(RUNS):
            self.process.signal(signal.SIGSTOP)
            self.over.wait(self.span())
            self.process.go_on()

    def span(self):
        is_long = self.long and random.randrange(OF_STOPS) == 0
        return random.uniform(*PARTS) * (self.long if is_long else STANDS)

    def release(self):
        self.over.set()
        self.join()


class Setter(threading.Thread):
    """Sets a witness's key all the time, as long as the server there isn't called gone."""

    def __init__(self, witness):
        super().__init__(daemon=True)
        self.witness, self.over, self.faults = witness, threading.Event(), []
        self.start()

    def run(self):
        try:
            while not self.over.wait(PAUSE):
                self.witness.set()
        except (Closed, Wrong) as fault:
            if isinstance(fault, Wrong) or not self.witness.chain.has_failed(self.witness.writer):
                self.faults.append(f"a set at server {self.witness.writer}: {fault!r}")

    def has_set_since(self, begun):
        return any(call.begun > begun and call.ended for call in self.witness.sets)

    def end(self):
        self.over.set()
        self.join(2 * LIMIT)
        return self.faults + ["a setter doesn't end"] * self.is_alive()


class Slowed(Leased):
    """A chain with leases that is slow while its clients call. Each server is asked all the time for keys that are set
    at each, also once it was called gone."""

    def __init__(self, slowness):
        self.slowness = slowness
        self.lines = []  # all that its master has printed, but of its beats
        self.ends = {}  # of each server that was held, when its lease was over
        super().__init__(slowed)
        self.observers = [Witness(self, i) for i in range(self.count)]
        self.setters = [Setter(it) for it in self.observers]

    def has_failed(self, server):
        """Whether a server that has closed a connection did so as it was called gone. Its process tells it."""
        try:
            if server not in self.failed and not is_gone(self, server):
                self.failed.add(server)
        except Wrong:
            pass  # it doesn't end
        return server in self.failed

    def called(self):
        """The servers that the master has called silent."""
        self.lines += self.master.waiting()
        return {int(found[1]) for line in self.lines if (found := SILENT.match(line))}

    def says(self, begin, seconds=LIMIT):
        """Whether the master has printed a line that begins so, or does within this many seconds."""
        end = time.monotonic() + seconds
        while not any(line.startswith(begin) for line in self.lines):
            if self.has_ended() or time.monotonic() > end:
                return False
            time.sleep(PAUSE)
            self.lines += self.master.waiting()
        return True

    def has_ended(self):
        """Whether the master has, and all that it has printed was read."""
        return "" in self.lines

    def judge_master(self):
        """What is wrong with it. Once no server is left it says so, and ends."""
        faults = strange([line for line in self.lines if line], *range(self.count))
        if len(self.failed) < self.count:
            return faults + ["the master has ended"] * self.has_ended()
        faults += differing("the master's status", self.master.status(), 1)
        return faults + differing("what it said last", self.master.told().endswith(NONE_LEFT), True)

    def judge_living(self):
        """The same. A server may have ended if it says that it is gone, and the master has called it silent."""
        for i, server in enumerate(self.servers):
            if server.process.poll() is not None:
                self.has_failed(i)
        faults = [f"the master hasn't called server {i} silent" for i in sorted(self.failed)
                  if not self.says(f"server {i}: no answer for ")]
        return faults + self.judge_master() + super().judge_living()


def slow_case(**how):
    """The servers are slow under clients, and whatever else is said."""
    def case(rounds):
        chain = Slowed(Slowness(**how, seconds=SECONDS * rounds))
        try:
            faults, calls = run_clients(chain, rounds, 3, 0, chain.slowness)
            return faults if calls else [*faults, "no calls"]
        finally:
            chain.end()
    return case


def slowed(chain, slowness):
    """All is slow for a while. What is wrong with what comes of that."""
    long = chain.detection() if slowness.has_long_stops else 0
    brakes = [Brake(process, long) for process in [*chain.servers, *[chain.master] * slowness.of_master]]
    try:
        if slowness.held is None:
            time.sleep(slowness.seconds)
            faults = []
        else:
            faults = hold(chain, slowness.held, brakes)
    finally:
        for brake in brakes:
            brake.release()
    faults += settled(chain)
    for setter in chain.setters:
        faults += setter.end()
    for witness in chain.observers:
        faults += witness.end(chain.detection() + LIMIT)
        for server, end in chain.ends.items():
            faults += late(f"server {server}, which was called gone", witness.calls(server), end)
    return faults


def hold(chain, server, brakes):
    """Stops a server until the others were told, and have gone on. Then it wakes, and says that it is gone."""
    brakes[server].release()
    chain.ends[server] = chain.stop(server)
    if not chain.says(TOLD.format(server), HELD):
        for brake in brakes:
            brake.release()
        stop_again(chain, server)
    faults = go_on_without(chain, server)
    for witness in chain.observers:
        witness.ask_more()
    chain.servers[server].go_on()
    return faults if chain.has_failed(server) else faults + is_gone(chain, server)


def stop_again(chain, server):
    """It was stopped, and nobody was told. It wakes, so that it is heard, and is stopped once more."""
    chain.servers[server].go_on()
    time.sleep(chain.detection())
    if server in chain.called():
        del chain.ends[server]  # its lease may have been prolonged since it woke
    else:
        chain.ends[server] = chain.stop(server)


def go_on_without(chain, server):
    """What is wrong if the others aren't told, or none of them answers a set that began later."""
    if not chain.says(TOLD.format(server)):
        return [f"server {server} stands, and isn't called gone"]
    told, end = time.monotonic_ns(), time.monotonic() + LIMIT
    others = [setter for setter in chain.setters if setter.witness.writer != server]
    while not any(setter.has_set_since(told) for setter in others) and any(setter.is_alive() for setter in others):
        if time.monotonic() > end:
            return ["no set is answered once the others were told"]
        time.sleep(PAUSE)
    return []


def settled(chain):
    """Waits until each server that was called silent has ended, and the others were told. What is wrong if not."""
    faults, known = [], set()
    while called := chain.called() - known:
        for server in called:
            if not chain.has_failed(server):
                faults += is_gone(chain, server)
            for begin in (ENDED.format(server), TOLD.format(server)):
                if not chain.says(begin) and not chain.has_ended():
                    faults.append(f"the master hasn't said '{begin}'")
        known |= called
        time.sleep(10 * BEAT / 1000)
    return faults
