"""Cases of tools/test_links on masters: links of servers that live stand still for good, and a master that watches
tells of them, and has one end called gone if that has a lease. Talks to this machine alone."""
import time

from chain_clients import Wrong, living
from failover_cases import BEAT, ENDED, LOST, Watching, lines_until
from lease_cases import is_gone, strange
from link_cases import TOLD, LinkChain
from notice_cases import stored
from server_checks import differing, untold
from server_processes import run_clients

# Of servers with leases: how many seconds these run, and for how many milliseconds one may be silent.
LEASE, AFTER = 5, 1500
# After so many milliseconds a link is told to stand still at the latest, once it does: the thread of links looks each
# tenth of a second. What a slow machine may add, in seconds, is no fault of the chain.
LOOK, SLACK = 100, 20
CLIENTS = 3  # at each server


def still_step(i, j, gone, leased):
    """A master's line on a link that stands still, of which this end is called gone, or is to be."""
    what = f"server {gone} is called gone" if leased else f"type gone {gone}"
    return f"server {i}: its link to server {j} stands still; unless it goes on, {what}"


def goes_step(i, j):
    return f"server {i}: its link to server {j} goes on"


def told_step(server):
    """A master's line when it tells a server that this one is gone for its links."""
    return f"server {server}: its links stand still; it is told that it is gone"


class StalledChain(LinkChain):
    """A chain whose links go by ways, and of which masters watch. It may have leases."""

    beat = BEAT

    def __init__(self, event=None, servers=3, lease=LEASE, after=AFTER):
        self.leased, self.after, self.others = bool(lease), after, []
        self.paces = ("--after", str(after))
        super().__init__(servers, event, lease=lease)

    def another_master(self, *words):
        master = Watching(self, *words)
        master.reach([i for i in range(self.count) if i not in self.failed])
        return master

    def second_master(self):
        """Another one, which reigns from then on, while the first one stands by."""
        self.master.notes_once("takes reign")
        if faults := stored(self.ports[0]):
            raise Wrong(faults[0])
        self.others.append(self.master)
        self.master = self.another_master()
        self.master.notes_once("takes reign")
        self.others[-1].notes_once("followed by reign")

    def stall(self, *pairs):
        for pair in pairs:
            self.ways[pair].stall()

    def cut(self, server):
        """No link from this server or to it carries anything any more."""
        self.stall(*(pair for pair in self.ways if server in pair))

    def told_line(self, server):
        return f"gone {server} told {len(living(self))}\n"

    def most(self):
        """In how many seconds after a link stands still a server is called gone: it is told, a silence and the rest of
        a lease pass, and some beats."""
        return (TOLD + LOOK + max(self.after, 1100 * LEASE) + 10 * self.beat) / 1000

    def end(self):
        super().end()
        for master in self.others:
            master.end()


def goes_event(pairs, server):
    """These links stand still until this server, which lives, was called gone."""
    def event(chain, _server):
        chain.failed.add(server)
        begun = time.monotonic()
        chain.stall(*pairs)
        lines = lines_until(chain.master, ENDED.format(server), chain.told_line(server))
        passed = time.monotonic() - begun
        print(f"        server {server} was called gone after {passed:.1f} s", flush=True)
        faults = is_gone(chain, server) + strange(lines, *range(chain.count))
        if passed > chain.most() + SLACK:
            faults.append(f"server {server} was called gone after {passed:.1f} s")
        first = lines[:1 + len(pairs)]
        wanted = {still_step(i, j, server, True) for i, j in pairs}
        if not set(first) & wanted:
            faults.append(f"a master's first lines: {first!r}")
        return faults + [f"a master prints {line!r}" for line in lines if "stands still" in line
                         and not line.endswith(f"server {server} is called gone")]
    return event


def leased_case(pairs, server, servers=3, masters=1):
    """Links stand still under clients, and one server is called gone, within its lease and some beats. The others go
    on."""
    def case(rounds):
        chain = StalledChain(goes_event(pairs, server), servers)
        try:
            for _ in range(masters - 1):
                chain.second_master()
            faults, calls = run_clients(chain, rounds, CLIENTS, 0, server)
            more, made = run_clients(chain, rounds, CLIENTS, 1)
            return (faults + more if calls and made else ["no calls"]) + quiet(chain)
        finally:
            chain.end()
    return case


def cut_case(server, servers=4):
    """All links of one server stand still, so all the others say so of it, and it of all: it is called gone, and no
    other one."""
    pairs = [pair for i in range(servers) if i != server for pair in ((i, server), (server, i))]
    return leased_case(pairs, server, servers)


def quiet(chain):
    """What is wrong if a master tells of more, or more servers have ended."""
    time.sleep((chain.after + TOLD) / 1000)
    return chain.judge_living() + chain.master.is_quiet(errors=None)


def heals_case(rounds):
    """A link stands still until a master has told of it, and goes on: nobody is called gone."""
    def event(chain, _server):
        chain.stall((0, 1))
        faults = differing("a master's line", chain.master.step(), still_step(0, 1, 1, True))
        chain.ways[0, 1].go_on()
        return faults + differing("a master's line", chain.master.step(), goes_step(0, 1))

    chain = StalledChain(event, after=20_000, lease=30)
    try:
        faults, calls = run_clients(chain, rounds, CLIENTS, 0, 0)
        return (faults if calls else ["no calls"]) + chain.judge_living() + chain.master.is_quiet(errors=None)
    finally:
        chain.end()


def unleased_case(rounds):
    """Without leases a master says once what to type, and does nothing; once that is typed the others go on."""
    def event(chain, _server):
        chain.failed.add(1)
        chain.stall((0, 1))
        faults = differing("a master's line", chain.master.step(), still_step(0, 1, 1, False))
        faults += chain.master.is_quiet(2 * AFTER // BEAT)
        chain.master.say("gone 1\n")
        lines = lines_until(chain.master, ENDED.format(1), chain.told_line(1))
        faults += strange(lines, 1) + is_gone(chain, 1)
        return faults + untold(chain.master, "craq: server 1 still answers; it is told that it is gone, and ends")

    chain = StalledChain(event, lease=None)
    try:
        faults, calls = run_clients(chain, rounds, CLIENTS, 0, 1)
        more, made = run_clients(chain, rounds, CLIENTS, 1)
        return (faults + more if calls and made else ["no calls"]) + chain.master.is_quiet(errors=None)
    finally:
        chain.end()
