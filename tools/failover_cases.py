"""Cases of tools/test_servers on `craq master --watch`: servers that are killed with nobody typing, masters that come
and go, and what is no failure."""
import re
import time

from chain_clients import Wrong
from notice_cases import GONE_STATUS, LAST, LIVES, gone_line, said, stored
from peer_sockets import MASTER, Closing, admitted, gone, noted, received
from ports import free_ports
from server_checks import differing, differing_at_last, untold
from server_processes import Chain, Process, allowed, run_clients

BEAT = 50  # milliseconds
STEP = re.compile(r"\+\d+\.\d{3} s (server \d+: .*)\n")
# What a master tells of its beats; no case but those of reigns waits for such a line.
NOTE = re.compile(r"\+\d+\.\d{3} s (takes reign|followed by reign|server \d+: has a lease of|no server has answered|"
                  r"the master stood still) .*\n")
MET, LOST, ENDED = "server {}: connected", "server {}: connection lost", "server {}: its process has ended"
# In so many seconds a master, at its usual beat, opens at most so many connections to one server.
SPAN, MOST = 2, 12
NONE_LEFT = "craq: no server is left; start the chain anew, and then this master\n"


def step_in(line):
    """A line of a master, without the time if it has one."""
    found = STEP.fullmatch(line)
    return found[1] if found else line


class Watched(Chain):
    """A chain with masters that watch: who kills a server tells nobody."""

    beat, paces = BEAT, ()  # of its masters, and more words for them

    def another_master(self, *words):
        """A master that watches, once it has reached each living server."""
        master = Watching(self, *words)
        master.reach([i for i in range(self.count) if i not in self.failed])
        return master

    def tell(self, server):
        """Nobody is told. The master's lines say that it told by itself, and how many others."""
        faults = self.master.tells(server, self.count - len(self.failed))
        if faults:
            raise Wrong(faults[0])


class Watching(Process):
    """A master that watches. Its input has ended."""

    def __init__(self, chain, *words):
        super().__init__(("master", *chain.words, "--watch", "--beat", str(chain.beat), *chain.paces, *words))
        self.notes = []  # how those of its lines begin that tell of its beats

    def read(self):
        """Its next line; None if it tells of its beats."""
        line = super().line()
        if found := NOTE.fullmatch(line):
            self.notes.append(found[1])
            return None
        return line

    def line(self):
        """Its next line that doesn't tell of its beats."""
        while (line := self.read()) is None:
            pass
        return line

    def step(self):
        """The same, without the time if it has one."""
        return step_in(self.line())

    def waiting(self):
        """The lines that it has printed and that weren't read yet, but those that tell of its beats."""
        lines = []
        while self.has_line() and "" not in lines:
            lines.append(self.read())
        return [step_in(line) for line in lines if line is not None]

    def notes_once(self, note):
        """Waits until it has printed that of its beats, and nothing else before it."""
        while note not in self.notes:
            if (line := self.read()) is not None:
                raise Wrong(f"a master prints {line!r}, and not {note!r}; {self.told()!r}")
        self.notes.remove(note)

    def reach(self, servers):
        lines = sorted(self.step() for _ in servers)
        if lines != sorted(MET.format(i) for i in servers):
            raise Wrong(f"a master that watches says {lines}, and {self.told()!r}")

    def tells(self, server, others):
        """What is wrong with what it prints when the process of a server has ended."""
        lines = [self.step() for _ in range(3)]
        return differing("a master's lines", lines, [
            LOST.format(server), ENDED.format(server), f"gone {server} told {others}\n"])

    def learns(self, server):
        """The same of a master beside which another one tells. It may tell too, or hear from the servers that they
        know."""
        lines = []
        while ENDED.format(server) not in lines:
            lines.append(self.step())
        time.sleep(10 * BEAT / 1000)
        lines += self.waiting()
        told = [line for line in lines if re.fullmatch(rf"gone {server} told \d+\n", line)]
        others = [line for line in lines if line not in told]
        return differing("another master's lines", others, [LOST.format(server), ENDED.format(server)])

    def is_quiet(self, beats=10, errors=""):
        """What is wrong if it prints something within this many beats, or has told something else than these errors, if
        some are given."""
        time.sleep(beats * BEAT / 1000)
        faults = [f"a master prints {step!r}" for step in self.waiting()]
        return faults if errors is None else faults + differing("its standard error", self.told(), errors)


def killed_case(fails):
    """Servers are killed one after another under clients, with nobody typing."""
    def case(rounds):
        chain = Watched()
        try:
            chain.master.process.stdin.close()
            faults, calls = [], 0
            for phase, server in enumerate(fails):
                more, made = run_clients(chain, rounds, 3, phase, server)
                faults, calls = faults + more, calls + made
            return (faults if calls else ["no calls"]) + chain.master.is_quiet()
        finally:
            chain.end()
    return case


def again_case(rounds):
    """The master is killed, and another one started, before a server is killed."""
    chain = Watched()
    try:
        chain.master.end()
        chain.master = chain.another_master()
        faults, _calls = run_clients(chain, rounds, 3, 0, 1)
        chain.master.end()
        chain.master = chain.another_master()
        more, _calls = run_clients(chain, rounds, 3, 1, 2)
        return faults + more + chain.master.is_quiet()
    finally:
        chain.end()


class Shared(Watched):
    """The same with another master beside its own, so that either may be the first that tells."""

    def tell(self, server):
        faults = self.master.learns(server)
        if faults:
            raise Wrong(faults[0])


def two_case(rounds):
    """Two masters watch: each tells of what was killed, and one goes on alone."""
    chain = Shared(servers=4)
    other = chain.another_master()
    try:
        faults, _calls = run_clients(chain, rounds, 3, 0, 2)
        faults += other.learns(2)
        chain.master.end()
        chain.master = other
        more, _calls = run_clients(chain, rounds, 3, 1, 0)
        return faults + more + other.is_quiet()
    finally:
        for it in (chain, other):
            it.end()


def stopped_case(rounds):
    """A server is stopped for many beats and goes on: nobody is told of anything, and nothing is lost."""
    chain = Watched()
    try:
        faults = []
        for server in range(3):
            chain.servers[server].stop()
            faults += chain.master.is_quiet()
            chain.servers[server].go_on()
            for port in chain.ports:
                faults += stored(port)
        faults += chain.master.is_quiet()
        more, _calls = run_clients(chain, rounds, 3, 0, 1)
        return faults + more
    finally:
        chain.end()


class Early(Watched):
    """A chain whose master is started before its servers."""

    def started(self, server, *words):
        if server == 0:
            self.master = Watching(self)
            line = ("craq: no server answers; if the chain runs, look at --peers, --peer-port and its servers; the "
                    "master goes on")
            if untold(self.master, line):
                raise Wrong(f"an early master says {self.master.told()!r}")
        return super().started(server, *words)

    def another_master(self, *words):
        self.master.reach(range(self.count))
        return self.master


def early_case(rounds):
    """A master that is started before the servers calls none of them gone, and watches each once it is there."""
    chain = Early()
    try:
        faults, _calls = run_clients(chain, rounds, 3, 0, 0)
        return faults
    finally:
        chain.end()


def unmet_case(_rounds):
    """A server that ended before the master came isn't called gone by itself, but by a line."""
    chain = Watched()
    try:
        chain.master.end()
        chain.kill(2)
        chain.master = chain.another_master()
        time.sleep(10 * BEAT / 1000)
        faults = [f"it prints {step!r}" for step in chain.master.waiting()]
        faults += differing_at_last("its standard error", chain.master.told,
                                    "craq: server 2 does not answer; if it has failed, type gone 2\n")
        faults += said(chain.master, "gone 2", "gone 2 told 2") + said(chain.master, "gone 3", "bad line")
        for port in chain.ports[:2]:
            faults += stored(port)
        return faults
    finally:
        chain.end()


def typed_case(_rounds):
    """A living server is called gone by a line: it ends, and is told of once. A later master says nothing."""
    chain = Watched(servers=4)
    try:
        chain.failed.add(1)
        chain.master.say("gone 1\n")
        lines = []
        # While it ends it may accept a connection once more.
        while ENDED.format(1) not in lines or "gone 1 told 3\n" not in lines:
            lines.append(chain.master.step())
        faults = differing("its answers", [line for line in lines if line.startswith("gone")], ["gone 1 told 3\n"])
        faults += differing("its status", chain.servers[1].status(), GONE_STATUS)
        faults += untold(chain.servers[1], gone_line(1)) + chain.master.is_quiet(errors=None)
        late = chain.another_master()
        faults += late.is_quiet()
        late.end()
        for port in (chain.ports[0], chain.ports[2], chain.ports[3]):
            faults += stored(port)
        return faults + chain.judge_living()
    finally:
        chain.end()


def half_told_case(_rounds):
    """A master ends before it has told each server of a failure: the next one that watches tells the others."""
    chain = Watched()
    try:
        chain.master.end()
        chain.kill(1)
        half, _failed = admitted(chain.peer_port, MASTER, 3)
        half.sendall(gone(1))
        faults = differing("the answer", received(half, 3), noted(1))
        half.close()
        chain.master = Watching(chain)
        lines = [chain.master.step() for _ in range(3)]
        faults += differing("its lines", sorted(lines), sorted([MET.format(0), MET.format(2), "gone 1 told 2\n"]))
        for port in (chain.ports[0], chain.ports[2]):
            faults += stored(port)
        return faults + chain.master.is_quiet()
    finally:
        chain.end()


def last_case(_rounds):
    """Each server is killed, one after another: then the master says that none is left, and ends. A new chain needs a
    new master."""
    chain = Watched()
    try:
        faults = []
        for server in (1, 0, 2):
            chain.fail(server)
        faults += differing("its status", chain.master.status(), 1)
        faults += differing("its standard error", chain.master.told(), NONE_LEFT)
        chain.failed = set()
        chain.servers = [chain.started(i) for i in range(3)]
        chain.judge_ready()
        chain.master = chain.another_master()
        chain.fail(0)
        return faults + stored(chain.ports[1]) + stored(chain.ports[2])
    finally:
        chain.end()


def anew_case(_rounds):
    """All servers are stopped as one, and a new chain is there when the master looks again: it tells the new ones
    nothing, and ends."""
    chain = Watched()
    try:
        chain.master.stop()
        for server in chain.servers:
            server.end()
        chain.servers = [chain.started(i) for i in range(3)]
        chain.judge_ready()
        chain.master.go_on()
        faults = differing("its status", chain.master.status(), 1)
        for port in chain.ports:
            faults += stored(port)
        return faults + chain.judge_living()
    finally:
        chain.end()


def closing_case(_rounds):
    """A server accepts each connection of a master that watches, and closes it: the master pauses between two. Once it
    was called gone each line on it is printed once."""
    peer_port = free_ports(2)
    closing = Closing(peer_port + 1)
    master = Process(("master", "--servers", "2", "--peer-port", str(peer_port), "--watch"))
    try:
        counts, lines = [], []
        for typed in ("", "gone 1\n"):
            before = closing.count
            master.say(typed)
            time.sleep(SPAN)
            counts.append(closing.count - before)
            while master.has_line():
                lines.append(step_in(master.line()))
        faults = [f"{count} connections in {SPAN} s" for count in counts if count > MOST]
        told = lines.index("gone 1 told 0\n")
        living, later = ([line for line in part if line in (MET.format(1), LOST.format(1))]
                         for part in (lines[:told], lines[told:]))
        faults += [] if 2 < len(living) <= 2 * MOST else [f"before it was called gone: {len(living)} lines"]
        faults += [] if len(later) == len(set(later)) else [f"after that: {len(later)} lines, {later[:5]}"]
        return faults
    finally:
        master.end()
        closing.end()


class Slow(Watched):
    """A chain with a master that hears the servers seldom, so that one that lives counts as answering for long."""

    beat, paces = 3000, ("--after", "9000")


def warned_case(_rounds):
    """A line calls a server gone that still answers, a killed one, and the last one: the master says so of the first
    and the last, and does what the line says. Of a line that means nothing it says what a line is."""
    chain = Slow()
    try:
        chain.master.say("gone 1\ngo 1\n")
        lines = lines_until(chain.master, "gone 1 told 2\n", "bad line\n", ENDED.format(1))
        faults = differing("the status of the first", chain.servers[1].status(), GONE_STATUS)
        chain.kill(2)
        lines += lines_until(chain.master, "gone 2 told 1\n")
        chain.master.say("gone 2\ngone 0\n")
        lines += lines_until(chain.master, "gone 2 told 1\n", "gone 0 told 0\n")
        faults += differing("the status of the last", chain.servers[0].status(), GONE_STATUS)
        faults += differing("the status of the master", chain.master.status(), 1)
        told = [line for line in chain.master.told().splitlines() if "answer that" not in line]
        return faults + differing("its standard error", told, [
            LIVES.format(1), allowed("gone", 3).rstrip(), LIVES.format(0), LAST.format(0), NONE_LEFT.rstrip()])
    finally:
        chain.end()


def lines_until(master, *wanted):
    """The lines of a master until these have come."""
    lines = []
    while not set(wanted) <= set(lines):
        lines.append(master.step())
    return lines
