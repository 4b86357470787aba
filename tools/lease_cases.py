"""Cases of tools/test_leases: servers and masters that are silent, while leases hold and once they are over."""
import random
import time

from chain_clients import Wrong, living
from failover_cases import BEAT, ENDED, Watched, lines_until
from gateways import HOST, Gateway
from lease_witnesses import SECOND, SLACK, Witness, late
from notice_cases import GONE_STATUS, gone_line, stored
from server_checks import differing, differing_at_last, untold
from server_processes import run_clients

# How many seconds leases run, and for how many milliseconds a server may be silent.
LEASE, AFTER = 1, 2000
SILENT = "server {}: no answer for {}.{:03d} s; it is told that it is gone"
OVER = "server {}: its lease is over"
SHORT = ("craq: the lease of server {} is not longer than two beats, so it serves by fits; give it a longer --lease, "
         "or this master a shorter --beat")


class Leased(Watched):
    """A chain with leases, and masters that beat. The case says what happens at a server under clients."""

    def __init__(self, event, servers=3, lease=LEASE, after=AFTER, beat=BEAT, gateways=()):
        """Its masters reach the servers at `gateways` by ways that can be cut."""
        self.event, self.lease, self.after, self.beat = event, lease, after, beat
        self.faults, self.witnesses, self.gateways = [], 0, dict.fromkeys(gateways)
        hosts = [HOST if i in gateways else "127.0.0.1" for i in range(servers)]
        self.paces = ("--after", str(after), "--peers", ",".join(hosts))
        super().__init__(servers=servers, lease=lease)

    def another_master(self, *words):
        for server in self.gateways:
            self.gateways[server] = self.gateways[server] or Gateway(self.peer_port + server)
        return super().another_master(*words)

    def end(self):
        super().end()
        for gateway in self.gateways.values():
            if gateway:
                gateway.end()

    def fail(self, server):
        """What happens at this server, by the case's function. It gives what is wrong."""
        self.faults += self.event(self, server)

    def judge_living(self):
        faults, self.faults = self.faults, []
        return faults + super().judge_living()

    def witness(self, server):
        """A witness at another living server than this one."""
        return Witness(self, next(i for i in living(self) if i != server))

    def stop(self, server):
        """Stops a server. Gives when its lease is over by then."""
        self.servers[server].stop()
        return self.lease_end()

    def lease_end(self):
        """When a lease is over that nobody prolongs from now on."""
        return time.monotonic_ns() + self.lease * SECOND

    def detection(self):
        """The most seconds for which a silent server holds up the others, by the rules: a master waits for a term and
        a grain, and a tenth more, since it has heard the server."""
        return max(self.after / 1000, 1.1 * (self.lease + .01))

    def silent_line(self, server):
        """The line of a master on a server that is silent."""
        return SILENT.format(server, *divmod(self.after, 1000))

    def told_line(self, server):
        """The line of a master that has told the others that live."""
        return f"gone {server} told {len(living(self))}\n"

    def silent_lines(self, server):
        """The lines of a master on a server that stays silent."""
        return [self.silent_line(server), OVER.format(server), self.told_line(server)]


def event_case(event, places, servers=3, **numbers):
    """Something happens under clients, at one of these places after another."""
    def case(rounds):
        chain = Leased(event, servers, **numbers)
        try:
            faults, calls = [], 0
            for phase, place in enumerate(places):
                more, made = run_clients(chain, rounds, 3, phase, place)
                faults, calls = faults + more, calls + made
            return (faults if calls else ["no calls"]) + chain.master.is_quiet(errors=None)
        finally:
            chain.end()
    return case


def strange(lines, *servers):
    """What is wrong if a master prints something else than of these servers."""
    known = tuple(begin for it in servers for begin in (f"server {it}: ", f"gone {it} "))
    return [f"a master prints {line!r}" for line in lines if not line.startswith(known)]


def is_gone(chain, server):
    """What is wrong if a server that was called gone doesn't say so and end."""
    faults = differing("its status", chain.servers[server].status(), GONE_STATUS)
    return faults + untold(chain.servers[server], gone_line(server))


def killed(chain, server):
    """Its process is killed: nobody waits for a lease."""
    witness = chain.witness(server)
    chain.kill(server)
    faults = chain.master.tells(server, len(living(chain)))
    return faults + witness.faults(SLACK)


def silenced(chain, server):
    """It is stopped until the others were told and have gone on, and then wakes: no lease of it holds any more."""
    witness = chain.witness(server)
    chain.failed.add(server)
    end = chain.stop(server)
    witness.set()
    faults = differing("a master's lines", [chain.master.step() for _ in range(3)], chain.silent_lines(server))
    witness.set()
    witness.ask_more()
    chain.servers[server].go_on()
    faults += is_gone(chain, server) + strange(lines_until(chain.master, ENDED.format(server)), server)
    return faults + judged(chain, witness, server, end)


def judged(chain, witness, server, end):
    """Ends the witness. What is wrong with what was answered, also by this server, whose lease is over at the end."""
    faults = witness.faults(chain.detection() + SLACK)
    # With a longer lease than silence all may be over a little before that end.
    is_asked = chain.lease < chain.after / 1000
    return faults + late(f"server {server}, which was called gone", witness.calls(server), end, is_asked=is_asked)


def cut_off(chain, server):
    """Its master is cut off from it, but clients and the other servers reach it: once they were told it answers
    nothing, also when a beat comes that was sent before. It hears that it is gone when the way is back."""
    gateway, witness = chain.gateways[server], chain.witness(server)
    chain.failed.add(server)
    gateway.cut()
    end = chain.lease_end()
    faults = differing("a master's lines", [chain.master.step() for _ in range(3)], chain.silent_lines(server))
    witness.set()
    witness.ask_more()
    gateway.let_held()
    witness.ask_more(60)
    if chain.servers[server].process.poll() is not None:
        faults.append("it has ended before it was told")
    gateway.open()
    faults += is_gone(chain, server) + strange(lines_until(chain.master, ENDED.format(server)), server)
    return faults + judged(chain, witness, server, end)


def both_silenced(chain, servers):
    """Two servers are stopped at once, and wake once the others were told of both."""
    witness = Witness(chain, next(i for i in living(chain) if i not in servers))
    chain.failed.update(servers)
    ends = [chain.stop(server) for server in servers]
    witness.set()
    lines = sorted(chain.master.step() for _ in range(6))
    faults = differing("a master's lines", lines, sorted(sum(map(chain.silent_lines, servers), [])))
    witness.set()
    witness.ask_more()
    for server in servers:
        chain.servers[server].go_on()
    for server in servers:
        faults += is_gone(chain, server)
    faults += strange(lines_until(chain.master, *map(ENDED.format, servers)), *servers)
    # The others are told of each when its lease is over, though a notice of one waits for the answer of the other.
    faults += witness.faults(chain.detection() + SLACK)
    for server, end in zip(servers, ends):
        faults += late(f"server {server} after it woke", witness.calls(server), end)
    return faults


def paused(chain, server):
    """It is stopped for less than its lease: nothing happens."""
    witness = chain.witness(server)
    chain.stop(server)
    time.sleep(.4 * chain.lease)
    chain.servers[server].go_on()
    return chain.master.is_quiet() + witness.faults(SLACK)


def called_early(chain, server):
    """It is called gone while its lease holds, and wakes then: it ends, and the others are told."""
    witness = chain.witness(server)
    chain.failed.add(server)
    chain.stop(server)
    faults = differing("a master's first line", chain.master.step(), chain.silent_line(server))
    chain.servers[server].go_on()
    lines = lines_until(chain.master, ENDED.format(server), chain.told_line(server))
    faults += is_gone(chain, server) + strange(lines, server)
    return faults + witness.faults(chain.detection() + SLACK)


def about_then(chain, server):
    """It wakes at some time about when it is called gone, or the others are told. It ends, if it was."""
    witness = chain.witness(server)
    chain.failed.add(server)
    chain.stop(server)
    span = random.uniform(chain.after / 1000 - .2, chain.detection() + .2)
    time.sleep(span)
    chain.servers[server].go_on()
    witness.set()
    time.sleep(10 * BEAT / 1000)
    lines, faults = chain.master.waiting(), []
    if chain.silent_line(server) in lines:
        faults += is_gone(chain, server)
        lines += lines_until(chain.master, *{ENDED.format(server), chain.told_line(server)} - set(lines))
    else:
        chain.failed.remove(server)
    faults += strange(lines, server) + witness.faults(chain.detection() + SLACK)
    return faults and [f"it was stopped for {span:.3f} s", *faults]


def master_killed(chain, _server):
    """The master is killed: reads stop once the leases are over, and come back when another one starts."""
    witness = Witness(chain, 0)
    chain.master.end()
    end = chain.lease_end()
    until = without_beats(chain, witness)
    chain.master = chain.another_master()
    return unanswered(chain, witness, end, until)


def master_stopped(chain, _server):
    """The master is stopped for longer than a lease and a silence: reads stop, and come back when it goes on. It says
    that it stood still, and calls nobody gone."""
    witness = Witness(chain, 0)
    chain.master.stop()
    end = chain.lease_end()
    until = without_beats(chain, witness)
    time.sleep(chain.after / 1000 - chain.lease)
    chain.master.notes.clear()
    chain.master.go_on()
    chain.master.notes_once("the master stood still")
    faults = chain.master.is_quiet()
    if "no server has answered" in chain.master.notes:
        faults.append("it takes its own pause for a cut")
    return faults + unanswered(chain, witness, end, until)


def without_beats(chain, witness):
    """Waits until leases are over, and servers were asked then. Gives the time."""
    time.sleep(chain.lease + .3)
    witness.ask_more()
    return time.monotonic_ns()


def unanswered(chain, witness, end, until):
    """What is wrong if a server answered between these times, or answers don't come back."""
    faults = witness.faults(chain.lease + chain.after / 1000 + SLACK)
    for server in living(chain):
        faults += late(f"server {server} without a master", witness.calls(server), end, until)
    return faults


class TwoMasters(Leased):
    """A chain with a second master, which has followed the first."""

    def __init__(self):
        super().__init__(silenced)
        self.other = self.master
        self.other.notes_once("takes reign")
        # Once a server answers, all are in that reign, so the next one is above it.
        if faults := stored(self.ports[0]):
            raise Wrong(faults[0])
        self.master = self.another_master()
        self.master.notes_once("takes reign")
        self.other.notes_once("followed by reign")

    def end(self):
        super().end()
        self.other.end()


def two_masters_case(happens, server):
    """What happens to one of two masters. Then a server is silent under clients, and the other master tells."""
    def case(rounds):
        chain = TwoMasters()
        try:
            witness = Witness(chain, 0)
            faults = happens(chain, witness)
            faults += witness.faults(chain.after / 1000 + SLACK)
            more, _calls = run_clients(chain, rounds, 3, 0, server)
            return faults + more + chain.master.is_quiet()
        finally:
            chain.end()
    return case


def standing_by_killed(chain, _witness):
    """The one that doesn't reign is killed: nothing happens."""
    chain.other.end()
    return chain.master.is_quiet()


def reigning_killed(chain, _witness):
    """The one that reigns is killed: the other one takes a reign once nobody prolongs leases."""
    chain.master.end()
    chain.master = chain.other
    chain.master.notes_once("takes reign")
    return []


def reigning_stopped(chain, witness):
    """The one that reigns is stopped until the other one has taken a reign. When it goes on it sees that, and calls
    nobody gone."""
    chain.master, chain.other = chain.other, chain.master
    chain.other.stop()
    chain.master.notes_once("takes reign")
    witness.set()
    chain.other.go_on()
    chain.other.notes_once("followed by reign")
    faults = chain.other.is_quiet() + chain.master.is_quiet()
    chain.other.end()
    return faults


class Unleased(Watched):
    """A chain without leases, whose masters would call a server silent soon."""

    paces = ("--after", str(4 * BEAT))


def unleased_case(rounds):
    """Without leases a server that is stopped is never called gone."""
    chain = Unleased()
    try:
        faults = []
        for server in chain.servers:
            server.stop()
            faults += chain.master.is_quiet(16)
            server.go_on()
        faults += chain.master.is_quiet()
        more, _calls = run_clients(chain, rounds, 3, 0, 1)
        return faults + more
    finally:
        chain.end()


def fits_case(_rounds):
    """A lease that isn't longer than two beats: servers serve by fits, the master says so, and no answer is wrong."""
    chain = Leased(None, beat=700)
    try:
        witness = Witness(chain, 1)
        witness.set()
        faults = witness.faults(SLACK)
        return faults + differing_at_last("its standard error", lambda: sorted(chain.master.told().splitlines()),
                                          [SHORT.format(i) for i in range(3)])
    finally:
        chain.end()
