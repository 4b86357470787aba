"""Cases of tools/test_servers on greetings: who is refused, what it is told, and when a server is ready."""
from chain_clients import Connection
from peer_sockets import ACK, MASTER, accepted, confirmed, gone, hello, opened, refused, rest
from ports import free_ports
from server_checks import Alone, Starting, answered, differing, is_silent, untold
from server_processes import Chain, Process

# Why a server or a master is refused, by the number of the reason.
REASONS = {
    1: "its chain has another number of servers; start all servers with the same --servers",
    2: "it belongs to another chain; start all servers with the same --chain",
    3: "a server of this id has connected already; start each server once, and none again beside the others",
    4: "a server of this id was called gone; don't start it again beside the others",
    5: "it speaks an older format, or doesn't introduce itself; start the same version everywhere",
}


def refused_line(server, other, reason):
    """A server's line if another refuses it."""
    return f"craq: server {server} was refused by server {other}: {REASONS[reason]}"


def refusing_line(server, opener, reason):
    """A server's line if it refuses a connection."""
    return f"craq: server {server}: a connection of {opener} was refused: {REASONS[reason]}"


def mismatched(reason, words):
    """Two servers with these words each. Both end with status 1, and none is ready; who was refused says why."""
    port, peer_port = free_ports(3), free_ports(3)
    numbers = ("--port", str(port), "--peer-port", str(peer_port), "--quiet")
    servers = [Process(("server", "--id", str(i), *numbers, *more.split())) for i, more in enumerate(words)]
    try:
        faults, told = [], []
        for i, server in enumerate(servers):
            faults += differing(f"the output of server {i}", server.line(), "")
            faults += differing(f"the status of server {i}", server.status(), 1)
            other = 1 - i
            away = f"craq: cannot connect to server {other} at 127.0.0.1 port {peer_port + other}"
            lines = server.told().splitlines()
            if lines[-1:] not in ([refused_line(i, other, reason)], [away]):
                faults.append(f"server {i} says {lines!r}")
            told += lines
        return faults if any("was refused by" in line for line in told) else [*faults, "none was refused"]
    finally:
        for server in servers:
            server.end()


def counts_case(_rounds):
    """Servers that were started with different numbers of servers."""
    return mismatched(1, ("--servers 2", "--servers 3"))


def names_case(_rounds):
    """Servers of different chains."""
    return mismatched(2, ("--servers 2", "--servers 2 --chain other"))


def reasons_case(_rounds):
    """A server that is refused says why, and ends with status 1."""
    starting = {reason: Starting(2) for reason in REASONS}
    try:
        faults = []
        for reason, chain in starting.items():
            chain.peers[1].accept(refused(reason))
        for reason, chain in starting.items():
            faults += differing(f"reason {reason}: the output", chain.server.line(), "")
            faults += differing(f"reason {reason}: the status", chain.server.status(), 1)
            line = refused_line(0, 1, reason) + "\n"
            faults += differing(f"reason {reason}: standard error", chain.server.told(), line)
        return faults
    finally:
        for chain in starting.values():
            chain.end()


def restarted_case(_rounds):
    """A server that was killed is started again beside the others, before they are told and after: it is refused, and
    the chain goes on."""
    chain = Chain()
    try:
        client, last = Connection(chain.ports[0]), Connection(chain.ports[2])
        faults = differing("a set", client.call(b"set a 0 0 1\r\n1\r\n"), b"STORED")
        chain.kill(1)
        faults += refusal_faults(chain, 1, 3)
        chain.tell(1)
        faults += differing("a set after it", client.call(b"set a 0 0 1\r\n2\r\n"), b"STORED")
        faults += refusal_faults(chain, 1, 4)
        faults += differing("the item", last.gets(b"a")[:1], (b"2",))
        faults += differing("a last set", last.call(b"set a 0 0 1\r\n3\r\n"), b"STORED")
        faults += differing("the last item", client.gets(b"a")[:1], (b"3",))
        return faults + chain.judge_living()
    finally:
        chain.end()


def refusal_faults(chain, server, reason):
    """What is wrong if a server that is started again isn't refused by the head for this reason."""
    again = chain.started(server)
    try:
        faults = differing("its output", again.line(), "")
        faults += differing("its status", again.status(), 1)
        faults += untold(chain.servers[0], refusing_line(0, f"server {server}", reason))
        return faults + differing("its line", again.told(), refused_line(server, 0, reason) + "\n")
    finally:
        again.end()


def taken_id_case(_rounds):
    """A second server 0, at another address: the others refuse it, and the chain goes on."""
    chain = Chain(servers=2)
    try:
        host = "127.0.0.2"
        other = chain.started(0, "--address", host, "--peers", f"{host},127.0.0.1")
        faults = differing("its output", other.line(), "")
        faults += differing("its status", other.status(), 1)
        faults += differing("its line", other.told(), refused_line(0, 1, 3) + "\n")
        other.end()
        for i, port in enumerate(chain.ports):
            faults += differing(f"a set at {i}", Connection(port).call(b"set a 0 0 1\r\n1\r\n"), b"STORED")
        return faults + chain.judge_living()
    finally:
        chain.end()


def older_case(_rounds):
    """A peer that only says Hello, as older ones did, is refused, whether it goes on or falls silent."""
    chain = Alone(2)
    try:
        silent = opened(chain.peer_port, hello(1))
        faults = answered(chain.peer_port, [
            ("a Hello and a message", hello(1) + ACK, refused(5)),
            ("a master's Hello and a notice", hello(MASTER) + gone(1), refused(5)),
        ])
        faults += differing("a Hello and nothing", rest(silent), refused(5))
        return faults + untold(chain.server, refusing_line(0, "server 1", 5))
    finally:
        chain.end()


def ready_case(_rounds):
    """A server is ready, and serves its first client, once each of its links is accepted in both directions, and it was
    told where each goes on."""
    chain = Starting(3)
    try:
        first, second = chain.peers[1], chain.peers[2]
        first.meet()
        client = Connection(chain.port)
        client.send(b"get a\r\n")
        faults = []
        steps = (lambda: None, lambda: first.met.sendall(accepted()), lambda: first.met.sendall(confirmed()),
                 second.accept, lambda: first.link(0))
        for step in steps:
            step()
            if not is_silent(client.socket) or chain.server.has_line():
                faults.append("it is ready too early")
        second.link(0)
        faults += differing("its line", chain.server.line(), "ready\n")
        return faults + differing("the get", client.line(), b"END")
    finally:
        chain.end()


# What to do if a chain doesn't come to stand.
ANEW = "end all servers of the chain, and start them anew"


def ended_so(chain, line):
    """What is wrong if a server that isn't ready doesn't end with this line."""
    faults = differing("its output", chain.server.line(), "")
    faults += differing("its status", chain.server.status(), 1)
    return faults + differing("its line", chain.server.told(), line + "\n")


def lost_case(_rounds):
    """A link that stood ends before all are connected: the server tells it, and ends."""
    chain = Starting(3)
    try:
        chain.peers[1].accept()
        chain.peers[1].link(0).close()
        chain.peers[2].accept()
        return ended_so(
            chain, f"craq: server 0: the link from server 1 ended before all servers were connected; {ANEW}")
    finally:
        chain.end()


class Unlinked:
    """A server that is accepted, and to which the other never connects. It waits beside the other cases."""

    def __init__(self):
        self.chain = Starting(2)
        self.chain.peers[1].accept()

    def case(self, _rounds):
        try:
            return ended_so(
                self.chain, f"craq: server 0: server 1 hasn't connected to it within 30 seconds; {ANEW}")
        finally:
            self.chain.end()
