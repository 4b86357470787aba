"""Cases of tools/test_servers on a standard error that nobody reads: it is a full pipe from the start. Servers,
clusters and masters go on, and end, as if it were read. If it is read while they run, what they said comes, and how
many lines didn't fit."""
import fcntl
import os
import re
import select
import socket
import time

from chain_clients import LIMIT, Connection, Wrong
from notice_cases import GONE_STATUS, gone_line
from peer_sockets import OLD_HELLO, opened, rest
from ports import free_ports
from server_checks import differing
from server_processes import Chain, Process, run_clients

# More lines than a program keeps, and what it says of those that it dropped.
MANY, KEPT = 400, 256
DROPPED = re.compile(r"craq: (\d+) lines were dropped")
OLD_LINE = "craq: server 0: a peer speaks format 1, and this server format 2; its connection was closed"
# For how many seconds the load goes on after a server was killed, before the others are told.
UNTOLD = 0.5


class FullPipe:
    """A pipe into which nothing can be written until it is read."""

    def __init__(self):
        self.read_end, self.write_end = os.pipe()
        fcntl.fcntl(self.write_end, fcntl.F_SETPIPE_SZ, 4096)
        os.set_blocking(self.write_end, False)
        self.unread, piece = 0, 4096
        while piece:
            try:
                self.unread += os.write(self.write_end, b"." * piece)
            except BlockingIOError:
                piece //= 2
        os.set_blocking(self.write_end, True)
        self.text = ""

    def read(self, until):
        """What the program has written, read until that ends with this text."""
        end = time.monotonic() + LIMIT
        while not self.text.endswith(until):
            ready = select.select([self.read_end], [], [], max(0.0, end - time.monotonic()))[0]
            piece = os.read(self.read_end, 65536) if ready else b""
            if not piece:
                raise Wrong(f"standard error hasn't {until!r}, but {self.text!r}")
            self.text += piece[self.unread:].decode()
            self.unread = max(0, self.unread - len(piece))
        return self.text

    def close(self):
        os.close(self.read_end)
        os.close(self.write_end)


class Blocked(Process):
    """A run of the program whose standard error is a full pipe."""

    def __init__(self, *words):
        self.pipe = FullPipe()
        super().__init__(words, errors=self.pipe.write_end)

    def told(self):
        return self.pipe.text if self.pipe else ""

    def answers(self, line, wanted):
        """What is wrong with the next line that it prints, once it is told this one."""
        self.say(line)
        return differing(f"what {self.words[0]} answers to {line!r}", self.line(), wanted)

    def end(self):
        super().end()
        if self.pipe is not None:
            self.pipe.close()
            self.pipe = None


class BlockedChain(Chain):
    """A chain of servers and a master, of which each has such a standard error."""

    def started(self, server, *words):
        return Blocked("server", "--id", str(server), *self.clients, *self.words, *words)

    def another_master(self, *words):
        master = Blocked("master", *self.words, *words)
        if faults := master.answers("\n", "bad line\n"):
            raise Wrong(faults[0])
        return master

    def kill(self, server):
        """Ends a server's process. The clients call on, so links to it are written before anybody is told."""
        super().kill(server)
        time.sleep(UNTOLD)


class WatchedBlockedChain(BlockedChain):
    """The same with a master that watches."""

    def another_master(self, *words):
        master = Blocked("master", *self.words, "--watch", "--beat", "50", *words)
        for _ in range(self.count):
            if not (line := master.line()).endswith(": connected\n"):
                raise Wrong(f"a master that watches says {line!r}")
        return master

    def tell(self, server):
        """Nobody is told. The master tells by itself."""
        wanted = f"gone {server} told {self.count - len(self.failed)}\n"
        while (line := self.master.line()) != wanted:
            if not line.startswith("+"):
                raise Wrong(f"a master that watches says {line!r}, and not {wanted!r}")


def failover_case(of_chain):
    """A server is killed under load: updates at the others are answered. One that is called gone ends."""
    def case(rounds):
        chain = of_chain()
        try:
            faults, calls = run_clients(chain, rounds, 3, 0, 1)
            faults += [] if calls else ["no calls"]
            faults += stored(chain.ports[0]) + stored(chain.ports[2])
            chain.master.say("gone 2\n")
            gone = chain.servers[2]
            faults += differing("the status of a server that was called gone", gone.status(), GONE_STATUS)
            return faults + stored(chain.ports[0])
        finally:
            chain.end()
    return case


def stored(port):
    """What is wrong with a set at this port."""
    client = Connection(port)
    try:
        return differing(f"a set at port {port}", client.call(b"set a 0 0 1\r\n1\r\n"), b"STORED")
    finally:
        client.close()


def dropped_case(_rounds):
    """More lines than a server keeps, while nobody reads them: each connection is answered. Once they are read, the
    oldest come, and how many were dropped, and then later ones."""
    port, peer_port = free_ports(1), free_ports(1)
    numbers = ("--servers", "1", "--port", str(port), "--peer-port", str(peer_port), "--quiet")
    server = Blocked("server", "--id", "0", *numbers)
    try:
        if server.line() != "ready\n":
            return ["the server isn't ready"]
        for _ in range(MANY):
            if faults := differing("an old peer", rest(opened(peer_port, OLD_HELLO)), b""):
                return faults
        faults += stored(port)
        *lines, last = server.pipe.read("dropped\n").splitlines()
        found = DROPPED.fullmatch(last)
        if not found or set(lines) != {OLD_LINE} or not KEPT <= len(lines) == MANY - int(found[1]):
            faults.append(f"{len(lines)} lines of {len(set(lines))} kinds, and then {last!r}")
        faults += differing("an old peer", rest(opened(peer_port, OLD_HELLO)), b"")
        faults += differing("the line after those", server.pipe.read("closed\n").splitlines()[-1], OLD_LINE)
        return faults
    finally:
        server.end()


def gone_case(_rounds):
    """A server that is called gone ends, though nobody reads its last line."""
    chain = BlockedChain(servers=2)
    try:
        faults = chain.master.answers("gone 1\n", "gone 1 told 1\n")
        faults += differing("its status", chain.servers[1].status(), GONE_STATUS)
        return faults + stored(chain.ports[0])
    finally:
        chain.end()


def taken_case(_rounds):
    """A server and a cluster whose port is taken end, though nobody reads why."""
    faults, port, peer_port = [], free_ports(1), free_ports(1)
    chain = ("--servers", "1", "--port", str(port))
    with socket.create_server(("127.0.0.1", port)):
        for words in (("server", "--id", "0", "--peer-port", str(peer_port), *chain), ("cluster", *chain)):
            process = Blocked(*words)
            try:
                faults += differing(f"the status of a {words[0]}", process.status(), 1)
            finally:
                process.end()
    return faults


def masters_case(_rounds):
    """A master that finds no server says so to nobody, and answers lines. The line comes once somebody reads it."""
    faults = []
    for watch in ((), ("--watch",)):
        master = Blocked("master", "--servers", "1", "--peer-port", str(free_ports(1)), *watch)
        try:
            faults += master.answers("\n", "bad line\n")
            faults += [] if "craq: no server answers; " in master.pipe.read("\n") else [repr(master.told())]
        finally:
            master.end()
    return faults


def cluster_case(_rounds):
    """A cluster says how it starts, and that its answers are lost, to nobody: servers are failed all the same, and
    clients are answered. The lines come once somebody reads them."""
    port = free_ports(3)
    cluster = Blocked("cluster", "--servers", "3", "--port", str(port))
    try:
        faults = differing("its output", cluster.line(), "ready\n")
        faults += cluster.answers("fail 1\n", "gone 1\n") + stored(port)
        cluster.process.stdout.close()
        cluster.say("fail 2\n")
        faults += stored(port)
        lines = cluster.pipe.read("goes on\n").splitlines()
        faults += [] if lines[0].startswith("craq 0.1.0: a cluster of 3 servers; ") else [f"its first line: {lines[0]!r}"]
        return faults
    finally:
        cluster.end()
