"""What the cases of tools/test_servers and tools/test_leases share: telling what came of a case, comparing, waiting for
a line, and a server whose peers the test is."""
import re
import socket
import struct
import time
import traceback

from chain_clients import LIMIT, Wrong
from peer_sockets import Peer, opened, rest
from ports import free_ports
from server_processes import Process


def passed(name, wrong):
    """Prints a case with what was wrong in it."""
    lines = [f"{'FAILED ' if wrong else 'ok     '} {name}", *(f"  {fault}" for fault in wrong[:5])]
    print("".join(f"{line}\n" for line in lines), end="", flush=True)
    return not wrong


def judged(name, case, rounds):
    """Runs a case, whatever it raises."""
    try:
        return passed(name, case(rounds))
    except Exception:  # noqa: BLE001 (told as a fault)
        return passed(name, traceback.format_exc().splitlines()[-3:])


def differing(what, seen, wanted):
    """What is wrong if these differ, in words."""
    return [] if seen == wanted else [f"{what}: {seen!r}, not {wanted!r}"]


def differing_at_last(what, seen, wanted):
    """The same of what is seen when this is called, once it is as wanted or the limit has passed: a program's lines are
    written by a thread of their own."""
    end = time.monotonic() + LIMIT
    while seen() != wanted and time.monotonic() < end:
        time.sleep(0.02)
    return differing(what, seen(), wanted)


def call_line(other):
    """What the user is to do about a link that is broken."""
    return f"unless server {other} or this one is being stopped, one of the two must be called gone"


def link_line(server, other, reason):
    """A server's line on the link from another."""
    return f"craq: server {server}: the link from server {other} {reason}; {call_line(other)}"


def still_line(server, other, wait=None):
    """A server's line on the link to another that has stood still for two seconds at least, and for which so many bytes
    wait, or any number."""
    return LineWith(f"craq: server {server}: the link to server {other} stands still for ", " ms, ",
                    f" bytes wait; {call_line(other)}", second=wait)


def goes_line(server, other):
    """A server's line on the link to another that goes on, and was told to stand still."""
    return LineWith(f"craq: server {server}: the link to server {other} goes on after ", " ms, and has lost nothing")


def milliseconds(line):
    """Of a line on a link that stands still, or goes on."""
    return int(line.partition(" ms")[0].split()[-1])


class LineWith:
    """A line that has numbers between these texts: first milliseconds, 2,000 at least, and then this one, if it is
    given. It is equal to each such line."""

    def __init__(self, *texts, second=None):
        self.texts, self.second = texts, second
        self.pattern = re.compile(r"(\d+)".join(map(re.escape, texts)))

    def __eq__(self, line):
        found = self.pattern.fullmatch(line)
        return bool(found) and int(found[1]) >= 2000 and self.second in (None, *map(int, found.groups()[1:]))

    def __repr__(self):
        return repr("N".join(self.texts))


def untold(process, line):
    """Waits until a process has written this line to its standard error. What is wrong if it doesn't."""
    end = time.monotonic() + LIMIT
    while line not in process.told().splitlines():
        if time.monotonic() > end:
            return [f"standard error hasn't {line!r}, but {process.told()!r}"]
        time.sleep(0.02)
    return []


def answered(peer_port, rows):
    """Which of these connections, each with its bytes, gets another answer than this one and an end, in words."""
    faults = []
    for name, bytes_, answer in rows:
        seen = rest(opened(peer_port, bytes_))
        if seen is None:
            faults.append(f"{name}: it isn't closed")
        else:
            faults += differing(name, seen, answer)
    return faults


def is_closed(connection):
    """Whether the server closes the connection, without a byte, within the limit."""
    return rest(connection) == b""


def is_silent(connection):
    """Whether nothing comes on a connection for half a second, and it stays open."""
    connection.settimeout(0.5)
    try:
        connection.recv(1)
    except socket.timeout:
        return True
    except OSError:
        pass
    finally:
        connection.settimeout(LIMIT)
    return False


def reset(connection):
    """Ends a connection so that the other side's read fails."""
    connection.setsockopt(socket.SOL_SOCKET, socket.SO_LINGER, struct.pack("ii", 1, 0))
    connection.close()


class Starting:
    """Server 0 of this many, which has been started, and of which the test is the others. It isn't ready."""

    def __init__(self, servers):
        self.port, self.peer_port = free_ports(servers), free_ports(servers)
        self.peers = {i: Peer(i, servers, self.peer_port) for i in range(1, servers)}
        numbers = ("--servers", str(servers), "--port", str(self.port), "--peer-port", str(self.peer_port))
        self.server = Process(("server", "--id", "0", *numbers, "--quiet"))

    def end(self):
        for it in [self.server, *self.peers.values()]:
            it.end()


class Alone(Starting):
    """The same server once it is ready; `speakers` are the links of the others to it. These confirm what it sends,
    until they leave."""

    def __init__(self, servers):
        super().__init__(servers)
        for peer in self.peers.values():
            peer.accept()
            peer.stay()
        self.speakers = {i: peer.link(0) for i, peer in self.peers.items()}
        if self.server.line() != "ready\n":
            raise Wrong(f"server 0 isn't ready: {self.server.told()!r}")
