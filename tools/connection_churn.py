"""Clients that are reset in the middle of a reply and come again at once, beside others that pipeline updates.

A connection that has just come and ends without an answer, though nothing failed, was closed for another one's end. It
connects to 127.0.0.1 alone.
"""
import socket
import struct
import threading
import time

from chain_clients import LIMIT, Closed, Connection, Wrong

RESET = struct.pack("ii", 1, 0)  # what closes a socket at once, and tells the other side
CHURNERS = 24  # clients that are reset
LOADERS = 6  # connections at each server that pipeline updates
BURST = 16  # updates that one sends before it reads
LARGE = 100000  # the size of an item whose reply doesn't fit into what a socket takes at once


class Counted:
    """So many fresh connections, for so many seconds at most; and those that ended without an answer."""

    def __init__(self, count, seconds):
        self.left, self.end = count, time.monotonic() + seconds
        self.made, self.unanswered = 0, 0
        self.lock = threading.Lock()

    def goes_on(self):
        with self.lock:
            self.left -= 1
            return self.left >= 0 and time.monotonic() < self.end

    def came(self, is_answered):
        with self.lock:
            self.made += 1
            self.unanswered += not is_answered


def is_answered(port, request):
    """Whether a fresh connection is answered. It is reset once the reply has begun."""
    with socket.socket() as fresh:
        fresh.settimeout(LIMIT)
        fresh.setsockopt(socket.SOL_SOCKET, socket.SO_LINGER, RESET)
        try:
            fresh.connect(("127.0.0.1", port))
            fresh.sendall(request)
            return bool(fresh.recv(1024))
        except socket.timeout as fault:
            raise Wrong("no reply in time") from fault
        except OSError:
            return False


class Churner(threading.Thread):
    """A client that comes and is reset, again and again, at one server after another."""

    def __init__(self, ports, number, counted):
        super().__init__(daemon=True)
        self.ports, self.number, self.counted, self.faults = ports, number, counted, []

    def run(self):
        try:
            turn = self.number
            while self.counted.goes_on():
                # A large reply waits for the socket when the reset comes, a small one doesn't.
                request = b"get large\r\n" * 4 if turn % 4 else b"get none\r\n"
                self.counted.came(is_answered(self.ports[turn % len(self.ports)], request))
                turn += 1
        except Wrong as fault:
            self.faults.append(repr(fault))


class Loader(threading.Thread):
    """A connection that pipelines sets until it is stopped."""

    def __init__(self, port, number):
        super().__init__(daemon=True)
        self.connection, self.stopped, self.faults = Connection(port), threading.Event(), []
        self.request = b"set load:%d 0 0 1\r\nx\r\n" % number * BURST

    def run(self):
        try:
            while not self.stopped.is_set():
                self.connection.send(self.request)
                for _ in range(BURST):
                    if self.connection.line() != b"STORED":
                        raise Wrong("a set wasn't stored")
        except (Closed, Wrong) as fault:
            self.faults.append(f"a connection that wasn't reset: {fault!r}")

    def end(self):
        self.stopped.set()
        self.join(LIMIT)
        self.connection.close()
        return self.faults


def churned(ports, count, seconds):
    """Has fresh connections come and be reset. How many came, how many ended without an answer, and what is wrong."""
    first = Connection(ports[0])
    line = first.call(b"set large 0 0 %d\r\n%s\r\n" % (LARGE, b"x" * LARGE))
    faults = [] if line == b"STORED" else [f"a large set: {line!r}"]
    first.close()
    loaders = [Loader(port, number) for number, port in enumerate(ports * LOADERS)]
    counted = Counted(count, seconds)
    churners = [Churner(ports, number, counted) for number in range(CHURNERS)]
    for thread in loaders + churners:
        thread.start()
    for churner in churners:
        churner.join()
        faults += churner.faults
    for loader in loaders:
        faults += loader.end()
    return counted.made, counted.unanswered, faults
