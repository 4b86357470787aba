"""Speaking at the peer ports of servers, as a server or a master does. Talks to this machine alone."""
import socket
import threading
import time

from chain_clients import LIMIT, Wrong

# The master's id in a Hello, and the name of a chain that isn't named.
MASTER, NAME = 16, b"craq"

# Frames between servers, and of a master (docs/FORMATS.md, "Peer messages").
EMPTY_VIEW = bytes(2)
NUMBER_ONE = bytes(7) + b"\x01"
ACK = b"\x02\x03" + EMPTY_VIEW + NUMBER_ONE
# To a query that nobody has put: nothing comes of it.
ANSWER = b"\x02\x05" + EMPTY_VIEW + NUMBER_ONE + bytes(8)
OP_INCR = b"\x02\x01" + EMPTY_VIEW + NUMBER_ONE + b"\x01n\x07" + NUMBER_ONE
OP_FOUR_GIB = b"\x02\x01" + EMPTY_VIEW + NUMBER_ONE + b"\x01a\x01" + bytes(4) + b"\xff\xff\xff\xff"
ENTRY_OF_A = NUMBER_ONE + b"\x00" + NUMBER_ONE + b"\x01a\x01\x01" + bytes(4)
FORWARD_FOUR_GIB = b"\x02\x02" + EMPTY_VIEW + ENTRY_OF_A + b"\xff\xff\xff\xff"
OLD_HELLO = b"\x01\x00\x01"


def hello(who):
    return bytes([2, 0, who])


def introduction(servers, chain=NAME, start=1):
    return bytes([2, 7, servers]) + start.to_bytes(8, "big") + bytes([len(chain)]) + chain


def greeting(who, servers, chain=NAME, start=1):
    """How whoever opens a connection begins."""
    return hello(who) + introduction(servers, chain, start)


def accepted(start=1, failed=()):
    return b"\x02\x08" + start.to_bytes(8, "big") + sum(1 << i for i in failed).to_bytes(2, "big")


def refused(reason):
    return bytes([2, 9, reason])


def gone(server):
    return bytes([2, 6, server])


def noted(server):
    return bytes([2, 10, server])


def confirmed(count=0):
    """What a receiver of a link says: it has handed on so many bytes."""
    return b"\x02\x0f" + count.to_bytes(8, "big")


def opened(port, bytes_):
    """A connection to a peer port, on which these bytes were sent."""
    connection = socket.create_connection(("127.0.0.1", port), timeout=LIMIT)
    try:
        connection.sendall(bytes_)
    except OSError:
        pass
    return connection


def received(connection, count):
    """The next `count` bytes of a connection."""
    bytes_ = b""
    while len(bytes_) < count:
        piece = connection.recv(count - len(bytes_))
        if not piece:
            raise Wrong(f"a connection ended after {bytes_!r}")
        bytes_ += piece
    return bytes_


def rest(connection):
    """All bytes that still come, if the server closes the connection within the limit; None if it doesn't."""
    bytes_ = b""
    try:
        while piece := connection.recv(4096):
            bytes_ += piece
    except socket.timeout:
        return None
    except OSError:
        pass
    finally:
        connection.close()
    return bytes_


def admitted(port, who, servers, chain=NAME):
    """A connection to a peer port whose greeting was accepted, and the servers that have failed, as it was told."""
    connection = opened(port, greeting(who, servers, chain))
    answer = received(connection, 12)
    if answer[:2] != b"\x02\x08":
        raise Wrong(f"the greeting of {who} was answered {answer!r}")
    failed = int.from_bytes(answer[10:], "big")
    return connection, [i for i in range(16) if failed >> i & 1]


def linked(port, who, servers, chain=NAME, start=1):
    """A connection to a peer port by which the link from a server goes on, and after how many bytes, as it was told."""
    return taken(port, greeting(who, servers, chain, start))


def taken(port, bytes_):
    """The same with these bytes of a server's greeting. On a slow machine it is tried again: a greeting is closed
    without an answer if the connection before it doesn't end in time."""
    end = time.monotonic() + LIMIT
    while True:
        connection, answer = opened(port, bytes_), b""
        try:
            while len(answer) < 22 and (piece := connection.recv(22 - len(answer))):
                answer += piece
        except OSError:
            pass
        if answer or time.monotonic() > end:
            break
        connection.close()
    if len(answer) < 22 or answer[:2] + answer[12:14] != b"\x02\x08\x02\x0f":
        raise Wrong(f"a server's greeting was answered {answer!r}")
    return connection, int.from_bytes(answer[14:], "big")


class Inlet:
    """What another server sends to the test, over one connection after another. All that comes is confirmed at once,
    whether it was asked for or not."""

    def __init__(self, connection):
        self.lock, self.bytes, self.asked, self.reader = threading.Condition(), b"", 0, None
        self.go_on(connection)

    def go_on(self, connection):
        """Accepts a connection, by which the link goes on after what has come."""
        if self.reader is not None:
            ended(self.connection)
            self.reader.join()
        self.connection = connection
        connection.settimeout(None)
        self.reader = threading.Thread(target=self.read, args=(connection,), daemon=True)
        try:
            connection.sendall(accepted() + confirmed(len(self.bytes)))
        except OSError:
            pass
        self.reader.start()

    def read(self, connection):
        try:
            while piece := connection.recv(65536):
                with self.lock:
                    self.bytes += piece
                    self.lock.notify_all()
                connection.sendall(confirmed(len(self.bytes)))
        except OSError:
            pass

    def receive(self, count):
        """The next bytes."""
        with self.lock:
            if not self.lock.wait_for(lambda: len(self.bytes) >= self.asked + count, LIMIT):
                raise Wrong(f"{self.bytes[self.asked:]!r} has come, and not {count} bytes")
            self.asked += count
            return self.bytes[self.asked - count:self.asked]

    def end(self):
        ended(self.connection)
        self.reader.join()


class Peer:
    """The test as a server of a chain: it listens at that server's peer port, and opens its links to the others."""

    def __init__(self, server, servers, peer_port, chain=NAME):
        self.server, self.servers, self.peer_port, self.chain = server, servers, peer_port, chain
        self.listener, self.opened = socket.create_server(("127.0.0.1", peer_port + server)), []
        self.listener.settimeout(LIMIT)
        self.inlets = {}  # the links from the other servers that were accepted, by their ids

    def meet(self):
        """Accepts a connection, reads its greeting, and gives who it is, how many servers it has, and its chain."""
        self.met, _ = self.listener.accept()
        self.met.settimeout(LIMIT)
        self.opened.append(self.met)
        begin = received(self.met, 15)
        if begin[:2] + begin[3:5] != b"\x02\x00\x02\x07":
            raise Wrong(f"a connection begins with {begin!r}")
        return begin[2], begin[5], received(self.met, begin[14])

    def accept(self, answer=None):
        """Meets a server. With an answer it gets that, and nothing else; else its link is accepted and read."""
        met = self.meet()
        if answer is not None:
            self.met.sendall(answer)
        elif met[0] in self.inlets:
            self.inlets[met[0]].go_on(self.met)
        else:
            self.inlets[met[0]] = Inlet(self.met)
        return met

    def stay(self):
        """Accepts whoever connects from now on, until it leaves. So a server whose connection ends goes on: on a slow
        machine one that isn't confirmed in time is ended."""
        self.listener.settimeout(None)
        threading.Thread(target=self.accept_all, daemon=True).start()

    def accept_all(self):
        while True:
            try:
                self.accept()
            except Wrong:
                pass
            except OSError:
                if self.listener.fileno() < 0:
                    return

    def receive(self, count, other=0):
        """The next bytes that another server has sent."""
        return self.inlets[other].receive(count)

    def link(self, other):
        """Opens the link to another server, of which nothing has come yet."""
        connection, count = linked(self.peer_port + other, self.server, self.servers, self.chain)
        self.opened.append(connection)
        if count:
            raise Wrong(f"the link from server {self.server} to {other} goes on after {count} bytes")
        return connection

    def leave(self):
        """Ends what it has accepted, and accepts nobody any more."""
        ended(self.listener)
        for inlet in self.inlets.values():
            inlet.end()

    def end(self):
        self.leave()
        for it in self.opened:
            it.close()


def ended(it):
    """Ends a socket, also for a thread that waits for it."""
    try:
        it.shutdown(socket.SHUT_RDWR)
    except OSError:
        pass
    it.close()


class Closing:
    """A server that answers each greeting, and closes the connection then, as one does that was called gone and can't
    end."""

    def __init__(self, port):
        self.listener, self.count = socket.create_server(("127.0.0.1", port)), 0
        threading.Thread(target=self.run, daemon=True).start()

    def run(self):
        while True:
            try:
                connection, _ = self.listener.accept()
            except OSError:
                return
            self.count += 1
            with connection:
                try:
                    connection.settimeout(LIMIT)
                    begin = received(connection, 15 + len(NAME))
                    connection.sendall(accepted() if begin[2] == MASTER else accepted() + confirmed())
                except (OSError, Wrong):
                    pass

    def end(self):
        self.listener.shutdown(socket.SHUT_RDWR)
        self.listener.close()
