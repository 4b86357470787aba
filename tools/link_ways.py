"""Ways between the servers of a chain that can be broken: each link from one server to another goes by a way of its
own, at an address of its own. Talks to this machine's loopback addresses alone."""
import socket
import struct
import threading
import time

from chain_clients import LIMIT, Wrong
from peer_sockets import ended, received
from server_processes import Chain

ABORTS = struct.pack("ii", 1, 0)
PIECE = 65536


class Way:
    """The way from server i to server j. It hands on what comes to the peer port of j, and back."""

    def __init__(self, i, j, port):
        self.host, self.port = f"127.1.{i}.{j + 1}", port
        self.lock = threading.Condition()
        # Whether it hands on at all, and whether it takes new connections; what it is still to hand on before it breaks
        # a connection; how many connections it has had, and for how many seconds it keeps each piece.
        self.is_open, self.refuses, self.left, self.opened, self.delay = True, False, None, 0, 0.0
        # The connections that stand, those of them that are held, and those of which a piece is just being handed on.
        self.pairs, self.held, self.busy = set(), set(), set()
        self.greeting = b""  # with which the last connection began
        self.listener = socket.create_server((self.host, port))
        threading.Thread(target=self.accept, daemon=True).start()

    def accept(self):
        try:
            while True:
                there, _ = self.listener.accept()
                threading.Thread(target=self.meet, args=(there,), daemon=True).start()
        except OSError:
            pass

    def meet(self, there):
        """Hands on the greeting of a connection, which stands from then on."""
        try:
            if self.refuses:
                raise OSError("it is refused")
            there.settimeout(LIMIT)
            greeting = received(there, 15)
            greeting += received(there, greeting[14])
            there.settimeout(None)
            here = socket.create_connection(("127.0.0.1", self.port))
        except (OSError, Wrong):
            abort(there)
            return
        for it in (there, here):
            it.setsockopt(socket.IPPROTO_TCP, socket.TCP_NODELAY, 1)
        pair = (there, here)
        with self.lock:
            self.opened += 1
            self.greeting = greeting
            self.pairs.add(pair)
            self.lock.notify_all()
        for source, sink, first in ((there, here, greeting), (here, there, b"")):
            threading.Thread(target=self.pump, args=(pair, source, sink, first), daemon=True).start()

    def pump(self, pair, source, sink, piece):
        """Hands on what comes on one side of a connection."""
        is_forth = source is pair[0]
        try:
            while piece or (piece := source.recv(PIECE)):
                if self.delay:
                    time.sleep(self.delay)
                is_cut = False
                with self.lock:
                    self.lock.wait_for(lambda: pair not in self.pairs or self.is_open and pair not in self.held)
                    if pair not in self.pairs:
                        return
                    if is_forth and self.left is not None:
                        is_cut = len(piece) >= self.left
                        piece, self.left = piece[:self.left], None if is_cut else self.left - len(piece)
                    self.busy.add((pair, is_forth))
                try:
                    sink.sendall(piece)
                finally:
                    self.busy.discard((pair, is_forth))
                piece = b""
                if is_cut:
                    self.reset()
                    return
        except OSError:
            pass
        self.drop(pair)

    def drop(self, pair):
        """A connection has ended on one side, and ends on the other."""
        with self.lock:
            self.pairs.discard(pair)
            self.held.discard(pair)
            self.lock.notify_all()
        for it in pair:
            ended(it)

    def reset(self, with_end=True):
        """Breaks each connection that stands, in both directions: what is on its way is lost. With an end both sides
        read that first, and else a reset at once. It tells how many connections there were."""
        with self.lock:
            pairs, self.pairs = self.pairs, set()
            busy = {pair for pair, _ in self.busy}
            self.held.clear()
            self.lock.notify_all()
        for pair in pairs:
            for it in pair:
                abort(it, with_end or pair in busy)
        return len(pairs)

    def cut_after(self, count):
        """Breaks the connections once so many more bytes have gone over it."""
        with self.lock:
            self.left = count

    def is_cutting(self):
        """Whether that hasn't happened yet."""
        with self.lock:
            return self.left is not None

    def stall(self):
        """Nothing is handed on from now on."""
        with self.lock:
            self.is_open = False

    def hold(self):
        """Nothing is handed on any more on the connections that stand, but on new ones. It tells how many there are."""
        with self.lock:
            self.held |= self.pairs
            return len(self.held)

    def go_on(self):
        with self.lock:
            self.is_open, self.refuses, self.left, self.delay = True, False, None, 0.0
            self.held.clear()
            self.lock.notify_all()

    def wait_for(self, opened):
        """Waits until it has had so many connections."""
        with self.lock:
            if not self.lock.wait_for(lambda: self.opened >= opened, LIMIT):
                raise Wrong(f"the way to {self.host} has had {self.opened} connections, and not {opened}")

    def end(self):
        ended(self.listener)
        self.reset()
        self.go_on()


def abort(it, with_end=True):
    """Ends a socket by a reset, which goes out at once if no thread writes there. A thread that reads there goes on."""
    try:
        it.setsockopt(socket.SOL_SOCKET, socket.SO_LINGER, ABORTS)
        it.shutdown(socket.SHUT_RDWR if with_end else socket.SHUT_RD)
    except OSError:
        pass
    it.close()


class WayChain(Chain):
    """A chain in which each link goes by a way of its own. The master reaches the servers without them."""

    def __init__(self, servers=3, **numbers):
        self.ways = {}
        super().__init__(servers=servers, **numbers)

    def started(self, server, *words):
        hosts = ["127.0.0.1"] * self.count
        for j in range(self.count):
            if j != server:
                way = self.ways[server, j] = self.ways.get((server, j)) or Way(server, j, self.peer_port + j)
                hosts[j] = way.host
        return super().started(server, "--peers", ",".join(hosts), *words)

    def end(self):
        for way in self.ways.values():
            ended(way.listener)
        super().end()
        for way in self.ways.values():
            way.end()
