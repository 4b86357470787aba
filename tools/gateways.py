"""A way between a master and a server's peer port that can be cut, as a network that loses everything. Talks to this
machine's loopback addresses alone."""
import socket
import threading

# Where a master finds it; the server listens on 127.0.0.1.
HOST = "127.0.0.2"


class Gateway:
    """It listens at this port of its own address, and hands on what comes to the server at the same port, and back."""

    def __init__(self, port):
        self.port, self.lock, self.is_open, self.pumps = port, threading.Condition(), True, []
        self.listener = socket.create_server((HOST, port))
        threading.Thread(target=self.accept, daemon=True).start()

    def accept(self):
        """Until the server refuses a connection. Then this port does too."""
        try:
            while True:
                there, _ = self.listener.accept()
                here = socket.create_connection(("127.0.0.1", self.port))
                self.pumps += [Pump(self, there, here), Pump(self, here, there)]
        except OSError:
            self.listener.close()

    def cut(self):
        """Nothing is handed on from now on."""
        with self.lock:
            self.is_open = False

    def let_held(self):
        """Hands on what came first since it was cut, on each connection, and nothing else."""
        with self.lock:
            for pump in self.pumps:
                pump.hand_on()

    def open(self):
        """Hands on all that has come, and what comes."""
        with self.lock:
            self.is_open = True
            self.lock.notify_all()

    def end(self):
        ended(self.listener)
        self.open()
        for pump in self.pumps:
            pump.end()


class Pump:
    """Hands on what comes on one connection to another one. Its end ends that one."""

    def __init__(self, gateway, source, sink):
        self.gateway, self.source, self.sink, self.held = gateway, source, sink, b""
        threading.Thread(target=self.run, daemon=True).start()

    def run(self):
        try:
            while piece := self.source.recv(4096):
                with self.gateway.lock:
                    self.held = piece
                    self.gateway.lock.wait_for(lambda: self.gateway.is_open)
                    self.hand_on()
        except OSError:
            pass
        self.end()

    def hand_on(self):
        piece, self.held = self.held, b""
        self.sink.sendall(piece)

    def end(self):
        ended(self.source)
        ended(self.sink)


def ended(it):
    """Ends a socket, also for a thread that waits for it."""
    try:
        it.shutdown(socket.SHUT_RDWR)
    except OSError:
        pass
    it.close()
