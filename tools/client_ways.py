"""Ways between a client and the servers' ports, which keep what goes over them, and may lose one reply. Talks to
127.0.0.1 alone."""
import select
import socket
import threading

from gateways import ended


class Loss:
    """The reply to the first request that has these bytes is lost, on whichever way that comes."""

    def __init__(self, request=None):
        self.request, self.lock = request, threading.Lock()

    def is_of(self, piece):
        with self.lock:
            if self.request is None or self.request not in piece:
                return False
            self.request = None
            return True


class Way:
    """It listens at a port of its own. Once a reply is lost, its connection is closed."""

    def __init__(self, port, loss=None):
        self.server, self.loss = port, loss or Loss()
        self.sent, self.answered = [], []  # what the clients sent, and the server, piece by piece
        self.listener = socket.create_server(("127.0.0.1", 0))
        self.port = self.listener.getsockname()[1]
        threading.Thread(target=self.accept, daemon=True).start()

    def accept(self):
        try:
            while True:
                client, _ = self.listener.accept()
                threading.Thread(target=self.connect, args=(client,), daemon=True).start()
        except OSError:
            pass  # it has ended

    def connect(self, client):
        try:
            with client, socket.create_connection(("127.0.0.1", self.server)) as server:
                self.hand_on(client, server)
        except OSError:
            pass  # who is at the other side sees it

    def hand_on(self, client, server):
        """Hands on what comes, until one of the two closes the connection, or a reply is to be lost."""
        is_lost = False
        while True:
            ready, _, _ = select.select([client, server], [], [])
            if client in ready:
                if not (piece := client.recv(65536)):
                    return
                self.sent.append(piece)
                is_lost = is_lost or self.loss.is_of(piece)
                server.sendall(piece)
            if server in ready:
                if not (piece := server.recv(65536)) or is_lost:
                    return
                self.answered.append(piece)
                client.sendall(piece)

    def end(self):
        ended(self.listener)
