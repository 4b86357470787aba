"""What the cases of tools/test_clients share: a chain with a proxy in front of it or not, running the programs of
tools/clients, and comparing texts."""
import re
import socket
import time
from pathlib import Path

from chain_clients import LIMIT, Wrong
from failover_cases import Watched
from ports import free_ports
from server_processes import Process

TOOLS = Path(__file__).resolve().parent
CLIENTS = TOOLS / "clients"
PYTHON = "/usr/bin/python3"  # Debian's, which its packages are for
HEAD, MIDDLE, TAIL = range(3)


def program(name):
    """The words that run a program of tools/clients."""
    kinds = {".py": (PYTHON, "-B"), ".php": ("php",), ".pl": ("perl",), ".rb": ("ruby",), ".sh": ("sh",)}
    return *kinds[Path(name).suffix], str(CLIENTS / name)


def started(words):
    return Process(words[1:], program=words[0])


class Served:
    """A chain of three servers that a master watches, and maybe a proxy in front of them."""

    def __init__(self, room, proxy=None):
        self.chain, self.proxy = Watched(), None
        self.addresses = [address(it) for it in self.chain.ports]
        try:
            if proxy:
                self.proxy = proxy(room, self.chain.ports)
                self.addresses = [address(self.proxy.port)]
        except BaseException:
            self.end()
            raise

    def fail(self, server):
        self.chain.fail(server)

    def end(self):
        if self.proxy:
            self.proxy.end()
        self.chain.end()


def address(port):
    return f"127.0.0.1:{port}"


def configured(room, name, ports, own):
    """A file of tools/clients with these ports of servers in place of its own, and longer limits, and its name; and the
    port in place of `own`."""
    text, port = (CLIENTS / name).read_text(), free_ports(1)
    given = {str(own): str(port), **{str(11211 + i): str(it) for i, it in enumerate(ports)}, **PATIENCE.get(name, {})}
    file = Path(room, f"{port}-{name}")
    file.write_text(re.sub("|".join(given), lambda it: given[it[0]], text))
    return str(file), port


class Proxy:
    """A proxy in front of the servers' ports, once it accepts connections."""

    def __init__(self, port, words):
        self.port, self.process = port, started(words)
        end = time.monotonic() + LIMIT
        while not self.is_there():
            if time.monotonic() > end or self.process.process.poll() is not None:
                raise Wrong(f"{words[0]} doesn't listen: {self.process.told()!r}")
            time.sleep(0.02)

    def is_there(self):
        try:
            socket.create_connection(("127.0.0.1", self.port)).close()
            return True
        except OSError:
            return False

    def end(self):
        self.process.end()


# Slowness is no failure: longer limits than the files have.
PATIENCE = {
    "haproxy.cfg": {"timeout connect 1s": "timeout connect 60s\n    timeout check 60s"},
    "nutcracker.yml": {"timeout: 7000": "timeout: 60000"},
}


def haproxy(room, ports):
    file, port = configured(room, "haproxy.cfg", ports, 11210)
    return Proxy(port, ("/usr/sbin/haproxy", "-db", "-f", file))


def nutcracker(room, ports):
    file, port = configured(room, "nutcracker.yml", ports, 22121)
    return Proxy(port, ("/usr/sbin/nutcracker", "-c", file, "-a", "127.0.0.1", "-s", str(free_ports(1))))


def again(client):
    client.say("\n")
    return client.line()


def counted(number, what):
    return f"{number} {what}{'s' * (number != 1)}"


def differing_text(what, seen, wanted):
    """What is wrong if a text isn't this one, in which `..` stands for any."""
    pattern = ".*".join(map(re.escape, wanted.split("..")))
    return [] if re.fullmatch(pattern, seen, re.DOTALL) else [f"{what}: {seen!r}, not {wanted!r}"]
