"""The servers that benchmarks measure, but for those of craq (chains.py): each starts its processes on free ports of
127.0.0.1, and ends them itself."""
import ctypes
import os
import resource
import shutil
import signal
import socket
import subprocess
import sys
import time
from contextlib import ExitStack, contextmanager
from tempfile import TemporaryDirectory

SIZES = [100, 4096]
KEY_LENGTH = 13
READY = 30
PR_SET_PDEATHSIG = 1
LIBC = ctypes.CDLL(None)
# As many files as the launcher of craq lets it open.
MOST_FILES = 1 << 20


def before_start():
    """A server ends with this process, and may open as many files as the system and that launcher allow."""
    LIBC.prctl(PR_SET_PDEATHSIG, signal.SIGKILL)
    _, most = resource.getrlimit(resource.RLIMIT_NOFILE)
    resource.setrlimit(resource.RLIMIT_NOFILE, (most if 0 <= most < MOST_FILES else MOST_FILES, most))


def free_ports(count):
    """The first of `count` ports in a row that nobody listens on."""
    for first in range(free_ports.next, 32000, count):
        try:
            for port in range(first, first + count):
                with socket.socket() as tried:
                    tried.bind(("127.0.0.1", port))
            free_ports.next = first + count
            return first
        except OSError:
            continue
    sys.exit("no free ports")


free_ports.next = 22000


class Peer:
    """A server, or some that belong together."""

    servers = 1

    def __init__(self, name):
        self.name, self.processes, self.first = name, [], None

    def start(self, words, **how):
        process = subprocess.Popen(words, preexec_fn=before_start, stderr=subprocess.DEVNULL, **how)
        self.processes.append(process)
        return process

    def ports(self, _size):
        return [self.first]

    def counted(self):
        """Those of its processes whose processor time is that of its calls."""
        return self.processes

    def words(self, size):
        """What the load generator has to be told of this peer."""
        pids = ",".join(str(process.pid) for process in self.counted())
        return ["--ports", ",".join(map(str, self.ports(size))), "--pids", pids]

    def memory(self):
        """The anonymous and shared memory of its processes that is in place, in bytes."""
        return sum(in_place(process.pid) for process in self.processes)

    def end(self):
        for process in self.processes:
            process.kill()
        for process in self.processes:
            process.wait()
        self.processes = []

    def wait_for_port(self, port):
        until = time.monotonic() + READY
        while time.monotonic() < until:
            try:
                socket.create_connection(("127.0.0.1", port)).close()
                return
            except OSError:
                time.sleep(.02)
        sys.exit(f"{self.name} isn't ready")


def in_place(pid):
    with open(f"/proc/{pid}/status") as lines:
        return sum(int(line.split()[1]) * 1024 for line in lines if line.startswith(("RssAnon", "RssShmem")))


class Echo(Peer):
    """Canned replies: a process for each size."""

    def __init__(self, name, program):
        super().__init__(name)
        self.program = program

    def open(self, _folder):
        self.first = free_ports(len(SIZES))
        for place, size in enumerate(SIZES):
            self.start([self.program, str(self.first + place), str(KEY_LENGTH), str(size)])
            self.wait_for_port(self.first + place)

    def ports(self, size):
        return [self.first + SIZES.index(size)]

    def words(self, size):
        return [*super().words(size), "--canned"]


class Memcached(Peer):
    def open(self, _folder):
        self.first = free_ports(1)
        self.start(["memcached", "-u", "root", "-l", "127.0.0.1", "-p", str(self.first), "-U", "0", "-m", "4096",
                    "-c", "2048"])
        self.wait_for_port(self.first)


class Redis(Peer):
    """A primary and two replicas: a write is followed by WAIT 2."""

    servers = 3

    def open(self, folder):
        self.first = free_ports(3)
        for place in range(3):
            port, own = self.first + place, os.path.join(folder, f"redis{self.first + place}")
            os.mkdir(own)
            words = ["redis-server", "--bind", "127.0.0.1", "--port", str(port), "--dir", own, "--save", "",
                     "--appendonly", "no", "--repl-diskless-sync-delay", "0"]
            if place:
                words += ["--replicaof", "127.0.0.1", str(self.first)]
            self.start(words, stdout=subprocess.DEVNULL)
            self.wait_for_port(port)
        self.wait_for_replicas()

    def wait_for_replicas(self):
        with socket.create_connection(("127.0.0.1", self.first), timeout=READY) as client:
            for _ in range(READY):
                client.sendall(b"SET ready 1\r\nWAIT 2 1000\r\n")
                if read_lines(client, 2)[1] == b":2":
                    return
        sys.exit("redis has no two replicas")

    def words(self, size):
        return [*super().words(size), "--resp", "--wait-for", "2"]


def read_lines(client, count):
    text = b""
    while text.count(b"\n") < count:
        piece = client.recv(65536)
        if not piece:
            sys.exit("a connection was closed")
        text += piece
    return text.split(b"\r\n")


@contextmanager
def running(peers):
    """These peers, which run until the block ends."""
    with TemporaryDirectory() as folder, ExitStack() as stack:
        for peer in peers:
            stack.callback(peer.end)
            peer.open(folder)
        yield peers


def is_there(program):
    if shutil.which(program):
        return True
    print(f"{program} isn't installed: left out", file=sys.stderr)
    return False
