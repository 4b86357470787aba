"""Running servers and masters of a chain in processes of their own. Talks to this machine alone.

Each process ends with the tool that started it, however the tool ends: by `end`, and by the kernel if the tool is
killed.
"""
import ctypes
import os
import resource
import select
import signal
import subprocess
import tempfile
import time
from pathlib import Path

import chain_clients
from chain_clients import LIMIT, Wrong
from ports import free_ports

PROGRAM = os.environ.get("CRAQ", str(Path(__file__).resolve().parent.parent / "craq"))
PR_SET_PDEATHSIG = 1
LIBC = ctypes.CDLL(None)
running = []


def end_with_the_tool():
    LIBC.prctl(PR_SET_PDEATHSIG, signal.SIGKILL)


def end_all():
    """Ends each process that was started and still runs."""
    for process in list(running):
        process.end()


class Process:
    """A run of the program, with its standard output as lines and its standard error in a file."""

    def __init__(self, words, files=None, errors=None, program=PROGRAM):
        """With `files`, that many may be open in it at once; with `errors`, that is its standard error."""
        self.words, self.unread = words, b""
        self.errors, self.passed = tempfile.TemporaryFile() if errors is None else errors, []

        def prepare():
            end_with_the_tool()
            if files is not None:
                resource.setrlimit(resource.RLIMIT_NOFILE, (files, files))

        self.process = subprocess.Popen(
            [program, *words], stdin=subprocess.PIPE, stdout=subprocess.PIPE, stderr=self.errors, preexec_fn=prepare)
        running.append(self)

    @property
    def id(self):
        return self.process.pid

    def line(self):
        """The next line of its output, with its end; what is left if the output ends."""
        end = time.monotonic() + LIMIT
        while b"\n" not in self.unread:
            ready, _, _ = select.select([self.process.stdout], [], [], max(0.0, end - time.monotonic()))
            if not ready:
                raise Wrong(f"{self.words[0]}: no line in time")
            piece = os.read(self.process.stdout.fileno(), 4096)
            if not piece:
                break
            self.unread += piece
        line, found, self.unread = self.unread.partition(b"\n")
        return (line + found).decode()

    def has_line(self):
        """Whether it has written something that wasn't read yet, or its output has ended."""
        return bool(self.unread or select.select([self.process.stdout], [], [], 0)[0])

    def say(self, text):
        self.process.stdin.write(text.encode())
        self.process.stdin.flush()

    def told(self):
        """What it has written to its standard error, but for lines that were passed over."""
        text = os.pread(self.errors.fileno(), 1024 * 1024, 0).decode()
        for line in self.passed:
            text = text.replace(line, "", 1)
        return text

    def pass_over(self, line):
        """Waits until it has written this line to its standard error, which isn't told then."""
        end = time.monotonic() + LIMIT
        while line not in self.told():
            if time.monotonic() > end:
                raise Wrong(f"{self.words[0]}: standard error hasn't {line!r}, but {self.told()!r}")
            time.sleep(0.02)
        self.passed.append(line)

    def status(self):
        """Its exit status, once it has ended by itself."""
        try:
            return self.process.wait(LIMIT)
        except subprocess.TimeoutExpired as fault:
            raise Wrong(f"{self.words[0]}: it doesn't end") from fault

    def signal(self, number):
        self.process.send_signal(number)

    def stop(self):
        """Stops it for a while, and waits until each of its threads stands."""
        self.signal(signal.SIGSTOP)
        end = time.monotonic() + LIMIT
        while not all(it in "tTZX" for it in self.states()):
            if time.monotonic() > end:
                raise Wrong(f"{self.words[0]}: it isn't stopped in time")
            time.sleep(0.001)

    def go_on(self):
        """It goes on after a stop."""
        self.signal(signal.SIGCONT)

    def states(self):
        """How each of its threads is, by the system's letter."""
        for thread in Path(f"/proc/{self.id}/task").glob("*/stat"):
            try:
                yield thread.read_text().rpartition(")")[2].split()[0]
            except OSError:
                pass  # it has ended

    def figure(self, name):
        """A number of its /proc/ID/status."""
        for line in Path(f"/proc/{self.id}/status").read_text().splitlines():
            if line.startswith(name + ":"):
                return int(line.split()[1])
        raise Wrong(f"no {name} of process {self.id}")

    def highest_file(self):
        """The greatest number of a file that it has open."""
        return max(map(int, os.listdir(f"/proc/{self.id}/fd")))

    def end(self):
        """Kills it, if it still runs."""
        if self in running:
            running.remove(self)
            self.process.kill()
            self.process.wait()
            for stream in (self.process.stdin, self.process.stdout):
                try:
                    stream.close()
                except OSError:
                    pass


def ended(*words):
    """The status, standard output and standard error of a run that ends by itself."""
    process = Process(words)
    try:
        process.process.stdin.close()
        status = process.status()
        return status, (process.unread + process.process.stdout.read()).decode(), process.told()
    finally:
        process.end()


def allowed(word, servers):
    """The line of a program on a line of its input that means nothing."""
    return f'craq: a line of the input is "{word} J", with J from 0 to {servers - 1}\n'


class Chain:
    """Server processes of a chain, and a master. The clients of chain_clients run over it."""

    def __init__(self, servers=3, seats=10, words=(), memory=None, lease=None):
        """`words` are added to those of each server and of the master; `memory` is the servers' limit, and `lease` how
        many seconds their leases run."""
        self.count, self.seats = servers, seats
        self.settled = {}  # what each counter of an earlier phase came to
        first, self.peer_port = free_ports(servers), free_ports(servers)
        self.ports, self.failed = [first + i for i in range(servers)], set()
        self.words = ("--servers", str(servers), "--peer-port", str(self.peer_port), *words)
        self.clients = ("--port", str(first), "--seats", str(seats), "--quiet")
        self.clients += ("--memory", str(memory)) if memory else ()
        self.clients += ("--lease", str(lease)) if lease else ()
        self.servers = [self.started(i) for i in range(servers)]
        self.judge_ready()
        self.master = self.another_master()

    def judge_ready(self):
        for i, server in enumerate(self.servers):
            if server.line() != "ready\n":
                raise Wrong(f"server {i} isn't ready: {server.told()!r}")

    def started(self, server, *words):
        """A process of a server of the chain, with these words too."""
        return Process(("server", "--id", str(server), *self.clients, *self.words, *words))

    def another_master(self, *words):
        """A master that has asked each server once."""
        master = Process(("master", *self.words, *words))
        master.say("\n")
        if master.line() != "bad line\n":
            raise Wrong(f"a master ends: {master.told()!r}")
        master.pass_over(allowed("gone", self.count))
        return master

    def kill(self, server):
        """Ends a server's process, and tells nobody."""
        self.failed.add(server)
        self.servers[server].end()

    def tell(self, server):
        """Has the master tell the others. Each living one is told."""
        self.master.say(f"gone {server}\n")
        told, living = self.master.line(), self.count - len(self.failed)
        if told != f"gone {server} told {living}\n":
            raise Wrong(f"gone {server} was answered {told!r}, with {living} living servers")

    def fail(self, server):
        self.kill(server)
        self.tell(server)

    def has_failed(self, server):
        """Whether a server that has closed a connection is one that failed."""
        return server in self.failed

    def judge_living(self):
        """What is wrong with the processes themselves, in words."""
        faults = []
        for i, server in enumerate(self.servers):
            if i not in self.failed and server.process.poll() is not None:
                faults.append(f"server {i} has ended: {server.told()!r}")
        return faults

    def end(self):
        for process in [*self.servers, self.master]:
            process.end()


def run_clients(chain, rounds, at_each, phase, fail=None):
    """As chain_clients.run_clients, and judges the processes too."""
    faults, calls = chain_clients.run_clients(chain, rounds, at_each, phase, fail)
    return faults + chain.judge_living(), calls
