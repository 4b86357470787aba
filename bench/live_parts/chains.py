"""Chains of craq, as benchmarks start them: in one process or in several, with a master or without."""
import os
import subprocess
import sys
from collections import namedtuple
from functools import partial

from live_parts.peers import Peer, free_ports

# With 64 seats each of four threads has 16: as many as a connection may have updates in flight.
CLIENTS = ["--seats", 64, "--connections", 2048]
# What the launcher sets: a program that is named without it is measured as it is used.
SETTINGS = {"MALLOC_ARENA_MAX": "1", "GLIBC_TUNABLES": "glibc.malloc.hugetlb=1"}


class Craq(Peer):
    """`craq cluster`: connections go to its servers in turn, the first to the head."""

    def __init__(self, name, program, servers, more=()):
        """`more` are words for it, or for each process."""
        super().__init__(name)
        self.program, self.servers, self.more = program, servers, more

    def start_craq(self, *words, stdin=subprocess.DEVNULL):
        words = [*self.program, *map(str, words)]
        return self.start(words, stdin=stdin, stdout=subprocess.PIPE, text=True, env={**SETTINGS, **os.environ})

    def open(self, _folder):
        self.first = free_ports(self.servers)
        numbers = ["--servers", self.servers, "--port", self.first, *CLIENTS]
        self.start_craq("cluster", *numbers, *self.more, stdin=subprocess.PIPE)
        self.wait_until_ready()

    def wait_until_ready(self):
        if any(process.stdout.readline() != "ready\n" for process in self.processes):
            self.end()
            sys.exit(f"{self.name} isn't ready")

    def ports(self, _size):
        return [self.first + place for place in range(self.servers)]


class CraqServers(Craq):
    """A chain of `craq server` processes: connections go to them in turn, the first to the head."""

    def open(self, _folder):
        self.first = free_ports(2 * self.servers)
        numbers = ["--servers", self.servers, "--port", self.first, "--peer-port", self.first + self.servers]
        for place in range(self.servers):
            self.start_craq("server", "--id", place, *numbers, *CLIENTS, *self.more)
        self.wait_until_ready()


class CraqBeaten(CraqServers):
    """The same with a master that beats, and leases of this many seconds if a number is given. The master's processor
    time isn't counted."""

    def __init__(self, name, program, servers, lease=None):
        super().__init__(name, program, servers, ("--lease", lease) if lease else ())
        self.lease = lease

    def open(self, folder):
        super().open(folder)
        numbers = ["--servers", self.servers, "--peer-port", self.first + self.servers]
        self.wait_for_reign(self.start_craq("master", *numbers, "--watch"))

    def wait_for_reign(self, master):
        """Until the master reigns, and has heard of each lease."""
        reigns, leases = 0, 0
        for line in master.stdout:
            reigns += "takes reign" in line
            leases += "has a lease of" in line
            if reigns and leases == (self.servers if self.lease else 0):
                return
        self.end()
        sys.exit(f"the master of {self.name} ends")

    def counted(self):
        return self.processes[:self.servers]


# How the servers of a chain run: the peer, and what one server and more of them are called.
Kind = namedtuple("Kind", "make one more")
IN_ONE, IN_PROCESSES = Kind(Craq, "server", "servers"), Kind(CraqServers, "process", "processes")


def chains(found, counts, kind=IN_ONE):
    """Of programs by their names: for each program and number of servers the chain's name, and how it is made."""
    made = {}
    for count in counts:
        for name, command in found.items():
            full = f"{name}, {count} {kind.one if count == 1 else kind.more}"
            made[full] = partial(kind.make, full, command, count)
    return made
