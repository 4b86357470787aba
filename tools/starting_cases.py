"""Cases of tools/test_servers on how programs start: the line that a server or a cluster says, words that don't fit one
another, and what the launchers set up."""
import shutil
import signal
import tempfile
from pathlib import Path

from chain_clients import Connection
from ports import free_ports
from server_checks import differing, differing_at_last
from server_processes import PROGRAM, Process, ended

TOP = Path(__file__).resolve().parent.parent

SERVER = ("craq 0.1.0: server 0 of 1 of the chain {chain}; clients at 127.0.0.1 port {port}, servers and masters at "
          "127.0.0.1 port {peer_port}; at most 9 connections at each server, by 2 threads and 3 seats; memory limit: "
          "{limit} (the machine has {machine} MiB)\n")
CLUSTER = ("craq 0.1.0: a cluster of 2 servers; clients at 127.0.0.1 ports {port} to {last}; at most 9 connections "
           "at each server, by 2 threads and 3 seats; memory limit: {limit} (the machine has {machine} MiB)\n")


def start_case(_rounds):
    """A server and a cluster say one line at the start, before they are ready, and nothing if they are to be quiet."""
    faults = []
    with open("/proc/meminfo", encoding="ascii") as memory:
        machine = int(memory.readline().split()[1]) // 1024
    for quiet, limited, limit in (((), (), "none"), ((), ("--memory", "64"), "64 MiB"), (("--quiet",), (), "")):
        port, peer_port = free_ports(2), free_ports(2)
        numbers = ("--port", str(port), "--seats", "3", "--threads", "2", "--connections", "9", *limited, *quiet)
        shown = {"port": port, "limit": limit, "machine": machine}
        server = ("server", "--id", "0", "--servers", "1", "--peer-port", str(peer_port), *numbers)
        for chain, named in (("craq", ()), ("sessions", ("--chain", "sessions"))):
            line = SERVER.format(chain=chain, peer_port=peer_port, **shown)
            faults += said((*server, *named), "" if quiet else line)
        line = CLUSTER.format(last=port + 1, **shown)
        faults += said(("cluster", "--servers", "2", *numbers), "" if quiet else line)
    return faults


def said(words, wanted):
    """What is wrong with what a program says until it is ready."""
    process = Process(words)
    try:
        faults = differing("its output", process.line(), "ready\n")
        return faults + differing_at_last("standard error", process.told, wanted)
    finally:
        process.end()


def overlap_case(_rounds):
    """A server whose ports for clients run into those for peers is refused before it listens. At two hosts the same
    number isn't the same port."""
    faults = []
    for port, peer_port, servers, words in ((31211, 31212, 3, "31212 is that of clients of server 1 and that of peers of "
                                             "server 0"), (31214, 31212, 3, "31214 is that of clients of server 0 and "
                                             "that of peers of server 2"), (31211, 31211, 1, "31211 is that of clients "
                                             "of server 0 and that of peers of server 0")):
        last, last_peer = port + servers - 1, peer_port + servers - 1
        line = (f"error: the ports of clients, {port} to {last}, and those of peers, {peer_port} to {last_peer}, overlap: "
                f"{words}\n")
        numbers = ("--servers", str(servers), "--port", str(port), "--peer-port", str(peer_port))
        faults += differing(f"ports {port} and {peer_port}", ended("server", "--id", "0", *numbers), (2, "", line))
    first = free_ports(3)
    numbers = ("--servers", "2", "--port", str(first), "--peer-port", str(first + 1), "--quiet")
    hosts = ("127.0.0.1", "127.0.0.2")
    servers = [Process(("server", "--id", str(i), *numbers, "--address", host, "--peers", ",".join(hosts)))
               for i, host in enumerate(hosts)]
    try:
        for i, server in enumerate(servers):
            faults += differing(f"server {i} of two hosts", server.line(), "ready\n")
        return faults
    finally:
        for server in servers:
            server.end()


def unwatched_case(_rounds):
    """A master that is told how to watch, and not to watch, is refused."""
    master = ("master", "--servers", "3", "--peer-port", "5000")
    line = "error: --beat and --after say how to watch, and --watch is not given\n"
    faults = []
    for words in (("--beat", "300"), ("--after", "3000"), ("--after=100",), ("--beat=100", "--after", "3000")):
        faults += differing(" ".join(words), ended(*master, *words), (2, "", line))
    return faults


def unheard_case(_rounds):
    """Why a program can't listen is told: no such address, an unknown host. (That a port is taken another case tells; a
    port to which it has no right is refused to no administrator.)"""
    faults, port = [], free_ports(1)
    numbers = ("--id", "0", "--servers", "1", "--port", str(port), "--peer-port", str(free_ports(1)), "--quiet")
    for host, why in (("192.0.2.1", "no such address here"), ("nowhere.invalid", "unknown host")):
        line = f"craq: cannot listen on {host} port {port}: {why}\n"
        faults += differing(f"a run at {host}", ended("server", *numbers, "--address", host), (1, "", line))
    return faults


def hang_up_case(_rounds):
    """SIGHUP ends neither a server that the launcher has started, nor tools/start_chain and what that has started."""
    with tempfile.TemporaryDirectory() as folder:
        port, peer_port = free_ports(2), free_ports(2)
        server = Launched(folder, "server", "--id", "0", "--servers", "1", "--port", str(port), "--peer-port",
                          str(peer_port), "--quiet")
        try:
            faults = differing("a server", server.line(), "ready\n")
            faults += survives(server, port)
        finally:
            server.end()
    port, peer_port = free_ports(1), free_ports(1)
    words = ("--servers", "1", "--port", str(port), "--peer-port", str(peer_port))
    chain = Process(words, program=str(TOP / "tools/start_chain"))
    try:
        while (line := chain.line()) and line != "start_chain: all servers are ready; Ctrl-C ends them\n":
            pass
        faults += survives(chain, port)
        chain.signal(signal.SIGTERM)
        return faults + differing("the status of start_chain", chain.status(), 0)
    finally:
        chain.end()


def survives(process, port):
    """What is wrong with the server at this port after a SIGHUP."""
    process.signal(signal.SIGHUP)
    client = Connection(port)
    try:
        faults = differing("a set", client.call(b"set a 0 0 1\r\n1\r\n"), b"STORED")
        return faults + differing("the status", process.process.poll(), None)
    finally:
        client.close()


class Launched(Process):
    """A run of the program by the launcher `craq`, beside which the program stands as if it had been built."""

    def __init__(self, folder, *words):
        top = Path(folder)
        out, tools = top / "crates/craq/out", top / "tools"
        out.mkdir(parents=True)
        tools.mkdir()
        shutil.copy(TOP / "craq", top / "craq")
        (tools / "sources").write_text("#!/bin/sh\necho the sources\n")
        (tools / "sources").chmod(0o755)
        (out / "sources").write_text("the sources\n")
        is_launcher = Path(PROGRAM).resolve() == TOP / "craq"
        (out / "craq").symlink_to(TOP / "crates/craq/out/craq" if is_launcher else Path(PROGRAM).resolve())
        super().__init__(words, program=str(top / "craq"))
