"""Cases of tools/test_clients: what programs of tools/clients do over a chain, also once a server was killed."""
import os
import re
import subprocess
from pathlib import Path

from chain_clients import LIMIT, Connection, Wrong
from client_chains import CLIENTS, HEAD, PYTHON, TOOLS, Served, again, configured, counted, differing_text, started
from server_checks import differing

LONG = 600  # seconds for a compiler
TRIES = 20  # rounds at most until a program works again


def calls_case(words, most=None, proxy=None, killed=HEAD, addressed=list, clients=3):
    """A program does its calls, and again after a server was killed: at most so many rounds fail until they work. (With
    None no server is killed.) Through a proxy `clients` of them do so, one after another: of three one has its
    connection to that server. `addressed` makes its words of the addresses."""
    def case(room):
        served, running = Served(room, proxy), []
        try:
            of_client = [*(words(room, served) if callable(words) else words), *addressed(served.addresses)]
            for _ in range(clients if proxy else 1):
                running.append(started(of_client))
                if faults := differing("at first", running[-1].line(), "works\n"):
                    return faults, ""
            if most is None:
                return [], ""
            served.fail(killed)
            failed = max((failed_rounds(it) for it in running), key=len)
            faults = [f"{len(failed)} rounds fail after a kill: {failed}"] if len(failed) > most else []
            return faults, f"{counted(len(failed), 'failed call')} after a kill"
        except Wrong as fault:
            return [str(fault), *(it.told()[-500:] for it in running)], ""
        finally:
            for it in running:
                it.end()
            served.end()

    return case


def failed_rounds(client):
    """The rounds that fail until one works."""
    failed = []
    while (line := again(client)) != "works\n":
        failed.append(line.strip())
        if len(failed) > TRIES or "Assertion" in line:
            raise Wrong(f"after a kill: {failed}")
    return failed


def built(room, words, **more):
    """Runs a compiler in this folder."""
    ran = subprocess.run(words, cwd=room, env={**os.environ, **more}, capture_output=True, text=True, timeout=LONG)
    if ran.returncode:
        raise Wrong(f"{words[0]}: {ran.stderr[-500:]}")


def go_program(room, _served):
    where = {"GOPATH": "/usr/share/gocode", "GO111MODULE": "off", "GOCACHE": f"{room}/cache", "GOFLAGS": ""}
    built(room, ["go", "build", "-o", f"{room}/gomemcache", str(CLIENTS / "gomemcache.go")], **where)
    return [f"{room}/gomemcache"]


def java_program(room, _served):
    library = "/usr/share/java/spymemcached.jar"
    built(room, ["javac", "-cp", library, "-d", room, str(CLIENTS / "Spymemcached.java")])
    return ["java", "-cp", f"{library}:{room}", "Spymemcached"]


def php_sessions(room, served):
    """The program with its settings, at the proxy's port."""
    file, _ = configured(room, "php_sessions.ini", (), 11210)
    text = re.sub(r"(?m)^(session.save_path = ).*", rf'\1"{served.addresses[0]}"', Path(file).read_text())
    Path(file).write_text(text)
    return ["php", "-c", file, str(CLIENTS / "php_sessions.php")]


def no_addresses(_addresses):
    return []


def output_case(words, lines, at=0):
    """A program that ends writes these lines, of one server's address. `..` stands for any text."""
    def case(room):
        served = Served(room)
        try:
            with Connection(served.chain.ports[0]).socket as first:
                for key, data in ((b"alice", b"Alice's"), (b"bob", b"Bob's")):
                    first.sendall(b"set %s 0 0 %d\r\n%s\r\n" % (key, len(data), data))
                    first.recv(100)
            ran = subprocess.run([*words, served.addresses[at]], capture_output=True, text=True, timeout=LIMIT)
            return differing_text(words[-1], ran.stdout.strip(), "\n".join(lines)), ""
        finally:
            served.end()

    return case


def ends_case(room):
    """Items that end: by the clock that the test gives."""
    served = Served(room)
    try:
        words = [PYTHON, "-B", str(TOOLS / "client_ends.py"), *served.addresses]
        ran = subprocess.run(words, capture_output=True, text=True, timeout=LIMIT * 2)
        return differing("client_ends.py", (ran.stdout, ran.stderr), ("works\n", "")), ""
    finally:
        served.end()
