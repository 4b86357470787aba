"""Ports of this machine on which nobody listens."""
import os
import socket
import threading

# Ports from here on are tried, below those that the system gives to connections.
FIRST, LAST = 23500, 32000
# Runs that go on at the same time begin this far apart, so that their servers don't meet.
APART = 100
# A run that is given a place of its own among others, as tools/test_all gives each of its tests one, begins there.
PLACES, PLACE = 12, os.environ.get("CRAQ_PORTS_PLACE", "")
given = threading.Lock()
next_port = FIRST + os.getpid() * 61 % ((LAST - FIRST) // APART) * APART
if PLACE.isdigit():
    next_port = FIRST + int(PLACE) % PLACES * ((LAST - FIRST) // PLACES)


def free_ports(count):
    """The first of `count` ports in a row that nobody listens on, and that this run was not given before."""
    global next_port
    with given:
        for _ in range(LAST - FIRST):
            if next_port + count > LAST:
                next_port = FIRST
            first, next_port = next_port, next_port + count
            if all(is_free(port) for port in range(first, first + count)):
                return first
    raise SystemExit("no free ports")


def is_free(port):
    try:
        with socket.socket() as tried:
            tried.setsockopt(socket.SOL_SOCKET, socket.SO_REUSEADDR, 1)
            tried.bind(("127.0.0.1", port))
        return True
    except OSError:
        return False
