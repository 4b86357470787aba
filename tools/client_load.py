"""A client of pymemcache under load, for tools/test_clients: it writes what it did and saw, for the judge of
chain_clients.py. Run by the Python that has pymemcache.

usage: client_load.py NAME CLIENTS HOST:PORT ..     makes rounds until its input has a line, and then some more

Of the clients NAME is 0 to CLIENTS - 1. Each raises counters that all share, sets keys of its own, whose values it
numbers, and reads those of the others. After a call without a reply it goes on with another key, since that call may
still act. A line of its output is `ready` once it has made its first round; the next one has all calls: of each its
kind, key and number, when it began and ended (null if no reply came), and the result; then the errors by kind.
"""
import json
import random
import select
import sys
import time

sys.path.insert(0, f"{sys.path[0]}/clients")
import pymemcache_all  # noqa: E402
import pymemcache_one  # noqa: E402
from pymemcache.exceptions import MemcacheServerError  # noqa: E402

COUNTERS = SLOTS = 6  # so that each server has some
LAST = 30  # rounds after the line
LIMIT = 60  # seconds: slowness is no failure


class Load:
    def __init__(self, name, clients, servers):
        self.name, self.clients = name, clients
        patience = {"timeout": LIMIT, "connect_timeout": LIMIT}
        self.once, self.again = (pymemcache_all.connected(servers, **patience) if len(servers) > 1 else
                                 pymemcache_one.connected(servers[0], **patience))
        self.random, self.moves, self.numbers = random.Random(name), 0, [0] * SLOTS
        self.calls, self.errors = [], {"once": [], "again": []}

    def round(self):
        slot = self.random.randrange(SLOTS)
        counter = f"n{slot}"
        self.made("incr", counter, None, lambda: self.once.incr(counter, 1))
        key, number = self.key(self.name, slot, self.moves), self.numbers[slot] + 1
        self.numbers[slot] = number
        value = f"{key}:{number}:".encode() + b"x" * self.random.randrange(200)
        if not self.made("set", key, number, lambda: self.once.set(key, value)):
            self.moves, self.numbers = self.moves + 1, [0] * SLOTS
        other = self.key(self.random.randrange(self.clients), slot, self.random.randrange(self.moves + 1))
        self.made("gets", other, None, lambda: self.again.gets(other), "again")
        self.made("again", key, None, lambda: self.again.set(f"again.{key}", value), "again")

    def key(self, name, slot, move):
        return f"w{name}.{slot}.{move}"

    def made(self, kind, key, number, call, how="once"):
        """Makes a call, and tells whether it got a reply."""
        begun, result, ended = time.monotonic_ns(), None, None
        try:
            result = call()
            ended = time.monotonic_ns()
        except (OSError, MemcacheServerError) as error:
            self.errors[how].append(repr(error))
        if kind == "gets":
            data, unique = result or (None, None)
            result = None if data is None else [data.decode(), int(unique)]
        self.calls.append([kind, key, number, begun, ended, result])
        return ended is not None


def main(name, clients, *servers):
    load = Load(int(name), int(clients), servers)
    load.round()
    print("ready", flush=True)
    while not select.select([sys.stdin], [], [], 0)[0]:
        load.round()
    for _ in range(LAST):
        load.round()
    print(json.dumps({"calls": load.calls, "errors": load.errors}), flush=True)


main(*sys.argv[1:])
