"""Cases of a limit of memory (`--memory`): clients store items until they are refused. What is wrong is given in words.
It connects to 127.0.0.1 alone.
"""
import time

from chain_clients import LIMIT, Connection, Wrong

MEBIBYTE = 1024 * 1024
# What a process may hold beside its limit, in MiB; and after a flush, whose items are freed by and by, the limit once
# more (RUNNING.md).
SHARE = 16
REFUSAL = b"SERVER_ERROR out of memory storing object"
SMALL, LARGE = 100, 65536
# How many bytes are sent, or asked for, at a time, and how many keys stand on a line.
PIECE, KEYS = 1 << 20, 100


class Items:
    """Items of one size that clients store, numbered from 0 on: which of them a server has acknowledged."""

    def __init__(self, size, memory):
        """`memory` is the limit of the servers, in MiB."""
        self.size, self.stored, self.tried = size, set(), 0
        self.at_a_time = max(1, min(KEYS, PIECE // size))
        # By the estimate each takes 64 bytes at least beside its data; and each server is tried a few times more.
        self.most = memory * MEBIBYTE // (size + 64) + 12 * self.at_a_time

    def key(self, number):
        return b"%d-%07d" % (self.size, number)

    def data(self, number):
        return (self.key(number) * (self.size // 8 + 1))[:self.size]

    def store(self, connection):
        """Sends sets of the next items. Gives whether any was refused."""
        numbers = range(self.tried, self.tried + self.at_a_time)
        self.tried += self.at_a_time
        connection.send(b"".join(setting(b"set", self.key(n), self.data(n)) for n in numbers))
        refused = False
        for number in numbers:
            line = connection.line()
            if line == b"STORED":
                self.stored.add(number)
            elif line == REFUSAL:
                refused = True
            else:
                raise Wrong(f"a set was answered {line!r}")
        return refused

    def fill(self, connections):
        """Stores items at each server until all of them refuse some. What is wrong, in words."""
        full = set()
        while len(full) < len(connections):
            if self.tried > self.most:
                return [f"of {self.tried} items of {self.size} bytes none is refused at some server"]
            for place, connection in enumerate(connections):
                if self.store(connection):
                    full.add(place)
                else:
                    full.discard(place)
        return []

    def compare(self, connection):
        """Reads all that were tried: those that were acknowledged are there, and no other. What is wrong, in words."""
        faults = []
        for first in range(0, self.tried, self.at_a_time):
            numbers = range(first, min(first + self.at_a_time, self.tried))
            connection.send(b"get " + b" ".join(self.key(n) for n in numbers) + b"\r\n")
            found = dict(shown(connection))
            for number in numbers:
                wanted = self.data(number) if number in self.stored else None
                if found.get(self.key(number)) != wanted:
                    faults.append(f"item {number} of {self.size} bytes, stored: {wanted is not None}")
        return faults

    def delete(self, connection, count):
        """Deletes some of those that are there. What is wrong, in words."""
        faults = []
        for number in sorted(self.stored)[:count]:
            faults += differs("a delete", connection.call(b"delete %s\r\n" % self.key(number)), b"DELETED")
            self.stored.discard(number)
        return faults


def setting(command, key, data, tail=b""):
    """A request that stores."""
    return b"%s %s 0 0 %d%s\r\n%s\r\n" % (command, key, len(data), tail, data)


def shown(connection):
    """The items of a get's reply, each with its key."""
    while (head := connection.line()) != b"END":
        word, key, _flags, length = head.split(b" ")
        if word != b"VALUE":
            raise Wrong(f"a get was answered {head!r}")
        yield key, connection.block(int(length))


def differs(what, got, wanted):
    return [] if got == wanted else [f"{what}: {got!r}, not {wanted!r}"]


def refusals(connection, number):
    """At a server whose memory is used up: each command that stores is refused, and changes nothing; the others are
    carried out. `number` is what the counter `n` was raised to, and `kept` is there. What is wrong, in words."""
    _data, unique = connection.gets(b"kept")
    faults = []
    for command, key, tail in (
        (b"set", b"kept", b""), (b"set", b"new", b""), (b"add", b"new", b""), (b"replace", b"kept", b""),
        (b"append", b"kept", b""), (b"prepend", b"kept", b""), (b"cas", b"kept", b" %d" % unique),
    ):
        faults += differs(command, connection.call(setting(command, key, b"other", tail)), REFUSAL)
        connection.send(setting(command, key, b"other", tail + b" noreply"))
        faults += differs(f"kept after {command}", connection.gets(b"kept"), (b"here", unique))
        faults += differs(f"new after {command}", connection.gets(b"new"), None)
    faults += differs("an incr", connection.call(b"incr n 2\r\n"), b"%d" % (number + 2))
    return faults + differs("a decr", connection.call(b"decr n 1\r\n"), b"%d" % (number + 1))


def stores_again(connection):
    """Stores a small item until it is stored. What is wrong, in words."""
    end = time.monotonic() + LIMIT
    while (line := connection.call(setting(b"set", b"again", b"x"))) == REFUSAL:
        if time.monotonic() > end:
            return ["a set is refused still"]
        time.sleep(0.001)
    return differs("a set", line, b"STORED")


def most_memory(process):
    """The most memory that a process has held so far, in MiB."""
    with open(f"/proc/{process}/status", encoding="ascii") as status:
        return next(int(line.split()[1]) for line in status if line.startswith("VmHWM:")) / 1024


def above(processes, most):
    """Which of these processes have held more than this many MiB, in words."""
    held = [most_memory(process) for process in processes]
    return [f"a process held {it:.1f} MiB, not {most} at most" for it in held if it > most]


def filled(connections, items):
    """Fills servers without items, looks at what they refuse and what they hold, deletes some, and fills them again.
    What is wrong, in words."""
    last = connections[-1]
    faults = differs("a set", last.call(setting(b"set", b"kept", b"here")), b"STORED")
    faults += differs("a counter", last.call(setting(b"set", b"n", b"0")), b"STORED")
    faults += items.fill(connections)
    for place, connection in enumerate(connections):
        faults += refusals(connection, place)
    faults += items.compare(connections[0])
    if not items.stored:
        faults.append(f"no item of {items.size} bytes was stored")
    faults += items.delete(last, 5 + len(items.stored) // 20)
    for connection in connections:
        faults += stores_again(connection)
    return faults + items.fill(connections) + items.compare(last)


def flushed(connections, items):
    """Flushes all items: then each server stores again. What is wrong, in words."""
    faults = differs("a flush", connections[-1].call(b"flush_all\r\n"), b"OK")
    for connection in connections:
        faults += stores_again(connection)
    items.stored.clear()
    return faults + items.compare(connections[0])


def limited(ports, processes, memory):
    """Servers with a limit of `memory` MiB, at these ports, of these processes, which have held no items: they are
    filled with small items and flushed, then so with large ones, and with small ones again. What is wrong, in words."""
    connections, faults = [Connection(port) for port in ports], []
    for size, most in ((SMALL, memory + SHARE), (LARGE, 2 * memory + SHARE), (SMALL, 2 * memory + SHARE)):
        items = Items(size, memory)
        faults += filled(connections, items) + above(processes, most) + flushed(connections, items)
    return faults
