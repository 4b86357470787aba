"""Cases of connections that send many requests before they read replies, over server processes and over a cluster in one
process. Updates that follow one another are in flight together; each reply has to be what it would be if they went one
after another, and comes in its turn. What is wrong is given in words. It connects to 127.0.0.1 alone.
"""
import random
import threading

from chain_clients import Connection, Wrong
from server_processes import Chain

SEATS = 64
# How many requests a client sends in all, and how many at most in one write, cut anywhere.
REQUESTS, AT_ONCE = 600, 40
# How many increments a client has in flight while a server is killed, and after how many replies it is.
INCREMENTS, WINDOW, KILLED_AFTER = 3000, 48, 1000


class Table:
    """What one client's keys hold, and how each of its requests is answered."""

    def __init__(self, name):
        self.keys = [b"%s-%d" % (name, n) for n in range(4)]
        self.items = {}

    def request(self, generator):
        """A request, and its reply. Mostly updates; some want no reply, some are reads, some are faulty."""
        key, silent = generator.choice(self.keys), generator.random() < .1
        kind = generator.choices(("set", "add", "append", "incr", "delete", "get", "fault"), (8, 2, 2, 6, 2, 2, 1))[0]
        if kind == "fault":
            return generator.choice(((b"incr %s x\r\n" % key, b"CLIENT_ERROR bad command line format\r\n"),
                                     (b"strange\r\n", b"ERROR\r\n")))
        if kind == "get":
            data = self.items.get(key)
            value = b"" if data is None else b"VALUE %s 0 %d\r\n%s\r\n" % (key, len(data), data)
            return b"get %s\r\n" % key, value + b"END\r\n"
        end = b" noreply\r\n" if silent else b"\r\n"
        line, reply = getattr(self, kind)(key, b"%d" % generator.randrange(10**generator.randrange(1, 6)), end)
        return line, b"" if silent else reply

    def store(self, word, key, data, end, goes, then):
        line = b"%s %s 0 0 %d%s%s\r\n" % (word, key, len(data), end, data)
        if not goes:
            return line, b"NOT_STORED\r\n"
        self.items[key] = then
        return line, b"STORED\r\n"

    def set(self, key, data, end):
        return self.store(b"set", key, data, end, True, data)

    def add(self, key, data, end):
        return self.store(b"add", key, data, end, key not in self.items, data)

    def append(self, key, data, end):
        return self.store(b"append", key, data, end, key in self.items, self.items.get(key, b"") + data)

    def incr(self, key, amount, end):
        line, data = b"incr %s %s%s" % (key, amount, end), self.items.get(key)
        if data is None:
            return line, b"NOT_FOUND\r\n"
        if int(data) >= 1 << 64:
            return line, b"CLIENT_ERROR cannot increment or decrement non-numeric value\r\n"
        self.items[key] = b"%d" % ((int(data) + int(amount)) % (1 << 64))
        return line, self.items[key] + b"\r\n"

    def delete(self, key, _data, end):
        found = self.items.pop(key, None) is not None
        return b"delete %s%s" % (key, end), b"DELETED\r\n" if found else b"NOT_FOUND\r\n"


def exchange(port, name, faults):
    """A client that sends its requests in a few large writes, cut anywhere, and compares all replies."""
    generator, table = random.Random(name), Table(name)
    try:
        connection, replies = Connection(port), []
        requests = b""
        for number in range(REQUESTS):
            request, reply = table.request(generator)
            requests, replies = requests + request, replies + [reply]
            if generator.random() < 1 / AT_ONCE or number == REQUESTS - 1:
                cut = generator.randrange(len(requests)) if requests and number < REQUESTS - 1 else len(requests)
                connection.send(requests[:cut])
                requests = requests[cut:]
        wanted = b"".join(replies)
        while len(connection.unread) < len(wanted):
            connection.more()
        if connection.unread != wanted:
            place = next((n for n, (a, b) in enumerate(zip(connection.unread, wanted)) if a != b), len(wanted))
            faults.append(f"client {name!r}: the replies differ from byte {place} on: "
                          f"{connection.unread[place:place + 60]!r} instead of {wanted[place:place + 60]!r}")
    except (Wrong, OSError) as fault:
        faults.append(f"client {name!r}: {fault}")


def run_all(threads):
    for thread in threads:
        thread.start()
    for thread in threads:
        thread.join()


def exchange_all(ports):
    """Three clients at each of these servers, and what was wrong."""
    faults = []
    run_all([threading.Thread(target=exchange, args=(port, b"client-%d-%d" % (server, number), faults))
             for server, port in enumerate(ports) for number in range(3)])
    return faults


def in_one_process(cluster):
    """Many requests of a connection at once: three clients at each server send updates, reads and faulty lines."""
    return exchange_all(cluster.ports)


def mixed_case(_rounds):
    """Three clients at each server send updates, reads and faulty lines in large writes."""
    chain = Chain(seats=SEATS)
    try:
        return exchange_all(chain.ports) + chain.judge_living()
    finally:
        chain.end()


def count(port, key, killing, faults):
    """A client with many increments of a counter in flight, which it alone increments: the replies are 1, 2, 3 and so
    on, also while another server is killed."""
    try:
        connection = Connection(port)
        if connection.call(b"set %s 0 0 1\r\n0\r\n" % key) != b"STORED":
            raise Wrong("a counter isn't stored")
        sent = 0
        for wanted in range(1, INCREMENTS + 1):
            if sent < INCREMENTS and sent < wanted + WINDOW // 2:
                more = min(WINDOW, INCREMENTS - sent)
                connection.send(b"incr %s 1\r\n" % key * more)
                sent += more
            line = connection.line()
            if line != b"%d" % wanted:
                raise Wrong(f"increment {wanted} was answered {line!r}")
            if wanted == KILLED_AFTER:
                killing.wait()
    except (Wrong, OSError) as fault:
        faults.append(f"the counter {key!r}: {fault}")
        killing.abort()


def killed_case(fails):
    """While clients at the other servers have increments in flight, this server is killed, and then the others told."""
    def case(_rounds):
        chain, faults = Chain(seats=SEATS), []
        try:
            living = [server for server in range(chain.count) if server != fails]
            killing = threading.Barrier(len(living), action=lambda: chain.kill(fails))
            threads = [threading.Thread(target=count, args=(chain.ports[server], b"counter-%d" % server, killing, faults))
                       for server in living]
            for thread in threads:
                thread.start()
            while not killing.broken and fails not in chain.failed:
                threads[0].join(.01)
            chain.tell(fails)
            for thread in threads:
                thread.join()
            return faults + chain.judge_living()
        finally:
            chain.end()
    return case
