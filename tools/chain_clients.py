"""Clients of a running chain, and a judge of what they did and saw. Connects to 127.0.0.1 alone.

Each client increments one shared counter, sets keys that only it writes, and reads the keys of the others. A key's
writer numbers its values, so the judge sees in which order they were written. If its connection is closed, a client
continues at a living server with a new key: a call that got no reply may still act later, or never.
"""
import random
import socket
import threading
import time

LIMIT = 60.0  # seconds for one reply; slowness is no fault of the chain, a reply that never comes is


class Closed(Exception):
    """The server closed the connection."""


class Wrong(Exception):
    """A reply that isn't in the protocol, or no reply within the limit."""


class Connection:
    """One connection of a client."""

    def __init__(self, port):
        try:
            self.socket = socket.create_connection(("127.0.0.1", port), timeout=LIMIT)
        except OSError as fault:
            raise Closed(f"port {port}: {fault}") from fault
        self.socket.setsockopt(socket.IPPROTO_TCP, socket.TCP_NODELAY, 1)
        self.unread = b""

    def send(self, request):
        try:
            self.socket.sendall(request)
        except socket.timeout as fault:
            raise Wrong("a request wasn't taken in time") from fault
        except OSError as fault:
            raise Closed(str(fault)) from fault

    def more(self):
        try:
            piece = self.socket.recv(65536)
        except socket.timeout as fault:
            raise Wrong("no reply in time") from fault
        except OSError as fault:
            raise Closed(str(fault)) from fault
        if not piece:
            raise Closed("end of input")
        self.unread += piece

    def line(self):
        while b"\r\n" not in self.unread:
            self.more()
        line, self.unread = self.unread.split(b"\r\n", 1)
        return line

    def block(self, length):
        while len(self.unread) < length + 2:
            self.more()
        block, self.unread = self.unread[:length], self.unread[length + 2:]
        return block

    def call(self, request):
        """One request with a reply of one line."""
        self.send(request)
        return self.line()

    def ask(self, key):
        """Asks for the key's item, and doesn't wait for it."""
        self.send(b"gets %s\r\n" % key)

    def gets(self, key):
        """The data and the unique of the key's item, or None."""
        self.ask(key)
        return self.item(key)

    def item(self, key):
        """The same of an item that was asked for before."""
        head = self.line()
        if head == b"END":
            return None
        word, shown, _flags, length, unique = head.split(b" ")
        if word != b"VALUE" or shown != key:
            raise Wrong(f"gets {key!r} answered {head!r}")
        data = self.block(int(length))
        if self.line() != b"END":
            raise Wrong("no END after the item")
        return data, int(unique)

    def close(self):
        self.socket.close()

    def leave(self):
        """Says quit, and waits for the end. After the replies to all calls nothing comes any more."""
        self.send(b"quit\r\n")
        try:
            while True:
                self.more()
        except Closed:
            self.close()
        if self.unread:
            raise Wrong(f"a reply to no call: {self.unread!r}")


class Call:
    """One call: what it was, when it began, and when and how it was answered, if it was."""

    def __init__(self, kind, key, number=None):
        self.kind, self.key, self.number = kind, key, number
        self.begun, self.ended, self.result = time.monotonic_ns(), None, None

    def answered(self, result):
        self.result, self.ended = result, time.monotonic_ns()


class Client(threading.Thread):
    """A client that makes its rounds of calls at one server, and moves to a living one if its connection is closed."""

    def __init__(self, name, chain, home, rounds, counter, shared):
        super().__init__(daemon=True)
        self.name, self.chain, self.home, self.rounds = name, chain, home, rounds
        self.counter, self.shared = counter, shared
        self.random = random.Random(name)
        self.calls, self.fault, self.moves = [], None, 0

    def run(self):
        try:
            left = self.rounds
            while left > 0:
                left = self.at_a_server(left)
        except Exception as fault:  # noqa: BLE001 (told by the judge)
            self.fault = f"client {self.name}: {fault!r}"

    def at_a_server(self, left):
        """Makes rounds at one server until they are done or it closes the connection. Gives the number left."""
        key = b"%s.%d" % (self.name.encode(), self.moves)
        self.shared.append(key)
        try:
            connection = Connection(self.chain.ports[self.home])
            for number in range(1, left + 1):
                self.round(connection, key, number)
                left -= 1
            connection.leave()
        except Closed:
            if not self.chain.has_failed(self.home):
                raise
            self.moves += 1
            others = living(self.chain)
            if not others:
                return 0
            self.home = self.random.choice(others)
        return left

    def round(self, connection, key, number):
        value = b"%s:%d:" % (key, number) + b"x" * self.random.randrange(200)
        self.made(Call("incr", self.counter), lambda: int(connection.call(b"incr %s 1\r\n" % self.counter)))
        request = b"set %s 7 0 %d\r\n%s\r\n" % (key, len(value), value)
        self.made(Call("set", key, number), lambda: connection.call(request))
        other = self.random.choice(self.shared)
        self.made(Call("gets", other), lambda: connection.gets(other))

    def made(self, call, reply):
        self.calls.append(call)
        call.answered(reply())


def version(found, key):
    """The number of the value that was found, and its unique; 0 for an absent key."""
    if found is None:
        return 0, 0
    data, unique = found
    owner, number, _rest = data.split(b":", 2)
    if owner != key:
        raise Wrong(f"the item of {key!r} is that of {owner!r}")
    return int(number), unique


def judge_counter(calls, faults):
    """Each answered increment has its own number, later ones have greater ones, and none is lost or done twice."""
    increments = [c for c in calls if c.kind == "incr"]
    answered = [c for c in increments if c.ended is not None]
    finals = [c for c in calls if c.kind == "count"]
    if len({c.result for c in answered}) != len(answered):
        faults.append("two increments were answered with one number")
    for final in finals:
        if not len(answered) <= final.result <= len(increments):
            faults.append(f"the counter is {final.result} after {len(answered)} answered increments of "
                          f"{len(increments)}")
    judge_order([(c, c.result) for c in answered + finals], "the counter", faults)


def judge_order(seen, what, faults):
    """A call that begins after another was answered shows no older state, and an increment shows a newer one.

    `seen` has each call with the number that it showed."""
    steps = []
    for call, number in seen:
        steps.append((call.begun, 1, number - (call.kind == "incr")))
        steps.append((call.ended, 0, number))
    newest = 0
    for _time, begins, number in sorted(steps):
        if begins and number < newest:
            faults.append(f"{what} went back: {number} after {newest} was answered")
            return
        if not begins:
            newest = max(newest, number)


def judge_key(key, calls, faults):
    """Every value read of a key was written, and no read or write goes back before one that was answered."""
    begun = {c.number: c.begun for c in calls if c.kind == "set"}
    uniques, seen = {}, []
    for call in calls:
        if call.ended is None:
            continue
        if call.kind == "set":
            if call.result != b"STORED":
                faults.append(f"a set of {key!r} answered {call.result!r}")
            seen.append((call, call.number))
            continue
        number, unique = version(call.result, key)
        if number and (number not in begun or begun[number] > call.ended):
            faults.append(f"{key!r} showed value {number} before it was written")
        if uniques.setdefault(number, unique) != unique:
            faults.append(f"value {number} of {key!r} was shown with two uniques")
        seen.append((call, number))
    judge_order(seen, repr(key), faults)
    ordered = [uniques[number] for number in sorted(uniques)]
    if ordered != sorted(ordered):
        faults.append(f"uniques of {key!r} fall")


def living(chain):
    return [home for home in range(len(chain.ports)) if home not in chain.failed]


def completed(kind, key, reply):
    """A call that is made now, and answered by what `reply` gives."""
    call = Call(kind, key)
    call.answered(reply())
    return call


def at_each_living(chain, ask):
    """What `ask` gives of a connection to each living server, one list after another."""
    found = []
    for home in living(chain):
        try:
            connection = Connection(chain.ports[home])
            found += ask(home, connection)
            connection.leave()
        except Closed:
            if not chain.has_failed(home):
                raise
    return found


def last_state(chain, counter, keys):
    """Reads the counter and these keys at each living server."""
    def ask(_home, connection):
        reads = [completed("gets", key, lambda: connection.gets(key)) for key in keys]
        return [*reads, completed("count", counter, lambda: int(connection.gets(counter)[0]))]

    return at_each_living(chain, ask)


def judge(chain, clients, counter):
    """What is wrong with what these clients did and saw, in words."""
    faults = [c.fault for c in clients if c.fault]
    calls = [call for client in clients for call in client.calls]
    keys = sorted({c.key for c in calls if c.kind != "incr"})
    calls += last_state(chain, counter, keys)
    judge_counter(calls, faults)
    for key in keys:
        judge_key(key, [c for c in calls if c.key == key], faults)
    judge_settled(chain, faults)
    chain.settled[counter] = calls[-1].result
    return faults


def judge_settled(chain, faults):
    """The counters of earlier phases, which nobody raises any more, are what they came to, at each living server."""
    def ask(home, connection):
        found = {counter: connection.gets(counter) for counter in chain.settled}
        return [f"at server {home} the earlier counter {counter!r} is {found[counter]!r}, not {number}"
                for counter, number in chain.settled.items()
                if found[counter] is None or int(found[counter][0]) != number]

    faults += at_each_living(chain, ask)


def run_clients(chain, rounds, at_each, phase, fail=None):
    """Runs clients at each living server, and fails server `fail` after a third of the calls.

    Gives what is wrong, and the number of calls."""
    counter, shared = b"n%d" % phase, []
    first = Connection(chain.ports[living(chain)[0]])
    if first.call(b"set %s 0 0 1\r\n0\r\n" % counter) != b"STORED":
        return ["the counter wasn't stored"], 0
    first.leave()
    clients = [
        Client(f"p{phase}-s{home}-c{i}", chain, home, rounds, counter, shared)
        for home in living(chain)
        for i in range(at_each)
    ]
    for client in clients:
        client.start()
    if fail is not None:
        third = len(clients) * rounds
        while sum(len(c.calls) for c in clients) < third and any(c.is_alive() for c in clients):
            time.sleep(0.002)
        chain.fail(fail)
    for client in clients:
        client.join(LIMIT)
    faults = [f"client {c.name} doesn't end" for c in clients if c.is_alive()]
    return faults or judge(chain, clients, counter), sum(len(c.calls) for c in clients)
