#!/usr/bin/env python3
"""A second model of the chain: prints the transcript of a schedule.

usage: tools/chain_model.py FILE

It is written from docs/DESIGN.md, docs/PROTOCOL.md and docs/FORMATS.md alone, with their words: the schedule, the
protocol, the operations, one server of the chain, a connection, the world of all of them, the transcript.
tools/random_schedules compares the program with it.
"""
import re
import sys
from collections import deque
from typing import NamedTuple, Optional

MOST_DATA = 1_048_576
LONGEST_LINE = 2_048


# The schedule (FORMATS.md). An event is a pair or a triple: a name, and its numbers or bytes.

class BadLine(Exception):
    """The number of the first bad line of a schedule."""


def number_in(field, first, end):
    """The value of a decimal number without leading zeros, if it is at least `first` and below `end`."""
    if not re.fullmatch(rb"0|[1-9][0-9]{0,9}", field):
        return None
    return int(field) if first <= int(field) < end else None


ESCAPE = rb"\\(\\|r|n|x[0-9a-f]{2})"


def unescaped(text):
    """The bytes that a TEXT spells; None if a byte outside its escapes doesn't stand for itself."""
    if re.search(rb"[^ -\[\]-~]", re.sub(ESCAPE, b"", text)):
        return None
    return re.sub(ESCAPE, byte_of_escape, text)


def byte_of_escape(found):
    word = found.group(1)
    return {b"\\": b"\\", b"r": b"\r", b"n": b"\n"}.get(word) or bytes([int(word[1:], 16)])


def read_schedule(text):
    """The number of servers, the home of each connection, and all events."""
    lines = text.split(b"\n")
    if lines[-1] == b"":
        lines.pop()
    told = [(number, line) for number, line in enumerate(lines, 1) if line and not line.startswith(b"#")]
    behind = len(lines) + 1

    number, line = told[0] if told else (behind, b"")
    count = number_in(line[8:], 1, 17) if line.startswith(b"servers ") else None
    if count is None:
        raise BadLine(number)

    number, line = told[1] if len(told) > 1 else (behind, b"")
    homes = [number_in(field, 0, count) for field in line[6:].split(b" ")]
    if not line.startswith(b"homes ") or len(homes) > 64 or None in homes:
        raise BadLine(number)

    events = []
    for number, line in told[2:]:
        of_line = events_of(line, count, len(homes))
        if of_line is None:
            raise BadLine(number)
        events += of_line
    return count, homes, events


def events_of(line, count, connections):
    """The events of a line, or None if it is bad."""
    word, space, rest = line.partition(b" ")
    if not space:
        return None
    if word == b"piece":
        return piece_event(rest)
    if word == b"fill":
        return fill_event(rest)
    if word in (b"begin", b"work", b"hand"):
        return event_of_numbers(word, rest, [1000])
    if word == b"fail":
        return event_of_numbers(word, rest, [100])
    if word in (b"deliver", b"tell"):
        return event_of_numbers(word, rest, [100, 100])
    if word == b"settle":
        rounds = number_in(rest, 1, 501)
        return None if rounds is None else settling(count, connections) * rounds
    return None


def piece_event(rest):
    field, _, text = rest.partition(b" ")
    connection, piece = number_in(field, 0, 1000), unescaped(text)
    return [("piece", connection, piece)] if connection is not None and piece else None


def fill_event(rest):
    fields = rest.split(b" ", 2)
    if len(fields) < 3:
        return None
    connection, copies, byte = number_in(fields[0], 0, 1000), number_in(fields[1], 1, 2_000_001), unescaped(fields[2])
    if connection is None or copies is None or byte is None or len(byte) != 1:
        return None
    return [("piece", connection, byte * copies)]


def event_of_numbers(word, rest, ends):
    """An event with one number for each of `ends`, below it; or None."""
    fields = rest.split(b" ")
    numbers = [number_in(field, 0, end) for field, end in zip(fields, ends)]
    return [(word.decode(), *numbers)] if len(fields) == len(ends) and None not in numbers else None


def settling(count, connections):
    """One round of `settle`."""
    pairs = [(i, j) for i in range(count) for j in range(count) if i != j]
    of_servers = [(word, i, j) for word in ("tell", "deliver") for i, j in pairs]
    return of_servers + [(word, connection) for word in ("work", "hand") for connection in range(connections)]


# The protocol (PROTOCOL.md): what is at the front of a connection's unread bytes.

class Fault(NamedTuple):
    text: bytes
    closes: bool = False


class Quit(NamedTuple):
    pass


class Get(NamedTuple):
    keys: list
    shows_unique: bool


class Update(NamedTuple):
    key: Optional[bytes]  # None: all keys
    operation: tuple
    is_silent: bool


LINE_TOO_LONG = Fault(b"CLIENT_ERROR line too long\r\n", closes=True)
COMMAND = Fault(b"ERROR\r\n")
FORMAT = Fault(b"CLIENT_ERROR bad command line format\r\n")
TOO_LARGE = Fault(b"SERVER_ERROR object too large for cache\r\n")
EXPIRY = Fault(b"CLIENT_ERROR expiry is not supported\r\n")
DATA_CHUNK = Fault(b"CLIENT_ERROR bad data chunk\r\n")

STORAGE = (b"set", b"add", b"replace", b"append", b"prepend", b"cas")
LINE_UPDATES = {b"incr": 2, b"decr": 2, b"delete": 1, b"flush_all": 0}


def is_key(field):
    return 1 <= len(field) <= 250 and all(33 <= byte <= 126 or byte >= 128 for byte in field)


def digits(field, end):
    """The value of a field of digits, which may have leading zeros, if it is below `end`."""
    return int(field) if re.fullmatch(rb"[0-9]+", field) and int(field) < end else None


def without_noreply(fields, wanted):
    """The fields without a `noreply` after the `wanted` first ones, and whether there was one."""
    is_silent = len(fields) == wanted + 1 and fields[-1] == b"noreply"
    return (fields[:-1] if is_silent else fields), is_silent


def front(unread):
    """A request or a fault, and how many bytes it consumes; or None if none is complete."""
    line_feed = unread.find(b"\n", 0, LONGEST_LINE)
    if line_feed < 0:
        return (LINE_TOO_LONG, LONGEST_LINE) if len(unread) >= LONGEST_LINE else None
    length = line_feed + 1
    line = bytes(unread[:length])
    if not line.endswith(b"\r\n"):
        return COMMAND, length
    word, *fields = line[:-2].split(b" ")
    if word in STORAGE:
        return with_data(word, fields, unread, length)
    return of_line(word, fields), length


def of_line(word, fields):
    """A request that is one line."""
    if word in (b"get", b"gets"):
        return Get(fields, word == b"gets") if fields and all(map(is_key, fields)) else FORMAT
    if word == b"quit":
        return FORMAT if fields else Quit()
    if word not in LINE_UPDATES:
        return COMMAND
    wanted = LINE_UPDATES[word]
    fields, is_silent = without_noreply(fields, wanted)
    if len(fields) != wanted or wanted > 0 and not is_key(fields[0]):
        return FORMAT
    amounts = [digits(field, 2**64) for field in fields[1:]]
    if None in amounts:
        return FORMAT
    return Update(fields[0] if fields else None, (word.decode(), *amounts), is_silent)


def with_data(word, fields, unread, length):
    """A request whose line, of this length, is followed by a block of data."""
    wanted = 5 if word == b"cas" else 4
    fields, is_silent = without_noreply(fields, wanted)
    if len(fields) != wanted:
        return FORMAT, length
    key, expiry = fields[0], fields[2]
    flags, size = digits(fields[1], 2**32), digits(fields[3], 2**32)
    unique = digits(fields[4], 2**64) if word == b"cas" else 0
    if not is_key(key) or None in (flags, size, unique) or not re.fullmatch(rb"-?[0-9]+", expiry):
        return FORMAT, length
    whole = length + size + 2
    if len(unread) < whole:
        return None
    if size > MOST_DATA:
        return TOO_LARGE, whole
    if not re.fullmatch(rb"0+", expiry):
        return EXPIRY, whole
    if unread[whole - 2:whole] != b"\r\n":
        return DATA_CHUNK, whole
    data = bytes(unread[length:whole - 2])
    return Update(key, (word.decode(), flags, data, unique), is_silent), whole


# The operations (PROTOCOL.md, "What each request does").

class Item(NamedTuple):
    flags: int
    data: bytes
    unique: int


READ = ("read",)
KEEP, DROP, CLEAR = "keep", "drop", "clear"


def counter(data):
    return digits(data, 2**64) if len(data) <= 20 else None


def decide(item, operation, number):
    """The reply and the change of the update of this number: KEEP, DROP, CLEAR, or the item that is put."""
    word, *arguments = operation
    if word == "flush_all":
        return b"OK", CLEAR
    if word in ("append", "prepend"):
        return decide_joined(item, word == "append", arguments[1], number)
    if word in ("incr", "decr"):
        return decide_counted(item, word == "incr", arguments[0], number)
    if word == "delete":
        return (b"DELETED", DROP) if item else (b"NOT_FOUND", KEEP)
    flags, data, unique = arguments
    if word == "cas" and not item:
        return b"NOT_FOUND", KEEP
    if word == "cas" and item.unique != unique:
        return b"EXISTS", KEEP
    if word == "add" and item or word == "replace" and not item:
        return b"NOT_STORED", KEEP
    return b"STORED", Item(flags, data, number)


def decide_joined(item, at_end, data, number):
    if not item:
        return b"NOT_STORED", KEEP
    joined = item.data + data if at_end else data + item.data
    if len(joined) > MOST_DATA:
        return b"SERVER_ERROR object too large for cache", KEEP
    return b"STORED", Item(item.flags, joined, number)


def decide_counted(item, upwards, amount, number):
    if not item:
        return b"NOT_FOUND", KEEP
    old = counter(item.data)
    if old is None:
        return b"CLIENT_ERROR cannot increment or decrement non-numeric value", KEEP
    value = b"%d" % ((old + amount) % 2**64 if upwards else max(old - amount, 0))
    return value, Item(item.flags, value, number)


# One server of the chain (DESIGN.md, "The chain"). It keeps its whole log.

class Entry(NamedTuple):
    number: int
    origin: int
    id: int
    key: Optional[bytes]
    reply: bytes
    change: object


class Pending(NamedTuple):
    """An update of one of this server's clients that isn't answered yet."""
    id: int
    connection: int
    key: Optional[bytes]
    operation: tuple


class Ask(NamedTuple):
    """An open version query: a read of one of this server's clients, and the commit number when it was asked."""
    id: int
    connection: int
    key: bytes
    acknowledged: int


class Message(NamedTuple):
    view: frozenset
    kind: str
    body: tuple


class Server:
    def __init__(self, id, count):
        self.id, self.count, self.view = id, count, set()
        self.log, self.acknowledged = [], 0
        self.versions = {}  # of each key, (number, item or None) for each entry that changed it
        self.flushes = []   # the numbers of the entries that changed all keys
        self.taken = [0] * count  # of each origin, the id of its last update in the log
        self.pending, self.next_id = [], 1
        self.asks, self.next_ask = [], 1
        self.messages, self.replies = [], []

    # Neighbours, by the server's own view.

    def living(self):
        return [id for id in range(self.count) if id not in self.view]

    def head(self):
        return self.living()[0]

    def tail(self):
        return self.living()[-1]

    def predecessor(self):
        return max((id for id in self.living() if id < self.id), default=None)

    def successor(self):
        return min((id for id in self.living() if id > self.id), default=None)

    def is_head(self):
        return self.head() == self.id

    def is_tail(self):
        return self.tail() == self.id

    # What it puts out.

    def send(self, to, kind, *body):
        self.messages.append((to, Message(frozenset(self.view), kind, body)))

    def reply(self, connection, answer):
        self.replies.append((connection, answer))

    def put_out(self):
        """The messages and replies since this was last called."""
        messages, replies = self.messages, self.replies
        self.messages, self.replies = [], []
        return messages, replies

    # The log.

    def last(self):
        return len(self.log)

    def append(self, entry):
        self.log.append(entry)
        self.taken[entry.origin] = max(self.taken[entry.origin], entry.id)
        if entry.change == CLEAR:
            self.flushes.append(entry.number)
        elif entry.change != KEEP:
            item = None if entry.change == DROP else entry.change
            self.versions.setdefault(entry.key, []).append((entry.number, item))

    def item_at(self, key, number):
        """The key's item after the entry of this number."""
        versions = reversed(self.versions.get(key, []))
        changed, item = next((version for version in versions if version[0] <= number), (0, None))
        flushed = next((flush for flush in reversed(self.flushes) if flush <= number), 0)
        return item if changed > flushed else None

    def is_dirty(self, key):
        changed = self.versions.get(key, [(0, None)])[-1][0]
        flushed = self.flushes[-1] if self.flushes else 0
        return max(changed, flushed) > self.acknowledged

    # Servers in a row.

    def enter(self, origin, id, key, operation):
        """The head decides an update on the newest version, numbers it, and appends it."""
        item = None if key is None else self.item_at(key, self.last())
        number = self.last() + 1
        self.append(Entry(number, origin, id, key, *decide(item, operation, number)))

    def take(self, origin, id, key, operation):
        """An update comes to the head, which takes only the next id of each origin."""
        if self.is_head() and id == self.taken[origin] + 1:
            self.enter(origin, id, key, operation)
            self.pass_on()

    def pass_on(self):
        """The tail commits the newest entry; any other server forwards it."""
        if self.is_tail():
            self.acknowledge(self.last())
        else:
            self.send(self.successor(), "forward", self.log[-1])

    def acknowledge(self, number):
        """This server's own updates up to the number get their replies, and the predecessor is told."""
        for entry in self.log[self.acknowledged:number]:
            if entry.origin == self.id:
                self.answer_pending(entry)
        self.acknowledged = number
        if self.predecessor() is not None:
            self.send(self.predecessor(), "ack", number)

    def answer_pending(self, entry):
        for pending in self.pending:
            if pending.id == entry.id:
                self.pending.remove(pending)
                self.reply(pending.connection, ("line", entry.reply))
                return

    def answer_ask(self, ask, number):
        self.reply(ask.connection, ("item", self.item_at(ask.key, number)))

    # Its inputs: a call of a client, the master's notice of a failure, a message.

    def call(self, connection, key, operation):
        if operation == READ:
            self.read(connection, key)
            return
        pending = Pending(self.next_id, connection, key, operation)
        self.next_id += 1
        self.pending.append(pending)
        if self.is_head():
            self.take(self.id, pending.id, key, operation)
        else:
            self.send(self.head(), "op", pending.id, key, operation)

    def read(self, connection, key):
        if not self.is_dirty(key):
            self.reply(connection, ("item", self.item_at(key, self.last())))
            return
        self.asks.append(Ask(self.next_ask, connection, key, self.acknowledged))
        self.send(self.tail(), "query", self.next_ask, key)
        self.next_ask += 1

    def told(self, failed):
        self.join({failed})

    def receive(self, sender, message):
        assert self.id not in message.view
        self.join(message.view)
        if sender not in self.view:
            getattr(self, "receive_" + message.kind)(sender, *message.body)

    def receive_op(self, sender, id, key, operation):
        self.take(sender, id, key, operation)

    def receive_forward(self, sender, entry):
        if sender == self.predecessor() and entry.number == self.last() + 1:
            self.append(entry)
            self.pass_on()

    def receive_ack(self, sender, number):
        if sender == self.successor() and self.acknowledged < number <= self.last():
            self.acknowledge(number)

    def receive_query(self, sender, ask, key):
        if self.is_tail():
            self.send(sender, "answer", ask, self.last())

    def receive_answer(self, sender, id, number):
        for ask in self.asks:
            if sender == self.tail() and ask.id == id and ask.acknowledged <= number <= self.last():
                self.asks.remove(ask)
                self.answer_ask(ask, number)
                return

    # Joining a view, in six steps.

    def join(self, view):
        if view <= self.view:
            return
        head, tail, predecessor, successor = self.head(), self.tail(), self.predecessor(), self.successor()
        last = self.last()
        self.view |= view
        self.promote_to_head(head)
        has_committed = self.promote_to_tail()
        self.catch_up_successor(successor, last)
        if not has_committed:
            self.acknowledge_to_predecessor(predecessor)
        self.ask_again(tail)

    def promote_to_head(self, head_before):
        """Step 2: a new head takes its own unanswered updates; another new head is sent them again."""
        if self.head() == head_before:
            return
        for id, _, key, operation in self.pending:
            if not self.is_head():
                self.send(self.head(), "op", id, key, operation)
            elif id == self.taken[self.id] + 1:
                self.enter(self.id, id, key, operation)

    def promote_to_tail(self):
        """Step 3: the tail commits its whole log. Says whether its commit number rose."""
        commits = self.is_tail() and self.last() > self.acknowledged
        if commits:
            self.acknowledge(self.last())
        return commits

    def catch_up_successor(self, successor_before, last_before):
        """Step 4: a new successor is sent all entries above the commit number, the old one those of step 2."""
        if self.successor() is None:
            return
        sent = last_before if self.successor() == successor_before else self.acknowledged
        for entry in self.log[sent:]:
            self.send(self.successor(), "forward", entry)

    def acknowledge_to_predecessor(self, predecessor_before):
        """Step 5: a new predecessor is told the commit number."""
        if self.predecessor() not in (None, predecessor_before):
            self.send(self.predecessor(), "ack", self.acknowledged)

    def ask_again(self, tail_before):
        """Step 6: a new tail answers its open queries itself; another new tail is sent them again."""
        if self.tail() == tail_before:
            return
        for ask in self.asks:
            if self.is_tail():
                self.answer_ask(ask, self.last())
            else:
                self.send(self.tail(), "query", ask.id, ask.key)
        if self.is_tail():
            self.asks = []


# A connection, which has one call open at a time.

class Call(NamedTuple):
    key: Optional[bytes]
    operation: tuple
    is_silent: bool = False
    shows_unique: bool = False
    is_last: bool = False  # the last key of its `get`


class Connection:
    def __init__(self, home):
        self.home = home
        self.unread, self.sent, self.closed = bytearray(), bytearray(), False
        self.reads = deque()  # of a `get` whose first keys were read, those still to come
        self.call, self.is_worked, self.reply = None, False, None
        self.begun = self.answered = 0

    def piece(self, text):
        if not self.closed:
            self.unread += text

    def begin(self):
        """The next call begins. Faults before it are passed, and their lines written."""
        if self.call is not None:
            return
        while not self.reads and not self.closed:
            found = front(self.unread)
            if found is None:
                return
            request, length = found
            del self.unread[:length]
            if isinstance(request, Update):
                self.open(Call(*request))
                return
            self.pass_over(request)
        if self.reads:
            self.open(self.reads.popleft())

    def pass_over(self, request):
        """A fault writes its line, `quit` closes, and a `get` becomes a read of each of its keys."""
        if isinstance(request, Get):
            self.reads.extend(Call(key, READ, shows_unique=request.shows_unique) for key in request.keys)
            self.reads[-1] = self.reads[-1]._replace(is_last=True)
        elif isinstance(request, Quit):
            self.closed = True
        else:
            self.sent += request.text
            self.closed = request.closes

    def open(self, call):
        self.call = call
        self.begun += 1

    def hand(self):
        """The reply that waits is written, and its call is answered."""
        if self.reply is None:
            return
        kind, answer = self.reply
        if kind == "item":
            self.sent += self.value_text(answer) + (b"END\r\n" if self.call.is_last else b"")
        elif not self.call.is_silent:
            self.sent += answer + b"\r\n"
        self.answered += 1
        self.call, self.is_worked, self.reply = None, False, None

    def value_text(self, item):
        if item is None:
            return b""
        unique = b" %d" % item.unique if self.call.shows_unique else b""
        return b"VALUE %s %d %d%s\r\n%s\r\n" % (self.call.key, item.flags, len(item.data), unique, item.data)

    def waits(self):
        """Whether a call waits for `work`, or a reply for `hand`."""
        return self.call is not None and not self.is_worked or self.reply is not None


# The world: servers, links and connections (DESIGN.md, "The model"). Each event is a method.

class World:
    def __init__(self, count, homes):
        self.servers = [Server(id, count) for id in range(count)]
        self.failed = set()
        self.links = {(i, j): deque() for i in range(count) for j in range(count) if i != j}
        self.connections = [Connection(home) for home in homes]

    def do(self, event):
        name, *arguments = event
        getattr(self, name)(*arguments)

    def moving(self, number):
        """A list of the connection of this number; empty if there is none, or its home has failed."""
        return [connection for connection in self.connections[number:number + 1] if connection.home not in self.failed]

    def piece(self, number, text):
        for connection in self.moving(number):
            connection.piece(text)

    def begin(self, number):
        for connection in self.moving(number):
            connection.begin()

    def work(self, number):
        for connection in self.moving(number):
            if connection.call is not None and not connection.is_worked:
                connection.is_worked = True
                home = self.servers[connection.home]
                home.call(number, connection.call.key, connection.call.operation)
                self.carry(home)

    def hand(self, number):
        for connection in self.moving(number):
            connection.hand()

    def deliver(self, i, j):
        if self.links.get((i, j)) and j not in self.failed:
            self.servers[j].receive(i, self.links[i, j].popleft())
            self.carry(self.servers[j])

    def fail(self, i):
        if i < len(self.servers):
            self.failed.add(i)

    def tell(self, i, j):
        if i < len(self.servers) and i not in self.failed and j in self.failed:
            self.servers[i].told(j)
            self.carry(self.servers[i])

    def carry(self, server):
        """Puts a server's messages at the ends of its links, and its replies at its connections."""
        messages, replies = server.put_out()
        for to, message in messages:
            self.links[server.id, to].append(message)
        for number, answer in replies:
            connection = self.connections[number]
            assert connection.home == server.id and connection.is_worked and connection.reply is None
            connection.reply = answer

    def is_quiet(self):
        return (
            all(j in self.failed or not link for (_, j), link in self.links.items())
            and all(connection.home in self.failed or not connection.waits() for connection in self.connections)
            and all(server.id in self.failed or server.view == self.failed for server in self.servers)
        )


def run(count, homes, events):
    """The world after these events."""
    world = World(count, homes)
    for event in events:
        world.do(event)
    return world


# The transcript (FORMATS.md).

ESCAPES = {92: b"\\\\", 13: b"\\r", 10: b"\\n"}


def escaped(part):
    return b"".join(ESCAPES.get(byte) or (b"%c" if 32 <= byte <= 126 else b"\\x%02x") % byte for byte in part)


def transcript(world):
    lines = []
    for number, connection in enumerate(world.connections):
        told = number, connection.home, connection.begun, connection.answered
        lines.append(b"connection %d server %d begun %d answered %d\n" % told)
        lines += [b"| %s\n" % escaped(part) for part in re.findall(rb"[^\n]*\n|[^\n]+", connection.sent)]
    lines.append(b"quiet\n" if world.is_quiet() else b"not quiet\n")
    return b"".join(lines)


def main(name):
    try:
        with open(name, "rb") as file:
            text = file.read()
    except OSError:
        sys.exit(f"craq: cannot read {name}")
    try:
        sys.stdout.buffer.write(transcript(run(*read_schedule(text))))
    except BadLine as bad:
        sys.exit(f"craq: line {bad}: bad schedule line")


if __name__ == "__main__":
    if len(sys.argv) != 2:
        sys.exit(__doc__)
    main(sys.argv[1])
