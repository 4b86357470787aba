"""Cases of single connections to a running chain: sizes around the limits, clients that go away or never read, idle
connections, a taken port, and the lines that steer a chain. Each case gives what is wrong, in words. It connects to
127.0.0.1 alone.
"""
import re
import resource
import socket
import subprocess
import time

from chain_clients import Closed, Connection, LIMIT, Wrong

LARGEST = 1048576  # the largest data of an item
KEY = 250  # the longest key
LINE = 2048  # the longest line, with its end


def differs(what, got, wanted):
    """Nothing if it is what was wanted."""
    return [] if got == wanted else [f"{what}: {got[:60]!r}, not {wanted[:60]!r}"]


def stored(connection, key, size):
    """The line that answers a set of `size` bytes."""
    return connection.call(b"set %s 7 0 %d\r\n%s\r\n" % (key, size, b"x" * size))


def sizes(cluster):
    """Sets of each size around the limits, and what is read of them at the other server."""
    faults = []
    here, there = (Connection(port) for port in cluster.ports)
    for size in (0, 1, 4095, 4096, 65535, 65536, 65537, LARGEST - 1, LARGEST):
        faults += differs(f"a set of {size} bytes", stored(here, b"a", size), b"STORED")
        found = there.gets(b"a")
        faults += differs(f"an item of {size} bytes", found[0] if found else b"none", b"x" * size)
    too_large = b"SERVER_ERROR object too large for cache"
    for size in (LARGEST + 1, LARGEST + 70000):
        faults += differs(f"a set of {size} bytes", stored(here, b"a", size), too_large)
    faults += differs("an append to the largest item", here.call(b"append a 0 0 1\r\nx\r\n"), too_large)
    faults += differs("the longest key", stored(here, b"k" * KEY, 1), b"STORED")
    longer = here.call(b"get %s\r\n" % (b"k" * (KEY + 1)))
    faults += differs("a longer key", longer, b"CLIENT_ERROR bad command line format")
    keys = b" ".join([b"k" * KEY] * 8)
    longest = b"get %s %s\r\n" % (keys, b"q" * (LINE - len(keys) - 7))
    here.send(longest)
    for _ in range(8):
        faults += differs("a line of the greatest length", here.line()[:6], b"VALUE ")
        here.block(1)
    faults += differs("the end of that line", here.line(), b"END")
    faults += differs("a longer line", here.call(b"q" * LINE + b"\r\n"), b"CLIENT_ERROR line too long")
    faults += is_closed(here)
    there.close()
    return faults


def is_closed(connection):
    """Nothing if the server closes the connection without a further byte."""
    try:
        connection.more()
    except Closed:
        return []
    return [f"a connection goes on with {connection.unread[:60]!r}"]


def goes_away(cluster):
    """A client goes away in the middle of a set: the item stays, and the seat serves the next."""
    faults = []
    for cut in (b"set a 0 0 9", b"set a 0 0 9\r\n", b"set a 0 0 9\r\nhalf", b"set a 0 0 9\r\nnine byte"):
        first = Connection(cluster.ports[0])
        faults += differs("a set", stored(first, b"a", 3), b"STORED")
        first.send(cut)
        first.close()
        second = Connection(cluster.ports[0])
        found = second.gets(b"a")
        faults += differs(f"the item after {cut!r}", found[0] if found else b"none", b"xxx")
        second.close()
    return faults


def never_reads(cluster):
    """A client sends 2,000 requests for large items and never reads, while another at the same server is served."""
    served = Connection(cluster.ports[0])
    faults = differs("a set", stored(served, b"a", 100000), b"STORED")
    silent = Connection(cluster.ports[0])
    silent.send(b"get a\r\n" * 2000)
    for number in range(200):
        faults += differs("a set beside it", served.call(b"set b 0 0 3\r\n%03d\r\n" % number), b"STORED")
        faults += differs("a get beside it", served.gets(b"b")[0], b"%03d" % number)
    silent.close()
    served.close()
    return faults


def most_memory(process):
    """The most memory that a process has held so far, in MB."""
    with open(f"/proc/{process.pid}/status", encoding="ascii") as status:
        return next(int(line.split()[1]) for line in status if line.startswith("VmHWM:")) // 1024


def asks_for_much(cluster):
    """One line asks 500 times for the largest item: memory is bounded, whether the replies are read or not."""
    connection = Connection(cluster.ports[0])
    faults = differs("a set", stored(connection, b"a", LARGEST), b"STORED")
    before = most_memory(cluster.process)
    connection.send(b"get" + b" a" * 500 + b"\r\n")
    beside = Connection(cluster.ports[0])
    faults += differs("a set beside it", stored(beside, b"b", 1), b"STORED")
    for _ in range(500):
        faults += differs("the head of an item", connection.line(), b"VALUE a 7 %d" % LARGEST)
        faults += differs("an item", connection.block(LARGEST), b"x" * LARGEST)
    faults += differs("the end", connection.line(), b"END")
    grown = most_memory(cluster.process) - before
    beside.close()
    connection.close()
    return faults + ([f"memory grew by {grown} MB"] if grown > 64 else [])


def idle(cluster):
    """Sixteen idle connections, and at each server one that works."""
    quiet = [Connection(cluster.ports[i % 2]) for i in range(16)]
    faults = []
    for port in cluster.ports:
        connection = Connection(port)
        for number in range(200):
            faults += differs("a set", connection.call(b"set b 0 0 3\r\n%03d\r\n" % number), b"STORED")
            faults += differs("a get", connection.gets(b"b")[0], b"%03d" % number)
        connection.close()
    for connection in quiet:
        faults += differs("an idle connection wakes", connection.call(b"get none\r\n"), b"END")
        connection.close()
    return faults


def taken_port(program, first):
    """A port that somebody else listens on is named in one line, and the status is 1."""
    with socket.socket() as other:
        other.setsockopt(socket.SOL_SOCKET, socket.SO_REUSEADDR, 1)
        other.bind(("127.0.0.1", first + 1))
        other.listen()
        words = [program, "cluster", "--quiet", "--servers", "3", "--port", str(first)]
        run = subprocess.run(words, input=b"", capture_output=True, timeout=LIMIT * 2, check=False)
    faults = differs("the status", str(run.returncode), "1") + differs("the output", run.stdout, b"")
    return faults + differs("the fault", run.stderr, b"craq: cannot listen on 127.0.0.1 port %d: the port is taken\n" % (first + 1))


def steered(cluster):
    """The lines that steer a chain: servers that fail, again too, and lines that are none."""
    process, faults = cluster.process, []
    lines = [
        ("fail 2", "bad line"), ("fail 01", "bad line"), ("fail", "bad line"), ("fail 0 ", "bad line"),
        ("", "bad line"), ("fail 1" + "x" * 5000, "bad line"),
        ("fail 1", "gone 1"), ("fail 1", "gone 1"), ("fail 0", "gone 0"),
    ]
    for line, wanted in lines:
        process.stdin.write(line + "\n")
        process.stdin.flush()
        faults += differs(f"the line {line[:20]!r}", process.stdout.readline(), wanted + "\n")
    for port in cluster.ports:
        faults += is_closed(Connection(port))
    process.stdin.close()
    faults += differs("the status", str(process.wait(LIMIT)), "0")
    return faults + differs("the rest of the output", process.stdout.read(), "")


def lost_answers(cluster):
    """Nobody reads the output any more: that is told once, servers are failed as before, and the chain goes on."""
    process = cluster.process
    process.stdout.close()
    for line in ("fail 1", "nonsense", "fail 2"):
        process.stdin.write(line + "\n")
        process.stdin.flush()
    client = Connection(cluster.ports[0])
    faults = differs("a set", stored(client, b"a", 1), b"STORED")
    client.close()
    for port in cluster.ports[1:]:
        faults += is_closed(Connection(port))
    process.stdin.close()
    faults += differs("the status", str(process.wait(LIMIT)), "0")
    line = ("craq: standard output cannot be written; this and maybe later answers are lost: gone 1; "
            "the cluster goes on\n")
    line += f'craq: a line of the input is "fail J", with J from 0 to {len(cluster.ports) - 1}\n'
    return faults + ([] if cluster.told() == line else [f"standard error: {cluster.told()!r}"])


# The address space, in bytes, that a cluster may still take once it is ready.
ROOM = 24 * 1024 * 1024
FALLEN = re.compile(
    r"craq: server (\d) ran out of memory and was stopped; (the others go on without it|no server is left)")


def memory_runs_out(cluster):
    """Memory is refused to a server's worker: a line names it; the cluster itself tells the others, and they answer."""
    with open(f"/proc/{cluster.process.pid}/status", encoding="ascii") as status:
        held = next(int(line.split()[1]) for line in status if line.startswith("VmSize:")) * 1024
    resource.prlimit(cluster.process.pid, resource.RLIMIT_AS, (held + ROOM, resource.RLIM_INFINITY))
    end, number = time.monotonic() + 2 * LIMIT, 0
    while not FALLEN.search(cluster.told()):
        if time.monotonic() > end:
            return [f"no server runs out of memory: {cluster.told()!r}"]
        number = filled(cluster, number)
    resource.prlimit(cluster.process.pid, resource.RLIMIT_AS, (held + 4 * ROOM, resource.RLIM_INFINITY))
    faults = []
    for home in range(len(cluster.ports)):
        # a line may come after the server has closed its connections
        if home not in fallen(cluster):
            try:
                client = Connection(cluster.ports[home])
                faults += differs(f"a set at server {home}", stored(client, b"last", 1), b"STORED")
                client.close()
            except Closed:
                end = time.monotonic() + LIMIT
                while home not in fallen(cluster):
                    if time.monotonic() > end:
                        raise
                    time.sleep(.05)
    cluster.failed, lines = fallen(cluster), cluster.told().splitlines()
    if len(cluster.failed) != len(lines):
        faults.append(f"standard error: {lines!r}")
    for home in cluster.failed:
        faults += is_closed(Connection(cluster.ports[home]))
    return faults


def fallen(cluster):
    """The servers of which a line says that they ran out of memory."""
    return {int(found[1]) for found in map(FALLEN.fullmatch, cluster.told().splitlines()) if found}


def filled(cluster, number):
    """Stores items with long keys, numbered from this one on, until a connection ends. Gives the next number. By turns
    it sends a hundred at a time, ten, and one: what is left may be too little to read a hundred, and enough for one."""
    at_a_time = (100, 10, 1)[number % 3]
    try:
        client = Connection(cluster.ports[number // 3 % len(cluster.ports)])
        for _ in range(20 * 100 // at_a_time):
            keys = [b"%0200d" % (number + i) for i in range(at_a_time)]
            number += len(keys)
            client.send(b"".join(b"set %s 0 0 1\r\nx\r\n" % key for key in keys))
            for _ in keys:
                client.line()
        client.close()
    except (Closed, Wrong):
        pass
    return number + 1
