"""What a call costs against the number of servers, and of updates of one key; how long a flush makes clients wait. Each
count has fresh servers. What it costs against the number of keys: many_keys.py."""
import socket
import statistics
import time
from contextlib import contextmanager
from itertools import zip_longest

from live_parts.chains import Craq
from live_parts.peers import READY, running
from live_parts.speeds import Case

SIZE = 100
ALONE, FOUR = [], ["--connections", 4, "--depth", 16]
# The sets of which the cost of a hop is seen: one at a time, by the head's client; then 4 and 16, by clients of each.
HOPS = [Case("set", SIZE, connections, depth) for connections, depth in [(1, 1), (4, 16), (16, 1)]]


@contextmanager
def filled(generator, peer, keys):
    """The peer, running, with `keys` keys."""
    with running([peer]):
        generator.fill(peer, SIZE, keys)
        yield peer


def timed(generator, peer, sets, seconds, *words):
    return generator.run(peer, SIZE, "--sets", sets, "--seconds", seconds, "--warm-up", seconds / 4, *words)


def medians(loads):
    """The median latency and the processor time of each."""
    return [f"{number:.1f}" for load in loads for number in (load.p50, load.processor)]


def servers_table(generator, program, counts, seconds):
    head = [f"{call}, {more}, {field}" for more in ("1 connection", "4 connections of 16 in flight")
            for call in ("get", "set") for field in ("p50", "processor")]
    table = [["servers", *head]]
    for count in counts:
        with filled(generator, Craq(f"{count} servers", program, count), 10_000) as peer:
            loads = [timed(generator, peer, sets, seconds, *more) for more in (ALONE, FOUR) for sets in (0, 1)]
        table.append([f"{count}", *medians(loads)])
    return table


def hops_table(samples, case, chains):
    """What a set costs in each of these chains, which are called by their number of servers."""
    named = {count: name for count, name in chains.items() if samples.has(case, name)}
    counts, more = list(named), "each server more"
    rates, waits, used = ([samples.median(case, name, field) for name in named.values()]
                          for field in ("rate", "p50", "processor"))
    # not the median: its clock ticks are too coarse for one run
    system = [samples.mean(case, name, "system") for name in named.values()]
    columns = [["servers", *map(str, counts), "all"], ["sets a second", *texts(rates, "{:,.0f}")],
               ["p50", *texts(waits)], [more, *rises(counts, waits)],
               ["processor", *texts(used)], [more, *rises(counts, used)], ["of it the system's", *texts(system)]]
    return list(map(list, zip_longest(*columns, fillvalue="")))


def texts(column, form="{:.1f}"):
    return map(form.format, column)


def rises(counts, column):
    """How much a column rises for each server more: from the row before, and at last along the line that fits best."""
    steps = zip(counts, counts[1:], column, column[1:])
    each = [(after - before) / (greater - less) for less, greater, before, after in steps]
    line = [statistics.linear_regression(counts, column).slope] if each else []
    return ["", *texts([*each, *line])]


def updates_table(generator, makers, counts):
    table = [["", "updates", "an update", "processor", "p99.9"]]
    for name, make in makers.items():
        for count in counts:
            with filled(generator, make(), 1) as peer:
                words = ["--sets", 1, "--keys", 1, "--connections", 16, "--depth", 16]
                load = generator.run(peer, SIZE, *words, calls=count)
            table.append([name, f"{count:,}", f"{1e6 / load.rate:.1f}", f"{load.processor:.1f}", f"{load.p999:,.0f}"])
    return table


def flush_table(generator, makers, counts):
    table = [["", "keys", "flush_all", "the set after it", "longest of 1,000 sets after that"]]
    for name, make in makers.items():
        for count in counts:
            with filled(generator, make(), count) as peer:
                waits = flush_waits(peer)
            table.append([name, f"{count:,}", *(f"{wait:.2f}" for wait in waits)])
    return table


def flush_waits(peer):
    """The waits of a flush, of the set after it, and the longest of a thousand sets after that."""
    with socket.create_connection(("127.0.0.1", peer.ports(SIZE)[0]), timeout=READY) as client:
        client.setsockopt(socket.IPPROTO_TCP, socket.TCP_NODELAY, 1)
        wait(client, b"set before 0 0 1\r\nx\r\n", b"STORED\r\n")
        flush = wait(client, b"flush_all\r\n", b"OK\r\n")
        first = wait(client, b"set after 0 0 1\r\nx\r\n", b"STORED\r\n")
        wait(client, b"get before\r\n", b"END\r\n")
        later = max(wait(client, b"set after%d 0 0 1\r\nx\r\n" % turn, b"STORED\r\n") for turn in range(1000))
    return flush, first, later


def wait(client, text, reply):
    """How long this request waits for this reply, in milliseconds."""
    begun, got = time.monotonic(), b""
    client.sendall(text)
    while len(got) < len(reply):
        piece = client.recv(65536)
        if not piece:
            break
        got += piece
    if got != reply:
        raise RuntimeError(f"{text!r} was answered {got!r}")
    return (time.monotonic() - begun) * 1000
