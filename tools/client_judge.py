"""Cases of tools/test_clients in which clients of pymemcache (client_load.py) work while a server is killed, and what
they saw is judged."""
import json
import time

from chain_clients import LIMIT, Call, Connection, Wrong, judge_counter, judge_key, last_state
from client_chains import PYTHON, TOOLS, Served, counted, haproxy, started

COUNTERS = 6  # of client_load.py
RUNNING_SECONDS = 0.5  # for which clients run before a kill, and after it


def load_case(clients, killed, proxy=None, again_fails=False):
    """Clients of pymemcache under load, of which each server is killed in turn, each in a chain of its own. They see no
    wrong answer; each sees two errors at most, and none in calls that are made again."""
    def case(room):
        faults, most, slowest, count, errors = [], 0, 0.0, 0, set()
        for server in killed:
            served = Served(room, proxy)
            try:
                found = loaded(served, clients, server)
                faults += not_marked_down(served, server) if proxy is haproxy else []
            finally:
                served.end()
            faults += found.faults
            most, slowest, count = max(most, found.most), max(slowest, found.slowest), count + found.count
            errors |= found.errors
            if found.again and not again_fails:
                faults.append(f"errors of calls that are made again: {found.again[:3]}")
        if most > 2 and not again_fails:
            faults.append(f"a client saw {most} errors")
        names = ", ".join(sorted(errors)) or "no error"
        judged = "wrong answers" if faults else "no wrong answer"
        return faults, (f"{count} calls, {counted(len(killed), 'kill')}: {judged}, at most {counted(most, 'error')} a "
                        f"client ({names}), the slowest call {slowest:.2f} s")

    case.is_patient = True
    return case


def not_marked_down(served, server):
    """Waits until HAProxy says that this server is down. What is wrong if it doesn't."""
    end, told = time.monotonic() + LIMIT, served.proxy.process.told
    while f"Server chain/s{server} is DOWN" not in told():
        if time.monotonic() > end:
            return [f"HAProxy doesn't say that server {server} is down: {told()!r}"]
        time.sleep(0.02)
    return []


class Load:
    """What clients did and saw."""

    def __init__(self, written):
        self.again = [error for it in written for error in it["errors"]["again"]]
        each = [it["errors"]["once"] for it in written]
        self.most, self.errors = max(map(len, each)), {it.partition("(")[0] for one in each for it in one}
        all_calls = [it for one in written for it in one["calls"]]
        self.count = len(all_calls)
        self.slowest = max((ended - begun) / 1e9 for *_, begun, ended, _ in all_calls if ended)
        self.calls = [judged_call(*it) for it in all_calls if it[0] != "again"]
        self.faults = []


def judged_call(kind, key, number, begun, ended, result):
    """A call as chain_clients judges it."""
    call = Call(kind, key.encode(), number)
    call.begun, call.ended, call.result = begun, ended, result
    if kind == "set" and result is True:
        call.result = b"STORED"
    if kind == "gets" and result:
        call.result = (result[0].encode(), result[1])
    return call


def loaded(served, clients, server):
    counters = [b"n%d" % i for i in range(COUNTERS)]
    first = Connection(served.chain.ports[0])
    for it in counters:
        first.call(b"set %s 0 0 1\r\n0\r\n" % it)
    first.leave()
    words = [PYTHON, "-B", str(TOOLS / "client_load.py")]
    running = [started([*words, str(i), str(clients), *served.addresses]) for i in range(clients)]
    try:
        for it in running:
            if it.line() != "ready\n":
                raise Wrong(f"client_load.py: {it.told()[-500:]}")
        time.sleep(RUNNING_SECONDS)
        served.fail(server)
        time.sleep(RUNNING_SECONDS)
        for it in running:
            it.say("\n")
        load = Load([json.loads(it.line()) for it in running])
    finally:
        for it in running:
            it.end()
    for it in counters:
        judge_counter([c for c in load.calls if c.key == it] + last_state(served.chain, it, []), load.faults)
    keys = sorted({c.key for c in load.calls if c.kind != "incr"})
    load.calls += last_state(served.chain, counters[0], keys)
    for it in keys:
        judge_key(it, [c for c in load.calls if c.key == it], load.faults)
    return load
