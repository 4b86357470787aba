"""Servers that are asked for a key all the time, also while they are stopped, and the judges of what they answered.
Talks to 127.0.0.1 alone.

Verdicts rest on what was answered. A call that began after the end of each lease that could let it be answered, and was
answered all the same, is a fault, however soon; both times are of this machine's one monotonic clock.
"""
import threading
import time

from chain_clients import Call, Closed, Connection, Wrong, judge_key, living

SECOND = 1_000_000_000  # nanoseconds, as calls' times are
# Seconds beyond those of the rules that a call at a living server may take. Slowness is no fault of the chain.
SLACK = 20
PAUSE = .005  # seconds between two questions of an asker


class Asker:
    """Asks one server for a key every few milliseconds, whether it answers or not."""

    def __init__(self, port, key):
        self.key, self.calls, self.over, self.fault = key, [], threading.Event(), None
        self.connection = Connection(port)
        self.asking, self.hearing = [threading.Thread(target=it, daemon=True) for it in (self.ask, self.hear)]
        self.asking.start()
        self.hearing.start()

    def ask(self):
        try:
            while not self.over.is_set():
                self.calls.append(Call("gets", self.key))
                self.connection.ask(self.key)
                time.sleep(PAUSE)
            self.connection.send(b"quit\r\n")
        except Closed:
            pass
        except Wrong as fault:
            self.fault = repr(fault)

    def hear(self):
        """Its calls are answered in their order."""
        number = 0
        try:
            while True:
                found = self.connection.item(self.key)
                self.calls[number].answered(found)
                number += 1
        except Closed:
            pass
        except (Wrong, ValueError, IndexError) as fault:
            self.fault = repr(fault)

    def asks_more(self, count):
        """Waits until it has asked this many times more, or its connection has ended."""
        end, wanted = time.monotonic() + SLACK, len(self.calls) + count
        while len(self.calls) < wanted and self.asking.is_alive():
            if time.monotonic() > end:
                raise Wrong("an asker doesn't ask")
            time.sleep(PAUSE)

    def end(self):
        """Lets it hear what still comes, until the server closes the connection."""
        self.over.set()
        for thread in (self.asking, self.hearing):
            thread.join(4 * SLACK)
            if thread.is_alive():
                raise Wrong(f"an asker for {self.key!r} doesn't end")
        self.connection.close()


class Witness:
    """A key that the case sets at one server, and for which each server is asked all the time."""

    def __init__(self, chain, writer):
        self.chain, self.writer, self.key, self.sets = chain, writer, b"witness.%d" % chain.witnesses, []
        chain.witnesses += 1
        self.connection = Connection(chain.ports[writer])
        self.set()
        self.askers = {i: Asker(chain.ports[i], self.key) for i in living(chain)}
        self.ask_more()

    def set(self):
        """Sets it once more, and waits for the answer."""
        call = Call("set", self.key, len(self.sets) + 1)
        self.sets.append(call)
        value = b"%s:%d:" % (self.key, call.number)
        call.answered(self.connection.call(b"set %s 7 0 %d\r\n%s\r\n" % (self.key, len(value), value)))

    def ask_more(self, count=20):
        """Waits until each server was asked this often."""
        for asker in self.askers.values():
            asker.asks_more(count)

    def calls(self, server):
        return self.askers[server].calls

    def faults(self, most):
        """Sets it once more, and ends it. What is wrong with what was answered, at living servers within this many
        seconds."""
        self.set()
        return self.end(most)

    def end(self, most):
        """The same without a set, so that its server may have failed."""
        self.ask_more()
        for asker in self.askers.values():
            asker.end()
        self.connection.close()
        faults = [asker.fault for asker in self.askers.values() if asker.fault]
        judge_key(self.key, [*self.sets, *(call for server in self.askers for call in self.calls(server))], faults)
        for server in self.askers:
            if not self.is_left(server):
                faults += hanging(server, self.calls(server), most)
        return faults

    def is_left(self, server):
        """Whether a server has failed. One that leaves calls unanswered has closed the connection."""
        is_answered = all(call.ended is not None for call in self.calls(server))
        return server in self.chain.failed or not is_answered and self.chain.has_failed(server)


def hanging(server, calls, most):
    """What is wrong if one of these calls wasn't answered within this many seconds."""
    answered = [call for call in calls if call.ended is not None]
    if len(answered) != len(calls):
        return [f"server {server} left {len(calls) - len(answered)} of {len(calls)} calls without an answer"]
    longest = max(call.ended - call.begun for call in answered) / SECOND
    return [f"a call at server {server} took {longest:.1f} s, more than {most} s"] if longest > most else []


def late(what, calls, since, until=None, is_asked=True):
    """What is wrong if a call that began after this time was answered, before the other time. No lease held then. That
    such a call was made has to be so only if it `is_asked`."""
    asked = [call for call in calls if call.begun > since and (until is None or call.begun < until)]
    answered = [call for call in asked if call.ended is not None and (until is None or call.ended < until)]
    if is_asked and not asked:
        return [f"{what}: no call was made without a lease"]
    return [f"{what}: {len(answered)} of {len(asked)} calls without a lease were answered"] if answered else []


def judge_case(_rounds):
    """The judges of late answers and of calls that hang, on histories made by hand."""
    def call(begun, ended=None):
        it = Call("gets", b"k")
        it.begun, it.ended = begun * SECOND, ended and ended * SECOND
        return it
    rows = [
        ("answered at the end", late("it", [call(1, 9), call(6)], 5 * SECOND), False),
        ("answered after the end", late("it", [call(1, 9), call(6, 9)], 5 * SECOND), True),
        ("answered once a lease is back", late("it", [call(6, 9)], 5 * SECOND, 8 * SECOND), False),
        ("answered before", late("it", [call(6, 7)], 5 * SECOND, 8 * SECOND), True),
        ("nobody asks", late("it", [call(1, 9)], 5 * SECOND), True),
        ("nobody has to ask", late("it", [call(1, 9)], 5 * SECOND, is_asked=False), False),
        ("answered in time", hanging(0, [call(1, 2), call(1, 4)], 3), False),
        ("answered too late", hanging(0, [call(1, 2), call(1, 5)], 3), True),
        ("never answered", hanging(0, [call(1, 2), call(1)], 3), True),
    ]
    return [f"{name}: {faults}" for name, faults, is_wrong in rows if bool(faults) != is_wrong]
