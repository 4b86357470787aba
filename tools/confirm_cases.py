"""Cases of tools/test_links in which the test is the other server of a link: what a server does with its confirmations,
and with those who greet as a server that stands. Talks to this machine alone."""
import socket
import time

from chain_clients import LIMIT, Connection, Wrong
from greeting_cases import refusing_line
from peer_sockets import (ANSWER, EMPTY_VIEW, MASTER, OP_INCR, accepted, admitted, confirmed, gone, greeting, linked,
                          noted, received, refused, rest)
from server_checks import (Alone, Starting, answered, differing, goes_line, is_closed, milliseconds, reset, still_line,
                           untold)

# The bytes of a forward of a key and data of one byte each.
FORWARD = 34


class ByHand(Starting):
    """Server 0 of two, of which the test is the other, and confirms by hand. If a connection ends, as one does that
    isn't confirmed for a second, the next one goes on after what was said last."""

    def __init__(self):
        super().__init__(2)
        self.peer, self.says = self.peers[1], 0
        self.peer.accept(accepted() + confirmed())
        self.speaker = self.peer.link(0)
        if self.server.line() != "ready\n":
            raise Wrong(f"server 0 isn't ready: {self.server.told()!r}")
        self.clients = []

    def put(self):
        """An update of a client of its own, which waits for this server."""
        self.clients.append(Connection(self.port))
        self.clients[-1].send(b"set a 0 0 1\r\n%d\r\n" % len(self.clients))

    def goes_on(self, count, start=1):
        """The next connection goes on after so many bytes."""
        self.peer.met.close()
        self.says = count
        self.peer.accept(accepted(start) + confirmed(count))

    def comes(self, count):
        """The next bytes after those that were said to have been handed on."""
        end = time.monotonic() + LIMIT
        while True:
            try:
                return received(self.peer.met, count)
            except (Wrong, OSError):
                if time.monotonic() > end:
                    raise
                self.again()

    def again(self):
        try:
            self.goes_on(self.says)
        except (Wrong, OSError):
            pass  # it was an old one

    def confirms(self, count):
        """Says that so many bytes were handed on."""
        self.says = count
        try:
            self.peer.met.sendall(confirmed(count))
        except OSError:
            pass

    def answers(self, number):
        """The updates up to this one are acknowledged. What is wrong with the replies."""
        self.speaker.sendall(b"\x02\x03" + EMPTY_VIEW + number.to_bytes(8, "big"))
        return differing(f"the reply to set {number}", self.clients[number - 1].line(), b"STORED")

    def line_faults(self):
        """What is wrong with its lines, if its link was only broken for a while, on a machine that may be slow."""
        end = time.monotonic() + LIMIT
        while (faults := self.strange_lines()) and time.monotonic() < end:
            time.sleep(.05)
        return faults

    def strange_lines(self):
        lines = self.server.told().splitlines()
        wanted = [still_line(0, 1), goes_line(0, 1)] * (len(lines) // 2)
        return differing("standard error", lines, wanted)


def over_case(_rounds):
    """A receiver that confirms more than was sent is cut off. It gets all again from what it says next."""
    chain = ByHand()
    try:
        chain.put()
        first = chain.comes(FORWARD)
        faults = differing("the forward's beginning", first[:2], b"\x02\x02")
        for too_much in (FORWARD + 1, 2 ** 63, 2 ** 64 - 1):
            chain.peer.met.sendall(confirmed(too_much))
            if not is_closed(chain.peer.met):
                faults.append(f"a receiver that confirms {too_much} of {FORWARD} bytes isn't cut off")
            chain.goes_on(0)
            faults += differing("what comes again", chain.comes(FORWARD), first)
        chain.confirms(FORWARD)
        faults += chain.answers(1)
        chain.put()
        second = chain.comes(FORWARD)
        chain.confirms(2 * FORWARD)
        faults += [] if second != first else ["the second forward is the first one"]
        return faults + chain.answers(2) + chain.line_faults()
    finally:
        chain.end()


def below_case(_rounds):
    """A receiver that would go on below what it has confirmed, or above what was sent, is refused: it gets no byte. It
    gets all that is missing once it says where it stands."""
    chain = ByHand()
    try:
        chain.put()
        chain.comes(FORWARD)
        # That the second forward comes alone shows that the first one is known to be confirmed.
        chain.goes_on(FORWARD)
        chain.put()
        second = chain.comes(FORWARD)
        faults = []
        for count in (0, FORWARD - 1, 2 * FORWARD + 1, 2 ** 64 - 1) * 2:
            chain.goes_on(count)
            bytes_ = rest(chain.peer.met)
            if bytes_ != b"":
                faults.append(f"a receiver that goes on after {count} bytes gets {bytes_!r}")
        chain.goes_on(FORWARD)
        faults += differing("what comes at last", chain.comes(FORWARD), second)
        chain.confirms(2 * FORWARD)
        faults += chain.answers(1) + chain.answers(2)
        chain.put()
        third = chain.comes(FORWARD)
        chain.confirms(3 * FORWARD)
        faults += [] if third not in (second, b"") else ["the third forward is the second one"]
        return faults + chain.answers(3) + chain.line_faults()
    finally:
        chain.end()


def unconfirmed_case(_rounds):
    """A receiver confirms nothing: its connection ends, and all comes again over the next one. After two seconds that
    is told, once, and once that it goes on when it confirms."""
    chain = ByHand()
    try:
        chain.put()
        first, faults, times = chain.comes(FORWARD), [], 0
        while times < 2 or still_line(0, 1, wait=FORWARD) not in chain.server.told().splitlines():
            if not is_closed(chain.peer.met):
                return [*faults, "a connection stands that isn't confirmed"]
            chain.goes_on(0)
            faults += differing("what comes again", chain.comes(FORWARD), first)
            times += 1
            if times > LIMIT:
                return [*faults, f"it isn't told: {chain.server.told()!r}"]
        faults += differing("standard error", chain.server.told().splitlines(), [still_line(0, 1, wait=FORWARD)])
        chain.confirms(FORWARD)
        faults += untold(chain.server, goes_line(0, 1))
        faults += chain.answers(1)
        lines = chain.server.told().splitlines()
        faults += differing("standard error at last", lines, [still_line(0, 1, wait=FORWARD), goes_line(0, 1)])
        return faults + differing("the order of times", sorted(lines, key=milliseconds), lines)
    finally:
        chain.end()


def refused_case(_rounds):
    """A server whose greeting is refused for a while, or gets no answer, tries again, and goes on then."""
    chain = ByHand()
    try:
        chain.put()
        first = chain.comes(FORWARD)
        for answer in (refused(3), refused(3), b"\x02", accepted(), accepted() + accepted(), confirmed(0), b"\xff"):
            chain.peer.met.close()
            chain.peer.accept(answer)
        chain.goes_on(0)
        faults = differing("what comes again", chain.comes(FORWARD), first)
        chain.confirms(FORWARD)
        return faults + chain.answers(1) + chain.line_faults()
    finally:
        chain.end()


def anew_case(_rounds):
    """A server to which a link went was started anew: the link is given up, which is told once, and nobody connects
    there again. When it is called gone, the chain goes on."""
    chain = ByHand()
    try:
        chain.put()
        chain.comes(FORWARD)
        chain.goes_on(0, start=2)
        line = "craq: server 0: server 1 was started anew, and this chain goes on without it; it must be called gone"
        faults = untold(chain.server, line)
        if not is_closed(chain.peer.met):
            faults.append("the connection to another start isn't ended")
        faults += [f"{count} connections come after it" for count in [comes_within(chain.peer.listener, 3)] if count]
        faults += differing("standard error", [it for it in chain.server.told().splitlines() if it != still_line(0, 1)],
                            [line])
        master, _failed = admitted(chain.peer_port, MASTER, 2)
        master.sendall(gone(1))
        faults += differing("the answer", received(master, 3), noted(1))
        faults += differing("the set", chain.clients[0].line(), b"STORED")
        master.close()
        return faults
    finally:
        chain.end()


def comes_within(listener, seconds):
    """How many connections come within this time."""
    count, end = 0, time.monotonic() + seconds
    while (left := end - time.monotonic()) > 0:
        listener.settimeout(left)
        try:
            listener.accept()[0].close()
            count += 1
        except socket.timeout:
            pass
    return count


def other_start_case(_rounds):
    """Who greets as a server that stands, at another start, is refused, and hurts its link not at all."""
    chain = Alone(2)
    try:
        faults, speaker = [], chain.speakers[1]
        for number in range(20):
            rows = [(f"start {number + 2}", greeting(1, 2, start=number + 2), refused(3))]
            faults += answered(chain.peer_port, rows)
        speaker.sendall(OP_INCR)
        faults += differing("the forward", chain.peers[1].receive(2), b"\x02\x02")
        faults += differing("the confirmation", received(speaker, 10), confirmed(len(OP_INCR)))
        faults += untold(chain.server, refusing_line(0, "server 1", 3))
        # Of refusals for one reason one a second is told at most.
        return faults + differing("lines", set(chain.server.told().splitlines()), {refusing_line(0, "server 1", 3)})
    finally:
        chain.end()


def same_start_case(_rounds):
    """Who greets as a server that stands, at its start, takes its link over: the connection before it ends. The link
    goes on after its last whole frame."""
    chain = Alone(2)
    try:
        faults, handed = [], len(ANSWER)
        chain.speakers[1].sendall(ANSWER)
        faults += differing("the first confirmation", received(chain.speakers[1], 10), confirmed(handed))
        for number in range(50):
            before = chain.speakers[1]
            before.sendall(ANSWER * (number % 3) + ANSWER[:number % len(ANSWER)])
            if number % 3:
                handed += len(ANSWER) * (number % 3)
                confirmation = b""
                while confirmation[-10:] != confirmed(handed):
                    confirmation += received(before, 10)
            chain.speakers[1], count = linked(chain.peer_port, 1, 2)
            faults += differing(f"connection {number} goes on", count, handed)
            if rest(before) is None:
                faults.append(f"the connection before {number} isn't ended")
        chain.speakers[1].sendall(OP_INCR)
        faults += differing("the forward", chain.peers[1].receive(2), b"\x02\x02")
        faults += differing("the confirmation", received(chain.speakers[1], 10), confirmed(handed + len(OP_INCR)))
        return faults + differing("standard error", chain.server.told(), "")
    finally:
        chain.end()


def early_case(_rounds):
    """The connection of a link ends just when the server becomes ready, and the link goes on over the next one."""
    faults = []
    for number in range(20):
        chain = Alone(2)
        try:
            time.sleep(.002 * (number // 2))
            (reset if number % 2 else socket.socket.close)(chain.speakers[1])
            chain.speakers[1], count = linked(chain.peer_port, 1, 2)
            chain.speakers[1].sendall(OP_INCR)
            faults += differing("where it goes on", count, 0)
            faults += differing("the forward", chain.peers[1].receive(2), b"\x02\x02")
            faults += differing("standard error", chain.server.told(), "")
        finally:
            chain.end()
        if faults:
            break
    return faults


def strange_case(_rounds):
    """A receiver that says something else than a confirmation, once its link stands, loses the connection, and nothing
    else."""
    chain = ByHand()
    try:
        chain.put()
        first, faults = chain.comes(FORWARD), []
        for bytes_ in (accepted(), refused(3), OP_INCR, b"\x02\x11", b"\x01\x00", gone(0)):
            chain.peer.met.sendall(bytes_)
            if not is_closed(chain.peer.met):
                faults.append(f"a receiver that says {bytes_!r} isn't cut off")
            chain.goes_on(0)
            faults += differing("what comes again", chain.comes(FORWARD), first)
        chain.confirms(FORWARD)
        return faults + chain.answers(1) + chain.line_faults()
    finally:
        chain.end()
