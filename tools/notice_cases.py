"""Cases of tools/test_servers on notices of failures: masters that come and go, servers that don't answer them, and
servers that are called gone and live."""

from chain_clients import Closed, Connection
from peer_sockets import MASTER, admitted, gone, greeting, noted, received, refused
from server_checks import Alone, answered, differing, differing_at_last, is_closed, untold
from server_processes import Chain, ended

# What a master says before it does what a line says.
LIVES = "craq: server {} still answers; it is told that it is gone, and ends"
LAST = "craq: server {} is the last one of the chain; its table ends with it"
# What a server says that was called gone.
GONE_STATUS = 4


def gone_line(server):
    """The line of a server that was called gone."""
    return f"craq: server {server} was called gone, and stops; don't start it again beside the others"


def said(master, line, answer):
    """What is wrong if a master doesn't answer a line so."""
    master.say(line + "\n")
    return differing(line, master.line(), answer + "\n")


def stored(port, key=b"a"):
    """What is wrong if a set isn't answered there."""
    client = Connection(port)
    try:
        return differing(f"a set at port {port}", client.call(b"set %s 0 0 1\r\n1\r\n" % key), b"STORED")
    finally:
        client.close()


def masters_case(_rounds):
    """Masters at once and one after another, and notices that come again: each is acknowledged."""
    chain = Chain(servers=4)
    masters = [chain.master, chain.another_master()]
    try:
        chain.kill(3)
        for master in masters:
            master.say("gone 3\n")
        faults = []
        for master in masters:
            faults += differing("two at once", master.line(), "gone 3 told 3\n")
        masters[0].process.stdin.close()
        faults += differing("the status of the first", masters[0].status(), 0)
        chain.kill(2)
        masters.append(chain.another_master())
        for master in masters[1:]:
            faults += said(master, "gone 2", "gone 2 told 2")
            faults += said(master, "gone 2", "gone 2 told 2")
            faults += said(master, "gone 3", "gone 3 told 2")
        for port in chain.ports[:2]:
            faults += stored(port)
        away = "craq: server 2 does not answer; if it has failed, type gone 2\n"
        for i, (master, told) in enumerate(zip(masters, ("", "", away))):
            faults += differing_at_last(f"standard error of master {i}", master.told, told)
        return faults + chain.judge_living()
    finally:
        for it in [chain, *masters]:
            it.end()


def unanswered_case(_rounds):
    """A server is stopped when a master tells: the master names it, and tells the others. Once it goes on it is told by
    the same line."""
    chain = Chain(servers=4)
    try:
        chain.servers[3].stop()
        chain.kill(1)
        faults = said(chain.master, "gone 1", "gone 1 told 2")
        chain.servers[3].go_on()
        faults += said(chain.master, "gone 1", "gone 1 told 3")
        for port in (chain.ports[0], chain.ports[2], chain.ports[3]):
            faults += stored(port)
        line = "craq: server 3 did not answer that server 1 is gone: look at it, and type gone 1 again\n"
        return faults + differing_at_last("its standard error", chain.master.told, line) + chain.judge_living()
    finally:
        chain.end()


def stranger_case(_rounds):
    """Whoever greets as a master, of this chain or another, keeps no other master from being heard."""
    chain = Chain()
    try:
        faults = answered(chain.peer_port, [
            ("a master of another chain", greeting(MASTER, 3, b"other") + gone(2), refused(2)),
            ("a master of another number", greeting(MASTER, 4) + gone(2), refused(1)),
        ])
        silent = [admitted(chain.peer_port + i, MASTER, 3)[0] for i in range(3)]
        chain.kill(1)
        faults += said(chain.master, "gone 1", "gone 1 told 2")
        for port in (chain.ports[0], chain.ports[2]):
            faults += stored(port)
        for connection in silent:
            connection.close()
        return faults + chain.judge_living()
    finally:
        chain.end()


def other_master_case(_rounds):
    """A master of another chain, or of another number of servers, is refused: it says why, and ends with status 1."""
    chain = Chain()
    try:
        place = f"craq: server 0 at 127.0.0.1 port {chain.peer_port} refuses this master: "
        numbers = ("--peer-port", str(chain.peer_port))
        faults = differing("another chain", ended("master", "--servers", "3", *numbers, "--chain", "other"), (
            1, "", place + "it belongs to another chain than other; give --chain as the chain has it\n"))
        return faults + differing("another number", ended("master", "--servers", "4", *numbers), (
            1, "", place + "it has another number of servers than 4; give --servers as the chain has it\n"))
    finally:
        chain.end()


def late_case(_rounds):
    """A master that starts late learns from the others who is gone, and says nothing of it."""
    chain = Chain(servers=4)
    try:
        chain.fail(1)
        chain.master.end()
        chain.master = chain.another_master()
        chain.kill(3)
        faults = said(chain.master, "gone 3", "gone 3 told 2")
        faults += differing("its standard error", chain.master.told(), "")
        for port in (chain.ports[0], chain.ports[2]):
            faults += stored(port)
        master, failed = admitted(chain.peer_port, MASTER, 4)
        master.close()
        return faults + differing("who is gone", failed, [1, 3]) + chain.judge_living()
    finally:
        chain.end()


def anew_case(_rounds):
    """All servers end and are started anew beside their master: it tells them nothing, and says so."""
    chain = Chain()
    try:
        for server in chain.servers:
            server.end()
        chain.servers = [chain.started(i) for i in range(3)]
        chain.judge_ready()
        chain.kill(1)
        faults = said(chain.master, "gone 1", "gone 1 told 0")
        lines = [
            f"craq: server {i} at 127.0.0.1 port {chain.peer_port + i} was not told that server 1 is gone: it was "
            f"started anew; if the chain goes on without it, end it and type gone {i}; if all servers were started "
            "anew, start the master anew" for i in (0, 2)
        ]
        faults += differing_at_last("its standard error", lambda: chain.master.told().splitlines(), lines)
        chain.master.end()
        chain.master = chain.another_master()
        chain.tell(1)
        for port in (chain.ports[0], chain.ports[2]):
            faults += stored(port)
        return faults + chain.judge_living()
    finally:
        chain.end()


def noted_case(_rounds):
    """Each notice is answered, also one that comes again; and a notice of the server itself, which then ends."""
    chain = Alone(3)
    try:
        master, failed = admitted(chain.peer_port, MASTER, 3)
        faults = differing("who is gone", failed, [])
        for _ in range(2):
            master.sendall(gone(1))
            faults += differing("the answer", received(master, 3), noted(1))
        other, failed = admitted(chain.peer_port, MASTER, 3)
        faults += differing("who is gone now", failed, [1])
        other.sendall(gone(0))
        faults += differing("the answer of who is called gone", received(other, 3), noted(0))
        faults += differing("its status", chain.server.status(), GONE_STATUS)
        faults += differing("its line", chain.server.told(), gone_line(0) + "\n")
        return faults + ([] if is_closed(master) else ["the other master's connection goes on"])
    finally:
        chain.end()


def viewed_case(_rounds):
    """A server that learns from another's view that it was called gone says so, and ends."""
    chain = Alone(3)
    try:
        client = Connection(chain.port)
        faults = differing("a get", client.call(b"get a\r\n"), b"END")
        # An Ack of nothing, in whose view server 0 has failed.
        chain.speakers[1].sendall(b"\x02\x03\x00\x01" + bytes(8))
        faults += differing("its status", chain.server.status(), GONE_STATUS)
        faults += differing("its line", chain.server.told(), gone_line(0) + "\n")
        return faults + unserved(client)
    finally:
        chain.end()


def unserved(client):
    """What is wrong if a client's connection goes on."""
    try:
        return [f"a client is answered {client.call(b'get a' + bytes([13, 10]))!r}"]
    except Closed:
        return []


def living_case(_rounds):
    """A living server is called gone: it says so, serves nobody any more, and ends; the others go on without it. The
    master says beforehand that it lives, unless it is slow to answer."""
    chain = Chain()
    try:
        client = Connection(chain.ports[1])
        faults = differing("a set", client.call(b"set a 0 0 1\r\n1\r\n"), b"STORED")
        chain.failed.add(1)
        faults += said(chain.master, "gone 1", "gone 1 told 2")
        faults += differing("its status", chain.servers[1].status(), GONE_STATUS)
        faults += untold(chain.servers[1], gone_line(1)) + unserved(client)
        for port in (chain.ports[0], chain.ports[2]):
            faults += stored(port)
        if chain.master.told() not in ("", LIVES.format(1) + "\n"):
            faults.append(f"the master says {chain.master.told()!r}")
        return faults + chain.judge_living()
    finally:
        chain.end()


def waking_case(_rounds):
    """A stopped server is called gone, and goes on later: it hears so, serves nobody any more, and ends."""
    chain = Chain()
    try:
        client = Connection(chain.ports[1])
        faults = differing("a set", client.call(b"set a 0 0 1\r\n1\r\n"), b"STORED")
        chain.failed.add(1)
        chain.servers[1].stop()
        faults += said(chain.master, "gone 1", "gone 1 told 2")
        for port in (chain.ports[0], chain.ports[2]):
            faults += stored(port)
        chain.servers[1].go_on()
        faults += differing("its status", chain.servers[1].status(), GONE_STATUS)
        faults += untold(chain.servers[1], gone_line(1)) + unserved(client)
        return faults + chain.judge_living()
    finally:
        chain.end()
