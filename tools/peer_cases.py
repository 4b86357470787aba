"""Cases of tools/test_servers in which the test is the other servers of a chain: which connections a server closes,
and what it tells of links that break."""
from chain_clients import Connection
from peer_sockets import (ACK, ANSWER, EMPTY_VIEW, MASTER, NAME, NUMBER_ONE, OLD_HELLO, OP_INCR, Peer, accepted,
                          admitted, confirmed, gone, greeting, hello, introduction, linked, received, refused)
from ports import free_ports
from server_checks import (Alone, Starting, answered, differing, differing_at_last, is_closed, link_line, reset,
                           still_line, untold)
from server_processes import Process

# Standard error of server 0.
OLD_LINE = "craq: server 0: a peer speaks format 1, and this server format 2; its connection was closed"


def silent_case(_rounds):
    """The test is the middle of three servers, and says nothing once its links stand: an update waits for it, and is
    answered once the others are told of its failure."""
    port, peer_port = free_ports(3), free_ports(3)
    middle = Peer(1, 3, peer_port)
    chain = ("--servers", "3", "--peer-port", str(peer_port))
    running = [Process(("server", "--id", str(i), "--port", str(port), *chain)) for i in (0, 2)]
    try:
        greetings = sorted(middle.accept(accepted() + confirmed()) for _ in running)
        faults = differing("what the others say first", greetings, [(0, 3, NAME), (2, 3, NAME)])
        for i in (0, 2):
            middle.link(i)
        for server in running:
            faults += differing("a server's line", server.line(), "ready\n")
        client = Connection(port)
        client.send(b"set a 0 0 1\r\n1\r\n")
        middle.listener.close()
        master = Process(("master", *chain))
        running.append(master)
        master.say("gone 1\n")
        faults += differing("the master", master.line(), "gone 1 told 2\n")
        return faults + differing("the set", client.line(), b"STORED")
    finally:
        for process in [*running, middle]:
            process.end()


def rules_case(_rounds):
    """The test is servers 1 and 2 of three, and a master: which connections server 0 closes, and what it hears."""
    chain = Starting(3)
    try:
        faults = []
        for i, peer in chain.peers.items():
            faults += differing(f"what server 0 says first to server {i}", peer.accept(), (0, 3, NAME))
        faults += answered(chain.peer_port, strange_rows())
        first, second = [peer.link(0) for peer in chain.peers.values()]
        faults += differing("the server's line", chain.server.line(), "ready\n")
        second.sendall(hello(2))
        if not is_closed(second):
            faults.append("a second Hello doesn't close")
        # Server 1 is heard: server 0, the head, forwards to it what it asks for, and confirms it.
        first.sendall(OP_INCR)
        faults += differing("the forward", chain.peers[1].receive(12), b"\x02\x02" + EMPTY_VIEW + NUMBER_ONE)
        faults += differing("the confirmation", received(first, 10), confirmed(len(OP_INCR)))
        first.sendall(gone(2))
        if not is_closed(first):
            faults.append("a Gone from a server doesn't close")
        master, _failed = admitted(chain.peer_port, MASTER, 3)
        master.sendall(ACK)
        if not is_closed(master):
            faults.append("a message from the master doesn't close")
        faults += answered(chain.peer_port, [("another start of server 1", greeting(1, 3, start=2), refused(3))])
        for server, count in ((1, len(OP_INCR)), (2, 0)):
            again, goes_on = linked(chain.peer_port, server, 3)
            faults += differing(f"where the link from server {server} goes on", goes_on, count)
            again.close()
        client = Connection(chain.port)
        faults += differing("a clean read", client.call(b"get k\r\n"), b"END")
        def lines():
            return [line for line in chain.server.told().splitlines() if " was refused: " not in line]

        return faults + differing_at_last("standard error", lines, [
            OLD_LINE,
            link_line(0, 2, "was closed after a second Hello"),
            link_line(0, 1, "was closed after a notice of a failure, which only the master may send"),
            "craq: server 0: the connection of the master was closed after a message that only servers may send",
        ])
    finally:
        chain.end()


def strange_rows():
    """Connections that are to be closed before any was accepted, each with its bytes and the answer."""
    return [
        ("a message before a Hello", ACK, b""),
        ("a notice before a Hello", gone(1), b""),
        ("an introduction before a Hello", introduction(3), b""),
        ("a Hello of the server itself", greeting(0, 3), refused(3)),
        ("a Hello of a server that the chain hasn't", greeting(3, 3), refused(1)),
        ("a Hello of server 15", greeting(15, 16), refused(1)),
        ("a Hello of nobody", hello(17), b""),
        ("another kind of bytes", b"get k\r\n", b""),
        ("an older format", OLD_HELLO, b""),
        ("two Hellos", hello(2) + hello(2), refused(5)),
        ("a message in place of an introduction", hello(2) + ACK, refused(5)),
        ("an older format after a Hello", hello(2) + OLD_HELLO, refused(5)),
        ("another chain", greeting(2, 3, b"cache"), refused(2)),
        ("another chain's master", greeting(MASTER, 3, b"craq2"), refused(2)),
        ("another number of servers", greeting(2, 4), refused(1)),
    ]


def broken_case(_rounds):
    """The test is servers 1 to 5 of six. A link whose connection ends or breaks goes on with the next one, and nothing
    is told of it. Each that is closed for what came over it is told, with the reason; and each that stands still."""
    chain = Alone(6)
    try:
        speakers, faults = chain.speakers, []
        for server, end in ((1, lambda it: it.close()), (2, reset)):
            speakers[server].sendall(ANSWER)
            faults += differing("the confirmation", received(speakers[server], 10), confirmed(len(ANSWER)))
            speakers[server].sendall(ANSWER[:-1])
            end(speakers[server])
            speakers[server], count = linked(chain.peer_port, server, 6)
            faults += differing(f"where the link from server {server} goes on", count, len(ANSWER))
        speakers[3].sendall(b"\x02\x11")
        faults += untold(chain.server, link_line(0, 3, "was closed after a malformed frame"))
        speakers[4].sendall(OLD_HELLO)
        faults += untold(chain.server, link_line(0, 4, "was closed after a frame of format 1"))
        speakers[5].sendall(introduction(6))
        faults += untold(chain.server, link_line(0, 5, "was closed after a frame that belongs to greetings"))
        master, _failed = admitted(chain.peer_port, MASTER, 6)
        master.sendall(b"\x02\x11")
        told = "craq: server 0: the connection of the master was closed after a malformed frame"
        faults += untold(chain.server, told)
        master.close()
        # The successor can't be reached any more: the updates that are forwarded to it wait.
        chain.peers[1].leave()
        client = Connection(chain.port)
        client.send(b"set a 0 0 1 noreply\r\n1\r\n" * 1000)
        faults += untold(chain.server, still_line(0, 1))
        lines = chain.server.told().splitlines()
        return faults + differing("the number of lines", len(lines), 5)
    finally:
        chain.end()


def silenced_case(_rounds):
    """Of the links of a server that was called gone nothing is told, when they end."""
    chain = Alone(3)
    try:
        master, _failed = admitted(chain.peer_port, MASTER, 3)
        master.sendall(gone(1))
        client = Connection(chain.port)
        # The update passes the middle by, which was called gone before.
        client.send(b"set a 0 0 1\r\n1\r\n")
        faults = differing("the forward", chain.peers[2].receive(2), b"\x02\x02")
        chain.speakers[1].close()
        chain.peers[1].leave()
        faults += answered(chain.peer_port, [("an older format", OLD_HELLO, b"")])
        faults += untold(chain.server, OLD_LINE)
        faults += differing("standard error", chain.server.told(), OLD_LINE + "\n")
        master.close()
        return faults
    finally:
        chain.end()
