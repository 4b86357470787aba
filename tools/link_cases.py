"""Cases of tools/test_links: chains under clients whose links are broken, held up and slowed, and of which servers fail
meanwhile. Talks to this machine alone."""
import os
import random
import threading
import time

from chain_clients import LIMIT, Closed, Connection, Wrong, living
from greeting_cases import refusing_line
from link_ways import WayChain
from memory_cases import MEBIBYTE, REFUSAL, most_memory, setting
from notice_cases import stored
from peer_sockets import rest, taken
from server_checks import differing, goes_line, milliseconds, still_line, untold
from server_processes import Chain, run_clients

AT_EACH = 2  # clients at each server
SEED = 9  # of each case's random numbers
# How often each link breaks in a case, and how often all at random.
TURNS, TIMES = 4, 120
# The links of a chain of three that always carry something while there are updates at each server.
CARRYING = (0, 1), (1, 2), (2, 1), (1, 0), (2, 0)
# How many milliseconds a link may be broken before that is told, and what is far from it.
TOLD, SOON = 2000, 1200
# Of servers with a limit of memory: seats, the limit, and how many MiB one may take while another one stands.
SEATS, MEMORY, MOST = 8, 8, 64
# So many connections are closed after one item of 1 MiB, and so many stay, with so many items each: more in all than a
# server may take.
CLOSING, STAYING, EACH = 8, 8, 16


class LinkChain(WayChain):
    """A chain with ways between its servers, of which the judge of clients has something happen at one."""

    def __init__(self, servers=3, event=None, **numbers):
        self.event, self.faults, self.begun = event, [], time.monotonic()
        super().__init__(servers, **numbers)

    def fail(self, server):
        if self.event:
            self.faults += self.event(self, server)
        else:
            super().fail(server)

    def judge_living(self):
        faults, self.faults = self.faults, []
        return faults + super().judge_living()

    def living_ways(self):
        """The ways between servers that live."""
        return [way for pair, way in self.ways.items() if not self.failed.intersection(pair)]

    def line_faults(self, is_meant=lambda server, line: False):
        """What is wrong with the lines of the servers that live: each link that was told to stand still has gone on,
        unless it led to a server that failed, and nothing else was told but what is meant."""
        end = time.monotonic() + LIMIT
        while self.unpaired() and time.monotonic() < end:
            time.sleep(0.05)
        most = 1000 * (time.monotonic() - self.begun)
        faults = self.unpaired()
        for i in living(self):
            links = [line(i, j) for line in (still_line, goes_line) for j in range(self.count) if j != i]
            lines = self.servers[i].told().splitlines()
            for line in lines:
                if not is_meant(i, line) and (line not in links or milliseconds(line) > most):
                    faults.append(f"server {i} tells {line!r}")
        return faults

    def unpaired(self):
        """The links that were told to stand still, and not to go on, in words."""
        faults = []
        for i in living(self):
            lines = self.servers[i].told().splitlines()
            for j in range(self.count):
                stands, goes = lines.count(still_line(i, j)), lines.count(goes_line(i, j))
                if stands != goes and j not in self.failed:
                    faults.append(f"server {i}: the link to server {j} stands still {stands} times, and goes on {goes}")
        return faults


class Meter(threading.Thread):
    """A client of one server that increments a counter of its own all the time. It knows the longest wait."""

    def __init__(self, chain, home):
        super().__init__(daemon=True)
        self.chain, self.home, self.over = chain, home, threading.Event()
        self.longest, self.count, self.fault = 0.0, 0, None
        self.start()

    def run(self):
        key = b"meter.%d" % self.home
        try:
            connection = Connection(self.chain.ports[self.home])
            connection.call(b"set %s 0 0 1\r\n0\r\n" % key)
            while not self.over.is_set():
                begun = time.monotonic()
                number = int(connection.call(b"incr %s 1\r\n" % key))
                self.longest = max(self.longest, time.monotonic() - begun)
                self.count += 1
                if number != self.count:
                    raise Wrong(f"increment {self.count} was answered {number}")
            connection.leave()
        except Closed as fault:
            if not self.chain.has_failed(self.home):
                self.fault = f"a meter at server {self.home}: {fault!r}"
        except (Wrong, ValueError) as fault:
            self.fault = f"a meter at server {self.home}: {fault!r}"

    def faults(self):
        """Ends it. What is wrong."""
        self.over.set()
        self.join(LIMIT)
        if self.is_alive():
            return [f"a meter at server {self.home} doesn't end"]
        return [self.fault] if self.fault else []


class Breaker(threading.Thread):
    """Breaks links of a chain by a plan until that is done, or it is over."""

    def __init__(self, chain, plan):
        super().__init__(daemon=True)
        self.chain, self.plan, self.over, self.faults = chain, plan, threading.Event(), []
        self.random = random.Random(SEED)
        self.start()

    def run(self):
        try:
            self.plan(self)
        except Exception as fault:  # noqa: BLE001 (told by the case)
            self.faults.append(f"breaking links: {fault!r}")
        for way in self.chain.ways.values():
            way.go_on()

    def pause(self, seconds):
        """Waits for so long, or until it is over. It tells whether it goes on."""
        return not self.over.wait(seconds)

    def reset(self, way, with_end=None):
        """Breaks a way's connections. If there were any, it waits for the next one."""
        before = way.opened
        with_end = self.random.random() < .5 if with_end is None else with_end
        if way.reset(with_end):
            way.wait_for(before + 1)
            return 1
        return 0


def under_load(chain, rounds, plan, fail=None):
    """Runs clients until the plan is done, and then once more. What is wrong, and the longest wait of an increment."""
    meters = [Meter(chain, home) for home in living(chain)]
    breaker, faults, phase = Breaker(chain, plan), [], 0
    try:
        is_last = False
        while not is_last and not faults:
            is_last = not breaker.is_alive()
            more, calls = run_clients(chain, max(1, rounds // 4), AT_EACH, phase, fail if phase == 0 else None)
            faults += more if calls else ["no calls"]
            phase += 1
    finally:
        breaker.over.set()
        breaker.join(LIMIT)
        faults += ["the breaking of links doesn't end"] if breaker.is_alive() else breaker.faults
        for meter in meters:
            faults += meter.faults()
    return faults, max(meter.longest for meter in meters)


def load_case(plan, servers=3, shows=False, fail=None, event=None, **meant):
    """A chain under clients whose links are broken so. It may print the longest wait."""
    def case(rounds):
        chain = LinkChain(servers, event)
        try:
            faults, longest = under_load(chain, rounds, plan, fail)
            if shows:
                print(f"        the longest wait: {longest:.1f} s", flush=True)
            return faults or chain.line_faults(**meant)
        finally:
            chain.end()
    return case


def reset_in_turn(breaker):
    """Each link is reset, one after another."""
    for _ in range(TURNS):
        for way in breaker.chain.ways.values():
            breaker.reset(way)
            if not breaker.pause(.02):
                return


def reset_together(breaker):
    """Several links are reset at once, now and then all of them."""
    ways = list(breaker.chain.ways.values())
    for number in range(TIMES // 4):
        chosen = ways if number % 5 == 0 else breaker.random.sample(ways, breaker.random.randrange(2, len(ways)))
        before = [(way, way.opened) for way in chosen]
        broken = [(way, count) for way, count in before if way.reset(breaker.random.random() < .5)]
        for way, count in broken:
            way.wait_for(count + 1)
        if not breaker.pause(breaker.random.uniform(0, .1)):
            return


def cut_in_frames(breaker):
    """Connections break after so many bytes as come, mostly in the middle of a frame; some in their greeting."""
    ways = list(breaker.chain.ways.values())
    for number in range(TIMES):
        way = ways[number % len(ways)]
        way.cut_after(breaker.random.choice((breaker.random.randrange(1, 40), breaker.random.randrange(1, 3000))))
        if number % 4 == 0:
            breaker.reset(way)
        if not breaker.pause(breaker.random.uniform(0, .05)):
            return
    # Links that carry little aren't cut by themselves.
    for way in ways:
        if way.is_cutting():
            way.reset()


def is_half_greeting(server, line):
    """Whether this is the line of a server on a connection that has ended in its greeting."""
    return line in [refusing_line(server, f"server {other}", 5) for other in range(16)]


def stall_in_turn(breaker):
    """Each link is held up for longer than a connection may take nothing: all of it, or the connection that stands."""
    for pair, way in breaker.chain.ways.items():
        way.stall()
        is_on = breaker.pause(1.5)
        way.go_on()
        before, held = way.opened, way.hold()
        if held and pair in CARRYING:
            way.wait_for(before + 1)
        way.go_on()
        if not is_on or not breaker.pause(.1):
            return


def delay_all(breaker):
    """Each piece takes a while."""
    for way in breaker.chain.ways.values():
        way.delay = breaker.random.uniform(.001, .03)
    breaker.pause(6)


def refuse_one(breaker):
    """No connection is taken for longer than that may go untold."""
    for pair in ((0, 1), (2, 1)):
        way = breaker.chain.ways[pair]
        way.refuses = True
        way.reset()
        is_on = breaker.pause(TOLD / 1000 + 1)
        way.refuses = False
        if not is_on or not breaker.pause(1):
            return


def refused_case(rounds):
    """A link to which there is no way for more than two seconds stands still, and goes on later. Both are told."""
    chain = LinkChain()
    try:
        faults, _longest = under_load(chain, rounds, refuse_one)
        for i, j in ((0, 1), (2, 1)):
            for line in (still_line(i, j), goes_line(i, j)):
                faults += untold(chain.servers[i], line)
        return faults or chain.line_faults()
    finally:
        chain.end()


def random_resets(breaker):
    """A link among those that live is reset, again and again, until a server has failed, and for a while after that."""
    left = TIMES
    while left:
        breaker.random.choice(breaker.chain.living_ways()).reset(breaker.random.random() < .5)
        left -= bool(breaker.chain.failed)
        if not breaker.pause(breaker.random.uniform(.005, .05)):
            return


def stopped(chain, server):
    """A server is stopped until its links stand still, and then called gone. It never wakes."""
    chain.failed.add(server)
    chain.servers[server].stop()
    time.sleep(TOLD / 1000 + .5)
    chain.tell(server)
    chain.servers[server].end()
    return []


def taken_over(breaker):
    """Somebody greets as a server does, with its id and its start, and says no more: the server takes its link back."""
    chain = breaker.chain
    for _ in range(TURNS):
        for (_i, j), way in chain.ways.items():
            before = way.opened
            connection, _count = taken(chain.peer_port + j, way.greeting)
            way.wait_for(before + 1)
            if rest(connection) is None:
                raise Wrong("a connection isn't ended when the server takes its link back")
            if not breaker.pause(.05):
                return


def quick_case(_rounds):
    """Links that heal quickly: nothing is told of them, unless the machine is too slow for that."""
    chain = LinkChain()
    try:
        faults, is_slow = [], False
        for way in chain.ways.values():
            begun = time.monotonic()
            way.reset()
            for port in chain.ports:
                faults += stored(port)
            is_slow |= 1000 * (time.monotonic() - begun) > SOON
        time.sleep(TOLD / 1000)
        if not is_slow:
            for i, server in enumerate(chain.servers):
                faults += differing(f"standard error of server {i}", server.told(), "")
        return faults + chain.judge_living()
    finally:
        chain.end()


def quiet_case(_rounds):
    """A link that was quiet for long isn't one that stands still, neither when something is put on it, nor when its
    connection breaks then and heals: none can have stood for longer than since that. What is put on it goes over the
    connection that stands."""
    chain = LinkChain()
    try:
        faults = stored(chain.ports[0])
        for breaks in (False, True):
            time.sleep(TOLD / 1000 + 1)
            told, begun = [server.told() for server in chain.servers], time.monotonic()
            before = {pair: way.opened for pair, way in chain.ways.items()}
            if breaks:
                for way in chain.ways.values():
                    way.reset()
            for port in chain.ports:
                faults += stored(port)
            time.sleep(.3)
            most = 1000 * (time.monotonic() - begun)
            if not breaks and most < SOON - 300:
                faults += [f"the link from server {i} to {j} has got a new connection" for (i, j), way in
                           chain.ways.items() if way.opened != before[i, j]]
            for i, server in enumerate(chain.servers):
                lines = server.told().removeprefix(told[i]).splitlines()
                faults += [f"server {i} tells {line!r} after {most:.0f} ms" for line in lines
                           if milliseconds(line) > most]
        return faults
    finally:
        chain.end()


def held_case(_rounds):
    """The connection of a quiet link takes bytes and hands on none, and then something is put on it, while nothing else
    happens: another connection is opened."""
    faults = []
    for pair, home in (((0, 1), 0), ((1, 2), 0), ((2, 1), 0), ((1, 0), 0), ((2, 0), 2)):
        chain = LinkChain()
        try:
            faults += stored(chain.ports[home])
            time.sleep(1)
            way = chain.ways[pair]
            before = way.opened
            if not way.hold():
                faults.append(f"no connection from server {pair[0]} to {pair[1]}")
            faults += [f"the link from server {pair[0]} to {pair[1]} is held: {fault}"
                       for fault in answered_in_time(chain, home)]
            if not faults and way.opened == before:
                faults.append(f"a set was answered though the link from server {pair[0]} to {pair[1]} was held")
        finally:
            chain.end()
        if faults:
            return faults
    return faults


def answered_in_time(chain, home):
    try:
        return stored(chain.ports[home], b"held")
    except Wrong as fault:
        return [str(fault)]


def many_case(count):
    """One link is reset many times in a row. The servers keep their threads and files."""
    def plan(breaker):
        way, done = breaker.chain.ways[0, 1], 0
        while done < count:
            done += breaker.reset(way)
            if not breaker.pause(breaker.random.uniform(0, .02)):
                return

    def case(rounds):
        chain = LinkChain()
        try:
            faults = stored(chain.ports[0])
            before = [figures(server) for server in chain.servers]
            more, longest = under_load(chain, rounds, plan)
            print(f"        {chain.ways[0, 1].opened - 1} resets; the longest wait: {longest:.1f} s", flush=True)
            faults += more
            for i, server in enumerate(chain.servers):
                end = time.monotonic() + LIMIT
                while not at_most(figures(server), before[i]) and time.monotonic() < end:
                    time.sleep(.05)
                if not at_most(now := figures(server), before[i]):
                    faults.append(f"server {i} has {now} threads and files, and had {before[i]}")
            return faults or chain.line_faults()
        finally:
            chain.end()
    return case


def figures(server):
    """How many threads and open files a server has."""
    return server.figure("Threads"), len(os.listdir(f"/proc/{server.id}/fd"))


def at_most(numbers, most):
    return all(it <= limit for it, limit in zip(numbers, most))


def memory_case(stands, loaded):
    """A server is stopped, and clients of another one store items of 1 MiB, over connections that stay and over ones
    that they close at once: what waits there for the stopped one is bounded. Once that is called gone all goes on."""
    def case(_rounds):
        chain = Chain(seats=SEATS, memory=MEMORY)
        try:
            chain.servers[stands].stop()
            chain.failed.add(stands)
            for number in range(CLOSING):
                connection = Connection(chain.ports[loaded])
                send_quietly(connection, setting(b"set", b"closed.%d" % number, b"x" * MEBIBYTE))
                connection.close()
            staying = [Connection(chain.ports[loaded]) for _ in range(STAYING)]
            for number, connection in enumerate(staying):
                request = setting(b"set", b"staying.%d" % number, b"x" * MEBIBYTE) * EACH
                threading.Thread(target=send_quietly, args=(connection, request), daemon=True).start()
            time.sleep(TOLD / 1000 + 1)
            held = most_memory(chain.servers[loaded].id)
            faults = [] if held <= MOST else [f"server {loaded} held {held:.1f} MiB, not {MOST} at most"]
            faults += untold(chain.servers[loaded], still_line(loaded, stands))
            waits = [int(line.split(" ms, ")[1].split()[0]) for line in chain.servers[loaded].told().splitlines()
                     if line == still_line(loaded, stands)]
            print(f"        server {loaded} held {held:.0f} MiB; {waits} bytes waited for server {stands}", flush=True)
            chain.tell(stands)
            for connection in staying:
                lines = {connection.line() for _ in range(EACH)}
                faults += [f"a set is answered {line!r}" for line in lines - {b"STORED", REFUSAL}]
            faults += stored(chain.ports[loaded], b"kept") if REFUSAL not in lines else []
            return faults + chain.judge_living()
        finally:
            chain.end()
    return case


def send_quietly(connection, request):
    try:
        connection.send(request)
    except (Closed, Wrong):
        pass
