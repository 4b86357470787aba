"""Cases of tools/test_clients on what docs/CLIENTS.md warns of: calls that a client makes twice, errors that come late
or never, gets that give fewer keys, and calls that fail for ever."""
import subprocess
import time

from chain_clients import LIMIT, Connection, Wrong
from client_chains import CLIENTS, MIDDLE, PYTHON, Served, address, again, started
from client_ways import Loss, Way
from server_checks import differing

ROUNDS = 20  # that all have to fail


def lost_case(words, numbers):
    """A program that raises a counter of 0 three times, over ways of which one loses the first reply, writes this and
    leaves it at this: as documented."""
    def case(room):
        served, ways = Served(room), []
        try:
            first = Connection(served.chain.ports[0])
            first.call(b"set n 0 0 1\r\n0\r\n")
            loss = Loss(b"incr n")
            ways = [Way(it, loss) for it in served.chain.ports]
            listed = [address(it.port) for it in ways]
            ran = subprocess.run([*words, *listed], capture_output=True, text=True, timeout=LIMIT)
            seen = [*ran.stdout.split(), int(first.gets(b"n")[0])]
            faults = ["no reply was lost"] if loss.request else []
            return faults + differing("the numbers, and the counter", seen, numbers), ""
        finally:
            for it in ways:
                it.end()
            served.end()

    return case


# Programs that raise the counter three times, and print what each call gives; of these only PHP's Memcache makes a call
# again by itself.
PYTHON_COUNTS = f"""
import sys
sys.path.insert(0, {str(CLIENTS)!r})
import %s as clients
client = %s
for _ in range(3):
    try:
        print(client.incr("n", 1))
    except Exception as error:
        print(type(error).__name__)
"""
PHP_COUNTS = """
$client = new Memcached();
foreach (array_slice($argv, 1) as $it) { [$host, $port] = explode(':', $it); $client->addServer($host, (int) $port); }
for ($i = 0; $i < 3; $i++) { echo json_encode($client->increment('n', 1)), "\n"; }
"""
OLD_PHP_COUNTS = """
ini_set('memcache.allow_failover', '%s');
$client = new Memcache();
foreach (array_slice($argv, 1) as $it) { [$host, $port] = explode(':', $it); $client->addServer($host, (int) $port); }
error_reporting(0);
for ($i = 0; $i < 3; $i++) { echo json_encode($client->increment('n', 1)), "\n"; }
"""
PERL_COUNTS = """
use Cache::Memcached::Fast;
my $client = Cache::Memcached::Fast->new({ servers => [@ARGV] });
print $client->incr('n', 1) // 'undef', "\n" for 1..3;
"""

# pymemcache without the page's settings: what a call gives, or the name of what it raises.
DEFAULTS = """
import sys
from pymemcache.client.base import Client
from pymemcache.client.hash import HashClient

def kind(call):
    try:
        return repr(call())
    except Exception as error:
        return type(error).__name__

keys = [f"k{i}" for i in range(60)]
# so that slowness is no failure: 1 second, if it isn't given
usual = HashClient(sys.argv[1:], default_noreply=False, retry_timeout=600)
silent = HashClient(sys.argv[1:], default_noreply=False, retry_timeout=600, ignore_exc=True)
for client in (usual, silent):
    for key in keys:
        client.set(key, b"1")
one = Client(sys.argv[1])
print("noreply:", one.set("a", b"1", expire=60), kind(lambda: one.get("b")), kind(lambda: one.get("b")), flush=True)
input()
sets, gets = [sorted({kind(lambda: call(key)) for key in keys}) for call in (lambda it: usual.set(it, b"2"), usual.get)]
print("sets:", *(it for it in sets if "Error" not in it), "gets:", *gets, flush=True)
print("ignore_exc:", *sorted({kind(lambda: silent.get(key)) for key in keys}), flush=True)
"""


def defaults_case(room):
    """The error of a set with noreply comes up in the next call; and after a kill sets give False, and gets None."""
    served, client = Served(room), None
    try:
        client = started([PYTHON, "-B", "-c", DEFAULTS, *served.addresses])
        faults = differing("with noreply", client.line(), "noreply: True MemcacheClientError None\n")
        served.fail(MIDDLE)
        faults += differing("after a kill", again(client), "sets: False True gets: None b'2'\n")
        return faults + differing("after a kill", client.line(), "ignore_exc: None b'2'\n"), ""
    except Wrong as fault:
        return [str(fault), client.told()[-500:] if client else ""], ""
    finally:
        if client:
            client.end()
        served.end()


# libmemcached over several servers: stores 60 keys, and after a line of its input gets all of them at once, eight
# times: how many it gets each time.
PYLIBMC_GETS = f"""
import sys
sys.path.insert(0, {str(CLIENTS)!r})
from pylibmc_client import connected
client, keys = connected(sys.argv[1:]), [f"k{{i}}" for i in range(60)]
client.set_multi({{key: key for key in keys}})
print("stored", flush=True)
input()
print(*[len(client.get_multi(keys)) for _ in range(8)], flush=True)
"""
PHP_GETS = """
$client = new Memcached();
$client->setOptions([Memcached::OPT_LIBKETAMA_COMPATIBLE => true, Memcached::OPT_REMOVE_FAILED_SERVERS => true,
    Memcached::OPT_SERVER_FAILURE_LIMIT => 1, Memcached::OPT_RETRY_TIMEOUT => 1, Memcached::OPT_DEAD_TIMEOUT => 60]);
foreach (array_slice($argv, 1) as $it) { [$host, $port] = explode(':', $it); $client->addServer($host, (int) $port); }
$keys = array_map(fn ($i) => "k$i", range(0, 59));
$client->setMulti(array_combine($keys, $keys));
echo "stored\n";
fgets(STDIN);
for ($i = 0; $i < 8; $i++) { echo count($client->getMulti($keys)), ' '; }
echo $client->getResultMessage(), "\n";
"""
# The program of pylibmc without its dead_timeout.
PYLIBMC_FOR_EVER = f"""
import sys
sys.path.insert(0, {str(CLIENTS)!r})
import pylibmc_client
del pylibmc_client.OF_SEVERAL["dead_timeout"]
client = pylibmc_client.connected(sys.argv[1:])
pylibmc_client.rounds(lambda: pylibmc_client.calls(client))
"""


def fewer_case(words):
    """After a kill a get of many keys gives fewer of them, without an error, and then all."""
    def case(room):
        served, client = Served(room), None
        try:
            client = started([*words, *served.addresses])
            faults = differing("at first", client.line(), "stored\n")
            served.fail(MIDDLE)
            seen = [int(it) for it in again(client).split() if it.isdigit()]
            if not seen or seen[0] >= 60 or seen[-1] != 60:
                faults.append(f"gets of 60 keys after a kill give {seen}: {client.told()[-300:]}")
            return faults, f"gets of 60 keys after a kill give {seen[:3]}"
        finally:
            if client:
                client.end()
            served.end()

    return case


def for_ever_case(room):
    """Without a dead_timeout calls of a failed server's keys work until it's tried again; from then on none does."""
    served, client = Served(room), None
    try:
        client = started([PYTHON, "-B", "-c", PYLIBMC_FOR_EVER, *served.addresses])
        faults = differing("at first", client.line(), "works\n")
        served.fail(MIDDLE)
        for wanted in (True, False):
            end = time.monotonic() + LIMIT
            while (again(client) == "works\n") != wanted and time.monotonic() < end:
                time.sleep(0.05)
        seen = {again(client).partition("(")[0] for _ in range(ROUNDS)}
        return faults + differing("rounds after that", seen, {"failed: ServerDead"}), ""
    finally:
        if client:
            client.end()
        served.end()
