"""Cases of tools/test_clients on what is refused: each call of docs/CLIENTS.md's table is made, and what goes over the
connection is compared with its row."""
import socket
import subprocess

from chain_clients import LIMIT
from client_chains import PYTHON, Served, address, counted, differing_text, nutcracker
from client_page import rows
from client_ways import Way
from failover_cases import Watched

SHOWN = "try: print(repr({}))\nexcept Exception as error: print('raises', repr(error))"
PHP_SHOWN = ("try {{ $given = {0}; echo json_encode($given), isset($client) && $client instanceof Memcached ? "
             "' ' . $client->getResultMessage() : ''; }} catch (Error $error) {{ echo $error; }}")


def python_call(setup, call):
    return [PYTHON, "-B", "-c", f"import sys\nserver = sys.argv[1]\n{setup}\n{SHOWN.format(call)}"]


def php_call(setup, call):
    split = "[$host, $port] = explode(':', $argv[1]); error_reporting(0);"
    return ["php", "-r", f"{split} {setup} {PHP_SHOWN.format(call)}", "--"]


def perl_call(setup, call):
    return ["perl", "-e", f"{setup} my $given = {call}; print defined $given ? $given : 'undef';"]


def shell_call(_setup, call):
    return ["sh", "-c", f"cd /; server=$1; {call} >/dev/null 2>&1; echo status $?", "sh"]


def ruby_call(setup, call):
    shown = f"begin\nputs ({call}).inspect\nrescue => error\nputs 'raises ' + error.message\nend"
    return ["ruby", "-e", f"{setup}\n{shown}"]


# Of each client: how a call of it is run, with what stands before the call.
CALLERS = {
    "pymemcache": (python_call, "from pymemcache.client.base import Client\n"
                                "client = Client(server, default_noreply=False)"),
    "pylibmc": (python_call, "import pylibmc\nclient = pylibmc.Client([server])"),
    "python3-memcache": (python_call, "import memcache\nclient = memcache.Client([server])"),
    "dogpile.cache": (python_call, "from dogpile.cache import make_region\nregion = make_region().configure("
                                   "'dogpile.cache.pymemcache', arguments={'url': [server], 'distributed_lock': True, "
                                   "'lock_timeout': 30})"),
    "Django": (python_call, "from django.conf import settings\nimport django\nsettings.configure(CACHES={'default': {"
                            "'BACKEND': 'django.core.cache.backends.memcached.PyMemcacheCache', 'LOCATION': server}})\n"
                            "django.setup()\nfrom django.core.cache import cache"),
    "PHP Memcached": (php_call, "$client = new Memcached(); $client->addServer($host, (int) $port);"),
    "PHP Memcache": (php_call, "$client = new Memcache(); $client->addServer($host, (int) $port);"),
    "PHP sessions": (php_call, "ini_set('session.save_handler', 'memcached'); ini_set('session.save_path', $argv[1]); "
                               "ini_set('memcached.sess_binary_protocol', 0); ini_set('memcached.sess_locking', 0);"),
    "Cache::Memcached::Fast": (perl_call, "use Cache::Memcached::Fast; my $client = Cache::Memcached::Fast->new("
                                          "{ servers => [$ARGV[0]] });"),
    "Cache::Memcached": (perl_call, "use Cache::Memcached; my $client = Cache::Memcached->new("
                                    "{ servers => [$ARGV[0]] });"),
    "libmemcached-tools": (shell_call, ""),
    "Dalli": (ruby_call, "require 'dalli'; Dalli.logger.level = Logger::FATAL\n"
                         "client = Dalli::Client.new(ARGV[0], socket_timeout: 1)"),
}


def refusals_case(client):
    """Makes each call of the page's rows of this client."""
    def case(room):
        served, faults, count = Served(room), [], 0
        try:
            for row in rows(client):
                count += 1
                faults += differing_row(row, served.chain.ports[0])
            return faults or ([] if count else ["the page has no row of it"]), counted(count, "refusal")
        finally:
            served.end()

    return case


def differing_row(row, port):
    run, setup = CALLERS[row.client]
    way = Way(port)
    try:
        how = {"capture_output": True, "text": True, "timeout": LIMIT, "stdin": subprocess.DEVNULL}
        ran = subprocess.run([*run(setup, row.call), address(way.port)], **how)
        gives = " ".join(ran.stdout.split()) or f"nothing; {ran.stderr[-300:]}"
    finally:
        way.end()
    return differing_from(row, way.sent, way.answered, gives)


def differing_from(row, sent, answered, gives):
    """How a row differs from what was seen: one piece of what was sent, and one of the answers, are as it has them."""
    faults = []
    for what, wanted, pieces in (("sends", row.sends, sent), ("is answered", row.answers, answered)):
        seen = [written(it) for it in pieces] or ["nothing"]
        if all(differing_text(what, it, wanted) for it in seen):
            faults.append(f"{row.call} {what} {[it[:200] for it in seen[:4]]}, not {wanted!r}")
    return faults + differing_text(f"{row.call} gives", gives, row.gives)


def written(piece):
    """As the page writes bytes."""
    return repr(piece)[2:-1]


def twemproxy_rows_case(room):
    """What twemproxy sends for a get of two keys."""
    chain, ways, proxy = Watched(), [], None
    try:
        ways = [Way(it) for it in chain.ports]
        proxy = nutcracker(room, [it.port for it in ways])
        faults = []
        for row in rows("twemproxy"):
            with socket.create_connection(("127.0.0.1", proxy.port), timeout=LIMIT) as client:
                client.sendall(row.call.encode() + b"\r\n")
                gives = written(client.recv(4096))
            sent = [it for way in ways for it in way.sent]
            answered = [it for way in ways for it in way.answered]
            faults += differing_from(row, sent, answered, gives)
        return faults, ""
    finally:
        if proxy:
            proxy.end()
        for it in ways:
            it.end()
        chain.end()
