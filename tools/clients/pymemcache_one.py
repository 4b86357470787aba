"""pymemcache with one address: a proxy in front of all servers of the chain, or one of them.

usage: pymemcache_one.py HOST:PORT      does some calls, and again after each line of its input
"""
import sys

from pymemcache.client.base import PooledClient
from pymemcache.client.retrying import RetryingClient
from pymemcache.exceptions import MemcacheUnexpectedCloseError
from rounds import rounds

# What a call raises that got no reply. An update may have acted all the same.
NO_REPLY = (OSError, MemcacheUnexpectedCloseError)
SETTINGS = {
    "default_noreply": False,  # else the error of an update comes up in the next call, or never
    "connect_timeout": 1,  # seconds
    "timeout": 7,  # seconds: longer than a failover, in which updates wait
}


def connected(server, **more):
    """The same client twice: `once` tells of each failure, and `again` makes the call again."""
    once = PooledClient(server, **{**SETTINGS, **more})
    again = RetryingClient(once, attempts=3, retry_delay=0.1, retry_for=NO_REPLY)
    return once, again


if __name__ == "__main__":
    once, again = connected(sys.argv[1])

    def calls():
        again.delete_many(["a", "b", "n"])
        assert again.set("a", b"1") and again.get("a") == b"1"
        assert once.add("b", b"2") and not once.add("b", b"3") and again.replace("b", b"3")
        assert once.append("b", b"4") and once.prepend("b", b"2") and again.get("b") == b"234"
        value, unique = again.gets("a")
        assert once.cas("a", value + b"0", unique) and not once.cas("a", b"", unique)
        assert again.get_many(["a", "b", "c"]) == {"a": b"10", "b": b"234"}
        assert again.set("n", b"5") and once.incr("n", 2) == 7 and once.decr("n", 9) == 0
        assert again.delete("a") and again.get("a") is None

    rounds(calls)
