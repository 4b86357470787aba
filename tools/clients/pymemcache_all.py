"""pymemcache over all servers of the chain, so that the failure of one is hardly seen.

usage: pymemcache_all.py HOST:PORT ..      does some calls, and again after each line of its input

With one address, as that of a proxy, it works too.
"""
import sys

from pymemcache.client.base import Client
from pymemcache.client.hash import HashClient
from pymemcache.client.retrying import RetryingClient
from pymemcache.exceptions import MemcacheUnexpectedCloseError
from rounds import rounds

# What a call raises whose server has failed, or is out of reach. An update may have acted all the same.
NO_REPLY = (OSError, MemcacheUnexpectedCloseError)
SETTINGS = {
    "default_noreply": False,  # else the error of an update comes up in the next call, or never
    "connect_timeout": 1,  # seconds
    "timeout": 7,  # seconds: longer than a failover, in which updates wait at each server
    "retry_attempts": 0,  # a server that fails is left out at once
    "dead_timeout": 60,  # seconds until it is tried again
    "ignore_exc": False,  # else a failure looks like a miss
    "use_pooling": True,  # if threads share the client
}
OF_ONE = {"retry_attempts": 1_000_000, "retry_timeout": -1}  # the only address is never left out


class FlushingClient(Client):
    def flush_all(self, delay=0, noreply=None):
        """Without the delay that pymemcache sends with each."""
        return self._misc_cmd([b"flush_all\r\n"], b"flush_all", False) == [b"OK"]


class ChainClient(HashClient):
    client_class = FlushingClient

    def flush_all(self):
        """At one server, which flushes all."""
        client = self._get_client("any")
        return self._safely_run_func(client, client.flush_all, False)


def connected(servers, **more):
    """The same client twice: `once` tells of each failure, and `again` makes the call again, at another server."""
    once = ChainClient(servers, **{**SETTINGS, **(OF_ONE if len(servers) == 1 else {}), **more})
    # A call can fail twice at each server: as the connection ends, and as the next one is refused.
    again = RetryingClient(once, attempts=2 * len(servers) + 1, retry_delay=0.05, retry_for=NO_REPLY)
    return once, again


if __name__ == "__main__":
    once, again = connected(sys.argv[1:])

    def calls():
        keys = [f"k{i}" for i in range(12)]  # each server has some of them
        assert again.delete_many([*keys, "n"])
        for key in keys:
            assert again.set(key, key.encode()) and again.get(key) == key.encode()
        assert again.get_many(keys) == {key: key.encode() for key in keys}
        value, unique = again.gets("k0")
        assert once.cas("k0", value + b"0", unique) and not once.cas("k0", b"", unique)
        assert once.add("n", b"5") and once.incr("n", 2) == 7
        assert again.flush_all() and again.get_many(keys) == {}

    rounds(calls)
