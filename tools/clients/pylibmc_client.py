"""pylibmc, and so libmemcached, by a proxy in front of the chain; or over all its servers.

usage: pylibmc_client.py HOST:PORT ..      does some calls, and again after each line of its input
"""
import sys

import pylibmc
from rounds import rounds

BEHAVIORS = {
    "cas": True,
    "tcp_nodelay": True,
    "connect_timeout": 1000,  # milliseconds
    "receive_timeout": 7_000_000,  # microseconds: longer than a failover, in which updates wait
    "send_timeout": 7_000_000,
}
OF_SEVERAL = {
    "ketama": True,
    "remove_failed": 1,  # a server that fails is left out
    "failure_limit": 1,
    "retry_timeout": 1,
    "dead_timeout": 60,  # seconds until it is tried again; without this each call of its keys would fail from then on
}


def connected(servers):
    return pylibmc.Client(servers, binary=False, behaviors={**BEHAVIORS, **(OF_SEVERAL if servers[1:] else {})})


def calls(client):
    keys = [f"k{i}" for i in range(12)]  # of several servers each has some
    client.delete_multi([*keys, "n"])
    assert client.set_multi({key: key for key in keys}) == []
    assert client.get_multi(keys) == {key: key for key in keys}
    value, unique = client.gets("k0")
    assert client.cas("k0", value + "0", unique) and client.get("k0") == "k00"
    assert client.add("n", 5) and not client.add("n", 6) and client.incr("n", 2) == 7
    assert client.delete("k1") and client.get("k1") is None


if __name__ == "__main__":
    client = connected(sys.argv[1:])
    rounds(lambda: calls(client))
