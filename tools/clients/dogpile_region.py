"""dogpile.cache over all servers of the chain, by pymemcache; or by a proxy in front of them. It keeps the time of an
item in its value, so its own expiry works.

usage: dogpile_region.py HOST:PORT ..      does some calls, and again after each line of its input
"""
import sys
import time

from dogpile.cache import make_region
from dogpile.cache.api import NO_VALUE
from pymemcache.exceptions import MemcacheUnexpectedCloseError
from rounds import rounds

servers = sys.argv[1:]
ARGUMENTS = {
    "url": servers,
    "hashclient_retry_attempts": 0,  # a server that fails is left out at once
    "hashclient_dead_timeout": 60,  # seconds until it is tried again
    # What is cached may be stored twice, so each call is made again at another server.
    "enable_retry_client": True,
    "retry_attempts": 2 * len(servers) + 1,
    "retry_delay": 0.05,
    "retry_for": (OSError, MemcacheUnexpectedCloseError),
}
OF_ONE = {"hashclient_retry_attempts": 1_000_000, "hashclient_retry_timeout": -1}  # the only address isn't left out
region = make_region().configure(
    "dogpile.cache.pymemcache",
    expiration_time=3600,  # seconds, by dogpile's own clock; give no memcached_expire_time
    arguments={**ARGUMENTS, **(OF_ONE if len(servers) == 1 else {})},
)


def calls():
    for i in range(12):  # each server has some of the keys
        region.set(f"k{i}", {"number": i})
        assert region.get(f"k{i}") == {"number": i}
    assert region.get_multi(["k0", "k1"]) == [{"number": 0}, {"number": 1}]
    region.delete("k0")
    assert region.get("k0") is NO_VALUE
    region.set("short", "1")
    time.sleep(0.02)
    assert region.get("short", expiration_time=0.01) is NO_VALUE
    assert region.get_or_create("made", lambda: "by this call") == "by this call"


rounds(calls)
