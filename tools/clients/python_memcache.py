"""python3-memcache: what it sends to store is refused, and from then on it takes each reply for that of the next call.

usage: python_memcache.py HOST:PORT     a server at which alice and bob are stored
"""
import sys

import memcache

client = memcache.Client(sys.argv[1:])
print("set:", client.set("carol", "her data"))
print("get alice:", client.get("alice"))
print("get bob:", client.get("bob"))
