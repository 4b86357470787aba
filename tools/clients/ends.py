"""Items that end, in a cache whose items don't expire: for sessions.

An item's flags are its end, in seconds since 1970, or 0 if it has none. Who reads takes an item that has ended for a
miss. So that it doesn't take memory for ever, its key is noted in an item of the hour in which it ends, before it is
stored; `sweep` deletes what ended in hours that are over. `incr` and `append` leave an item's end as it is.

usage: ends.py HOST:PORT ..      sweeps; to be called once an hour, by cron or a timer, on any machine
"""
import sys
import time
import zlib

from pymemcache_all import connected

HOUR = 3600
SLACK = 600  # seconds by which the machines' clocks may differ, and a call may take
PARTS = 16  # items that an hour's keys are spread over: each has room for 1 MiB of keys
SWEPT = "ends:swept"  # the last hour that was swept


class WithFlags:
    """Has pymemcache show an item as its data and its flags."""

    def serialize(self, _key, data):
        return data, 0

    def deserialize(self, _key, data, flags):
        return data, flags


class Ends:
    """The chain's items, each with its end, or 0. Data is bytes."""

    def __init__(self, servers, clock=time.time):
        self.once, self.again = connected(servers, serde=WithFlags())
        self.clock = clock

    def get(self, key):
        """The data of an item that hasn't ended, or None."""
        data, end = self.again.get(key) or (None, 0)
        return data if self.lives(end) else None

    def set(self, key, data, end=0):
        _, before = self.again.get(key) or (None, 0)
        self.note(key, end, before)
        self.again.set(key, data, flags=end)

    def add(self, key, data, end=0):
        """Stores the item if there is none that hasn't ended, and tells whether it did."""
        found, unique = self.again.gets(key)
        _, before = found or (None, 0)
        if found and self.lives(before):
            return False
        self.note(key, end, before)
        if found:
            return self.once.cas(key, data, unique, flags=end)
        return self.once.add(key, data, flags=end)

    def touch(self, key, end):
        """Gives an item that hasn't ended another end. It tells whether there is one."""
        while True:
            found, unique = self.again.gets(key)
            data, before = found or (None, 0)
            if not found or not self.lives(before):
                return False
            self.note(key, end, before)
            if self.again.cas(key, data, unique, flags=end):
                return True

    def lives(self, end):
        return not end or end > self.clock()

    def note(self, key, end, before):
        """Notes a key under the hour of its end, unless it stands there."""
        if not end or end // HOUR == before // HOUR:
            return
        noted, line = index(end // HOUR, zlib.crc32(key.encode()) % PARTS), key.encode() + b"\n"
        while not self.again.append(noted, line):  # there is no such item yet
            self.again.add(SWEPT, b"%d" % (self.clock() // HOUR - 1))
            self.again.add(noted, b"")

    def sweep(self):
        """Deletes what ended in the hours that are over, and tells how many items."""
        swept, count = self.again.get(SWEPT), 0
        last = int(self.clock() - SLACK) // HOUR - 1
        for hour in range(int(swept[0]) + 1, last + 1) if swept else ():
            for part in range(PARTS):
                keys, _ = self.again.get(index(hour, part)) or (b"", 0)
                for key in {it.decode() for it in keys.splitlines()}:
                    _, end = self.again.get(key) or (None, 0)
                    if end and end // HOUR <= hour:
                        count += self.again.delete(key)
                self.again.delete(index(hour, part))
            self.again.set(SWEPT, b"%d" % hour)
        return count


def index(hour, part):
    return f"ends:{hour}:{part}"


if __name__ == "__main__":
    print(Ends(sys.argv[1:]).sweep(), "items have ended and are deleted")
