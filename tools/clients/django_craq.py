"""A cache of Django on a chain, also for its sessions: items end by the flags, as ends.py has it.

Django's own backends send the time at which an item is to expire, and craq refuses that. They also let a failure of a
server come through, and then Django takes a session for a new one: here each call is made again at another server.
"""
import pickle

from django.core.cache.backends.base import DEFAULT_TIMEOUT, BaseCache
from ends import Ends


class CraqCache(BaseCache):
    def __init__(self, servers, params):
        super().__init__(params)
        self.ends = Ends([servers] if isinstance(servers, str) else servers)

    def end(self, timeout):
        """When an item ends that is given so many seconds: 0 if it doesn't, None if it isn't to be stored at all."""
        seconds = self.default_timeout if timeout is DEFAULT_TIMEOUT else timeout
        if seconds is None:
            return 0
        return int(self.ends.clock() + seconds) if seconds > 0 else None

    def name(self, key, version):
        key = self.make_key(key, version=version)
        self.validate_key(key)
        return key

    def get(self, key, default=None, version=None):
        data = self.ends.get(self.name(key, version))
        return default if data is None else loaded(data)

    def set(self, key, value, timeout=DEFAULT_TIMEOUT, version=None):
        name, end = self.name(key, version), self.end(timeout)
        if end is None:
            self.ends.again.delete(name)
        else:
            self.ends.set(name, dumped(value), end)

    def add(self, key, value, timeout=DEFAULT_TIMEOUT, version=None):
        name, end = self.name(key, version), self.end(timeout)
        return self.ends.get(name) is None if end is None else self.ends.add(name, dumped(value), end)

    def touch(self, key, timeout=DEFAULT_TIMEOUT, version=None):
        name, end = self.name(key, version), self.end(timeout)
        return self.ends.again.delete(name) if end is None else self.ends.touch(name, end)

    def delete(self, key, version=None):
        return self.ends.again.delete(self.name(key, version))

    def incr(self, key, delta=1, version=None):
        name = self.name(key, version)
        call = self.ends.once.incr if delta >= 0 else self.ends.once.decr
        number = call(name, abs(delta)) if self.ends.get(name) is not None else None
        if number is None:
            raise ValueError(f"Key '{key}' not found")
        return number

    def clear(self):
        self.ends.again.flush_all()


def dumped(value):
    """A number as digits, so that it can be counted in; anything else pickled, which begins with byte 128."""
    return b"%d" % value if type(value) is int and value >= 0 else pickle.dumps(value)


def loaded(data):
    return int(data) if data.isdigit() else pickle.loads(data)
