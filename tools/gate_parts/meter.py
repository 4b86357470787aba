"""What each check costs: processor seconds, seconds on the clock, and the most memory of one process."""
import collections
import contextlib
import os
import subprocess
import threading

KINDS = ("proof", "tests", "seed", "edits")


class Meter:
    """Sums, for each crate and kind of work, what its commands cost."""

    def __init__(self):
        self.lock = threading.Lock()
        self.used, self.wall, self.peak = collections.Counter(), collections.Counter(), collections.Counter()
        self.jobs, self.here = {}, threading.local()

    @contextlib.contextmanager
    def counting(self, kind):
        """What this thread starts meanwhile is counted as work of this kind."""
        self.here.kind = kind
        try:
            yield
        finally:
            self.here.kind = None

    def kind_of(self, words, named):
        """The kind of work that a command of the prover is."""
        told = getattr(self.here, "kind", None)
        return told or ("edits" if "rt-edit-" in str(named.get("cwd")) else "tests" if "--test" in words else "proof")

    def add(self, key, spent):
        with self.lock:
            self.used[key] += spent.ru_utime + spent.ru_stime
            self.peak[key] = max(self.peak[key], 1024 * spent.ru_maxrss)

    def crates(self):
        return sorted({crate for crate, _ in [*self.used, *self.wall]})

    def memory(self, crate):
        """The most bytes that one process of this crate held."""
        return max(self.peak[crate, kind] for kind in KINDS)


METER = Meter()


class Metered(subprocess.Popen):
    """A command whose cost is told to METER: in place of `subprocess.Popen`. If this Python has no `_try_wait`, nothing
    is measured, and all else stands."""

    def __init__(self, words, *more, **named):
        self.of = None
        if isinstance(words, list) and "--crate-name" in words:
            self.of = words[words.index("--crate-name") + 1], METER.kind_of(words, named)
        super().__init__(words, *more, **named)

    def _try_wait(self, flags):
        try:
            pid, status, spent = os.wait4(self.pid, flags)
        except ChildProcessError:
            return self.pid, 0
        if pid == self.pid and self.of:
            METER.add(self.of, spent)
        return pid, status
