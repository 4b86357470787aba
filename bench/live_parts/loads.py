"""The two C programs, and one run of the load generator."""
import json
import os
import subprocess
import sys
from collections import namedtuple

PARTS = os.path.dirname(os.path.abspath(__file__))
PATIENCE = 180  # seconds for one run; and more for one of a number of calls, by what a busy machine does a second at least
SLOWEST = 2_000

# Calls a second, latencies, and the processor time a call with that part of it that the system took, in microseconds.
Load = namedtuple("Load", "rate p50 p99 p999 longest processor system")


class Failed(Exception):
    """A reply was wrong, missing or late."""


def compiled(name, folder):
    program = os.path.join(folder, name)
    done = subprocess.run(["cc", "-O2", "-pthread", "-o", program, os.path.join(PARTS, f"{name}.c"), "-lm"])
    if done.returncode != 0:
        sys.exit(f"{name}.c isn't compiled")
    return program


class Generator:
    """The load generator, and how many replies it has checked."""

    def __init__(self, folder):
        self.program, self.runs, self.replies, self.seed = compiled("load", folder), 0, 0, 0

    def run(self, peer, size, *words, calls=0, under=()):
        """One run against this peer, of this many calls or as the words say; `under` is a command that starts it. Keys
        of different sizes have different prefixes, so that both can be there."""
        self.seed += 1
        own = ["--size", size, "--prefix", f"{size:04}", "--seed", self.seed, "--count", calls]
        words = [*under, self.program, *peer.words(size), *map(str, [*own, *words])]
        try:
            done = subprocess.run(words, stdout=subprocess.PIPE, text=True, timeout=PATIENCE + calls / SLOWEST)
        except subprocess.TimeoutExpired:
            raise Failed(f"{peer.name}: not ended: {' '.join(words)}") from None
        if not done.stdout:
            raise Failed(f"{peer.name}: ended by {done.returncode}: {' '.join(words)}")
        told = json.loads(done.stdout)
        if told["errors"]:
            raise Failed(f"{peer.name}: {told['errors']} wrong, first: {told['first_error']}: {' '.join(words)}")
        count = told["gets"] + told["sets"]
        self.runs += 1
        self.replies += count
        used = [told[field] / count * 1e6 if count else 0.0 for field in ("processor", "system")]
        return Load(count / told["seconds"], *(told[field] for field in ("p50", "p99", "p999", "longest")), *used)

    def fill(self, peer, size, keys):
        return self.run(peer, size, "--fill", "--keys", keys, calls=keys)
