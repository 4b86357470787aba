"""Work on several crates side by side: each piece is a process of its own (worker.py), with a limit on its time. What
it prints goes to a log in the crate's out/, and what matters of it to standard output."""
import os
import signal
import subprocess
import sys
import time
from dataclasses import dataclass

import outputs
import tree

import kit
from lanes import FILE, Plan, in_lanes, read_costs

HERE = os.path.dirname(os.path.realpath(__file__))
# A first proof may take this many times the limit.
FIRST = 4
# What a piece of work is called that went well or didn't.
WELL = {"proof": "proved", "tests": "tests passed", "edits": "edits refused"}
ILL = {"proof": "NOT PROVED", "tests": "tests FAILED", "edits": "edits FAILED"}


@dataclass
class Done:
    """How a piece of work ended."""

    is_well: bool
    why: str = ""  # it did not run, or did not end
    said: str = ""
    log: str = ""
    wall: float = 0
    used: float = 0  # processor seconds
    memory: int = 0  # bytes of the largest process


def in_a_process(crate, kind, jobs, limit, more=()):
    """Runs one piece of work in a process of its own, for at most that many seconds."""
    log = f"{crate.folder}/out/dev_{kind}.log"
    os.makedirs(os.path.dirname(log), exist_ok=True)
    ours, theirs = os.pipe()
    words = [sys.executable, f"{HERE}/worker.py", kind, crate.name, str(jobs), *more]
    began = time.monotonic()
    with open(log, "w", encoding="utf-8") as out:
        how = {"stdin": ours, "stdout": out, "stderr": subprocess.STDOUT, "cwd": crate.folder}
        started = subprocess.Popen(words, **how)
    # the worker ends, with all that it started, once the other end closes, however this program ends
    os.close(ours)
    try:
        status, spent = waited(started, began + limit)
    finally:
        os.close(theirs)
    done = Done(status == 0, said=tree.read(log), log=os.path.relpath(log, tree.TOP), wall=time.monotonic() - began)
    done.used, done.memory = spent.ru_utime + spent.ru_stime, 1024 * spent.ru_maxrss
    if status is None:
        done.why = f"stopped, since it took longer than {limit / 60:.0f} minutes (--limit)"
    return done


def waited(started, until):
    """The status of a process, None if it had to be killed at that time, and what it used."""
    pause = 0.01
    while time.monotonic() < until:
        pid, status, spent = os.wait4(started.pid, os.WNOHANG)
        if pid:
            started.returncode = os.waitstatus_to_exitcode(status)
            return started.returncode, spent
        time.sleep(pause)
        pause = min(2 * pause, 0.2)
    started.kill()
    _, _, spent = os.wait4(started.pid, 0)
    started.returncode = -signal.SIGKILL
    return None, spent


class Work:
    """Pieces of work on crates, each of which waits for others: proofs for those of the crates below, and so on."""

    def __init__(self, limit):
        self.limit, self.tasks, self.pieces = limit, {}, []

    def add(self, crate, kind, more=(), after=()):
        """`after`: kinds of work on the same crate that come first."""
        waits = [(it.name, "proof") for it in crate.below()] + [(crate.name, it) for it in after]
        self.pieces.append((crate, kind, waits, more))

    def run(self):
        """Runs all, prints how each ended, and returns what each gave."""
        keys = [(crate.name, kind) for crate, kind, *_ in self.pieces]
        for crate, kind, waits, more in self.pieces:
            waits = [it for it in waits if it in keys]
            call = self.call(crate, kind, waits, more)
            self.tasks[crate.name, kind] = waits, crate.count(rb"\n"), kit.rt.need(crate), call
        held = kit.rtlib.lock({it for crate, *_ in self.pieces for it in [crate, *crate.below()]})
        number = os.environ.get("RT_JOBS", "")
        lanes = int(number) if number.isdigit() and int(number) else kit.rt.processors()
        try:
            return in_lanes(Plan(self.tasks, read_costs(FILE), lanes, 0.85 * kit.rt.free()), told)
        finally:
            for it in held:
                os.close(it)

    def call(self, crate, kind, waits, more):
        def run(given, jobs):
            lacking = [it for it in waits if not given[it].is_well]
            if lacking:
                return Done(False, why=f"since {lacking[0][0]}: {ILL[lacking[0][1]]}")
            return in_a_process(crate, kind, jobs, self.limit * (FIRST if is_first(crate, kind) else 1), more)

        return run


def is_first(crate, kind):
    """Whether no earlier proof of the crate, or of its tests, has kept its work."""
    if kind == "tests":
        return not os.path.isfile(f"{crate.folder}/out/{crate.name}_tests")
    return kind == "proof" and not crate.has_kept()


def told(key, what, result, _seconds):
    """Says how a piece of work ended."""
    name, kind = key
    if what == "begun":
        return
    if not result.log:
        print(f"{name:14s} {kind} not tried, {result.why}", flush=True)
        return
    word = (WELL if result.is_well else ILL)[kind]
    used = f"{result.wall:.0f} s, {result.used:.0f} processor seconds, {result.memory / 1e9:.1f} GB"
    print(f"{name:14s} {'; '.join(it for it in (word, result.why, outputs.counts(result.said), used) if it)}")
    if kind == "edits":
        lines = outputs.edit_lines(result.said)
    else:
        lines = outputs.lost_edits(result.said) if result.is_well else outputs.open_goals(result.said)
    for line in lines + [f"(all of it: {result.log})"] * (not result.is_well):
        print(f"    {line}")
    sys.stdout.flush()
