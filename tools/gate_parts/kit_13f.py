"""What the gate puts in place of the kit's `ci` in rattle-kit-13f. That one takes proofs from earlier runs on the same
machine, and tries a crate's edits over what one more check of it from nothing, the seed, has left. Here the proof of a
library with edits keeps its work for them, and there is a seed only if the proof was taken from an earlier run."""
import os
import signal
import tempfile

from kept import Kept
from kit import rt
from meter import METER
from proving import Crate


def put_in_place(tried):
    """From now on the kit's `ci` works with the gate's parts."""
    archives, kits_crates_of = {}, rt.crates_of

    def crates_of(root):
        crates = kits_crates_of(root)
        tried.look_up(crates)
        return crates

    def add_edits(tasks, crate, edits, first, waits, is_well, kept, start=None, in_ci=True):
        return added(Edits(crate, edits, tried, archives), tasks, first, waits, is_well, kept)

    class Keeping(Crate):
        keeps_its_proof = staticmethod(lambda crate: crate.name not in tried.taken and rt.edits_of(crate)[0])
        archive = staticmethod(archives.__setitem__)

    rt.crates_of, rt.add_edits, rt.Crate = crates_of, add_edits, Keeping


def ci(anew):
    return rt.ci(anew)


class Edits:
    """The edits of a crate, and what they are tried over."""

    def __init__(self, crate, edits, tried, archives):
        self.crate, self.edits, self.tried, self.archives = crate, edits, tried, archives
        self.is_tried = bool(edits) and crate.name not in tried.taken

    def base(self, is_proved, jobs):
        """What the edits are tried over: what the crate's proof kept in this run, else a seed; None if neither is to be had."""
        if not self.is_tried or not is_proved:
            return None
        return self.archives.pop(self.crate.name, None) or seed(self.crate, jobs)


def added(edits, tasks, first, waits, is_well, kept):
    """In place of the kit's: one task tries all edits of a crate over what another, the seed, gives; or the record has
    their verdicts. Returns, as the kit's does, what gives the results, and what gives those of earlier runs."""
    name, needs = edits.crate.name, rt.need(edits.crate)
    lines = edits.crate.count(rb"\n") * edits.is_tried
    # by what earlier runs left the proof is taken, or it is made in this run and the seed costs nothing
    of_seed = lines * is_kept(edits.crate, kept)
    proved = (name, "proof")
    tasks[name, "seed"] = [*first, proved], of_seed, needs, lambda given, jobs: edits.base(given[proved], jobs)

    def of_edits(given, _jobs):
        if not edits.edits or not is_well(given, len(edits.edits) * edits.is_tried):
            return []
        found = edits.tried.of(edits.crate, edits.edits, given[name, "seed"])
        return [(rt.REFUSED if is_refused else rt.MISSED, text) for is_refused, text in found]

    tasks[name, "edits"] = [*waits, (name, "seed")], lines, needs, of_edits
    results = lambda given: given[name, "edits"]  # noqa: E731
    return results, lambda: {} if edits.is_tried else dict.fromkeys(range(len(edits.edits)))


def is_kept(crate, kept):
    """Whether an earlier run on this machine left a proof of a crate of that name. The order of work rests on it alone."""
    names = os.listdir(kept.at) if kept.at and not kept.anew and os.path.isdir(kept.at) else []
    return any(it.startswith(f"proof-{crate.name}-") for it in names)


def seed(crate, jobs):
    """A check of the crate from nothing, for its edits, or None if that fails. Its folder goes with the run, or once the
    edits are tried."""
    room = tempfile.mkdtemp(prefix=f"rt-edits-{os.getpid()}-")
    rt.SEEDS.append(room)
    os.mkdir(f"{room}/seed")
    with METER.counting("seed"):
        for words in (["--jobs", str(jobs)], ["--jobs", "1"]):
            ran = rt.checked(crate, {}, words, f"{room}/seed")
            # most likely for memory: once more, with one process
            if ran.returncode != -signal.SIGKILL:
                break
    return Kept(f"{room}/seed", ran.stdout) if ran.returncode == 0 else None
