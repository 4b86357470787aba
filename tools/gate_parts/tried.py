"""The must-fail edits of one run of the gate: each verdict, tried or taken from the record."""
import os
import threading

import lanes
import record
from edits import Trial, tried_alone
from meter import METER

FLAGS = ["--jobs", "1"]


class Tried:
    """The edits' verdicts, what is to be said of the batches, which crates' verdicts are taken from the record, and
    whether others are written into it."""

    def __init__(self):
        self.verdicts, self.logs, self.taken = {}, {}, set()
        self.tries_all, self.keeps, self.lock = False, False, threading.Lock()

    def look_up(self, crates):
        """Finds which crates' edits the record has."""
        self.taken = record.taken(crates, record.read(), self.tries_all, lanes.read_costs(lanes.FILE))

    def of(self, crate, edits, kept):
        """Of each edit of a crate whether it is refused and what to say: over what a check of the crate kept; from nothing,
        if there is no such thing; or as the record has it."""
        found = recorded(crate, edits) if crate.name in self.taken else self.now(crate, edits, kept)
        self.verdicts[crate.name] = list(zip(edits, found))
        if self.keeps and edits and crate.name not in self.taken and all(is_refused for is_refused, _ in found):
            with self.lock:
                record.write([record.row_of(crate)])
        return found

    def now(self, crate, edits, kept):
        if not kept or not edits:
            return [tried_alone(crate, it, FLAGS) for it in edits]
        trial = Trial(crate, kept, FLAGS, METER.jobs.get((crate.name, "edits"), 1))
        found = trial.run(edits)
        self.logs[crate.name] = trial.log
        kept.remove()
        return found


def recorded(crate, edits):
    return [(True, f"must-fail {crate.name}/{os.path.basename(it)}: refused by the record") for it in edits]
