"""Which proofs the kit's `ci` will take from earlier runs on this machine (rattle-kit-13f), so that the order of work
doesn't count them. No verdict rests on it."""
import hashlib
import json
import os

from kit import rt


class Expected:
    """The crates of this run, and what earlier ones kept of them."""

    def __init__(self):
        self.crates = []

    def watch(self):
        """From now on this knows the crates that the kit finds."""
        kits = rt.crates_of

        def crates_of(*given):
            self.crates = kits(*given)
            return self.crates

        rt.crates_of = crates_of

    def without_kept(self, tasks):
        """These tasks, with no work where an earlier run's proof will be taken."""
        try:
            kept = self.kept()
        except (OSError, ValueError, KeyError):
            # another run is at these files, or one is damaged: then all counts as work
            kept = set()
        return {key: (waits, 0 if key in kept else lines, *more) for key, (waits, lines, *more) in tasks.items()}

    def kept(self):
        """The keys of the tasks whose proofs were kept."""
        if not hasattr(rt, "Kept"):
            return set()
        store, found = rt.Kept(self.crates), set()
        for crate in self.crates if store.at else []:
            key = store.key(crate)
            places = {kind: store.place(crate, kind == "tests", key) for kind in ("proof", "tests")}
            found |= {(crate.name, kind) for kind, at in places.items() if os.path.isdir(at)}
            if (crate.name, "proof") in found:
                store.rlibs[crate.name] = rlib_of(crate, places["proof"])
        return found


def rlib_of(crate, place):
    """The sum that the kit will have of the library that stands at this place, once it is built of it."""
    with open(f"{place}/made.json", encoding="utf-8") as it:
        files = [] if crate.is_program else [tuple(row) for row in json.load(it)["files"]]
    return hashlib.sha256(repr(files).encode()).hexdigest()
