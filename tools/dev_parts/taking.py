"""Proofs that a gate on this machine has made and the kit has kept: a checkout of the same files takes them over, and then
`rt check` of a crate above goes over these libraries without proving them again."""
import tree
from kit import rt


class Libraries:
    """What of the repository's libraries stands in out/, or can be taken there."""

    def __init__(self, known):
        # what is kept is named by what HANDLES allows too
        rt.Crate.allowed = rt.handles_of(tree.TOP)
        self.kept, self.known, self.lacking = rt.Kept(known), known, []

    def take(self):
        """Takes over what is there, lowest first, and gives those that were taken. A library fits only those below it that
        it was built over, so above one that is lacking none is taken."""
        return [it for it in self.known if it.makes_rlib() and self.is_taken(it)]

    def is_taken(self, crate):
        if any(it in self.lacking for it in crate.below()):
            self.lacking.append(crate)
            return False
        is_there = crate.is_built()
        if not is_there and not self.kept.give(crate, False, self.kept.key(crate)):
            self.lacking.append(crate)
            return False
        if not is_there:
            with open(f"{crate.folder}/out/rlib/stamp", "w", encoding="utf-8") as it:
                it.write(crate.stamp())
        self.kept.is_built(crate)
        return not is_there
