"""What the gate puts in place of the kit's `ci` in rattle-kit-13b. That one proves each crate from nothing in each run, and
keeps nothing of it: here the proof of a library with edits keeps its work for them."""
from kit import rt
from proving import Crate


def put_in_place(tried):
    """From now on the kit's `ci` works with the gate's parts."""
    archives, kits_crates_of = {}, rt.crates_of

    def crates_of(root, aside):
        crates = kits_crates_of(root, aside)
        tried.look_up(crates)
        return crates

    def must_fail_all(crate, edits, _flags):
        return tried.of(crate, edits, archives.pop(crate.name, None))

    class Kept(Crate):
        keeps_its_proof = staticmethod(lambda crate: crate.name not in tried.taken and rt.edits_of(crate)[0])
        archive = staticmethod(archives.__setitem__)

    rt.crates_of, rt.must_fail_all, rt.Crate = crates_of, must_fail_all, Kept


def ci(_anew):
    """The kit's `ci`; it never takes a proof from an earlier run."""
    return rt.ci()
