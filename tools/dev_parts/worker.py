"""One piece of work on one crate, in a process that running.py starts: `worker.py KIND CRATE JOBS [MORE..]`. It ends,
with all that it started, once its standard input ends.

  proof [strict]   proves the crate over its kept work, and builds what crates above load
  tests [strict]   proves and runs its tests; of a program that the tools' tests don't start also its stored run
  edits [NAME..]   its must-fail edits, many in one check, over its kept work

Strict: as far as kept work allows, what the gate refuses is refused too."""
import os
import signal
import sys
import threading

sys.path.insert(0, os.path.dirname(os.path.realpath(__file__)))
import tree  # noqa: E402

rtlib = tree.rtlib()
from kit import rt  # noqa: E402


class Heard:
    """A file to write to that shows all at once and remembers it."""

    def __init__(self):
        self.said = ""

    def write(self, text):
        self.said += text
        sys.stdout.write(text)

    def flush(self):
        sys.stdout.flush()


def end_with_input():
    """Ends this process once nobody holds the other end of its input; the kit's guard then ends what it started."""
    given = os.dup(0)
    with open(os.devnull, "rb") as nothing:
        os.dup2(nothing.fileno(), 0)

    def wait():
        os.read(given, 1)
        os._exit(130)

    threading.Thread(target=wait, daemon=True).start()


def prove(crate, flags, strict):
    if strict and rtlib.fmt(crate.folder, "--check", sys.stdout):
        print(f"dev: run rt fmt in crates/{crate.name}")
        return 1
    if crate.makes_rlib():
        return crate.build_rlib(flags, anew=False)
    stamp = crate.stamp()
    status = crate.check(flags)
    if status == 0 and crate.stamp() == stamp:
        with open(tree.stamp_file(crate), "w", encoding="utf-8") as it:
            it.write(stamp)
    return status


def test(crate, flags, _strict):
    status = crate.run(flags, [], tests=True) if crate.has_tests() else 0
    is_stored = crate.is_program and crate.name != tree.PROGRAM
    return status or (run_as_stored(crate, flags) if is_stored else 0)


def run_as_stored(crate, flags):
    """Builds a program, and compares what it writes with the crate's file stdout."""
    crate.held = []
    jobs = rtlib.jobs_in(flags)
    # (the kit starts what it has built, here with nothing to do)
    crate.run(jobs, ["--help"])
    if not os.path.isfile(f"{crate.folder}/out/{crate.name}.stamp"):
        return 1
    return 0 if rt.run(crate, False) else 1


def why_refused(said):
    """Why the gate would refuse what passed here, or None."""
    if rtlib.EMPTY.search(said):
        return "no call can meet the contracts that the lines above name"
    if rtlib.chose_a_term(said, True):
        return "a tactic chose a term that a contract or a crate above may read: write the term yourself"
    return None


def prove_or_test(what, crate, jobs, more):
    strict = "strict" in more
    flags = ["--jobs", jobs, *["--empty-contracts"] * strict]
    crate.out = Heard()
    for edit in rt.edits_of(crate)[0] if what is prove else []:
        lost = rt.read_edit(edit, crate.folder)[1]
        if lost:
            print(f"dev: must-fail/{os.path.basename(edit)} can't be applied: {lost}")
    status = what(crate, flags, strict)
    why = why_refused(crate.out.said) if strict and not status else None
    if why:
        print(f"dev: {why}")
    return status or int(bool(why))


# --- must-fail edits


class Said(list):
    """A log that is shown as it grows."""

    def append(self, line):
        print(f"dev: {line}", flush=True)
        super().append(line)


def verdicts(crate, edits):
    """Of each edit whether it is refused, and the gate's text on it; None if the crate itself isn't proved over its
    kept work. The one place that knows the gate's form of this."""
    from edits import Trial
    from kept import Kept

    class Warm(Trial):
        """Without a second try from nothing of what isn't refused: here that is an answer."""

        def judged(self, edits):
            return [self.verdicts[it] for it in edits]

    flags, folder = ["--jobs", "1"], f"{crate.folder}/out/incremental"
    ran = rt.checked(crate, {}, flags, folder)
    if ran.returncode:
        print(ran.stdout, end="")
        return None
    trial = Warm(crate, Kept(folder, ran.stdout), flags)
    trial.log = Said()
    return trial.run(edits)


def try_edits(crate, names):
    edits, strange = rt.edits_of(crate)
    edits = [it for it in edits if not names or os.path.basename(it) in names]
    found = verdicts(crate, edits) if edits else []
    if found is None:
        print("dev: the crate itself isn't proved over its kept work, so no edit was tried")
        return 1
    for edit, (is_refused, text) in zip(edits, found):
        name = os.path.basename(edit)
        said = text.removeprefix(f"must-fail {crate.name}/{name}: ").replace("refused, as it must be", "refused", 1)
        print(f"edit {name}: {said.splitlines()[0]}")
    for it in [] if names else strange:
        print(f"edit {os.path.basename(it)}: BAD EDIT: its name, or where it stands, isn't an edit's")
    refused = sum(is_refused for is_refused, _ in found)
    print(f"edits: {refused} refused, {len(found) - refused} not, of {len(found)}")
    return int(refused < len(found) or bool(strange and not names))


KINDS = {"proof": prove, "tests": test}


def main(kind, name, jobs, *more):
    signal.signal(signal.SIGINT, signal.SIG_DFL)
    end_with_input()
    # its first call has to come from the main thread
    rtlib.guarded()
    crate = tree.named(name, tree.crates())
    os.chdir(crate.folder)
    if kind == "edits":
        return try_edits(crate, more)
    return prove_or_test(KINDS[kind], crate, jobs, more)


if __name__ == "__main__":
    status = main(*sys.argv[1:])
    sys.stdout.flush()
    sys.exit(status if 0 <= status < 126 else 1)
