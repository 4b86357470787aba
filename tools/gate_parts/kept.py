"""What a check of a crate left for its edits: each check of edits gets a folder of its own, as that check left it."""
import collections
import json
import os
import re
import shutil
import tempfile

from kit import rt

# A check's line on one function, impl or type.
SUBJECT = re.compile(r"(fn|impl|struct|enum|trait|union) (\S+): (.*)")


def proved_in(said):
    """The names that a check's output says are proved, by their kind, each with what it says of it: `proved`, which may go
    on, as in `proved, may wait`."""
    found = collections.defaultdict(dict)
    for it in map(SUBJECT.fullmatch, said.split("\n")):
        if it and re.match(r"proved\b", it[3]):
            found[it[1]][it[2]] = it[3]
    return found


class Kept:
    """The folder that a check with `--incremental` filled, and which names it proved."""

    def __init__(self, folder, said):
        self.folder, self.proved, self.files = folder, proved_in(said), listing(folder)

    def opened(self):
        """A new folder, to be removed by its owner, that `--incremental` takes."""
        made = tempfile.TemporaryDirectory(prefix="gate-kept-")
        copied(self.folder, f"{made.name}/kept")
        return Opened(made, f"{made.name}/kept")

    def is_untouched(self):
        return listing(self.folder) == self.files

    def remove(self):
        shutil.rmtree(os.path.dirname(self.folder), ignore_errors=True)


class KeptArchive:
    """What `rattle check -o` wrote into the folder `checked` of `room`; `build` is the build of rattle that wrote it."""

    def __init__(self, room, build, said):
        self.room, self.build, self.proved = room, build, proved_in(said)

    def opened(self):
        """A new folder, to be removed by its owner, that `--incremental` takes."""
        made = tempfile.TemporaryDirectory(prefix="gate-kept-")
        folder = f"{made.name}/{self.build}"
        kept = f"{self.room.name}/checked/toolchain/checked"
        with open(f"{kept}.a", "rb") as whole, open(f"{kept}.json", encoding="utf-8") as names:
            for line in names:
                name, start, size = json.loads(line)[:3]
                path = f"{folder}/{name}.oantt"
                os.makedirs(os.path.dirname(path), exist_ok=True)
                whole.seek(start)
                with open(path, "wb") as it:
                    it.write(whole.read(size))
        return Opened(made, made.name)

    def is_untouched(self):
        """Each check gets a copy."""
        return True

    def remove(self):
        self.room.cleanup()


class Opened:
    """A folder for one check, which goes with it."""

    def __init__(self, made, folder):
        self.made, self.folder = made, folder

    def __enter__(self):
        return self.folder

    def __exit__(self, *_):
        self.made.cleanup()


def copied(folder, to):
    """Copies a folder; the kit's later versions link its large files, which a check replaces and never writes into."""
    if hasattr(rt, "linked"):
        rt.linked(folder, to)
    else:
        shutil.copytree(folder, to)


def listing(folder):
    """What stands in a folder, so that a change of it is seen."""
    if hasattr(rt, "listing"):
        return rt.listing(folder)
    found = ((it, os.stat(it)) for at, _, names in os.walk(folder) for it in (f"{at}/{name}" for name in names))
    return sorted((name, it.st_size, it.st_mtime_ns) for name, it in found)
