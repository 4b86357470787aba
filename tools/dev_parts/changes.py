"""What has changed since a commit: which crates, and which of these show something else to the crates above them
(`gate_parts/faces.py`)."""
import subprocess
import tempfile

import tree


def git(*words):
    """What git prints, or None if it fails."""
    ran = subprocess.run(["git", *words], cwd=tree.TOP, capture_output=True, text=True)
    return ran.stdout.strip() if ran.returncode == 0 else None


def commit_of(name):
    return git("rev-parse", "--verify", "--quiet", f"{name}^{{commit}}")


def start(since):
    """The commit to compare with: the given one, else where this branch left origin/main, else the last but one."""
    if since:
        return commit_of(since) or tree.stop(f"there is no commit {since}")
    found = git("merge-base", "HEAD", "origin/main") or commit_of("HEAD~1")
    return found or tree.stop("there is no origin/main, and no commit before the last one: name one by --since")


def files_since(commit):
    """The files that differ from the commit's, also those that git doesn't know yet."""
    tracked = git("diff", "--name-only", "--no-renames", commit)
    new = git("ls-files", "--others", "--exclude-standard")
    if tracked is None or new is None:
        tree.stop(f"git can't compare these files with {commit}")
    return sorted({it for it in [*tracked.split("\n"), *new.split("\n")] if it})


def crates_at(commit, folder):
    """The crates of a commit, by name, whose files are put into the folder; none if they can't be read."""
    names = [it for it in ("crates", "crates.txt") if git("cat-file", "-t", f"{commit}:{it}")]
    if len(names) < 2:
        return {}
    archive = subprocess.Popen(["git", "archive", commit, *names], cwd=tree.TOP, stdout=subprocess.PIPE)
    unpacked = subprocess.run(["tar", "-x", "-C", folder], stdin=archive.stdout)
    archive.stdout.close()
    if archive.wait() or unpacked.returncode:
        return {}
    try:
        return {it.name: it for it in tree.crates(folder)}
    except SystemExit:
        return {}


class Changes:
    """What has changed since a commit, and what that asks for."""

    def __init__(self, commit, known):
        self.commit, self.known, self.files = commit, known, files_since(commit)
        with tempfile.TemporaryDirectory(prefix="dev-before-") as room:
            before = crates_at(commit, room)
            self.changed = [it for it in known if self.is_changed(it, before.get(it.name))]
            self.seen = [it for it in self.changed if self.shows_more(it, before.get(it.name))]
        self.above = [it for it in known if it not in self.changed and any(low in self.seen for low in it.below())]

    def is_changed(self, crate, before):
        if before is None or crate.said.get("deps") != before.said.get("deps") or "HANDLES" in self.files:
            return True
        return any(it.startswith(f"crates/{crate.name}/") for it in self.files)

    def shows_more(self, crate, before):
        """Whether crates above may see a difference: also if that can't be told."""
        if not crate.makes_rlib():
            return False
        if before is None:
            return True
        import faces

        with_lemmas = faces.is_cited(crate, tree.above(crate, self.known))
        return faces.shown(crate, with_lemmas) != faces.shown(before, with_lemmas)

    def to_test(self):
        """The crates whose tests are to run: those of what changed or sees a change, or that cover it."""
        wanted = [it for crate in [*self.changed, *self.above] for it in tree.covering(crate, self.known)]
        wanted += [it for it in [*self.changed, *self.above] if it.is_program]
        return [it for it in self.known if it in wanted]
