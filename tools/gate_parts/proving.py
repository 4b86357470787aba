"""A proof of a library that keeps what it checked, so that the crate's edits can be tried over it."""
import os
import re
import shutil
import subprocess
import tempfile

from kept import KeptArchive
from kit import rt, rtlib


class Crate(rt.Crate):
    """A crate whose proof, if it is a library with edits to try, keeps its work. All else is proved and built as the kit
    does it."""

    def ci(self, flags, tests):
        if tests or not self.makes_rlib() or not self.keeps_its_proof(self):
            return super().ci(flags, tests)
        shutil.rmtree(os.path.dirname(self.rlib), ignore_errors=True)
        os.makedirs(os.path.dirname(self.rlib))
        room = tempfile.TemporaryDirectory(prefix="gate-checked-")
        words = self.words(flags, keeps=False)
        status, said = self.heard(["check", *words, "-o", f"{room.name}/checked"])
        if status:
            return status
        # the kit asks this of a library's build with True, and of a check with False, which passes more
        if rtlib.chose_a_term(said, True):
            why = "as the lines above say: write the term yourself"
            rt.say(f"a tactic chose a term that a contract or a crate above may read, {why}", self.out)
            return 1
        return self.build_of(words, room, said)

    def build_of(self, words, room, said):
        """Builds the library of what its check proved, and keeps that for its edits."""
        for flag in ("--logic-built", "--jobs"):
            at = words.index(flag)
            words = [*words[:at], *words[at + 2 :]]
        whole = [rtlib.RATTLE, "build", *words, "--crate-checked", f"{room.name}/checked", "-o", self.rlib]
        how = {"cwd": self.folder, "stdin": subprocess.DEVNULL, "stdout": subprocess.PIPE, "stderr": subprocess.STDOUT}
        ran = subprocess.run([*rtlib.guarded(), *whole], errors="replace", **how)
        verdict = f"{said.split(chr(10))[-2]} crate-checked=trusted"
        if ran.returncode or ran.stdout.split("\n")[-2:] != [verdict, ""]:
            rt.say(f"the library was proved, and not built of what its check kept: {ran.stdout[-600:]}", self.out)
            return ran.returncode or 1
        build = re.search(r"(?m)^rattle-build (\S+)$", rtlib.text_of(f"{self.rlib}/format") or "")
        if build:
            self.archive(self.name, KeptArchive(room, build[1].replace("/", "_"), said))
        return 0

    def heard(self, words):
        """Runs the kit's prove, which holds the last line to a verdict's words, and returns what it said too."""
        out = self.out
        with tempfile.TemporaryFile("w+", errors="replace") as self.out:
            try:
                status = self.prove(words)
            finally:
                self.out.seek(0)
                said = self.out.read()
                self.out = out
                print(said, end="", file=out, flush=True)
        return status, said
