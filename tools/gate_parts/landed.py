"""The record's rows of a commit that has landed. `.ci/run` lets a commit land only if the gate has seen each of its edits
refused, so nothing is tried again here. That the commit has landed is for who asks to know: a new checkout's HEAD has."""
import os
import subprocess
import tempfile

import kit
import record
from kit import rt, rtlib

SCRIPTS = [f"tools/gate_parts/{it}" for it in (*record.SCRIPTS, f"{kit.way()}.py")]


class OtherScripts(Exception):
    """Scripts that make the verdicts are not as the commit has them, so its rows would be of others."""


def rows_of(root, commit):
    """The rows of the commit's crates with edits. Rows are made with the scripts that stand here, and those have to be
    the commit's."""
    with tempfile.TemporaryDirectory(prefix="gate-landed-") as room:
        files = subprocess.run(["git", "-C", root, "archive", commit], stdout=subprocess.PIPE, check=True).stdout
        subprocess.run(["tar", "-x", "-C", room], input=files, check=True)
        others = [it for it in SCRIPTS if text_of(f"{root}/{it}") != text_of(f"{room}/{it}")]
        if others:
            raise OtherScripts(" ".join(others))
        rtlib.Crate = rt.Crate
        return [record.row_of(it) for it in rtlib.crates_below(room) if rt.edits_of(it)[0]]


def text_of(file):
    """What the file holds; None if there is no such file."""
    if not os.path.isfile(file):
        return None
    with open(file, "rb") as it:
        return it.read()


def write(root, commit):
    """Writes these rows into the record, and prints how many edits they are of. The status of the command."""
    try:
        rows = rows_of(root, commit)
    except OtherScripts as it:
        print(f"gate: not as {commit} has them: {it}")
        return 1
    except subprocess.CalledProcessError:
        print(f"gate: git can't give the files of {commit}")
        return 1
    record.write(rows)
    print(f"gate: the record has the {sum(int(it.split()[-1]) for it in rows)} edits of {len(rows)} crates of {commit}")
    return 0
