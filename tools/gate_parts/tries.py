#!/usr/bin/env python3
"""The record of a trial that takes minutes, `tools/wrong_moves`: that a whole run has seen each wrong move refused, and
a sum over all that this rests on.

usage: tools/gate_parts/tries.py holds    the status is 0 if the record has the trial as it would be now
       tools/gate_parts/tries.py keep     writes its row

Wrong moves are refused by the proofs of `interleavings`: so a verdict rests on what a check reads of that crate and on
what those below show to it, as an edit's does (`record.py`); and on the kit, on the mutants and on the script that
tries them. A row is the trial's name, the kit and the sum. The test command takes the verdict from the record if the
sum is the same, and else tries all; a whole run by hand writes the row, which is committed. `./dev long` tries all.
"""
import hashlib
import os
import sys

sys.dont_write_bytecode = True
import faces  # noqa: E402
import kit  # noqa: E402
import record  # noqa: E402
import tokens  # noqa: E402
from kit import rtlib  # noqa: E402

HERE = os.path.dirname(os.path.realpath(__file__))
TOP = os.path.dirname(os.path.dirname(HERE))
FILE = f"{HERE}/tries_record.txt"
HEAD = "# Trials that a whole run has seen pass: name, kit, sum of all that the verdict rests on.\n"
NAME, CRATE = "wrong_moves", "interleavings"
FILES = ("wrong_moves", "wrong_moves_parts/mutants.txt")


def row():
    """The trial's row as it would be now."""
    crate = {it.name: it for it in rtlib.crates_below(TOP)}[CRATE]
    above = [*crate.below(), crate]
    shown = [faces.sum_of(it, faces.is_cited(it, above)) for it in crate.below()]
    found = hashlib.sha256(repr((kit.identity(), shown, record.sources_of(crate))).encode())
    for file in FILES:
        found.update(repr((file, tokens.bytes_of(f"{TOP}/tools/{file}"))).encode())
    return f"{NAME} {kit.identity()[0].split()[0]} {found.hexdigest()}"


def keep():
    """Writes the trial's row in place of the one that it had with this kit."""
    now = row()
    others = {it for it in record.read(FILE) if it.split()[:2] != now.split()[:2]}
    with open(FILE, "w", encoding="utf-8") as it:
        it.write(HEAD + "".join(f"{line}\n" for line in sorted({*others, now})))


def main(words):
    if words not in (["holds"], ["keep"]):
        print(__doc__, end="", file=sys.stderr)
        return 2
    if not kit.is_known():
        print("tries: this kit is another than those that kit.py names, so there is no record", file=sys.stderr)
        return 1
    rtlib.Crate = kit.rt.Crate
    kit.rt.Crate.allowed = kit.rt.handles_of(TOP)
    if words == ["holds"]:
        return 0 if row() in record.read(FILE) else 1
    keep()
    return 0


if __name__ == "__main__":
    sys.exit(main(sys.argv[1:]))
