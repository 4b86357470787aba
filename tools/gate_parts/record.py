"""The record of must-fail edits: crates that passed a run of the gate, `--only` or whole, and whose edits it tried, each of
which was refused.

Edits test how strong contracts are. Their verdicts depend on what a check reads of the crate, without and with each edit,
on what the crates below it show to those above (`faces.py`), on the kit and on the gate's own scripts, and on nothing
else: a sum over exactly these stands in the record. Comments are not read. A crate with another sum is tried. In each run
one crate that could be taken from the record is tried all the same; if one of its edits is not refused then, the gate
fails. Which one is drawn by the sums: one that costs half as much comes twice as often.

A row is a crate's name, the kit, the sum, and how many edits the crate has. A run with `--costs` writes a row as soon as a
crate's edits are tried, in place of the one that it had with this kit."""
import functools
import hashlib
import os

import faces
import kit
import tokens
from kit import rt, rtlib

HERE = os.path.dirname(os.path.realpath(__file__))
FILE = f"{HERE}/edits_record.txt"
HEAD = "# Crates whose must-fail edits a run of the gate tried and saw refused: name, kit, sum of all that they rest on, edits.\n"
# The scripts that make the verdicts, beside the one that works with the kit.
SCRIPTS = ("edits.py", "faces.py", "kept.py", "places.py", "proving.py", "record.py", "tokens.py", "tried.py")


def sum_of(crate):
    """The sum of all that the verdicts of a crate's edits rest on."""
    edits = rt.edits_of(crate)[0]
    below = [faces.sum_of(it, faces.is_cited(it, [*crate.below(), crate])) for it in crate.below()]
    found = hashlib.sha256(repr((kit.identity(), below, sources_of(crate), tokens.of_edits(crate, edits))).encode())
    scripts = [f"{HERE}/{it}" for it in (*SCRIPTS, f"{kit.way()}.py")]
    for file in [*edits, *scripts]:
        found.update(repr((os.path.basename(file), tokens.bytes_of(file))).encode())
    return found.hexdigest()


@functools.cache
def sources_of(crate):
    """The sum of what a check reads of this crate, and of what crates.txt and the kit say of it."""
    what = tokens.bytes_of(f"{rtlib.KIT}/WHAT")
    return hashlib.sha256(repr((crate.said, crate.has_c, what, tokens.of_crate(crate))).encode()).hexdigest()


def row_of(crate):
    return f"{crate.name} {kit.identity()[0].split()[0]} {sum_of(crate)} {len(rt.edits_of(crate)[0])}"


def read(file=FILE):
    """The rows of the record; none if there is no such file."""
    try:
        with open(file, encoding="utf-8") as it:
            return {line.strip() for line in it if line.strip() and not line.startswith("#")}
    except FileNotFoundError:
        return set()


def write(rows, file=FILE):
    """Writes these rows, and keeps those of other crates and kits."""
    new = {tuple(it.split()[:2]): it for it in [*sorted(read(file)), *rows]}
    with open(file, "w", encoding="utf-8") as it:
        it.write(HEAD + "".join(f"{new[key]}\n" for key in sorted(new)))


def taken(crates, rows, tries_all=False, costs=None):
    """The names of those crates with edits whose row stands in the record, without the one whose turn it is. `costs` has
    what the work of some crates costs, by their names."""
    if tries_all:
        return set()
    able = {it.name: sum_of(it) for it in crates if rt.edits_of(it)[0] and row_of(it) in rows}
    return set(able) - {drawn(able, costs or {})}


# The seconds of a crate's proof and edits that were never measured.
UNKNOWN = 300


def drawn(sums, costs):
    """The crate whose turn it is, of those with these sums, or None of none. It changes with the sums and is the same for
    the same ones."""
    seconds = {name: costs[name].proof + costs[name].edits if name in costs else UNKNOWN for name in sorted(sums)}
    parts = {name: int(1e9 / max(1, it)) for name, it in seconds.items()}
    place = int(hashlib.sha256(repr(sorted(sums.items())).encode()).hexdigest(), 16) % max(1, sum(parts.values()))
    for name, part in parts.items():
        if place < part:
            return name
        place -= part
    return None
