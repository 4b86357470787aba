"""What a crate shows to those above it: its definitions, and its sources without comments and without the bodies of plain
functions, since callers are proved from contracts; and its lemmas, if a crate above cites one."""
import functools
import hashlib
import os
import re

import tokens
from kit import rtlib
from places import functions_in

# What is written of one function's proof, which no other function sees.
OF_A_FUNCTION = re.compile(r"proofs/.*/(Answers|Invariants|Proof)\.antt")


@functools.cache
def sum_of(crate, with_lemmas):
    """The sum of what the crate shows, and of what crates.txt and the kit say of it."""
    what = tokens.bytes_of(f"{rtlib.KIT}/WHAT")
    return hashlib.sha256(repr((crate.said, crate.has_c, what, shown(crate, with_lemmas))).encode()).hexdigest()


def shown(crate, with_lemmas):
    """Of each file of which a check of a crate above may read something, its path and that. A file that can't be read counts
    whole."""
    paths = sorted(os.path.relpath(it, crate.folder) for it in rtlib.files_of(crate.folder))
    definitions = [it for it in paths if it.startswith("specs/") or with_lemmas and is_lemma(it)]
    sources = [it for it in paths if it.endswith(".rt")]
    bodies = {it: [] for it in sources}
    for it in functions_in(crate):
        if it.is_plain:
            bodies[it.path].append(it.body)
    kept = [(it, tokens.outside(crate.folder, it, bodies[it])) for it in sources]
    return [*zip(definitions, tokens.of_files(crate.folder, definitions)), *kept]


def is_lemma(path):
    return path.startswith("proofs/") and not OF_A_FUNCTION.fullmatch(path)


def is_cited(crate, above):
    """Whether one of these crates names a lemma file of this one."""
    return any(crate.name in names_cited(it) for it in above)


@functools.cache
def names_cited(crate):
    """The names of the other crates of which this one names a lemma file."""
    found = set()
    for file in rtlib.files_of(crate.folder):
        found.update(it.decode() for it in re.findall(rb"Rattle\.(\w+)\.proofs\.", tokens.bytes_of(file)))
    return found - {crate.name}
