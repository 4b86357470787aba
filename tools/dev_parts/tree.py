"""The repository's crates: by name, what lies above them, what has changed since it was proved, and which tests cover
what. The kit's own code reads crates.txt and knows what the folders out/ were made from."""
import os
import re
import sys

TOP = os.path.dirname(os.path.dirname(os.path.dirname(os.path.realpath(__file__))))
GATE_PARTS = f"{TOP}/tools/gate_parts"
# The crate of the program that the tools' tests start.
PROGRAM = "craq"
sys.path.insert(0, GATE_PARTS)
sys.dont_write_bytecode = True

import kit  # noqa: E402

# A module that only a check with tests reads.
TEST_MODULE = re.compile(r"#\[cfg\(test\)\]\s*(?:pub\s+)?mod\s+(\w+)\s*;")
MODULE = re.compile(r"(?m)^\s*(?:pub\s+)?mod\s+(\w+)\s*;")


def stop(why):
    """Ends with the status of words that can't be followed."""
    print(f"dev: {why}", file=sys.stderr)
    sys.exit(2)


def rtlib():
    """The kit's library, if the kit is the one whose inside these programs know."""
    if kit.RT is None:
        stop("there is no Rattle kit here: its command `rt` has to be on the path, or in /opt/rattle/bin")
    if kit.rtlib is None:
        stop("this kit is another than the one that tools/gate_parts/kit.py names: use rt check, rt test and rt ci")
    return kit.rtlib


def read(file):
    with open(file, encoding="utf-8", errors="replace") as it:
        return it.read()


def crates(top=TOP):
    """The crates below this folder, lowest first."""
    found = sorted(rtlib().crates_below(top), key=lambda it: len(it.below()))
    for it in found:
        kit.rt.read_files(it)
    return found


def named(name, known):
    for it in known:
        if it.name == name:
            return it
    return stop(f"crates.txt names no crate {name}: it has {', '.join(sorted(it.name for it in known))}")


def above(crate, known):
    """The crates that stand on this one."""
    return [it for it in known if crate in it.below()]


# --- what was proved


def stamp_file(crate):
    return f"{crate.folder}/out/checked.stamp"


def is_proved(crate):
    """Whether out/ was proved from the files as they are, those of the crates below too."""
    if crate.makes_rlib():
        return crate.is_built()
    stamp = crate.stamp()
    built = read_if(f"{crate.folder}/out/{crate.name}.stamp") or ""
    return stamp in (read_if(stamp_file(crate)), built[: len(stamp)])


def read_if(file):
    return read(file) if os.path.isfile(file) else None


def to_prove(wanted):
    """Those of these crates, and of those below them, that were not proved as they are."""
    whole = []
    for crate in wanted:
        whole += [it for it in [*crate.below(), crate] if it not in whole]
    return [it for it in whole if not is_proved(it)]


# --- tests


def rust_files(crate):
    """The paths of its sources, below its folder."""
    return sorted(os.path.relpath(it, crate.folder) for it in rtlib().files_of(crate.folder) if it.endswith(".rt"))


def test_files(crate):
    """The sources that only a check with tests reads, by the path of the module that they belong to."""
    files, found = rust_files(crate), {}
    for path in files:
        folder, name = os.path.split(path.removesuffix(".rt"))
        inside = folder if name in ("lib", "main", "mod") else f"{folder}/{name}"
        for module in TEST_MODULE.findall(read(f"{crate.folder}/{path}")):
            start = f"{inside}/{module}"
            found.update((it, module) for it in files if it == f"{start}.rt" or it.startswith(f"{start}/"))
    return found


def is_of_tests(crate):
    """Whether a library consists of tests."""
    if crate.is_program:
        return False
    text = read(f"{crate.folder}/src/lib.rt")
    return bool(MODULE.findall(text)) and MODULE.findall(text) == TEST_MODULE.findall(text)


def naming(crate, other):
    """The modules of tests of the other crate that name this one."""
    word = re.compile(rf"\b{crate.name}\s*::")
    return sorted({module for path, module in test_files(other).items() if word.search(read(f"{other.folder}/{path}"))})


def covering(crate, known):
    """The crates whose tests cover this one, each with its modules that do so: itself, and crates of tests that name
    it. Without any, others whose tests name it; without these, those above it that have tests."""
    found = {crate: []} if crate.has_tests() else {}
    able = {it: naming(crate, it) for it in above(crate, known) if it.has_tests()}
    named_in = {it: modules for it, modules in able.items() if modules}
    found.update((it, modules) for it, modules in named_in.items() if is_of_tests(it))
    return found or named_in or able
