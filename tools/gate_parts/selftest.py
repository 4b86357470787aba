"""What the gate must refuse, and what it must pass: `tools/gate --selftest`.

Throw-away repositories of one small crate go through the whole gate; made-up outputs of a check go through the reading
of a batch alone; repositories that name other sources than they have end it; repositories with a change are looked up
in the record of edits that was made without it, or of their last commit."""
import concurrent.futures
import contextlib
import os
import shutil
import subprocess
import sys
import tempfile
from dataclasses import dataclass
from types import SimpleNamespace

import landed
import lanes
import record
from edits import Reading
from kept import proved_in
from kit import rt, rtlib
from places import Function

HERE = os.path.dirname(os.path.realpath(__file__))
GATE = os.path.join(os.path.dirname(HERE), "gate")
LIB = """//! Small functions for the gate's own test.
#![tactic(auto)]

ghost use Rattle.std.specs.Prelude.{◌≡◌, ◌+◌, ◌<◌, ◌≤◌};

#[cfg(test)]
mod tests;

/// One more.
pub fn one_more(x: u32) -> u32
    requires { x < 1000 }
    ensures { result ≡ x + 1 }
{
    x + 1
}

/// Two more.
pub fn two_more(x: u32) -> u32
    requires { x < 900 }
    ensures { result ≡ x + 2 }
{
    let one = one_more(x);
    one + 1
}

/// The larger one.
pub fn larger(a: u32, b: u32) -> u32
    ensures left { a ≤ result }
    ensures right { b ≤ result }
{
    if a < b { b } else { a }
}

/// The smaller one.
pub fn smaller(a: u32, b: u32) -> u32
    ensures left { result ≤ a }
    ensures right { result ≤ b }
{
    if a < b { a } else { b }
}

/// The same.
pub fn same(x: u32) -> u32
    ensures { result ≡ x }
{
    x
}
"""
TESTS = """//! What one more is.
use crate::one_more;

#[test]
fn one_more_than_one(rt: HostRuntime) {
    assert_eq!(rt; one_more(1), 2);
}
"""
TESTS_LINE = "#[cfg(test)]\nmod tests;\n\n"
GOOD = {
    "adds_two": "old:     x + 1\nnew:     x + 2",
    "left_alone": "old:     if a < b { b } else { a }\nnew:     if a < b { a } else { a }",
    "right_alone": "old:     if a < b { a } else { b }\nnew:     if a < b { b } else { b }",
}
HARMLESS = "old:     if a < b { a } else { b }\nnew:     if a <= b { a } else { b }"
# calls `one_more`, which another edit of its batch breaks, and is itself as right as before
STANDING = "old:     one + 1\nnew:     1 + one"
WRONG_HERE = "old:     one + 1\nnew:     one"
SECOND = "old:     x + 1\nnew:     1 + x"
UNREAD = "old:     if a < b { a } else { b }\nnew:     if a < c { a } else { b }"
THREAD = """
pub fn starts(x: u32) -> u32
    ensures { result ≡ x }
{
    let _names = std::thread::spawn::<u32>;
    x
}
"""


ABOVE = {
    "../above/src/lib.rt": """//! A crate above the small one.
#![tactic(auto)]

ghost use Rattle.std.specs.Prelude.{◌≡◌, ◌+◌, ◌<◌};

use small::two_more;

/// Four more.
pub fn four_more(x: u32) -> u32
    requires { x < 800 }
    ensures { result ≡ x + 4 }
{
    two_more(two_more(x))
}
""",
    "../above/must-fail/adds_one.edit": """file: src/lib.rt
old:     two_more(two_more(x))
new:     two_more(x) + 1
""",
}


@dataclass
class Case:
    """A repository of one crate `small`, and what the gate must make of it."""

    files: dict
    says: tuple  # what must stand in what the gate prints
    passes: bool = False
    listed: str = "small:\n"  # crates.txt
    beside: tuple = ()  # the words of a command that runs beside it


def crate_of(lib=LIB, edits=None, **more):
    """The files of a crate without tests."""
    texts = {f"must-fail/{name}.edit": f"file: src/lib.rt\n{text}\n" for name, text in (edits or {}).items()}
    return {"src/lib.rt": lib.replace(TESTS_LINE, ""), **texts, **more}


def with_tests(tests=TESTS, **named):
    return {**crate_of(**named), "src/lib.rt": LIB, "src/tests.rt": tests}


def with_lib(old, new):
    return crate_of(lib=LIB.replace(old, new), edits=GOOD)


CASES = {
    "good crates, with an edit that stands on another of its batch, and with one above": Case(
        {**with_tests(edits={**GOOD, "two_wrong": WRONG_HERE}), **ABOVE},
        ("batch of 4: 4 refused", "gate: edit above/adds_one.edit: refused", "5 edits refused and 0 not, of 5 files"),
        passes=True,
        listed="small:\nabove: small\n",
    ),
    "edits that nothing refuses: in the middle of a batch, standing on a refused one, and the second of its function": Case(
        crate_of(
            edits={
                "adds_two": GOOD["adds_two"],
                "harmless": HARMLESS,
                "left_alone": GOOD["left_alone"],
                "second": SECOND,
                "standing": STANDING,
            }
        ),
        ("harmless.edit: NOT REFUSED", "second.edit: NOT REFUSED", "standing.edit: NOT REFUSED", "2 edits refused and 3 not"),
    ),
    "edit that nothing refuses, alone": Case(crate_of(edits={"harmless": HARMLESS}), ("harmless.edit: NOT REFUSED",)),
    "an edit that does not compile, in a batch, and one below a folder": Case(
        crate_of(
            edits={"adds_two": GOOD["adds_two"], "left_alone": GOOD["left_alone"], "unread": UNREAD},
            **{"must-fail/more/lost.edit": "file: src/lib.rt\n"},
        ),
        ("unread.edit: BAD EDIT", "lost.edit: BAD EDIT", "2 edits refused and 1 not, of 4 files"),
    ),
    "good crate, with a command beside it": Case(
        crate_of(), ("said beside it",), passes=True, beside=("sh", "-c", "echo said beside it")
    ),
    "command beside it that fails": Case(
        crate_of(), ("gate: passed", "gate: FAILED: sh -c exit 3 ended with status 3"), beside=("sh", "-c", "exit 3")
    ),
    "unproved body, and a command beside it": Case(
        with_lib("    one + 1", "    one + 2"), ("small NOT PROVED", "so there is nothing to try"), beside=("echo", "tried")
    ),
    "unproved body": Case(with_lib("    one + 1", "    one + 2"), ("small NOT PROVED",)),
    "test that fails": Case(with_tests(TESTS.replace("one_more(1), 2", "one_more(1), 3")), ("its tests FAILED",)),
    "text that is not laid out": Case(with_lib("    one + 1", "    one  +  1"), ("run rt fmt",)),
    "crate that is not listed": Case(crate_of(**{"../other/src/lib.rt": LIB}), ("other",)),
    "handle too many": Case(crate_of(lib=LIB + THREAD), ("HANDLES does not allow",)),
    "contract that no call can meet": Case(with_lib("x < 900", "x < 0"), ("no call can meet",)),
}


def run_gate(case):
    """Whether the gate makes of the case what it must, and what it printed."""
    with tempfile.TemporaryDirectory(prefix="gate-self-") as room:
        texts = {f"{room}/crates/small/{path}": text for path, text in case.files.items()}
        texts |= {f"{room}/crates.txt": case.listed, f"{room}/HANDLES": "Handles allowed: none.\n"}
        for file, text in texts.items():
            file = os.path.normpath(file)
            os.makedirs(os.path.dirname(file), exist_ok=True)
            with open(file, "w", encoding="utf-8") as it:
                it.write(text)
        how = {"stdout": subprocess.PIPE, "stderr": subprocess.STDOUT, "stdin": subprocess.DEVNULL}
        words = ["--beside", *case.beside] if case.beside else []
        ran = subprocess.run([sys.executable, GATE, "--anew", *words], cwd=room, errors="replace", **how)
    last = "gate: passed" if case.passes else ("gate: FAILED", "0 passed, 1 failed")
    ends_well = all(it in ran.stdout for it in case.says) and any(it.startswith(last) for it in ran.stdout.split("\n")[-3:])
    return (ran.returncode == 0) == case.passes and ends_well, ran.stdout


# --- the reading of a batch alone

PROVED = ["fn small::f: proved", "fn small::g: proved", "fn small::h: proved", "fn small::free: proved", "struct small::S: proved"]
PROVED += ["fn small::w: proved, may wait"]
GOAL = "note: src/lib.rt:12:5: it is not proved that what the function ensures holds when it returns (`returns`)"
REFUSED = "fn small::f: no proof: expected answers in ./proofs/f/Answers.antt; `search` did not prove `returns`"


def function(name, first, calls=(), has_contract=True):
    return Function(
        path="src/lib.rt", parts=["small", name], has_owner=False, lines=(first, first + 9), body=(0, 1), calls={*calls},
        has_contract=has_contract, is_plain=True, name=f"small::{name}", folder=f"proofs/{name}/",
    )


# `f` calls `g` and `free`; `free` states nothing; `h` gets the edit that changes nothing.
F, G, H = function("f", 10, ["g", "free"]), function("g", 20), function("h", 30)
FREE = function("free", 40, has_contract=False)


def reading(changed, edited=(F, G), lines=(GOAL,)):
    """The reading of a check whose lines are those of a proved crate, but for these."""
    now = {it.rpartition(": ")[0] if it in PROVED else it.partition(": ")[0]: it for it in [*PROVED, *changed]}
    trial = SimpleNamespace(functions=[F, G, H, FREE], kept=SimpleNamespace(proved=proved_in("\n".join(PROVED))))
    places = {f"{it.parts[-1]}.edit": (it, []) for it in edited}
    return Reading(trial, places, [H], {"src/lib.rt": ""}, [*lines, *filter(None, now.values())])


def lost(name):
    """The lines of a check in which this function has none."""
    made = reading([REFUSED])
    made.now.pop(("fn", name))
    return made


OTHERS_GOAL = GOAL.replace(":12:", ":35:")
CALLS = REFUSED + "; it calls `small::{}`, which is not proved"
READINGS = {
    "refused at a goal of its own": lambda: not reading([REFUSED]).why_void() and reading([REFUSED]).is_refused("f.edit"),
    "refused, and calls an edited function that states what it ensures": lambda: reading(
        [CALLS.format("g"), "fn small::g: not proved"]
    ).is_refused("f.edit"),
    "calls an edited function that states nothing": lambda: not reading(
        [CALLS.format("free"), "fn small::free: not proved"], edited=(F, FREE)
    ).is_refused("f.edit"),
    "not proved, and names an edited function that states nothing": lambda: not reading(
        ["fn small::f: not proved"], edited=(F, FREE)
    ).is_refused("f.edit"),
    "refused with no goal of its own": lambda: not reading([REFUSED], lines=()).is_refused("f.edit"),
    "only calls what is not proved": lambda: not reading(
        ["fn small::f: no proof: it calls `small::g`, which is not proved"], lines=()
    ).is_refused("f.edit"),
    "could not tell": lambda: not reading(["fn small::f: could not tell"]).is_refused("f.edit"),
    "proved": lambda: not reading([]).is_refused("f.edit"),
    "a goal in a function without an edit makes the batch void": lambda: reading([REFUSED], lines=(GOAL, OTHERS_GOAL)).why_void(),
    "an unproved function without an edit makes it void": lambda: reading([REFUSED, "fn small::free: not proved"]).why_void(),
    "a function that stands on a proved one alone makes it void": lambda: reading(
        [REFUSED, "fn small::free: no proof: it calls `small::g`, which is not proved"], edited=(F,)
    ).why_void(),
    "an edit that changes nothing and reads as refused makes it void": lambda: reading(
        [REFUSED, "fn small::h: no proof: `search` did not prove `returns`"]
    ).why_void(),
    "a function without a line makes it void": lambda: lost("small::free").why_void(),
    "a function that is proved, and waits only with the edit, makes it void": lambda: reading(
        [REFUSED, "fn small::free: proved, may wait"]
    ).why_void(),
    "a struct that is not proved makes it void": lambda: reading([REFUSED, "struct small::S: not proved"]).why_void(),
}


# --- the sum of the proved sources


def of_other_sources(named):
    """Whether a gate ends at once in a repository whose tools/proved_sources has this, or isn't there."""
    with tempfile.TemporaryDirectory(prefix="gate-sources-") as room:
        for it in ("crates/craq", "tools"):
            os.makedirs(f"{room}/{it}")
        shutil.copy(f"{os.path.dirname(GATE)}/sources", f"{room}/tools/sources")
        append(f"{room}/crates.txt", "")
        if named is not None:
            append(f"{room}/tools/proved_sources", named)
        ran = subprocess.run([sys.executable, GATE], cwd=room, capture_output=True, text=True)
        return ran.returncode == 1 and ran.stdout.startswith("gate: FAILED: tools/proved_sources")


SOURCES = {
    "tools/proved_sources has another sum": lambda: of_other_sources(f"{'0' * 64}  -\n"),
    "tools/proved_sources isn't there": lambda: of_other_sources(None),
}


# --- the record of edits


@contextlib.contextmanager
def crates_in(room):
    """Two crates, each with an edit, as the kit sees them."""
    for name in ("low", "high"):
        for path, text in crate_of(edits={"adds_two": GOOD["adds_two"]}).items():
            file = f"{room}/crates/{name}/{path}"
            os.makedirs(os.path.dirname(file), exist_ok=True)
            with open(file, "w", encoding="utf-8") as it:
                it.write(text)
    with open(f"{room}/crates.txt", "w", encoding="utf-8") as it:
        it.write("low:\nhigh: low\n")
    yield rtlib.crates_below(room)


def append(file, text):
    os.makedirs(os.path.dirname(file), exist_ok=True)
    with open(file, "a", encoding="utf-8") as it:
        it.write(text)


def replaced(file, old, new):
    """Writes `new` in place of `old`, which has to stand in the file once."""
    with open(file, encoding="utf-8") as it:
        text = it.read()
    if text.count(old) != 1:
        raise ValueError(f"{old} stands {text.count(old)} times in {file}")
    with open(file, "w", encoding="utf-8") as it:
        it.write(text.replace(old, new))


def taken_after(change):
    """Which crates stand in the record, once `change` was made to a repository that it was written for."""
    with tempfile.TemporaryDirectory(prefix="gate-self-") as room:
        with crates_in(room) as crates:
            rows = {record.row_of(it) for it in crates}
        change(room)
        return {it.name for it in rtlib.crates_below(room) if record.row_of(it) in rows}


def turns():
    """With all in the record, one is tried all the same; with none, none is taken; nor with --all."""
    with tempfile.TemporaryDirectory(prefix="gate-self-") as room, crates_in(room) as crates:
        rows = {record.row_of(it) for it in crates}
        found = [record.taken(crates, rows), record.taken(crates, set()), record.taken(crates, rows, tries_all=True)]
    return len(found[0]) == 1 and found[0] < {"low", "high"} and found[1:] == [set(), set()]


def draws():
    """A cheap crate is drawn far more often than a dear one, and each now and then."""
    costs = {"cheap": lanes.Cost(proof=10), "dear": lanes.Cost(proof=190)}
    found = [record.drawn({"cheap": number, "dear": number}, costs) for number in range(400)]
    return 0 < found.count("dear") < 60 and found.count("dear") + found.count("cheap") == 400


def landed_with(change):
    """Whether a commit gives the rows of its own crates, after `change` was made to the files that it was made of; None if
    it gives none."""
    with tempfile.TemporaryDirectory(prefix="gate-self-") as room, crates_in(room) as crates:
        rows = {record.row_of(it) for it in crates}
        for it in landed.SCRIPTS:
            os.makedirs(os.path.dirname(f"{room}/{it}"), exist_ok=True)
            shutil.copy(f"{HERE}/{os.path.basename(it)}", f"{room}/{it}")
        for words in (["init", "-q"], ["add", "-A"], [*GIT_NAMES, "commit", "-q", "-m", "all"]):
            subprocess.run(["git", "-C", room, *words], check=True)
        change(room)
        try:
            return set(landed.rows_of(room, "HEAD")) == rows
        except landed.OtherScripts:
            return None


GIT_NAMES = ["-c", "user.name=gate", "-c", "user.email=gate@localhost"]


RECORDS = {
    "one crate is tried though it stands in the record, in turn": turns,
    "a cheap crate is drawn more often": draws,
    "the same sources stand in it": lambda: taken_after(lambda room: None) == {"low", "high"},
    "a changed source of the crate does not": lambda: taken_after(
        lambda room: replaced(f"{room}/crates/high/src/lib.rt", "one + 1", "1 + one")
    ) == {"low"},
    "a changed body below it does": lambda: taken_after(
        lambda room: replaced(f"{room}/crates/low/src/lib.rt", "one + 1", "1 + one")
    ) == {"high"},
    "a changed contract below it does not": lambda: taken_after(
        lambda room: replaced(f"{room}/crates/low/src/lib.rt", "requires { x < 900 }", "requires { x < 800 }")
    ) == set(),
    "a changed definition below it does not": lambda: taken_after(
        lambda room: append(f"{room}/crates/low/specs/Lib.antt", "pub mod More\n")
    ) == set(),
    "a changed answer below it does": lambda: taken_after(
        lambda room: append(f"{room}/crates/low/proofs/larger/Answers.antt", "mod More\n")
    ) == {"high"},
    "a token more does not": lambda: taken_after(
        lambda room: append(f"{room}/crates/high/src/lib.rt", ";\n")
    ) == {"low"},
    "other comments do": lambda: taken_after(
        lambda room: replaced(f"{room}/crates/low/src/lib.rt", "//! Small functions", "//! A few\n//! functions")
    ) == {"low", "high"},
    "a text that can't be read does not": lambda: taken_after(
        lambda room: append(f"{room}/crates/high/src/lib.rt", '"\n')
    ) == {"low"},
    "an edit that can't be applied any longer does not": lambda: taken_after(
        lambda room: replaced(f"{room}/crates/high/src/lib.rt", "//! Small functions", "//!     x + 1: small functions")
    ) == {"low"},
    "a changed edit does not": lambda: taken_after(
        lambda room: append(f"{room}/crates/low/must-fail/adds_two.edit", "\n")
    ) == {"high"},
    "a commit that landed gives its own rows, whatever stands beside it": lambda: landed_with(
        lambda room: append(f"{room}/crates/low/src/lib.rt", "// more\n")
    ),
    "a commit that landed gives none for other scripts": lambda: landed_with(
        lambda room: append(f"{room}/tools/gate_parts/edits.py", "# more\n")
    )
    is None,
    "a lost edit does not": lambda: taken_after(lambda room: os.remove(f"{room}/crates/high/must-fail/adds_two.edit")) == {"low"},
}


def selftest(words):
    """Runs the cases whose name has one of these words, all if there are none."""
    is_chosen = lambda name: not words or any(it in name for it in words)
    failed, number = 0, os.environ.get("RT_JOBS", "")
    side_by_side = int(number) if number.isdigit() and int(number) else rt.processors()
    readings = [("reading", name, call) for name, call in READINGS.items() if is_chosen(name)]
    readings += [("sources", name, call) for name, call in SOURCES.items() if is_chosen(name)]
    readings += [("record", name, call) for name, call in RECORDS.items() if is_chosen(name)]
    for of, name, call in readings:
        is_well = bool(call())
        print(f"selftest: {of}: {name}: {'as it must be' if is_well else 'WRONG'}", flush=True)
        failed += not is_well
    chosen = [it for it in CASES if is_chosen(it)]
    with concurrent.futures.ThreadPoolExecutor(side_by_side) as pool:
        for name, (is_well, said) in zip(chosen, pool.map(lambda it: run_gate(CASES[it]), chosen)):
            wanted = "passed" if CASES[name].passes else "refused"
            print(f"selftest: {name}: {wanted}, as it must be" if is_well else f"selftest: {name}: WRONG; it said:\n{said}", flush=True)
            failed += not is_well
    print(f"selftest: {len(readings) + len(chosen) - failed} of {len(readings) + len(chosen)} well", flush=True)
    return 1 if failed else 0
