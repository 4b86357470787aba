"""The must-fail edits of a crate, many in one check.

A batch has at most one edit a function, each inside its body, and a few edits that change nothing. An edit passes only by
a refusal of its own function at a goal of its own. What no batch refuses is tried alone by the kit's `must_fail`, and what
isn't refused there once more from nothing, as the kit does it. Goals are stated from the contracts of what a function
calls, so a function with an open goal of its own is refused for itself also if it calls another edited function, if that
one says itself what it ensures."""
import collections
import itertools
import os
import re
from concurrent.futures import ThreadPoolExecutor

from kept import SUBJECT
from kit import rt, rtlib
from places import applied, functions_in, place_of, resolve

NAMES = r"`[^`]+`(?:(?:,| and) `[^`]+`)*"
GOALS = rf"`search` did not prove {NAMES}"
# What a function's own line has to be, whole, for its edit to pass.
REFUSED = re.compile(rf"not proved|no proof: expected answers in \S+; {GOALS}")
CALLS = re.compile(rf"(.*?); it calls ({NAMES}), which (?:is|are) not proved")
# A line of what stands on what is refused, and has no open goal of its own.
STANDS = re.compile(
    rf"(?:no proof|not proved)(?:(?:: |; )(?:it (?:calls|passes the block|passes the blocks) {NAMES}, "
    rf"which (?:is|are) not proved|it waits for the proofs? of {NAMES}))+"
)
GOAL = re.compile(r"note: (?:\./)?(src/\S+?):(\d+):\d+: .*\(`[^`]+`\)")
FAULT = re.compile(r"(?:note: )?(?:\./)?(\S+?):(\d+):\d+: (?:error: )?(.*)")
# A proof file's fault that says only that the edit took a name away.
LOST_NAMES = re.compile(r"has no field|is not in scope|has no `|was not admitted")
# Changes the code that is proved, and nothing of what it does.
NO_OP = b" let _gate = 0u8;"
NO_OPS = 3
# A batch has at least this many edits, if there are several batches side by side.
LEAST = 4


def tried_alone(crate, edit, flags, folder=None):
    """The kit's own verdict on an edit: (whether it is refused, what to say); from nothing, if no folder is given."""
    verdict, text = rt.must_fail(crate, edit, flags, folder)
    # rattle-kit-13b says it itself; later ones say how it was refused
    return verdict is True or verdict in (getattr(rt, "REFUSED", True), getattr(rt, "AT_LIMIT", True)), text


class Trial:
    """The must-fail edits of one crate, tried over what a check of the crate kept, `side_by_side` checks at a time."""

    def __init__(self, crate, kept, flags, side_by_side=1):
        self.crate, self.kept, self.flags, self.side_by_side = crate, kept, flags, side_by_side
        self.verdicts, self.log, self.batches = {}, [], itertools.count(1)
        self.functions, self.texts, self.waiting = [], {}, set()

    def run(self, edits):
        """The verdict of each edit, (whether it is refused, what to say), in order."""
        self.functions = functions_in(self.crate)
        resolve(self.crate, self.functions, self.kept.proved["fn"])
        for path in {it.path for it in self.functions}:
            with open(f"{self.crate.folder}/{path}", "rb") as file:
                self.texts[path] = file.read()
        with ThreadPoolExecutor(self.side_by_side) as pool:
            self.try_in_batches(edits, pool)
            alone = [it for it in edits if it not in self.verdicts]
            self.verdicts.update(zip(alone, pool.map(self.alone, alone)))
        if alone:
            self.log.append(f"alone: {len(alone)}: {' '.join(os.path.basename(it) for it in alone)}")
        return self.judged(edits)

    def alone(self, edit):
        with self.kept.opened() as room:
            return tried_alone(self.crate, edit, self.flags, room)

    def judged(self, edits):
        """As the verdicts say, if the crate without an edit is proved over the kept work; else each from nothing."""
        with self.kept.opened() as room:
            is_sound = not rt.checked(self.crate, {}, self.flags, room).returncode and self.kept.is_untouched()
        if not is_sound:
            self.log.append("the crate itself is not proved over its kept work: each edit is tried from nothing")
        return [
            self.verdicts[it] if is_sound and self.verdicts[it][0] else tried_alone(self.crate, it, self.flags)
            for it in edits
        ]

    def try_in_batches(self, edits, pool):
        places = {it: place_of(it, self.crate, self.functions, self.texts) for it in edits}
        places = {it: place for it, place in places.items() if place}
        left = list(places)
        while len(left) > 1:
            first_of = {}
            for it in left:
                first_of.setdefault(places[it][0], it)
            tried = list(first_of.values())
            self.waiting = set()
            count = max(1, min(self.side_by_side, len(tried) // LEAST))
            batches = [{it: places[it] for it in tried[at::count]} for at in range(count)]
            passed = sum(pool.map(self.batch, batches))
            # one that stands on another of its batch has one more turn, without those that passed
            again = [it for it in tried if it in self.waiting and it not in self.verdicts] if passed else []
            left = [it for it in left if it not in first_of.values()] + again

    def batch(self, places):
        """Tries these edits in one check, or in halves if that tells nothing, and returns how many it refuses."""
        no_ops = self.no_ops({function for function, _ in places.values()})
        if not no_ops and len(places) > 2:
            # each function has an edit: the shortest one's waits, and its function gets one that changes nothing
            held = min(places, key=lambda it: places[it][0].body[1] - places[it][0].body[0])
            self.waiting.add(held)
            places = {it: place for it, place in places.items() if it != held}
            no_ops = self.no_ops({function for function, _ in places.values()})
        if len(places) < 2 or not no_ops:
            return 0
        changes = collections.defaultdict(list)
        for function, spots in places.values():
            changes[function.path] += spots
        for it in no_ops:
            changes[it.path].append((it.body[0], it.body[0], NO_OP))
        texts = {path: applied(self.texts[path], spots).decode() for path, spots in changes.items()}
        with self.kept.opened() as room:
            ran = rt.checked(self.crate, texts, self.flags, room)
        self.keep_log(ran.stdout)
        return self.passed_of(places, no_ops, texts, ran)

    def passed_of(self, places, no_ops, texts, ran):
        lines = ran.stdout.rstrip("\n").split("\n")
        if ran.returncode != 1 or not lines[-1].startswith("logic=not-proved") or rtlib.STALE.search(ran.stdout):
            why = f"did not reach the prover: {lines[-1][:120]}"
        else:
            reading = Reading(self, places, no_ops, texts, lines)
            why = reading.why_void()
            if not why:
                return self.take(reading)
        self.log.append(f"batch of {len(places)} {why}")
        whole, half = list(places.items()), len(places) // 2
        return self.batch(dict(whole[:half])) + self.batch(dict(whole[half:])) if half > 1 else 0

    def take(self, reading):
        """Takes over what a batch tells, and returns how many edits it refuses."""
        passed = 0
        for edit in reading.places:
            if reading.is_refused(edit):
                label = f"must-fail {self.crate.name}/{os.path.basename(edit)}"
                goal = reading.own[edit][0][:160]
                self.verdicts[edit] = True, f"{label}: refused, as it must be: {goal} (one of {len(reading.places)})"
                passed += 1
            elif reading.may_wait(edit):
                self.waiting.add(edit)
        self.log.append(f"batch of {len(reading.places)}: {passed} refused, {len(self.waiting)} stand on others or are unclear")
        return passed

    def no_ops(self, edited):
        """Functions for the edits that change nothing: proved without them, not edited in this batch, and, as far as names
        tell, not standing on an edited one; one of them with proof files, if there is one."""
        tainted = {it.parts[-1] for it in edited}
        while True:
            more = {it.parts[-1] for it in self.functions if it.calls & tainted} - tainted
            if not more:
                break
            tainted |= more
        able = [it for it in self.functions if it.is_plain and it not in edited and it.body[1] > it.body[0]]
        able = [it for it in able if it.parts[-1] not in tainted] or able
        able.sort(key=lambda it: (it.body[1] - it.body[0] < 20, it.body[1] - it.body[0], it.name))
        written = [it for it in able if os.path.isdir(f"{self.crate.folder}/{it.folder}")]
        bare = [it for it in able if it not in written]
        return (bare[: NO_OPS - 1] + written)[:NO_OPS]

    def keep_log(self, said):
        folder = os.environ.get("GATE_LOGS")
        if folder:
            with open(f"{folder}/{self.crate.name}.batch{next(self.batches)}.log", "w", encoding="utf-8") as it:
                it.write(said)


class Reading:
    """What the check of a batch says of each edit."""

    def __init__(self, trial, places, no_ops, texts, lines):
        self.trial, self.places, self.no_ops = trial, places, no_ops
        self.by_name = {function.name: function for function, _ in places.values()}
        self.own = {edit: [] for edit in places}
        self.now = {(it[1], it[2]): it[3] for it in map(SUBJECT.fullmatch, lines) if it}
        self.void, self.unclear = [], set()
        for line in lines:
            self.read(line, texts)

    def read(self, line, texts):
        """Finds whose a fault or an open goal is."""
        fault = FAULT.match(line)
        if not fault or ": warning" in line:
            return
        at = int(fault[2])
        mine = [
            edit
            for edit, (function, _) in self.places.items()
            if function.holds(fault[1], at) or fault[1].startswith(function.folder)
        ]
        if rt.unread(line, texts):
            self.unclear.update(mine)
        elif GOAL.match(line) or fault[1].startswith("proofs/") and ": error" in line and not LOST_NAMES.search(line):
            for it in mine:
                self.own[it].append(line)
        else:
            return
        if not mine:
            self.void.append(line)

    def why_void(self):
        """Why the batch tells nothing, or None: all that isn't edited has to be proved, but for what only stands on an edit."""
        void = list(self.void)
        edited = set(self.by_name)
        for (kind, name), said in self.now.items():
            if said == "assumed" or self.is_as_before(kind, name):
                continue
            if kind == "fn" and (name in edited or self.is_closure(name, edited)):
                continue
            if not self.only_stands(said):
                void.append(f"{kind} {name}: {said}")
        for kind, names in self.trial.kept.proved.items():
            gone = [it for it in names if (kind, it) not in self.now and "Destruct" not in it]
            void += [f"{kind} {it}: has no line" for it in gone if not self.is_closure(it, edited)]
        for it in self.no_ops:
            said = self.now.get(("fn", it.name), "no line")
            if not self.is_as_before("fn", it.name) and not self.only_stands(said):
                void.append(f"the edit that changes nothing, in {it.name}: {said}")
        return f"is void: {void[0][:200]} ({len(void)} such lines)" if void else None

    def only_stands(self, said):
        """Whether this line says only that what it names is not proved, which then reads so too; a method that an impl waits
        for has no path."""
        on = [it for it in re.findall(r"`([^`]+)`", said) if "::" in it]
        return bool(STANDS.fullmatch(said)) and not any(
            self.is_as_before(kind, it) for it in on for kind in ("fn", "impl")
        )

    def is_as_before(self, kind, name):
        """Whether this is proved, as in the crate without an edit: the check says the same of it."""
        before = self.trial.kept.proved[kind].get(name)
        return before is not None and before == self.now.get((kind, name))

    def is_refused(self, edit):
        """Whether the edit's own function is refused at a goal of its own."""
        function = self.places[edit][0]
        said = self.now.get(("fn", function.name), "")
        calls = CALLS.fullmatch(said)
        if calls and all(self.is_as_stated(it, function) for it in re.findall(r"`([^`]+)`", calls[2])):
            said = calls[1]
        if said == "not proved" and self.names_unstated(function):
            return False
        return bool(REFUSED.fullmatch(said) and self.own[edit]) and edit not in self.unclear

    def is_as_stated(self, name, function):
        """Whether goals of this function are the same whatever the body of that callee is: it is a closure of its own, or
        states what it ensures."""
        if self.is_closure(name, [function.name]):
            return True
        return any(it.name == name and it.has_contract for it in self.trial.functions)

    def names_unstated(self, function):
        """Whether the function's own text names an edited one that states nothing."""
        others = {it.parts[-1] for it in self.by_name.values() if it is not function and not it.has_contract}
        return bool(others & function.calls)

    def may_wait(self, edit):
        said = self.now.get(("fn", self.places[edit][0].name), "")
        return said.startswith(("not proved", "no proof")) and edit not in self.unclear

    def is_closure(self, name, of):
        """Whether this is a closure of one of these functions: `a::m::fn::S::f::..` of `a::m::S::f`."""
        whole = name.replace("::fn::", "::", 1)
        return "::fn::" in name and any(whole.startswith(f"{it}::") for it in of)
