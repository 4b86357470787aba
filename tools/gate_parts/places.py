"""Where a must-fail edit stands: the functions of a crate's sources, and which of them an edit changes."""
import os
import re
import subprocess
from dataclasses import dataclass, field

from kit import rt, rtlib

# A new text with one of these words may write an item, or hide what follows it, so no batch takes it.
ITEMS = re.compile(
    rb"\b(impl|macro_rules|use|mod|static|struct|enum|union|trait|fn|const|type|ghost|extern|unsafe)\b|#|//|/\*"
)
# Functions whose body a contract or another function may see, or that no plain check reads.
UNPLAIN = {"const", "cycle", "unsafe", "extern", "test", "cfg"}


@dataclass(eq=False)
class Function:
    """A function of a source file."""

    path: str  # of its file, below the crate
    parts: list  # of its name, the crate's first
    has_owner: bool  # whether it stands in an impl
    lines: tuple  # its first and last line, attributes and clauses among them
    body: tuple  # the bytes between its braces: start, end
    calls: set  # the words of its code
    is_plain: bool  # whether a batch may edit it
    has_contract: bool = False  # whether it says itself what it ensures
    name: str = ""  # as a check prints it, once `resolve` has found it
    folder: str = field(default="proofs/?/")  # of what is written of its proof

    def holds(self, path, line):
        return path == self.path and self.lines[0] <= line <= self.lines[1]


def functions_in(crate):
    """The functions of the crate's sources, by rattle's own tokens; none if these can't be read."""
    files = sorted(os.path.relpath(it, crate.folder) for it in rtlib.files_of(crate.folder) if it.endswith(".rt"))
    ran = subprocess.run([rtlib.RATTLE, "fmt", "--tokens", *files], cwd=crate.folder, capture_output=True)
    rows = re.split(rb"(?m)^file \d+\n", ran.stdout)[1:]
    if ran.returncode or len(rows) != len(files):
        return []
    found = []
    for path, row in zip(files, rows):
        with open(f"{crate.folder}/{path}", "rb") as it:
            data = it.read()
        spans = [(int(it[1]), int(it[2])) for it in re.finditer(rb"(?m)^\d+ (\d+) (\d+) Code ", row)]
        promises = [int(it[1]) for it in re.finditer(rb'(?m)^\d+ (\d+) \d+ Head "ensures', row)]
        tokens = [(start, end, data[start:end].decode()) for start, end in spans]
        found += functions_of(crate.name, path, data, tokens, promises)
    return found


def functions_of(crate, path, data, tokens, promises):
    """The functions of one file, from its tokens (start, end, word) and from where `ensures` stands in it."""
    found, open_now, head, depth = [], [], None, 0
    for at, (start, end, word) in enumerate(tokens):
        if word in ("fn", "impl", "trait", "mod") and head is None and not any(it[0] == "fn" for it in open_now):
            head, depth = (word, at), 0
        if head:
            depth += (word in "([") - (word in ")]")
            if word == ";" and depth == 0:
                head = None
            elif word == "{" and depth == 0:
                kind, first = head
                open_now.append((kind, [it[2] for it in tokens[first + 1 : at]], first, at))
                head = None
                continue
        if word == "{":
            open_now.append(("", [], at, at))
        elif word == "}":
            if not open_now:
                return []
            opened = open_now.pop()
            if opened[0] == "fn":
                made = function_of(crate, path, data, tokens, opened, open_now, (start, end), at)
                head_bytes = tokens[opened[2]][0], made.body[0]
                made.has_contract = any(head_bytes[0] < it < head_bytes[1] for it in promises)
                found.append(made)
    return found


def function_of(crate, path, data, tokens, opened, around, closing, at):
    """The function that these tokens spell: its head begins at `opened`, and it lies in what is open around it."""
    _, words, first, brace = opened
    module = [] if path in ("src/lib.rt", "src/main.rt") else path[len("src/") : -len(".rt")].removesuffix("/mod").split("/")
    inner = [it[1][0] for it in around if it[0] == "mod"]
    owners = [owner_of(it[0], it[1]) for it in around if it[0] in ("impl", "trait")]
    # what stands between the item before and the word fn: attributes, pub, const
    before, back = [], first - 1
    while back >= 0 and tokens[back][2] not in ("}", ";", "{"):
        before.append(tokens[back][2])
        back -= 1
    # a goal of its contract stands at its first attribute
    lines = data[: tokens[back + 1][0]].count(b"\n") + 1, data[: closing[1]].count(b"\n") + 1
    return Function(
        path=path,
        parts=[crate, *module, *inner, *[it for it in owners if it], words[0]],
        has_owner=bool(owners),
        lines=lines,
        body=(tokens[brace][1], closing[0]),
        calls={it[2] for it in tokens[brace:at]},
        is_plain=len(owners) <= 1 and None not in owners and not UNPLAIN & {*before},
    )


def owner_of(kind, words):
    """The name that a check gives an impl's methods, of plain impls alone: `impl S`, `impl<T> S<T>`, `impl Trait for S`."""
    if kind == "trait":
        return None
    depth, plain = 0, []
    for it in words:
        depth -= it.count(">") if set(it) == {">"} else 0
        if depth == 0 and not set(it) <= {"<", ">"}:
            plain.append(it)
        depth += it.count("<") if set(it) == {"<"} else 0
    if "where" in plain:
        plain = plain[: plain.index("where")]
    if "for" in plain:
        at = plain.index("for")
        trait, of = plain[:at], plain[at + 1 :]
        return of[-1] + trait[-1] if len(of) == 1 and re.fullmatch(r"\w+", of[0]) and re.fullmatch(r"\w+", trait[-1]) else None
    return plain[0] if len(plain) == 1 and re.fullmatch(r"\w+", plain[0]) else None


def resolve(crate, functions, printed):
    """Gives each function the name that a check prints for it. A method stands there under the module of its type, and an
    impl's name goes on with its trait's parameters. If the names leave a choice, no batch may have the function."""
    ends = [(it.has_owner, "::".join(it.parts[-2:] if it.has_owner else it.parts[1:])) for it in functions]
    for it, end in zip(functions, ends):
        if it.has_owner:
            more = r"\w+" if it.parts[-2].endswith("From") else ""
            pattern = rf"{crate.name}::(\w+::)*{it.parts[-2]}{more}::{it.parts[-1]}"
            fits = [name for name in printed if "::fn::" not in name and re.fullmatch(pattern, name)]
        else:
            fits = [name for name in printed if name == f"{crate.name}::{end[1]}"]
        if len(fits) == 1 and ends.count(end) == 1:
            it.name, it.folder = fits[0], "proofs/" + "/".join(fits[0].split("::")[1:]) + "/"
        else:
            it.is_plain = False


def place_of(edit, crate, functions, texts):
    """The function in whose body the edit stands, and the edit's places there (start, end, new text), or None if a batch
    may not have it."""
    with open(edit, encoding="utf-8", errors="replace") as it:
        lines = it.read().split("\n")
    paths = [it[len("file: ") :].strip() for it in lines if it.startswith("file: ")]
    olds = [it[len("old: ") :].encode() for it in lines if it.startswith("old: ")]
    news = [re.sub(r"\A ", "", it[len("new:") :]).encode() for it in lines if it.startswith("new:")]
    # the kit must read the same edit: its text after all pairs is compared below
    read, why = rt.read_edit(edit, crate.folder)
    if why or len(paths) != 1 or len(olds) != len(news) or [*read] != paths or paths[0] not in texts:
        return None
    data, places, inside = texts[paths[0]], [], set()
    for old, new in zip(olds, news):
        if data.count(old) != 1 or ITEMS.search(new):
            return None
        start = data.index(old)
        places.append((start, start + len(old), new))
        inside |= {it for it in functions if it.path == paths[0] and it.body[0] <= start and start + len(old) <= it.body[1]}
    if len(inside) != 1:
        return None
    function = inside.pop()
    is_in = all(function.body[0] <= start and end <= function.body[1] for start, end, _ in places)
    if not is_in or not function.is_plain or applied(data, places) != read[paths[0]].encode():
        return None
    return None if shares_a_line(function, functions) else (function, places)


def shares_a_line(function, functions):
    """Whether another function stands on one of its lines, so that a goal's line would not tell whose it is."""
    return any(
        it is not function
        and it.path == function.path
        and it.lines[0] <= function.lines[1]
        and function.lines[0] <= it.lines[1]
        for it in functions
    )


def applied(data, places):
    """The text with each place's new text."""
    for start, end, new in sorted(places, reverse=True):
        data = data[:start] + new + data[end:]
    return data
