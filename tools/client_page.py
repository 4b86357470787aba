"""What tools/test_clients takes from docs/CLIENTS.md, and how it compares that page with the files of tools/clients."""
import re
from pathlib import Path

TOOLS = Path(__file__).resolve().parent
FOLDER = TOOLS / "clients"
PAGE = TOOLS.parent / "docs/CLIENTS.md"
FILE = re.compile(r"\]\(\.\./tools/clients/([\w.]+)\)")
# The heads of the page's tables.
TRIED = ["client", "version", "how", "after a kill"]
REFUSED = ["client", "call", "sends", "is answered", "gives"]


class Row:
    """A call of a client, as the page has it: what it sends, what is answered to that, and what the client gives. In
    each `..` stands for any text."""

    def __init__(self, client, *cells):
        self.client = client
        self.call, self.sends, self.answers, self.gives = (it.strip("`") for it in cells)


def lines():
    return PAGE.read_text().splitlines()


def table(head):
    """The rows of the table with this head."""
    found, is_in = [], False
    for line in lines():
        cells = [it.strip() for it in line.strip().strip("|").split(" | ")] if line.startswith("|") else []
        is_in = bool(cells) and (is_in or cells == head)
        if is_in and cells != head and not line.startswith("|---"):
            found.append(cells)
    return found


def version(client):
    """The version that the page's lines on a client are of."""
    return next((it[1] for it in table(TRIED) if it[0] == client), "")


def rows(client):
    """What the page says is refused of this client."""
    return [Row(*it) for it in table(REFUSED) if it[0] == client]


def differing_page(names):
    """What is wrong with the page, in words: a block isn't lines of the file that is named above it, a file isn't
    named, or its clients aren't those of these names."""
    faults, named = [], set()
    for above, block in blocks():
        file = FILE.findall(above)[-1:]
        if file and "\n".join(["", *block, ""]) not in f"\n{(FOLDER / file[0]).read_text()}\n":
            faults.append(f"the block that begins with {block[0]!r} isn't in {file[0]}")
        if not file and not block[0].startswith("$ "):
            faults.append(f"no file is named above the block that begins with {block[0]!r}")
    named = set(FILE.findall(PAGE.read_text()))
    there = {it.name for it in FOLDER.iterdir() if it.is_file()}
    faults += [f"no file {it} is in {FOLDER.name}" for it in sorted(named - there)]
    faults += [f"{it} isn't named" for it in sorted(there - named)]
    shown = [it[0] for it in table(TRIED)]
    if sorted(shown) != sorted(names):
        faults.append(f"its clients are {sorted(shown)}, and those that are tried {sorted(names)}")
    return faults + [f"a row of {it[0]}, which isn't tried" for it in table(REFUSED) if it[0] not in names]


def blocks():
    """Each block of the page, with the paragraph above it."""
    found, above, block = [], [], None
    for line in lines():
        if line.startswith("```") and block is None:
            block = []
        elif line.startswith("```"):
            found.append((" ".join(above), block))
            above, block = [], None
        elif block is not None:
            block.append(line)
        elif line.strip() and (not above or above[-1].strip()):
            above.append(line)
        elif line.strip():
            above = [line]
        elif above:
            above.append(line)
    return found
