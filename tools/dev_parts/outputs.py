"""What a check printed: its verdict in a few words, and its open goals."""
import re

# How many lines of a failed check are shown, and how long each may be: the whole stands in its log.
LINES, WIDTH = 40, 1000
# A fault at a place of a file, an open goal, what a goal says, and what is said of a function.
TOLD = re.compile(
    r"(?:\./)?\S+:\d+:\d+: error"
    r"|error"
    r"|note: (?:\./)?src/\S+?:\d+:\d+: .*\(`[^`]+`\)"
    r"|note: `[^`]+` of \S+ must prove: "
    r"|(?:fn|impl|struct|enum|trait|union) \S+: (?!proved|assumed)"
    r"|warning: no call of `"
    r"|test \S+ \.\.\. FAILED|test result: FAILED"
    r"|rt: |rattle: |dev: "
)
# Of rt's own lines those that say nothing of a failure.
ADVICE = re.compile(r"rt: (?:chose |rt (?:check|lemma|all|fmt|test) |running |nothing has changed|note: )")


def counts(said):
    """The last verdict's numbers, as `17 functions, 3 tests`; nothing without a verdict of success."""
    verdicts = re.findall(r"(?m)^logic=proved (.*)", said)
    words = dict(it.partition("=")[::2] for it in verdicts[-1].split()) if verdicts else {}
    return ", ".join(f"{words[it]} {it}" for it in ("functions", "tests") if it in words)


def open_goals(said):
    """The lines that say what isn't proved, at most LINES of them; if there are none, the last that were printed."""
    lines = said.rstrip("\n").split("\n")
    told = [it for it in lines if TOLD.match(it) and not ADVICE.match(it)]
    if not told:
        told = [it for it in lines if it and not re.match(r"statements |fn \S+: proved", it)][-8:]
    shown = [it if len(it) <= WIDTH else f"{it[:WIDTH]} .." for it in told[:LINES]]
    return shown + [f".. and {len(told) - LINES} lines more"] * (len(told) > LINES)


def lost_edits(said):
    """The lines on must-fail edits that no longer can be applied."""
    return [it for it in said.split("\n") if it.startswith("dev: must-fail/")]


def edit_lines(said):
    """The lines of a trial of edits that tell how each ended."""
    lines = [it for it in said.split("\n") if it.startswith(("edit ", "dev: "))]
    return [it if len(it) <= WIDTH else f"{it[:WIDTH]} .." for it in lines] or open_goals(said)
