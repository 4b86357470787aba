"""What a benchmark shows: titles and tables, each with what else the machine did meanwhile; printed, and kept for a
page."""
import sys
import textwrap

from live_parts import tables


def wrapped(text):
    """In lines of at most 120 columns."""
    return textwrap.fill(text, 120, break_long_words=False, break_on_hyphens=False)


class Shown:
    """Sections of a page: what was shown of each part."""

    def __init__(self, beside):
        self.sections, self.beside = {}, beside

    def add(self, part, *titled):
        """Titles and tables that were measured together, since the last ones were shown."""
        foot, shown = f"On {self.beside.told()}.", self.sections.setdefault(part, [])
        for title, table in titled:
            print(f"\n{title}\n\n{tables.plain(table)}\n\n{foot}", flush=True)
            shown += [wrapped(f"{title}:"), tables.markdown(table), wrapped(foot)]
        self.beside.begin()

    def put_into(self, page, words):
        """Replaces what stands between the marks of each part that was measured; a part without marks comes last."""
        with open(page) as file:
            text = file.read()
        for part, shown in self.sections.items():
            begin, end = f"<!-- bench/live: {part} -->\n", f"<!-- end of {part} -->"
            if begin not in text:
                text = f"{text.rstrip()}\n\n## {part.capitalize()}\n\n{begin}{end}\n"
            if end not in text:
                sys.exit(f"{page} has no end of {part}")
            before, rest = text.split(begin, 1)
            after = rest.split(end, 1)[1]
            text = before + begin + "\n" + "\n\n".join([wrapped(words), *shown]) + "\n\n" + end + after
        with open(page, "w") as file:
            file.write(text)
