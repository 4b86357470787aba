"""What a check reads of a crate's files: their tokens without comments, as rattle itself prints them."""
import os
import re
import subprocess
import tempfile

from kit import rt, rtlib

# A token's line, start, end, kind and text, as `rattle fmt --tokens` has them.
ROW = re.compile(rb"(?m)^(\d+) (\d+) (\d+) (.*)$")
COMMENTS = b"//", b"/*"


def of_crate(crate):
    """Of each file of the crate that a check reads, its path and what a check reads of it."""
    paths = [os.path.relpath(it, crate.folder) for it in rtlib.files_of(crate.folder)]
    return [*zip(paths, of_files(crate.folder, paths))]


def of_edits(crate, edits):
    """Of each file that one of these edits changes, its path and what a check reads of it then; and why edits can't be
    applied, if some can't."""
    with tempfile.TemporaryDirectory(prefix="gate-edited-") as room:
        paths, faults = [], []
        for number, edit in enumerate(edits):
            texts, why = rt.read_edit(edit, crate.folder)
            faults += [why] if why else []
            for path, text in (texts or {}).items():
                paths.append(f"{number}/{path}")
                os.makedirs(os.path.dirname(f"{room}/{paths[-1]}"), exist_ok=True)
                with open(f"{room}/{paths[-1]}", "w", encoding="utf-8") as it:
                    it.write(text)
        return [*zip(paths, of_files(room, paths)), *faults]


def outside(folder, path, bodies):
    """The words of a source but for comments and what lies in these bodies (start, end); the whole file, if rattle can't
    read it."""
    text = bytes_of(f"{folder}/{path}")
    ran = subprocess.run([rtlib.RATTLE, "fmt", "--tokens", path], cwd=folder, capture_output=True)
    if ran.returncode:
        return text
    found = []
    for _, start, end, _ in ROW.findall(ran.stdout):
        begin, end = int(start), int(end)
        if not any(first <= begin and end <= last for first, last in bodies):
            found.append(text[begin:end])
    return [it for it in found if not it.startswith(COMMENTS)]


def of_files(folder, paths):
    """Of each of these files what a check reads of it. If rattle can't read one, each whole file, comments and all."""
    texts = [bytes_of(f"{folder}/{it}") for it in paths]
    read = [at for at, it in enumerate(paths) if it.endswith((".rt", ".antt"))]
    if not read:
        return texts
    words = [rtlib.RATTLE, "fmt", "--tokens", *(paths[it] for it in read)]
    ran = subprocess.run(words, cwd=folder, capture_output=True)
    parts = re.split(rb"(?m)^file \d+\n", ran.stdout)[1:]
    if ran.returncode or len(parts) != len(read):
        return texts
    for at, rows in zip(read, parts):
        texts[at] = without_comments(texts[at], rows)
    return texts


def without_comments(text, rows):
    """The tokens of these rows, each with its column, its length and whether it is the first of its line: comments and
    empty lines go, and all else that a layout says stays."""
    found, line_before, begins = [], b"", [0, *(it.end() for it in re.finditer(rb"\n", text))]
    for line, start, end, token in ROW.findall(rows):
        place = int(start) - begins[int(line) - 1], int(end) - int(start)
        found.append(b"%d %d %d " % (line != line_before, *place) + token)
        line_before = line
    return b"\n".join(found)


def bytes_of(file):
    with open(file, "rb") as it:
        return it.read()
