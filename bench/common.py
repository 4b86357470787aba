"""Shared by the benchmarks: sets as bytes, schedules as files, and the cost of a run."""
import os
import re
import resource
import subprocess
import sys
import tempfile

from live_parts.setting import Beside

TOP = os.path.dirname(os.path.dirname(os.path.abspath(__file__)))
PROGRAM = os.path.join(TOP, "crates", "craq", "out", "craq")
EXAMPLE = os.path.join(TOP, "examples", "set_then_gets.schedule")
RUNS = 5
CALL = "begin 0\nwork 0\nhand 0\n"
BESIDE = Beside()
COUNTING = sys.argv[1:] == ["--instructions"]
if sys.argv[1:] and not COUNTING:
    sys.exit(f"usage: {sys.argv[0]} [--instructions]")


def finished(words, **how):
    """Runs this command, and waits until it has ended."""
    try:
        return subprocess.run(words, text=True, **how)
    except OSError as fault:
        sys.exit(f"{words[0]}: {fault.strerror}")


def build():
    """Builds the program if it has to be built, and runs it once."""
    built = finished([os.path.join(TOP, "craq"), "scenario", EXAMPLE], stdout=subprocess.DEVNULL)
    if built.returncode != 0:
        sys.exit("craq isn't built")


def build_crate(crate, *words):
    """Builds a program that only benchmarks use, and runs it once with these arguments. Gives its path."""
    folder = os.path.join(TOP, "crates", crate)
    built = finished(["rt", "run", "--", *words], cwd=folder, stdout=subprocess.PIPE, stderr=subprocess.STDOUT)
    if built.returncode != 0:
        sys.exit(f"{built.stdout}{crate} isn't built")
    return os.path.join(folder, "out", crate)


def pipelined_sets(size, data=100):
    """At least `size` bytes of sets with `data` bytes of data each: the bytes, and where each request ends."""
    text, ends = bytearray(), []
    while len(text) < size:
        text += b"set key%05d 0 0 %d\r\n" % (len(ends) % 100000, data)
        text += b"x" * data + b"\r\n"
        ends.append(len(text))
    return bytes(text), ends


def escaped(piece):
    return piece.decode("ascii").replace("\\", "\\\\").replace("\r", "\\r").replace("\n", "\\n")


def in_pieces(text, ends, length, connection=0):
    """A schedule in which the bytes come in pieces of this length, and each request is answered when complete."""
    lines, answered = ["servers 1\nhomes 0\n"], 0
    for at in range(0, len(text), length):
        lines.append(f"piece {connection} {escaped(text[at:at + length])}\n")
        while answered < len(ends) and ends[answered] <= at + length:
            lines.append(CALL.replace("0", str(connection)))
            answered += 1
        lines.append(f"begin {connection}\n")
    return "".join(lines)


def tell_how(of=""):
    """Says what the numbers are, and of times whether the machine was idle."""
    print(f"(instructions{of}, by valgrind)" if COUNTING else
          f"(processor time, the least of {RUNS} runs, on {BESIDE.told()})")


def processor_seconds():
    used = resource.getrusage(resource.RUSAGE_CHILDREN)
    return used.ru_utime + used.ru_stime


def least(words):
    """The processor time of this command, the least of RUNS runs."""
    least = float("inf")
    for _ in range(RUNS):
        start = processor_seconds()
        done = finished(words, stdout=subprocess.DEVNULL)
        least = min(least, processor_seconds() - start)
        if done.returncode != 0:
            sys.exit(f"failed: {' '.join(words)}")
    return least


def counted(words):
    """How many instructions this command takes, by valgrind: the same at each run, whatever else runs."""
    valgrind = ["valgrind", "--tool=callgrind", "--callgrind-out-file=/dev/null", *words]
    done = finished(valgrind, stdout=subprocess.DEVNULL, stderr=subprocess.PIPE)
    found = re.search(r"Collected : (\d+)", done.stderr)
    if done.returncode != 0 or found is None:
        sys.exit(f"failed under valgrind: {' '.join(words)}\n{done.stderr}")
    return int(found.group(1))


def on_file(schedule, measure):
    """Measures the program on this schedule."""
    with tempfile.NamedTemporaryFile("w", suffix=".schedule") as file:
        file.write(schedule)
        file.flush()
        return measure([PROGRAM, "scenario", file.name])


def seconds(schedule):
    return on_file(schedule, least)


def instructions(schedule):
    return on_file(schedule, counted)
