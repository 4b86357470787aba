"""What is measured, and where: the program, the commit, the machine, and what else ran on it."""
import os
import re
import resource
import subprocess
import sys
import time

TOP = os.path.dirname(os.path.dirname(os.path.dirname(os.path.abspath(__file__))))
# Of a machine that is called idle: the greatest load average at the start, and the most processors that others use.
IDLE = .5
# Of the launcher's two programs, the proved one.
os.environ["CRAQ_PROVED"] = "1"


def program():
    """The built program's command line."""
    return checked([os.environ.get("CRAQ", os.path.join(TOP, "craq"))])


def binary():
    """The built program's own file, which the launcher starts."""
    program()
    return os.environ.get("CRAQ", os.path.join(TOP, "crates", "craq", "out", "craq"))


def checked(command):
    """This command line of the program, which has answered a scenario."""
    example = os.path.join(TOP, "examples", "set_then_gets.schedule")
    try:
        built = subprocess.run([*command, "scenario", example], stdout=subprocess.DEVNULL).returncode == 0
    except OSError as fault:
        sys.exit(f"{command[0]}: {fault.strerror}")
    if not built:
        sys.exit(f"{' '.join(command)}: craq isn't built")
    return command


def machine():
    """The machine, in a phrase."""
    with open("/proc/cpuinfo") as lines:
        model = re.search(r"model name\s*: (.*)", lines.read())
    with open("/proc/meminfo") as lines:
        total = int(re.search(r"MemTotal:\s*(\d+)", lines.read()).group(1))
    return f"{os.cpu_count()} cores ({model.group(1) if model else 'unknown'}), {total / 2**20:.0f} GiB of memory"


def git(*words):
    return subprocess.run(["git", "-C", TOP, *words], stdout=subprocess.PIPE, text=True)


def origin(named=False):
    """What was measured, in a phrase; `named` says that the command line named the programs."""
    commit = f"commit `{git('rev-parse', '--short', 'HEAD').stdout.strip() or 'unknown'}`"
    if named or "CRAQ" in os.environ:
        return f"on programs that were named, by the scripts of {commit}"
    changed = git("diff", "--quiet", "HEAD", "--", "crates", "crates.txt").returncode
    return f"on {commit}{' with other changes' * bool(changed)}"


def others_seconds():
    """The processor time that all others used since the machine began: all but this process and those that it started
    and has waited for. Interrupts count, as they do in the time of the process that they come to."""
    with open("/proc/stat") as lines:
        user, nice, system, _, _, hard, soft = map(int, lines.readline().split()[1:8])
    own = map(resource.getrusage, (resource.RUSAGE_SELF, resource.RUSAGE_CHILDREN))
    all_seconds = (user + nice + system + hard + soft) / os.sysconf("SC_CLK_TCK")
    return all_seconds - sum(it.ru_utime + it.ru_stime for it in own)


class Beside:
    """What else the machine did: its load average before a run, and the processors that others use in a part of it."""

    def __init__(self):
        self.load = round(os.getloadavg()[0], 2)
        self.begin()

    def begin(self):
        """A part begins. Nothing that this process has started runs."""
        self.begun, self.before = time.monotonic(), others_seconds()

    def used(self):
        """How many processors others used since then. What this process has started has ended."""
        used = (others_seconds() - self.before) / (time.monotonic() - self.begun)
        return round(min(max(0, used), os.cpu_count()), 2)

    def told(self):
        """Whether the machine was idle, and by which figures, in a phrase."""
        used = self.used()
        what = "an idle machine" if max(self.load, used) <= IDLE else "a machine that was not idle"
        return (f"{what}: load average {self.load:.2f} at the start, other processes used {used:.2f} of "
                f"{os.cpu_count()} processors meanwhile")
