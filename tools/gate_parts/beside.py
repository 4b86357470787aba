"""A command that runs beside what is left of the gate, once the program and what tries it are proved and built: the
tools' tests."""
import os
import subprocess
import tempfile
import time

from meter import METER

# Its task among those of the crates, and how much memory it may take, in bytes.
KEY = ("tools", "tools")
NEEDS = 2e9
# What it tries: the program, and the tests that tools/refused_steps and tools/fail_alloc run. In a repository without
# them, the command waits for each crate's proof.
TRIED = (("craq", "proof"), ("integration", "tests"), ("thread_tests", "tests"))


class Beside:
    """The command's words; ready() is called before it starts. Then what it wrote, and how it ended."""

    def __init__(self, words, ready=lambda: None):
        self.words, self.ready, self.waits, self.status, self.text = words, ready, [], None, ""

    def add(self, tasks):
        """Puts it among the gate's tasks."""
        self.waits = [it for it in TRIED if it in tasks] or [it for it in tasks if it[1] == "proof"]
        tasks[KEY] = self.waits, 1, NEEDS, self.run

    def run(self, given, _jobs):
        """Runs it, unless what it waits for isn't proved."""
        if not all(given[it] for it in self.waits):
            self.text = "gate: the program or what tries it isn't proved, so there is nothing to try\n"
            return False
        self.ready()
        began = time.monotonic()
        with tempfile.TemporaryFile("w+", errors="replace") as said:
            how = {"stdin": subprocess.DEVNULL, "stdout": said, "stderr": subprocess.STDOUT}
            started = subprocess.Popen(self.words, **how)
            _, status, spent = os.wait4(started.pid, 0)
            started.returncode = self.status = os.waitstatus_to_exitcode(status)
            said.seek(0)
            self.text = said.read()
        METER.used["tools", "tests"] = spent.ru_utime + spent.ru_stime
        METER.wall["tools", "tests"] = time.monotonic() - began
        return self.status == 0

    def failure(self):
        """A line if it failed."""
        return [f"gate: FAILED: {' '.join(self.words)} ended with status {self.status}"] if self.status else []
