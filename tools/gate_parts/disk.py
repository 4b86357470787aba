"""How much of the disks a run takes: those of the repository, and of the folder for what is temporary."""
import os
import shutil
import tempfile
import threading

# What a run may take, in bytes, by an estimate: see docs/GATE.md.
ENOUGH = 30e9
EACH = 2.0


class Disks:
    """Looks every two seconds at what is free, as long as it is entered. Others on the same disk count too."""

    def __init__(self, root):
        # one folder for each file system
        self.folders = {os.stat(it).st_dev: it for it in (root, tempfile.gettempdir())}
        self.free = {it: shutil.disk_usage(it).free for it in self.folders.values()}
        self.least = dict(self.free)
        self.over = threading.Event()

    def __enter__(self):
        self.thread = threading.Thread(target=self.watch, daemon=True)
        self.thread.start()
        return self

    def __exit__(self, *_):
        self.over.set()
        self.thread.join()
        self.look()

    def watch(self):
        while not self.over.wait(EACH):
            self.look()

    def look(self):
        for folder in self.least:
            self.least[folder] = min(self.least[folder], shutil.disk_usage(folder).free)

    def warnings(self):
        """What to say at the start, if little is free."""
        return [
            f"warning: {free / 1e9:.0f} GB are free on the disk of {folder}, and a run may take {ENOUGH / 1e9:.0f} GB"
            for folder, free in self.free.items()
            if free < ENOUGH
        ]

    def lines(self):
        """What the run took at most, and what was left then."""
        return [
            f"disk of {folder}: {(free - least) / 1e9:.1f} GB at most, {least / 1e9:.1f} GB left"
            for (folder, free), least in zip(self.free.items(), self.least.values())
        ]
