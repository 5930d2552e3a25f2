"""Runs of the built program over a file, in the form of those of the driver."""
import os
import resource
import subprocess
import tempfile
import time

from fuzz_driver import PATIENCE, SECOND, Stopped, limited


class Program:
    """The program, and a folder for the files of its runs."""

    def __init__(self, program):
        self.program, self.folder, self.slowest, self.slow, self.peak = program, tempfile.TemporaryDirectory(), 0.0, 0, 0

    def end(self):
        self.peak = resource.getrusage(resource.RUSAGE_CHILDREN).ru_maxrss
        self.folder.cleanup()

    def ran(self, words, data, file):
        """Status, its text, output and file of a run. No file counts as an empty one."""
        store = os.path.join(self.folder.name, words[0])
        with open(store, "wb") as out:
            out.write(file)
        before, began = os.times(), time.monotonic()
        try:
            run = subprocess.run([self.program, *words], input=data, capture_output=True, cwd=self.folder.name, preexec_fn=limited, timeout=PATIENCE)
        except subprocess.TimeoutExpired:
            raise Stopped("no answer") from None
        if run.returncode < 0:
            raise Stopped(f"it ended with {run.returncode}")
        now = os.times()
        took = min(time.monotonic() - began, now.children_user + now.children_system - before.children_user - before.children_system)
        self.slowest, self.slow = max(self.slowest, took), self.slow + (took > SECOND)
        with open(store, "rb") as held:
            return run.returncode, run.stderr, run.stdout, held.read()
