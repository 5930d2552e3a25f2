"""Programs over Kishu's crates that aren't part of it: each answers many cases in one process. The one loads pictures, the other runs
Kishu over files in memory. They are made by `rt` in a folder of their own, over copies of the crates that they stand on; what stands
proved in their `out/` folders is taken along, so that beside a built program only the drivers are proved."""
import os
import pathlib
import re
import resource
import select
import shutil
import subprocess
import tempfile
import time

import paths  # noqa: F401
import driver_program
from timing import TOP, built, copy_crates

MEMORY = 2**30
SECOND, PATIENCE = 1, 60
# The drivers: the crates that they stand on, their text, and their proofs.
DRIVERS = {
    "load_driver": (["kishu_names", "kishu_heap", "kishu_loading"], driver_program.LOADS, {}),
    "run_driver": (["kishu_host", "kishu_model", "kishu_serve"], driver_program.RUNS, {"proofs/run/Invariants.antt": driver_program.COUNTER}),
}


class Stopped(Exception):
    """The program ended, or answered nothing for long: what happened is the argument."""


def make(name, folder):
    """Builds a driver and puts it into a folder."""
    below, text, proofs = DRIVERS[name]
    with tempfile.TemporaryDirectory() as work:
        copy_crates(work, below)
        for crate in os.listdir(os.path.join(work, "crates")):
            proved = os.path.join(TOP, "crates", crate, "out")
            if os.path.isdir(proved):
                shutil.copytree(proved, os.path.join(work, "crates", crate, "out"), symlinks=True)
        shutil.copy(built(work, name, below, text, proofs), os.path.join(folder, name))


def limited():
    resource.setrlimit(resource.RLIMIT_AS, (MEMORY, MEMORY))
    resource.setrlimit(resource.RLIMIT_CORE, (0, 0))


class Driver:
    """A process of a driver. It is begun anew where it ended."""

    def __init__(self, program):
        self.program, self.child, self.slowest, self.slow, self.peak = program, None, 0.0, 0, 0

    def begin(self):
        self.child = subprocess.Popen([self.program], stdin=subprocess.PIPE, stdout=subprocess.PIPE, preexec_fn=limited, bufsize=0)

    def end(self):
        if self.child is not None:
            told = re.search(r"VmHWM:\s+(\d+) kB", pathlib.Path(f"/proc/{self.child.pid}/status").read_text())
            self.peak = max(self.peak, int(told[1]) if told else 0)
            self.child.kill()
            self.child.wait()
            self.child.stdin.close()
            self.child.stdout.close()
            self.child = None

    def worked(self):
        """The processor time that the process has taken, in seconds: the system's clock of another process."""
        return time.clock_gettime(~self.child.pid << 3 | 2)

    def read(self, count, until):
        """So many bytes of the answer."""
        found = b""
        while len(found) < count:
            if not select.select([self.child.stdout], [], [], max(0, until - time.monotonic()))[0]:
                raise Stopped("no answer")
            piece = os.read(self.child.stdout.fileno(), count - len(found))
            if not piece:
                raise Stopped("it ended")
            found += piece
        return found

    def part(self, until):
        return self.read(int.from_bytes(self.read(8, until), "big"), until)

    def answer(self, parts, read):
        """The answer to a case of these parts, taken by a function. What takes more than a second of the processor is counted."""
        if self.child is None:
            self.begin()
        before = self.worked()
        try:
            self.child.stdin.write(b"".join([*(len(part).to_bytes(4, "big") for part in parts), *parts]))
            found = read(time.monotonic() + PATIENCE)
        except (Stopped, BrokenPipeError) as fault:
            said = f"{fault}, with {self.child.poll()}"
            self.end()
            raise Stopped(said) from None
        took = self.worked() - before
        self.slow += took > SECOND
        self.slowest = max(self.slowest, took)
        return found

    def loaded(self, picture):
        """What a load comes to: 0 and the number of nodes, 1 and the place of the fault, or 2 for want of memory."""
        told = self.answer([picture], lambda until: self.read(9, until))
        return told[0], int.from_bytes(told[1:], "big")

    def ran(self, words, data, file):
        """Status, its text with a line feed, output and file of a run."""

        def told(until):
            status = self.read(1, until)[0]
            text, out, after = (self.part(until) for _ in range(3))
            return status, text + b"\n" * (status > 0), out, after

        return self.answer(["\n".join(words).encode(), data, file], told)
