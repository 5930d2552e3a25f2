"""Stores that are made by writing their bytes, and runs on them whose time and memory are told."""
import json
import os
import pathlib
import subprocess
import sys
import tempfile
import time

sys.path.append(str(pathlib.Path(__file__).resolve().parents[1] / "compare"))

from store_rules import CLOSED, HEADER, commit_body, move_to_commit_body, record  # noqa: E402

# Their answers don't fit into a pipe.
MORE_LINES = 5000


def write_store(path, bodies):
    """Writes a store of these records' bodies. How many bytes it has."""
    with open(path, "wb") as out:
        out.write(HEADER)
        for body in bodies:
            out.write(record(body))
        out.write(CLOSED)
        out.flush()
        os.fsync(out.fileno())
    return os.path.getsize(path)


def chain(texts):
    """Commits of one cell each, every one the child of the one before, and a move to the root: so no cell is run as the store is opened."""
    for parent, text in enumerate(texts):
        yield commit_body(parent, [text])
    yield move_to_commit_body(0)


def memory_folder():
    """A folder in memory, where the system has one, so that a sync takes no time."""
    shared = "/dev/shm"
    return tempfile.TemporaryDirectory(dir=shared if os.access(shared, os.W_OK) else None)


def run(words, given=b""):
    """The time of a run by the clock and by the processor, in seconds, and its output."""
    with tempfile.TemporaryFile() as entered, tempfile.TemporaryFile() as shown:
        entered.write(given)
        entered.seek(0)
        begun = time.perf_counter()
        child = subprocess.Popen(words, stdin=entered, stdout=shown)
        _, status, usage = os.wait4(child.pid, 0)
        clock = time.perf_counter() - begun
        child.returncode = os.waitstatus_to_exitcode(status)
        if child.returncode != 0:
            sys.exit(f"{' '.join(words)} ended with {child.returncode}")
        shown.seek(0)
        return clock, usage.ru_utime + usage.ru_stime, shown.read()


def memory_of(child):
    """The most memory that a process had since it began, in MB. (What `wait4` tells has the memory of this script in it.)"""
    with open(f"/proc/{child.pid}/status") as told:
        line = next(line for line in told if line.startswith("VmHWM:"))
    return int(line.split()[1]) * 1024 / 10**6


def begun_session(program, store, lines):
    """A session that gets these lines, and behind them so many more that it can't end before its output is read."""
    with tempfile.TemporaryFile() as entered:
        for line in lines:
            entered.write(line)
        entered.write(b'{"op":"fly"}\n' * MORE_LINES)
        entered.seek(0)
        return subprocess.Popen([program, store, "session"], stdin=entered, stdout=subprocess.PIPE)


def answer(child):
    line = child.stdout.readline()
    if not line.endswith(b"\n"):
        sys.exit(f"the session ended with {child.wait()}, and not all lines were answered")
    return json.loads(line)


def ended(child):
    """Lets a session come to its end."""
    child.stdout.read()
    if child.wait() != 0:
        sys.exit(f"the session ended with {child.returncode}")


def session_memory(program, store, lines, count):
    """The most memory that a session had until it had answered so many lines, in MB."""
    child = begun_session(program, store, lines)
    for _ in range(count):
        answer(child)
    memory = memory_of(child)
    ended(child)
    return memory
