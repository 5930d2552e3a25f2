#!/usr/bin/env python3
"""Times the opening of stores of 100 MB, beside the reading of their files.

Usage: tools/time/time_open.py PROGRAM

PROGRAM is the built program, crates/kishu_cli/out/kishu_cli. Each store is made by writing its bytes: commits with long cells, one the
child of the other, and last a move to the root, so that opening runs no cell. Opening is a run of `status`; reading is a run of
`cat` into nothing. Both are timed by the clock, in turns, and the least of seven runs counts. `warm` runs find the file in the
system's memory; before each `cold` run the system is asked to forget the file, which it needn't do, so both count. The memory is the
most that a session has once it has answered a `status` (VmHWM in /proc/PID/status, so this needs Linux). The script ends with
status 1 where opening takes more than three times as long as reading.
"""
import os
import subprocess
import sys
import tempfile
import time

from store_runs import chain, run, session_memory, write_store

SIZE = 100_000_000
RUNS = 7
MOST = 3.0
# What stands in each cell: a first line, and a comment of so many bytes.
STORES = [
    ("cells of 1,000,000 bytes", 1_000_000, b"a"),
    ("the same, not ASCII", 1_000_000, "\u00e9".encode()),
    ("cells of 10,000 bytes", 10_000, b"a"),
    ("cells of 64 bytes", 64, b"a"),
]
RECORD = 35  # bytes of a commit's record without its text


def cell(length, piece):
    first = b"x = 1\n#"
    return first + piece * ((length - len(first)) // len(piece))


def forget(path):
    """Asks the system to forget what it holds of a file."""
    file = os.open(path, os.O_RDONLY)
    os.posix_fadvise(file, 0, 0, os.POSIX_FADV_DONTNEED)
    os.close(file)


def reading(path):
    """The time in which the file is read by `cat`."""
    begun = time.perf_counter()
    subprocess.run(["cat", path], stdout=subprocess.DEVNULL, check=True)
    return time.perf_counter() - begun


def opening(program, path, commits):
    """The time of a `status`, which has to tell the store's commits."""
    clock, _, told = run([program, path, "status"])
    if b'"commit":0,"commits":%d,' % (commits + 1) not in told:
        sys.exit(f"the store was opened as {told}")
    return clock


def least(program, path, commits, before):
    """The least times of reading and of opening."""
    read, open_ = [], []
    for _ in range(RUNS):
        before(path)
        read.append(reading(path))
        before(path)
        open_.append(opening(program, path, commits))
    return min(read), min(open_)


def main():
    if len(sys.argv) != 2:
        sys.exit("usage: tools/time/time_open.py PROGRAM")
    program, worst = os.path.abspath(sys.argv[1]), 0.0
    print(f"{'store':<26}{'records':>10}{'MB':>7}   {'':<5}{'reading':>10}{'opening':>10}{'ratio':>7}{'memory':>11}")
    with tempfile.TemporaryDirectory() as folder:
        for name, length, piece in STORES:
            path, text = os.path.join(folder, "store"), cell(length, piece)
            commits = min(round(SIZE / (len(text) + RECORD)), 999_999)
            size = write_store(path, chain(text for _ in range(commits)))
            memory = session_memory(program, path, [b'{"op":"status"}\n'], 1)
            for kind, before in (("warm", lambda path: None), ("cold", forget)):
                read, open_ = least(program, path, commits, before)
                worst = max(worst, open_ / read)
                row = f"{read * 1000:>7.1f} ms{open_ * 1000:>7.1f} ms{open_ / read:>7.2f}{memory:>8.1f} MB"
                print(f"{name:<26}{commits + 1:>10,}{size / 10**6:>7.1f}   {kind:<5}{row}", flush=True)
    sys.exit(1 if worst > MOST else 0)


if __name__ == "__main__":
    main()
