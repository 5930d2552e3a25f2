#!/usr/bin/env python3
"""Times a cell that takes all of its 4,000,000 steps, beside CPython for the same number of turns.

Usage: tools/time/time_loop.py

The program is the proved one, which the script `kishu` builds where it has to. Each run is a
process of its own on a store of its own, and the least user time of five runs counts. The script
ends with status 1 where a run takes more than 2 seconds or 200 MiB of memory.
"""
import os
import pathlib
import subprocess
import sys
import tempfile

TOP = pathlib.Path(__file__).resolve().parents[2]
PROGRAM = os.path.join(TOP, "kishu")
# Three steps come before the first turn, and each turn takes six.
CELL = "n = 0\nwhile True: n += 1\n"
TURNS = (4_000_000 - 3) // 6
SAME_IN_PYTHON = f"n = 0\nwhile True:\n    n += 1\n    if n == {TURNS}: break\n"
RUNS = 5
MOST_SECONDS, MOST_MEBIBYTES = 2.0, 200.0


def run(words, given):
    """The output of one run, its user time in seconds and its greatest memory in MiB."""
    with tempfile.TemporaryFile() as entered, tempfile.TemporaryFile() as shown:
        entered.write(given.encode())
        entered.seek(0)
        child = subprocess.Popen(words, stdin=entered, stdout=shown)
        _, status, usage = os.wait4(child.pid, 0)
        child.returncode = os.waitstatus_to_exitcode(status)
        if child.returncode != 0:
            sys.exit(f"{words[0]} ended with {child.returncode}")
        shown.seek(0)
        return shown.read().decode(), usage.ru_utime, usage.ru_maxrss / 1024


def stopped_run(folder, number):
    store = os.path.join(folder, f"{number}.kishu")
    output, seconds, mebibytes = run([PROGRAM, store, "cell"], CELL)
    if '"outcome":"stopped"' not in output:
        sys.exit(f"the cell wasn't stopped: {output}")
    return seconds, mebibytes


def main():
    with tempfile.TemporaryDirectory() as folder:
        # The first run builds the program where it has to, so it isn't counted.
        stopped_run(folder, "first")
        runs = [stopped_run(folder, number) for number in range(RUNS)]
    seconds = min(seconds for seconds, _ in runs)
    mebibytes = max(mebibytes for _, mebibytes in runs)
    python = min(run([sys.executable, "-c", SAME_IN_PYTHON], "")[1] for _ in range(RUNS))
    print(f"kishu: {seconds:.2f} s and {mebibytes:.0f} MiB for 4,000,000 steps, {TURNS:,} turns")
    print(f"CPython: {python:.2f} s for as many turns")
    sys.exit(1 if seconds > MOST_SECONDS or mebibytes > MOST_MEBIBYTES else 0)


if __name__ == "__main__":
    main()
