#!/usr/bin/env python3
"""Tells the memory of a session on a store of 1,000,000 records, and how long it takes to open it.

Usage: tools/time/time_records.py PROGRAM [RECORDS]      (1000000 where no number is given)

PROGRAM is the built program, crates/kishu_cli/out/kishu_cli. Each store is made by writing its bytes: moves to the root, branches
at it, or commits, each the child of the one before, and last a move to the root, so that opening runs no cell. A session is begun,
and once it has answered a `status`, its memory is read: the most that it had so far (VmHWM in /proc/PID/status, so this needs Linux).
Opening is the time by the clock until that answer, one run each. Then it answers 20,000 `log`s of an empty path, whose time shall
not grow with the graph; it is told by the clock, and not judged. The script ends with status 1 where the store of commits takes more
than 200 MB, or that with long lines more than 200 MB and the lines.
"""
import os
import sys
import tempfile
import time

from store_runs import answer, begun_session, chain, ended, memory_of, move_to_commit_body, write_store
from store_rules import name_body

MOST = 200.0
LOGS = 20_000
LONG = b"x" * 51 + b" = 123456"  # a first line of 60 characters


def stores(count):
    """The kinds of stores: the bodies of their records, and how many MB they may take, where that is asked."""
    commits = count - 1
    yield "no records", [], None
    yield "moves", (move_to_commit_body(0) for _ in range(count)), None
    yield "commits `x = 1`", chain(b"x = 1" for _ in range(commits)), MOST
    yield "commits, lines of 60", chain(LONG for _ in range(commits)), MOST + commits * len(LONG) / 10**6
    yield "commits of 100 bytes", chain(b"x = 1\n" + b"#" * 94 for _ in range(commits)), MOST
    yield "branches", (name_body(f"b{number * 7919 % 999_983}x{number}", 0) for number in range(count)), None


def measured(program, path, records, logs):
    """The time of opening, the memory, and the time of a `log`, in seconds, MB and seconds."""
    begun = time.perf_counter()
    child = begun_session(program, path, [b'{"op":"status"}\n', *[b'{"op":"log"}\n'] * logs])
    told = answer(child)
    opening = time.perf_counter() - begun
    memory = memory_of(child)
    if told["records"] != records or told["commit"] != 0:
        sys.exit(f"the session answered {told}")
    begun = time.perf_counter()
    for _ in range(logs):
        child.stdout.readline()
    log = (time.perf_counter() - begun) / max(logs, 1)
    ended(child)
    return opening, memory, log


def main():
    if len(sys.argv) not in (2, 3):
        sys.exit("usage: tools/time/time_records.py PROGRAM [RECORDS]")
    program = os.path.abspath(sys.argv[1])
    count, passed = int(sys.argv[2]) if len(sys.argv) == 3 else 1_000_000, False
    print(f"{'store':<24}{'file':>12}{'opening':>12}{'memory':>12}{'each log':>14}{'at most':>12}")
    with tempfile.TemporaryDirectory() as folder:
        for name, bodies, most in stores(count):
            path = os.path.join(folder, "store")
            size = write_store(path, bodies)
            records = 0 if name == "no records" else count
            # A `log` tells all branches, so where there are as many it isn't asked.
            logs = 0 if name == "branches" else LOGS
            opening, memory, log = measured(program, path, records, logs)
            passed = passed or most is not None and memory > most
            each = f"{log * 10**6:>11.1f} us" if logs else f"{'':>14}"
            limit = f"{most:>9.0f} MB" if most is not None else ""
            print(f"{name:<24}{size / 10**6:>9.1f} MB{opening:>10.2f} s{memory:>9.1f} MB{each}{limit}", flush=True)
    sys.exit(1 if passed else 0)


if __name__ == "__main__":
    main()
