#!/usr/bin/env python3
"""Times sessions of 1,000 and of 10,000 requests of one kind, replays aside.

Usage: tools/time/time_sessions.py PROGRAM [SMALL LARGE]      (1000 and 10000 where no numbers are given)

PROGRAM is the built program, crates/kishu_cli/out/kishu_cli. Each session is a process of its own, on a store of its own in memory
where the system has such a folder, so that syncs take no time. Its requests are ones that replay nothing, or one cell at most. Time
is that of the processor, and the least of five runs counts, less the least of a session without requests. Where the fewer take less
than 2 ms, ten times as many are taken of both. Where the time grows linearly with the requests, ten times as many take ten times as
long. Where they take more than 12.5 times as long, there are up to twenty runs more, so that a busy machine weighs little, and where
it stays so the script ends with status 1. The memory is the most that a session of the many has when it has answered them (VmHWM in
/proc/PID/status, so this needs Linux). Last come sessions of 10 and of 100 lines of 1,000,000 bytes that are refused: a session holds
one line at a time, so where the many take half as much memory again, the status is 1 as well.
"""
import json
import math
import os
import sys

from store_runs import chain, memory_folder, move_to_commit_body, run, session_memory, write_store

RUNS, MORE_RUNS = 5, 20
SMALL, LARGE = 1000, 10_000
# A shorter time, in seconds, isn't told well.
LEAST = 0.002
# The ratio for ten times as many requests that is still taken for linear.
WORST = 12.5
LONG_LINE, FEW_LINES, MANY_LINES, MORE_MEMORY = 1_000_000, 10, 100, 1.5

KINDS = {
    "cell `x = 1`": lambda number: {"op": "cell", "text": "x = 1"},
    "cell that prints": lambda number: {"op": "cell", "text": f"print({number})"},
    "branch": lambda number: {"op": "branch", "name": f"b{number}"},
    "branch at `0`": lambda number: {"op": "branch", "name": f"b{number * 7919 % 999_983}", "at": "0"},
    "checkout of `0`": lambda number: {"op": "checkout", "to": "0"},
    "log of three commits": lambda number: {"op": "log"},
    "status": lambda number: {"op": "status"},
    "checkout, refused": lambda number: {"op": "checkout", "to": "none"},
    "no request": lambda number: {"op": "fly"},
    "all of them": lambda number: [
        {"op": "checkout", "to": "0"}, {"op": "cell", "text": f"x = {number}"}, {"op": "log"}, {"op": "branch", "name": "main"}, {"op": "status"}
    ][number % 5],
}


def first_store(path, kind):
    """The store on which the sessions of a kind begin: for `log` one of three commits, else none."""
    if os.path.exists(path):
        os.remove(path)
    if kind.startswith("log"):
        write_store(path, [*chain([b"x = 1"] * 3), move_to_commit_body(3)])


def least(program, path, kind, sessions):
    """The least time of each of three sessions: without requests, with the fewer and with the more. Their runs take turns."""
    times = [math.inf] * len(sessions)
    for turn in range(RUNS + MORE_RUNS):
        if turn >= RUNS and ratio_of(*times, len(sessions[2]) / len(sessions[1])) <= WORST:
            break
        for place, lines in enumerate(sessions):
            first_store(path, kind)
            _, time, out = run([program, path, "session"], b"".join(lines))
            times[place] = min(times[place], time)
            if out.count(b"\n") != len(lines):
                sys.exit(f"{kind}: {len(lines)} requests, and another number of answers")
    return times


def ratio_of(empty, few, many, times_as_many):
    """How many times as long ten times as many requests take."""
    return (many - empty) / max(few - empty, LEAST / 10) / times_as_many * 10


def lines_of(kind, count):
    return [json.dumps(KINDS[kind](number)).encode() + b"\n" for number in range(count)]


def time_kind(program, path, kind, small, large):
    """Prints the times of so many requests of a kind. The ratio, for ten times as many."""
    lines = lines_of(kind, large)
    empty, few, many = least(program, path, kind, [[], lines[:small], lines])
    if few - empty < LEAST and small <= SMALL:
        return time_kind(program, path, kind, small * 10, large * 10)
    first_store(path, kind)
    memory = session_memory(program, path, lines, large)
    ratio = ratio_of(empty, few, many, large / small)
    pairs = ((small, few - empty), (large, many - empty))
    times = "".join(f"{count:>10,}{time * 1000:>10.1f} ms{time / count * 10**6:>9.2f} us" for count, time in pairs)
    print(f"{kind:<24}{times}{ratio:>8.2f}{memory:>9.1f} MB", flush=True)
    return ratio


def memory_of_lines(program, path, count):
    first_store(path, "")
    line = b"x" * LONG_LINE + b"\n"
    return session_memory(program, path, (line for _ in range(count)), count)


def main():
    if len(sys.argv) not in (2, 4):
        sys.exit("usage: tools/time/time_sessions.py PROGRAM [SMALL LARGE]")
    program = os.path.abspath(sys.argv[1])
    small, large = (int(word) for word in sys.argv[2:]) if len(sys.argv) == 4 else (SMALL, LARGE)
    with memory_folder() as folder:
        path = os.path.join(folder, "store")
        print(f"{'requests':<24}{'number':>10}{'time':>13}{'each':>12}{'number':>10}{'time':>13}{'each':>12}{'ratio':>8}{'memory':>12}")
        worst = max(time_kind(program, path, kind, small, large) for kind in KINDS)
        few, many = (memory_of_lines(program, path, count) for count in (FEW_LINES, MANY_LINES))
        print(f"lines of {LONG_LINE:,} bytes: {few:.1f} MB for {FEW_LINES}, {many:.1f} MB for {MANY_LINES}")
    sys.exit(1 if worst > WORST or many > few * MORE_MEMORY else 0)


if __name__ == "__main__":
    main()
