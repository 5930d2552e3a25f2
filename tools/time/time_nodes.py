#!/usr/bin/env python3
"""Tells the most memory of a session that makes many nodes, of which none stays.

Usage: tools/time/time_nodes.py PROGRAM [NODES]      (200000000 where no number is given)

PROGRAM is the built program, crates/kishu_cli/out/kishu_cli. One session on a store in memory, where the system has such a folder, runs
the cell `for i in range(1200000): []` until so many nodes are made, each behind the answer of the one before. Between them the heap is
loaded anew as often as it has more than 8,000,000 nodes. Told are the time of all cells, that of the slowest, and the most memory that
the session had. Last a cell binds a list, and a status has to name it and `i`.

The script ends with status 1 where the session had more than 3 GB.
"""
import os
import sys
import time

from store_runs import answer, begun_session, ended, memory_folder, memory_of

EACH = 1_200_000
MOST = 3_000.0  # MB
CELL = b'{"op":"cell","text":"for i in range(%d): []"}\n' % EACH
LAST = [b'{"op":"cell","text":"a = []"}\n', b'{"op":"status"}\n']


def main():
    if len(sys.argv) not in (2, 3):
        sys.exit("usage: tools/time/time_nodes.py PROGRAM [NODES]")
    nodes = int(sys.argv[2]) if len(sys.argv) == 3 else 200_000_000
    many = -(-nodes // EACH)
    with memory_folder() as folder:
        child = begun_session(os.path.abspath(sys.argv[1]), os.path.join(folder, "store"), [CELL] * many + LAST)
        times = []
        for _ in range(many):
            begun = time.perf_counter()
            told = answer(child)
            times.append(time.perf_counter() - begun)
            if told.get("outcome") != "ok":
                sys.exit(f"a cell was answered by {told}")
        answer(child)
        status = answer(child)
        memory = memory_of(child)
        ended(child)
    if status["names"] != ["a", "i"] or status["commits"] != many + 2:
        sys.exit(f"the session ended with {status}")
    print(f"{many} cells make {many * EACH:,} nodes in {sum(times):.1f} s, the slowest in {max(times) * 1000:.0f} ms; {memory:.0f} MB at most")
    sys.exit(1 if memory > MOST else 0)


if __name__ == "__main__":
    main()
