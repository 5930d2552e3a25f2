#!/usr/bin/env python3
"""Times opening and checkout of stores whose cells take few and many steps, beside the run of their cells.

Usage: tools/time/time_loads.py PROGRAM [COMMITS STEPS]      (2000 and 100000 where no numbers are given)

PROGRAM is the built program, crates/kishu_cli/out/kishu_cli. It makes two stores in memory where the system has such a folder: one
whose cells take about STEPS steps each, and one whose cells give the same states in few. The run of all cells is what opening would
take if it ran them again. Opening is a run of `status`; a checkout is one line of a session that goes to and fro between the first
commit and the last, opening aside. Time is that of the processor, and the least of seven runs counts. The script ends with status 1
where opening or a checkout takes more than half as long again on the store of many steps as on that of few.
"""
import json
import os
import sys

from store_runs import memory_folder, run

RUNS, CHECKOUTS, MOST = 7, 200, 1.5
STEPS_OF_A_TURN = 6  # of `while n < m: n += 1`


def many(number, turns):
    return f"n = {number}\nwhile n < {number + turns}: n += 1\nrow = [n, n]"


def few(number, turns):
    return f"n = {number + turns}\nrow = [n, n]"


def line(request):
    return json.dumps(request).encode() + b"\n"


def least(words, given=b""):
    return min(run(words, given)[1] for _ in range(RUNS))


def times(program, path, cells):
    """The processor's time for the run of all cells, for opening, and for a checkout, in seconds."""
    making = run([program, path, "session"], b"".join(line({"op": "cell", "text": text}) for text in cells))[1]
    opening = least([program, path, "status"])
    there = line({"op": "checkout", "to": "1"}) + line({"op": "checkout", "to": "main"})
    moving = least([program, path, "session"], there * (CHECKOUTS // 2)) - opening
    return making, opening, moving / CHECKOUTS


def main():
    if len(sys.argv) not in (2, 4):
        sys.exit(__doc__)
    program = os.path.abspath(sys.argv[1])
    commits, steps = map(int, sys.argv[2:]) if len(sys.argv) == 4 else (2000, 100_000)
    turns, found = steps // STEPS_OF_A_TURN, {}
    with memory_folder() as folder:
        for kind, make in (("few", few), ("many", many)):
            found[kind] = times(program, os.path.join(folder, kind), [make(number, turns) for number in range(commits)])
            making, opening, moving = found[kind]
            print(
                f"{commits} cells of {kind} steps: all cells {making:.2f} s, opening {opening * 1000:.1f} ms, "
                f"a checkout {moving * 1e6:.0f} us; opening takes {making / opening:.0f} times less than the cells"
            )
    worst = max(found["many"][place] / max(found["few"][place], 1e-6) for place in (1, 2))
    print(f"on the store of many steps, opening and checkout take at most {worst:.2f} times as long as on that of few")
    sys.exit(worst > MOST)


if __name__ == "__main__":
    main()
