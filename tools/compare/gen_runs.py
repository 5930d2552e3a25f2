#!/usr/bin/env python3
"""Compares runs of `STORE gen START N` with a reading of its own of the rules: gen_rules.py makes the requests, and session_rules.py
answers them, where CPython tells what a cell gives.

Usage: tools/compare/gen_runs.py PROGRAM       200 starts at random with up to 80 requests each, some of them on a store that others left
       tools/compare/gen_runs.py START N       shows the requests as lines, and the line that sums them up

PROGRAM is the built program, crates/kishu_cli/out/kishu_cli. Compared are the status, the output and every byte of the file; of 2,000
requests, just two runs with one another. The script ends with status 1 where something differs."""
import json
import os
import random
import subprocess
import sys
import tempfile

import gen_rules
import session_rules

STORE = "store"


def found(program, folder, start, count):
    """Status, its text, output and file of a run of the program."""
    run = subprocess.run([program, STORE, "gen", str(start), str(count)], cwd=folder, capture_output=True)
    with open(os.path.join(folder, STORE), "rb") as file:
        return run.returncode, run.stderr, run.stdout, file.read()


def are_alike(program, pairs):
    """Whether runs on one store, one after another, give what the rules say."""
    file = None
    with tempfile.TemporaryDirectory() as folder:
        for start, count in pairs:
            wanted = session_rules.expected([STORE, "gen", str(start), str(count)], b"", file)
            if found(program, folder, start, count) != wanted:
                print(f"gen {start} {count} differs, in {pairs}")
                return False
            file = wanted[3]
    return True


def on_a_new_store(program, start, count):
    with tempfile.TemporaryDirectory() as folder:
        return found(program, folder, start, count)


def compare(program):
    chosen = random.Random(1)
    stores = [[(7, 0)], [(0, 1)], [(gen_rules.LARGEST_START, 60)], [(7, 10)], [(7, 60)]]
    for _ in range(200):
        stores.append([(chosen.randrange(2**31), chosen.randrange(81)) for _ in range(chosen.choice((1, 1, 1, 2)))])
    alike = [are_alike(program, pairs) for pairs in stores]
    twice = on_a_new_store(program, 7, 2000) == on_a_new_store(program, 7, 2000)
    print(f"{sum(alike)} of {len(alike)} stores as the rules say; two runs of gen 7 2000 are {'equal' if twice else 'not equal'}")
    return all(alike) and twice


def show(start, count):
    for request in gen_rules.requests(start, count):
        print(json.dumps(request))
    print(session_rules.answer_line(gen_rules.summed_up(session_rules.Session(None), start, count)).decode(), end="")


def main():
    if len(sys.argv) == 2:
        sys.exit(0 if compare(os.path.abspath(sys.argv[1])) else 1)
    numbers = gen_rules.numbers_of(*sys.argv[1:]) if len(sys.argv) == 3 else None
    if numbers is None:
        sys.exit(__doc__)
    show(*numbers)


if __name__ == "__main__":
    main()
