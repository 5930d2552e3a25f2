#!/usr/bin/env python3
"""Times the commits of a session of many groups, beside a Python process that pickles its whole namespace after each cell.

Usage: tools/time/time_commits.py PROGRAM [NODES SMALL LARGE]      (200000, 1000 and 1000000 where no numbers are given)

PROGRAM is the built program, crates/kishu_cli/out/kishu_cli. There are two parts.

The first runs 200 cells over 20 groups, of which one has NODES nodes, most of the cells changing one small group. They are run by
`PROGRAM STORE session`, and by a Python process that runs each cell by `exec` in one namespace and then writes the pickle of all its
names to a file of its own, with a sync: so that it could go back to each cell, too. Both get a cell when the one before is answered, turn
about, on the same disk. Told are the bytes that each wrote, the time of all cells, and the median time of the cells that change a small
group; the most memory that each had; and last a checkout of the first cell and one of the last, beside the reading of those two pickles.

The second asks what other groups cost a commit that doesn't touch them. Two sessions on stores in memory, where the system has such a
folder, have one small group each, and beside it ten groups of SMALL and of LARGE nodes together. Both commit cells that change the small
group, a hundred at once, turn about; the medians of their times count. Told is also the most memory that each had.

The script ends with status 1 where the store has more than a tenth of the pickles' bytes, or where a commit beside the LARGE groups takes
more than 1.2 times as long as one beside the SMALL ones.
"""
import contextlib
import io
import json
import os
import pickle
import statistics
import sys
import tempfile

from sides import Side, making
from store_runs import memory_folder

NODES, SMALL, LARGE = 200_000, 1000, 1_000_000
CELLS, GROUPS, OTHERS = 200, 20, 10
COMMITS_AT_ONCE, TURNS = 100, 60
LARGEST_SHARE, WORST = 0.1, 1.2
# The word by which this script is run as the Python process.
PICKLES = "--pickles"


# The cells of the first part.


def worked_cells(nodes):
    """The cells, each with whether it changes one small group and nothing else."""
    cells = [(text, False) for text in making("large", nodes)]
    cells += [(f"g{number} = [[{number}], {{'n': {number}}}]", False) for number in range(1, GROUPS)]
    for number in range(len(cells), CELLS):
        one, other = f"g{number % (GROUPS - 1) + 1}", f"g{(number * 7 + 3) % (GROUPS - 1) + 1}"
        if number in (CELLS // 2, CELLS - 20):
            cells.append((f"large[{number}].append({number})", False))
        elif number % 20 == 5:
            cells.append((f"{one}.append({other})", False))
        elif number % 20 == 6:
            cells.append((f"print(len({one}), len({other}))", False))
        elif number % 20 == 7:
            cells.append((f"{one} = [[{number}], {{'n': {number}}}]", False))
        else:
            cells.append((f"{one}[0].append({number})", True))
    return cells


# The sides of the first part: each takes a cell, and answers when it is stored.


def pickled_file(folder, commit):
    return os.path.join(folder, f"{commit}.pickle")


def write_pickles(folder):
    """The Python process: runs cells, and pickles all names after each."""
    space = {}
    for commit, line in enumerate(sys.stdin.buffer, 1):
        request = json.loads(line)
        if request["op"] == "cell":
            with contextlib.redirect_stdout(io.StringIO()):
                exec(compile(request["text"], "cell", "exec"), space)
            with open(pickled_file(folder, commit), "wb") as file:
                pickle.dump({name: value for name, value in space.items() if name != "__builtins__"}, file, 5)
                file.flush()
                os.fsync(file.fileno())
        else:
            with open(pickled_file(folder, int(request["to"])), "rb") as file:
                space = {"__builtins__": space["__builtins__"]} | pickle.load(file)
        os.write(sys.stdout.fileno(), b'{"outcome":"ok"}\n')


def bytes_in(folder):
    return sum(os.path.getsize(os.path.join(folder, name)) for name in os.listdir(folder))


def show(name, size, times, small, moves, memory):
    print(
        f"{name:<22}{size:>14,} bytes{sum(times):>9.2f} s{statistics.median(small) * 1000:>10.3f} ms a cell of one small group"
        f"{moves[0] * 1000:>9.1f} ms to the first{moves[1] * 1000:>9.1f} ms to the last{memory:>8.1f} MB at most",
        flush=True,
    )


def beside_pickles(program, nodes):
    """Runs the cells by both sides, and prints what they took. Which share of the pickles' bytes the store has."""
    cells = worked_cells(nodes)
    with tempfile.TemporaryDirectory() as kept, tempfile.TemporaryDirectory() as pickles:
        store = os.path.join(kept, "store")
        sides = [Side([program, store, "session"]), Side([sys.executable, os.path.abspath(__file__), PICKLES, pickles])]
        times = [[], []]
        for text, _ in cells:
            for side, spent in zip(sides, times):
                spent.append(side.ran(text))
        sizes, memories = (bytes_in(kept), bytes_in(pickles)), [side.memory() for side in sides]
        moves = [[side.took([{"op": "checkout", "to": str(to)}])[0] for to in (1, len(cells))] for side in sides]
        for side in sides:
            side.ended()
    print(f"{len(cells)} cells over {GROUPS} groups, one of them of {nodes:,} nodes:")
    for name, size, spent, moved, memory in zip(("Kishu", "pickles of all names"), sizes, times, moves, memories):
        show(name, size, spent, [took for took, (_, small) in zip(spent, cells) if small], moved, memory)
    share = sizes[0] / sizes[1]
    print(f"the store has {share:.3f} of the pickles' bytes, and its cells took {sum(times[0]) / sum(times[1]):.2f} times as long")
    return share


# The second part.


def begun_beside(program, store, nodes):
    """A session with a small group, and other groups of so many nodes together."""
    side = Side([program, store, "session"])
    for number in range(OTHERS):
        for text in making(f"other{number}", nodes // OTHERS):
            side.ran(text)
    side.ran("small = [[0], [1], [2]]")
    return side


def commits_beside(program, sizes):
    """Prints the median times of a commit of a small group beside other groups. The ratio of the two."""
    times = [[], []]
    with memory_folder() as folder:
        stores = [os.path.join(folder, str(nodes)) for nodes in sizes]
        sides = [begun_beside(program, store, nodes) for store, nodes in zip(stores, sizes)]
        begun = [os.path.getsize(store) for store in stores]
        for turn in range(TURNS):
            lines = [{"op": "cell", "text": f"small[1][0] = {turn * COMMITS_AT_ONCE + number}"} for number in range(COMMITS_AT_ONCE)]
            for side, spent in zip(sides, times):
                spent.append(side.took(lines)[0] / COMMITS_AT_ONCE)
        memories = [side.memory() for side in sides]
        for side in sides:
            side.ended()
        grown = [(os.path.getsize(store) - before) / (TURNS * COMMITS_AT_ONCE) for store, before in zip(stores, begun)]
    medians = [statistics.median(spent) for spent in times]
    for nodes, median, size, memory in zip(sizes, medians, grown, memories):
        print(
            f"a commit of a small group beside {nodes:>9,} nodes: {median * 10**6:.2f} us and {size:.1f} bytes, the median of {TURNS} times {COMMITS_AT_ONCE}; "
            f"{memory:.1f} MB at most"
        )
    ratio = medians[1] / medians[0]
    print(f"beside {sizes[1]:,} nodes it takes {ratio:.2f} times as long as beside {sizes[0]:,}")
    return ratio


def main():
    if sys.argv[1:2] == [PICKLES]:
        write_pickles(sys.argv[2])
        return
    if len(sys.argv) not in (2, 5):
        sys.exit("usage: tools/time/time_commits.py PROGRAM [NODES SMALL LARGE]")
    program = os.path.abspath(sys.argv[1])
    nodes, *sizes = map(int, sys.argv[2:]) if len(sys.argv) == 5 else (NODES, SMALL, LARGE)
    share = beside_pickles(program, nodes)
    ratio = commits_beside(program, sizes)
    sys.exit(1 if share > LARGEST_SHARE or ratio > WORST else 0)


if __name__ == "__main__":
    main()
