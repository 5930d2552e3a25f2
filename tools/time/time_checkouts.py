#!/usr/bin/env python3
"""Times checkouts of sessions of 20 groups, beside a Python process that loads the pickle of its whole namespace.

Usage: tools/time/time_checkouts.py PROGRAM [--write] [--sizes SMALL LARGE] [--turns TURNS]      (10000, 1000000 and 11)

PROGRAM is the built program, crates/kishu_cli/out/kishu_cli. A store of 20 groups, lists of lists with SMALL or LARGE nodes in all, has
three commits that count: one with all groups made, and two that go on from it, of which one changes one group and the other 19. Each turn
begins `PROGRAM STORE session` and a Python process anew, over files in memory where the system has such a folder. It goes from the first
commit to the one that differs in one group and back, and to the one that differs in 19 and back. For each of these the Python process
reads the pickle (protocol 5) of all names as they were there, and loads it by `pickle.loads`; what it had before is let go outside the
time. Both get a line when the one before is answered, turn about. Told are the median times, how many bytes each read, by the system's
count, without the line, and the most memory that each had by then. Of Kishu the bytes have to be just those of the pictures of the groups
that differ, by the rules of tools/compare.

With `--write` the table goes into docs/PERFORMANCE.md, between the two lines that name this script, and the picture into docs/checkouts.svg.
The script ends with status 1 where a checkout of which one group of 20 differs takes longer than loading the pickle, or reads more bytes.
"""
import argparse
import datetime
import json
import os
import pathlib
import pickle
import statistics
import sys

from bars import drawn
from sides import Side, making
from store_runs import memory_folder

from store_rules import opened  # of tools/compare, which store_runs leads to

TOP = pathlib.Path(__file__).resolve().parents[2]
PAGE, PICTURE = TOP / "docs" / "PERFORMANCE.md", TOP / "docs" / "checkouts.svg"
BEGIN, END = "<!-- made by tools/time/time_checkouts.py -->", "<!-- end of what time_checkouts.py made -->"
GROUPS, SIZES, TURNS = 20, (10_000, 1_000_000), 11
DIFFER = (1, GROUPS - 1)
NAMES = ("Kishu", "pickle.loads of all names")
# The word by which this script is run as the Python process.
PICKLES = "--pickles"


# The Python process.


def pickled(folder, commit):
    return pathlib.Path(folder, f"{commit}.pickle")


def keep_pickles(folder):
    """Runs cells, keeps the pickle of all names where it is told to, and loads the pickles."""
    space = {"__builtins__": __builtins__}
    for line in sys.stdin.buffer:
        request, told = json.loads(line), {"outcome": "ok"}
        if request["op"] == "cell":
            exec(compile(request["text"], "cell", "exec"), space)
        elif request["op"] == "keep":
            names = {name: value for name, value in space.items() if name != "__builtins__"}
            pickled(folder, request["commit"]).write_bytes(pickle.dumps(names, 5))
        else:
            before, told = space, {"commit": int(request["to"])}
            space = pickle.loads(pickled(folder, request["to"]).read_bytes())
            space["__builtins__"] = __builtins__
        os.write(sys.stdout.fileno(), json.dumps(told).encode() + b"\n")
        before = None


def python_side(folder):
    return Side([sys.executable, os.path.abspath(__file__), PICKLES, folder])


# The commits.


def cells_of(nodes):
    """The cells that make the groups."""
    return [text for number in range(GROUPS) for text in making(f"g{number}", nodes // GROUPS)]


def change(groups):
    """The cell that changes so many groups, the last ones."""
    return "; ".join(f"g{number}[1][0] = -1" for number in range(GROUPS - groups, GROUPS))


def made(program, folder, nodes):
    """Makes the store and the pickles. The numbers of the commit with all groups made, and of those that differ from it in 1 and in 19."""
    kishu, python = Side([program, os.path.join(folder, "store"), "session"]), python_side(folder)
    for text in cells_of(nodes):
        kishu.ran(text)
        python.ran(text)
    first = len(cells_of(nodes))
    commits = [first, first + 1, first + 2]
    python.took([{"op": "keep", "commit": first}])
    for commit, groups in zip(commits[1:], DIFFER):
        for side in (kishu, python):
            side.moved(first)
            side.ran(change(groups))
        python.took([{"op": "keep", "commit": commit}])
    for side in (kishu, python):
        side.ended()
    return commits


def bytes_that_differ(folder, here, there):
    """How many bytes the pictures of a commit's groups have that another commit hasn't alike, by the rules."""
    tables = opened(pathlib.Path(folder, "store").read_bytes())[2].tables
    alike = {(row.names, row.version) for row in tables[here]}
    return sum(row.length for row in tables[there] if (row.names, row.version) not in alike)


# The moves.


def gone(program, folder, commits):
    """A turn: of each number of groups that differ, what both sides took for the way there and the way back, and their memory then."""
    first, *others = commits
    sides = [Side([program, os.path.join(folder, "store"), "session"]), python_side(folder)]
    for side in sides:
        side.moved(first)
    found = {}
    for groups, other in zip(DIFFER, others):
        ways = [[side.moved(to) for side in sides] for to in (other, first)]
        found[groups] = [(side_ways, side.memory()) for side_ways, side in zip(zip(*ways), sides)]
    for side in sides:
        side.ended()
    return found


def figures(program, nodes, turns):
    """Of each number of groups that differ, for each side the median time of a checkout in seconds, the bytes that it reads, and the median
    of the most memory, in MB."""
    with memory_folder() as folder:
        commits = made(program, folder, nodes)
        runs = [gone(program, folder, commits) for _ in range(turns)]
        for groups, other in zip(DIFFER, commits[1:]):
            wanted = [bytes_that_differ(folder, *way) for way in ((commits[0], other), (other, commits[0]))]
            for run in runs:
                if [read for _, read in run[groups][0][0]] != wanted:
                    sys.exit(f"checkouts read {run[groups][0][0]}, and the groups that differ have {wanted} bytes")
    told = {}
    for groups in DIFFER:
        told[groups] = []
        for side in range(len(NAMES)):
            ways = [way for run in runs for way in run[groups][side][0]]
            memory = statistics.median(run[groups][side][1] for run in runs)
            told[groups].append((*map(statistics.median, zip(*ways)), memory))
    return told


# What is written.


def in_ms(seconds):
    return f"{seconds * 1000:,.2f} ms" if seconds < 0.01 else f"{seconds * 1000:,.0f} ms"


def table_of(found, turns):
    """The lines of the table."""
    yield "| Nodes in all | Groups that differ | Kishu | `pickle.loads` of all names | Kishu reads | the pickle has | most memory of Kishu, and of Python |"
    yield "|---|---|---|---|---|---|---|"
    for nodes, told in found.items():
        for groups, ((mine, read, memory), (theirs, size, beside)) in told.items():
            yield (
                f"| {nodes:,} | {groups} of {GROUPS} | {in_ms(mine)}, {mine / theirs:.2f} of the pickle's | {in_ms(theirs)} "
                f"| {read:,.0f} bytes, {read / size:.2f} of the pickle's | {size:,.0f} bytes | {memory:,.0f} MB, {beside:,.0f} MB |"
            )
    yield ""
    yield f"Medians of {2 * turns} checkouts ({datetime.date.today()})."


def picture_of(found):
    """The picture: times and bytes, each as bars of both sides."""
    kinds = [f"{nodes:,} nodes,\n{groups} of {GROUPS} differ" for nodes, told in found.items() for groups in told]
    values = [told[groups] for told in found.values() for groups in told]
    times = [[side[0] * 1000 for side in sides] for sides in values]
    sizes = [[side[1] / 1000 for side in sides] for sides in values]
    return drawn("Checkouts of 20 groups", NAMES, kinds, [("time of a checkout (ms, by powers of ten)", times), ("bytes read (kB, by powers of ten)", sizes)])


def write(table, picture):
    """Writes the table into its page and the picture beside it."""
    before, _, rest = PAGE.read_text().partition(BEGIN)
    _, mark, behind = rest.partition(END)
    if not mark:
        sys.exit(f"{PAGE} has no place for the table")
    PAGE.write_text(f"{before}{BEGIN}\n{table}\n{END}{behind}")
    PICTURE.write_text(picture)


def main():
    if sys.argv[1:2] == [PICKLES]:
        keep_pickles(sys.argv[2])
        return
    words = argparse.ArgumentParser(usage=__doc__)
    words.add_argument("program", type=os.path.abspath)
    words.add_argument("--write", action="store_true")
    words.add_argument("--sizes", type=int, nargs=2, default=SIZES)
    words.add_argument("--turns", type=int, default=TURNS)
    given = words.parse_args()
    found = {nodes: figures(given.program, nodes, given.turns) for nodes in given.sizes}
    table = "\n".join(table_of(found, given.turns))
    print(table)
    if given.write:
        write(table, picture_of(found))
    ones = [told[DIFFER[0]] for told in found.values()]
    sys.exit(1 if any(mine > theirs for sides in ones for mine, theirs in list(zip(*sides))[:2]) else 0)


if __name__ == "__main__":
    main()
