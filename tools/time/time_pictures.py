#!/usr/bin/env python3
"""Times groups, pictures and loads, beside CPython's pickles of the same objects.

Usage: tools/time/time_pictures.py PROGRAM [SMALL LARGE]

PROGRAM is the built program, crates/kishu_picture_times/out/kishu_picture_times. The same cells are run by it and by this Python, so
that both hold the same objects: lists in a list, lists in one another, and lists in a dict, of SMALL and of LARGE nodes (10,000 and
1,000,000). Then the program takes the time of each of its calls on all names, and this script that of `pickle.dumps` and
`pickle.loads` of the names with their values, by protocol 5, one after the other. The least of some turns counts: more of them where
there are few nodes. Pickling lists in one another recurses, so this needs a thread with a large stack.

The script ends with status 1 where a call takes more than three times as long as its pickle, or a node of LARGE more than twice as
long as one of SMALL. `load` is set against `loads`, the other calls against `dumps`.
"""
import os
import pickle
import subprocess
import sys
import threading
import time

SMALL, LARGE = 10_000, 1_000_000
# What one turn of each kind's loop adds to what the first cell makes: a node each.
KINDS = {
    "lists in a list": ("a = []", "a.append([i])"),
    "lists in one another": ("a = []", "a = [a]"),
    "lists in a dict": ("d = {}", "d[i] = [i]"),
}
# A cell takes so many turns of its loop at most, well within its steps.
TURNS_OF_A_CELL = 100_000
CALLS = ("groups", "picture_len", "picture", "load", "same")
PICKLED = {"groups": "dumps", "picture_len": "dumps", "picture": "dumps", "load": "loads"}
WORST, WORST_OF_A_NODE = 3.0, 2.0
STACK = 1 << 33  # bytes


def cells(kind, nodes):
    """The cells that make so many nodes."""
    first, more = KINDS[kind]
    yield first
    for start in range(1, nodes, TURNS_OF_A_CELL):
        yield f"for i in range({start}, {min(nodes, start + TURNS_OF_A_CELL)}):\n    {more}"


def program_times(program, texts, nodes, turns):
    """The seconds that each call of the program takes, and the bytes of the picture."""
    given = f"{turns}\n" + "\n\n".join(texts)
    done = subprocess.run([program], input=given.encode(), capture_output=True, check=True)
    found = dict(line.split(" ") for line in done.stdout.decode().splitlines())
    if found.get("groups") is None or found["nodes"] != str(nodes) or found["same"] != "true":
        sys.exit(f"the program found {found}")
    took = {name: int(nanos) / 1e9 for name, nanos in (line.split(" ") for line in done.stderr.decode().splitlines())}
    return took, int(found["bytes"])


def pickle_times(texts, turns):
    """The seconds that pickling and loading take, and the bytes of the pickle."""
    names = {}
    for text in texts:
        exec(compile(text, "cell", "exec"), names)
    del names["__builtins__"]
    dumps, loads = [], []
    for _ in range(turns):
        begun = time.perf_counter()
        pickled = pickle.dumps(names, 5)
        dumps.append(time.perf_counter() - begun)
        begun = time.perf_counter()
        loaded = pickle.loads(pickled)
        loads.append(time.perf_counter() - begun)
        if loaded.keys() != names.keys():
            sys.exit("the pickle has other names")
        del loaded
    return {"dumps": min(dumps), "loads": min(loads)}, len(pickled)


def compared(program, sizes):
    """Prints a row for each kind, size and call, and tells whether all kept their bounds."""
    kept = True
    print(f"{'objects':<22}{'nodes':>10}{'bytes':>12}{'pickle':>12}   {'call':<12}{'ns a node':>10}{'CPython':>10}{'ratio':>7}{'growth':>8}")
    for kind in KINDS:
        of_a_node = {}
        for nodes in sizes:
            turns = max(3, min(100, 3 * LARGE // nodes))
            texts = list(cells(kind, nodes))
            took, size = program_times(program, texts, nodes, turns)
            pickled, other_size = pickle_times(texts, turns)
            for call in CALLS:
                each = took[call] / nodes
                growth = each / of_a_node.setdefault(call, each)
                beside, ratio = "", 0.0
                if call in PICKLED:
                    other = pickled[PICKLED[call]] / nodes
                    beside, ratio = f"{other * 1e9:.0f}", took[call] / pickled[PICKLED[call]]
                kept = kept and ratio <= WORST and growth <= WORST_OF_A_NODE
                shown = f"{ratio:.2f}" if beside else ""
                print(f"{kind:<22}{nodes:>10}{size:>12}{other_size:>12}   {call:<12}{each * 1e9:>10.0f}{beside:>10}{shown:>7}{growth:>8.2f}")
    return kept


def main():
    if len(sys.argv) not in (2, 4):
        sys.exit("usage: tools/time/time_pictures.py PROGRAM [SMALL LARGE]")
    program = os.path.abspath(sys.argv[1])
    sizes = [int(word) for word in sys.argv[2:]] or [SMALL, LARGE]
    results = []
    sys.setrecursionlimit(100 * max(sizes))
    threading.stack_size(STACK)
    thread = threading.Thread(target=lambda: results.append(compared(program, sizes)))
    thread.start()
    thread.join()
    sys.exit(0 if results == [True] else 1)


if __name__ == "__main__":
    main()
