#!/usr/bin/env python3
"""Runs worked sessions whose answers and bytes stand here, by the rules that the other scripts compare with, or by the built program.

Usage: tools/compare/worked_rows.py [--show]                the rules alone
       tools/compare/worked_rows.py PROGRAM [--show]        the rules, and the program on stores of its own

PROGRAM is the built program, crates/kishu_cli/out/kishu_cli. The answers, the bytes of a store, a picture and the groups of commits were
written by hand, from the documents. Each store is also looked at whether it is good: that of each row has to be, but for one that begins
as a file whose commit has one group of all names, and for one whose stored picture is another than that of its cells. How many bytes of
the store each line reads is told by the rules, in some rows by hand too, and of the program by the system's count of what it read. With
`--show` each row prints its lines with the answers. The script ends with status 1 where something differs."""
import argparse
import json
import os
import pathlib
import subprocess
import sys
import tempfile

import good_rules
import older_stores
import picture_rules
import python_cells
import session_rules
from reads import bytes_read

ONE = bytes.fromhex(
    "4b495348552d4a4f55524e414c2d310a a5 0000000000000026 00000022 01 00000000 01 00000001 0000000c 7072696e742831202b203229 00000000 00000000 00"
)
SHARED = bytes.fromhex(
    "00000002 0161 0800000000 0162 0800000000 00000001 01 00000001 03 00000000000000000000000000000001"
)


def cell(text, shows=None):
    """A cell, and what it prints or shows, as its answer has it."""
    return {"op": "cell", "text": text}, {} if shows is None else {"shows": shows}


def fault(text, name, value):
    return {"op": "cell", "text": text}, {"fault": (name, value)}


def stored(of, dropped, groups, commit=None):
    commit = int(of) if commit is None else commit
    return {"op": "stored", "of": of}, {"answer": "stored", "commit": commit, "dropped": dropped, "stored": groups}


def checkout(to, commit, head):
    return {"op": "checkout", "to": to}, {"answer": "checkout", "commit": commit, "head": head}


def plan(to, commit, drop, keep, load):
    return {"op": "plan", "to": to}, {"answer": "plan", "commit": commit, "drop": drop, "keep": keep, "load": load}


A, XY, X, Y, Z, G, P, GP, L, F = ["a"], ["x", "y"], ["x"], ["y"], ["z"], ["g"], ["p"], ["g", "p"], ["L"], ["f"]
LOG = {
    "answer": "log", "branches": [{"commit": 2, "name": "main"}],
    "path": [
        {"cells": 1, "commit": 3, "line": "print(a, a is b)", "parent": 1}, {"cells": 1, "commit": 1, "line": "a = [1]; b = a", "parent": 0},
    ],
}
BOUND = {"answer": "inspect", "commit": 1, "names": {"a": "#0", "b": "#0"}, "nodes": [["list", "1"]]}
TOO_LARGE = {"answer": "refused", "bytes": 301001535, "number": 7, "reason": "StateTooLarge"}
NO_REFERENCE = {"answer": "refused", "number": 2, "reason": "NoSuchRef"}
ROWS = {
    "the first cell": [cell("print(1 + 2)", "3\n")],
    "two ways from one state": [
        cell("a = [1]; b = a"), cell("b.append(2)"), checkout("1", 1, None), cell("print(a, a is b)", "[1] True\n"), ({"op": "log"}, LOG),
        stored("1", [], [["a", "b"]]), stored("2", [["a", "b"]], [["a", "b"]]), stored("3", [], []),
    ],
    "what is bound": [cell("a = [1]; b = a"), ({"op": "inspect"}, BOUND)],
    "a list that holds itself": [
        cell("a = []"), cell("a.append(a)"), cell("print(a)", "[[...]]\n"), checkout("0", 0, None), checkout("main", 3, "main"),
        cell("print(a, a[0] is a)", "[[...]] True\n"), stored("2", [["a"]], [["a"]]), stored("4", [], []),
    ],
    "a group that is split": [
        cell("x = [1]; y = [x]; z = [2]"), stored("1", [], [XY, Z]), cell("y = 0"), stored("2", [XY], [X, Y]), stored("main", [XY], [X, Y], 2), checkout("1", 1, None),
        cell("print(y[0] is x, z)", "True [2]\n"), stored("3", [], []), stored("0", [], []), ({"op": "stored", "of": "7"}, NO_REFERENCE),
    ],
    "a checkout that keeps a group": [
        cell("x = [1]; y = [x]; z = [2]"), cell("y = 0"), plan("1", 1, [X, Y], [Z], [XY]), checkout("1", 1, None), cell("print(y[0] is x, z)", "True [2]\n"),
        plan("main", 2, [XY], [Z], [X, Y]), checkout("main", 2, "main"), cell("print(x, y, z)", "[1] 0 [2]\n"),
    ],
    "a checkout to where the head stands": [
        cell("a = [1]"), cell("b = [a]"), plan("main", 2, [], [["a", "b"]], []), checkout("main", 2, "main"), ({"op": "status"}, {
            "answer": "status", "branch": "main", "commit": 2, "commits": 3, "names": ["a", "b"], "records": 3,
        }), cell("b[0] is a", "True"),
    ],
    "a checkout that loads what was left": [
        cell("a = []"), cell("a.append(a)"), cell("print(a)", "[[...]]\n"), plan("0", 0, [A], [], []), checkout("0", 0, None), plan("main", 3, [], [], [A]),
        fault("a", "NameError", "name 'a' is not defined"), checkout("main", 3, "main"), plan("2", 2, [], [A], []), cell("print(a, a[0] is a)", "[[...]] True\n"),
    ],
    "a function that changes a global name": [cell("L = []"), cell("def f(): L.append(1)"), cell("f()"), stored("2", [], [F]), stored("3", [L], [L])],
    "a group that joins another": [
        cell("def g(x, acc=[]): acc.append(x); return acc"), cell("p = g(1)"), stored("2", [G], [GP]), cell("p = 0"), stored("3", [GP], [G, P]),
        checkout("2", 2, None), cell("g(2) is p", "True"), stored("4", [GP], [GP]),
    ],
    "the same value again": [cell("a = [1]"), cell("a[0] = 1"), stored("2", [], []), cell("a = [1]"), stored("3", [], []), cell("a = [1, 2]"), cell("a.pop()", "2"), stored("5", [["a"]], [["a"]])],
    "what raised is stored": [
        fault("n = 1; m = 1 // 0; n = 2", "ZeroDivisionError", "division by zero"), cell("n", "1"), stored("1", [], [["n"]]), stored("2", [], []),
    ],
    "a state that is too large": [
        cell("s = 'x' * 1000000"), ({"op": "cell", "text": "a = [s] * 300"}, TOO_LARGE), fault("a", "NameError", "name 'a' is not defined"), stored("2", [], []),
    ],
    "one change after another": [
        cell("x = [1]; y = [x]; z = [2]"), cell("y = 0"), cell("x[0] = 1"), cell("z.append(x)"), cell("del y"), stored("1", [], [XY, Z]), stored("2", [XY], [X, Y]),
        stored("3", [], []), stored("4", [X, Z], [["x", "z"]]), stored("5", [Y], []),
    ],
    "another value": [cell("a = [1]"), cell("a[0] = 2"), stored("2", [A], [A])],
    "a value that comes back": [
        cell("a = [1]"), cell("a = [2]"), cell("a = [1]"), stored("3", [["a"]], [["a"]]), ({"op": "cells", "texts": ["a.append(2)", "a.pop()"]}, {"answer": "cells", "commit": 4, "results": [
            {"count": 4, "outcome": "ok", "outputs": []},
            {"count": 5, "outcome": "ok", "outputs": [{"data": {"text/plain": "2"}, "execution_count": 5, "metadata": {}, "output_type": "execute_result"}]},
        ]}), stored("4", [], []),
    ],
    "a name that goes": [
        cell("k = [1]"), fault("try: {}[k[0]]\nexcept KeyError as e: k.append(2); e.args[1]", "IndexError", "index out of range"),
        stored("2", [["k"]], [["k"]]), cell("del k"), stored("3", [["k"]], []), ({"op": "status"}, {
            "answer": "status", "branch": "main", "commit": 3, "commits": 4, "names": [], "records": 3,
        }),
    ],
}
# A store of one commit with the cell `a = [1]`, whose picture of `a` is that of `a = [2]`.
OTHER = "another picture than that of its cells"
# The bytes of the store that the lines of a row read: those of the pictures that a checkout loads, and of those that cells accessed and left
# as they were. The picture of a list of one number has 37 bytes, with a list that holds it 54, of one list by two names 44, of a number 27,
# and of a list which holds itself 25.
READ = {
    "two ways from one state": [0, 0, 44, 44, 0, 0, 0, 0],
    "a checkout that keeps a group": [0, 0, 0, 54, 54 + 37, 0, 37 + 27, 37 + 27 + 37], "a checkout to where the head stands": [0, 0, 0, 0, 0, 54],
    "a checkout that loads what was left": [0, 0, 25, 0, 0, 0, 0, 25, 0, 25], "the same value again": [0, 37, 0, 37, 0, 0, 0, 0],
    "another value": [0, 0, 0], "what raised is stored": [0, 27, 0, 0], "a value that comes back": [0, 0, 0, 0, 37, 0], OTHER: [0, 37, 37],
}
OTHER_FILE = bytes.fromhex(
    "4b495348552d4a4f55524e414c2d310a a5 0000000000000054 0000002b 01 00000000 01 00000001 00000007 61203d205b315d 00000000 00000001 00000001 0161 "
    "0000000000000025 00000001 0161 0800000000 00000001 01 00000001 03 00000000000000000000000000000002 00"
)
ROWS[OTHER] = [checkout("0", 0, None), checkout("main", 1, "main"), cell("print(a)", "[2]\n")]
WHOLE = "one group of all names"
ROWS[WHOLE] = [
    cell("print(0)", "0\n"), stored("1", [], [XY]), stored("2", [], []), cell("z = 3"), stored("3", [], [Z]), cell("x", "1"), stored("4", [XY], [X, Y]), cell("x = 1"),
    stored("5", [], []), checkout("3", 3, None), cell("print(y)", "2\n"), stored("6", [XY], [X, Y]),
]


def is_told(answer, wanted):
    """Whether an answer is the one that is wanted: whole, or of a cell what it shows or raises."""
    if "answer" in wanted:
        return answer == wanted
    if "fault" in wanted:
        return answer["outcome"] == "error" and (answer["outputs"][-1]["ename"], answer["outputs"][-1]["evalue"]) == wanted["fault"]
    shown = [output.get("text") or output["data"]["text/plain"] for output in answer["outputs"]]
    return answer["outcome"] == "ok" and shown == ([wanted["shows"]] if "shows" in wanted else [])


def by_rules(lines, file):
    """The answers of a session, the bytes that each line read, and the file, by the rules."""
    session = session_rules.Session(file)
    answers, counts = [], [session.read]
    for line in lines:
        answers.append(session.answer(session_rules.request_of(line)))
        counts.append(session.read)
    return answers, counts, session.file


def by_program(program, lines, file):
    """The same by the program, which gets each line when the line before is answered. An empty line is answered first, so that the opening
    is done when the counting begins."""
    with tempfile.TemporaryDirectory() as folder:
        path = os.path.join(folder, "store")
        if file is not None:
            pathlib.Path(path).write_bytes(file)
        child = subprocess.Popen([program, path, "session"], stdin=subprocess.PIPE, stdout=subprocess.PIPE, bufsize=0)
        answers, counts, taken = [], [], 0
        for line in [b"", *lines]:
            child.stdin.write(line + b"\n")
            answers.append(child.stdout.readline())
            taken += len(line) + 1
            counts.append(bytes_read(child) - taken)
        child.stdin.close()
        if child.wait() != 0:
            sys.exit(f"a session ended with {child.returncode}")
        return answers[1:], counts, pathlib.Path(path).read_bytes()


def faults_of(title, row, done, show):
    """What differs in a row that was run."""
    lines, counts, file = done
    read = [after - before for before, after in zip(counts, counts[1:])]
    if read != READ.get(title, read):
        yield f"{title}: its lines read {read} bytes, and not {READ[title]}"
    for (request, wanted), answer in zip(row, map(json.loads, lines)):
        if show:
            print(f"  {json.dumps(request)}\n    {json.dumps(answer)}")
        if not is_told(answer, wanted):
            yield f"{title}: {request} is answered {answer}, and not {wanted}"
    found = good_rules.fault(file)
    if (found is None) != (title not in (WHOLE, OTHER)):
        yield f"{title}: the store is {'good' if found is None else 'not good: ' + found}"


def faults_of_bytes(files):
    """What differs in the bytes of a store and of a picture."""
    if files["the first cell"] != ONE:
        yield f"the first cell: the file is {files['the first cell'].hex()}"
    if len(SHARED) != 44 or not files["what is bound"].endswith(SHARED + b"\0"):
        yield f"what is bound: the file is {files['what is bound'].hex()}"


def faults_of_pictures():
    """What differs in the reading of a picture."""
    space = python_cells.empty_space()
    picture_rules.load(SHARED, space)
    if space["a"] is not space["b"] or picture_rules.picture(space, ["a", "b"]) != SHARED:
        yield "the picture isn't read as it was written"
    for data, place in ((SHARED[:43], 28), (SHARED + b"\0", 44)):
        try:
            picture_rules.load(data, python_cells.empty_space())
            yield f"{data.hex()} is read"
        except picture_rules.NoPicture as found:
            if found.args != (place,):
                yield f"{data.hex()} has its fault at {found}, and not at {place}"


def main():
    words = argparse.ArgumentParser(usage=__doc__)
    words.add_argument("program", nargs="?")
    words.add_argument("--show", action="store_true")
    given = words.parse_args()
    runs = {"the rules": by_rules}
    if given.program is not None:
        runs["the program"] = lambda lines, file: by_program(os.path.abspath(given.program), lines, file)
    faults = [*faults_of_pictures()]
    begun = {WHOLE: older_stores.whole_store("x = 1; y = 2"), OTHER: OTHER_FILE}
    files, counts = {name: {} for name in runs}, {name: {} for name in runs}
    for name, run in runs.items():
        for title, row in ROWS.items():
            if given.show:
                print(f"{title}, by {name}:")
            done = run([json.dumps(request).encode() for request, _ in row], begun.get(title))
            counts[name][title], files[name][title] = [count - done[1][0] for count in done[1]], done[2]
            faults += faults_of(title, row, done, given.show)
        faults += faults_of_bytes(files[name])
    faults += [f"{title}: {told} bytes are read, and not {counts['the rules'][title]}" for name in runs for title, told in counts[name].items() if told != counts["the rules"][title]]
    for found in faults:
        print(f"differs: {found}")
    print(f"{len(ROWS)} rows by {' and '.join(runs)}: {len(faults)} differences")
    sys.exit(1 if faults else 0)


if __name__ == "__main__":
    main()
