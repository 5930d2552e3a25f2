#!/usr/bin/env python3
"""Runs Kishu over store files, command lines and inputs made at random, and compares it with a reading of its own of their rules.

Usage: tools/compare/stores.py PROGRAM [COUNT [SEED]]      1000 cases of seed 1 where no numbers are given

PROGRAM is the built program. A case is a store file, the words of a command line and an input. Its files have records of every kind
that fit and ones that don't, commits whose pictures are those of their cells' states, of other states, of other names or of none, gates,
lengths and headers that were changed, bytes taken out and put in, and ends cut off. Compared are the status, its text, the output and
every byte of the file afterwards. Some commits store one group of all names, as those of stores that were made before did, or none. The
exit is 1 where something differed. A store of 1,000,000
records and a body of 2^30 bytes aren't tried.

What is expected comes of session_rules.py and store_rules.py, which stand on the documents and on nothing of the program. The cells
are ones that CPython runs alike, so their outputs are its; a case whose pictures have a function's code that isn't known, since a byte
of it was changed, is left out. Sessions have a few lines; longer ones are compared by sessions.py.
"""
import json
import os
import random
import subprocess
import sys
import tempfile

import older_stores
import picture_rules
import python_cells
import session_rules
from store_rules import (
    CLOSED, HEADER, LONGEST_CELL, OPEN, Damaged, Graph, NoFit, body_of, commit_body, entry_of, in_eight, in_four, record,
)

CELLS = [
    "", "# \u00fc", "x = 1", "x = x + 1", "print(7)", "print(x)", 'print("\u00e9")', "x = 3\nprint(x, x)",
    "y = x * 2\nprint(y)", 'z = "a" * 3\nprint(z)', "print(1 // 0)", "x = = 1", "x = [1]; y = [x]; z = [2]", "y = 0", "y = [x, z]", "x = [1]", "z = y",
    "w = [7]", "w.append(7)", "w = 7", "print(8, w)", "w", "y.append(2)", "print(y, z)", "z", "del y", "x is y", "def f(n, seen=[]): seen.append(n); return seen", "y = f(1)", "try: x[7]\nexcept IndexError as y: z = y",
]
LENGTHS = [LONGEST_CELL - 1, LONGEST_CELL]
KNOWN = {*CELLS, *("#" * length for length in LENGTHS)}
NO_TEXTS = [b"\xff", b"print(1)\xc3", b"\xed\xa0\x80", b"\xf4\x90\x80\x80", b"\xc0\x80"]
NO_NAMES = [b"", b"9", b"-a", b"a b", b"a.b", "\u00e9".encode(), b"a" * 65, b"a" * 255, b"\xff", b"a\n"]
FORMS = ["cell"] * 8 + ["session"] * 5 + ["run"] * 3 + ["log"] * 3 + ["status"] * 2 + ["inspect"] * 3 + ["checkout"] * 4 + ["branch"] * 3
REFERENCES = [*["0", "1", "2", "main"] * 2, "3", "b0", "b1", "00", "01", "007", "none"]
# Cells whose states stand in pictures that no cell of the store gives.
STATES = [
    "x = 7", "x = [1]; y = x", "y = 'text'; z = (x, [y]) if 'x' in 'x' and False else [y]", "x = []; x.append(x)", "x = {'k': [1], (1, 2): None}; y = x['k']",
    "def f(n, seen=[]): seen.append(n); return seen\ny = f(1)", "z = ValueError('no', [1]); x = z", "x = SimpleNamespace(a=1); y = [x, x]; z = len",
]


# Bodies.


def commit_head(parent, texts, kind=1, profile=1, dropped=b"", stored=b"", more=b""):
    """A commit's head. Groups, and more of a head, are given where a wrong one is meant."""
    cells = b"".join(in_four(len(text)) + text for text in texts)
    groups = in_four(min(1, len(dropped))) + dropped + in_four(min(1, len(stored))) + stored
    return bytes([kind]) + in_four(parent) + bytes([profile]) + in_four(len(texts)) + cells + groups + more


def named(title):
    """A branch's name with its length."""
    return bytes([len(title)]) + title


def wrong_commit(rng, parent, texts):
    """A commit that breaks one rule, or at the most one that only just keeps it."""
    group = in_four(1) + b"\x01x"
    return rng.choice([
        lambda: commit_head(rng.choice([parent + 1, parent // 2, 2**32 - 1]), texts),
        lambda: commit_head(parent, texts, kind=rng.choice([0, 2, 3, 4])),
        lambda: commit_head(parent, texts, profile=rng.choice([0, 2, 255])),
        lambda: commit_head(parent, texts, dropped=group),
        lambda: commit_head(parent, texts, stored=group + in_eight(1)),
        lambda: commit_head(parent, texts, stored=rng.choice([in_four(0), in_four(2) + b"\x01y\x01x", in_four(1) + b"\x02if", in_four(1) + b"\x00"]) + in_eight(0)),
        lambda: commit_head(parent, texts, more=CLOSED),
        lambda: commit_head(parent, []),
        lambda: commit_head(parent, [rng.choice(NO_TEXTS)]),
        lambda: commit_head(parent, [b"#" * rng.choice([LONGEST_CELL, LONGEST_CELL + 1])]),
    ])()


def wrong_move(rng, graph):
    newest = len(graph.parents) - 1
    return rng.choice([
        lambda: b"\x02\x00" + in_four(rng.choice([newest, newest + 1, 2**32 - 1])),
        lambda: b"\x02\x01" + named(rng.choice([b"none", b"Main", *NO_NAMES])),
        lambda: bytes([2, rng.choice([2, 255])]) + in_four(0),
        lambda: b"\x02\x00" + in_four(0) + CLOSED,
        lambda: b"\x02\x01" + named(b"main") + CLOSED,
        lambda: b"\x02\x01\x05main",
        lambda: b"\x02\x00\x00\x00\x00",
        lambda: b"\x02",
    ])()


def wrong_name(rng, graph):
    newest = len(graph.parents) - 1
    return rng.choice([
        lambda: b"\x03" + named(rng.choice([name.encode() for name in graph.branches])) + in_four(0),
        lambda: b"\x03" + named(rng.choice(NO_NAMES)) + in_four(0),
        lambda: b"\x03" + named(b"new") + in_four(rng.choice([newest, newest + 1, 2**32 - 1])),
        lambda: b"\x03" + named(b"new") + in_four(0) + CLOSED,
        lambda: b"\x03" + named(b"new") + b"\x00\x00\x00",
        lambda: b"\x03\x0fnew" + in_four(0),
    ])()


def wrong_body(rng, graph, texts):
    """A body that breaks one rule, or at the most one that only just keeps it."""
    head = rng.choice([
        lambda: wrong_commit(rng, graph.commit, texts), lambda: wrong_commit(rng, graph.commit, texts),
        lambda: wrong_move(rng, graph), lambda: wrong_name(rng, graph), lambda: b"",
    ])()
    body = body_of(head)
    return rng.choice([body] * 8 + [body + CLOSED, in_four(len(head) + 1) + head, body[:-1]])


def good_body(rng, graph, texts):
    """A body that fits the graph."""
    newest, kind = len(graph.parents) - 1, rng.random()
    if kind < 0.4:
        return foreign_commit(rng, graph, texts)
    if kind < 0.6:
        return body_of(b"\x02\x00" + in_four(rng.randint(0, newest)))
    if kind < 0.8:
        return body_of(b"\x02\x01" + named(rng.choice(list(graph.branches)).encode()))
    title = rng.choice([b"b%d" % graph.records, b"_-%d" % graph.records, b"A" * 62 + b"%02d" % graph.records])
    return body_of(b"\x03" + named(title) + in_four(rng.randint(0, newest)))


def foreign_commit(rng, graph, texts):
    """A commit that drops and stores other groups than its cells do, most of them ones that fit."""
    table = [row.names for row in graph.tables[graph.commit]]
    dropped = [names for names in table if rng.random() < 0.7]
    if rng.random() < 0.05:
        dropped = sorted([*dropped, ("nothing",)])
    kept = {name for names in table if names not in dropped for name in names}
    space = python_cells.empty_space()
    python_cells.run(rng.choice(STATES), space)
    names = [name for name in python_cells.names_in(space) if name not in kept or rng.random() < 0.03]
    groups = [names] if rng.random() < 0.5 else [[name] for name in names if rng.random() < 0.8]
    stored = [(group, spoilt(rng, picture_rules.picture(space, group), space)) for group in groups if group]
    return commit_body(graph.commit, texts, dropped, stored)


def whole_commit(rng, file, texts):
    """The file with a commit of these cells as older stores have it; None where the state at its head isn't known."""
    try:
        session = session_rules.Session(file + CLOSED, KNOWN)
        older_stores.commit_whole(session, [text.decode() for text in texts], rng.random() < 0.9)
    except (Damaged, python_cells.Unlike):
        return None
    return session.file[:-1]


def spoilt(rng, picture, space):
    """A picture as it is, or now and then another, or bytes that are none."""
    if rng.random() < 0.85:
        return picture
    at = rng.randrange(len(picture))
    return rng.choice([
        picture[:at], picture + CLOSED, b"", picture_rules.picture(space, []),
        picture[:at] + bytes([rng.choice([0, 1, 2, 4, 8, 9, 255])]) + picture[at + 1 :],
    ])


def ran_commit(rng, file, texts):
    """The file with a commit of these cells, as the program makes it; None where the state at its head isn't known."""
    try:
        session = session_rules.Session(file + CLOSED, KNOWN)
        session.told({"op": "cells", "texts": [text.decode() for text in texts]})
    except (Damaged, python_cells.Unlike):
        return None
    return session.file[:-1]


# Cases.


def chain(rng):
    """A file of some records, the most of which fit."""
    file, graph = HEADER, Graph()
    for _ in range(rng.choice([0, 1, 1, 2, 3, 4, 6, 9])):
        texts = [rng.choice(CELLS).encode() for _ in range(rng.choice([1, 1, 1, 2, 3]))]
        grown = rng.choice([ran_commit, ran_commit, whole_commit, lambda *_: None])(rng, file, texts)
        if grown is not None:
            graph, file = session_rules.opened(grown + CLOSED)[2], grown
        elif rng.random() < 0.1:
            file += record(wrong_body(rng, graph, texts))
        else:
            file, graph = with_body(file, graph, good_body(rng, graph, texts))
    file += rng.choice([CLOSED, CLOSED, CLOSED, CLOSED, CLOSED, b"<", b"\xa4", b"\xff", OPEN])
    if rng.random() < 0.3:
        file += bytes(rng.choice([0, 1, 0xA5, 0xFF]) for _ in range(rng.randrange(1, 60)))
    return file


def with_body(file, graph, body):
    """The file with a record more, and its graph, which stays where the record doesn't fit."""
    try:
        graph.add(entry_of(body), len(file) + 9)
    except NoFit:
        pass
    return file + record(body), graph


def changed(rng, file):
    """The file with one place cut, set, taken out or put in."""
    at = rng.randrange(rng.choice([30, len(file)])) % len(file)
    some = bytes([rng.choice([0, 1, 0xA5, 0xFF, rng.randrange(256)])])
    return rng.choice([
        file[:at],
        file[:at] + some + file[at + 1 :],
        file[:at] + file[at + 1 :],
        file[:at] + some + file[at:],
    ])


def file_of(rng, words):
    """A file, mostly with one place changed or two; for a session it is mostly left as it is."""
    chance = rng.random()
    if chance < 0.03:
        return None
    if chance < 0.06:
        return bytes(rng.choice([0, 0x4B, 0x78, 0xA5]) for _ in range(rng.randrange(40)))
    file = chain(rng)
    for _ in range(rng.choice([0, 0, 0, 0, 0, 1] if words[1:] == ["session"] else [0, 0, 0, 1, 1, 2])):
        file = changed(rng, file) if file else file
    return file


def words_of(rng, store):
    if rng.random() < 0.95:
        form, reference = rng.choice(FORMS), rng.choice(REFERENCES)
        more = {"run": rng.choice([[], ["--together"]]), "checkout": [reference], "branch": rng.choice([["new"], ["b1"], ["main"], ["9"], ["new", reference]])}
        return [store, form, *more.get(form, [])]
    return rng.choice([
        [], [store], ["cell"], [store, "Cell"], [store, "cell "], [store, "cell", ""], [store, "cell", "x"], ["", "cell"],
        ["", store, "cell"], ["-x", store, "cell"], [store, "cell", "-"], ["--together", store, "cell"],
        [store, "cell", "--together"], ["--", store, "cell"], [store, "--", "cell"], [store, "log", "1"], [store, "checkout"],
        ["--together", store, "run"], [store, "--together", "run"], [store, "--together", "run", "--together"], [store, "run", "x"],
        [store, "branch"], [store, "branch", "a", "0", "1"], [store, "checkout", "0", "1"], [store, "status", "-"],
    ])


def notebook_of(rng):
    """A notebook of up to three cells."""
    cells = [
        {"cell_type": "code", "execution_count": None, "id": f"cell-{number}", "metadata": {}, "outputs": [], "source": rng.choice(CELLS)}
        for number in range(rng.randrange(4))
    ]
    return json.dumps({"cells": cells, "metadata": {}, "nbformat": 4, "nbformat_minor": rng.choice([5, 5, 5, 5, 4])}).encode()


def line_of(rng):
    """A line of a session."""
    request = rng.choice([
        *[lambda: {"op": "cell", "text": rng.choice(CELLS)}] * 4, lambda: {"op": "cells", "texts": [rng.choice(CELLS) for _ in range(rng.choice([1, 2, 3]))]},
        *[lambda: {"op": "stored", "of": rng.choice(REFERENCES)}] * 3, *[lambda: {"op": "checkout", "to": rng.choice(REFERENCES)}] * 3,
        lambda: {"op": rng.choice(["log", "status", "inspect", "fly"])}, lambda: {"op": "branch", "name": rng.choice(["b0", "new"])},
    ])()
    return json.dumps(request).encode() + b"\n"


def input_of(rng, words):
    chance = rng.random()
    if words[1:] == ["session"]:
        return b"".join(line_of(rng) for _ in range(rng.randrange(12)))
    if "run" in words and chance < 0.9:
        return notebook_of(rng)
    if chance < 0.03:
        return rng.choice(NO_TEXTS)
    if chance < 0.05:
        return b"#" * rng.choice([*LENGTHS, LONGEST_CELL + 1, LONGEST_CELL + 4097, 2_000_000])
    return rng.choice(CELLS).encode()


def found(program, folder, store, words, data, file):
    """Status, its text, output and file of a run of the program."""
    path = os.path.join(folder, store)
    if os.path.exists(path):
        os.remove(path)
    if file is not None:
        with open(path, "wb") as out:
            out.write(file)
    run = subprocess.run([program, *words], input=data, capture_output=True, cwd=folder)
    after = None
    if os.path.exists(path):
        with open(path, "rb") as held:
            after = held.read()
    return run.returncode, run.stderr, run.stdout, after


def wanted(words, data, file):
    """What is expected, or None where a cell would be run that isn't known to be meant alike."""
    try:
        return session_rules.expected(words, data, file, KNOWN)
    except python_cells.Unlike:
        return None


def main():
    if len(sys.argv) < 2:
        sys.exit(__doc__)
    program = os.path.abspath(sys.argv[1])
    count = int(sys.argv[2]) if len(sys.argv) > 2 else 1000
    seed = int(sys.argv[3]) if len(sys.argv) > 3 else 1
    rng, differ, left_out, statuses = random.Random(seed), 0, 0, {}
    with tempfile.TemporaryDirectory() as folder:
        for case in range(count):
            words = words_of(rng, "store")
            file = file_of(rng, words)
            data = input_of(rng, words)
            want = wanted(words, data, file)
            if want is None:
                left_out += 1
                continue
            got = found(program, folder, "store", words, data, file)
            statuses[want[0]] = statuses.get(want[0], 0) + 1
            if got != want:
                differ += 1
                print(f"case {case}: words {words}, input {data[:80]}, file {file and file[:200].hex()}")
                print(f"  found    {got[:3]}, and {'the' if got[3] == want[3] else 'another'} file")
                print(f"  expected {want[:3]}")
    told = ", ".join(f"{statuses[code]} with status {code}" for code in sorted(statuses))
    print(f"{count} cases of seed {seed} ({told}), {left_out} left out: {differ} differ")
    sys.exit(differ > 0)


if __name__ == "__main__":
    main()
