#!/usr/bin/env python3
"""Refuses Kishu one allocation at a time, and looks at what it answers and leaves.

Usage: tools/fuzz/refused_memory.py PROGRAM [--only NAME] [--every STEP]      PROGRAM is the built program

Each of the runs below goes over a file. Its allocations are counted from 1 on, and run after run the k-th alone is refused, for each k
until a run ends without it; with --every STEP only each STEP-th. A library that stands before the C library's `malloc` counts and
refuses; it is made by `cc`. A run may end with `no memory`, or as if nothing had been refused; then all is as it was without. Where
memory ran out, the output is that of the first requests, whole or in part. The store then holds the first requests, by a reading of its
own, as many as were answered or one more, and it is opened again by the program, which tells the same. The exit is 1 where something
else comes.
"""
import argparse
import collections
import json
import os
import pathlib
import subprocess
import sys
import tempfile

import paths  # noqa: F401
import session_rules
from fuzz_driver import PATIENCE
from store_rules import Damaged, NotAJournal, opened

SHIM = r'''
#define _GNU_SOURCE
#include <dlfcn.h>
#include <errno.h>
#include <fcntl.h>
#include <stdio.h>
#include <stdlib.h>
#include <string.h>
#include <unistd.h>

static unsigned long calls, due;
static void *(*real_malloc)(size_t), *(*real_calloc)(size_t, size_t), *(*real_realloc)(void *, size_t), *(*real_aligned)(size_t, size_t);
static void (*real_free)(void *);
static int (*real_memalign)(void **, size_t, size_t);
static char early[65536];
static size_t taken;

__attribute__((constructor)) static void begin(void) {
    real_calloc = dlsym(RTLD_NEXT, "calloc");
    real_realloc = dlsym(RTLD_NEXT, "realloc");
    real_free = dlsym(RTLD_NEXT, "free");
    real_aligned = dlsym(RTLD_NEXT, "aligned_alloc");
    real_memalign = dlsym(RTLD_NEXT, "posix_memalign");
    real_malloc = dlsym(RTLD_NEXT, "malloc");
    const char *told = getenv("REFUSED_ALLOCATION");
    due = told ? strtoul(told, 0, 10) : 0;
    calls = 0;
}

__attribute__((destructor)) static void end(void) {
    const char *path = getenv("COUNTED_ALLOCATIONS");
    int file = path ? open(path, O_WRONLY | O_CREAT | O_TRUNC, 0600) : -1;
    char text[32];
    if (file >= 0) {
        int length = snprintf(text, sizeof text, "%lu", calls);
        if (write(file, text, length) != length) _exit(99);
        close(file);
    }
}

static int refused(void) {
    if (++calls != due) return 0;
    errno = ENOMEM;
    return 1;
}

static void *before(size_t size) {
    void *at = early + taken;
    taken += (size + 15) / 16 * 16;
    return taken <= sizeof early ? at : 0;
}

void *malloc(size_t size) { return !real_malloc ? before(size) : refused() ? 0 : real_malloc(size); }
void *calloc(size_t count, size_t size) { return !real_malloc ? before(count * size) : refused() ? 0 : real_calloc(count, size); }
void *realloc(void *block, size_t size) { return refused() ? 0 : real_realloc(block, size); }
void *aligned_alloc(size_t to, size_t size) { return refused() ? 0 : real_aligned(to, size); }
void free(void *block) { if (real_free && ((char *)block < early || (char *)block >= early + sizeof early)) real_free(block); }
int posix_memalign(void **block, size_t to, size_t size) { return refused() ? ENOMEM : real_memalign(block, to, size); }
'''
NOTEBOOK = {
    "cells": [
        {"cell_type": "markdown", "id": "title", "metadata": {}, "source": ["# A title"]},
        {"cell_type": "code", "execution_count": None, "id": "one", "metadata": {}, "outputs": [], "source": ["x = [1]\n", "x"]},
        {"cell_type": "code", "execution_count": None, "id": "two", "metadata": {}, "outputs": [], "source": ["x[5]"]},
        {
            "cell_type": "code", "execution_count": 7, "id": "three", "metadata": {},
            "outputs": [{"data": {"image/png": "iVBORw0KGgo="}, "metadata": {}, "output_type": "display_data"}], "source": [],
        },
    ],
    "metadata": {"kernelspec": {"display_name": "Python 3", "language": "python", "name": "python3"}}, "nbformat": 4, "nbformat_minor": 5,
}


def lines(*requests):
    return b"".join(json.dumps(request).encode() + b"\n" for request in requests)


def cell(text):
    return {"op": "cell", "text": text}


# The words and the input of each run.
RUNS = {
    "a way back": (["session"], lines(cell("a = [1]; b = a"), cell("b.append(2)"), {"op": "checkout", "to": "1"}, cell("print(a, a is b)"), {"op": "log"})),
    "groups": (["session"], lines(cell("x = [1]; y = [x]; z = [2]"), {"op": "stored", "of": "1"}, cell("y = 0"), {"op": "stored", "of": "2"}, {"op": "plan", "to": "1"})),
    "a state that is too large": (["session"], lines(cell("s = 'x' * 1000000"), cell("a = [s] * 300"), cell("a"))),
    "a notebook": (["run"], json.dumps(NOTEBOOK).encode()),
    "cells together": (["session"], lines({"op": "cells", "texts": ["a = 1", "a // 0", "a = 2"]})),
}


def library(folder):
    """The library that counts and refuses, made in a folder."""
    source, made = os.path.join(folder, "refusing.c"), os.path.join(folder, "refusing.so")
    pathlib.Path(source).write_text(SHIM)
    subprocess.run(["cc", "-O1", "-fPIC", "-shared", "-o", made, source, "-ldl"], check=True)
    return made


class Runs:
    """Runs of the program in a folder."""

    def __init__(self, program, folder):
        self.program, self.folder, self.library = program, folder, library(folder)
        self.store, self.count = os.path.join(folder, "store"), os.path.join(folder, "count")

    def run(self, words, data, refused=None):
        """Status, its text and output of a run, and how many allocations there were, where they are counted."""
        env = {} if refused is None else {"LD_PRELOAD": self.library, "REFUSED_ALLOCATION": str(refused), "COUNTED_ALLOCATIONS": self.count}
        run = subprocess.run([self.program, "store", *words], input=data, capture_output=True, cwd=self.folder, env=env, timeout=PATIENCE)
        count = 0 if refused is None else int(pathlib.Path(self.count).read_text())
        return (run.returncode, run.stderr, run.stdout), count

    def file(self):
        return pathlib.Path(self.store).read_bytes() if os.path.exists(self.store) else b""

    def empty(self):
        if os.path.exists(self.store):
            os.remove(self.store)


def told(graph):
    """What a graph holds, without the tables."""
    return graph.parents, graph.cells, graph.branches, graph.branch, graph.commit, graph.records


def records_of(file):
    """How many records a store holds, and its graph."""
    graph = opened(file)[2]
    return graph.records, told(graph)


def answered_of(words, out):
    """How many requests that are recorded are answered whole."""
    if words != ["session"]:
        return 0
    answers = [json.loads(line) for line in out.split(b"\n")[:-1]]
    return sum(answer["answer"] in ("cell", "cells", "checkout", "branch") for answer in answers)


def fault(runs, words, data, whole, found):
    """What is wrong with a run of which an allocation was refused. None: nothing. `whole` is what comes without: the run, the graphs after
    each number of records, and the file."""
    (status, text, out), graphs, file = whole
    if found == (status, text, out):
        return None if runs.file() == file else "all is answered, over another file"
    if found[:2] not in ((8, b"no memory\n"), (8, b"")):
        return f"it ended with {found[:2]}"
    if not out.startswith(found[2]):
        return f"other answers: {found[2]!r}"
    try:
        records, graph = records_of(runs.file())
    except (Damaged, NotAJournal) as error:
        return f"the store is damaged: {error!r}"
    answered = answered_of(words, found[2])
    if words == ["session"] and records not in (answered, answered + 1) or graph != graphs.get(records):
        return f"{answered} are answered, and the store holds {records}"
    status_line = runs.run(["status"], b"")[0]
    wanted = session_rules.answer_line(session_rules.Session(runs.file()).status())
    return None if status_line == (0, b"", wanted) else f"opened again, it answers {status_line}"


def graphs_of(runs, words, data):
    """The run without a refusal, the graphs after each number of its records, and the file."""
    runs.empty()
    whole, count = runs.run(words, data, 0)
    file = runs.file()
    graphs, graph = {}, opened(file)[2]
    for records in range(graph.records + 1):
        graphs[records] = told(opened(cut_to(file, records))[2])
    return (whole, graphs, file), count


def cut_to(file, records):
    """A store with its first records alone: the gate behind them is closed."""
    at = 16
    for _ in range(records):
        at += 9 + int.from_bytes(file[at + 1 : at + 9], "big")
    return file[:at] + b"\0" + file[at + 1 :]


def tried(runs, name, every):
    """Refuses one allocation after another in a run, and tells what came. Whether all was right."""
    words, data = RUNS[name]
    whole, count = graphs_of(runs, words, data)
    ended, wrong, refused = collections.Counter(), 0, 0
    for number in range(1, count + every + 1, every):
        runs.empty()
        found, made = runs.run(words, data, number)
        if made < number:
            break
        refused += 1
        said = fault(runs, words, data, whole, found)
        ended[found[0]] += 1
        if said is not None:
            wrong += 1
            print(f"{name}, allocation {number}: {said}", flush=True)
    each = ", ".join(f"{number} with status {status}" for status, number in sorted(ended.items()))
    print(f"{name}: {count} allocations, {refused} refused ({each}), {wrong} wrong", flush=True)
    return wrong == 0


def main():
    parser = argparse.ArgumentParser(description=__doc__, formatter_class=argparse.RawDescriptionHelpFormatter)
    parser.add_argument("program")
    parser.add_argument("--only", choices=RUNS)
    parser.add_argument("--every", type=int, default=1)
    given = parser.parse_args()
    with tempfile.TemporaryDirectory() as folder:
        runs = Runs(os.path.abspath(given.program), folder)
        right = [tried(runs, name, given.every) for name in RUNS if given.only in (None, name)]
    sys.exit(not all(right))


if __name__ == "__main__":
    main()
