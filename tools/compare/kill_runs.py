#!/usr/bin/env python3
"""Kills runs of Kishu at random moments, and looks whether anything that was acknowledged is lost.

Usage: tools/compare/kill_runs.py [RUNS] [--program PROGRAM] [--only cells|sessions|notebooks]      (300 of each where no number is given)

PROGRAM is the built program; without it the script `kishu` is run first, which builds it by `rt` where it has to. Stores are on real
files, and a run is killed (SIGKILL) after a random delay. What it put out before that is what it acknowledged.

Cells: each run commits one cell. After each run the store is opened by a run that isn't killed: its commit's number tells how many
commits the store held. That number may not be below what was acknowledged, nor above it by more than the one cell that was under way.

Sessions: each run is a session of 40 requests: cells, one or several at once, about some names that share nodes and some that don't,
which are tied together and let go of; checkouts of commits and of branches, new branches, `log`, `status`, `stored`, `plan`, and some
that are refused. What all of them are answered is known before, by session_rules.py. After each run the output has to be a prefix of
these answers, and the file, byte by byte as store_rules.py reads it, has to hold the records of the answered requests in order, and at
most that of the next request besides. Then `log` and `status` by runs that aren't killed have to tell just these. The next session
goes on with the same store, which is new every 25 runs.

Notebooks: each run takes a notebook of 40 code cells to a store of its own, every other one with `--together`. After the kill the
store has to hold the commits of the first cells, one each and in order, or together those of all cells or none; all, where any byte
of the notebook is out. Then a notebook of the other cells is run on that store, and isn't killed: it has to be written with just what
they show behind the first ones.
"""
import argparse
import json
import os
import pathlib
import random
import subprocess
import sys
import tempfile
import time

import notebook_rules
import session_rules
from store_rules import HEADER, Damaged, bodies_in

TOP = pathlib.Path(__file__).resolve().parents[2]
KISHU = os.path.join(TOP, "kishu")
BUILT = os.path.join(TOP, "crates", "kishu_cli", "out", "kishu_cli")
REQUESTS = 40
RUNS_OF_A_STORE = 25
CELLS = 40


def complete(words, given):
    """The output of a run that isn't killed."""
    done = subprocess.run(words, input=given, capture_output=True)
    if done.returncode != 0:
        sys.exit(f"a run that was not killed ended with {done.returncode}: {done.stderr.decode()}")
    return done.stdout


def killed(words, given, delay):
    """What a run put out before it was killed, and whether it had ended by itself, with status 0."""
    with tempfile.TemporaryFile() as entered, tempfile.TemporaryFile() as shown:
        entered.write(given)
        entered.seek(0)
        child = subprocess.Popen(words, stdin=entered, stdout=shown)
        try:
            status = child.wait(delay)
        except subprocess.TimeoutExpired:
            status = None
            child.kill()
            child.wait()
        if status:
            sys.exit(f"a run ended by itself with {status}")
        shown.seek(0)
        return shown.read(), status == 0


def span_of(words, given):
    """In how many seconds a run ends that isn't killed, and half as many more."""
    begun = time.monotonic()
    complete(words, given)
    return 1.5 * (time.monotonic() - begun)


# Cells.


def kill_cells(program, folder, runs):
    store = os.path.join(folder, "cells.kishu")
    words = [program, store, "cell"]
    acknowledged_runs = kept_unacknowledged = 0
    span, held = span_of(words, b"x = 0"), 1
    for i in range(runs):
        out, ended = killed(words, b"x = %d" % i, random.uniform(0, span))
        answer = json.loads(out)["commit"] if out.endswith(b"\n") else None
        found = json.loads(complete(words, b"print(x)"))["commit"] - 1
        if ended and answer is None:
            sys.exit(f"run {i} ended by itself without an answer")
        if answer is not None:
            acknowledged_runs += 1
            if answer != held + 1 or found != answer:
                sys.exit(f"run {i}: commit {answer} was acknowledged, and the store held {found}")
        elif found not in (held, held + 1):
            sys.exit(f"run {i}: the store held {found} commits after {held} and one run")
        else:
            kept_unacknowledged += found - held
        held = found + 1
    print(
        f"{runs} runs of a cell killed: {acknowledged_runs} had acknowledged their commit, "
        f"{kept_unacknowledged} more had stored it; no acknowledged commit was lost"
    )


# Sessions.


class Plan:
    """The lines of a session on a store, its answers, and how many records the store has behind each. Each request is made by a
    function, of the graph at that point."""

    def __init__(self, file, requests):
        self.session = session_rules.Session(file)
        self.lines, self.answers, self.records = [], [], [self.session.graph.records]
        for request in requests:
            self.lines.append(json.dumps(request(self.session.graph)).encode())
            self.answers.append(self.session.answer(session_rules.request_of(self.lines[-1])))
            self.records.append(self.session.graph.records)

    def input(self):
        return b"".join(line + b"\n" for line in self.lines)

    def bodies(self):
        """The bodies of all records that the store has at the end."""
        return bodies_in(self.session.file)[0]

    def moves(self, answered):
        """How many checkouts and new branches are among the first answers."""
        return sum(answer.startswith((b'{"answer":"checkout"', b'{"answer":"branch"')) for answer in self.answers[:answered])


def random_plan(file, rng):
    return Plan(file, [lambda graph, number=number: random_request(rng, graph, number) for number in range(REQUESTS)])


def random_request(rng, graph, number):
    newest = len(graph.parents) - 1
    return rng.choice([
        *[lambda: {"op": "cell", "text": f"x = {number}"}] * 5,
        *[lambda: {"op": "cell", "text": f"try: seen.append({number})\nexcept NameError: seen = [{number}]"}] * 3,
        *[lambda: {"op": "cell", "text": f"print(seen, {number})"}] * 2,
        *[lambda: {"op": "cell", "text": rng.choice([f"row = [{number}]; pair = [row, seen]", "pair = row = 0", "row.append(x)", "pair = [row, row]"])}] * 3,
        *[lambda: {"op": "cells", "texts": [f"x = {number}", f"print(x, {number})", f"x // {number % 2}", "x"]}] * 2,
        *[lambda: {"op": "cell", "text": rng.choice(["ties = {'row': row, 'seen': seen}", "ties = [pair, [x]]", "del ties", "del row, pair"])}] * 2,
        *[lambda: {"op": "checkout", "to": str(rng.randint(0, newest))}] * 3,
        lambda: {"op": "checkout", "to": rng.choice(["0", "0", "main", "none"])},
        *[lambda: {"op": "checkout", "to": rng.choice(list(graph.branches))}] * 3,
        *[lambda: {"op": "branch", "name": f"b{len(graph.branches)}", "at": str(rng.randint(0, newest + 1))}] * 2,
        lambda: {"op": "branch", "name": f"b{len(graph.branches)}"},
        lambda: {"op": "branch", "name": rng.choice(["main", "9", f"b{len(graph.branches)}"])},
        lambda: {"op": rng.choice(["log", "status", "fly"])},
        lambda: {"op": "stored", "of": rng.choice(["main", str(rng.randint(0, newest + 1))])},
        lambda: {"op": "plan", "to": rng.choice(["main", str(rng.randint(0, newest + 1))])},
    ])()


def content(store):
    """The store's bytes. A file that isn't there is None."""
    return pathlib.Path(store).read_bytes() if os.path.exists(store) else None


def held_bodies(file):
    """The bodies of the records in a file, which has to be a good store."""
    return bodies_in(file)[0] if file is not None and len(file) > len(HEADER) + 1 else []


def look_at(plan, out, file):
    """How many requests were answered, and how many records more the store has. ValueError: something is wrong, and what."""
    answered = out.count(b"\n")
    if not b"".join(plan.answers).startswith(out):
        raise ValueError("the output isn't a prefix of the answers")
    bodies, least = held_bodies(file), plan.records[answered]
    most = plan.records[min(answered + 1, len(plan.lines))]
    if not least <= len(bodies) <= most:
        raise ValueError(f"{answered} requests were answered, so the store has {least} to {most} records, and it holds {len(bodies)}")
    if bodies != plan.bodies()[: len(bodies)]:
        raise ValueError("the records aren't those of the requests in order")
    return answered, len(bodies) - least


def kill_session(program, store, rng, span):
    """Kills one session. How many requests were answered, how many of these were moves, and how many records the store has besides."""
    plan = random_plan(content(store), rng)
    out, ended = killed([program, store, "session"], plan.input(), rng.uniform(0, span))
    answered, more = look_at(plan, out, content(store))
    if ended and answered < REQUESTS:
        raise ValueError(f"it ended by itself after {answered} answers")
    look_at_told(program, store)
    return answered, plan.moves(answered), more


def look_at_told(program, store):
    """Opens a store. ValueError: it tells something else than its file holds."""
    for form in ("log", "status"):
        _, _, wanted, _ = session_rules.expected([store, form], b"", content(store))
        if complete([program, store, form], b"") != wanted:
            raise ValueError(f"`{form}` tells something else than the file holds")


def kill_sessions(program, folder, runs):
    rng = random.Random()
    answered = moved = more = cut = 0
    for i in range(runs):
        if i % RUNS_OF_A_STORE == 0:
            tried, store = (os.path.join(folder, f"{kind}{i}.kishu") for kind in ("tried", "sessions"))
            span = span_of([program, tried, "session"], random_plan(None, rng).input())
        try:
            count, moves, kept = kill_session(program, store, rng, span)
        except ValueError as fault:
            sys.exit(f"session {i}: {fault}")
        except Damaged as damage:
            sys.exit(f"session {i}: the store is damaged at {damage}")
        answered, moved, more, cut = answered + count, moved + moves, more + kept, cut + (count < REQUESTS)
    if moved == 0 or cut == 0:
        sys.exit(f"{moved} checkouts and branches were answered, and {cut} sessions killed before their end: nothing was tried")
    print(
        f"{runs} sessions of {REQUESTS} requests killed, {cut} of them before their end: {answered} requests were acknowledged, {moved} of "
        f"them checkouts and new branches, and {more} more had been stored; no acknowledged request was lost, and all are in order"
    )


# Notebooks.


def text_of(number):
    """A cell that shows which cells ran before it."""
    return "seen = [0]\nseen" if number == 0 else f"seen.append({number})\nseen"


def notebook_of(numbers):
    """A notebook of these cells, as a JSON value."""
    shared = {"cell_type": "code", "execution_count": None, "metadata": {}, "outputs": []}
    cells = [{"id": f"cell-{number}", "source": text_of(number).splitlines(keepends=True)} | shared for number in numbers]
    return {"cells": cells, "metadata": {}, "nbformat": 4, "nbformat_minor": 5}


def shown_by(numbers):
    """The bytes of that notebook when its cells ran behind those before them."""
    value = notebook_of(numbers)
    for number, cell in zip(numbers, value["cells"]):
        seen = {"text/plain": str(list(range(number + 1)))}
        cell["execution_count"] = number + 1
        cell["outputs"] = [{"data": seen, "execution_count": number + 1, "metadata": {}, "output_type": "execute_result"}]
    return notebook_rules.pretty(value)


def bodies_of(together):
    """The bodies of the records of all cells."""
    texts, session = [text_of(number) for number in range(CELLS)], session_rules.Session(None)
    for request in [{"op": "cells", "texts": texts}] if together else [{"op": "cell", "text": text} for text in texts]:
        session.told(request)
    return bodies_in(session.file)[0]


def kill_notebook(program, store, together, delay):
    """Kills one run of a notebook. How many cells were committed, and whether all of the notebook was out."""
    words = [program, store, "run", *(["--together"] if together else [])]
    out, ended = killed(words, json.dumps(notebook_of(range(CELLS))).encode(), delay)
    whole, held = shown_by(range(CELLS)), held_bodies(content(store))
    if not whole.startswith(out) or ended and out != whole:
        raise ValueError("the output isn't a prefix of the notebook")
    if held != bodies_of(together)[: len(held)]:
        raise ValueError("the records aren't those of the first cells in order")
    count = CELLS if together and held else len(held)
    if out and count < CELLS:
        raise ValueError(f"some of the notebook is out, and the store holds {count} cells")
    rest = range(count, CELLS)
    if complete(words, json.dumps(notebook_of(rest)).encode()) != shown_by(rest):
        raise ValueError(f"the cells behind the first {count} don't go on from there")
    return count, out == whole


def kill_notebooks(program, folder, runs):
    delays = random.Random()
    given = json.dumps(notebook_of(range(CELLS))).encode()
    span = span_of([program, os.path.join(folder, "notebook.kishu"), "run"], given)
    cut = between = ended = 0
    for i in range(runs):
        try:
            count, whole = kill_notebook(program, os.path.join(folder, f"notebook{i}.kishu"), i % 2 == 1, delays.uniform(0, span))
        except ValueError as fault:
            sys.exit(f"notebook {i}: {fault}")
        except Damaged as damage:
            sys.exit(f"notebook {i}: the store is damaged at {damage}")
        cut, between, ended = cut + (not whole), between + (0 < count < CELLS), ended + whole
    if cut == 0 or between == 0:
        sys.exit(f"{cut} runs of notebooks were killed before their end, {between} of them between two cells: nothing was tried")
    print(
        f"{runs} runs of a notebook of {CELLS} cells killed, {cut} of them before their end, {between} between two cells; {ended} had written "
        f"it; each store held the first cells in order, and the other cells went on from there"
    )


def main():
    words = argparse.ArgumentParser(usage=__doc__)
    words.add_argument("runs", type=int, nargs="?", default=300)
    words.add_argument("--program")
    words.add_argument("--only", choices=("cells", "sessions", "notebooks"))
    given = words.parse_args()
    program = os.path.abspath(given.program or BUILT)
    with tempfile.TemporaryDirectory() as folder:
        if given.program is None:
            subprocess.run([KISHU, os.path.join(folder, "first.kishu"), "status"], stdout=subprocess.DEVNULL, check=False)
        for kind, kill in (("cells", kill_cells), ("sessions", kill_sessions), ("notebooks", kill_notebooks)):
            if given.only in (None, kind):
                kill(program, folder, given.runs)


if __name__ == "__main__":
    main()
