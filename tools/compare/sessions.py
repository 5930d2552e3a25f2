#!/usr/bin/env python3
"""Runs Kishu over sessions made at random, and compares it with a reading of its own of the rules.

Usage: tools/compare/sessions.py --program PROGRAM [--cases COUNT] [--seed SEED]      500 cases of seed 1 where no numbers are given
       tools/compare/sessions.py --program PROGRAM --only K [--seed SEED]             shows case K of a seed, and compares it
       tools/compare/sessions.py --program PROGRAM --full                             sessions on a store that is full or nearly
       tools/compare/sessions.py --rules [--cases COUNT] [--seed SEED]                the rules alone: whether they leave good stores

PROGRAM is the built program, crates/kishu_cli/out/kishu_cli. A case is one store and some runs on it: of `session` with lines of
requests, of `run` with a notebook, and of `cell`, `log`, `status`, `checkout` and `branch`; at the beginning some of `gen`, too. Lines are cells, several cells at once,
checkouts by number and by branch, branches, `log`, `status`, `inspect`, `stored` and `plan`, some of them refused, and lines that are no request. Between runs a file may be harmed: cut, a byte changed or
taken out, the gate at its end opened, a gate before it closed. Before the random cases come some that are always the same, about
limits and ends of lines, and one session that gets each line when the line before is answered. Case K of a seed depends on these
two numbers alone, and later cases are longer.

Compared are the status, its text, the output and every byte of the file after each run. With `--rules` no program is run: each store
that no harm was done to has to be good then, by good_rules.py, which runs all cells again from nothing. The first case that differs is reduced
by leaving out runs, lines and harm, and shown whole; then the script ends with status 1.

The rules are those of session_rules.py, group_rules.py, notebook_rules.py and store_rules.py, which stand on the documents and on nothing of the program. What a cell
gives is what CPython 3.11 makes of it (python_cells.py), in the state that the pictures of the store give (picture_rules.py), so the
cells are of forms that both languages mean alike: those of agree_forms.py, and some about what names share, and about groups that join, split, change back and go. A cell whose exception has a text that isn't known is left out.
An input of 2^30 bytes and a body of 2^30 bytes aren't tried.
"""
import argparse
import collections
import copy
import itertools
import json
import os
import select
import subprocess
import sys
import tempfile

import gen_rules
import good_rules
import older_stores
import python_cells
import session_rules
from session_cases import STORE, Case, Harm, Player, Run
from store_rules import HEADER, LONGEST_CELL, MOST_RECORDS, move_to_commit_body, record

SECONDS = 300
LONGEST = 24

# Lines of sessions.
CELL, LOG, STATUS, INSPECT = b'{"op":"cell","text":"%s"}', b'{"op":"log"}', b'{"op":"status"}', b'{"op":"inspect"}'
CELLS = b'{"op":"cells","texts":["%s","%s"]}'
SHARED = [
    CELL % b"a = [1]; b = a", CELL % b"b.append(2)", b'{"op":"checkout","to":"1"}', CELL % b"print(a, a is b)", LOG, STATUS,
    b'{"op":"checkout","to":"main"}', CELL % b"print(a, a is b)", LOG, b'{"op":"checkout","to":"0"}', STATUS,
]
RING = [
    CELL % b"a = []", CELL % b"a.append(a)", CELL % b"print(a)", b'{"op":"checkout","to":"0"}', b'{"op":"checkout","to":"main"}',
    CELL % b"print(a, a[0] is a)",
]
DEFAULTS = [
    CELL % b"def g(x, acc=[]): acc.append(x); return acc", CELL % b"p = g(1)", CELL % b"p = 0", b'{"op":"checkout","to":"2"}', CELL % b"g(2) is p",
]
SPENT = [CELL % b"n = 0\\nwhile True: n += 1", CELL % b"print(n)", b'{"op":"checkout","to":"0"}', b'{"op":"checkout","to":"1"}', CELL % b"n"]
REFUSED = [
    b'{"op":"branch","name":"main"}', b'{"op":"branch","name":"9"}', b'{"op":"checkout","to":"999"}', b'{"op":"checkout","to":"00"}',
    b'{"op":"fly"}', b'{"op":"branch","name":"try"}', LOG,
]
TOGETHER = [
    b'{"op":"cells","texts":["a = 1","a // 0","a = 2"]}', CELL % b"a", b'{"op":"cells","texts":["a += 1","print(a)","a"]}', LOG,
    b'{"op":"checkout","to":"1"}', b'{"op":"cells","texts":[]}', b'{"op":"cells","texts":["x = = 1","a"]}', LOG, STATUS,
]
BOUND = [
    INSPECT, CELL % b"a = [1]; b = a", INSPECT, CELL % b"a.append(a); b = 0", INSPECT, b'{"op":"checkout","to":"1"}', INSPECT,
    CELL % b"t = (1, 'x'); d = {'k': t, (1, 2): None, 3: a}; e = ValueError('no', d)", CELL % b"o = SimpleNamespace(left=d, low=-1)", INSPECT,
    CELL % b"b = len; c = list; r = range(0, 3); u = True; o.up = o", INSPECT, b'{"op":"inspect","at":"1"}',
]
LARGE = [
    CELL % b"s = 'x' * 1000000", CELL % b"a = [s] * 300", CELL % b"a", b'{"op":"cells","texts":["b = 1","a = [s] * 300","c = 2"]}', STATUS,
    CELL % b"a = [s] * 267; b = [a, a]", CELL % b"b.append('x' * 500000)", STATUS,
]
STORED = b'{"op":"stored","of":"%s"}'
GROUPS = [
    STORED % b"0", CELL % b"x = [1]; y = [x]; z = [2]", STORED % b"1", CELL % b"y = 0", STORED % b"main", CELL % b"x[0] = 1", STORED % b"3", CELL % b"x = [1]", STORED % b"4",
    b'{"op":"checkout","to":"1"}', STORED % b"main", CELL % b"print(y[0] is x, z)", STORED % b"5", CELL % b"del z", STORED % b"6", CELL % b"z", STORED % b"7",
    CELL % b"try: z\\nexcept NameError as y: x = [x]", STORED % b"8", CELL % b"x = x[0]", STORED % b"9", STORED % b"10", STORED % b"01", b'{"op":"stored"}', STATUS, INSPECT,
    b'{"op":"cells","texts":["x.append(2)","x.pop()"]}', STORED % b"10", b'{"op":"cells","texts":["x = [2]; w = [x]","w = 0; 1 // 0","w = 2"]}', STORED % b"11", LOG,
]
GLOBALS = [
    CELL % b"L = []; m = [1]", CELL % b"def f(): L.append(1)", CELL % b"f()", STORED % b"3", CELL % b"def h():\\n    global m\\n    m = L", CELL % b"h()", STORED % b"5",
    CELL % b"def k():\\n    global m\\n    del m", CELL % b"k()", STORED % b"7", CELL % b"k()", STORED % b"8", CELL % b"L = [1]", STORED % b"9", STATUS,
]
LARGE_GROUPS = [
    CELL % b"t = 'y' * 1000000", CELL % b"a = [t] * 130", CELL % b"n = 0; b = [t] * 5", STORED % b"3", CELL % b"c = [t] * 135", CELL % b"n = [n]", STORED % b"4",
    CELL % b"n.append([t] * 135)", CELL % b"n", CELL % b"a = 0; b.append([t] * 5)", STORED % b"6", CELL % b"a = b; n = [b, 'z']", STORED % b"7",
    CELL % b"a, b = [t] * 262, a", STATUS, CELLS % (b"n = 5", b"a = [t] * 260"), b'{"op":"checkout","to":"3"}', CELL % b"len(a) + len(b)", STORED % b"8",
]
# On a store whose first commit has one group of t, a and n.
LARGE_OLDER = [
    STORED % b"1", CELL % b"c = [7]; print(8)", STORED % b"2", CELL % b"c = ['z' * 1000000] * 250", CELLS % (b"c = 8", b"c = ['z' * 1000000] * 260"),
    CELL % b"c = ['z' * 1000000] * 10", STORED % b"3", CELL % b"n", STORED % b"4", CELL % b"a = c", STORED % b"5", CELL % b"t = [t] * 269", STATUS,
]
CHECKOUT, PLAN = b'{"op":"checkout","to":"%s"}', b'{"op":"plan","to":"%s"}'
# To and fro between ways on which some groups stayed, some joined and fell apart, and some have other pictures.
WAYS = [
    PLAN % b"0", CELL % b"x = [1]; y = [x]; z = [2]", PLAN % b"0", PLAN % b"main", CELL % b"y = 0", PLAN % b"1", CHECKOUT % b"1", PLAN % b"2", CELL % b"print(y[0] is x, z)",
    CELL % b"z.append(x)", PLAN % b"1", PLAN % b"2", CHECKOUT % b"main", INSPECT, CELL % b"print(x, y, z)", PLAN % b"4", PLAN % b"3", CHECKOUT % b"4", INSPECT,
    CELL % b"z[1] is x and x is y[0]", CHECKOUT % b"1", CELL % b"z = [2]", PLAN % b"1", CHECKOUT % b"1", CELL % b"x.append(3); w = [4]", CHECKOUT % b"2", PLAN % b"main", PLAN % b"7", INSPECT,
    CELL % b"w", CHECKOUT % b"0", STATUS, CHECKOUT % b"7", CELL % b"y[0].append(w); print(x, w)", CHECKOUT % b"9", CHECKOUT % b"9", PLAN % b"9", CELL % b"x[2] is w",
    PLAN % b"20", PLAN % b"01", b'{"op":"plan"}', LOG, STATUS,
]
# A cell that is refused loads the head's groups anew, and leaves them where a checkout keeps them.
LARGE_WAYS = [
    CELL % b"t = 'y' * 1000000; a = [t]; b = [a]", CELL % b"c = [t] * 100", CELL % b"d = [a, t] * 200", PLAN % b"1", CHECKOUT % b"1", CELL % b"print(b[0] is a, len(t))",
    CELL % b"c = 0", CHECKOUT % b"2", CELLS % (b"a.append(c)", b"d = [t] * 200"), CELL % b"print(b[0] is a, len(a), len(c))", PLAN % b"main", CHECKOUT % b"main", INSPECT, STATUS,
]
LONG_CELL = b"#" * LONGEST_CELL


def session_case(*lines):
    """A case of one session on a new store. The cells of its lines are meant alike."""
    requests = [session_rules.request_of(line) for line in lines]
    known = {text for request in requests if request for text in [request.get("text", ""), *request.get("texts", [])]}
    return Case(None, [Run([STORE, "session"], b"\n".join(lines))], known)


def same_cases():
    """Cases about limits, ends of lines and what a user does first."""
    for lines in ([b""], [b"", b""], [STATUS], [LOG, b"", b"", b""], SHARED, [*SHARED, b""], RING, DEFAULTS, SPENT, REFUSED, TOGETHER, BOUND, LARGE, GROUPS, GLOBALS, LARGE_GROUPS, WAYS, LARGE_WAYS):
        yield session_case(*lines)
    for first, lines in (("t = 'y' * 1000000; a = [t] * 20; n = 1", LARGE_OLDER), ("x = [1]; y = [x]; z = [2]", GROUPS), ("x = 1; y = 2", GLOBALS), ("x = 1; z = [2]", WAYS)):
        case = session_case(*lines)
        yield Case(older_stores.whole_store(first), case.steps, case.known)
    by_hand = session_case(*SHARED, b"")
    yield Case(None, [Run([STORE, "session"], by_hand.steps[0].data, typed=True)], by_hand.known)
    yield session_case(CELL % LONG_CELL, CELL % (LONG_CELL + b"#"), STATUS, b"")
    yield session_case(CELLS % (b"1", LONG_CELL), CELLS % (b"1", LONG_CELL + b"#"), STATUS, b"")
    made = {request["text"] for start in (7, 2**31 - 1) for request in gen_rules.requests(start, 60) if request["op"] == "cell"}
    runs = [Run([STORE, "gen", *numbers], b"print(1)") for numbers in (("7", "0"), ("7", "60"), ("2147483647", "60"))]
    yield Case(None, [*runs, Run([STORE, "session"], b"\n".join((LOG, STATUS)))], made)
    for spaces in (2**24 - 1 - len(STATUS), 2**24 - len(STATUS)):
        yield session_case(STATUS, b" " * spaces + STATUS, LOG)
    yield session_case(STATUS, b" " * 2**24)
    yield Case(None, [Run([STORE, "cell"], LONG_CELL + more) for more in (b"#", b"")], {LONG_CELL.decode()})
    for words in ([STORE, "run"], [session_rules.TOGETHER, STORE, "run"]):
        steps = [Run(words, notebook_of(*texts)) for texts in ((), ("a = 1", "a", "a // 0", "a = 2"), ("a", LONG_CELL.decode() + "#", "a"))]
        yield Case(None, steps, {"a = 1", "a", "a // 0", "a = 2"})
        short = notebook_of("a = 1")
        inputs = (b"", b"[]", b" " * 2**26, short + b" " * (2**26 - 1 - len(short)))
        yield Case(None, [Run(words, data) for data in inputs], {"a = 1"})


def notebook_of(*texts):
    """The bytes of a notebook of these code cells."""
    shared = {"cell_type": "code", "execution_count": None, "metadata": {}, "outputs": []}
    cells = [{"id": f"cell-{number}", "source": text} | shared for number, text in enumerate(texts)]
    return json.dumps({"cells": cells, "metadata": {}, "nbformat": 4, "nbformat_minor": 5}).encode()


def full_cases():
    """Cases on a store of 1,000,000 records, or of one fewer."""
    moves = record(move_to_commit_body(0))
    known = {"x = 1", ""}
    lines = [
        CELL % (LONG_CELL + b"#"), CELL % b"x = 1", CELLS % (b"x = 1", b""), CELLS % (b"x = 1", LONG_CELL + b"#"), b'{"op":"checkout","to":"9"}', b'{"op":"checkout","to":"1"}', b'{"op":"branch","name":"main"}',
        b'{"op":"branch","name":"9"}', b'{"op":"branch","name":"b","at":"9"}', b'{"op":"branch","name":"b"}', STATUS, LOG,
    ]
    runs = [Run([STORE, "session"], b"\n".join(lines)), *(Run([STORE, *words], b"") for words in (["cell"], ["checkout", "0"], ["status"]))]
    for count in (MOST_RECORDS - 1, MOST_RECORDS):
        file = HEADER + moves * count + b"\0"
        yield Case(file, runs, known)
        for words in ([STORE, "run"], [STORE, "run", "--together"]):
            yield Case(file, [Run(words, notebook_of("x = 1", "", "x = 1"))], known)
    yield Case(HEADER + moves * (MOST_RECORDS + 1) + b"\0", [Run([STORE, "status"], b"")], known)


def found(program, folder, run, file):
    """Status, its text, output and file of a run of the program."""
    path = os.path.join(folder, STORE)
    if os.path.exists(path):
        os.remove(path)
    if file is not None:
        with open(path, "wb") as out:
            out.write(file)
    told = (typed if run.typed else at_once)([program, *run.words], run.data, folder)
    after = None
    if os.path.exists(path):
        with open(path, "rb") as held:
            after = held.read()
    return *told, after


def at_once(words, data, folder):
    """Status, its text and output of a run whose input is there from the start."""
    try:
        done = subprocess.run(words, input=data, capture_output=True, cwd=folder, timeout=SECONDS)
    except subprocess.TimeoutExpired:
        return "no end", b"", b""
    return done.returncode, done.stderr, done.stdout


def typed(words, data, folder):
    """The same of a run that gets each line when the line before is answered."""
    child = subprocess.Popen(words, stdin=subprocess.PIPE, stdout=subprocess.PIPE, stderr=subprocess.PIPE, bufsize=0, cwd=folder)
    out = b""
    for line in data.splitlines(keepends=True):
        child.stdin.write(line)
        if not select.select([child.stdout], [], [], SECONDS)[0]:
            child.kill()
            child.wait()
            return "no answer before the next line", b"", out
        out += child.stdout.readline()
    rest, text = child.communicate(timeout=SECONDS)
    return child.returncode, text, out + rest


class Compared:
    """The program in a folder of its own, and what its runs ended with. Without a program the rules are looked at alone."""

    def __init__(self, program, folder):
        self.program, self.folder = program, folder
        self.runs, self.answers = collections.Counter(), 0

    def difference(self, case):
        """The first run of a case that differs: its number, what was found and what is expected. None: none does."""
        if self.program is None:
            return self.fault_by_rules(case)
        file = case.file
        for number, step in enumerate(case.steps):
            if isinstance(step, Harm):
                file = step.done(file) if file is not None else None
                continue
            want = session_rules.expected(step.words, step.data, file, case.known)
            got = found(self.program, self.folder, step, file)
            self.runs[want[0]] += 1
            self.answers += want[2].count(b"\n")
            if got != want:
                return number, got, want
            file = want[3]
        return None

    def fault_by_rules(self, case):
        """The first run of a case by the rules alone that leaves a store that isn't good, and what is wrong with it. None: none does."""
        file, whole = case.file, good_rules.is_good(case.file)
        for number, step in enumerate(case.steps):
            if isinstance(step, Harm):
                file, whole = step.done(file) if file is not None else None, False
                continue
            status, text, out, file = session_rules.expected(step.words, step.data, file, case.known)
            self.runs[status] += 1
            self.answers += out.count(b"\n")
            found = good_rules.fault(file) if whole else None
            if found is not None:
                return number, (status, f"the store isn't good: {found}".encode(), out, file), (status, text, out, file)
        return None

    def differs(self, case):
        try:
            return self.difference(case) is not None
        except python_cells.Unlike:
            return False

    def reduced(self, case):
        """The case with steps and lines left out while it still differs."""
        number = self.difference(case)[0]
        case = Case(case.file, case.steps[: number + 1], case.known)
        case = self.with_fewer(case, case.steps, lambda steps: Case(case.file, steps, case.known))
        for place, step in enumerate(case.steps):
            if isinstance(step, Run) and step.words[1:] == ["session"]:
                lines = step.data.split(b"\n")
                case = self.with_fewer(case, lines, lambda kept, at=place: with_lines(case, at, kept))
        return case

    def with_fewer(self, case, parts, made):
        """The case made of as few parts as still differ; first large pieces are left out, then single parts."""
        size = max(1, len(parts) // 2)
        while size:
            start = 0
            while start < len(parts):
                fewer = parts[:start] + parts[start + size :]
                if self.differs(made(fewer)):
                    parts, case = fewer, made(fewer)
                else:
                    start += size
            size //= 2
        return case


def with_lines(case, place, lines):
    """The case with other lines in one of its sessions."""
    steps = copy.copy(case.steps)
    steps[place] = Run(steps[place].words, b"\n".join(lines), steps[place].typed)
    return Case(case.file, steps, case.known)


# What is shown.


def short(data, most=2000):
    text = data if isinstance(data, str) else data.decode("utf-8", "backslashreplace")
    return text if len(text) <= most else f"{text[:most]} .. ({len(text)} characters)"


def show_case(case):
    print("  file before:", "none" if case.file is None else case.file[:100].hex())
    for step in case.steps:
        if isinstance(step, Harm):
            print(f"  harm: {step.kind} at {step.place}, byte {step.byte}")
        else:
            print(f"  run{' by hand' if step.typed else ''}: {' '.join(map(repr, step.words))}")
            for line in step.data.split(b"\n"):
                print(f"    | {short(line, 400)}")


def show_difference(got, want):
    for name, mine, other in zip(("status", "text", "output"), got, want):
        if mine != other:
            print(f"  {name} found:    {short(repr(mine) if isinstance(mine, int) else mine)}")
            print(f"  {name} expected: {short(repr(other) if isinstance(other, int) else other)}")
    if got[3] != want[3]:
        print(f"  file {files_differ(got[3], want[3])}")


def files_differ(mine, other):
    if mine is None or other is None:
        return f"found: {mine and len(mine)} bytes, expected: {other and len(other)} bytes"
    place = next((at for at, (a, b) in enumerate(zip(mine, other)) if a != b), min(len(mine), len(other)))
    near = slice(max(0, place - 8), place + 40)
    return f"differs at {place}: found {len(mine)} bytes, .. {mine[near].hex()}, expected {len(other)}, .. {other[near].hex()}"


def case_of(seed, number):
    """Case K of a seed: the later, the longer. None: it comes to what isn't known as it is made."""
    try:
        return Player(f"{seed}/{number}", min(2 + number // 12, LONGEST)).made()
    except python_cells.Unlike:
        return None


def cases_of(given):
    """The cases that are asked for, each with its title."""
    if given.only is not None:
        return [(f"case {given.only} of seed {given.seed}", case_of(given.seed, given.only))]
    if given.full:
        return ((f"full case {number}", case) for number, case in enumerate(full_cases()))
    random_cases = ((f"case {number} of seed {given.seed}", case_of(given.seed, number)) for number in range(1, given.cases + 1))
    return itertools.chain(((f"fixed case {number}", case) for number, case in enumerate(same_cases())), random_cases)


def report(compared, title, case):
    """Shows a case that differs, as small as it becomes."""
    print(f"{title} differs; reduced, it is this:", flush=True)
    case = compared.reduced(case)
    show_case(case)
    _, got, want = compared.difference(case)
    show_difference(got, want)


def read_words():
    words = argparse.ArgumentParser(usage=__doc__)
    runs = words.add_mutually_exclusive_group(required=True)
    runs.add_argument("--program", type=os.path.abspath)
    runs.add_argument("--rules", action="store_true")
    words.add_argument("--cases", type=int, default=500)
    words.add_argument("--seed", default="1")
    words.add_argument("--only", type=int)
    words.add_argument("--full", action="store_true")
    return words.parse_args()


def main():
    given = read_words()
    if not python_cells.is_release():
        sys.exit(f"CPython 3.11 is needed, since the texts of its exceptions are known; this is {sys.version.split()[0]}")
    with tempfile.TemporaryDirectory() as folder:
        compared, tried, left = Compared(given.program, folder), 0, 0
        for title, case in cases_of(given):
            if case is None:
                left += 1
                continue
            if given.only is not None:
                show_case(case)
            try:
                differs = compared.difference(case) is not None
            except python_cells.Unlike:  # from there on what it gives isn't known
                left += 1
                continue
            if differs:
                report(compared, title, case)
                sys.exit(1)
            tried += 1
    ends = ", ".join(f"{count} with status {code}" for code, count in sorted(compared.runs.items()))
    print(
        f"{tried} cases of seed {given.seed}, {left} left out from where they aren't known: "
        f"{sum(compared.runs.values())} runs ({ends}), {compared.answers} answers; none differs"
    )


if __name__ == "__main__":
    main()
