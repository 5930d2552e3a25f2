"""The rules of requests, answers and runs, read a second time: by docs/LINES.md, docs/STORE.md and docs/RULES.md, and by nothing of
the program. The state at a commit is read of the pictures that its table names; those of a new commit hold what CPython makes of its
cells, and group_rules.py tells which groups it drops and stores, and whose pictures it reads. A checkout goes by plan: the groups that it
keeps stay as they are, and the pictures of those that it loads are read beside them."""
import json
import re

import bound_rules
import gen_rules
import group_rules
import notebook_rules
import picture_rules
import python_cells
from json_rules import json_of, real
from store_rules import (
    LONGEST_CELL, MOST_RECORDS, Damaged, NotAJournal, appended, commit_body, entry_of, is_branch_name, move_to_branch_body,
    move_to_commit_body, name_body, opened,
)

LONGEST_LINE = 2**24
REASONS = {1: "BadRequest", 2: "NoSuchRef", 3: "BadName", 4: "NameTaken", 5: "StoreFull", 6: "CellTooLong", 7: "StateTooLarge"}
KEYS = {
    "cell": ["op", "text"], "cells": ["op", "texts"], "checkout": ["op", "to"], "branch": ["name", "op"], "log": ["op"], "status": ["op"],
    "inspect": ["op"], "stored": ["of", "op"], "plan": ["op", "to"],
}
USAGE = b"usage: kishu STORE COMMAND\n"
TOO_LONG = b"input too long\n"
TOGETHER = "--together"


class Refused(Exception):
    """The request is refused for the reason of the number that is the first argument; the second one is of the bytes that a state takes."""


# Lines.


def are_texts(value):
    return isinstance(value, list) and value != [] and all(isinstance(part, str) for part in value)


def request_of(line):
    """The request that a line is, as the dict of its keys. None: it is none."""
    try:
        value = json_of(line, int, real)
    except ValueError:
        return None
    if not isinstance(value, dict) or not all(are_texts(part) if key == "texts" else isinstance(part, str) for key, part in value.items()):
        return None
    keys = sorted(value)
    wanted = KEYS.get(value.get("op"))
    return value if keys == wanted or wanted == KEYS["branch"] and keys == ["at", *wanted] else None


def lines_of(data):
    """The lines of a session's input that are answered, and whether it then ends as too long."""
    lines = data.split(b"\n")
    if lines[-1] == b"":
        lines.pop()
    for place, line in enumerate(lines):
        if len(line) >= LONGEST_LINE:
            return lines[:place], True
    return lines, False


def answer_line(answer):
    return json.dumps(answer, sort_keys=True, separators=(",", ":"), ensure_ascii=False).encode() + b"\n"


def first_line(text):
    return re.split("[\n\r]", text)[0][:60]


# Requests.


class Session:
    """A store, and the live state at its head."""

    def __init__(self, file, known=None):
        self.file, self.end, self.graph = opened(file)
        self.known = known
        self.read = 0  # the bytes of the pictures that were read
        self.space = self.loaded(self.graph.commit)

    def run(self, text, space, accessed=None):
        """Runs a cell, where it is one of the known ones. The names that it accesses are added to a set, where one is handed in."""
        if self.known is not None and text not in self.known:
            raise python_cells.Unlike("the text isn't known")
        return python_cells.run(text, space, accessed)

    def load(self, row, space):
        """Loads the picture of a row into a namespace. Damaged: the bytes there aren't a picture of its names."""
        self.read += row.length
        try:
            names = picture_rules.load(self.file[row.place : row.place + row.length], space)
        except picture_rules.NoPicture:
            raise Damaged(row.place) from None
        if tuple(names) != row.names:
            raise Damaged(row.place)

    def loaded(self, commit):
        """The namespace of a commit's table."""
        space = python_cells.empty_space()
        for row in self.graph.tables[commit]:
            self.load(row, space)
        return space

    def rows_to(self, commit):
        """The rows of the head's table that a checkout to a commit drops, and those of the commit's that it keeps and loads. It keeps a
        group that stands in both with one version."""
        here, there = self.graph.tables[self.graph.commit], self.graph.tables[commit]
        alike = {(row.names, row.version) for row in here} & {(row.names, row.version) for row in there}
        return [[row for row in rows if ((row.names, row.version) in alike) == kept] for rows, kept in ((here, False), (there, True), (there, False))]

    def carry(self, commit):
        """Carries the state to a commit."""
        dropped, _, loaded = self.rows_to(commit)
        for row in dropped:
            for name in row.names:
                del self.space[name]
        for row in loaded:
            self.load(row, self.space)

    def record(self, body):
        self.graph.add(entry_of(body), self.end + 9)
        self.file, self.end = appended(self.file, self.end, body)

    def room(self):
        if self.graph.records >= MOST_RECORDS:
            raise Refused(5)

    def fits(self, still):
        """Refuses a state that is too large beside rows that stay as they are, and leaves that of the head."""
        size = group_rules.size(self.space, still)
        if size > bound_rules.MOST_BYTES:
            self.space = self.loaded(self.graph.commit)
            raise Refused(7, size)

    def commit(self, texts):
        """Runs texts in order, up to the first whose outcome isn't ok, and commits those that ran, unless one leaves a state that is too large. Their results."""
        if any(len(text.encode()) > LONGEST_CELL for text in texts):
            raise Refused(6)
        self.room()
        count, results = self.graph.count(self.graph.commit), []
        rows = self.graph.tables[self.graph.commit]
        loose, accessed = group_rules.loose_rows(rows, self.space), set()
        for number, text in enumerate(texts, count + 1):
            outcome, *told = self.run(text, self.space, accessed)
            results.append({"count": number, "outcome": outcome, "outputs": python_cells.outputs_of(*told, number)})
            still = group_rules.untouched(loose, accessed)
            self.fits(still)
            if outcome != "ok":
                break
        ran = [text.encode() for text in texts[: len(results)]]
        dropped, stored = group_rules.changes(rows, self.file, self.space, still)
        self.read += group_rules.asked(rows, dropped, accessed)
        self.record(commit_body(self.graph.commit, ran, dropped, stored))
        return results

    def cell(self, text):
        return {"answer": "cell"} | self.commit([text])[0] | {"commit": self.graph.commit}

    def cells(self, texts):
        return {"answer": "cells", "results": self.commit(texts), "commit": self.graph.commit}

    def checkout(self, to):
        target = self.graph.resolve(to)
        if target is None:
            raise Refused(2)
        self.room()
        commit, branch = target
        self.carry(commit)
        self.record(move_to_commit_body(commit) if branch is None else move_to_branch_body(branch))
        return {"answer": "checkout", "commit": commit, "head": branch}

    def branch(self, name, at=None):
        if not is_branch_name(name):
            raise Refused(3)
        if name in self.graph.branches:
            raise Refused(4)
        target = (self.graph.commit, None) if at is None else self.graph.resolve(at)
        if target is None:
            raise Refused(2)
        self.room()
        self.record(name_body(name, target[0]))
        return {"answer": "branch", "commit": target[0], "name": name}

    def log(self):
        graph = self.graph
        path = [
            {"cells": len(graph.cells[number]), "commit": number, "line": first_line(graph.cells[number][0]), "parent": graph.parents[number]}
            for number in reversed(graph.path(graph.commit))
        ]
        branches = [{"commit": graph.branches[name], "name": name} for name in sorted(graph.branches)]
        return {"answer": "log", "branches": branches, "path": path}

    def status(self):
        graph = self.graph
        return {
            "answer": "status", "branch": graph.branch, "commit": graph.commit, "commits": len(graph.parents),
            "names": python_cells.names_in(self.space), "records": graph.records,
        }

    def inspect(self):
        names, nodes = bound_rules.inspected(self.space)
        return {"answer": "inspect", "commit": self.graph.commit, "names": names, "nodes": nodes}

    def stored(self, of):
        target = self.graph.resolve(of)
        if target is None:
            raise Refused(2)
        commit, graph = target[0], self.graph
        dropped, stored = (list(map(list, groups[commit])) for groups in (graph.dropped, graph.stored))
        return {"answer": "stored", "commit": commit, "dropped": dropped, "stored": stored}

    def plan(self, to):
        target = self.graph.resolve(to)
        if target is None:
            raise Refused(2)
        drop, keep, load = ([list(row.names) for row in rows] for rows in self.rows_to(target[0]))
        return {"answer": "plan", "commit": target[0], "drop": drop, "keep": keep, "load": load}

    def told(self, request):
        """The answer to a request; None is what isn't one."""
        try:
            if request is None:
                raise Refused(1)
            parts = {key: part for key, part in request.items() if key != "op"}
            return getattr(self, request["op"])(**parts)
        except Refused as refusal:
            number, *size = refusal.args
            return {"answer": "refused", "number": number, "reason": REASONS[number]} | ({"bytes": size[0]} if size else {})

    def answer(self, request):
        """The answer's line."""
        return answer_line(self.told(request))


# Runs.


def form_of(words):
    """The form of a command line: `session`, `cell`, `run`, `run together`, the two numbers of `gen`, or the request that the words are.
    None: they have none."""
    if any(word == "" or word.startswith("-") and word != TOGETHER for word in words):
        return None
    together, plain = words.count(TOGETHER), [word for word in words if word != TOGETHER]
    if len(plain) < 2 or together > 1:
        return None
    command, *more = plain[1:]
    if together:
        return "run together" if command == "run" and not more else None
    if command in ("session", "cell", "run") and not more:
        return command
    if command in ("log", "status", "inspect") and not more:
        return {"op": command}
    if command == "checkout" and len(more) == 1:
        return {"op": "checkout", "to": more[0]}
    if command == "gen" and len(more) == 2:
        return gen_rules.numbers_of(*more)
    if command == "branch" and len(more) in (1, 2):
        return {"op": "branch", "name": more[0]} | ({"at": more[1]} if len(more) == 2 else {})
    return None


def cell_of(data):
    """The request that the input of `cell` is."""
    try:
        return {"op": "cell", "text": data.decode("utf-8")}
    except UnicodeDecodeError:
        return None


def lines_answered(session, data):
    """What a session answers up to a fault of the store, and the status with its text."""
    lines, too_long = lines_of(data)
    out = b""
    for line in lines:
        try:
            out += session.answer(request_of(line))
        except Damaged as damage:
            return *damaged(damage), out
    return (9, TOO_LONG, out) if too_long else (0, b"", out)


def damaged(damage):
    return 3, b"damaged at %d\n" % damage.args[0]


def answered(session, form, data, notebook):
    """Status, its text and output of a run over a store that is open."""
    if form == "session":
        return lines_answered(session, data)
    try:
        if notebook is not None:
            return 0, b"", notebook_rules.pretty(notebook_rules.run(notebook, form == "run together", session.told))
        if isinstance(form, tuple):
            return 0, b"", answer_line(gen_rules.summed_up(session, *form))
        return 0, b"", session.answer(cell_of(data) if form == "cell" else form)
    except Damaged as damage:
        return *damaged(damage), b""


def expected(words, data, file, known=None):
    """Status, its text, output and file of a run. None is a file that isn't there."""
    form = form_of(words)
    if form is None:
        return 2, USAGE, b"", file
    runs = form in ("run", "run together")
    if form == "cell" and len(data) > LONGEST_CELL or runs and len(data) >= notebook_rules.LONGEST:
        return 9, TOO_LONG, b"", file
    try:
        notebook = notebook_rules.read(data) if runs else None
        session = Session(file, known)
    except notebook_rules.Refused as refusal:
        return 4, b"notebook refused: %s\n" % refusal.args[0].encode(), b"", file
    except NotAJournal:
        return 3, b"not a journal\n", b"", file
    except Damaged as damage:
        return *damaged(damage), b"", file
    return *answered(session, form, data, notebook), session.file
