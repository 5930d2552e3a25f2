"""A machine that answers requests a second time from the rules as they stand in words: each commit's whole
path of cells is run from nothing, by CPython, on cells on which the languages agree. What errors say is
told to it by hand, and so is what ends otherwise. request_rows.py makes rows by it."""

import ast
import builtins
import contextlib
import io
import json
from types import FunctionType, SimpleNamespace

from nodes import BUILTINS, CLASSES
from records import Graph, Commit, Move, Name, is_branch_name
from states import D, E, F, L, Named, O, State, T, dropped, groups_of, kept, left, loaded, met, size, stored

LONGEST = 1048576
builtins.SimpleNamespace = SimpleNamespace
REFUSALS = {"BadRequest": 1, "NoSuchRef": 2, "BadName": 3, "NameTaken": 4, "StoreFull": 5, "CellTooLong": 6, "StateTooLarge": 7}

# What errors say where CPython says it otherwise.
ERRORS = {"integer division or modulo by zero": "division by zero", "list index out of range": "index out of range", "exceptions must derive from BaseException": "exceptions must be exception classes or objects"}


class Faulty(Exception):
    pass


def run(cells, names):
    """Runs cells one after another, and gives what each shows: its outcome, and its outputs for a count."""
    shown = []
    for cell in cells:
        shown.append(run_one(cell, names))
    return shown


CODES = {}


def run_one(cell, names):
    try:
        tree = ast.parse(cell)
    except SyntaxError as e:
        found = error("SyntaxError", f"invalid syntax, line {e.lineno}")
        return "error", lambda count: [found]
    filename = f"cell {len(CODES)} {cell}"
    for d in ast.walk(tree):
        if isinstance(d, ast.FunctionDef):
            CODES[filename, d.lineno, d.name] = ast.get_source_segment(cell, d)
    CODES[filename] = None
    last = tree.body.pop() if tree.body and isinstance(tree.body[-1], ast.Expr) else None
    out, value, fault = io.StringIO(), None, None
    with contextlib.redirect_stdout(out):
        try:
            exec(compile(tree, filename, "exec"), names)
            if last is not None:
                value = eval(compile(ast.Expression(last.value), filename, "eval"), names)
        except Exception as e:
            e.__traceback__ = None
            fault = error(type(e).__name__, ERRORS.get(str(e), str(e)))
    stream = [{"name": "stdout", "output_type": "stream", "text": out.getvalue()}] if out.getvalue() else []
    if fault:
        return "error", lambda count: [*stream, fault]
    if value is None:
        return "ok", lambda count: stream
    text = repr(value)
    return "ok", lambda count: [*stream, {"data": {"text/plain": text}, "execution_count": count, "metadata": {}, "output_type": "execute_result"}]


def error(ename, evalue):
    return {"ename": ename, "evalue": evalue, "output_type": "error", "traceback": [f"{ename}: {evalue}"]}


# ---- what CPython's names are, as a state

def state_of(names):
    seen = {}

    def value(v):
        if v is None or isinstance(v, (bool, int, str, range)):
            return v
        if isinstance(v, type(print)) or isinstance(v, type):
            return Named(v.__name__)
        if id(v) not in seen:
            node = seen[id(v)] = fresh(v)
            node.inside = [value(c) for c in inside(v)]
        return seen[id(v)]

    return State({x: value(v) for x, v in names.items() if x != "__builtins__"})


def fresh(v):
    if isinstance(v, list):
        return L()
    if isinstance(v, tuple):
        return T()
    if isinstance(v, dict):
        return D(*[(k, None) for k in v])
    if isinstance(v, SimpleNamespace):
        return O(*[(k, None) for k in vars(v)])
    if isinstance(v, FunctionType):
        c = v.__code__
        return F(CODES[c.co_filename, c.co_firstlineno, c.co_name])
    return E(type(v).__name__)


def inside(v):
    if isinstance(v, dict):
        return v.values()
    if isinstance(v, SimpleNamespace):
        return vars(v).values()
    if isinstance(v, FunctionType):
        return v.__defaults__ or ()
    return v.args if isinstance(v, Exception) else v


# ---- requests

class Machine:
    def __init__(self, records=0):
        self.graph = Graph()
        self.graph.records = records

    def path(self, c):
        return self.graph.path(c)

    def count(self, c):
        return sum(len(self.graph.commits[i - 1][1]) for i in self.path(c))

    def replay(self, c):
        names = {}
        for i in self.path(c):
            run(self.graph.commits[i - 1][1], names)
        return names

    def stops(self, c):
        return [(i, state_of(self.replay(i))) for i in self.path(c)]

    def resolve(self, to):
        """The commit, and the branch, if it is one; or nothing."""
        g = self.graph
        if to and all(c in "0123456789" for c in to) and (to == "0" or to[0] != "0"):
            return (int(to), None) if int(to) <= len(g.commits) else None
        return (g.branches[to], to) if to in g.branches else None

    def refused(self, reason):
        return {"answer": "refused", "number": REFUSALS[reason], "reason": reason}

    def answer(self, request):
        kind, *rest = request
        return getattr(self, "do_" + kind)(*rest)

    def do_unreadable(self):
        return self.refused("BadRequest")

    def cells_run(self, texts):
        """The cells that are run, each with its outcome and its outputs."""
        names, done = self.replay(self.graph.head[0]), []
        for t in texts:
            outcome, outputs = run_one(t, names)
            done.append((t, outcome, outputs))
            if outcome != "ok":
                break
        return done

    def do_cells(self, texts, alone=False):
        if not texts:
            return self.refused("BadRequest")
        if any(len(t.encode()) > LONGEST for t in texts):
            return self.refused("CellTooLong")
        if self.graph.records >= 1000000:
            return self.refused("StoreFull")
        done, first = self.cells_run(texts), self.count(self.graph.head[0]) + 1
        self.graph.change(Commit(self.graph.head[0], [t for t, _, _ in done]))
        results = [{"count": first + i, "outcome": o, "outputs": outputs(first + i)} for i, (_, o, outputs) in enumerate(done)]
        if alone:
            return {"answer": "cell", "commit": len(self.graph.commits), **results[0]}
        return {"answer": "cells", "commit": len(self.graph.commits), "results": results}

    def do_cell(self, text):
        return self.do_cells([text], alone=True)

    def do_checkout(self, to):
        target = self.resolve(to)
        if target is None:
            return self.refused("NoSuchRef")
        if self.graph.records >= 1000000:
            return self.refused("StoreFull")
        self.graph.change(Move(target[0] if target[1] is None else target[1]))
        return {"answer": "checkout", "commit": target[0], "head": target[1]}

    def do_branch(self, name, at=None):
        if not is_branch_name(name):
            return self.refused("BadName")
        if name in self.graph.branches:
            return self.refused("NameTaken")
        target = self.graph.head if at is None else self.resolve(at)
        if target is None:
            return self.refused("NoSuchRef")
        if self.graph.records >= 1000000:
            return self.refused("StoreFull")
        self.graph.change(Name(name, target[0]))
        return {"answer": "branch", "commit": target[0], "name": name}

    def do_log(self):
        g = self.graph
        rows = [{"cells": len(g.commits[i - 1][1]), "commit": i, "line": line(g.commits[i - 1][1]), "parent": g.commits[i - 1][0]} for i in reversed(self.path(g.head[0]))]
        return {"answer": "log", "branches": [{"commit": c, "name": b} for b, c in sorted(g.branches.items(), key=lambda x: x[0].encode())], "path": rows}

    def do_status(self):
        g = self.graph
        names = state_of(self.replay(g.head[0])).names
        return {"answer": "status", "branch": g.head[1], "commit": g.head[0], "commits": len(g.commits) + 1, "names": list(names), "records": g.records}

    def do_inspect(self):
        state = state_of(self.replay(self.graph.head[0]))
        order = met(state, list(state.names))
        told = lambda v: f"#{next(i for i, n in enumerate(order) if n is v)}" if hasattr(v, "inside") else plain(v)
        return {"answer": "inspect", "commit": self.graph.head[0], "names": {x: told(v) for x, v in state.names.items()}, "nodes": [texts(n, told) for n in order]}

    def do_stored(self, of):
        target = self.resolve(of)
        if target is None:
            return self.refused("NoSuchRef")
        path = self.stops(target[0])
        return {"answer": "stored", "commit": target[0], "dropped": dropped(path), "stored": stored(path)}

    def do_plan(self, to):
        target = self.resolve(to)
        if target is None:
            return self.refused("NoSuchRef")
        h, c = self.stops(self.graph.head[0]), self.stops(target[0])
        return {"answer": "plan", "commit": target[0], "drop": left(h, c), "keep": kept(h, c), "load": loaded(h, c)}


def line(cells):
    first = cells[0]
    for c in "\r\n":
        first = first.split(c)[0]
    return first[:60]


def plain(v):
    if isinstance(v, Named):
        return f"<built-in function {v.name}>" if v.name in BUILTINS else f"<class '{v.name}'>"
    return repr(v)


def texts(n, told):
    vs = [told(v) for v in n.inside]
    if isinstance(n, (D, O)):
        return ["dict" if isinstance(n, D) else "object"] + [t for k, v in zip(n.keys, vs) for t in (repr(k) if isinstance(n, D) else k, v)]
    if isinstance(n, F):
        return ["function", "1", n.code, *vs]
    if isinstance(n, E):
        return ["exception", n.kind, *vs]
    return ["list" if isinstance(n, L) else "tuple", *vs]


def json_line(answer):
    return json.dumps(answer, sort_keys=True, separators=(",", ":"), ensure_ascii=False) + "\n"
