#!/usr/bin/env python3
"""Makes the rows of crates/kishu_store_rows on requests: what sessions answer, and the graphs that they leave.
What is wanted is told by request_machine.py, which has the rules a second time."""

from nodes import listing, text
from record_rows import CRATE, ONE, STORE
from request_machine import Machine, json_line
from row_file import PRELUDE, RowFile

MODEL = "use Rattle.kishu_model.specs."
USES = [
    PRELUDE,
    "use Rattle.std.specs.Prelude.{map}",
    ONE,
    STORE + "Graph.{Graph, new_graph}",
    MODEL + "Request.{Request, cell, cells, checkout, branch, log, status, inspect, stored, plan, unreadable}",
    MODEL + "Serve.{answered, after_all, answers, answer_of}",
    f"use Rattle.{CRATE}.proofs.OnLiterals.{{requests_on_literals}}",
]
OPENED = "requests_on_literals"
MADE = "Made by tools/rows/request_rows.py."


def coded(t):
    """A text as the bytes that it is in UTF-8."""
    if t == "":
        return "[]"
    parts, plainly = [], ""
    for c in t:
        if c.isascii() and (c.isprintable() or c == "\n"):
            plainly += {'"': '\\"', "\\": "\\\\", "\n": "\\n"}.get(c, c)
            continue
        if plainly:
            parts.append(f'codes "{plainly}"')
        plainly = ""
        parts.append(listing([str(b) for b in c.encode()]))
    if plainly:
        parts.append(f'codes "{plainly}"')
    return parts[0] if len(parts) == 1 else " ++ ".join(parts)


def request_term(q):
    kind, *rest = q
    if kind == "cells":
        return f"cells {listing([f'({coded(t)})' for t in rest[0]])}"
    if kind == "branch":
        return f"branch ({coded(rest[0])}) " + (f"(Some ({coded(rest[1])}))" if len(rest) > 1 else "None")
    return " ".join([kind, *[f"({coded(t)})" for t in rest]])


def requests_term(qs):
    return "map answered (" + " ∷ ".join([request_term(q) for q in qs] + ["[]"]) + ")"


class Session:
    """Requests of a session, one part after another. Each part is a theorem on the graph that the parts before
    leave, and is named by it."""

    def __init__(self, f, name, says, records=0):
        self.f, self.name, self.machine, self.parts = f, name, Machine(records), 0
        f.title(says)
        self.leaves(f"record new_graph {{ records = {records} }}" if records else "new_graph")

    def leaves(self, term):
        self.here = f"{self.name}_graph{self.parts}"
        self.f.put(f"abbrev {self.here} : Graph", f"{self.here} = {term}")

    def ask(self, *qs, says=None, left=True):
        self.parts += 1
        if says:
            self.f.note(says)
        lines = [json_line(self.machine.answer(q)) for q in qs]
        full = f"{self.name}_{self.parts}"
        self.f.counts[full] = len(qs)
        asked = requests_term(qs)
        told = "\n    ++ ".join(coded(t) for t in lines)
        self.f.put(f"{full} : answers {self.here} ({asked})", f"    ≡ {told}", f"unfolding {OPENED}", f"{full} = refl")
        for q in qs:
            ASKED[q[0]] = ASKED.get(q[0], 0) + 1
        if left:
            before = self.here
            self.leaves(self.machine.graph.term())
            self.f.counts[full + " left"] = 1
            self.f.put(f"{full}_left : after_all {before} ({asked}) ≡ {self.here}", f"unfolding {OPENED}", f"{full}_left = refl")

    def look(self, *qs, says=None):
        """Requests that leave the graph as it is."""
        for i in range(0, len(qs), 6):
            self.ask(*qs[i:i + 6], says=says if i == 0 else None, left=False)


ASKED = {}
LOOKS = (("status",), ("log",), ("inspect",))


def cells(*texts):
    return [("cell", t) for t in texts]


def graph_session():
    f = RowFile(CRATE, "SessionRows", f"What a session answers whose history branches, and the graphs that it leaves: computed on the definitions. {MADE}", USES)
    s = Session(f, "groups", "groups that are split and merged, deletions, ways back and branches")
    s.look(*LOOKS, ("stored", "0"), ("plan", "0"), ("plan", "main"), says="a new store")
    s.ask(*cells("x = [1]; y = [x]; z = [2]", "y = 0"))
    s.look(*LOOKS, *[("stored", c) for c in ("0", "1", "2", "main", "3")], *[("plan", c) for c in ("0", "1", "2", "main", "3", "try")])
    s.ask(("branch", "try", "1"), ("checkout", "try"), *cells("z.append(3)", "w = z"))
    s.look(*LOOKS, *[("stored", c) for c in ("try", "3", "4")], *[("plan", c) for c in ("0", "1", "2", "3", "try", "main")])
    s.ask(("checkout", "3"), *cells("x = [1]", "del z", "z = x"))
    s.look(*LOOKS, *[("stored", c) for c in ("5", "6", "7", "8")], *[("plan", c) for c in ("5", "6", "4", "1", "main", "try", "0")])
    s.ask(("checkout", "main"), ("branch", "Z"), ("branch", "_", "try"), ("branch", "a-1", "main"), ("checkout", "0"), *cells("y = z = [2]"))
    s.look(*LOOKS, *[("stored", c) for c in ("Z", "8", "07")], *[("plan", c) for c in ("Z", "_", "7", "8")])
    f.write()
    f = RowFile(CRATE, "KindRows", f"What sessions answer whose names are bound to nodes of each kind: computed on the definitions. {MADE}", USES)
    s = Session(f, "kinds", "functions with defaults, dicts, objects, exceptions and rings")
    s.ask(*cells("def g(x, acc=[]):\n    acc.append(x)\n    return acc", "p = g(1)", "d = {1: p, (1, 'k'): None}"))
    s.look(*LOOKS, *[("stored", c) for c in ("1", "2", "3")], *[("plan", c) for c in ("1", "2", "3")])
    s.ask(*cells("o = SimpleNamespace(a=1)\no.b = [o]", "try:\n    {}['k']\nexcept KeyError as e:\n    kept = e", "d[1] = 0; r = range(2); f = len; c = dict; t = ('it\\'s', d)"))
    s.look(*LOOKS, *[("stored", c) for c in ("4", "5", "6", "main")], *[("plan", c) for c in ("4", "5", "6")])
    s.ask(("checkout", "2"), *cells("g(2) is p, p", "p = 0; g(3)"))
    s.look(*LOOKS, *[("stored", c) for c in ("7", "8")], *[("plan", c) for c in ("2", "main", "6")])
    f.write()


def refusal_session():
    f = RowFile(CRATE, "RefusalRows", f"What is refused, in which order, and that nothing changes then: computed on the definitions. {MADE}", USES)
    s = Session(f, "refused", "on a store with room")
    s.ask(("unreadable",), ("branch", "main"), ("branch", "9"), ("branch", ""), ("branch", "a b"), ("branch", "n" * 65), ("branch", "é"))
    s.ask(("branch", "9", "nowhere"), ("branch", "main", "nowhere"), ("branch", "try", "nowhere"), ("branch", "try", "1"), ("branch", "try", "00"), ("branch", "try", ""))
    s.ask(("checkout", "1"), ("checkout", "00"), ("checkout", "Main"), ("checkout", "main "), ("checkout", ""), ("stored", "1"), ("stored", "x"), ("plan", "1"), ("plan", ""), ("cells", []))
    s.ask(("branch", "n" * 64), ("branch", "a-b_9", "0"), ("branch", "_", "main"), ("branch", "Main"), ("checkout", "Main"), ("branch", "Main"), ("checkout", "a-b_9"))
    s.look(*LOOKS)
    s = Session(f, "full", "on a store that is full", 1000000)
    s.ask(("cell", "1"), ("cells", ["1", "2"]), ("checkout", "main"), ("checkout", "0"), ("checkout", "1"), ("branch", "try"), ("branch", "main"), ("branch", "9"), ("branch", "try", "x"), ("branch", "try", "main"))
    s.look(*LOOKS, ("stored", "0"), ("plan", "main"), ("unreadable",), ("cells", []))
    s = Session(f, "last", "on a store with room for one record", 999999)
    s.ask(("branch", "try"), ("branch", "more"), ("checkout", "try"), ("cell", "1"))
    s = Session(f, "last_cell", "and for a cell", 999999)
    s.ask(("cell", "a = 1"), ("cell", "a"), ("cells", ["a"]), ("checkout", "main"))
    s.look(*LOOKS)
    f.write()


def cell_session():
    f = RowFile(CRATE, "CellRequestRows", f"What cells answer, one in a request and several: computed on the definitions. {MADE}", USES)
    s = Session(f, "cells", "outcomes, outputs and counts")
    s.ask(*cells("", "1", "None", "'a'", "print(1)", "print('a'); 2", "print(end='')"))
    s.ask(*cells("x = 5; x // 0", "x", "raise ValueError('no', 1)", "raise KeyError('k')", "print('é'); zz", "x = = 1", "a\nb = ", "assert 0"))
    s.ask(("cells", ["x = 6", "x", "print(x)"]), ("cells", ["1 // 0", "x = 7"]), ("cells", ["x = 8", "y =", "x = 9"]), ("cells", [""]), ("cells", ["x", "x"]))
    s.look(*LOOKS)
    s.ask(("checkout", "1"), ("cells", ["q = 1", "q"]), *cells("q", "x"), ("checkout", "main"), ("cells", ["x", "def f(): return x", "f()", "x = 1", "f()"]), ("cell", "f() + 1"))
    s.look(*LOOKS)
    s.ask(("cells", ["a = [1]", "b = a", "b.append(2)", "a"]), ("cells", ["raise a", "a"]), ("cells", ["print(a)", "print(b); zz", "del a"]), ("cell", "a is b"), ("cells", ["del a", "a"]), ("cell", "b"))
    s.look(*LOOKS, *[("stored", str(c)) for c in (1, 8, 16, 18, 23, 24, 25, 28)])
    f.write()


def walk_session():
    f = RowFile(CRATE, "WalkRows", f"What is told at each commit of a history that branches, to which checkouts lead: computed on the definitions. {MADE}", USES)
    s = Session(f, "walk", "a way to each commit and each branch")
    s.ask(*cells("x = [1]; y = [x]; z = (x, 'a')", "y = {1: y, (1, None): z}"), ("branch", "try", "1"), ("branch", "b", "0"), ("checkout", "try"))
    s.ask(*cells("def f(a=x): return a", "x = 0; del z"), ("checkout", "2"), *cells("o = SimpleNamespace(y=y)", "e = ValueError(o)"), ("checkout", "b"))
    s.ask(*cells("x = 'é'; r = range(3, 0, -1)", "m = max; t = ()"), ("branch", "c", "try"), ("branch", "d", "6"))
    for to in ("0", "1", "2", "3", "4", "5", "6", "7", "8", "main", "try", "b", "c", "d"):
        s.ask(("checkout", to), *LOOKS)
    f.write()


def several_session():
    f = RowFile(CRATE, "SeveralRows", f"What requests of several cells answer: computed on the definitions. {MADE}", USES)
    s = Session(f, "several", "cells up to the first that doesn't end well, with counts that go on")
    s.ask(("cells", ["a = [1]"]), ("cells", ["a", "a"]), ("cells", ["", "", ""]), ("cells", ["b = a; b", "c ="]), ("cells", ["zz"]), ("cells", ["zz", "a"]))
    s.ask(("cells", ["a.append(2)", "a", "b is a", "1 // 0", "a"]), ("cells", []), ("cells", ["print('x')", "print('y'); 1"]), ("cells", ["def f(): return a[5]", "f()", "a"]))
    s.ask(("checkout", "1"), ("cells", ["a", "b"]), ("cells", ["b = 1", "b"]), ("cells", ["del a", "del a", "a"]), ("cells", ["b"]))
    s.ask(("branch", "q"), ("checkout", "q"), ("cells", ["b = 2", "b"]), ("cells", ["b"]), ("checkout", "main"), ("cells", ["b is a", "a"]))
    s.ask(("cells", ["x = 1", "x = 2", "x = 3", "x"]), ("cells", ["try:\n    x // 0\nexcept ZeroDivisionError: x = 4", "x"]), ("cells", ["raise KeyError('k')"]), ("cells", ["assert x, 1", "assert 0, x", "x"]), ("cells", ["'é'", "print('é')"]))
    s.look(*LOOKS, ("stored", "main"), ("stored", "q"), ("plan", "q"), ("plan", "1"), ("stored", "14"), ("stored", "2"))
    f.write()


def more_refusals():
    f = RowFile(CRATE, "BranchRows", f"Branches: which names are taken, where they begin, and which goes along with the head: computed on the definitions. {MADE}", USES)
    s = Session(f, "branches", "names and places")
    s.ask(("branch", "a"), ("branch", "a", "0"), ("branch", "A"), ("branch", "a-", "a"), ("branch", "-a"), ("branch", "a.b"), ("branch", "a/b"), ("branch", "_0"), ("branch", "0_"))
    s.ask(*cells("x = 1"), ("branch", "b"), ("branch", "c", "0"), ("branch", "d", "1"), ("branch", "e", "2"), ("branch", "f", "c"), ("branch", "g", "main"), ("branch", "h", "H"))
    s.look(*LOOKS)
    s.ask(("checkout", "c"), *cells("y = 1"), ("branch", "i"), ("checkout", "d"), *cells("y = 2"), ("checkout", "2"), *cells("y = 3"), ("branch", "j"), ("branch", "k", "c"))
    s.look(*LOOKS, ("plan", "c"), ("plan", "d"), ("plan", "i"), ("stored", "j"), ("plan", "j"), ("stored", "c"))
    f.write()


if __name__ == "__main__":
    graph_session()
    refusal_session()
    cell_session()
    walk_session()
    several_session()
    more_refusals()
    print(ASKED)
