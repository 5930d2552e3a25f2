"""Histories of which history_rows.py makes rows: after each commit the names that are bound, and the names
that its cell accessed. They branch."""

import copy

from states import D, E, F, L, O, State, T

STOPS = {}
PATHS = {}
ACCESSED = {}


class Namespace(dict):
    """The names as a cell leaves them."""


def run(story, parent, cells, numbers):
    """Carries on from a stop of a story, or from nothing, by these cells: each is what it does to the names, the
    names that it accesses, and what it says."""
    names = Namespace(copy.deepcopy(STOPS[story, parent][1])) if parent else Namespace()
    path = PATHS[story, parent] if parent else []
    before = parent
    for number, (does, accessed, says) in zip(numbers, cells):
        does(names)
        STOPS[story, number] = (says, copy.deepcopy(dict(names)))
        path = [*path, (number, state_of(STOPS[story, number][1], number))]
        PATHS[story, number] = path
        ACCESSED[story, number] = (before, accessed.split())
        before = number


def state_of(names, number):
    """A state in which the nodes stand in another order at each second commit, behind one that nothing reaches."""
    return State(names, first=[L()] if number % 3 == 0 else [], turned=number % 2 == 0)


def assign(**values):
    return lambda n: n.update({x: v(n) for x, v in values.items()})


def delete(*names):
    return lambda n: [n.pop(x) for x in names]


def add(name, value):
    return lambda n: n[name].inside.append(value(n))


def both(*does):
    return lambda n: [f(n) for f in does]


def stories():
    run("lists", None, [
        (lambda n: n.update(x=(one := L(1)), y=L(one), z=L(2)), "x y z", "x = [1]; y = [x]; z = [2]"),
        (assign(y=lambda n: 0), "y", "y = 0"),
        (assign(y=lambda n: L(n["x"])), "x y", "y = [x]"),
        (add("z", lambda n: 3), "z", "z.append(3)"),
        (assign(w=lambda n: n["z"]), "w z", "w = z"),
        (delete("w"), "w", "del w"),
        (lambda n: None, "x y z", "x, y, z"),
        (assign(x=lambda n: L(1)), "x", "x = [1], an equal list and another one"),
        (assign(w=lambda n: 5), "w", "w = 5"),
        (assign(w=lambda n: 5), "w", "w = 5, as it was"),
        (assign(w=lambda n: True), "w", "w = True"),
        (delete("x", "y", "z", "w"), "w x y z", "del x, y, z, w"),
        (lambda n: n.update(x=(one := L(1)), y=L(one), z=L(2)), "x y z", "the first cell again"),
    ], range(1, 14))
    start = L()
    run("ways", None, [
        (lambda n: n.update(a=L(1), b=L(2), c=L(3)), "a b c", "a = [1]; b = [2]; c = [3]"),
        (add("a", lambda n: 0), "a", "a.append(0)"),
    ], (1, 2))
    run("ways", 2, [
        (add("b", lambda n: 7), "b", "on one way: b.append(7)"),
        (add("c", lambda n: n["b"]), "b c", "and c.append(b)"),
    ], (3, 5))
    run("ways", 2, [
        (add("b", lambda n: 7), "b", "on the other way: b.append(7), too"),
        (assign(d=lambda n: n["a"]), "a d", "and d = a"),
        (delete("d"), "d", "del d"),
    ], (4, 6, 7))
    run("ways", 1, [(delete("c"), "c", "from the first commit: del c")], (8,))
    run("kinds", None, [
        (lambda n: n.update(g=F("def g(x, acc=[]): acc.append(x); return acc", start)), "g", "def g(x, acc=[]): .."),
        (both(lambda n: n["g"].inside[0].inside.append(1), assign(p=lambda n: n["g"].inside[0])), "g p", "p = g(1)"),
        (assign(p=lambda n: 0), "p", "p = 0"),
        (assign(d=lambda n: D((1, "a"), ((1, True), None)), t=lambda n: T(1, 2)), "d t", "d = {1: 'a', (1, True): None}; t = (1, 2)"),
        (assign(d=lambda n: D(((1, True), None), (1, "a"))), "d", "the same keys in the other order"),
        (assign(d=lambda n: D(((1, True), n["t"]), (1, "a"))), "d t", "d[1, True] = t"),
        (assign(t=lambda n: T(1, 2)), "t", "t = (1, 2), another one"),
        (assign(e=lambda n: E("ValueError", n["t"]), o=lambda n: O(("t", n["t"]))), "e o t", "e = ValueError(t); o = SimpleNamespace(t=t)"),
        (both(lambda n: n["o"].keys.clear(), lambda n: n["o"].inside.clear()), "o", "del o.t"),
        (assign(g=lambda n: F("def g(x): return x")), "g", "def g(x): return x"),
    ], range(1, 11))


stories()
