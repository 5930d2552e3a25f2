#!/usr/bin/env python3
"""Makes the rows of crates/kishu_object_rows on what values lead to, groups, pictures, their bytes and
sameness. What is wanted is told by states.py, which has the rules a second time."""

from row_file import PRELUDE, RowFile
from states import D, E, F, L, Laid, Named, O, State, T, at, difference, groups, groups_of, groups_term, met, numbers_term, picture, picture_bytes, row_bytes, size, value_bytes, value_term, node_term, key_bytes, key_term, text, i128

CRATE = "kishu_object_rows"
VALUES = "use Rattle.kishu_meaning.specs.values.Values.{Value, none, bool, integer, text, range, builtin, class, node, Node, list, tuple, dict, object, function, exception, State, empty}"
KEYS = "use Rattle.kishu_meaning.specs.values.Keys as k"
ONE = "use Rattle.kishu_language.specs.declared.profile.Profile.TheVariants.{One}"
OBJECTS = "use Rattle.kishu_objects.specs."


# ---- the states

def states():
    made = {}

    def state(name, says, names, **more):
        made[name] = (says, State(names, **more))

    state("unbound", "no name is bound, and one node stands", {}, first=[L()])
    state("plain", "values without an identity, at names in byte order", {"Z": 1, "_": None, "a": True, "a1": "é", "aa": range(0, 3, -1), "b": Named("print"), "c": Named("dict")})
    one = L(1)
    state("shared", "a = [1]; b = a", {"a": one, "b": one}, first=[L()])
    state("apart", "a = [1]; b = [1]", {"a": L(1), "b": L(1)})
    a = L()
    a.inside.append(a)
    state("itself", "a = []; a.append(a)", {"a": a})
    a, b = L(), L()
    a.inside.append(b)
    b.inside.append(a)
    state("round", "a and b hold each other", {"a": a, "b": b}, turned=True)
    one, two = L(1), L(2)
    state("linked", "x and z share nothing, and y holds both", {"x": one, "y": L(one, two), "z": two}, turned=True)
    one, two = L(1), L(2)
    state("parted", "as `linked`, with y bound to a number", {"x": one, "y": 0, "z": two}, first=[L(one, two)])
    own = L(7)
    state("default", "a list is a function's default and p's value", {"g": F("def g(x, acc=[]): return acc", own), "p": own, "q": L(7)})
    own = L()
    state("defaults", "two functions have one default", {"f": F("def f(a=1, b=[]): pass", 1, own), "g": F("def g(b=[]): pass", own)}, turned=True)
    inner = L()
    state("keyed", "a dict has a tuple for a key, which is no node, and a list at two of its keys", {"d": D(((1, "é"), inner), (None, T()), (-1, inner)), "e": inner, "t": T(1, "é")})
    arg = L("no")
    state("raised", "an exception holds a list that e is, too", {"e": arg, "x": E("ValueError", arg, 1), "y": E("KeyError", "no")})
    o = O()
    o.keys, o.inside = ["left", "self"], [L(o), o]
    state("object_round", "an object holds itself, and a list that holds it", {"o": o}, turned=True)
    x = L("x")
    state("wide", "what is near comes before what is deep", {"a": L(L(L(x)), L(2), x), "b": D(("k", L(x)))}, turned=True)
    bottom = L()
    top = L(L(bottom), L(bottom), bottom, bottom)
    state("diamond", "one list is reached in three ways", {"t": top})
    inner = T(L(1))
    state("inside", "b is what lies inside a", {"a": L(L(inner), inner), "b": inner, "c": L(inner.inside[0])}, first=[T()])
    state("equal", "equal tuples, each a node of its own", {"a": T(1, 2), "b": T(1, 2), "c": L(T(1, 2))})
    one = L()
    state("long_chain", "each name shares a node with the next alone", {f"n{i}": v for i, v in enumerate(chain(5))}, turned=True)
    made.update(twins())
    return made


def chain(n):
    links = [L(i) for i in range(n + 1)]
    return [L(links[i], links[i + 1]) for i in range(n)]


def twins():
    """Nodes that stand elsewhere under the same names, and others that differ in one thing."""
    x, y = L(1), L(1)
    here = L(x, x, y)
    there = [L(), L(1), L(1)]
    there.append(L(there[1], there[1], there[2]))
    return {
        "twice": ("a holds one list twice, and an equal one", State({"a": here})),
        "twice_there": ("the same with other numbers", State({"a": there[3]}, first=there[:3])),
        "thrice": ("a holds one list three times", State({"a": L(x, x, x)})),
        "once_each": ("a holds three lists", State({"a": L(L(1), L(1), L(1))})),
    }


STATES = states()


def paths(state, most):
    """Paths from names, those that lead somewhere and those that lead nowhere, up to three steps long."""
    found = []
    for x in list(state.names) + ["zz"]:
        todo = [()]
        while todo:
            p = todo.pop(0)
            found.append((x, p))
            there, v = at(state, x, p)
            if there and len(p) < 3 and not isinstance(v, (int, str)) and hasattr(v, "children"):
                todo += [p + (c,) for c in range(len(v.children()) + 1)]
    step = max(1, len(found) // most)
    return found[::step][:most]


def names_of(state):
    """Lists of names to ask about: each alone, all, the first and the last, and one that is unbound."""
    every = list(state.names)
    asked = [[x] for x in every] + [every, every[::max(1, len(every) - 1)], every[1:] + ["zz"]]
    return [list(a) for a in dict.fromkeys(map(tuple, asked)) if a or not every]


def write_states():
    f = RowFile(CRATE, "States", "States of which the rows of this crate speak. Made by tools/rows/object_rows.py.", [PRELUDE, ONE, KEYS, VALUES])
    for name, (says, state) in STATES.items():
        f.note(says)
        f.put(f"abbrev pub {name} : State", f"{name} = {state.term()}")
    f.write()


USES_STATES = f"use Rattle.{CRATE}.proofs.States.{{{', '.join(STATES)}}}"


def shape_rows():
    f = RowFile(CRATE, "ShapeRows", "What paths reach, and the children of nodes: computed on the definitions. Made by tools/rows/object_rows.py.", [PRELUDE, ONE, KEYS, VALUES, OBJECTS + "Shape.{children, each_child, node_at, child, along, reached}", USES_STATES])
    f.title("the last step of a path stands first")
    for name, (_, state) in STATES.items():
        for x, p in paths(state, 5):
            there, v = at(state, x, p)
            f.row("reached", f"reached {name} {text(x)} {numbers_term(reversed(p))} ≡ " + (f"Some {value_term(v, state.number)}" if there else "None"))
    f.title("children, by the kind of the node")
    for n in (L(), L(1, None), T("a", True), D(((1, 2), 3), ("k", None)), D(), O(("b", 1), ("a", 2)), F("def f(a=1, b=2): pass", 1, 2), F("def f(): pass"), E("KeyError", "k"), E("Exception")):
        f.row("children", f"children {node_term(n, None)} ≡ {listing_of(n.children())}")
    f.title("a node that isn't there is an empty list, and has no child")
    f.row("no_node", "node_at ((tuple (none ∷ [])) ∷ []) 0 ≡ tuple (none ∷ [])")
    f.row("no_node", "node_at ((tuple (none ∷ [])) ∷ []) 1 ≡ list []")
    f.row("no_node", "child ((tuple (none ∷ [])) ∷ []) 0 (node 0) ≡ Some none")
    f.row("no_node", "child ((tuple (none ∷ [])) ∷ []) 1 (node 0) ≡ None")
    f.row("no_node", "child ((tuple (none ∷ [])) ∷ []) 0 (node 1) ≡ None")
    f.row("no_node", "child ((tuple (none ∷ [])) ∷ []) 0 (text (codes \"a\")) ≡ None")
    f.write()


def listing_of(vs):
    return " ∷ ".join([value_term(v, None) for v in vs] + ["[]"])


def picture_rows():
    f = RowFile(CRATE, "OrderRows", "The nodes that names reach, in the order of first meeting: computed on the definition. Made by tools/rows/object_rows.py.", [PRELUDE, VALUES, OBJECTS + "Picture.{order, firsts, place, roots, leads, listed}", USES_STATES])
    for name, (says, state) in STATES.items():
        f.title(says)
        for asked in names_of(state):
            f.row(f"order_{name}", f"order {name} {names_term(asked)} ≡ {numbers_term([state.number(n) for n in met(state, asked)])}")
    f.write()
    f = RowFile(CRATE, "PictureRows", "The pictures of names: computed on the definition. Made by tools/rows/object_rows.py.", [PRELUDE, ONE, KEYS, VALUES, OBJECTS + "Picture.{picture, whole}", USES_STATES])
    for name, (says, state) in STATES.items():
        f.title(says)
        for asked in names_of(state)[:6]:
            f.row(f"picture_{name}", f"picture {name} {names_term(asked)} ≡ {picture(state, asked).term()}")
        f.row(f"whole_{name}", f"whole {name} ≡ {picture(state, list(state.names)).term()}")
    f.write()


def names_term(names):
    return "(" + " ∷ ".join([text(x) for x in names] + ["[]"]) + ")" if names else "[]"


def group_rows():
    f = RowFile(CRATE, "GroupRows", "Which names stand together: computed on the definitions. Made by tools/rows/object_rows.py.", [PRELUDE, VALUES, OBJECTS + "Groups.{groups_of, groups, touches, near, class_of}", USES_STATES])
    for name, (says, state) in STATES.items():
        f.title(says)
        f.row(f"groups_{name}", f"groups_of {name} ≡ {groups_term(groups_of(state))}")
        every = list(state.names)
        for asked in [a for a in names_of(state) if 1 < len(a) < len(every)] + ([every[::2]] if len(every) > 2 else []):
            f.row(f"among_{name}", f"groups {name} {names_term(asked)} ≡ {groups_term(groups(state, asked))}")
        for x, y in list(zip(every, every[1:]))[:3]:
            touch = any(n is m for n in met(state, [x]) for m in met(state, [y]))
            f.row(f"touches_{name}", f"touches {name} {text(x)} {text(y)} ≡ {str(touch).lower()}")
    f.write()


def loading_rows():
    f = RowFile(CRATE, "LoadingRows", "What a picture leaves that is loaded into a state, and which states stand in the order of first meeting: computed on the definitions. Made by tools/rows/object_rows.py.", [PRELUDE, ONE, KEYS, VALUES, OBJECTS + "Loading.{bind_all, with_picture}", OBJECTS + "Picture.{picture}", OBJECTS + "Reading.{IsInOrder, counted}", USES_STATES])
    f.title("new nodes stand behind those that are there, and names are bound anew")
    into = ["unbound", "plain", "shared", "itself", "linked", "raised"]
    for name, (says, state) in STATES.items():
        if name in ("plain", "default", "defaults", "long_chain"):
            continue
        for k, host in enumerate(into):
            if (len(name) + k) % 2:
                continue
            s, p = STATES[host][1], picture(state, list(state.names))
            if any(n is m for n in p.nodes for m in s.nodes):
                continue
            loaded = Laid(dict(sorted({**s.names, **p.names}.items(), key=lambda b: b[0].encode())), s.nodes + p.nodes)
            f.row("loaded", f"with_picture {host} (picture {name} {names_term(list(state.names))}) ≡ {loaded.term()}")
    f.title("pictures stand in the order of first meeting, and their states needn't")
    for name, (says, state) in STATES.items():
        every = list(state.names)
        f.row("in_order", f"IsInOrder (picture {name} {names_term(every)})", "refl")
        if picture(state, every).term() != state.term():
            f.row("not_in_order", f"IsInOrder {name} → ⊥", "λ e. cc")
    f.title("how many nodes were met, behind n of them")
    tried = [(0, []), (0, [0]), (0, [1]), (0, [0, 0, 1]), (0, [0, 2]), (2, [0, 1, 2]), (2, [3]), (2, [2, 3, 2, 4]), (3, [1, 0]), (1, [1, 1, 1])]

    def counted(n, numbers):
        for i in numbers:
            if i > n:
                return None
            n = max(n, i + 1)
        return n

    f.table("counted", [f"counted {n} {numbers_term(ns)}" for n, ns in tried], ["None" if counted(n, ns) is None else f"Some {counted(n, ns)}" for n, ns in tried])
    f.write()


def main():
    write_states()
    loading_rows()
    shape_rows()
    picture_rows()
    group_rows()


if __name__ == "__main__":
    main()
