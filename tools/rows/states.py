#!/usr/bin/env python3
"""States, and what is told of them, a second time from the rules as they stand in words: what a path
reaches, which names stand together, what a picture is and its bytes, which states are the same, and
which groups a commit stores and drops. The scripts of the rows of kishu_object_rows make them by it.

A state is made of objects of Python (`L`, `T`, `D`, `O`, `F`, `E`), whose identity is theirs."""

from collections import deque

from nodes import BUILTINS, CLASSES, listing, number, text


class Node:
    """What has an identity; `keys` are those of its children that show."""

    def __init__(self, *children):
        self.inside = list(children)

    def children(self):
        return self.inside

    def shows(self):
        return (type(self).__name__, len(self.inside))


class L(Node):
    """A list."""


class T(Node):
    """A tuple."""


class D(Node):
    """A dict, of pairs of a key and a value. A tuple of Python is a key that is one."""

    def __init__(self, *pairs):
        self.keys, self.inside = [k for k, _ in pairs], [v for _, v in pairs]

    def shows(self):
        return ("D", tuple((type(k).__name__, repr(k)) for k in self.keys))


class O(Node):
    """An object, of pairs of an attribute and a value."""

    def __init__(self, *pairs):
        self.keys, self.inside = [k for k, _ in pairs], [v for _, v in pairs]

    def shows(self):
        return ("O", tuple(self.keys))


class F(Node):
    """A function, by its code and its defaults."""

    def __init__(self, code, *defaults):
        self.code, self.inside = code, list(defaults)

    def shows(self):
        return ("F", self.code, len(self.inside))


class E(Node):
    """An exception, by the name of its class and its arguments."""

    def __init__(self, kind, *arguments):
        self.kind, self.inside = kind, list(arguments)

    def shows(self):
        return ("E", self.kind, len(self.inside))


class Named:
    """A builtin function or a class, by its name."""

    def __init__(self, name):
        self.name = name

    def __eq__(self, other):
        return isinstance(other, Named) and self.name == other.name

    def __hash__(self):
        return hash(self.name)

    def __repr__(self):
        return self.name


def is_node(v):
    return isinstance(v, Node)


# ---- a state, as it is written

class State:
    """Names with their values, and the nodes by their numbers: those of `first`, and then those that
    the names reach, in the order of going down; `turned` turns the order round."""

    def __init__(self, names, first=(), turned=False):
        self.names = dict(sorted(names.items(), key=lambda b: b[0].encode()))
        self.nodes = []
        for n in first:
            self.add(n)
        for v in self.names.values():
            self.add(v)
        if turned:
            self.nodes.reverse()

    def add(self, v):
        todo = [v]
        while todo:
            n = todo.pop()
            if is_node(n) and not any(n is m for m in self.nodes):
                self.nodes.append(n)
                todo.extend(reversed(n.children()))

    def number(self, n):
        return next(i for i, m in enumerate(self.nodes) if m is n)

    def term(self):
        nodes, names = [node_term(n, self.number) for n in self.nodes], [f"({text(x)}, {value_term(v, self.number)})" for x, v in self.names.items()]
        return "record { names = " + listing(names) + "; nodes = " + listing(nodes) + " }"


class Laid:
    """A state whose nodes stand in a given order."""

    def __init__(self, names, nodes):
        self.names, self.nodes = names, nodes

    number = State.number
    term = State.term


def value_term(v, numbered):
    if v is None:
        return "none"
    if isinstance(v, bool):
        return f"(bool {str(v).lower()})"
    if isinstance(v, int):
        return f"(integer {number(v)})"
    if isinstance(v, str):
        return f"(text {text(v)})"
    if isinstance(v, range):
        return f"(range {number(v.start)} {number(v.stop)} {number(v.step)})"
    if isinstance(v, Named):
        return f"(builtin {BUILTINS.index(v.name)})" if v.name in BUILTINS else f"(class {CLASSES.index(v.name)})"
    return f"(node {numbered(v)})"


def part_term(p):
    return "k.none" if p is None else f"(k.{value_term(p, None)[1:-1]})"


def key_term(key):
    return f"(k.tuple {listing([part_term(p) for p in key])})" if isinstance(key, tuple) else f"(k.single {part_term(key)})"


def node_term(n, numbered):
    vs = [value_term(v, numbered) for v in n.children()]
    if isinstance(n, (L, T)):
        return f"({'list' if isinstance(n, L) else 'tuple'} {listing(vs)})"
    if isinstance(n, D):
        return f"(dict {listing([f'({key_term(k)}, {v})' for k, v in zip(n.keys, vs)])})"
    if isinstance(n, O):
        return f"(object {listing([f'({text(k)}, {v})' for k, v in zip(n.keys, vs)])})"
    if isinstance(n, F):
        return f"(function One {text(n.code) if n.code.isascii() else listing([str(b) for b in n.code.encode()])} {listing(vs)})"
    return f"(exception {CLASSES.index(n.kind)} {listing(vs)})"


# ---- where values lead

def at(state, name, path):
    """What the path reaches, behind whether it reaches anything."""
    if name not in state.names:
        return False, None
    v = state.names[name]
    for c in path:
        if not is_node(v) or c >= len(v.children()):
            return False, None
        v = v.children()[c]
    return True, v


def met(state, names):
    """The nodes that the names reach, in the order of first meeting: breadth first."""
    seen, waiting = [], deque(state.names[x] for x in names if x in state.names)
    while waiting:
        v = waiting.popleft()
        if is_node(v) and not any(v is n for n in seen):
            seen.append(v)
            waiting.extend(v.children())
    return seen


def groups(state, of):
    """The classes of these names: each is linked to the others by names of the list that share a node."""
    left, done = list(of), []
    while left:
        group, grew = [left.pop(0)], True
        while grew:
            near = [y for y in left if any(n is m for x in group for n in met(state, [x]) for m in met(state, [y]))]
            group, left, grew = group + near, [y for y in left if y not in near], bool(near)
        done.append(sorted(group, key=str.encode))
    return sorted(done, key=lambda g: g[0].encode())


def groups_of(state):
    return groups(state, list(state.names))


def picture(state, names):
    return Laid({x: state.names[x] for x in names if x in state.names}, met(state, names))


# ---- bytes

def u32(n):
    return n.to_bytes(4, "big")


def i128(n):
    return n.to_bytes(16, "big", signed=True)


def value_bytes(v, numbered):
    if v is None:
        return b"\x00"
    if isinstance(v, bool):
        return b"\x02" if v else b"\x01"
    if isinstance(v, int):
        return b"\x03" + i128(v)
    if isinstance(v, str):
        t = v.encode("utf-8")
        return b"\x04" + u32(len(t)) + t
    if isinstance(v, range):
        return b"\x05" + i128(v.start) + i128(v.stop) + i128(v.step)
    if isinstance(v, Named):
        return bytes([6, BUILTINS.index(v.name)] if v.name in BUILTINS else [7, CLASSES.index(v.name)])
    return b"\x08" + u32(numbered(v))


def key_bytes(k):
    if isinstance(k, tuple):
        return b"\x09" + u32(len(k)) + b"".join(value_bytes(p, None) for p in k)
    return value_bytes(k, None)


def short(t):
    return bytes([len(t.encode())]) + t.encode()


def row_bytes(n, numbered):
    vs = [value_bytes(v, numbered) for v in n.children()]
    many = u32(len(vs))
    if isinstance(n, D):
        return b"\x03" + many + b"".join(key_bytes(k) + v for k, v in zip(n.keys, vs))
    if isinstance(n, O):
        return b"\x04" + many + b"".join(short(k) + v for k, v in zip(n.keys, vs))
    if isinstance(n, F):
        return b"\x05\x01" + u32(len(n.code.encode())) + n.code.encode() + many + b"".join(vs)
    if isinstance(n, E):
        return bytes([6, CLASSES.index(n.kind)]) + many + b"".join(vs)
    return (b"\x01" if isinstance(n, L) else b"\x02") + many + b"".join(vs)


def state_bytes(p):
    names = b"".join(short(x) + value_bytes(v, p.number) for x, v in p.names.items())
    return u32(len(p.names)) + names + u32(len(p.nodes)) + b"".join(row_bytes(n, p.number) for n in p.nodes)


def picture_bytes(state, names):
    return state_bytes(picture(state, names))


def size(state):
    return sum(len(picture_bytes(state, g)) for g in groups_of(state))


# ---- sameness

def view(v):
    return v.shows() if is_node(v) else ("plain", type(v).__name__, repr(v))


def difference(s, t, names):
    """None where the states are the same for these names; else how they differ, with the paths that show it:
    `("views", name, path)`, or `("shared", name, path, name, path, in the first)`."""
    waiting, first = deque((x, ()) for x in names), []
    while waiting:
        x, p = waiting.popleft()
        (a, v), (b, w) = at(s, x, p), at(t, x, p)
        if a != b or a and view(v) != view(w):
            return ("views", x, p)
        if not a or not is_node(v):
            continue
        known = False
        for n, m, y, q in first:
            if (n is v) != (m is w):
                return ("shared", y, q, x, p, n is v)
            known = known or n is v
        if not known:
            first.append((v, w, x, p))
            waiting.extend((x, p + (c,)) for c in range(len(v.children())))
    return None


# ---- versions, along a path of states from the first commit on; the root's state is empty

def image(state, group):
    return picture_bytes(state, group)


def stands(state, group, bytes_):
    return group in groups_of(state) and image(state, group) == bytes_


def version(path, group):
    """The number of the first commit from which on the group stands with one picture; `path` has pairs of a
    number and a state."""
    bytes_, found = image(path[-1][1], group), None
    for n, state in reversed(path):
        if not stands(state, group, bytes_):
            break
        found = n
    return found


EMPTY = State({})


def stored(path):
    return [g for g in groups_of(path[-1][1]) if version(path, g) == path[-1][0]] if path else []


def dropped(path):
    if not path:
        return []
    before = path[-2][1] if len(path) > 1 else EMPTY
    return [g for g in groups_of(before) if not stands(path[-1][1], g, image(before, g))]


def end(path):
    return path[-1][1] if path else EMPTY


def is_kept(h, c, g):
    return g in groups_of(end(h)) and g in groups_of(end(c)) and version(h, g) == version(c, g)


def kept(h, c):
    return [g for g in groups_of(end(c)) if is_kept(h, c, g)]


def loaded(h, c):
    return [g for g in groups_of(end(c)) if not is_kept(h, c, g)]


def left(h, c):
    return [g for g in groups_of(end(h)) if not is_kept(h, c, g)]


# ---- terms

def group_term(g):
    return listing([text(x) for x in g])


def groups_term(gs):
    return listing([group_term(g) for g in gs])


def numbers_term(ns):
    return listing([str(n) for n in ns])
