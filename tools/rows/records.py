"""Records of a store, and what they do to its graph and to the tables of its commits, a second time from the
rules as they stand in words; record_rows.py makes rows of them."""

from nodes import listing, text
from states import group_term, groups_term

MAIN = "main"


def coded(t):
    """A text as the bytes that it is in UTF-8."""
    return text(t) if t.isascii() else listing([str(b) for b in t.encode()])


class Commit:
    """One commit more: its parent, its cells, the groups that it drops, and those that it stores with their
    pictures."""

    def __init__(self, parent, cells, dropped=(), stored=()):
        self.parent, self.cells, self.dropped, self.stored = parent, cells, list(dropped), list(stored)

    def term(self):
        stored = listing([f"({group_term(g)}, {len(p)})" for g, p in self.stored])
        return f"(commit {self.parent} One {listing([coded(c) for c in self.cells])} {groups_term(self.dropped)} {stored})"

    def head(self):
        cells = b"".join(u32(len(c.encode())) + c.encode() for c in self.cells)
        dropped = b"".join(map(group_bytes, self.dropped))
        stored = b"".join(group_bytes(g) + len(p).to_bytes(8, "big") for g, p in self.stored)
        return b"\x01" + u32(self.parent) + b"\x01" + u32(len(self.cells)) + cells + u32(len(self.dropped)) + dropped + u32(len(self.stored)) + stored

    def pictures(self):
        return [p for _, p in self.stored]


class Move:
    """The head goes to a commit, by its number, or to a branch, by its name."""

    def __init__(self, to):
        self.to = to

    def term(self):
        return f"(move (to_commit {self.to}))" if isinstance(self.to, int) else f"(move (to_branch {coded(self.to)}))"

    def head(self):
        return b"\x02\x00" + u32(self.to) if isinstance(self.to, int) else b"\x02\x01" + short(self.to)

    def pictures(self):
        return []


class Name:
    """One branch more, at a commit."""

    def __init__(self, title, at):
        self.title, self.at = title, at

    def term(self):
        return f"(name {coded(self.title)} {self.at})"

    def head(self):
        return b"\x03" + short(self.title) + u32(self.at)

    def pictures(self):
        return []


def u32(n):
    return n.to_bytes(4, "big")


def short(t):
    return bytes([len(t.encode())]) + t.encode()


def group_bytes(group):
    return u32(len(group)) + b"".join(map(short, group))


def body(entry):
    return u32(len(entry.head())) + entry.head() + b"".join(entry.pictures())


def record_term(entry):
    pictures = listing([listing([str(b) for b in p]) for p in entry.pictures()])
    return f"(record {{ entry = {entry.term()}; pictures = {pictures} }})"


HEADER = b"KISHU-JOURNAL-1\n"


def front(entries):
    return HEADER + b"".join(b"\xa5" + len(body(e)).to_bytes(8, "big") + body(e) for e in entries)


# ---- the graph

class Graph:
    def __init__(self):
        self.commits, self.branches, self.head, self.records = [], {MAIN: 0}, (0, MAIN), 0

    def fits(self, e):
        """None, or what the entry breaks."""
        if self.records >= 1000000:
            return "room"
        if isinstance(e, Commit):
            return None if e.parent == self.head[0] else "parent"
        if isinstance(e, Move):
            there = e.to <= len(self.commits) if isinstance(e.to, int) else e.to in self.branches
            return None if there else "nowhere"
        if not is_branch_name(e.title):
            return "form"
        if e.title in self.branches:
            return "taken"
        return None if e.at <= len(self.commits) else "nowhere"

    def change(self, e):
        self.records += 1
        if isinstance(e, Commit):
            self.commits.append((self.head[0], e.cells))
            self.head = (len(self.commits), self.head[1])
            if self.head[1] is not None:
                self.branches[self.head[1]] = self.head[0]
        elif isinstance(e, Move):
            self.head = (e.to, None) if isinstance(e.to, int) else (self.branches[e.to], e.to)
        else:
            self.branches[e.title] = e.at

    def term(self):
        commits = listing([f"(record {{ parent = {p}; profile = One; cells = {listing([coded(c) for c in cs])} }})" for p, cs in reversed(self.commits)])
        branches = listing([f"({text(b)}, {c})" for b, c in sorted(self.branches.items(), key=lambda x: x[0].encode())])
        branch = "None" if self.head[1] is None else f"Some {text(self.head[1])}"
        return f"record {{ commits = {commits}; branches = {branches}; head = record {{ commit = {self.head[0]}; branch = {branch} }}; records = {self.records} }}"

    def path(self, c):
        """The numbers of the commits from the first to this one."""
        return [*self.path(self.commits[c - 1][0]), c] if c else []


def is_branch_name(t):
    letters = "abcdefghijklmnopqrstuvwxyzABCDEFGHIJKLMNOPQRSTUVWXYZ_"
    return 1 <= len(t) <= 64 and t[0] in letters and all(c in letters + "0123456789-" for c in t)


# ---- tables: rows of a group, its version, and the place and length of its picture

class Store:
    """A graph, with the change of each of its commits and the place of the next gate."""

    def __init__(self):
        self.graph, self.changes, self.place = Graph(), {}, 16

    def rows(self, e):
        """The rows that a commit stores, whose record stands at the next gate."""
        place, rows = self.place + 9 + 4 + len(e.head()), []
        for g, p in e.stored:
            rows.append((g, len(self.graph.commits) + 1, place, len(p)))
            place += len(p)
        return rows

    def add(self, e):
        if isinstance(e, Commit):
            self.changes[len(self.graph.commits) + 1] = (e.dropped, self.rows(e))
        self.graph.change(e)
        self.place += 9 + len(body(e))

    def table(self, c):
        t = []
        for n in self.graph.path(c):
            t = after(self.changes[n], t)
        return t

    def head_table(self):
        return self.table(self.graph.head[0])


def after(change, t):
    dropped, stored = change
    return sorted([r for r in t if r[0] not in dropped] + stored, key=lambda r: r[0][0].encode())


def table_fits(t, change):
    """None, or what the change breaks."""
    dropped, stored = change
    if any(g not in [r[0] for r in t] for g in dropped):
        return "dropped"
    names = [x for r in after(change, t) for x in r[0]]
    if len(set(names)) < len(names):
        return "apart"
    return "small" if sum(r[3] for r in after(change, t)) > 2**28 else None


def row_term(r):
    return f"(record {{ group = {group_term(r[0])}; version = {r[1]}; place = {r[2]}; len = {r[3]} }})"


def table_term(rows):
    return listing([row_term(r) for r in rows])


def change_term(change):
    return f"(record {{ dropped = {groups_term(change[0])}; stored = {table_term(change[1])} }})"


def history_term(s):
    changes = listing([change_term(s.changes[c]) for c in sorted(s.changes, reverse=True)])
    return f"record {{ graph = {s.graph.term()}; changes = {changes}; place = {s.place} }}"
