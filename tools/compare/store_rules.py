"""The rules of a store's bytes and of the graph in them, read a second time: by docs/STORE.md, docs/LINES.md and docs/RULES.md, and
by nothing of the program. Scripts that compare, and scripts that make stores to be timed, take them from here."""
import collections
import keyword
import re

HEADER = b"KISHU-JOURNAL-1\n"
OPEN, CLOSED = b"\xa5", b"\0"
LONGEST_CELL = 1_048_576
LONGEST_BODY = 2**30
MOST_RECORDS = 1_000_000
MOST_PICTURED = 2**28


class NotAJournal(Exception):
    """The file is longer than a header and a gate, and has another header."""


class Damaged(Exception):
    """No record that fits stands behind the open gate at the place that is the argument."""


class NoFit(Exception):
    """The bytes are no record's body, or the record doesn't fit the graph."""


# Bytes of records.


def in_four(number):
    return number.to_bytes(4, "big")


def in_eight(number):
    return number.to_bytes(8, "big")


def body_of(head):
    return in_four(len(head)) + head


def group_bytes(names):
    return in_four(len(names)) + b"".join(bytes([len(name)]) + name.encode() for name in names)


def commit_body(parent, texts, dropped=(), stored=()):
    """A commit of cells, given as bytes, of groups that it drops, and of groups that it stores, each with its picture."""
    cells = b"".join(in_four(len(text)) + text for text in texts)
    without = in_four(len(dropped)) + b"".join(map(group_bytes, dropped))
    behind = in_four(len(stored)) + b"".join(group_bytes(names) + in_eight(len(picture)) for names, picture in stored)
    head = b"\x01" + in_four(parent) + b"\x01" + in_four(len(texts)) + cells + without + behind
    return body_of(head) + b"".join(picture for _, picture in stored)


def move_to_commit_body(commit):
    return body_of(b"\x02\x00" + in_four(commit))


def move_to_branch_body(title):
    return body_of(b"\x02\x01" + bytes([len(title)]) + title.encode())


def name_body(title, commit):
    return body_of(b"\x03" + bytes([len(title)]) + title.encode() + in_four(commit))


def record(body):
    """A record, with the open gate before it."""
    return OPEN + in_eight(len(body)) + body


def store_of(bodies):
    return HEADER + b"".join(record(body) for body in bodies) + CLOSED


# Reading them.


class Fields:
    """Takes fields from the front of some bytes. NoFit: they end before."""

    def __init__(self, data, at=0):
        self.data, self.at = data, at

    def take(self, count):
        if self.at + count > len(self.data):
            raise NoFit
        self.at += count
        return self.data[self.at - count : self.at]

    def number(self, size):
        return int.from_bytes(self.take(size), "big")

    def text(self, length):
        try:
            return self.take(length).decode("utf-8")
        except UnicodeDecodeError:
            raise NoFit from None

    def expect(self, holds):
        if not holds:
            raise NoFit


# A group of a commit's table: the commit that stored it, and where its picture lies in the file.
Row = collections.namedtuple("Row", "names version place length")


def entry_of(body):
    """What a body records: ("commit", parent, texts, dropped groups, stored groups with the places of their pictures in the body and
    their lengths), ("move", a commit's number or a branch), or ("name", branch, commit)."""
    fields = Fields(body)
    head = fields.number(4)
    kind = fields.number(1)
    if kind == 1:
        parent, texts, dropped, groups = fields.number(4), texts_of(fields), dropped_of(fields), stored_of(fields)
        entry = ("commit", parent, texts, dropped, placed(groups, fields.at))
        fields.take(sum(length for _, length in groups))
    elif kind == 2:
        entry = ("move", place_of(fields))
    else:
        fields.expect(kind == 3)
        entry = ("name", fields.text(fields.number(1)), fields.number(4))
    pictures = sum(length for _, _, length in entry[4]) if kind == 1 else 0
    fields.expect(fields.at == len(body) and head == len(body) - 4 - pictures)
    return entry


def texts_of(fields):
    fields.expect(fields.number(1) == 1)
    count = fields.number(4)
    fields.expect(count > 0)
    texts = []
    for _ in range(count):
        length = fields.number(4)
        fields.expect(length <= LONGEST_CELL)
        texts.append(fields.text(length))
    return texts


def is_identifier(name):
    return re.fullmatch("[A-Za-z_][A-Za-z0-9_]*", name) is not None and name not in keyword.kwlist


def group_of(fields):
    names = []
    for _ in range(fields.number(4)):
        names.append(fields.text(fields.number(1)))
        fields.expect(is_identifier(names[-1]))
    fields.expect(names != [] and all(a < b for a, b in zip(names, names[1:])))
    return tuple(names)


def in_order(fields, groups):
    """The groups, which have to stand in the order of their first names."""
    fields.expect(all(a[0] < b[0] for a, b in zip(groups, groups[1:])))
    return groups


def dropped_of(fields):
    return in_order(fields, [group_of(fields) for _ in range(fields.number(4))])


def stored_of(fields):
    """Groups with the lengths of their pictures."""
    stored = [(group_of(fields), fields.number(8)) for _ in range(fields.number(4))]
    in_order(fields, [names for names, _ in stored])
    return stored


def placed(groups, at):
    """Groups with the places of their pictures, which lie one behind another, and the lengths."""
    found = []
    for names, length in groups:
        found.append((names, at, length))
        at += length
    return found


def place_of(fields):
    kind = fields.number(1)
    fields.expect(kind < 2)
    return fields.text(fields.number(1)) if kind else fields.number(4)


# The graph.


def is_branch_name(name):
    return re.fullmatch(r"[A-Za-z_][A-Za-z0-9_-]{0,63}", name) is not None


class Graph:
    """The commits with their tables, the branches and the head that a store's records give."""

    def __init__(self):
        self.parents, self.cells, self.tables = [0], [[]], [[]]
        self.dropped, self.stored = [[]], [[]]  # the groups of each commit's record
        self.branches, self.branch, self.commit = {"main": 0}, "main", 0
        self.records = 0

    def resolve(self, reference):
        """The commit that a reference names, and the branch where it names one. None: it names nothing."""
        if re.fullmatch(r"0|[1-9][0-9]*", reference):
            return (int(reference), None) if int(reference) < len(self.parents) else None
        return (self.branches[reference], reference) if reference in self.branches else None

    def path(self, commit):
        """The numbers of the commits from the first to this one, without the root."""
        numbers = []
        while commit:
            numbers.append(commit)
            commit = self.parents[commit]
        return numbers[::-1]

    def count(self, commit):
        """The number of cells on the path of a commit."""
        return sum(len(self.cells[number]) for number in self.path(commit))

    def add(self, entry, place=0):
        """Adds what a record says whose body stands at this place. NoFit: it doesn't fit."""
        if self.records >= MOST_RECORDS:
            raise NoFit
        if entry[0] == "commit":
            self.add_commit(place, *entry[1:])
        else:
            {"move": self.add_move, "name": self.add_name}[entry[0]](*entry[1:])
        self.records += 1

    def table_after(self, dropped, rows):
        """The head's table without some groups and with more rows. NoFit: one that is to go isn't there, or they don't go together."""
        table, gone = self.tables[self.commit], set(dropped)
        if not {row.names for row in table}.issuperset(gone):
            raise NoFit
        table = sorted([row for row in table if row.names not in gone] + rows)
        names = [name for row in table for name in row.names]
        if len(names) != len(set(names)) or sum(row.length for row in table) > MOST_PICTURED:
            raise NoFit
        return table

    def add_commit(self, place, parent, texts, dropped, stored):
        if parent != self.commit:
            raise NoFit
        rows = [Row(names, len(self.parents), place + at, length) for names, at, length in stored]
        self.tables.append(self.table_after(dropped, rows))
        self.dropped.append(dropped)
        self.stored.append([row.names for row in rows])
        self.parents.append(parent)
        self.cells.append(texts)
        self.commit = len(self.parents) - 1
        if self.branch is not None:
            self.branches[self.branch] = self.commit

    def add_move(self, place):
        if isinstance(place, int):
            if place >= len(self.parents):
                raise NoFit
            self.commit, self.branch = place, None
        else:
            if place not in self.branches:
                raise NoFit
            self.commit, self.branch = self.branches[place], place

    def add_name(self, title, commit):
        if not is_branch_name(title) or title in self.branches or commit >= len(self.parents):
            raise NoFit
        self.branches[title] = commit


def bodies_in(file):
    """The bodies of a longer file's records in order, and the place of the closed gate at which they end; its graph."""
    graph, bodies, at = Graph(), [], len(HEADER)
    while file[at : at + 1] == OPEN:
        fields = Fields(file, at + 1)
        try:
            length = fields.number(8)
            fields.expect(length <= LONGEST_BODY)
            body = fields.take(length)
            fields.expect(fields.at < len(file))
            graph.add(entry_of(body), fields.at - length)
        except NoFit:
            raise Damaged(at) from None
        bodies.append(body)
        at = fields.at
    return bodies, at, graph


def opened(file):
    """The file as opening leaves it, the place of the closed gate at which its records end, and its graph. None is no file."""
    if file is None or len(file) <= len(HEADER) + 1:
        return HEADER + CLOSED, len(HEADER), Graph()
    if not file.startswith(HEADER):
        raise NotAJournal
    _, at, graph = bodies_in(file)
    return file, at, graph


def appended(file, at, body):
    """The file with a record behind the closed gate at a place, and the place of the next gate."""
    new = record(body) + CLOSED
    return file[:at] + new + file[at + len(new) :], at + len(new) - 1
