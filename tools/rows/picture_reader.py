"""Which bytes are a picture, read field by field from the front, or the place of the first field that is
at fault: the rules a second time, for reading_rows.py. Of a function's code it knows those texts alone
that it is told."""

from nodes import BUILTINS, CLASSES
from states import D, E, F, L, Laid, Named, O, T

RESERVED = "False None True and as assert async await break class continue def del elif else except finally for from global if import in is lambda nonlocal not or pass raise return try while with yield".split()
LONGEST_CODE = 1048576


class Fault(Exception):
    pass


def is_identifier(bs):
    t = bs.decode("latin-1")
    return t[0] in "_abcdefghijklmnopqrstuvwxyzABCDEFGHIJKLMNOPQRSTUVWXYZ" and all(c == "_" or c.isascii() and c.isalnum() for c in t) and t not in RESERVED


def is_text(bs):
    try:
        bs.decode("utf-8")
    except UnicodeDecodeError:
        return False
    return True


class Reader:
    def __init__(self, bs, codes=()):
        self.bs, self.at, self.met, self.count = bs, 0, 0, None
        self.codes = dict(codes)
        self.fields = []
        self.refs = []

    def take(self, n, kind):
        start = self.at
        if len(self.bs) - start < n:
            raise Fault(start)
        self.at += n
        self.fields.append((start, n, kind))
        return self.bs[start:self.at], start

    def number(self, n, kind, signed=False, rule=lambda v: True):
        bs, start = self.take(n, kind)
        v = int.from_bytes(bs, "big", signed=signed)
        if not rule(v):
            raise Fault(start)
        return v

    def spelled(self):
        n = self.number(4, "length of a text")
        bs, start = self.take(n, "text")
        if not is_text(bs):
            raise Fault(start)
        return bs.decode("utf-8")

    def word(self, rule):
        n = self.number(1, "length of a name", rule=lambda v: v > 0)
        bs, start = self.take(n, "name")
        if not is_identifier(bs) or not rule(bs):
            raise Fault(start)
        return bs

    def value(self, tag=None):
        tag = self.number(1, "kind of a value", rule=lambda v: v <= 8) if tag is None else tag
        if tag <= 2:
            return (None, False, True)[tag]
        if tag == 3:
            return self.number(16, "whole number", signed=True)
        if tag == 4:
            return self.spelled()
        if tag == 5:
            a, b = (self.number(16, "whole number", signed=True) for _ in range(2))
            return range(a, b, self.number(16, "step", signed=True, rule=lambda v: v != 0))
        if tag == 6:
            return Named(BUILTINS[self.number(1, "builtin", rule=lambda v: v <= 13)])
        if tag == 7:
            return Named(CLASSES[self.number(1, "class", rule=lambda v: v <= 24)])
        i = self.number(4, "node", rule=lambda v: v <= self.met and (self.count is None or v < self.count))
        self.met = max(self.met, i + 1)
        return ("node", i)

    def part(self):
        return self.value(self.number(1, "kind of a part", rule=lambda v: v <= 4))

    def key(self):
        tag = self.number(1, "kind of a key", rule=lambda v: v <= 4 or v == 9)
        if tag == 9:
            return tuple([self.part() for _ in range(self.number(4, "number of parts"))])
        return self.value(tag)

    def values(self):
        return [self.value() for _ in range(self.number(4, "number of items"))]

    def row(self, r):
        if r >= self.met:
            raise Fault(self.at)
        tag = self.number(1, "kind of a row", rule=lambda v: 1 <= v <= 6)
        if tag in (1, 2):
            return (L if tag == 1 else T)(*self.values())
        if tag in (3, 4):
            pairs = []
            for _ in range(self.number(4, "number of entries")):
                start = self.at
                k = self.key() if tag == 3 else self.word(lambda bs: True).decode()
                if any(k == q for q, _ in pairs):
                    raise Fault(start)
                pairs.append((k, self.value()))
            return (D if tag == 3 else O)(*pairs)
        if tag == 5:
            self.number(1, "profile", rule=lambda v: v == 1)
            n = self.number(4, "length of code", rule=lambda v: v <= LONGEST_CODE)
            bs, start = self.take(n, "code")
            if not is_text(bs) or bs.decode() not in self.codes:
                raise Fault(start)
            many = self.number(4, "number of defaults", rule=lambda v: v == self.codes[bs.decode()])
            return F(bs.decode(), *[self.value() for _ in range(many)])
        kind = self.number(1, "class of an exception", rule=lambda v: 8 <= v <= 24)
        return E(CLASSES[kind], *self.values())

    def picture(self):
        names, last = {}, b""
        for _ in range(self.number(4, "number of names")):
            bs = self.word(lambda bs: bs > last)
            last = bs
            names[bs.decode()] = self.value()
        self.count = self.number(4, "number of nodes", rule=lambda v: v >= self.met)
        rows = [self.row(r) for r in range(self.count)]
        if self.at != len(self.bs):
            raise Fault(self.at)
        for n in rows:
            n.inside = [rows[v[1]] if isinstance(v, tuple) else v for v in n.inside]
        return Laid({x: rows[v[1]] if isinstance(v, tuple) else v for x, v in names.items()}, rows)


def read(bs, codes=()):
    """The state, or the place of the fault."""
    try:
        return Reader(bs, codes).picture()
    except Fault as f:
        return f.args[0]
