"""Bytes that are opened as stores, the words and lines that are asked of them, and what comes of it by session_rules.py."""
import functools
import json

import mutations
import older_stores
import picture_inputs
import picture_rules
import python_cells
import session_rules
from store_rules import CLOSED, HEADER, OPEN, Damaged, NoFit, NotAJournal, bodies_in, body_of, commit_body, entry_of, in_eight, in_four, opened, record

STORIES = [
    [("cell", "a = [1]; b = a"), ("cell", "b.append(2)"), ("checkout", "1"), ("cell", "print(a, a is b)")],
    [("cell", "x = [1]; y = [x]; z = [2]"), ("cell", "y = 0"), ("branch", "try"), ("checkout", "1"), ("cell", "z.append(x)"), ("checkout", "try")],
    [("cell", "a = []"), ("cell", "a.append(a)"), ("checkout", "0"), ("checkout", "main"), ("cell", "print(a, a[0] is a)")],
    [("cell", "def g(x, acc=[]): acc.append(x); return acc"), ("cell", "p = g(1)"), ("cell", "p = 0"), ("checkout", "2"), ("cell", "print(g(2) is p)")],
    [("cells", ["a = 1", "b = 'text'", "c = {'k': [a], (1, 'x'): None}", "1 // 0"]), ("branch", "old"), ("cell", "del a"), ("checkout", "old")],
    [("cell", "x = SimpleNamespace(a=1); y = [x, x]; z = len"), ("cell", "x.a = range(1, 9, 3)"), ("cell", "try: x.b\nexcept AttributeError as e: w = e")],
    [("cell", "x = = 1"), ("cell", ""), ("branch", "B"), ("cell", "x = None"), ("checkout", "0"), ("cell", "x = True"), ("checkout", "B"), ("branch", "b-2")],
    [], [("branch", "only")], [("cell", "print(1 + 2)")],
]
ASKED = ["a", "x", "print(x)", "b = 1", "z = y", "p", "a = [1]; b = a", "x.append(7)", "y", "del x"]
KNOWN = frozenset([*ASKED, *(text for story in STORIES for _, part in story for text in ([part] if isinstance(part, str) else part))])
MARKERS = [body_of(b"\x04\x02"), body_of(b"\x04"), body_of(b"\x05\x01"), body_of(b""), b"", in_four(0), body_of(b"\x02\x00" + in_four(0))]


def requests_of(story):
    keys = {"cell": "text", "cells": "texts", "checkout": "to", "branch": "name"}
    return [{"op": kind, keys[kind]: part} for kind, part in story]


@functools.cache
def stores():
    """Good stores, and older ones, each as the bodies of its records."""
    files = []
    for story in STORIES:
        session = session_rules.Session(b"")
        for request in requests_of(story):
            session.told(request)
        files.append(session.file)
    files += [older_stores.whole_store("a = [1]; b = 2", "b = 3"), older_stores.whole_store("x = []; y = x")]
    return [tuple(bodies_in(file)[0]) for file in files]


# Changes of one record, after which its lengths are right again.


def groups_of(body):
    """A commit's body: the parts of its entry, and its pictures."""
    _, parent, texts, dropped, stored = entry_of(body)
    return parent, texts, list(dropped), [(names, body[at : at + length]) for names, at, length in stored]


def with_picture(rng, body):
    """A commit with one of its pictures changed, and the lengths mended."""
    parent, texts, dropped, stored = groups_of(body)
    if not stored:
        return with_head(rng, body)
    at = rng.randrange(len(stored))
    names, picture = stored[at]
    fields = picture_inputs.Placed(picture, python_cells.empty_space())
    fields.read()
    new = rng.choice([
        *[lambda: picture_inputs.with_field(rng, picture, fields.fields)] * 3, lambda: picture_inputs.with_fields(rng, picture, fields.fields),
        *[lambda: other_picture(rng, names, picture, fields.fields)] * 6,
        lambda: mutations.changed(rng, picture), lambda: rng.choice(picture_inputs.pictures())[0], lambda: picture + CLOSED, lambda: picture[:-1], lambda: b"",
    ])()
    stored[at] = (names, new)
    return commit_body(parent, [text.encode() for text in texts], dropped, stored)


def other_picture(rng, names, picture, fields):
    """A picture of the same names, of another state for the most part."""
    for _ in range(20):
        new = picture_inputs.with_field(rng, picture, fields)
        try:
            space = python_cells.empty_space()
            if tuple(picture_rules.Reader(new, space).read()[0]) == names and new != picture:
                return new
        except (picture_rules.NoPicture, python_cells.Unlike):
            pass
    return picture


def with_groups(rng, body):
    """A commit with other groups, and the lengths mended."""
    parent, texts, dropped, stored = groups_of(body)
    kind = rng.randrange(8)
    if kind == 0 and stored:
        stored.pop(rng.randrange(len(stored)))
    elif kind == 1 and dropped:
        dropped.pop(rng.randrange(len(dropped)))
    elif kind == 2 and stored:
        stored.insert(rng.randrange(len(stored) + 1), rng.choice(stored))
    elif kind == 3 and stored:
        at = rng.randrange(len(stored))
        stored[at] = (rng.choice([("a",), ("x", "y"), ("q",), ("y", "x"), (), ("if",), ("a", "a"), ("\u00fc",)]), stored[at][1])
    elif kind == 4:
        dropped.insert(0, rng.choice([("a",), ("a", "b"), ("x", "y"), ("nothing",), ()]))
    elif kind == 5 and len(stored) > 1:
        stored.reverse()
    elif kind == 6:
        parent = rng.choice([0, 1, 2, 3, 2**32 - 1, parent + 1])
    else:
        texts = rng.choice([[], texts * 2, ["a"], [*texts, "# " + "\u00fc" * 9]])
    return commit_body(parent, [text.encode() for text in texts], dropped, stored)


def with_head(rng, body):
    """A record whose head was changed, with its length mended now and then, and bytes behind it that stay."""
    length = int.from_bytes(body[:4], "big")
    head, rest = body[4 : 4 + length], body[4 + length :]
    new = mutations.changed(rng, head)
    return in_four(len(new) if rng.random() < 0.8 else length) + new + rest


def with_lengths(rng, body):
    """A commit whose pictures' lengths say something else than what stands there."""
    parent, texts, dropped, stored = groups_of(body)
    if not stored:
        return with_head(rng, body)
    head = in_four(0) + commit_body(parent, [text.encode() for text in texts], dropped, [])[4:-4] + in_four(len(stored))
    shift = rng.choice([1, -1, 2**31, 2**63, 1])
    for at, (names, picture) in enumerate(stored):
        length = len(picture) + (shift if at == 0 else -shift if at == 1 and rng.random() < 0.5 else 0)
        head += in_four(len(names)) + b"".join(bytes([len(name)]) + name.encode() for name in names) + in_eight(length % 2**64)
    return in_four(len(head) - 4) + head[4:] + b"".join(picture for _, picture in stored)


def changed_body(rng, body):
    if body[4:5] == b"\x01":
        return rng.choice([*[with_picture] * 8, with_groups, with_groups, with_head, with_lengths])(rng, body)
    return with_head(rng, body)


def framed(rng, body):
    """A record, whose length is wrong now and then."""
    if rng.random() < 0.97:
        return record(body)
    return OPEN + mutations.changed_number(rng, len(body), 8) + body


def with_records(rng, bodies):
    """A store with some records changed, moved, left out, doubled or put in."""
    bodies = list(bodies)
    for _ in range(rng.choice([1, 1, 1, 2])):
        at = rng.randrange(len(bodies) + 1)
        kind = rng.random()
        if kind < 0.7 and at < len(bodies):
            try:
                bodies[at] = changed_body(rng, bodies[at])
            except (NoFit, picture_rules.NoPicture, python_cells.Unlike, UnicodeError, ValueError):
                bodies[at] = mutations.changed(rng, bodies[at])
        elif kind < 0.76 and at < len(bodies):
            del bodies[at]
        elif kind < 0.82 and bodies:
            bodies.insert(at, rng.choice(bodies))
        elif kind < 0.86:
            bodies.insert(at, rng.choice(MARKERS))
        elif kind < 0.9:
            bodies[at:] = rng.choice(stores())
        else:
            bodies.insert(at, rng.choice(rng.choice(stores()) or [b""]))
    file = HEADER + b"".join(framed(rng, body) for body in bodies)
    return file + rng.choice([CLOSED, CLOSED, CLOSED, CLOSED, CLOSED, b"", OPEN, b"<", CLOSED + OPEN * 100, CLOSED + mutations.changed(rng, b"left over")])


def store_input(rng):
    """A file that is a store, or hardly one."""
    bodies, kind = rng.choice(stores()), rng.random()
    if kind < 0.03:
        return HEADER + b"".join(map(record, bodies)) + CLOSED
    if kind < 0.75:
        return with_records(rng, bodies)
    file = HEADER + b"".join(map(record, bodies)) + CLOSED
    if kind < 0.78:
        return file[: rng.randrange(len(file) + 1)]
    if kind < 0.81:
        gates = [at for at in range(16, len(file)) if file[at : at + 1] == OPEN]
        return file if not gates else file[: (at := rng.choice(gates))] + bytes([rng.randrange(256)]) + file[at + 1 :]
    if kind < 0.83:
        return bytes(rng.randrange(256) for _ in range(rng.choice([0, 1, 16, 17, 18, 40])))
    return mutations.changed(rng, file)


def lines_for(rng, file):
    """The lines that are asked of a store."""
    try:
        graph = opened(file)[2]
    except (NotAJournal, Damaged):
        return [{"op": "status"}]
    places = [*map(str, range(len(graph.parents))), *graph.branches]
    rng.shuffle(places)
    lines = [{"op": "status"}, {"op": "inspect"}]
    for place in places[:4]:
        lines += [{"op": "plan", "to": place}, {"op": "stored", "of": place}, {"op": "checkout", "to": place}, {"op": "inspect"}]
    return [*lines, {"op": "cell", "text": rng.choice(ASKED)}, {"op": "log"}, {"op": "status"}]


def asked(rng, file):
    """Words and an input for a store."""
    if rng.random() < 0.9:
        return ["S", "session"], b"".join(json.dumps(line).encode() + b"\n" for line in lines_for(rng, file))
    return rng.choice([(["S", "cell"], rng.choice(ASKED).encode()), (["S", "log"], b""), (["S", "inspect"], b""), (["S", "checkout", rng.choice(["0", "1", "main"])], b"")])


def expected(words, data, file):
    """Status, its text, output and file. Unlike: a cell would be run that isn't known to be meant alike."""
    return session_rules.expected(words, data, file, KNOWN)
