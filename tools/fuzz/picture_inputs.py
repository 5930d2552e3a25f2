"""Bytes that are loaded as pictures, and what comes of them by picture_rules.py."""
import functools

import code_rules
import mutations
import picture_rules
import python_cells

CELLS = [
    "x = 7", "x = -1; y = None; z = True", "x = 'text'; y = ''; z = '\u00fc\u20ac\U0001f600'", "x = [1]; y = x", "x = []; x.append(x)", "x = [[], [[]]]; y = x[1]",
    "x = {'k': [1], (1, 2): None, None: 'n', False: 0, -3: {}}; y = x['k']", "x = (1, [2], (3,)); y = x[1]", "x = range(1, 9, 2); y = range(-5); z = len; u = ValueError",
    "def f(n, seen=[]): seen.append(n); return seen\ny = f(1)", "x = ValueError('no', [1]); y = x; z = KeyError()", "x = SimpleNamespace(a=1, b=None); x.me = x; y = [x, x]",
    "def g(a, b=1, c=()):\n    global k\n    for i in range(a):\n        if i in c: k = [b]\n    try: return b\n    except IndexError as e: raise\nk = g", "x = {}; y = [x]; x[0] = y; x['y'] = (y, y)",
    "x = [None, False, True, 0, 'a', range(3), print, int, (), {}, []]", "x = [i for i in range(40)]", "x = {('a', True, None): 1, (): 2}; y = {}", "del_ = 1; _ = 2; Z9 = [del_]",
    "def h(): pass\nx = [h, h]", "def s(t='a'): return t[0:1:2] if not t else (t, [t], {'t': t})", "x = SimpleNamespace(); y = SimpleNamespace(p=x, q=x)",
]
CODES = [
    "def f(): pass", "def f(): pass ", " def f(): pass", "def f(): pass\n", "def f(): pass;", "def f(x=1): pass", "def f(x, y=2, z=3): return x", "def f(x=1, y): pass", "pass", "", "def f(",
    "def f(): return lambda: 1", "def f():\n  return 1", "def f():\n\treturn 1", "def f(): return 1.5", "def f(): def g(): pass", "def f(): break", "def f(): raise", "def f(f): global f", "def f(): x = = 1",
    "async def f(): pass", "def f(): # c\n pass", "def f(): '\u00fc'", "def f(a, a): pass", "def if(): pass", "def f(): yield 1", "x = 1\ndef f(): pass", "def f(): pass\ndef g(): pass", "def f():\r\n pass", "def f(): 0x10",
    "def f(*a): pass", "def f(): del (a)", "def f(): del a", "def f(): a[1:2]", "def f(): a[1:2, 3]", "def f(): print(*a)", "def f(): a: int = 1", "def f(x:int): pass", "def f() -> int: pass", "def f(): ...",
    "def f(): '\\ud800'", "def f(): '\\N{DASH}'", "def f(): b''", "def f(): f'{x}'", "def f(): 1_0", "def f(): 1if x else 2", "def f(): ()= x", "def f(): (a) += 1", "def f(): import os", "def f(): from types import SimpleNamespace as S",
    "def f(): 170141183460469231731687303715884105727", "def f(): 170141183460469231731687303715884105728", "def f(): a @ b", "def f(): a if b else c", "def f(): not a == b is c", "def f(): {**a}", "def f(): {1}", "def f(): [x for x in y]",
]
NAMES = [b"a", b"b", b"_", b"x1", b"if", b"None", b"", b"1", b"a-b", b"\xc3\xbc", b"\xff", b"Z" * 255, b"self", b"print", b"zz"]
TEXTS = [b"", b"a", b"\xc3\xbc", b"\xc3", b"\xed\xa0\x80", b"\xf4\x90\x80\x80", b"\xc0\x80", b"\0", b"\xf0\x9f\x98\x80", b"text" * 9]


class Placed(picture_rules.Reader):
    """A reader that notes where each of its fields stands."""

    def __init__(self, data, space):
        super().__init__(data, space)
        self.fields = []

    def take(self, count):
        start = self.at
        taken = super().take(count)
        self.fields.append((start, count))
        return taken


@functools.cache
def pictures():
    """Good pictures, each with the places and lengths of its fields."""
    found = []
    for cell in CELLS:
        space = python_cells.empty_space()
        python_cells.run(cell, space)
        names = python_cells.names_in(space)
        groups = [names, *([name] for name in names), *(names[start:] for start in range(1, len(names)))]
        for group in [*dict.fromkeys(map(tuple, groups)), ()]:
            reader = Placed(picture_rules.picture(space, group), space)
            reader.read()
            found.append((reader.data, reader.fields))
    return found


def is_length(data, fields, number):
    """Whether a field is the length of the one behind it."""
    start, count = fields[number]
    return count in (1, 4) and number + 1 < len(fields) and int.from_bytes(data[start : start + count], "big") == fields[number + 1][1]


def with_field(rng, data, fields):
    """A field is changed, and the length before it mended where it has one."""
    number = rng.randrange(len(fields))
    start, count = fields[number]
    end = start + count
    if number and is_length(data, fields, number - 1) and rng.random() < 0.8:
        size = fields[number - 1][1]
        text = rng.choice([rng.choice(NAMES), rng.choice(TEXTS), rng.choice(CODES).encode(), *[mutations.changed(rng, data[start:end], 1)] * 3])[: 255 if size == 1 else None]
        return data[: start - size] + len(text).to_bytes(size, "big") + text + data[end:]
    if count in (1, 4, 16):
        return data[:start] + mutations.changed_number(rng, int.from_bytes(data[start:end], "big"), count) + data[end:]
    return data[:start] + mutations.changed(rng, data[start:end], 1) + data[end:]


def with_fields(rng, data, fields):
    """Some fields that stand in a row are left out, doubled, or put elsewhere."""
    first = rng.randrange(len(fields))
    last = min(len(fields) - 1, first + rng.choice([0, 0, 1, 2, 3, rng.randrange(20)]))
    start, end = fields[first][0], sum(fields[last])
    at = rng.choice(fields)[0]
    return rng.choice([data[:start] + data[end:], data[:end] + data[start:], data[:at] + data[start:end] + data[at:], data[:start] + rng.choice(pictures())[0] + data[end:]])


def picture_input(rng):
    """Bytes that are a picture, or hardly one."""
    data, fields = rng.choice(pictures())
    kind = rng.random()
    if kind < 0.02:
        return data
    if kind < 0.03:
        return bytes(rng.randrange(256) for _ in range(rng.randrange(60)))
    if kind < 0.35:
        return mutations.changed(rng, data)
    for _ in range(rng.choice([1, 1, 1, 1, 2, 2, 3])):
        data = (with_field if rng.random() < 0.8 else with_fields)(rng, data, fields)
        try:
            reader = Placed(data, python_cells.empty_space())
            reader.read()
        except (picture_rules.NoPicture, python_cells.Unlike):
            pass
        fields = reader.fields or [(0, len(data))]
        if not data:
            break
    return data


def expected(data):
    """What comes of a load: how many nodes there are then, or where the fault is. Unlike: it isn't known."""
    try:
        return 0, len(picture_rules.Reader(data, python_cells.empty_space()).read()[1])
    except picture_rules.NoPicture as fault:
        return 1, fault.args[0]


python_cells.function_of = code_rules.function_of
