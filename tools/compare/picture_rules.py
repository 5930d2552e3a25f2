"""Pictures of names in a namespace of CPython's, written and read a second time: by docs/PICTURES.md and docs/LANGUAGE.md, and by
nothing of the program."""
import re

import python_cells
from bound_rules import FUNCTION, NODES, OBJECT, held_by, met

MOST_CODE = 1_048_576
BUILTINS = "abs all any chr divmod isinstance len max min ord print repr sorted sum".split()
CLASSES = (
    "bool dict int list range SimpleNamespace str tuple Exception ArithmeticError OverflowError ZeroDivisionError AssertionError "
    "AttributeError LookupError IndexError KeyError NameError UnboundLocalError RuntimeError NotImplementedError RecursionError "
    "SyntaxError TypeError ValueError"
).split()
FIRST_EXCEPTION = CLASSES.index("Exception")
NUMBERS = {id(python_cells.BUILTINS[name]): bytes([6, number]) for number, name in enumerate(BUILTINS)} | {
    id(python_cells.BUILTINS[name]): bytes([7, number]) for number, name in enumerate(CLASSES)
}
PLAIN = (type(None), bool, int, str)


class NoPicture(Exception):
    """The bytes are no picture: the place of the first fault."""


# Writing.


def in_four(number):
    return number.to_bytes(4, "big")


def name_bytes(name):
    return bytes([len(name)]) + name.encode()


def integer(number):
    return number.to_bytes(16, "big", signed=True)


def text_bytes(text):
    data = text.encode()
    return in_four(len(data)) + data


def value_bytes(value, numbers):
    if value is None or isinstance(value, bool):
        return bytes([0 if value is None else 1 + value])
    if isinstance(value, int):
        return b"\x03" + integer(value)
    if isinstance(value, str):
        return b"\x04" + text_bytes(value)
    if isinstance(value, range):
        return b"\x05" + integer(value.start) + integer(value.stop) + integer(value.step)
    if isinstance(value, NODES):
        return b"\x08" + in_four(numbers[id(value)])
    return NUMBERS[id(value)]


def key_bytes(key):
    if isinstance(key, tuple):
        return b"\x09" + in_four(len(key)) + b"".join(value_bytes(part, {}) for part in key)
    return value_bytes(key, {})


def row_bytes(node, numbers):
    values = [value_bytes(value, numbers) for value in held_by(node)]
    count, joined = in_four(len(values)), b"".join(values)
    if isinstance(node, dict):
        return b"\x03" + count + b"".join(key_bytes(key) + value for key, value in zip(node, values))
    if isinstance(node, OBJECT):
        return b"\x04" + count + b"".join(name_bytes(name) + value for name, value in zip(vars(node), values))
    if isinstance(node, FUNCTION):
        if vars(node):
            raise python_cells.Unlike("a function that has attributes")
        return b"\x05\x01" + text_bytes(python_cells.code_of(node)) + count + joined
    if isinstance(node, BaseException):
        return b"\x06" + bytes([CLASSES.index(type(node).__name__)]) + count + joined
    return (b"\x01" if isinstance(node, list) else b"\x02") + count + joined


def references(space, names, nodes):
    """The values that names and nodes hold."""
    yield from (space[name] for name in names)
    for node in nodes:
        yield from held_by(node)


def is_constant(value):
    """Whether a value is made of plain ones alone, however deep: CPython may keep one such tuple where the language makes another."""
    return all(map(is_constant, value)) if isinstance(value, tuple) else not isinstance(value, NODES)


def single_constants(space, names, nodes):
    """Whether each tuple of plain values is held once."""
    held = [id(value) for value in references(space, names, nodes) if isinstance(value, tuple) and is_constant(value)]
    return len(held) == len(set(held))


def expect_single_constants(space, names):
    """Unlike: a tuple of plain values is held twice by what these names reach, so CPython may have made one where the language makes two."""
    if not single_constants(space, names, met([space[name] for name in names])):
        raise python_cells.Unlike("a tuple that is held twice may be two")


def picture(space, names):
    """The picture of these names, which stand in byte order."""
    expect_single_constants(space, names)
    nodes = met([space[name] for name in names])
    numbers = {id(node): number for number, node in enumerate(nodes)}
    named = b"".join(name_bytes(name) + value_bytes(space[name], numbers) for name in names)
    return in_four(len(names)) + named + in_four(len(nodes)) + b"".join(row_bytes(node, numbers) for node in nodes)


# Reading.


class Node:
    """A node that was met, and is made when its row is read."""

    def __init__(self):
        self.value = None


class Reader:
    """Takes fields from the front of some bytes, for a namespace. NoPicture: one breaks its rule."""

    def __init__(self, data, space):
        self.data, self.space, self.at, self.nodes, self.most = data, space, 0, [], None

    def take(self, count):
        if self.at + count > len(self.data):
            raise NoPicture(self.at)
        self.at += count
        return self.data[self.at - count : self.at]

    def field(self, size, holds, signed=False):
        """A number in so many bytes, of which this holds."""
        at = self.at
        number = int.from_bytes(self.take(size), "big", signed=signed)
        if not holds(number):
            raise NoPicture(at)
        return number

    def number(self, size=4):
        return self.field(size, lambda number: True)

    def text(self, length):
        at = self.at
        try:
            return self.take(length).decode("utf-8")
        except UnicodeDecodeError:
            raise NoPicture(at) from None

    def identifier(self, holds):
        """A name, and where its length stands."""
        start = self.at
        length = self.field(1, lambda number: number > 0)
        at = self.at
        data = self.take(length)
        if not re.fullmatch(rb"[A-Za-z_][A-Za-z0-9_]*", data) or data.decode() in python_cells.RESERVED or not holds(data):
            raise NoPicture(at)
        return data.decode(), start

    def node(self):
        below = len(self.nodes) + 1 if self.most is None else min(len(self.nodes) + 1, self.most)
        number = self.field(4, lambda number: number < below)
        if number == len(self.nodes):
            self.nodes.append(Node())
        return self.nodes[number]

    def plain(self, kind):
        if kind < 3:
            return (None, False, True)[kind]
        return self.field(16, lambda number: True, signed=True) if kind == 3 else self.text(self.number())

    def value(self):
        """A value, in which a node stands for what is made of its row."""
        kind = self.field(1, lambda kind: kind <= 8)
        if kind <= 4:
            return self.plain(kind)
        if kind == 5:
            start, stop = (self.field(16, lambda number: True, signed=True) for _ in range(2))
            return range(start, stop, self.field(16, lambda step: step != 0, signed=True))
        if kind == 8:
            return self.node()
        names = BUILTINS if kind == 6 else CLASSES
        return python_cells.BUILTINS[names[self.field(1, lambda number: number < len(names))]]

    def values(self):
        return [self.value() for _ in range(self.number())]

    def key(self):
        kind = self.field(1, lambda kind: kind <= 4 or kind == 9)
        if kind <= 4:
            return self.plain(kind)
        return tuple(self.plain(self.field(1, lambda kind: kind <= 4)) for _ in range(self.number()))

    def entries(self):
        found = {}
        for _ in range(self.number()):
            at = self.at
            key = self.key()
            if key in found:
                raise NoPicture(at)
            found[key] = self.value()
        return found

    def attributes(self):
        found = {}
        for _ in range(self.number()):
            name, at = self.identifier(lambda data: True)
            if name in found:
                raise NoPicture(at)
            found[name] = self.value()
        return found

    def function(self):
        self.field(1, lambda profile: profile == 1)
        length = self.field(4, lambda length: length <= MOST_CODE)
        at = self.at
        code = self.text(length)
        made = python_cells.function_of(code, self.space)
        if made is None:
            raise NoPicture(at)
        count = self.field(4, lambda count: count == len(made.__defaults__ or ()))
        return made, [self.value() for _ in range(count)]

    def row(self, number):
        """What a row tells: its kind, and what the node is made of."""
        if number >= len(self.nodes):
            raise NoPicture(self.at)
        kind = self.field(1, lambda kind: 1 <= kind <= 6)
        if kind == 6:
            made = self.field(1, lambda number: FIRST_EXCEPTION <= number < len(CLASSES))
            return kind, (made, self.values())
        return kind, (self.values, self.values, self.entries, self.attributes, self.function)[kind - 1]()

    def read(self):
        """The names with their values, and the rows."""
        bound, last = {}, [b""]
        for _ in range(self.number()):
            name, _ = self.identifier(lambda data: data > last[0])
            last[0] = name.encode()
            bound[name] = self.value()
        self.most = self.field(4, lambda number: number >= len(self.nodes))
        rows = [self.row(number) for number in range(self.most)]
        if self.at != len(self.data):
            raise NoPicture(self.at)
        return bound, rows


def real(value):
    """A value, with what was made in place of a node."""
    return value.value if isinstance(value, Node) else value


def begin(node, kind, held):
    """Makes what holds others and can be changed; what can't, is made once all it holds is there."""
    if kind == 1:
        node.value = []
    elif kind == 3:
        node.value = {}
    elif kind == 4:
        node.value = OBJECT()
    elif kind == 5:
        node.value = held[0]
    elif kind == 6:
        node.value = python_cells.BUILTINS[CLASSES[held[0]]]()


def tuples(nodes, rows):
    """Makes the tuples, those first that others hold. A tuple that holds itself through tuples alone is known to no language."""
    left = [number for number, (kind, _) in enumerate(rows) if kind == 2]
    while left:
        later = []
        for number in left:
            values = rows[number][1]
            if any(isinstance(value, Node) and value.value is None for value in values):
                later.append(number)
            else:
                nodes[number].value = tuple(map(real, values))
        if len(later) == len(left):
            raise python_cells.Unlike("a tuple that holds itself")
        left = later


def fill(node, kind, held):
    if kind == 1:
        node.value.extend(map(real, held))
    elif kind == 3:
        node.value.update((key, real(value)) for key, value in held.items())
    elif kind == 4:
        vars(node.value).update((name, real(value)) for name, value in held.items())
    elif kind == 5 and held[1]:
        node.value.__defaults__ = tuple(map(real, held[1]))
    elif kind == 6:
        node.value.args = tuple(map(real, held[1]))


def load(data, space):
    """Binds the names of a picture in a namespace, and answers them. NoPicture: the bytes are none."""
    reader = Reader(data, space)
    bound, rows = reader.read()
    for node, (kind, held) in zip(reader.nodes, rows):
        begin(node, kind, held)
    tuples(reader.nodes, rows)
    for node, (kind, held) in zip(reader.nodes, rows):
        fill(node, kind, held)
    space.update((name, real(value)) for name, value in bound.items())
    return list(bound)
