"""What is bound in a namespace of CPython's, and how many bytes it takes, read a second time: by docs/LINES.md and docs/PICTURES.md, and
by nothing of the program."""
import types

import python_cells

MOST_BYTES = 2**28
OBJECT, FUNCTION = types.SimpleNamespace, types.FunctionType
NODES = (list, tuple, dict, OBJECT, FUNCTION, BaseException)
NUMBER, INTEGER = 4, 16


def held_by(node):
    """The values that a node holds, in order."""
    if isinstance(node, (list, tuple)):
        return list(node)
    if isinstance(node, dict):
        return list(node.values())
    if isinstance(node, OBJECT):
        return list(vars(node).values())
    if isinstance(node, FUNCTION):
        return list(node.__defaults__ or ())
    return python_cells.arguments(node)


def met(values):
    """The nodes that values reach, in the order of first meeting."""
    found, seen = [], set()

    def note(values):
        for value in values:
            if isinstance(value, NODES) and id(value) not in seen:
                seen.add(id(value))
                found.append(value)

    note(values)
    for node in found:
        note(held_by(node))
    return found


# The answer to `inspect`.


def text_of(value):
    return python_cells.plain(repr(value))


def inspected(space):
    """The text of each name's value, and the rows of the nodes."""
    names = python_cells.names_in(space)
    nodes = met([space[name] for name in names])
    numbers = {id(node): number for number, node in enumerate(nodes)}

    def told(value):
        return f"#{numbers[id(value)]}" if isinstance(value, NODES) else text_of(value)

    def row(node):
        values = [told(value) for value in held_by(node)]
        if isinstance(node, dict):
            return ["dict", *(part for key, value in zip(node, values) for part in (text_of(key), value))]
        if isinstance(node, OBJECT):
            return ["object", *(part for name, value in zip(vars(node), values) for part in (name, value))]
        if isinstance(node, FUNCTION):
            return ["function", "1", python_cells.code_of(node), *values]
        if isinstance(node, BaseException):
            return ["exception", type(node).__name__, *values]
        return [type(node).__name__, *values]

    return {name: told(space[name]) for name in names}, [row(node) for node in nodes]


# The bytes of pictures.


def text_size(text):
    return NUMBER + len(text.encode())


def value_size(value):
    """The bytes of a value, or of a key that is no tuple."""
    if value is None or isinstance(value, bool):
        return 1
    if isinstance(value, int):
        return 1 + INTEGER
    if isinstance(value, str):
        return 1 + text_size(value)
    if isinstance(value, range):
        return 1 + 3 * INTEGER
    return 1 + NUMBER if isinstance(value, NODES) else 2


def key_size(key):
    return 1 + NUMBER + sum(map(value_size, key)) if isinstance(key, tuple) else value_size(key)


def row_size(node):
    size = 1 + NUMBER + sum(map(value_size, held_by(node)))
    if isinstance(node, dict):
        return size + sum(map(key_size, node))
    if isinstance(node, OBJECT):
        return size + sum(1 + len(name) for name in vars(node))
    if isinstance(node, FUNCTION):
        return size + 1 + text_size(python_cells.code_of(node))
    return size + isinstance(node, BaseException)


def groups(space):
    """The names that share nodes, directly or by others, together."""
    found = []
    for name in python_cells.names_in(space):
        nodes = {id(node) for node in met([space[name]])}
        joined = [group for group in found if group[1] & nodes]
        found = [group for group in found if not group[1] & nodes]
        found.append((sum((group[0] for group in joined), []) + [name], nodes.union(*(group[1] for group in joined))))
    return [sorted(names) for names, _ in found]


def picture_size(space, names):
    values = [space[name] for name in names]
    named = sum(1 + len(name) + value_size(value) for name, value in zip(names, values))
    return 2 * NUMBER + named + sum(map(row_size, met(values)))

