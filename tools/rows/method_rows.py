#!/usr/bin/env python3
"""Prints the table that kishu_methods' tests of all methods hold, of the rows of tools/rows/values.py.

    python3 tools/rows/method_rows.py > crates/kishu_value_tests/src/methods/table.rt

What a call answers and what it leaves is asked of CPython, but for the rows that are marked there as
this language's own. The steps are counted there. Rows whose values lie deeper than two levels, or
share nodes, have no line here.
"""

import values
from nodes import Heap, Spent
from rust_text import escaped
from values import Raised, Run, python_refuses, rule


# ---- how a value is written in the table

def part(v):
    """A value that is no node."""
    if v is None or isinstance(v, int):
        return str(v)
    if isinstance(v, str):
        assert not set(v) & set("|;~="), v
        return "'" + v
    raise NotImplementedError(v)


def item(v):
    if isinstance(v, range):
        return f"range~{v.start}~{v.stop}~{v.step}"
    if isinstance(v, dict):
        return "dict" + "".join(f"~{part(k)}={part(w)}" for k, w in v.items())
    if isinstance(v, (list, tuple)):
        return type(v).__name__ + "".join("~" + part(w) for w in v)
    return part(v)


def receiver(v):
    if isinstance(v, str):
        return part(v)
    items = [f"{item(k)}={item(w)}" for k, w in v.items()] if isinstance(v, dict) else [item(w) for w in v]
    return "".join(w + ";" for w in [type(v).__name__] + items)


def argument(v, a):
    return "itself" if a is v and isinstance(v, (list, dict)) else item(a)


def rust(t):
    return escaped(t, lambda c: " " <= c <= "~")


# ---- how a value is told

def told(v):
    if isinstance(v, str):
        return f"'{v}'"
    return "node" if isinstance(v, (list, tuple, dict)) else str(v)


def told_key(k):
    return "(" + "".join(told(p) + "," for p in k) + ")" if isinstance(k, tuple) else told(k)


def shown(v):
    if isinstance(v, dict):
        return "{" + "".join(f"{told_key(k)}: {told(w)}," for k, w in v.items()) + "}"
    if isinstance(v, (list, tuple)):
        marks = "[]" if isinstance(v, list) else "()"
        return marks[0] + "".join(told(w) + "," for w in v) + marks[1]
    return told(v)


# ---- the rows

def answer(v, name, args, left, own, own_answer):
    """What the call gives and the steps that it takes."""
    run = Run(Heap(), left, 0)
    try:
        rule(run, v, name, args)
    except Raised as r:
        assert own or python_refuses(v, name, args, r), (v, name, args, r)
        text = f"({told_key(r.argument)})" if r.kind == "KeyError" else f": {r.argument}"
        return r.kind + text, left - run.left
    except Spent:
        return "spent", left
    given = getattr(v, name)(*args) if own_answer is None else own_answer
    return shown(given), left - run.left


def shares(v, args):
    nodes = (list, tuple, dict)
    inside = [id(w) for w in (v.values() if isinstance(v, dict) else v) if isinstance(w, nodes)]
    return len(set(inside)) < len(inside) or any(id(a) in inside for a in args)


LINES = []


def add_row(v, name, *args, left=100, depth=0, own=False, own_answer=None):
    try:
        if depth or shares(v, args):
            return
        begin = [receiver(v), name, "".join(argument(v, a) + ";" for a in args), str(left)]
    except NotImplementedError:
        return
    given, steps = answer(v, name, args, left, own, own_answer)
    LINES.append("|".join(begin) + "\x1d" + "|".join([given, str(steps), shown(v)]))


def main():
    values.call_row = add_row
    for rows in (values.list_rows, values.tuple_rows, values.dict_rows, values.text_rows):
        rows()
    print("// Printed by tools/rows/method_rows.py, from what CPython answers.")
    print()
    print("/// A value, a method, its arguments and the budget; and what the call gives, the steps that it takes")
    print("/// and the value then.")
    print('pub(crate) const ROWS: &str = "\\')
    for line in LINES:
        print("    " + rust(line) + "\\x1e\\")
    print('";')
    print()
    print(f"pub(crate) const COUNT: usize = {len(LINES)};")


if __name__ == "__main__":
    main()
