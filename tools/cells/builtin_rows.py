#!/usr/bin/env python3
"""Prints the table that kishu_builtins' tests hold, of the calls in CALLS and OWN.

    python3 tools/cells/builtin_rows.py > crates/kishu_value_tests/src/builtins/table.rt

`str`, `print` and `repr` show values, so they are no calls of kishu_builtins.
A call is a name, its arguments and, behind a colon, the budget. In each heap stand three nodes: the list [3, True, 2], the tuple
(int, str) and the dict {(): 1, (1,): 2}. What a call gives and the steps that it takes come from the rules of
builtin_machine.py, which are written a second time there; CPython is asked for the answer of each of CALLS, and
must refuse what is refused there. The answers of OWN are this language's alone.
"""
import pathlib
import sys

from builtin_machine import BUILTINS, TYPES, Whole
from cell_machine import LISTED, Raised, Spent
from function_machine import CLASSES
from node_machine import CLASS, Builtin, Class, Thing

sys.path.append(str(pathlib.Path(__file__).resolve().parents[1] / "rows"))
from rust_text import escaped

LEAST, GREATEST = -(2**127), 2**127 - 1
PLENTY = 1000

# Arguments are written as the table has them: `list`, `tuple` and `dict` are the three nodes.
CALLS = [
    "abs -3", "abs True", "abs 0", "abs 'a", "abs", "abs 1;2", "abs list",
    "chr 97", "chr 0", "chr 1114111", "chr 1114112", "chr -1", "chr None", "chr", "chr True",
    "divmod -7;2", "divmod 7;-2", "divmod True;2", "divmod 1;0", "divmod 1", "divmod 'a;1",
    "len 'hé", "len '", "len list", "len tuple", "len dict", "len range~0~10~3", "len range~3~3~1", "len 5", "len None", "len",
    "ord 'a", "ord '😀", "ord 'ab", "ord '", "ord 97",
    "all list", "all range~0~5~1", "all '", "all dict", "all 5", "all tuple", "all range~1~10~1 :2",
    "any list", "any dict", "any range~0~1~1", "any '", "any None", "any list :2", "any range~0~9~1 :1",
    "sum list", "sum range~0~4~1", "sum range~5~0~-2", "sum 'a", "sum '", "sum list :2", "sum 5", "sum tuple",
    "max list", "min list", "max 1;True", "max True;1", "min 1;True", "min 'b;'a", "max '", "min", "max 1;'a", "min 1;list", "max dict", "min dict",
    "max range~0~5~1", "min 'banana", "max 5", "max dict :2", "min 3;2;1", "max list;list",
    "sorted list", "sorted 'banana", "sorted '", "sorted tuple", "sorted 1", "sorted range~3~0~-1", "sorted list :2",
    "isinstance True;class~int", "isinstance 1;class~bool", "isinstance 'a;tuple", "isinstance None;tuple", "isinstance 1;2", "isinstance 1;list",
    "isinstance dict;class~dict", "isinstance list;class~list", "isinstance tuple;class~tuple", "isinstance range~0~1~1;class~range",
    "isinstance 1", "isinstance list;class~SimpleNamespace", "isinstance None;class~Exception",
    "bool", "bool list", "bool range~3~3~1", "bool '", "bool 'x", "bool None", "bool 0", "bool 1;2",
    "dict", "dict dict", "dict 5", "dict dict;dict",
    "int", "int ' 42 ", "int '-7", "int '+7", "int 'x", "int '", "int '- 1", "int True", "int None", "int list", "int '123 :2", "int 5",
    "list", "list range~0~3~1", "list 'ab", "list 1", "list list", "list tuple", "list 'abc :2", "list 1;2",
    "range 3", "range 1;3", "range 3;1;-1", "range 1;3;0", "range", "range 1;2;3;4", "range 'a", "range True",
    "SimpleNamespace",
    "tuple", "tuple tuple", "tuple list", "tuple 'ab", "tuple range~0~2~1", "tuple 5",
    "Exception", "Exception None", "ValueError 'x;1", "ArithmeticError None", "KeyError 1", "RecursionError 'deep",
]
OWN = [
    # the bounds of numbers
    f"abs {LEAST}", f"divmod {LEAST};-1", f"len range~{LEAST}~{GREATEST}~1", f"sum range~{GREATEST}~{LEAST}~{LEAST}",
    f"int '{GREATEST + 1}", f"int '{LEAST}", f"abs {GREATEST}",
    # surrogates, classes, what takes no more arguments
    "chr 55296", "chr 57343", "dict list", "int '1_0", "int '٣", "SimpleNamespace None", "sum list;1",
    # keys are walked as new nodes
    "list dict", "tuple dict", "sorted dict",
    # more steps than there are
    "list range~0~1000000000000000000000000000000~1 :2", "tuple range~0~9~1 :3", "dict dict :1", "dict dict :2",
]


class Call(Whole):
    """A machine whose heap holds the three nodes."""

    def __init__(self, left):
        super().__init__({}, left, "")
        self.known = {**BUILTINS, **TYPES, **CLASSES, "SimpleNamespace": CLASS}
        self.nodes = [self.make("list", [3, True, 2]), self.make("tuple", [TYPES["int"], TYPES["str"]]), self.make("dict", {(): 1, (1,): 2})]

    def value(self, written):
        return self.nodes[("list", "tuple", "dict").index(written)] if written in ("list", "tuple", "dict") else plain(written, self.known)


def plain(written, classes):
    kind, _, inside = written.partition("~")
    if kind == "class":
        return classes[inside]
    if kind == "range":
        return range(*map(int, inside.split("~")))
    if written.startswith("'"):
        return written[1:]
    return {"None": None, "True": True, "False": False}[written] if written[0] in "NTF" else int(written)


def python_value(written):
    known = {"list": [3, True, 2], "tuple": (int, str), "dict": {(): 1, (1,): 2}}
    classes = dict(vars(__import__("builtins")), SimpleNamespace=__import__("types").SimpleNamespace)
    return known[written] if written in known else plain(written, classes)


# ---- how a call is told

def told_plain(v):
    if isinstance(v, str):
        return f"'{v}'"
    if isinstance(v, range):
        return f"range {v.start} {v.stop} {v.step}"
    return "builtin" if isinstance(v, Builtin) else "class" if isinstance(v, Class) else "node" if isinstance(v, Thing) else str(v)


def told(v):
    if not isinstance(v, Thing):
        return told_plain(v)
    if v.kind == "dict":
        return f"{v.number} dict of {len(v.inside)}"
    if v.kind == "SimpleNamespace":
        return f"{v.number} object"
    return f"{v.number} {v.kind} " + "".join(told_plain(w) + "," for w in v.inside)


def in_python(v):
    """The value of CPython that one of the machine is."""
    if isinstance(v, Thing):
        if v.kind in ("list", "tuple"):
            return (list if v.kind == "list" else tuple)(map(in_python, v.inside))
        if v.kind == "dict":
            return {k: in_python(w) for k, w in v.inside.items()}
        return v.kind, [in_python(w) for w in v.inside] if v.kind in CLASSES else []
    return {"int": int, "str": str}[v.name] if isinstance(v, Class) else v


def from_python(v):
    if isinstance(v, BaseException):
        return type(v).__name__, list(v.args)
    return ("SimpleNamespace", []) if type(v).__name__ == "SimpleNamespace" else v


def python_agrees(name, args, answer):
    scope = dict(vars(__import__("builtins")), SimpleNamespace=__import__("types").SimpleNamespace)
    try:
        given = scope[name](*map(python_value, args))
    except Exception as e:  # an exception of CPython must be one here, of the same class
        return isinstance(answer, Raised) and answer.kind == type(e).__name__
    if isinstance(answer, Raised):
        return False
    mine, theirs = in_python(answer), from_python(given)
    return type(mine) is type(theirs) and mine == theirs


def row(call, own):
    call, _, left = call.partition(" :")
    name, _, given = call.partition(" ")
    args, left = given.split(";") if given else [], int(left or PLENTY)
    machine = Call(left)
    try:
        answer = machine.call(machine.known[name], [machine.value(a) for a in args], [])
        given = told(answer)
    except Raised as r:
        answer, given = r, f"{r.kind}: " + "".join(map(str, r.given))
    except Spent:
        answer, given = None, "spent"
    assert own or answer is None and given == "spent" or python_agrees(name, args, answer), (call, given)
    written = [f"class~{LISTED.index(a[6:]) - LISTED.index('bool')}" if a.startswith("class~") else a for a in args]
    return "|".join([name, "".join(a + ";" for a in written), str(left)]) + "\x1d" + f"{given}|{left - machine.left}"


def main():
    lines = [row(call, False) for call in CALLS] + [row(call, True) for call in OWN]
    print("// Printed by tools/cells/builtin_rows.py, from what CPython answers.")
    print()
    print("/// A builtin function or a class, its arguments and the budget; and what the call gives, with the")
    print("/// number of a node, and the steps that it takes.")
    print('pub(crate) const ROWS: &str = "\\')
    for line in lines:
        print("    " + escaped(line, lambda c: " " <= c <= "~") + "\\x1e\\")
    print('";')
    print()
    print(f"pub(crate) const COUNT: usize = {len(lines)};")


if __name__ == "__main__":
    main()
