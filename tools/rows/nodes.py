#!/usr/bin/env python3
"""Makes the worked rows on keys, nodes and comparisons of crates/kishu_meaning_rows/proofs:
KeyExamples, NodeExamples and EqualExamples.

Whether keys are one, what a dict holds after a change, and whether values are equal or less is asked
of CPython. The steps are counted here, by the rules as they are told in words: one for each further
pair, and for two texts the code points of the shorter."""

import itertools
import pathlib
import re
from types import SimpleNamespace

TOP = pathlib.Path(__file__).resolve().parents[2]
# How imports of the definitions begin.
LANGUAGE = "use Rattle.kishu_language.specs."
MEANING = "use Rattle.kishu_meaning.specs."


# ---- how a value is written as a term

def number(n):
    return f"(pos {n})" if n >= 0 else f"(negsuc {-n - 1})"


def is_easy(t):
    """Whether a text stands between quotes as it is."""
    return t.isascii() and t.isprintable() and '"' not in t and "\\" not in t


def text(t):
    return "[]" if not t else f'(codes "{t}")' if is_easy(t) else listing([str(ord(c)) for c in t])


def listing(items):
    return "(" + " ∷ ".join(list(items) + ["[]"]) + ")" if items else "[]"


def truth(b):
    return "true" if b else "false"


def plain(v, spelled=""):
    """None, a bool, a number or a text, as a value or, spelled with `p.`, as a part of a key."""
    if v is None:
        return f"{spelled}none"
    kind, written = next(form for is_of, *form in ((bool, "bool", truth), (int, "integer", number), (str, "text", text)) if isinstance(v, is_of))
    return f"({spelled}{kind} {written(v)})"


def part(p):
    return plain(p, "p.")


def key(k):
    if isinstance(k, tuple):
        return f"(p.tuple {listing([part(p) for p in k])})"
    return f"(p.single {part(k)})"


CLASSES = (
    "bool dict int list range SimpleNamespace str tuple Exception ArithmeticError OverflowError ZeroDivisionError AssertionError AttributeError "
    "LookupError IndexError KeyError NameError UnboundLocalError RuntimeError NotImplementedError RecursionError SyntaxError TypeError ValueError"
).split()
BUILTINS = "abs all any chr divmod isinstance len max min ord print repr sorted sum".split()


class Function:
    """Stands for a function of the language: its code, and the values of its defaults."""

    def __init__(self, code, *defaults):
        self.code, self.defaults = code, defaults


class Heap:
    """The nodes that values lead to, numbered in the order of first meeting."""

    def __init__(self):
        self.seen = {}
        self.things = []

    def value(self, v):
        if v is None or isinstance(v, (bool, int, str)):
            return plain(v)
        if isinstance(v, range):
            return f"(range {number(v.start)} {number(v.stop)} {number(v.step)})"
        if isinstance(v, type(print)):
            return f"(builtin {BUILTINS.index(v.__name__)})"
        if isinstance(v, type):
            return f"(class {CLASSES.index(v.__name__)})"
        if id(v) not in self.seen:
            self.seen[id(v)] = len(self.things)
            self.things.append(v)
        return f"(node {self.seen[id(v)]})"

    def values(self, vs):
        return listing([self.value(v) for v in vs])

    def entries(self, d, named):
        return listing([f"({named(k)}, {self.value(v)})" for k, v in d.items()])

    def node(self, v):
        if isinstance(v, (list, tuple)):
            return f"{type(v).__name__} {self.values(v)}"
        if isinstance(v, dict):
            return f"dict {self.entries(v, key)}"
        if isinstance(v, SimpleNamespace):
            return f"object {self.entries(vars(v), text)}"
        if isinstance(v, Exception):
            return f"exception {CLASSES.index(type(v).__name__)} {self.values(v.args)}"
        if isinstance(v, Function):
            return f"function One {text(v.code)} {self.values(v.defaults)}"
        raise TypeError(v)

    def nodes(self):
        done = []
        while len(done) < len(self.things):
            done.append(f"({self.node(self.things[len(done)])})")
        return listing(done)


# ---- the steps

class Spent(Exception):
    pass


class Deep(Exception):
    pass


class Unordered(Exception):
    pass


PLAIN = (type(None), bool, int, str, range, type(print), type)


def is_plain(v):
    return isinstance(v, PLAIN)


def is_same(a, b):
    if is_plain(a) and is_plain(b):
        if isinstance(a, range):
            return isinstance(b, range) and (a.start, a.stop, a.step) == (b.start, b.stop, b.step)
        return type(a) is type(b) and a == b
    return a is b


class Counter:
    def __init__(self, left, depth):
        self.left = left
        self.depth = depth

    def spend(self, n):
        if n > self.left:
            raise Spent
        self.left -= n

    def texts(self, a, b):
        if isinstance(a, str) and isinstance(b, str):
            self.spend(min(len(a), len(b)))

    def inside(self, compare, a, b):
        """Compares two values that stand in nodes: two nodes are one deeper."""
        if is_plain(a) or is_plain(b):
            return compare(a, b)
        if self.depth >= 1000:
            raise Deep
        self.depth += 1
        try:
            return compare(a, b)
        finally:
            self.depth -= 1

    def pair(self, a, b):
        self.spend(1)
        if is_same(a, b):
            self.texts(a, b)
            return True
        return self.inside(self.equal, a, b)

    def equal(self, a, b):
        self.texts(a, b)
        if is_plain(a) or is_plain(b):
            return is_plain(a) and is_plain(b) and a == b
        if type(a) is type(b) and isinstance(a, (list, tuple)):
            return len(a) == len(b) and all(self.pair(v, w) for v, w in zip(a, b))
        if isinstance(a, dict) and isinstance(b, dict):
            return self.maps(a, b)
        if isinstance(a, SimpleNamespace) and isinstance(b, SimpleNamespace):
            return self.maps(vars(a), vars(b))
        return a is b

    def maps(self, a, b):
        return len(a) == len(b) and all(k in b and self.pair(v, b[k]) for k, v in a.items())

    def less(self, a, b, turned=False):
        self.texts(a, b)
        if type(a) is type(b) and isinstance(a, (list, tuple)):
            for v, w in zip(a, b):
                if not (self.pair(w, v) if turned else self.pair(v, w)):
                    return self.inside(lambda v, w: self.less(v, w, turned), v, w)
            return len(a) < len(b)
        if isinstance(a, int) and isinstance(b, int) or isinstance(a, str) and isinstance(b, str):
            return a < b
        raise Unordered

    def greater(self, a, b):
        return self.less(b, a, turned=True)


def told(compare, view, counter, a, b):
    try:
        found = view(compare(a, b))
    except Unordered:
        found = "None"
    except Spent:
        return "spent 0"
    except Deep:
        return f"too_deep {counter.left}"
    return f"answer {found} {counter.left}"


def python_equal(a, b):
    try:
        return a == b
    except RecursionError:
        return None


def python_less(a, b):
    try:
        return a < b
    except (TypeError, RecursionError):
        return None


def python_greater(a, b):
    try:
        return a > b
    except (TypeError, RecursionError):
        return None


def equal_row(a, b, left=100, depth=0):
    counter = Counter(left, depth)
    heap = Heap()
    v, w = heap.value(a), heap.value(b)
    end = told(counter.equal, truth, counter, a, b)
    if end.startswith("answer"):
        assert end.split()[1] == truth(python_equal(a, b)), (a, b)
    return f"equal_in {heap.nodes()} {depth} {v} {w} {left} ≡ {end}"


def order_row(word, compare, python, a, b, left, depth):
    counter = Counter(left, depth)
    heap = Heap()
    v, w = heap.value(a), heap.value(b)
    end = told(lambda a, b: compare(counter, a, b), lambda b: f"(Some {truth(b)})", counter, a, b)
    if end.startswith("answer"):
        found = python(a, b)
        assert end.split()[1] == ("None" if found is None else "(Some"), (a, b)
        assert found is None or end.split()[2] == truth(found) + ")", (a, b)
    return f"{word} {heap.nodes()} {depth} {v} {w} {left} ≡ {end}"


def less_row(a, b, left=100, depth=0):
    return order_row("less_in", Counter.less, python_less, a, b, left, depth)


def greater_row(a, b, left=100, depth=0):
    return order_row("greater_in", Counter.greater, python_greater, a, b, left, depth)


# ---- the files

def needed(uses, rows, words=""):
    """The use lines, with the names that stand in the rows or among the words, other than in comments and behind a dot."""
    plain = re.sub(r'"(\\.|[^"\\])*"', '"', " ".join(row for row in rows if not row.startswith("--")))
    there = set(re.findall(r"(?<![^\s(){},\"])[^\s(){}.,\"]+", plain + " " + words)) | {"◌≡◌", "refl"} | ({"◌∷◌"} if any(" ∷ " in row for row in rows) else set())
    lines = []
    for use in uses:
        found = re.fullmatch(r"(.*\.)\{(.*)\}", use)
        names = [n for n in found[2].split(", ") if n in there] if found else []
        if not found or names:
            lines.append(found[1] + "{" + ", ".join(names) + "}" if found else use)
    return lines


def row_file(name, uses):
    """Where a row file stands: what imports no meaning is about the language alone."""
    about = "meaning" if any("Rattle.kishu_meaning" in use for use in uses) else "language"
    return TOP / f"crates/kishu_{about}_rows/proofs/{name}.antt"


def write(name, head, uses, rows, prefix, unfolding="", maker="nodes.py"):
    lines = [f"-- {head} Made by tools/rows/{maker}."] + uses + [""]
    for i, row in enumerate(rows, 1):
        lines.append(f"{prefix}_{i} : {row}")
        if unfolding:
            lines.append(f"unfolding {unfolding}")
        lines += [f"{prefix}_{i} = refl", ""]
    row_file(name, uses).write_text("\n".join(lines[:-1]) + "\n")


KEYS = [None, True, False, 1, 0, 2, -1, "a", "b", "", "1", (), (1,), (True,), (0,), ("a",), (None,), (1, "a"), (True, "a"), (1, 2), ((1 == 1), 2)]


def key_rows():
    pairs = [(a, b) for a, b in itertools.combinations_with_replacement(KEYS, 2)]
    chosen = [p for p in pairs if len({p[0]: 0, p[1]: 0}) == 1] + [p for i, p in enumerate(pairs) if len({p[0]: 0, p[1]: 0}) == 2 and i % 7 == 0]
    return [f"is_one {key(a)} {key(b)} ≡ {truth(len({a: 0, b: 0}) == 1)}" for a, b in chosen]


DICTS = [{}, {1: 10}, {True: 10, "a": 11}, {"a": 10, "b": 11, "c": 12}, {(1,): 10, None: 11}, {0: 10, 1: 11, "": 12}]


def entries(d):
    heap = Heap()
    return heap.entries(d, key)


def node_rows():
    rows = []
    for d in DICTS:
        for k in [1, True, "b", (True,), None, 0][: 6 if len(d) == 3 else 3]:
            changed = dict(d)
            changed[k] = 7
            rows.append(f"with_entry is_one {key(k)} (integer (pos 7)) {entries(d)} ≡ {entries(changed)}")
            found = f"Some (integer {number(d[k])})" if k in d else "None"
            rows.append(f"value_at is_one {key(k)} {entries(d)} ≡ {found}")
            changed = dict(d)
            changed.pop(k, None)
            rows.append(f"without_entry is_one {key(k)} {entries(d)} ≡ {entries(changed)}")
    return rows + list_rows()


def list_rows():
    rows = []
    heap = Heap()

    def node(v):
        return f"({heap.node(v)})"

    for at, v in [(0, [1]), (1, [1, 2, 3]), (2, ["a", "b", None])]:
        after = list(v)
        after[at] = 7
        rows.append(f"changed (set_item {at} (integer (pos 7))) 1 ({node([])} ∷ {node(v)} ∷ []) ≡ {node([])} ∷ {node(after)} ∷ []")
    for v in [[], [1], ["a", 2]]:
        rows.append(f"changed (push none) 0 ({node(v)} ∷ {node([5])} ∷ []) ≡ {node(v + [None])} ∷ {node([5])} ∷ []")
    for v in [[], [1], ["a", 2, True]]:
        rows.append(f"pop {node(v)} ≡ {node(v[:-1])}")
        rows.append(f"last_of {{A = Value}} {listing([heap.value(w) for w in v])} ≡ " + (f"Some {heap.value(v[-1])}" if v else "None"))
    rows.append(f"changed (replace_list {listing([heap.value(w) for w in [3, 4]])}) 0 ({node([1])} ∷ []) ≡ {node([3, 4])} ∷ []")
    rows.append(f"push none {node((1, 2))} ≡ {heap.node((1, 2))}")
    rows.append(f"changed (push none) 3 ({node([1])} ∷ []) ≡ {node([1])} ∷ []")
    o = SimpleNamespace(a=1, b=2)
    rows.append(f"set_attr {text('a')} (integer (pos 7)) {node(o)} ≡ {heap.node(SimpleNamespace(a=7, b=2))}")
    rows.append(f"set_attr {text('c')} (integer (pos 7)) {node(o)} ≡ {heap.node(SimpleNamespace(a=1, b=2, c=7))}")
    rows.append(f"remove_attr {text('a')} {node(o)} ≡ {heap.node(SimpleNamespace(b=2))}")
    rows.append(f"insert {key(True)} none {node({1: 2})} ≡ {heap.node({1: None})}")
    rows.append(f"remove {key((True,))} {node({(1,): 2, 'a': 3})} ≡ {heap.node({'a': 3})}")
    return rows


def chain(n, inner):
    v = inner
    for _ in range(n):
        v = [v]
    return v


def equal_rows():
    a, b = [], []
    a.append(a)
    b.append(b)
    t = [1]
    o = SimpleNamespace(a=1, b=[])
    e = ValueError("x")
    rows = [
        equal_row(None, None), equal_row(None, 0), equal_row(1, True), equal_row(True, 1), equal_row(False, 0), equal_row(False, None),
        equal_row(1, 2), equal_row(-3, -3), equal_row("ab", "ab"), equal_row("ab", "abc"), equal_row("", "a"), equal_row("1", 1), equal_row("é", "é"),
        equal_row("abc", "abc", left=2), equal_row("abc", "abc", left=3),
        equal_row(range(3), range(0, 3, 1)), equal_row(range(0), range(5, 5)), equal_row(range(0, 3, 2), range(0, 4, 2)), equal_row(range(1, 2), range(1, 9, 8)),
        equal_row(range(3), range(4)), equal_row(range(0, 6, 2), range(0, 6, 3)), equal_row(range(3, 0, -1), range(3, 0, -1)), equal_row(range(3), 3),
        equal_row(print, print), equal_row(list, list), equal_row(print, list),
        equal_row([], []), equal_row([], ()), equal_row([1], [True]), equal_row([1, 2], [1, 3]), equal_row([1, 2], [1]), equal_row((1, "ab"), (1, "ab")),
        equal_row([1, 2], [1, 2], left=1), equal_row([1, 2], [1, 2], left=2), equal_row([[1]], [[1]]), equal_row([t, t], [t, [1]]), equal_row(["ab"], ["ac"]),
        equal_row({}, {}), equal_row({1: 2}, {True: 2}), equal_row({1: "a", 2: "b"}, {2: "b", 1: "a"}), equal_row({1: 1}, {2: 1}), equal_row({1: 1, 2: 2}, {1: 1, 2: 3}),
        equal_row({(1,): []}, {(True,): []}), equal_row({1: 1}, {1: 1, 2: 2}), equal_row(o, SimpleNamespace(b=[], a=True)), equal_row(o, SimpleNamespace(a=1)), equal_row(o, o),
        equal_row(e, e), equal_row(e, ValueError("x")), equal_row([e], [e]), equal_row(t, 1), equal_row(1, t), equal_row([t], [1]),
        equal_row(a, a), equal_row([a], [a]), equal_row(a, b, left=5), equal_row(a, b, left=100, depth=997), equal_row(a, b, left=2, depth=997),
        equal_row(chain(3, 1), chain(3, 1), depth=998), equal_row(chain(4, 1), chain(4, 1), depth=998), equal_row([1], [1], depth=1000), equal_row([[]], [[]], depth=1000), equal_row([t], [t], depth=1000),
        equal_row(chain(2, 1), [1], depth=1000),
        less_row(1, 2), less_row(2, 1), less_row(True, 2), less_row("a", "b"), less_row("ab", "a"), less_row("B", "a"), less_row("", ""), less_row("abc", "abd", left=2),
        less_row(1, "a"), less_row(None, None), less_row(range(3), range(4)), less_row({}, {}), less_row(t, 1), less_row([], ()),
        less_row([], []), less_row([], [1]), less_row([1], []), less_row([1, 2], [1, 3]), less_row([1, 3], [1, 2]), less_row((1, "ab"), (1, "ac")), less_row([1, 2], [1, 2, 0]),
        less_row([[1], [2]], [[1], [3]]), less_row([[1, 5]], [[1, 6]]), less_row([None, 1], [None, 2]), less_row([None], [1]), less_row([{}], [{}]), less_row([{1: 1}], [{}]), less_row(["a", 1], ["b", 2]),
        less_row(a, a), less_row(a, b, left=5), less_row(a, b, depth=997), less_row([[1]], [[2]], depth=1000), less_row([[1]], [[2]], depth=999), less_row([1], [2], left=0), less_row([1], [2], left=1),
        greater_row(2, 1), greater_row(1, 2), greater_row("ab", "a"), greater_row([], [1]), greater_row([1, 3], [1, 2]), greater_row((1, 2), (1, 2)), greater_row([[1, 6]], [[1, 5]]), greater_row(None, 1),
        greater_row([{1: 1, 2: 2}], [{2: 3, 1: 1}]), greater_row([{2: 3, 1: 1}], [{1: 1, 2: 2}]), less_row([{1: 1, 2: 2}], [{2: 3, 1: 1}]), less_row([{2: 3, 1: 1}], [{1: 1, 2: 2}]),
        greater_row([{1: a, 2: 2}], [{2: 3, 1: b}], depth=990), greater_row([{2: 3, 1: b}], [{1: a, 2: 2}], depth=990), greater_row([SimpleNamespace(a=1, b=2)], [SimpleNamespace(b=3, a=1)]),
    ]
    return rows


VALUES = "use Rattle.kishu_meaning.specs.values.Values.{none, bool, integer, text, range, builtin, class, node, list, tuple, dict, object, exception}"


def main():
    common = "use Rattle.std.proofs.Common.{◌≡◌, refl, [], ◌∷◌, true, false}"
    prelude = "use Rattle.std.specs.Prelude.{pos, negsuc, codes, Some, None}"
    write("KeyExamples", "Which keys are one, as CPython's dicts tell: computed on the definition.",
          [common, "use Rattle.std.specs.Prelude.{pos, negsuc, codes}", "use Rattle.kishu_meaning.specs.values.Keys as p", "use Rattle.kishu_meaning.specs.values.Keys.{is_one}"], key_rows(), "key")
    rows = node_rows()
    write("NodeExamples", "What some changes make of nodes, as CPython's lists, dicts and objects tell: computed on the definition.",
          needed([common, prelude, "use Rattle.kishu_meaning.specs.values.Keys as p", "use Rattle.kishu_meaning.specs.values.Keys.{is_one}", VALUES.replace("{none", "{Value, none"),
           "use Rattle.kishu_meaning.specs.values.Nodes.{value_at, with_entry, without_entry, last_of, changed, set_item, push, pop, replace_list, insert, remove, set_attr, remove_attr}"], rows), rows, "node")
    write("EqualExamples", "How some comparisons end, as CPython tells, with the steps that are left: computed on the definition.",
          [common, prelude, "use Rattle.kishu_meaning.specs.values.Keys as p", VALUES,
           "use Rattle.kishu_meaning.specs.moments.Counting.{answer, too_deep, spent}", "use Rattle.kishu_meaning.specs.comparing.Equal.{equal_in, less_in, greater_in}"], equal_rows(), "compare")


if __name__ == "__main__":
    main()
