#!/usr/bin/env python3
"""Makes the worked rows on texts of values, sequences and methods of
crates/kishu_meaning_rows/proofs: ShowExamples, FunctionExamples, SequenceExamples and MethodExamples.

What a value's text is and what a method answers and changes is asked of CPython, but for the rows
that are said to be this language's own. The steps are counted here, by the rules as they are told
in words, and so is what a run that is cut short leaves."""

import copy
from types import SimpleNamespace

from nodes import CLASSES, VALUES, Counter, Deep, Function, Heap, Spent, chain, is_plain, is_same, key, listing, needed, number, text, truth, write
from trees import IMPORTS, UNFOLDING


class Raised(Exception):
    """An exception of the language: its class, and its argument."""

    def __init__(self, kind, argument):
        super().__init__(kind, argument)
        self.kind, self.argument = kind, argument


def kind(v):
    names = {SimpleNamespace: "SimpleNamespace", type(print): "builtin", type: "class", Function: "function"}
    return names.get(type(v), type(v).__name__)


# ---- texts of values

def text_repr(t):
    """What CPython tells, but that all characters from U+0080 stand as they are."""
    others = iter([c for c in t if not c.isascii()])
    return "".join(c if c.isascii() else next(others) for c in repr("".join(c if c.isascii() else "é" for c in t)))


def plain_text(v):
    if isinstance(v, type):
        return f"<class '{v.__name__}'>"
    return text_repr(v) if isinstance(v, str) else repr(v)


class Shower(Counter):
    """Makes the text of a value from the left, and takes a step for each code point."""

    def __init__(self, left, depth):
        super().__init__(left, depth)
        self.text = ""

    def made(self, t):
        self.spend(len(t))
        self.text += t

    def inside(self, tell, v):
        """What lies in a node: another node is one deeper."""
        if is_plain(v):
            return tell(v)
        if self.depth >= 1000:
            raise Deep
        self.depth += 1
        tell(v)
        self.depth -= 1

    def all_of(self, begin, parts, end):
        self.made(begin)
        for i, part in enumerate(parts):
            if i:
                self.made(", ")
            part()
        self.made(end)

    def repr(self, v, around=()):
        if is_plain(v):
            return self.made(plain_text(v))
        if isinstance(v, Function):
            return self.made(f"<function {v.code.split()[1].split('(')[0]}>")
        begin, end = {list: "[]", tuple: ("(", ",)" if type(v) is tuple and len(v) == 1 else ")"), dict: "{}", SimpleNamespace: ("namespace(", ")")}.get(type(v), (kind(v) + "(", ")"))
        if any(v is w for w in around):
            return self.made(begin + "..." + end[-1])
        around = (*around, v)

        def item(w, name=""):
            self.made(name)
            self.inside(lambda x: self.repr(x, around), w)

        if isinstance(v, dict):
            return self.all_of(begin, [lambda k=k, w=w: item(w, repr(k) + ": ") for k, w in v.items()], end)
        if isinstance(v, SimpleNamespace):
            return self.all_of(begin, [lambda k=k, w=w: item(w, k + "=") for k, w in vars(v).items()], end)
        items = v.args if isinstance(v, Exception) else v
        if isinstance(v, Exception):
            self.made(begin[:-1])
            begin = "("
        return self.all_of(begin, [lambda w=w: item(w) for w in items], end)

    def show(self, v):
        if isinstance(v, str):
            return self.made(v)
        if not isinstance(v, Exception):
            return self.repr(v)
        return self.arguments(v)

    def arguments(self, e):
        if len(e.args) == 1:
            self.spend(1)
            return self.inside(self.repr if isinstance(e, KeyError) else self.show, e.args[0])
        if e.args:
            return self.all_of("(", [lambda w=w: self.inside(self.repr, w) for w in e.args], ")")


def shown_end(shower, tell, v, answer):
    """How making a text ends; `answer` is what it has to be."""
    try:
        tell(v)
    except Spent:
        return "spent 0"
    except Deep:
        return f"too_deep {shower.left}"
    assert shower.text == answer, (v, shower.text, answer)
    return f"answer {text(answer)} {shower.left}"


def python_text(ask, v, own):
    if own is not None:
        return own
    try:
        return ask(v)
    except RecursionError:
        return None


def repr_row(v, own=None, left=200, depth=0):
    shower, heap = Shower(left, depth), Heap()
    value = heap.value(v)
    end = shown_end(shower, shower.repr, v, python_text(repr, v, own))
    return f"repr_in {heap.nodes()} {depth} {value} {left} ≡ {end}"


def show_row(v, own=None, left=200, depth=0):
    shower, heap = Shower(left, depth), Heap()
    value = heap.value(v)
    end = shown_end(shower, shower.show, v, python_text(str, v, own))
    return f"show_in {heap.nodes()} {depth} {value} {left} ≡ {end}"


def thrown_row(e, own=None, left=200, depth=0):
    """An exception that is no node yet."""
    shower, heap = Shower(left, depth), Heap()
    arguments = listing([heap.value(w) for w in e.args])
    end = shown_end(shower, shower.arguments, e, python_text(str, e, own))
    return f"thrown_in {heap.nodes()} {depth} {CLASSES.index(kind(e))} {arguments} {left} ≡ {end}"


def cyclic():
    """Each kind of node that holds itself."""
    a = []
    a.append(a)
    t = ([],)
    t[0].append(t)
    d = {}
    d["k"] = d
    o = SimpleNamespace(a=1)
    o.b = [o]
    inner = []
    e = ValueError(inner)
    inner.append(e)
    pair = []
    f = KeyError(pair, 1)
    pair.append(f)
    return a, t, d, o, e, f


def show_rows():
    a, t, d, o, e, f = cyclic()
    again = [1]
    b, c = [], []
    b.append(c)
    c.append(b)
    return [
        repr_row(None), repr_row(True), repr_row(False), repr_row(0), repr_row(-12), repr_row(2**127 - 1), repr_row(-(2**127)),
        repr_row(""), repr_row("it's"), repr_row("a\tb\n\r\\"), repr_row("'\""), repr_row("\x00\x1f\x7f"), repr_row(" !\x1e~"), repr_row("é😀"), repr_row("\x80\x9f\xa0\xad\u2028", "'\x80\x9f\xa0\xad\u2028'"),
        repr_row(range(3)), repr_row(range(1, -5, -2)), repr_row(print), repr_row(list), repr_row(ValueError), repr_row(SimpleNamespace, "<class 'SimpleNamespace'>"),
        repr_row([]), repr_row([1]), repr_row([1, "x", None]), repr_row(()), repr_row((1,)), repr_row((1, 2)), repr_row(((),)),
        repr_row({}), repr_row({1: "a"}), repr_row({"a": 1, (1, "b"): [2], (None,): (), (): True}), repr_row({True: {}}),
        repr_row(SimpleNamespace()), repr_row(SimpleNamespace(a=1)), repr_row(SimpleNamespace(b="x", a=[])),
        repr_row(ValueError()), repr_row(KeyError("k")), repr_row(ValueError("x", 1)), repr_row(ValueError([1])), repr_row([KeyError("k"), ValueError(ValueError("x"))]),
        repr_row([again, again]), repr_row((again, {1: again})),
        repr_row(a), repr_row(t), repr_row(t[0]), repr_row(d), repr_row(o), repr_row([a, a]), repr_row(b), repr_row({1: b, 2: c}),
        repr_row(e, "ValueError([ValueError(...)])"), repr_row(e.args[0], "[ValueError([...])]"), repr_row(f, "KeyError([KeyError(...)], 1)"),
        repr_row([1, "ab"], left=9), repr_row([1, "ab"], left=8), repr_row([1, "ab"], left=0), repr_row(12345, left=4),
        repr_row(chain(3, 1), depth=998), repr_row(chain(4, 1), depth=998), repr_row([1, [2, [3, [4]]]], depth=998), repr_row([1], depth=1000), repr_row([[]], depth=1000), repr_row(a, depth=1000),
        repr_row([[1], chain(3, 1)], depth=999, left=3), repr_row({1: {2: {}}}, depth=999), repr_row(SimpleNamespace(a=SimpleNamespace()), depth=1000), repr_row(ValueError(()), depth=1000),
        show_row(None), show_row("it's"), show_row(""), show_row(7), show_row(["a"]), show_row("abc", left=2), show_row(range(0, 9, 3)), show_row(int), show_row(o),
        show_row(ValueError()), show_row(ValueError("x")), show_row(KeyError("k")), show_row(KeyError()), show_row(KeyError("k", 1)), show_row(ValueError("x", 1)), show_row(ValueError(("x",))), show_row(KeyError(("x",))),
        show_row(ValueError(KeyError("k"))), show_row(ValueError(ValueError(ValueError()))), show_row([ValueError("x")]), show_row(ValueError("x"), left=1), show_row(ValueError("x"), left=0), show_row(ValueError(""), left=0),
        show_row(e, "[ValueError([...])]"), show_row(f, "([KeyError([...], 1)], 1)"), show_row(a), show_row(t), show_row(d), show_row([1], depth=1000), show_row([[]], depth=1000), show_row([[]], depth=999), show_row(ValueError(ValueError([])), depth=998), show_row(ValueError(ValueError([])), depth=999),
        show_row(ValueError(ValueError("x")), depth=999), show_row(ValueError(ValueError("x")), depth=1000), show_row(ValueError(1, []), depth=1000), show_row(ValueError([], 1), depth=1000),
        thrown_row(ValueError()), thrown_row(ValueError("x")), thrown_row(KeyError("k")), thrown_row(ValueError("x", 1)), thrown_row(KeyError([1])), thrown_row(KeyError([]), depth=1000), thrown_row(ValueError("x"), left=1),
    ]


FUNCTIONS = [("def f(): pass", "<function f>"), ("def total_of(a, b=[]):\n    return a\n    ", None), ("def g(x):\n    if x: pass\n    else:\n        x = 1", "<function g>")]


def function_rows():
    f, g = Function("def f(): pass"), Function("def g1(x, y=2):\n    z = x\n    z", 2)
    return [repr_row(f, "<function f>"), repr_row([g, g], "[<function g1>, <function g1>]"), show_row(g, "<function g1>"), repr_row(f, "<function f>", left=11), repr_row(f, "<function f>", left=12)]


# ---- sequences, keys and places

class Run(Counter):
    """What a call does to the heap and to the steps."""

    def __init__(self, heap, left, depth):
        super().__init__(left, depth)
        self.heap = heap

    def fail(self, kind, argument):
        raise Raised(kind, argument)

    def key(self, v):
        """A value is made into a key."""
        parts = v if isinstance(v, tuple) else [v]
        if isinstance(v, tuple):
            self.spend(len(v))
        for p in parts:
            if not isinstance(p, (type(None), bool, int, str)):
                self.fail("TypeError", f"unhashable key: '{kind(p)}'")

    def count(self, v):
        if not isinstance(v, (list, tuple, str, dict, range)):
            self.fail("TypeError", f"'{kind(v)}' object is not iterable")
        return -((v.start - v.stop) // v.step) if isinstance(v, range) and v else len(v)

    def items(self, v):
        self.count(v)
        for k in v if isinstance(v, dict) else []:
            if isinstance(k, tuple):
                self.spend(len(k))
                self.heap.value(k)
        return list(v)

    def walk(self, v):
        self.spend(self.count(v))
        return self.items(v)

    def visit(self, item, x):
        self.spend(1)
        if is_same(item, x):
            self.texts(item, x)
            return True
        return self.equal(item, x)

    def place(self, items, x):
        for i, item in enumerate(items):
            if self.visit(item, x):
                return i
        self.fail("ValueError", "value not found")

    def index(self, v):
        if not isinstance(v, int):
            self.fail("TypeError", f"bad index type: '{kind(v)}'")
        return v


def moment(heap, left, depth=0):
    return f"(bare {heap.nodes()} {left} {depth})"


def ended(run, work, view):
    """How a piece of work ends, and the moment then."""
    depth = run.depth
    try:
        answer = view(work())
    except Raised as r:
        argument = run.heap.value(r.argument)
        return f"raised (fresh {CLASSES.index(r.kind)} ({argument} ∷ [])) {moment(run.heap, run.left, depth)}"
    except Deep:
        return f'raised (fresh 21 (text (codes "depth limit reached") ∷ [])) {moment(run.heap, run.left, depth)}'
    except Spent:
        return f"stopped {moment(run.heap, 0, depth)}"
    return f"fine {answer} {moment(run.heap, run.left, depth)}"


def work_row(call, view, work, v, left, depth=0):
    heap = Heap()
    value = heap.value(v)
    begin = moment(heap, left, depth)
    run = Run(heap, left, depth)
    return f"{call} {value} {begin} ≡ {ended(run, lambda: work(run), lambda a: view(heap, a))}"


def key_row(v, left=100):
    def work(run):
        run.key(v)
        return v

    return work_row("key_of_value", lambda heap, k: key(k), work, v, left)


def values(heap, items):
    return listing([heap.value(w) for w in items])


def items_row(v, left=100):
    return work_row("items_of", values, lambda run: run.items(v), v, left)


def walked_row(v, left=100):
    return work_row("walked", values, lambda run: run.walk(v), v, left)


def count_row(v):
    return work_row("count_of", lambda heap, n: str(n), lambda run: run.count(v), v, 100)


def place_row(n, z):
    try:
        place = f"Some {list(range(n))[z]}"
    except IndexError:
        place = "None"
    return f"place_in {n} {number(z)} ≡ {place}"


def bound_row(n, z):
    return f"bound_in {n} {number(z)} ≡ {slice(z, None).indices(n)[0]}"


def sorted_row(items):
    heap = Heap()
    begin = listing([heap.value(w) for w in items])
    fits = all(isinstance(w, int) for w in items) or all(isinstance(w, str) for w in items)
    end = f"Some {listing([heap.value(w) for w in sorted(items)])}" if fits else "None"
    return f"in_order {begin} ≡ {end}"


def sequence_rows():
    walkable = [(), "", "ab", "é😀", range(0), range(4), range(5, -2, -3), [], [1, "a", None], (1, [2]), {}, {1: 2, "a": [3]}, {(1, 2): 0, None: 1, (): 2, (True,): 3}]
    others = [None, True, 5, print, list, SimpleNamespace(a=1), ValueError("x")]
    rows = [count_row(v) for v in walkable + others + [range(10**30)]]
    rows += [items_row(v) for v in walkable + others] + [items_row({(1, 2): 0, (3, 4): 1}, left=3), items_row({(1, 2): 0, (3, 4): 1}, left=4)]
    rows += [walked_row(v) for v in walkable[2:] + others[:1]] + [walked_row("abc", left=2), walked_row("abc", left=3), walked_row({(1, 2): 0, 5: 1}, left=1), walked_row({(1, 2): 0, 5: 1}, left=3), walked_row(range(10**30))]
    rows += [key_row(v) for v in [None, True, 7, "ab", (), (1,), (1, "a", None, False), [], {}, range(3), print, int, ValueError("x"), SimpleNamespace(), (1, [2]), ((1,),), (range(2), [])]] + [key_row((1, 2, 3), left=2), key_row((1, 2, 3), left=3), key_row((1, []), left=1)]
    rows += [place_row(n, z) for n in [0, 1, 3] for z in [0, 1, 2, 3, -1, -3, -4]] + [bound_row(n, z) for n in [0, 3] for z in [0, 1, 3, 9, -1, -3, -4, -9]]
    rows += [sorted_row(w) for w in [[], [2, 1], [1, True, 0, False, -1], ["b", "a", "ab", "", "B"], [3, 1, 2, 1, 3], [1, "a"], ["a", None], [None], [[1]], ["é", "z", "😀", "~"]]]
    rows += [f"sort_steps {n} ≡ {n * n.bit_length() + n}" for n in [0, 1, 2, 3, 4, 7, 8, 1000]]
    return rows


# ---- methods

def bad(run, name):
    run.fail("TypeError", f"{name}() got bad arguments")


def numbers_alike(items):
    return all(isinstance(w, int) for w in items) or all(isinstance(w, str) for w in items)


def sequence_call(run, v, name, args):
    """`index` and `count` of a list and of a tuple."""
    if len(args) != 1:
        bad(run, name)
    if name == "count":
        for item in v:
            run.visit(item, args[0])
    else:
        run.place(v, args[0])


def list_call(run, v, name, args):
    if name in ("index", "count", "remove"):
        return sequence_call(run, v, name, args)
    if len(args) not in {"pop": (0, 1), "append": (1,), "extend": (1,), "insert": (2,)}.get(name, (0,)):
        bad(run, name)
    if name == "extend":
        run.walk(args[0])
    if name in ("pop", "insert") and args:
        run.index(args[0])
    if name == "pop" and not v:
        run.fail("IndexError", "pop from empty list")
    if name == "pop" and args and not -len(v) <= args[0] < len(v):
        run.fail("IndexError", "index out of range")
    if name in ("reverse", "copy", "insert") or name == "pop" and args:
        run.spend(len(v))
    if name == "sort":
        run.spend(len(v) * len(v).bit_length() + len(v))
        if not numbers_alike(v):
            bad(run, name)


def dict_call(run, v, name, args):
    if len(args) not in {"clear": (0,), "copy": (0,), "update": (1,)}.get(name, (1, 2)):
        bad(run, name)
    if name in ("get", "setdefault", "pop"):
        run.key(args[0])
        if name == "pop" and len(args) == 1 and args[0] not in v:
            run.fail("KeyError", args[0])
    if name == "update" and not isinstance(args[0], dict):
        bad(run, name)
    if name in ("update", "copy"):
        run.spend(len(args[0] if name == "update" else v))


def text_call(run, v, name, args):
    if len(args) not in {"strip": (0,), "isdigit": (0,), "split": (0, 1), "replace": (2,)}.get(name, (1,)):
        bad(run, name)
    if name == "join":
        parts = run.walk(args[0])
        if not all(isinstance(p, str) for p in parts):
            bad(run, name)
        return run.spend(len(v.join(parts)))
    if not all(isinstance(a, str) for a in args):
        bad(run, name)
    if name in ("count", "split", "replace") and "" in args[:1]:
        run.fail("ValueError", "empty separator")
    searches = name in ("find", "count", "replace") or name == "split" and args
    run.spend(len(v) * max(1, len(args[0])) if searches else len(v))
    if name == "replace":
        run.spend(len(v.replace(*args)))
    if name == "split" and args:
        run.spend(sum(len(p) for p in v.split(*args)))


def rule(run, v, name, args):
    calls = {list: list_call, tuple: sequence_call, dict: dict_call, str: text_call}
    calls[type(v)](run, v, name, args)


def python_refuses(v, name, args, raised):
    """CPython raises the same class, whatever its text."""
    try:
        getattr(copy.copy(v), name)(*args)
    except Exception as e:
        return type(e).__name__ == raised.kind or raised.kind == "TypeError" and isinstance(e, AttributeError)
    return False


def call_row(v, name, *args, left=100, depth=0, own=False, own_answer=None):
    heap = Heap()
    value, handed = heap.value(v), listing([heap.value(a) for a in args])
    begin = moment(heap, left, depth)
    run = Run(heap, left, depth)

    def work():
        try:
            rule(run, v, name, args)
        except Raised as r:
            assert own or python_refuses(v, name, args, r), (v, name, args, r)
            raise
        return getattr(v, name)(*args) if own_answer is None else own_answer

    end = ended(run, work, heap.value)
    return f"call_method {value} {text(name)} {handed} {begin} ≡ {end}"


def list_rows():
    a, t, e = [1], [2], ValueError("x")
    own = [4, 5]
    deep, same = chain(3, 1), [7]
    ring = []
    ring.append(ring)
    return [
        call_row([], "append", 1), call_row([1], "append", [2]), call_row(own, "append", own), call_row([], "append"), call_row([], "append", 1, 2),
        call_row([1, 2], "pop"), call_row([], "pop"), call_row([1, 2, 3], "pop", 0), call_row([1, 2, 3], "pop", -1), call_row([1, 2, 3], "pop", -3), call_row([1, 2, 3], "pop", True), call_row(["a", [1], 3], "pop", 1),
        call_row([1, 2], "pop", 2), call_row([1, 2], "pop", -3), call_row([], "pop", 0), call_row([1], "pop", "a"), call_row([], "pop", None), call_row([1], "pop", 0, 0), call_row([1, 2], "pop", 0, left=1), call_row([1, 2], "pop", 9, left=1), call_row([1, 2], "pop", left=0),
        call_row([1, 2], "insert", 0, "x"), call_row([1, 2], "insert", 1, "x"), call_row([1, 2], "insert", 2, "x"), call_row([1, 2], "insert", 9, "x"), call_row([1, 2], "insert", -1, "x"), call_row([1, 2], "insert", -2, "x"), call_row([1, 2], "insert", -9, "x"),
        call_row([], "insert", 5, 1), call_row([], "insert", -5, 1), call_row([1], "insert", True, None), call_row([1], "insert", None, 2), call_row([1], "insert", 0), call_row([1], "insert", "0", 2, 3), call_row([1, 2], "insert", 0, 3, left=1),
        call_row([1, 2], "clear"), call_row([], "clear"), call_row([1], "clear", 1), call_row([1, 2], "clear", left=0),
        call_row([1], "extend", [2, 3]), call_row(a, "extend", a), call_row([1], "extend", (2,)), call_row([], "extend", "ab"), call_row([0], "extend", range(1, 7, 2)), call_row([], "extend", {1: 2, "a": 3}), call_row([], "extend", {(1, 2): 0, 3: 0}), call_row([1], "extend", []),
        call_row([1], "extend", 5), call_row([1], "extend", None), call_row([1], "extend"), call_row([1], "extend", [1], [2]), call_row([1], "extend", [2, 3], left=1), call_row([1], "extend", {(1, 2): 0}, left=2), call_row([1], "extend", SimpleNamespace(a=1)), call_row([1], "extend", range(10**30)),
        call_row([1, 2, 1], "remove", 1), call_row([1, 2], "remove", 2), call_row([1, 2], "remove", 3), call_row([], "remove", 1), call_row([0, True], "remove", 1), call_row([[1], [2]], "remove", [2]), call_row([t, [2]], "remove", t), call_row(["ab", "a"], "remove", "a"), call_row([1], "remove"), call_row(["ab", "ac"], "remove", "ac", left=4), call_row(["ab", "ac"], "remove", "ac", left=5), call_row(["ab", "ac"], "remove", "ac", left=6),
        call_row([1, 2, 1], "index", 1), call_row([1, True, 2], "index", 2), call_row([1], "index", "1"), call_row([], "index", 1), call_row([e, 1], "index", ValueError("x")), call_row([[1], e], "index", e), call_row([1], "index", 1, 0, own=True), call_row([(1, 2), (1, 3)], "index", (1, 3)), call_row(ring, "index", ring), call_row([{1: 2, 3: [4]}], "index", {3: [5], 1: 2}), call_row([{3: [5], 1: 2}], "index", {1: 2, 3: [4]}), call_row([deep], "index", chain(3, 1), depth=998), call_row([deep], "index", chain(3, 1), depth=999), call_row([deep], "index", deep, depth=1000),
        call_row([1, 2, True], "count", 1), call_row([], "count", 1), call_row(["a", "a", "b"], "count", "a"), call_row([[], [], ()], "count", []), call_row([same, same], "count", same, left=1), call_row([1, 2, 3], "count", 3, left=2), call_row([1], "count"),
        call_row([1, 2, 3], "reverse"), call_row([], "reverse"), call_row([1, 2], "reverse", left=1), call_row([1], "reverse", 1), call_row([1, [2]], "copy"), call_row([], "copy"), call_row([1, 2], "copy", left=1), call_row([], "copy", 1),
        call_row([3, 1, 2], "sort"), call_row([2, True, 1, 0, False], "sort"), call_row(["b", "", "a", "B", "ab"], "sort"), call_row([], "sort"), call_row(["é", "z"], "sort"), call_row([-1, -3, 5], "sort"), call_row([1, "a"], "sort"), call_row([[1], [0]], "sort", own=True), call_row([None], "sort", own=True), call_row([2, 1], "sort", 1), call_row([3, 2, 1], "sort", left=8), call_row([3, 2, 1], "sort", left=9), call_row([1, "a"], "sort", left=5),
    ]


def tuple_rows():
    x = [1]
    return [
        call_row((1, 2), "index", 2), call_row((), "index", 2), call_row((x, [2]), "index", [2]), call_row((1,), "index"), call_row((1, 2), "index", 2, left=1),
        call_row((1, True, 2), "count", 1), call_row((), "count", None), call_row((x, x, [1]), "count", x), call_row((1,), "count", 1, 2),
    ]


def dict_rows():
    d = {1: 2}
    return [
        call_row({1: "a"}, "get", 1), call_row({1: "a"}, "get", True), call_row({1: "a"}, "get", 2), call_row({1: "a"}, "get", 2, "d"), call_row({1: "a"}, "get", 1, "d"), call_row({(1, 2): "a"}, "get", tuple([1, 2])), call_row({}, "get", tuple([1, 2]), left=1), call_row({}, "get", []), call_row({}, "get", ([],)), call_row({}, "get"), call_row({}, "get", 1, 2, 3), call_row({"a": 1}, "get", "a", left=0), call_row({None: 1}, "get", None), call_row({0: 1, "": 2}, "get", None), call_row({None: 1}, "get", False), call_row({}, "get", Function("def f(): pass"), own=True), call_row({}, "get", range(2), own=True),
        call_row({1: "a"}, "setdefault", 1, "d"), call_row({1: "a"}, "setdefault", 2, "d"), call_row({1: "a"}, "setdefault", 2), call_row({}, "setdefault", tuple([1, "x"]), []), call_row({}, "setdefault", {}), call_row({}, "setdefault"), call_row({True: "a"}, "setdefault", 1, "b"), call_row({0: 1}, "setdefault", tuple([1, 2]), 3, left=1),
        call_row({1: "a", 2: "b"}, "pop", 1), call_row({1: "a", 2: "b", 3: "c"}, "pop", 2), call_row({1: "a"}, "pop", True), call_row({1: "a"}, "pop", 2, "d"), call_row({1: "a"}, "pop", 1, "d"), call_row({1: "a"}, "pop", 2), call_row({}, "pop", "k"), call_row({}, "pop", tuple([1, 2])), call_row({1: 2}, "pop", []), call_row({}, "pop", [], 1, own=True), call_row({}, "pop"), call_row({(1,): 2, 3: 4}, "pop", tuple([True])),
        call_row({1: 2}, "clear"), call_row({}, "clear"), call_row({1: 2}, "clear", 1),
        call_row({"k": 1, "j": 2}, "update", {"i": 3, "k": 4}), call_row({1: "a"}, "update", {True: "b"}), call_row({}, "update", {}), call_row({}, "update", {(1, 2): [], "a": 5}), call_row(d, "update", d), call_row({1: 2}, "update", [], own=True), call_row({1: 2}, "update", 5), call_row({1: 2}, "update", own=True), call_row({1: 2}, "update", {3: 4, 5: 6}, left=1), call_row({1: 2}, "update", {3: 4, 5: 6}, left=2),
        call_row({1: [2], "a": 3}, "copy"), call_row({}, "copy"), call_row({1: 2}, "copy", left=0), call_row({}, "copy", 1),
    ]


def text_rows():
    return [
        call_row("abc", "startswith", "ab"), call_row("abc", "startswith", "b"), call_row("abc", "startswith", ""), call_row("", "startswith", "a"), call_row("abc", "startswith", 1), call_row("abc", "startswith"), call_row("abc", "startswith", "a", left=2), call_row("a", "startswith", "ab"),
        call_row("abc", "endswith", "bc"), call_row("abc", "endswith", "b"), call_row("", "endswith", ""), call_row("abc", "endswith", None), call_row("abc", "endswith", "abcd"), call_row("abc", "endswith", "abc", left=3),
        call_row(" \t\n\r\x0b\x0cab c ", "strip"), call_row("", "strip"), call_row(" \t", "strip"), call_row("a", "strip", "a", own=True), call_row("\x08a\x0e", "strip"), call_row("\x1fa\xa0", "strip", own_answer="\x1fa\xa0"), call_row(" a", "strip", left=1),
        call_row("0123456789", "isdigit"), call_row("", "isdigit"), call_row("1a", "isdigit"), call_row("-1", "isdigit"), call_row("12", "isdigit", 1), call_row("1/", "isdigit"), call_row("1:", "isdigit"), call_row("²", "isdigit", own_answer=False), call_row("12", "isdigit", left=1),
        call_row("banana", "find", "an"), call_row("banana", "find", "x"), call_row("banana", "find", ""), call_row("", "find", ""), call_row("", "find", "a"), call_row("é😀é", "find", "😀"), call_row("banana", "find", "na", left=11), call_row("banana", "find", "na", left=12), call_row("banana", "find", 1), call_row("banana", "find", "", left=5),
        call_row("banana", "count", "an"), call_row("aaaa", "count", "aa"), call_row("abc", "count", "x"), call_row("abc", "count", "", own=True), call_row("", "count", "a"), call_row("abc", "count", []), call_row("abc", "count", "b", left=2),
        call_row(" a  b\tc\n", "split"), call_row("", "split"), call_row("   ", "split"), call_row("a\x0bb\x0cc", "split"), call_row("a\x0eb\x08c", "split"), call_row("a b", "split", left=2), call_row("a b", "split", left=3),
        call_row("a,b,,c", "split", ","), call_row(",", "split", ","), call_row("", "split", ","), call_row("aXXbXX", "split", "XX"), call_row("aaa", "split", "aa"), call_row("abc", "split", ""), call_row("abc", "split", None, own=True), call_row("a,b", "split", ",", left=4), call_row("a,b", "split", ",", left=5), call_row("a,b", "split", ",", 1, own=True),
        call_row("aXbX", "replace", "X", "--"), call_row("abc", "replace", "x", "y"), call_row("aaa", "replace", "aa", "b"), call_row("ab", "replace", "ab", ""), call_row("abc", "replace", "", "x", own=True), call_row("abc", "replace", "a", 1), call_row("abc", "replace", 1, "a"), call_row("abc", "replace", "a"), call_row("ab", "replace", "b", "ccc", left=5), call_row("ab", "replace", "b", "ccc", left=6), call_row("", "replace", "a", "b"),
        call_row(",", "join", ["a", "b"]), call_row("", "join", ("a", "b", "c")), call_row("--", "join", []), call_row(",", "join", ["a"]), call_row("-", "join", "abc"), call_row(",", "join", {"a": 1, "b": 2}), call_row(",", "join", ["a", 1]), call_row(",", "join", {(1, 2): 0, "a": 1}), call_row(",", "join", range(3)), call_row(",", "join", range(0)), call_row(",", "join", 5), call_row(",", "join"), call_row(",", "join", ["a", "b"], left=4), call_row(",", "join", ["a", "b"], left=5), call_row(",", "join", [1], left=0),
    ]


METHODS = {
    "[]": "append pop insert clear extend remove index count reverse copy sort", "()": "index count", "{}": "get setdefault pop clear update copy",
    "''": "startswith endswith strip isdigit find count split replace join",
}


def has_rows():
    rows = []
    names = sorted({n for kinds in METHODS.values() for n in kinds.split()} | {"keys", "upper", "__len__", "appen", ""})
    for source, there in METHODS.items():
        heap = Heap()
        value = heap.value(eval(source))
        rows += [f"has_method {heap.nodes()} {value} {text(n)} ≡ {truth(n in there.split())}" for n in names]
    for v in [None, True, 1, range(3), print, list, SimpleNamespace(append=1), ValueError()]:
        heap = Heap()
        value = heap.value(v)
        rows += [f"has_method {heap.nodes()} {value} {text(n)} ≡ false" for n in ["append", "count"]]
    return rows


def missing_rows():
    """A method that there isn't."""
    rows = []
    for v, name in [([], "keys"), ((), "append"), ("", "upper"), (1, "append"), ({}, "items"), (SimpleNamespace(), "pop")]:
        heap = Heap()
        value = heap.value(v)
        message = text(f"'{kind(v)}' object has no attribute '{name}'")
        rows.append(f"call_method {value} {text(name)} [] {moment(heap, 9)} ≡ raised (fresh 13 (text {message} ∷ [])) {moment(heap, 9)}")
    return rows


def write_rows(name, head, uses, rows, prefix, unfolding):
    write(name, head, needed(uses, rows, unfolding), rows, prefix, unfolding, maker="values.py")


def main():
    common = "use Rattle.std.proofs.Common.{◌≡◌, refl, [], ◌∷◌, true, false}"
    prelude = "use Rattle.std.specs.Prelude.{pos, negsuc, codes, Some, None}"
    digits = "use Rattle.std.specs.Fmt.{digits}"
    chars = "use Rattle.std.specs.Str.{chars}"
    names = "use Rattle.kishu_meaning.specs.values.BuiltinNames.{builtin_names, class_names}"
    keys = "use Rattle.kishu_meaning.specs.values.Keys as p"
    counting = "use Rattle.kishu_meaning.specs.moments.Counting.{answer, too_deep, spent}"
    bare = "use Rattle.kishu_meaning_laws.specs.Bare.{bare}"
    profile = "use Rattle.kishu_language.specs.declared.profile.Profile.TheVariants.{One}"
    ends = "use Rattle.kishu_meaning.specs.moments.Moment.{fresh, fine, raised, stopped}"
    head = "as CPython tells where the languages agree"
    write_rows("ShowExamples", f"Texts of some values, {head}, with the steps that are left: computed on the definition.",
          [common, prelude, digits, chars, names, keys, VALUES, counting, "use Rattle.kishu_meaning.specs.comparing.Show.{repr_in, show_in, thrown_in}"], show_rows(), "show", "builtin_names class_names chars digits")
    write_rows("FunctionExamples", "Texts of functions, with the steps that are left: computed on the definition.",
          (IMPORTS % ("◌≡◌, ◌∷◌, [], refl", "pos, codes", "", "")).splitlines() + [chars, digits, VALUES.replace("dict, object, exception", "function"), counting, "use Rattle.kishu_meaning.specs.comparing.Show.{repr_in, show_in}"], function_rows(), "function", UNFOLDING.removeprefix("unfolding ") + " chars digits")
    write_rows("SequenceExamples", f"How many items some values have, which, and what they are as keys and in order, {head}: computed on the definition.",
          [common, prelude, keys, VALUES, ends, names, "use Rattle.kishu_meaning.specs.items.Indexes.{place_in, bound_in}", "use Rattle.kishu_meaning.specs.items.KeyOf.{key_of_value}", "use Rattle.kishu_meaning.specs.items.Sequences.{count_of, items_of, walked}",
           "use Rattle.kishu_meaning.specs.items.Sorting.{in_order, sort_steps}", bare], sequence_rows(), "sequence", "class_names")
    write_rows("MethodExamples", f"What some calls of methods answer and leave, {head}, with the steps that are left: computed on the definition.",
          [common, prelude, chars, keys, VALUES.replace("object,", "object, function,"), profile, ends, names, "use Rattle.kishu_meaning.specs.calls.Methods.{has_method, call_method}", bare], list_rows() + tuple_rows() + dict_rows() + text_rows() + missing_rows() + has_rows(), "method", "chars class_names")


if __name__ == "__main__":
    main()
