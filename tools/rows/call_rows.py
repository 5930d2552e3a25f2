#!/usr/bin/env python3
"""Makes the rows on single rules of operators, comparisons, items, walks, ways out and functions in
crates/kishu_meaning_rows/proofs: OperatorExamples, CompareExamples, ItemExamples, WalkExamples, WayExamples
and LocalExamples.

What CPython has as well is asked of it, and the steps are counted here, by the rules as they are told in words.
"""
import inspect
import itertools
from types import SimpleNamespace

from nodes import CLASSES, LANGUAGE, MEANING, Function, Heap, Unordered, chain, is_same, listing, number, text, truth, write
from state_rows import BARE, ENDS, VALUES, heap_new, rows_file
from tokens import antt_text
from tree_rows import OPENED
from trees import IMPORTS
from values import Run, ended, kind, moment

TOP, LOW = 2**127 - 1, -(2**127)


def made(heap):
    """A list or a tuple that is made is a new node."""
    return lambda v: f"(node {heap_new(heap, v)})" if isinstance(v, (list, tuple)) else heap.value(v)


def row(call, things, work, view=None, left=100, depth=0):
    """A call of values at a moment, and how it ends."""
    heap = Heap()
    written = [heap.value(v) for v in things]
    begin = moment(heap, left, depth)
    run = Run(heap, left, depth)
    return f"{call} {' '.join(written)} {begin} ≡ {ended(run, lambda: work(run), view or made(heap))}"


def whole(run, z):
    return z if LOW <= z <= TOP else run.fail("OverflowError", "whole number too large")


# ---- operators

SIGNS = {"Add": "+", "Subtract": "-", "Multiply": "*", "FloorDivide": "//", "Modulo": "%", "Power": "**"}


def operated(run, name, a, b):
    if isinstance(a, int) and isinstance(b, int):
        return whole(run, eval(f"a {SIGNS[name]} b"))
    if name == "Add" and type(a) is type(b) and isinstance(a, (str, list, tuple)):
        run.spend(len(a) + len(b))
        return a + b
    for v, n in ((a, b), (b, a)):
        if name == "Multiply" and isinstance(v, (str, list, tuple)) and isinstance(n, int):
            run.spend(len(v) * max(0, n))
            return v * n
    run.fail("TypeError", f"bad operand types for {SIGNS[name]}: '{kind(a)}' and '{kind(b)}'")


def operate_row(name, a, b, left=100):
    return row(f"operate operators.{name}", [a, b], lambda run: operated(run, name, a, b), left=left)


def signed(run, sign, v):
    if not isinstance(v, int):
        run.fail("TypeError", f"bad operand type for {sign}: '{kind(v)}'")
    return whole(run, -v if sign == "-" else +v)


THINGS = [None, True, False, 0, 1, -7, "", "a", range(0), range(3), print, list, [], [0], (), (None,), {}, {1: 2}, SimpleNamespace(), Function("def f(): pass"), ValueError()]


def operator_rows():
    rows = [operate_row(*r) for r in [
        ("Add", 1, True), ("Add", "ab", "c"), ("Add", "", ""), ("Add", [1], [2, 3]), ("Add", [], []), ("Add", (1,), ()), ("Add", (), ()), ("Multiply", "ab", 3), ("Multiply", 3, "ab"), ("Multiply", "ab", 0), ("Multiply", "ab", -2), ("Multiply", True, "a"), ("Multiply", [1, 2], 2), ("Multiply", 2, [1]), ("Multiply", (1,), 3), ("Multiply", False, (1,)), ("Multiply", [], 5),
        ("Add", 1, "a"), ("Add", "a", 1), ("Add", [1], (1,)), ("Add", None, None), ("Add", {}, {}), ("Multiply", "a", "b"), ("Multiply", [1], [2]), ("Multiply", None, 2), ("Subtract", "a", "b"), ("Subtract", [1], [1]), ("Subtract", True, True), ("FloorDivide", "a", 2), ("FloorDivide", [], []), ("Modulo", "a", 1), ("Modulo", None, 1), ("Power", "a", 2), ("Power", 2, None), ("Power", True, 3),
        ("Add", print, len), ("Add", range(1), range(1)), ("Subtract", int, 1), ("Multiply", range(2), 2), ("Add", ValueError(), ValueError()), ("Add", Function("def f(): pass"), 1),
    ]]
    rows += [operate_row("Add", "ab", "cd", left=n) for n in (3, 4)] + [operate_row("Add", [1], [2], left=n) for n in (1, 2)] + [operate_row("Multiply", "ab", 3, left=n) for n in (5, 6)] + [operate_row("Multiply", (1, 2), 2, left=n) for n in (3, 4)] + [operate_row("Multiply", "a", 10**30), operate_row("Add", 1, 2, left=0)]
    rows += [row("truth", [v], lambda run, v=v: bool(v), view=truth) for v in THINGS]
    rows += [row(f"signed_value signs.{name}", [v], lambda run, v=v, sign=sign: signed(run, sign, v)) for name, sign in (("Plus", "+"), ("Minus", "-")) for v in (5, -5, True, TOP, LOW, "a", None, [], print, range(1))]
    return rows


# ---- comparisons

COMPARED = {"Less": "<", "LessEqual": "<=", "Greater": ">", "GreaterEqual": ">=", "Equal": "==", "NotEqual": "!=", "In": "in", "NotIn": "not in", "Is": "is", "IsNot": "is not"}


def member(run, sign, a, b):
    if isinstance(b, str):
        if not isinstance(a, str):
            run.fail("TypeError", f"bad operand types for {sign}: '{kind(a)}' and 'str'")
        run.spend(len(b) * max(1, len(a)))
        return a in b
    if isinstance(b, range):
        return isinstance(a, int) and a in b
    if isinstance(b, (list, tuple)):
        return any(run.visit(item, a) for item in b)
    if isinstance(b, dict):
        run.key(a)
        return a in b
    run.fail("TypeError", f"'{kind(b)}' object is not iterable")


def compared(run, name, a, b):
    sign = COMPARED[name]
    if name in ("Is", "IsNot"):
        run.texts(a, b)
        return is_same(a, b) == (name == "Is")
    if name in ("Equal", "NotEqual"):
        return run.equal(a, b) == (name == "Equal")
    if name in ("In", "NotIn"):
        return member(run, sign, a, b) == (name == "In")
    try:
        return {"Less": lambda: run.less(a, b), "LessEqual": lambda: not run.less(b, a), "Greater": lambda: run.less(b, a), "GreaterEqual": lambda: not run.less(a, b)}[name]()
    except Unordered:
        run.fail("TypeError", f"bad operand types for {sign}: '{kind(a)}' and '{kind(b)}'")


def compare_row(name, a, b, left=100, depth=0):
    found = row(f"compare comparisons.{name}", [a, b], lambda run: compared(run, name, a, b), view=truth, left=left, depth=depth)
    if " ≡ fine " in found and name not in ("Is", "IsNot"):
        assert found.split(" ≡ fine ")[1].split()[0] == truth(eval(f"a {COMPARED[name]} b")), found
    return found


def compare_rows():
    t = [1]
    orders = [(1, 2), (2, 1), (2, 2), (True, 1), ("a", "b"), ("b", "a"), ("ab", "abc"), ("", ""), ([1], [2]), ([1, 2], [1]), ((), (0,)), ([1, "a"], [1, "b"]), (1, "a"), ("a", 1), (None, None), ({}, {}), ([1], ["a"]), ([1], (1,)), (range(1), range(2)), (print, print), ([None], [None]), ([None], [1])]
    rows = [compare_row(name, a, b) for (a, b), name in zip(orders * 2, itertools.cycle(("Less", "LessEqual", "Greater", "GreaterEqual", "Less", "GreaterEqual", "LessEqual")))]
    equals = [(1, True), (1, "1"), ("ab", "ab"), ("ab", "ac"), ([1, 2], [1, 2]), ([1], (1,)), ({1: 2}, {True: 2}), (None, False), (range(2), range(0, 2, 1)), (t, t), (Function("def f(): pass"), Function("def f(): pass")), (SimpleNamespace(a=1), SimpleNamespace(a=1))]
    rows += [compare_row(name, a, b) for (a, b), name in zip(equals * 2, ["Equal"] * len(equals) + ["NotEqual"] * len(equals))]
    there = [("a", "banana"), ("", "ab"), ("x", ""), ("nan", "banana"), (1, "1"), (None, "a"), (2, [1, 2]), (True, (0, 1)), ("a", []), ("ab", ["a", "ab"]), (1, {True: 0}), ([], {}), ((1, 2), {(1, 2): 0}), (3, range(4)), (3, range(0, 4, 2)), (-1, range(3, -3, -2)), ("a", range(3)), (True, range(2)), (1, 5), (None, None), ([1], [[1]]), (1, SimpleNamespace()), (1, ValueError())]
    rows += [compare_row("In", a, b) for a, b in there] + [compare_row("NotIn", a, b) for a, b in there[::3] + [(1, "1"), (1, 5)]]
    rows += [compare_row(name, a, b) for name in ("Is", "IsNot") for a, b in ((1, 1), (1, True), ("ab", "ab"), ("ab", "abc"), (t, t), (t, [1]), (range(2), range(2)), (None, None), (print, len))]
    rows += [compare_row("Is", "abc", "abd", left=n) for n in (2, 3)] + [compare_row("In", "ab", "abc", left=n) for n in (5, 6)] + [compare_row("Equal", [1, 2], [1, 2], left=n) for n in (1, 2)] + [compare_row("Less", ["ab"], ["ac"], left=n) for n in (4, 5)]
    return rows + [compare_row(name, chain(2, 1), chain(2, 1), depth=n) for name in ("Equal", "Less") for n in (999, 1000)]


# ---- items and attributes

def sequence_place(run, v, i):
    run.index(i)
    n = run.count(v)
    if not -n <= i < n:
        run.fail("IndexError", "index out of range")
    return range(n)[i]


def no_item(run, v):
    run.fail("TypeError", f"'{kind(v)}' object is not subscriptable")


def item_of(run, v, i):
    if isinstance(v, dict):
        run.key(i)
        return v[i] if i in v else run.fail("KeyError", i)
    return v[sequence_place(run, v, i)] if isinstance(v, (str, list, tuple, range)) else no_item(run, v)


def stored(run, v, i, w):
    if isinstance(v, dict):
        run.key(i)
        v[i] = w
    elif isinstance(v, list):
        v[sequence_place(run, v, i)] = w
    else:
        no_item(run, v)


def deleted(run, v, i):
    if isinstance(v, dict):
        run.key(i)
        if i not in v:
            run.fail("KeyError", i)
        del v[i]
    elif isinstance(v, list):
        del v[sequence_place(run, v, i)]
    else:
        no_item(run, v)


def no_attribute(run, v, x):
    run.fail("AttributeError", f"'{kind(v)}' object has no attribute '{x}'")


def attribute_of(run, v, x):
    if isinstance(v, Exception) and x == "args":
        return list(v.args), "tuple"
    return getattr(v, x) if isinstance(v, SimpleNamespace) and x in vars(v) else no_attribute(run, v, x)


def attribute_row(v, x):
    heap = Heap()
    value, begin = heap.value(v), moment(heap, 9)
    run = Run(heap, 9, 0)

    def view(found):
        return f"(node {heap_new(heap, tuple(found[0]))})" if isinstance(found, tuple) and found[-1] == "tuple" else heap.value(found)

    return f"attribute {value} {text(x)} {begin} ≡ {ended(run, lambda: attribute_of(run, v, x), view)}"


def attribute_change(call, v, x, *w):
    heap = Heap()
    written = [heap.value(v), text(x)] + [heap.value(u) for u in w]
    begin = moment(heap, 9)
    run = Run(heap, 9, 0)

    def work():
        if not isinstance(v, SimpleNamespace) or not w and x not in vars(v):
            no_attribute(run, v, x)
        setattr(v, x, *w) if w else delattr(v, x)

    return f"{call} {' '.join(written)} {begin} ≡ {ended(run, work, lambda _: 'tt')}"


def item_rows():
    def found(v, i, left=9):
        return row("item", [v, i], lambda run: item_of(run, v, i), view=None, left=left)

    def store(v, i, w):
        return row("store_item", [v, i, w], lambda run: stored(run, v, i, w), view=lambda _: "tt", left=9)

    def delete(v, i):
        return row("delete_item", [v, i], lambda run: deleted(run, v, i), view=lambda _: "tt", left=9)

    rows = [found(v, i) for v, i in [
        ("abc", 0), ("abc", -1), ("abc", 3), ("abc", -4), ("é😀", 1), ([1, 2], 1), ([1, 2], True), ([1], -1), ([], 0), ((1, "a"), 1), ((), -1), (range(3), 2), (range(0, 10, 3), -1), (range(3), 3), (range(10**30), 10**29), ({1: "a"}, True), ({(1, 2): "a"}, tuple([1, 2])), ({}, "k"), ({1: 2}, None), ({}, tuple([1, 2])), ({}, []), ({}, ([],)),
        ("abc", "a"), ("abc", None), ([1], "0"), ([1], [0]), ((1,), print), (range(2), "a"), (None, 0), (5, 0), (True, "a"), (print, 0), (int, None), (SimpleNamespace(a=1), "a"), (ValueError(1), 0), (Function("def f(): pass"), 0),
    ]]
    rows += [found({(1, 2): 0}, tuple([1, 2]), left=n) for n in (1, 2)]
    rows += [store(v, i, w) for v, i, w in [([1, 2], 0, "x"), ([1, 2], -1, None), ([1], 1, 0), ([], 0, 0), ([1], "a", 0), ([0], False, 1), ({}, 1, 2), ({1: 2}, True, 3), ({1: 2}, "a", 3), ({}, tuple([1, 2]), []), ({}, [], 1), ("ab", 0, "c"), ((1,), 0, 2), (range(3), 0, 1), (None, 0, 0), (5, "a", 0), (SimpleNamespace(), 0, 1), (ValueError(), 0, 1)]]
    rows += [delete(v, i) for v, i in [([1, 2, 3], 1), ([1], -1), ([], 0), ([1], None), ({1: 2, 3: 4}, 1), ({1: 2}, True), ({}, "k"), ({(1,): 2}, tuple([True])), ({}, []), ("ab", 0), ((1,), 0), (range(2), 0), (None, 0), (print, 1)]]
    o = SimpleNamespace(a=1, b=[2])
    rows += [attribute_row(v, x) for v, x in [(o, "a"), (o, "b"), (o, "c"), (ValueError(1, "a"), "args"), (ValueError(), "args"), (ValueError(), "arg"), ([], "append"), ("a", "strip"), (None, "a"), (5, "real"), (print, "name"), (int, "x"), ({}, "keys"), (Function("def f(): pass"), "code")]]
    rows += [attribute_change("store_attribute", v, x, w) for v, x, w in [(SimpleNamespace(a=1), "a", 2), (SimpleNamespace(a=1), "b", None), ([], "a", 1), (None, "a", 1), (ValueError(), "args", 1)]]
    return rows + [attribute_change("delete_attribute", v, x) for v, x in [(SimpleNamespace(a=1, b=2), "a"), (SimpleNamespace(a=1), "b"), ([], "a"), (5, "a"), (ValueError(), "args")]]


# ---- walks

def walk_rows():
    def unpacked(n, v, left=9):
        def work(run):
            found = run.count(v)
            run.spend(found)
            if found != n:
                run.fail("ValueError", f"cannot unpack into {n}")
            return run.items(v)

        heap = Heap()
        value, begin = heap.value(v), moment(heap, left)
        run = Run(heap, left, 0)
        return f"unpacked {n} {value} {begin} ≡ {ended(run, lambda: work(run), lambda vs: listing([heap.value(w) for w in vs]))}"

    rows = [unpacked(n, v) for n, v in [(0, []), (1, [5]), (2, [1, 2]), (2, [1]), (2, [1, 2, 3]), (2, "ab"), (1, "é"), (2, "abc"), (3, range(3)), (2, range(3)), (2, (1, [2])), (1, ()), (2, {1: 2, "a": 3}), (1, {1: 2, (1, 2): 3}), (2, {1: 2, (1, 2): 3}), (1, 5), (0, None), (1, print), (2, SimpleNamespace()), (2, ValueError(1, 2)), (2, range(10**30))]]
    rows += [unpacked(2, [1, 2], left=n) for n in (1, 2)] + [unpacked(1, [1, 2], left=n) for n in (1, 2)] + [unpacked(1, {(1, 2): 0}, left=n) for n in (2, 3)]
    for v, walk in [([1], "(along_list 0)"), ((1, 2), "(along_tuple (integer (pos 1) ∷ integer (pos 2) ∷ []))"), ({1: 2}, "(along_dict 0 1 keys)"), ({}, "(along_dict 0 0 keys)"), ("ab", '(along_text (codes "ab"))'), (range(5, 0, -2), "(along_range (pos 5) (pos 0) (negsuc 1))")]:
        heap = Heap()
        value = heap.value(v)
        now = moment(heap, 9)
        rows.append(f"walk_of {value} {now} ≡ fine {walk} {now}")
    for v in [None, True, 5, print, int, SimpleNamespace(), ValueError(), Function("def f(): pass")]:
        rows.append(row("walk_of", [v], lambda run, v=v: run.count(v), left=9))

    def at(v, walk, k, found, after=()):
        heap = Heap()
        heap.value(v)
        now = moment(heap, 9)
        end = found(heap)
        return f"item_for ({walk}) {k} {now} ≡ fine {end} {moment(heap, 9 - len(after))}"

    def plain(w):
        return lambda heap: f"(Some {heap.value(w)})"

    def over(heap):
        return "None"

    rows += [at([1, "a"], "along_list 0", 0, plain(1)), at([1, "a"], "along_list 0", 1, plain("a")), at([1, "a"], "along_list 0", 2, over), at([], "along_list 0", 0, over), at({1: 2, 3: 4}, "along_dict 0 2 keys", 1, plain(3)), at({1: 2, 3: 4}, "along_dict 0 2 values", 1, plain(4)), at({1: 2}, "along_dict 0 1 keys", 1, over), at({1: 2}, "along_dict 0 1 values", 1, over), at({}, "along_dict 0 0 items", 0, over)]
    rows.append(at({1: 2}, "along_dict 0 1 items", 0, lambda heap: f"(Some (node {heap_new(heap, (1, 2))}))"))
    rows.append(at({(1, 2): 3}, "along_dict 0 1 keys", 0, lambda heap: f"(Some (node {heap_new(heap, (1, 2))}))", after=(1, 2)))
    rows.append(at({(1, 2): 3}, "along_dict 0 1 values", 0, plain(3)))
    changed = 'raised (fresh 19 (text (codes "dictionary changed size during iteration") ∷ []))'
    for size, view, k in ((0, "keys", 0), (2, "keys", 1), (2, "values", 5), (0, "items", 1)):
        heap = Heap()
        heap.value({1: 2})
        now = moment(heap, 9)
        rows.append(f"item_for (along_dict 0 {size} {view}) {k} {now} ≡ {changed} {now}")
    for k in range(3):
        rows.append(f"item_for (along_tuple (none ∷ integer (pos 1) ∷ [])) {k} (bare [] 9 0) ≡ fine {['(Some none)', '(Some (integer (pos 1)))', 'None'][k]} (bare [] 9 0)")
        rows.append(f"item_for (along_text (codes \"ab\")) {k} (bare [] 9 0) ≡ fine {['(Some (text (codes %sa%s)))' % (chr(34), chr(34)), '(Some (text (codes %sb%s)))' % (chr(34), chr(34)), 'None'][k]} (bare [] 9 0)")
    for r in (range(3), range(5, 0, -2), range(0), range(-4, 4, 3)):
        for k in (0, 1, 2, 3):
            found = f"(Some (integer {number(r[k])}))" if k < len(r) else "None"
            rows.append(f"item_for (along_range {number(r.start)} {number(r.stop)} {number(r.step)}) {k} (bare [] 9 0) ≡ fine {found} (bare [] 9 0)")
    return rows


# ---- ways out

def way_rows():
    now = "(bare [] 9 0)"
    bad = 'raised (fresh 23 (text (codes "exceptions must be exception classes or objects") ∷ []))'
    rows = []
    for k, n in [(11, 9), (11, 11), (11, 10), (9, 11), (16, 14), (15, 14), (15, 16), (18, 17), (17, 18), (21, 19), (20, 19), (21, 20), (24, 8), (8, 24), (23, 24), (12, 12)]:
        rows.append(f"is_caught (fresh {k} []) (class {n}) {now} ≡ fine {truth(issubclass(eval(CLASSES[k]), eval(CLASSES[n])))} {now}")
    rows += [f"is_caught (fresh 24 []) {v} {now} ≡ {bad} {now}" for v in ("(class 7)", "(class 2)", "none", "(integer (pos 1))", "(text [])", "(builtin 0)")]
    for kinds, k in [([], 24), ([24], 24), ([16, 24], 24), ([16, 15], 24), ([8], 16), ([14, 9], 15)]:
        there = f"(bare (tuple {listing([f'class {n}' for n in kinds])} ∷ []) 9 0)"
        rows.append(f"is_caught (fresh {k} []) (node 0) {there} ≡ fine {truth(any(issubclass(eval(CLASSES[k]), eval(CLASSES[n])) for n in kinds))} {there}")
    for node in ("list (class 24 ∷ [])", "tuple (class 24 ∷ none ∷ [])", "tuple (class 24 ∷ class 1 ∷ [])", "exception 24 []", "dict []"):
        there = f"(bare (({node}) ∷ []) 9 0)"
        rows.append(f"is_caught (fresh 24 []) (node 0) {there} ≡ {bad} {there}")
    there = "(bare (exception 16 [] ∷ []) 9 0)"
    rows += [f"is_caught (thrown_object 0) (class {n}) {there} ≡ fine {truth(issubclass(KeyError, eval(CLASSES[n])))} {there}" for n in (16, 14, 8, 15, 24)]
    rows += [f"throw_value {{A = ℕ}} (class {n}) {now} ≡ raised (thrown_object 0) (bare (exception {n} [] ∷ []) 9 0)" for n in (8, 16, 24)] + [f"throw_value {{A = ℕ}} {v} {now} ≡ {bad} {now}" for v in ("(class 7)", "(class 5)", "none", "(integer (pos 1))", "(text [])", "(builtin 10)", "(node 0)")]
    rows += [f"throw_value {{A = ℕ}} (node 0) {there} ≡ raised (thrown_object 0) {there}", f"throw_again {{A = ℕ}} {now} ≡ {bad} {now}", "throw_again {A = ℕ} (record (bare (exception 16 [] ∷ []) 9 0) { handled = Some (node 0) }) ≡ raised (thrown_object 0) (record (bare (exception 16 [] ∷ []) 9 0) { handled = Some (node 0) })"]
    rows += [f"object_of (fresh 24 (none ∷ [])) {now} ≡ fine (node 0) (bare (exception 24 (none ∷ []) ∷ []) 9 0)", f"object_of (thrown_object 3) {now} ≡ fine (node 3) {now}"]
    flows = ["onward", "broke", "continued", "(returned none)"]
    out = "raised (fresh 24 [])"
    for first in flows:
        rows.append(f"go_on {first} (give broke) {now} ≡ fine {'broke' if first == 'onward' else first} {now}")
        rows.append(f"turn_on {first} (give (returned (integer (pos 1)))) {now} ≡ fine {'(returned (integer (pos 1)))' if first in ('onward', 'continued') else 'onward' if first == 'broke' else first} {now}")
        rows += [f"finally (give {first}) (give {last}) {now} ≡ fine {first if last == 'onward' else last} {now}" for last in flows]
        rows.append(f"finally (throw (fresh 24 [])) (give {first}) {now} ≡ " + (f"{out} {now}" if first == "onward" else f"fine {first} {now}"))
        rows.append(f"finally (give {first}) (throw (fresh 24 [])) {now} ≡ {out} {now}")
        rows.append(f"finally (λ s. stopped s) (give {first}) {now} ≡ stopped {now}")
        rows.append(f"finally (give {first}) (tick >> give onward) (bare [] 0 0) ≡ stopped (bare [] 0 0)")
        rows.append(f"attempt (give {first}) (λ x. give broke) (give continued) {now} ≡ fine {'continued' if first == 'onward' else first} {now}")
    rows += [f"attempt (throw (fresh 24 [])) (λ x. give broke) (give continued) {now} ≡ fine broke {now}", f"attempt (throw (fresh 24 [])) (λ x. throw x) (give continued) {now} ≡ {out} {now}", f"attempt (λ s. stopped s) (λ x. give broke) (give continued) {now} ≡ stopped {now}", f"attempt (give onward) (λ x. give broke) (throw (fresh 24 [])) {now} ≡ {out} {now}"]
    return rows


# ---- functions

BODIES = [
    ("def f(): pass", []), ("def f(a): pass", ["a"]), ("def f(a, b=1): pass", ["a", "b"]), ("def f(): x = 1", ["x"]), ("def f(): x = y = 1", ["x", "y"]), ("def f(): x, (y, [z]) = 1", ["x", "y", "z"]), ("def f(): x += 1", ["x"]), ("def f(): del x", ["x"]), ("def f(): x[0] = y.z = 1", []), ("def f(): x[0] += 1", []), ("def f(): x", []), ("def f(): x(y=1)", []), ("def f(): return x", []), ("def f():\n  for x in y: z = 1", ["x", "z"]), ("def f():\n  for x, y in z: pass", ["x", "y"]),
    ("def f():\n  if a: x = 1\n  elif b: y = 1\n  else: z = 1", ["x", "y", "z"]), ("def f():\n  while a: x = 1", ["x"]), ("def f():\n  try: x = 1\n  except a as y: z = 1\n  else: u = 1\n  finally: v = 1", ["x", "y", "z", "u", "v"]), ("def f():\n  try: x = 1\n  finally: y = 1", ["x", "y"]), ("def f(): from types import SimpleNamespace", ["SimpleNamespace"]), ("def f(): from types import SimpleNamespace as S", ["S"]), ("def f():\n  global x\n  x = 1", []), ("def f(a):\n  global x\n  x = y = 1", ["a", "y"]), ("def f():\n  if a: global x\n  for x in b: y = 1", ["y"]), ("def f():\n  (x) = 1", ["x"]),
]
CALLS = [
    ("", [], {}), ("", [1], {}), ("", [], {"a": 1}), ("a", [1], {}), ("a", [], {}), ("a", [], {"a": 1}), ("a", [1], {"a": 2}), ("a", [], {"b": 1}), ("a", [1, 2], {}), ("a, b", [1, 2], {}), ("a, b", [1], {"b": 2}), ("a, b", [], {"b": 2, "a": 1}), ("a, b", [1], {}), ("a, b", [1], {"a": 2}), ("b, a", [1, 2], {}), ("a, b=7", [1], {}), ("a, b=7", [1, 2], {}), ("a, b=7", [], {"a": 1}), ("a, b=7", [], {"b": 1}), ("a=7, b=8", [], {}), ("a=7, b=8", [], {"b": 1}), ("a=7, b=8", [1], {"a": 2}), ("a=7, b=8", [1, 2, 3], {}), ("a=7, b=8", [], {"c": 1}), ("c, a=7, b=8", [1], {"b": 2}),
]
FUNCTION = """
abbrev own_in : Result (List Statement) ℕ → Option (List Text)
own_in found = option_map own_names (function_in found)

abbrev bound_in : Result (List Statement) ℕ → List Value → List Value → Names → Option Names
bound_in found defaults plain named = option_and_then (λ d. bound_values d defaults (record { plain = plain; named = named })) (function_in found)""".split("\n")


def values(vs):
    return listing([f"integer (pos {v})" for v in vs])


def named(d):
    return listing([f'({text(x)}, integer (pos {d[x]}))' for x in sorted(d)])


def local_rows():
    rows = [f"own_in (read_chars One {antt_text(source)}) ≡ Some {listing([text(x) for x in own])}" for source, own in BODIES]
    for source, own in BODIES:
        there = {}
        exec(source, there)
        assert set(own) == set(there["f"].__code__.co_varnames), source
    rows += ["own_in (read_chars One (codes \"x = 1\")) ≡ None", "own_in (read_chars One (codes \"def f(): a\\nb\")) ≡ None"]
    for parameters, plain, keywords in CALLS:
        there = {}
        exec(f"def f({parameters}): pass", there)
        try:
            bound = inspect.signature(there["f"]).bind(*plain, **keywords)
            bound.apply_defaults()
            found = f"Some {named(bound.arguments)}"
        except TypeError:
            found = "None"
        rows.append(f"bound_in (read_chars One {antt_text(f'def f({parameters}): pass')}) {values(there['f'].__defaults__ or ())} {values(plain)} {named(keywords)} ≡ {found}")
    return rows


def main():
    nodes = [VALUES, BARE, ENDS, MEANING + "values.BuiltinNames.{class_names}", "use Rattle.std.specs.Str.{chars}", MEANING + "values.Numbers.{power}"]
    operators = ["use Rattle.kishu_language.specs.declared.tree.Operator.TheVariants as operators", "use Rattle.kishu_language.specs.declared.tree.Sign.TheVariants as signs"]
    maker = "call_rows.py"
    told = "with the steps that are left"
    rows_file("OperatorExamples", f"What operators answer on values of each kind, as CPython tells, {told}", operators + nodes + [MEANING + "calls.Operators.{truth, operate, signed_value}"], operator_rows(), "operator", "class_names power", maker=maker)
    rows_file("CompareExamples", f"What comparisons answer on values of each kind, as CPython tells, {told}", ["use Rattle.kishu_language.specs.declared.tree.Comparison.TheVariants as comparisons"] + nodes + [MEANING + "comparing.Comparing.{compare}"], compare_rows(), "comparison", "class_names", maker=maker)
    rows_file("ItemExamples", f"Items and attributes that are read, stored and deleted, as CPython tells, {told}", nodes + [MEANING + "items.Subscripts.{item, attribute, store_item, store_attribute, delete_item, delete_attribute}"], item_rows(), "item", "class_names chars", maker=maker)
    rows_file("WalkExamples", f"What is walked, and its items, {told}", nodes + ["use Rattle.std.specs.Fmt.{digits}", MEANING + "items.Walks.{keys, values, items, along_list, along_dict, along_tuple, along_text, along_range, unpacked, walk_of, item_for}"], walk_rows(), "walk", "class_names digits", maker=maker)
    thrown = ENDS.replace("fresh", "fresh, thrown_object, ◌>>◌, give, throw, tick")
    rows_file("WayExamples", "Where a statement leads: exceptions that are raised and caught, and the last block", [VALUES, BARE, thrown, MEANING + "cells.Ways.{onward, broke, continued, returned, go_on, turn_on, is_caught, throw_value, throw_again, object_of, attempt, finally}"], way_rows(), "way", maker=maker)
    heads = (IMPORTS % ("◌≡◌, ◌∷◌, [], refl", "ℕ, pos, List, codes, Option, Some, None, Result, option_map, option_and_then", "", "")).splitlines()
    write("LocalExamples", "Which names are local to a function, and what a call binds to its parameters, as CPython tells: computed on the definition.",
          heads + [LANGUAGE + "trees.Tree.{Text, Statement}", MEANING + "values.Values.{Value, integer, Names}", MEANING + "calls.Functions.{own_names, bound_values, function_in}"] + FUNCTION, local_rows(), "local", OPENED, maker=maker)


if __name__ == "__main__":
    main()
