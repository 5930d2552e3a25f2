#!/usr/bin/env python3
"""Makes the rows on single rules of values, names and moments in crates/kishu_meaning_rows/proofs:
SoundExamples, AccessExamples, KindExamples, ClassExamples, IsExamples, FindingExamples, SortingExamples,
KeyValueExamples, IndexExamples, CountingExamples, MomentExamples, SliceExamples and SliceOrderExamples.

What CPython has as well is asked of it: the order of sorting, which class stands below which, places by an
index or a slice, kinds, and what is equal. The steps are counted here, by the rules as they are told in words.
"""
from types import SimpleNamespace

from nodes import BUILTINS, CLASSES, LANGUAGE, MEANING, Function, Heap, chain, is_same, key, listing, needed, number, text, truth, write
from values import Run, ended, kind, moment, sorted_row, values

COMMON = "use Rattle.std.proofs.Common.{◌≡◌, refl, [], ◌∷◌, true, false, ◌++◌, replicate}"
PRELUDE = "use Rattle.std.specs.Prelude.{pos, negsuc, codes, Some, None, ℕ}"
KEYS = MEANING + "values.Keys as p"
PROFILE = "use Rattle.kishu_language.specs.declared.profile.Profile.TheVariants.{One}"
VALUES = MEANING + "values.Values.{Value, Names, none, bool, integer, text, range, builtin, class, node, Node, list, tuple, dict, object, function, exception, find, bind}"
ENDS = MEANING + "moments.Moment.{Moment, fresh, fine, raised, stopped}"
BARE = "use Rattle.kishu_meaning_laws.specs.Bare.{bare}"


def rows_file(name, head, uses, rows, prefix, unfolding="", helpers=(), maker="state_rows.py"):
    shown = " ".join(rows)
    signs = " ".join(f"◌{sign}◌" for sign in (">>=", ">>") if f" {sign} " in shown)
    uses = needed([COMMON, PRELUDE, KEYS, PROFILE] + uses, rows + list(helpers), f"{unfolding} {signs}")
    if not any("p." in row for row in rows):
        uses.remove(KEYS)
    write(name, head + ": computed on the definition.", uses + list(helpers), rows, prefix, unfolding, maker=maker)


# ---- what is sound

VALID = [None, True, 0, -(2**127), "", "a", range(3), range(0, 5, -2), print, list, ValueError]
BAD_VALUES = ["(range (pos 0) (pos 5) (pos 0))", "(builtin 14)", "(builtin 100)", "(class 25)", "(class 1000)"]


def sound_rows():
    rows = [f"is_valid {Heap().value(v)} ≡ true" for v in VALID] + [f"is_valid {v} ≡ false" for v in BAD_VALUES]
    rows += [f"is_valid (builtin {n}) ≡ {truth(n < len(BUILTINS))}" for n in (0, 13)] + [f"is_valid (class {n}) ≡ {truth(n < len(CLASSES))}" for n in (0, 24)]
    rows += ["is_valid (node 7) ≡ true", "is_sound 1 (node 0) ≡ true", "is_sound 0 (node 0) ≡ false", "is_sound 3 (node 2) ≡ true", "is_sound 3 (node 3) ≡ false", "is_sound 0 none ≡ true", "is_sound 0 (class 24) ≡ true", "is_sound 5 (class 25) ≡ false", "is_sound 5 (range (pos 1) (pos 1) (pos 0)) ≡ false"]
    rows += [f"is_exception_class {n} ≡ {truth(n < len(CLASSES) and issubclass(eval(CLASSES[n]), Exception))}" for n in (0, 5, 7, 8, 9, 16, 23, 24)] + ["is_exception_class 25 ≡ false"]
    sound = [
        ("list []", 0, True), ("list (node 0 ∷ [])", 1, True), ("list (node 0 ∷ node 1 ∷ [])", 1, False), ("tuple (none ∷ builtin 14 ∷ [])", 4, False), ("tuple (node 3 ∷ [])", 4, True),
        ("dict ((p.single p.none, node 0) ∷ [])", 1, True), ("dict ((p.single p.none, node 1) ∷ [])", 1, False), ("object ((codes \"a\", node 0) ∷ [])", 1, True), ("object ((codes \"if\", none) ∷ [])", 1, False), ("object ((codes \"1a\", none) ∷ [])", 1, False), ("object (([], none) ∷ [])", 1, False),
        ("object ((codes \"a\", node 1) ∷ [])", 1, False), ("object ((replicate 255 97, none) ∷ [])", 0, True), ("object ((replicate 256 97, none) ∷ [])", 0, False), ("function One (codes \"def f(a=1): pass\") (integer (pos 1) ∷ [])", 0, True), ("function One [] (node 0 ∷ [])", 0, False),
        ("exception 24 (text [] ∷ [])", 0, True), ("exception 7 []", 0, False), ("exception 25 []", 0, False), ("exception 8 []", 0, True), ("exception 16 (node 2 ∷ [])", 2, False),
    ]
    rows += [f"is_sound_node {n} ({written}) ≡ {truth(found)}" for written, n, found in sound]
    heaps = [("[]", True), ("(list (node 0 ∷ []) ∷ [])", True), ("(list (node 1 ∷ []) ∷ [])", False), ("(list (node 1 ∷ []) ∷ tuple (node 0 ∷ []) ∷ [])", True), ("(list [] ∷ tuple (node 2 ∷ []) ∷ [])", False), ("(exception 3 [] ∷ [])", False)]
    rows += [f"is_sound_heap {written} ≡ {truth(found)}" for written, found in heaps]
    names = [("[]", 0, True), ("((codes \"a\", none) ∷ [])", 0, True), ("((codes \"a\", node 0) ∷ [])", 0, False), ("((codes \"a\", node 0) ∷ [])", 1, True), ("((codes \"def\", none) ∷ [])", 1, False), ("((codes \"a\", none) ∷ (codes \"b c\", none) ∷ [])", 1, False), ("((codes \"print\", none) ∷ [])", 0, True)]
    rows += [f"are_sound_names {n} {written} ≡ {truth(found)}" for written, n, found in names]
    counts = [([], 0), ([("a", False)], 0), ([("a", True)], 1), ([("a", False), ("b", True), ("c", True)], 2), ([("a", False), ("b", False)], 0)]
    for parameters, n in counts:
        listed = listing([f'(codes "{x}", {"Some t.none" if default else "None"})' for x, default in parameters])
        rows.append(f'default_count (record {{ title = codes "f"; parameters = {listed}; body = t.no_statements }}) ≡ {n}')
    return rows


# ---- names that are bound, and those that were accessed

WORDS = ["b", "B", "a", "_", "ab", "b1", "c", "Z", "bb", "aa"]


def names_term(d):
    return listing([f"({text(x)}, {Heap().value(d[x])})" for x in sorted(d)])


def words_term(xs):
    return listing([text(x) for x in xs])


def access_rows():
    rows, there = [], ["B", "_", "b", "bb"]
    bound = {x: i for i, x in enumerate(there)}
    for x in WORDS:
        rows.append(f"with_access {text(x)} {words_term(there)} ≡ {words_term(sorted(set(there) | {x}))}")
        rows.append(f"find {text(x)} {names_term(bound)} ≡ " + (f"Some (integer (pos {bound[x]}))" if x in bound else "None"))
        rows.append(f"bind {text(x)} none {names_term(bound)} ≡ {names_term(bound | {x: None})}")
        rows.append(f"unbind {text(x)} {names_term(bound)} ≡ {names_term({y: v for y, v in bound.items() if y != x})}")
    others = {"a": 1, "aa": 2, "c": 3}
    for x in WORDS:
        rows.append(f"with_access {text(x)} {words_term(sorted(others))} ≡ {words_term(sorted(set(others) | {x}))}")
        rows.append(f"bind {text(x)} none {names_term(others)} ≡ {names_term(others | {x: None})}")
        rows.append(f"unbind {text(x)} {names_term(others)} ≡ {names_term({y: v for y, v in others.items() if y != x})}")
        rows.append(f"find {text(x)} {names_term(others)} ≡ " + (f"Some (integer (pos {others[x]}))" if x in others else "None"))
    rows += [f"with_access {text('a')} [] ≡ {words_term(['a'])}", f"find {text('a')} [] ≡ None", f"bind {text('a')} none [] ≡ {names_term({'a': None})}", f"unbind {text('a')} [] ≡ []"]
    for new, old in [([], []), ([], ["a"]), (["a"], []), (["b", "a"], []), (["a", "a"], []), (["c", "a"], ["b"]), (["a", "b"], ["a", "b"]), (["Z", "_", "a"], ["A", "z"]), (["ab", "a", "abc"], ["ab"])]:
        rows.append(f"with_accesses {words_term(new)} {words_term(old)} ≡ {words_term(sorted(set(new) | set(old)))}")
    return rows


# ---- kinds, and the exceptions that tell them

THINGS = [None, True, 7, "a", range(2), print, list, [], (), {}, SimpleNamespace(), Function("def f(): pass"), ValueError(), KeyError("k"), Exception()]


def told_row(call, v, number_of, message, left=9):
    heap = Heap()
    value = heap.value(v)
    now = f"(bare {heap.nodes()} {left} 0)"
    return f"{call} {value} {now} ≡ raised (fresh {number_of} (text {text(message)} ∷ [])) {now}"


def kind_rows():
    rows = []
    for v in THINGS:
        heap = Heap()
        value = heap.value(v)
        rows.append(f"kind_in {heap.nodes()} {value} ≡ {text(kind(v))}")
    for v in THINGS:
        k = kind(v)
        rows.append(told_row("not_iterable {A = ℕ}", v, 23, f"'{k}' object is not iterable"))
        rows.append(told_row("bad_index {A = ℕ}", v, 23, f"bad index type: '{k}'"))
        rows.append(told_row("unhashable {A = ℕ}", v, 23, f"unhashable key: '{k}'"))
        rows.append(told_row("not_subscriptable {A = ℕ}", v, 23, f"'{k}' object is not subscriptable"))
        rows.append(told_row("not_callable {A = ℕ}", v, 23, f"'{k}' object is not callable"))
    for v, x in [(None, "a"), ([], "pop"), (SimpleNamespace(), "b"), (ValueError(), "arg")]:
        heap = Heap()
        value = heap.value(v)
        now = f"(bare {heap.nodes()} 9 0)"
        message = "'%s' object has no attribute '%s'" % (kind(v), x)
        rows.append(f"no_attribute {{A = ℕ}} {value} {text(x)} {now} ≡ raised (fresh 13 (text {text(message)} ∷ [])) {now}")
    return rows


# ---- classes

def class_rows():
    exceptions = [n for n, c in enumerate(CLASSES) if issubclass(eval(c), Exception)]
    rows = [f"is_within {n} 8 ≡ true" for n in exceptions]
    some = [9, 10, 11, 14, 15, 16, 17, 18, 19, 20, 21, 22, 24]
    for n in some:
        for m in (9, 14, 17, 19, n, 24):
            rows.append(f"is_within {n} {m} ≡ {truth(issubclass(eval(CLASSES[n]), eval(CLASSES[m])))}")
    return list(dict.fromkeys(rows))


# ---- `is`

def is_rows():
    a, b = [1], [1]
    f, g, e = Function("def f(): pass"), Function("def f(): pass"), ValueError()
    pairs = [
        (None, None), (True, True), (True, False), (True, 1), (1, True), (0, False), (1, 1), (1, 2), (-1, 1), ("", ""), ("a", "a"), ("a", "b"), ("ab", "a"), ("1", 1), (None, 0), (None, False),
        (range(3), range(3)), (range(3), range(0, 3, 1)), (range(0, 3, 2), range(0, 4, 2)), (range(0), range(5, 5)), (range(0), range(0, -1)), (range(1), range(0, 1, 5)), (print, print), (print, len), (list, list), (list, tuple), (print, list), (a, a), (a, b), (a, 1), (None, a), (f, f), (f, g), (e, e), (e, ValueError()), ({}, {}), ((), (1,)),
    ]
    rows = []
    for v, w in pairs:
        heap = Heap()
        x, y = heap.value(v), heap.value(w)
        rows.append(f"is_same {x} {y} ≡ {truth(is_same(v, w))}")
    same_numbers = [(range(3), range(3)), (range(0, 3, 2), range(0, 4, 2)), (range(0), range(5, 5)), (range(1), range(0, 1, 5)), (range(3), range(4)), (range(3, 0, -1), range(1, 4)), (range(0, 6, 2), range(0, 6, 3)), (range(5, 0, -2), range(5, -1, -2))]
    for v, w in same_numbers:
        rows.append(f"is_equal {Heap().value(v)} {Heap().value(w)} ≡ {truth(v == w)}")
    for v in [range(0), range(5), range(2, 9, 3), range(9, 2, -3), range(5, 1), range(1, 5, -1), range(10**30), range(-5, 5), range(0, 10, 3), range(0, 9, 3), range(-(2**127), 2**127 - 1)]:
        rows.append(f"range_length {number(v.start)} {number(v.stop)} {number(v.step)} ≡ {-((v.start - v.stop) // v.step) if v else 0}")
    return rows


# ---- equal items

def found_row(call, items, x, left=100, depth=0):
    heap = Heap()
    value, listed = heap.value(x), values(heap, items)
    begin = moment(heap, left, depth)
    run = Run(heap, left, depth)

    def place():
        return next((i for i, item in enumerate(items) if run.visit(item, x)), None)

    def count():
        return sum(run.visit(item, x) for item in items)

    if call == "place_among":
        end = ended(run, place, lambda i: "None" if i is None else f"(Some {i})")
    else:
        end = ended(run, count, str)
    return f"{call} {value} {listed} {begin} ≡ {end}"


def finding_rows():
    t, e = [1], ValueError("x")
    tables = [
        ([], 1), ([1], 1), ([1, 2, 1], 1), ([2, 3], 1), ([0, True, 1], 1), ([False], 0), (["a", "ab"], "ab"), (["ab", "ac", "ab"], "ab"), ([None, 0], None), (["1"], 1), ([[1], [2]], [2]), ([t, [1]], t), ([[1], t], t), ([e, ValueError("x")], e), ([ValueError("x")], e),
        ([range(3), 1], range(0, 3)), ([{1: 2}], {True: 2}), ([(1, 2), (1, 3)], (1, 3)), ([print, list], list), ([[[1]], [[2]]], [[2]]),
    ]
    rows = [found_row(call, items, x) for items, x in tables for call in ("place_among", "count_among")]
    rows += [found_row(call, ["abc", "abd"], "abd", left=n) for call in ("place_among", "count_among") for n in (0, 1, 3, 4, 7, 8)]
    rows += [found_row("place_among", [chain(3, 1)], chain(3, 1), depth=n) for n in (997, 998, 999, 1000)]
    return rows


# ---- sorting

def sorting_rows():
    items = [
        [], [1], [2, 1], [1, 2], [3, 1, 2], [1, 1, 1], [5, 4, 3, 2, 1], [0, -1, 1, -2], [True, 0, 1, False], [1, True], [True, 1], [False, 0, True, 1], [2**127 - 1, -(2**127), 0], [""], ["a"], ["b", "a"], ["a", "B", "_", "0"], ["ab", "a", "abc", ""], ["é", "e", "z"], ["😀", "\uffff", "a"], ["aa", "a", "aa"],
        [1, "a"], ["a", 1], [None], [1, None], [[1]], [(1,), (0,)], [range(2)], ["a", None], [True, "a"], [print], [1, 2, "3"], [list, 1],
    ]
    rows = [sorted_row(w) for w in items]
    rows += [f"sort_steps {n} ≡ {n * n.bit_length() + n}" for n in (0, 1, 2, 3, 4, 5, 15, 16, 17, 100, 255, 256, 1000)]
    return rows


# ---- values as keys, and keys as values

def heap_new(heap, found):
    """The number of a node that is new each time."""
    heap.things.append(found)
    return len(heap.things) - 1


def key_value_row(k, left=9):
    heap = Heap()
    begin = moment(heap, left)
    run = Run(heap, left, 0)

    def work():
        if isinstance(k, tuple):
            run.spend(len(k))
            return f"(node {heap_new(heap, k)})"
        return heap.value(k)

    return f"value_of_key {key(k)} {begin} ≡ {ended(run, work, str)}"


def key_values_row(ks, left=9):
    heap = Heap()
    begin = moment(heap, left)
    run = Run(heap, left, 0)

    def work():
        found = []
        for k in ks:
            if isinstance(k, tuple):
                run.spend(len(k))
            found.append(f"(node {heap_new(heap, k)})" if isinstance(k, tuple) else heap.value(k))
        return listing(found)

    return f"values_of_keys {listing([key(k) for k in ks])} {begin} ≡ {ended(run, work, str)}"


def as_key_row(v, left=9):
    heap = Heap()
    value = heap.value(v)
    begin = moment(heap, left)
    run = Run(heap, left, 0)

    def work():
        run.key(v)
        return key(v)

    return f"key_of_value {value} {begin} ≡ {ended(run, work, str)}"


def key_value_rows():
    keys = [None, True, False, 0, -1, 2**127 - 1, "", "a", "é", (), (1,), (None, True, "a"), (1, 2, 3)]
    rows = [key_value_row(k) for k in keys] + [key_value_row((1, 2, 3), left=n) for n in (0, 2, 3)] + [key_value_row(1, left=0), key_value_row((), left=0)]
    rows += [key_values_row(ks) for ks in ([], [1], [1, "a", None], [(1,)], [(1,), (2, 3)], [(), ()])] + [key_values_row([(1,), (2, 3)], left=n) for n in (0, 1, 2, 3)] + [key_values_row([1, 2], left=0)]
    rows += [as_key_row(v) for v in (False, -5, "é", (True,), (None, ""), ((),), ("a", ()), (1, [2]), ({}, 1), (print,), (ValueError,), (range(1),), Exception(), len, int, SimpleNamespace(a=1), Function("def f(): pass"))]
    rows += [as_key_row((1, []), left=n) for n in (0, 1, 2)]
    return rows


# ---- places

def place(call, argument, found, left=9):
    now = f"(bare [] {left} 0)"
    return f"{call} {argument} {now} ≡ {found % now}"


def index_rows():
    rows = []
    for n in (1, 2, 5):
        for z in (0, 1, n - 1, n, n + 1, -1, -n, -n - 1, 2**127 - 1, -(2**127)):
            try:
                found = f"Some {range(n)[z]}"
            except (IndexError, OverflowError):
                found = "None"
            rows.append(f"place_in {n} {number(z)} ≡ {found}")
    for n in (1, 4):
        rows += [f"bound_in {n} {number(z)} ≡ {slice(z, None).indices(n)[0]}" for z in (0, 1, n, n + 1, -1, -n, -n - 1, 2**127 - 1, -(2**127))]
    rows += [place("index_of", Heap().value(v), f"fine {number(int(v))} %s") for v in (0, -3, True, False, 2**127 - 1)]
    rows += [place("index_of", Heap().value(v), "raised (fresh 23 (text %s ∷ [])) %%s" % text(f"bad index type: '{kind(v)}'")) for v in (None, "1", range(1), print, int)]
    out = 'raised (fresh 15 (text (codes "index out of range") ∷ [])) %s'
    rows += [place(f"place_of {n}", number(z), out if not -n <= z < n else f"fine {z % n} %s") for n, z in ((0, 0), (3, 2), (3, 3), (3, -3), (3, -4), (1, -1))]
    return list(dict.fromkeys(rows))


# ---- what counts its steps

COUNT = MEANING + "moments.Counting.{Count, ◌>>=◌, ◌>>◌, give, spend, stop_deep, answer, too_deep, spent, ended_in, counted}"


def counting_rows():
    rows = [f"give {{A = ℕ}} 7 {n} ≡ answer 7 {n}" for n in (0, 5)] + [f"stop_deep {{A = ℕ}} {n} ≡ too_deep {n}" for n in (0, 5)]
    rows += [f"spend {k} {n} ≡ " + (f"answer tt {n - k}" if k <= n else "spent 0") for k in (0, 1, 3, 10**30) for n in (0, 1, 2, 3, 4)]
    rows += [f"(spend {a} >> spend {b}) {n} ≡ " + (f"answer tt {n - a - b}" if a + b <= n else "spent 0") for a, b, n in ((1, 1, 2), (1, 1, 1), (2, 3, 5), (2, 3, 4), (5, 0, 4), (0, 0, 0), (3, 1, 2))]
    rows += [f"(spend {a} >> give {{A = ℕ}} 7) {n} ≡ " + (f"answer 7 {n - a}" if a <= n else "spent 0") for a, n in ((1, 1), (1, 0), (4, 9))]
    rows += ["(give {A = ℕ} 3 >>= λ k. give (k ∷ [])) 4 ≡ answer (3 ∷ []) 4", "(stop_deep {A = ℕ} >>= λ k. spend 2) 4 ≡ too_deep 4", "(spend 2 >> stop_deep {A = ℕ}) 4 ≡ too_deep 2", "(spend 5 >> stop_deep {A = ℕ}) 4 ≡ spent 0", "(stop_deep {A = ℕ} >> spend 5) 4 ≡ too_deep 4"]
    deep = 'raised (fresh 21 (text (codes "depth limit reached") ∷ []))'
    for n in (0, 4):
        rows.append(f"counted {{A = ℕ}} (give 7) (bare [] {n} 0) ≡ fine 7 (bare [] {n} 0)")
        rows.append(f"counted (stop_deep {{A = ℕ}}) (bare [] {n} 3) ≡ {deep} (bare [] {n} 3)")
        rows.append(f"counted (spend 2 >> stop_deep {{A = ℕ}}) (bare [] {n} 3) ≡ " + (f"{deep} (bare [] {n - 2} 3)" if n >= 2 else f"stopped (bare [] 0 3)"))
        rows.append(f"counted (spend 2) (bare (list [] ∷ []) {n} 0) ≡ " + (f"fine tt (bare (list [] ∷ []) {n - 2} 0)" if n >= 2 else "stopped (bare (list [] ∷ []) 0 0)"))
    return rows


# ---- moments

HERE = """
abbrev now : Moment
now = record (bare (list [] ∷ []) 9 0) { names = (codes "a", integer (pos 1)) ∷ (codes "len", none) ∷ [] }

-- in a function whose local names are a and b
abbrev inner : Names → Moment
inner values = record now { locals = Some (record { own = codes "a" ∷ codes "b" ∷ []; values = values }) }"""


def accessed(begin, *names, change=""):
    return "(record %s { %saccessed = %s })" % (begin, change, words_term(names))


def error(n, message):
    return f"raised (fresh {n} (text {text(message)} ∷ []))"


def moment_rows():
    one = "integer (pos 1)"
    rows = [f"spend {k} (bare [] {n} 0) ≡ " + (f"fine tt (bare [] {n - k} 0)" if k <= n else "stopped (bare [] 0 0)") for k, n in ((0, 0), (1, 0), (1, 1), (3, 5), (5, 3), (10**30, 4000000))]
    rows += ["tick (bare [] 1 0) ≡ fine tt (bare [] 0 0)", "tick (bare [] 0 0) ≡ stopped (bare [] 0 0)", "(tick >> tick) (bare [] 1 0) ≡ stopped (bare [] 0 0)", "(tick >> tick) (bare [] 2 0) ≡ fine tt (bare [] 0 0)"]
    for d in (0, 998, 999):
        rows.append(f"deeper {{A = ℕ}} (give 7) (bare [] 5 {d}) ≡ fine 7 (bare [] 5 {d})")
        rows.append(f"deeper tick (bare [] 0 {d}) ≡ stopped (bare [] 0 {d})")
        rows.append(f"deeper (raise {{A = ℕ}} 24 []) (bare [] 5 {d}) ≡ raised (fresh 24 (text [] ∷ [])) (bare [] 5 {d})")
    deep = error(21, "depth limit reached")
    rows += [f"deeper {{A = ℕ}} (give 7) (bare [] 5 1000) ≡ {deep} (bare [] 5 1000)", f"deeper tick (bare [] 0 1000) ≡ {deep} (bare [] 0 1000)", f"deeper {{A = ℕ}} (deeper (give 7)) (bare [] 5 998) ≡ fine 7 (bare [] 5 998)", f"deeper {{A = ℕ}} (deeper (give 7)) (bare [] 5 999) ≡ {deep} (bare [] 5 999)"]
    rows += [
        f"read (codes \"a\") now ≡ fine ({one}) {accessed('now', 'a')}", f"read (codes \"len\") now ≡ fine none {accessed('now', 'len')}", f"read (codes \"abs\") now ≡ fine (builtin 0) {accessed('now', 'abs')}", f"read (codes \"ValueError\") now ≡ fine (class 24) {accessed('now', 'ValueError')}",
        f"read (codes \"z\") now ≡ " + error(17, "name 'z' is not defined") + f" {accessed('now', 'z')}", f"read (codes \"open\") now ≡ " + error(17, "name 'open' is not defined") + f" {accessed('now', 'open')}",
        f"(read (codes \"a\") >> read (codes \"a\")) now ≡ fine ({one}) {accessed('now', 'a')}", f"(read (codes \"len\") >> read (codes \"a\")) now ≡ fine ({one}) {accessed('now', 'a', 'len')}",
        'read (codes "a") (inner ((codes "a", none) ∷ [])) ≡ fine none (inner ((codes "a", none) ∷ []))', 'read (codes "a") (inner []) ≡ ' + error(18, "local name 'a' has no value") + " (inner [])", f"read (codes \"len\") (inner []) ≡ fine none {accessed('(inner [])', 'len')}",
        f"read (codes \"sum\") (inner []) ≡ fine (builtin 13) {accessed('(inner [])', 'sum')}", f"read (codes \"c\") (inner []) ≡ " + error(17, "name 'c' is not defined") + f" {accessed('(inner [])', 'c')}",
    ]
    def names(*pairs):
        return "names = %s; " % listing([f'(codes "{x}", {v})' for x, v in pairs])

    rows += [
        f"assign (codes \"a\") none now ≡ fine tt {accessed('now', 'a', change=names(('a', 'none'), ('len', 'none')))}", f"assign (codes \"b\") none now ≡ fine tt {accessed('now', 'b', change=names(('a', one), ('b', 'none'), ('len', 'none')))}",
        f"assign (codes \"A\") none now ≡ fine tt {accessed('now', 'A', change=names(('A', 'none'), ('a', one), ('len', 'none')))}", f"assign (codes \"z\") none now ≡ fine tt {accessed('now', 'z', change=names(('a', one), ('len', 'none'), ('z', 'none')))}",
        f"assign (codes \"b\") ({one}) (inner []) ≡ fine tt (inner ((codes \"b\", {one}) ∷ []))", f"assign (codes \"a\") none (inner ((codes \"a\", {one}) ∷ [])) ≡ fine tt (inner ((codes \"a\", none) ∷ []))", f"assign (codes \"len\") ({one}) (inner []) ≡ fine tt {accessed('(inner [])', 'len', change=names(('a', one), ('len', one)))}",
        f"delete (codes \"a\") now ≡ fine tt {accessed('now', 'a', change=names(('len', 'none')))}", f"delete (codes \"b\") now ≡ " + error(17, "name 'b' is not defined") + f" {accessed('now', 'b')}", f"delete (codes \"abs\") now ≡ " + error(17, "name 'abs' is not defined") + f" {accessed('now', 'abs')}",
        f"delete (codes \"a\") (inner ((codes \"a\", none) ∷ [])) ≡ fine tt (inner [])", "delete (codes \"b\") (inner []) ≡ " + error(18, "local name 'b' has no value") + " (inner [])", f"delete (codes \"len\") (inner []) ≡ fine tt {accessed('(inner [])', 'len', change=names(('a', one)))}",
    ]
    rows += [
        "make (tuple []) now ≡ fine (node 1) (record now { nodes = list [] ∷ tuple [] ∷ [] })", "(make (list []) >> make (tuple [])) (bare [] 9 0) ≡ fine (node 1) (bare (list [] ∷ tuple [] ∷ []) 9 0)", "change 0 (push none) now ≡ fine tt (record now { nodes = list (none ∷ []) ∷ [] })", "change 1 (push none) now ≡ fine tt now",
        "node_now (node 0) now ≡ fine (Some (list [])) now", "node_now (node 1) now ≡ fine None now", "node_now none now ≡ fine None now", "put_out (codes \"ab\") now ≡ fine tt (record now { out = codes \"ab\" })", "(put_out (codes \"a\") >> put_out (codes \"b\")) now ≡ fine tt (record now { out = codes \"ab\" })", "put_out [] now ≡ fine tt now",
        "or_else {A = ℕ} (give 7) (Some 8) now ≡ fine 8 now", "or_else {A = ℕ} (give 7) None now ≡ fine 7 now", "(raise {A = ℕ} 24 (codes \"x\") >> tick) now ≡ raised (fresh 24 (text (codes \"x\") ∷ [])) now", "(tick >> raise {A = ℕ} 24 []) (bare [] 3 0) ≡ raised (fresh 24 (text [] ∷ [])) (bare [] 2 0)", "(tick >>= λ _. put_out (codes \"a\")) (bare [] 0 0) ≡ stopped (bare [] 0 0)",
    ]
    return rows


# ---- slices

SLICED = [
    ("abc", None, None, None), ("abc", 1, None, None), ("abc", None, 2, None), ("abc", -1, None, None), ("abc", None, -1, None), ("abc", 5, None, None), ("abc", -9, 9, None), ("abc", 2, 1, None), ("abc", None, None, -1), ("abc", None, None, 2), ("abcdef", 1, 5, 2), ("abcdef", 5, 1, -2), ("abcdef", None, 1, -1), ("abcdef", 3, None, -1),
    ("abc", True, None, None), ("abc", False, True, True), ("", None, None, -1), ([1, 2, 3], 1, None, None), ((1, 2, 3), None, None, -1), ([], None, None, None), ((), 1, 2, 3), ("abc", None, None, 2**126), ("abc", -(2**127), 2**127 - 1, None), ("abc", 2**127 - 1, -(2**127), -(2**127)),
]
BAD_SLICES = [("abc", "a", None, None), ("abc", None, "a", None), ("abc", None, None, "a"), ("abc", None, None, 0), ("abc", None, None, False), ([1], "a", [], None), ([1], [], "a", None), ([1], None, None, {}), ((1,), range(2), 1, 1), ("abc", 1, 2, ()), ("abc", 1, list, 1)]
# Of several causes the first from the left is told.
ORDERED_SLICES = [
    ("abc", "a", None, 0), ("abc", None, "a", 0), ("abc", "a", [], 0), ([1], "a", None, []), ([1], None, "a", []), ([1], "a", [], {}), ((1,), 1, range(2), "x"), ((1,), print, 1, 0), ("abc", 1, list, 0), ("", None, "a", False), ([], "a", "b", ()), ((), None, [], print), ("abc", ValueError, 1, None), ("abc", 1, ValueError, 0),
]
NO_SLICES = [None, True, 7, range(3), print, list, {}, SimpleNamespace(), ValueError()]


def slice_row(v, start, stop, step, left=100):
    heap = Heap()
    value = heap.value(v)
    bounds = [heap.value(b) for b in (start, stop, step)]
    begin = moment(heap, left)
    run = Run(heap, left, 0)

    def work():
        if not isinstance(v, (str, list, tuple)):
            run.fail("TypeError", f"'{kind(v)}' object is not subscriptable")
        for bound in (start, stop, step):
            if bound is not None:
                run.index(bound)
        if step is not None and step == 0:
            run.fail("ValueError", "step is zero")
        found = v[start:stop:step]
        run.spend(len(found))
        return tuple(list(found)) if isinstance(v, tuple) and found is v else found

    def view(found):
        if isinstance(found, (list, tuple)):
            # always a new node
            return f"(node {heap_new(heap, found)})"
        return heap.value(found)

    return f"slice {value} {' '.join(bounds)} {begin} ≡ {ended(run, work, view)}"


def slice_rows():
    rows = [slice_row(*r) for r in SLICED + BAD_SLICES] + [slice_row(v, None, None, None) for v in NO_SLICES] + [slice_row(None, "a", "b", 0)]
    return rows + [slice_row("abcd", 1, None, None, left=n) for n in (2, 3)] + [slice_row([1, 2], None, None, None, left=n) for n in (1, 2)] + [slice_row("abc", "a", None, None, left=0)]


def main():
    nodes = [VALUES, BARE, ENDS, MEANING + "values.BuiltinNames.{class_names}", "use Rattle.std.specs.Str.{chars}"]
    names = LANGUAGE + "tokens.Names.{reserved_words}"
    rows_file("SoundExamples", "Which values, nodes and names are sound", [VALUES, names, LANGUAGE + "trees.Tree as t", MEANING + "values.Sound.{is_valid, is_sound, is_exception_class, is_sound_node, is_sound_heap, are_sound_names, default_count}"], sound_rows(), "sound", "reserved_words")
    rows_file("AccessExamples", "Names that are found, bound, unbound and recorded, in byte order", [VALUES, MEANING + "moments.Accesses.{unbind, with_access, with_accesses}"], access_rows(), "access")
    kinds = [MEANING + "values.Kinds.{kind_in, not_iterable, bad_index, unhashable, no_attribute}", MEANING + "items.Subscripts.{not_subscriptable}", MEANING + "calls.Callees.{not_callable}"]
    rows_file("KindExamples", "The kinds of values, and the exceptions that tell them", nodes + kinds, kind_rows(), "kind", "class_names chars")
    rows_file("ClassExamples", "Which class of exceptions is which or lies below it, as CPython tells", [MEANING + "values.Classes.{is_within}"], class_rows(), "class")
    rows_file("IsExamples", "Which values are the same, and which ranges are equal and how long, as CPython tells where the languages agree", [VALUES, MEANING + "comparing.Equal.{is_same, is_equal, range_length}"], is_rows(), "is")
    rows_file("FindingExamples", "Items that are equal to a value, as CPython tells, with the steps that are left", nodes + [MEANING + "items.Finding.{place_among, count_among}"], finding_rows(), "found")
    rows_file("SortingExamples", "Values in order, as CPython sorts them, and the steps of a sort", [VALUES, MEANING + "items.Sorting.{in_order, sort_steps}"], sorting_rows(), "sorting")
    rows_file("KeyValueExamples", "Values as keys and keys as values, with the steps that are left", nodes + [MEANING + "items.KeyOf.{key_of_value, value_of_key, values_of_keys}"], key_value_rows(), "keyed", "class_names")
    rows_file("IndexExamples", "Places by an index and by a bound, as CPython tells", [VALUES, BARE, ENDS, MEANING + "items.Indexes.{index_of, place_in, place_of, bound_in}"], index_rows(), "place", "")
    rows_file("CountingExamples", "What counts its steps, and how it ends", [VALUES, BARE, ENDS, COUNT], counting_rows(), "counted")
    further = MEANING + "moments.Moment.{Moment, fresh, fine, raised, stopped, ◌>>=◌, ◌>>◌, give, raise, or_else, spend, tick, deeper, read, assign, delete, make, change, node_now, put_out}"
    rows_file("MomentExamples", "What is done at a moment: steps, depth, names and nodes", [VALUES, BARE, further, MEANING + "values.Nodes.{push}", MEANING + "values.BuiltinNames.{builtin_names, class_names}", "use Rattle.std.specs.Str.{chars}"], moment_rows(), "moment", "builtin_names class_names chars", HERE.split("\n"))
    rows_file("SliceExamples", "Slices, as CPython tells where the languages agree, with the steps that are left", nodes + [MEANING + "items.Subscripts.{slice}"], slice_rows(), "slice", "class_names")
    rows_file("SliceOrderExamples", "Slices with several causes of an exception, of which the first from the left is told", nodes + [MEANING + "items.Subscripts.{slice}"], [slice_row(*r) for r in ORDERED_SLICES], "ordered", "class_names")


if __name__ == "__main__":
    main()
