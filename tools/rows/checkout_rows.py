#!/usr/bin/env python3
"""Makes the rows of crates/kishu_object_rows on tables of histories, checkouts, what a file holds for a row,
groups that cut a state, accessed names, and sizes after cells. What is wanted is told by states.py, and of
cells by CPython, which is asked for the names that a cell looks up, binds and unbinds."""

import builtins
import contextlib
import io
from types import SimpleNamespace

from histories import ACCESSED, PATHS, STOPS
from history_rows import HISTORY, OBJECTS, WAYS, in_term, name_of, table_term, row_term, uses_histories
from nodes import listing, number, text
from object_rows import CRATE, KEYS, ONE, STATES, USES_STATES, VALUES, names_term
from row_file import PRELUDE, RowFile
from same_rows import bytes_term, path_term
from states import D, E, F, L, Laid, Named, O, State, T, at, dropped, end, group_term, groups_of, groups_term, is_node, loaded, left, met, picture, picture_bytes, stored, text, value_term, version
from table_rows import each, rises

MADE = "Made by tools/rows/checkout_rows.py."
ARITH = "use Rattle.std.proofs.Common.{arith, sym, ◌∙◌, subst, inl, inr}"
BOOL = "use Rattle.std.proofs.lemmas.Bool.{false≢true}"
CHOICES = "use Rattle.kishu_history_laws.specs.Choices.{in_any, group_decides, among_decides, false_no}"


def table_at(path):
    """The table of a commit: its groups with their versions, at places of their own."""
    state = end(path)
    rows = []
    for i, g in enumerate(groups_of(state)):
        v = version(path, g)
        rows.append((g, v, 1000 * v + 100 * ord(g[0][0]), len(picture_bytes(state, g))))
    return rows


def agree(r, q):
    return r[0] == q[0] and r[1] == q[1]


# ---- checkouts

def after_carrying(h, c):
    """The live state of one commit, carried on to another: names are unbound, and pictures stand behind."""
    s, gone, new = end(h), left(h, c), loaded(h, c)
    names = {x: v for x, v in s.names.items() if all(x not in g for g in gone)}
    nodes = list(s.nodes)
    for g in new:
        p = picture(end(c), g)
        names.update(p.names)
        nodes += p.nodes
    return Laid(dict(sorted(names.items(), key=lambda b: b[0].encode())), nodes)


def checkout_rows():
    f = RowFile(CRATE, "CheckoutRows", f"What a checkout keeps, loads and drops by two tables, and the state that it leaves: computed on the definitions. {MADE}", [PRELUDE, "use Rattle.std.specs.Prelude.{Bool}", ONE, KEYS, VALUES, OBJECTS + "Picture.{picture}", HISTORY + "Tables.{Row, Table}", HISTORY + "Checkout.{agree, is_row_of, to_keep, to_load, to_drop, unbind_all, without_names, with_pictures, carried}", uses_histories()])
    f.title("two rows agree by their groups and versions, wherever they stand")
    a = (["a", "b"], 3, 50, 9)
    others = [a, (["a", "b"], 3, 60, 8), (["a", "b"], 2, 50, 9), (["a", "b"], 4, 50, 9), (["a"], 3, 50, 9), (["b"], 3, 50, 9), (["a", "b", "c"], 3, 50, 9), (["a", "c"], 3, 50, 9), ([], 3, 50, 9)]
    f.table("agree", [f"agree {row_term(a)} {row_term(r)}" for r in others], [str(agree(a, r)).lower() for r in others])
    f.title("from one table to another")
    used = sorted({n for w in WAYS for n in w})
    for n in used:
        f.put(f"abbrev table{n} : Table", f"table{n} = {table_term(table_at(PATHS['ways', n]))[1:-1]}")
    for a, b in WAYS:
        t, u = table_at(PATHS["ways", a]), table_at(PATHS["ways", b])
        f.note(f"from {a} to {b}")
        f.table("tables", [f"to_keep table{a} table{b}", f"to_load table{a} table{b}"], [table_term([r for r in u if any(agree(q, r) for q in t) is kept]) for kept in (True, False)])
        f.row("drops", f"to_drop table{a} table{b} ≡ {groups_term([r[0] for r in t if not any(agree(q, r) for q in u)])}")
    f.write()
    f = RowFile(CRATE, "CarriedRows", f"The states that checkouts leave: kept nodes stay where they are, and loaded ones stand behind. Computed on the definitions; {MADE[0].lower() + MADE[1:]}", f_uses())
    f.title("names are unbound, and nodes stay")
    for story, n in (("ways", 1), ("lists", 1), ("kinds", 4)):
        s, here = end(PATHS[story, n]), name_of(story, n)
        every = list(s.names)
        for xs in ([every[0]], every[::-1], [*every[1:], "zz"]):
            f.row("without", f"without_names {names_term(xs)} {here} ≡ {Laid({x: v for x, v in s.names.items() if x not in xs}, s.nodes).term()}")
    f.title("carried from one commit to another")
    for story, a, b in [("ways", a, b) for a, b in WAYS[::2]] + [("lists", 3, 1), ("lists", 8, 1), ("lists", 5, 4), ("lists", 12, 11), ("kinds", 8, 2), ("kinds", 2, 8)]:
        h, c = PATHS[story, a], PATHS[story, b]
        pictures = listing([f"(picture {name_of(story, b)} {group_term(g)})" for g in loaded(h, c)])
        f.row("carried", f"carried {groups_term(left(h, c))} {pictures} {name_of(story, a)} ≡ {after_carrying(h, c).term()}")
    f.write()


def f_uses():
    return [PRELUDE, ONE, KEYS, VALUES, OBJECTS + "Picture.{picture}", HISTORY + "Checkout.{without_names, carried}", uses_histories()]


# ---- what a file holds for a row

def fits(v):
    return "record { sfits = omega arith }" if type(v) is int else "(refl, omega arith)" if isinstance(v, str) else f"({', '.join(['record { sfits = omega arith }'] * 3)})" if isinstance(v, range) else "omega arith" if is_node(v) else "tt"


def all_fit(proofs):
    return f"(omega arith, {each(proofs)})"


def node_fits(n):
    vs = [fits(v) for v in n.children()]
    if isinstance(n, D):
        return all_fit([f"({all_fit([fits(p) for p in k]) if isinstance(k, tuple) else fits(k)}, {v})" for k, v in zip(n.keys, vs)])
    return f"(omega arith, {all_fit(vs)})" if isinstance(n, F) else all_fit(vs)


def state_fits(p):
    return f"({all_fit([fits(v) for v in p.names.values()])}, {all_fit([node_fits(n) for n in p.nodes])})"


def stored_rows():
    f = RowFile(CRATE, "StoredRows", f"What a file holds for the rows of tables, and what it doesn't: computed on the definitions. {MADE}", [PRELUDE, "use Rattle.std.specs.Prelude.{length}", ARITH, BOOL, "use Rattle.std.specs.Char.{encode_utf8}", "use Rattle.std.specs.Str.{bytes_eq}", "use Rattle.std.specs.Bool.{Decides}", "use Rattle.std.proofs.lemmas.Slice.Eq.{bytes_eq-Decides}", "use Rattle.kishu_bytes.specs.Numbers.{sixteen}", ONE, KEYS, VALUES, OBJECTS + "Bytes.{in_four, state_bytes}", OBJECTS + "Picture.{picture}", OBJECTS + "Lists.{In}", HISTORY + "Tables.{Row, Table}", HISTORY + "Stored.{bytes_at, Held, IsWritten, HasLength, Stored, Keeps, joined}", CHOICES, USES_STATES])
    f.put("apart_bytes : (a b : List ℕ) → bytes_eq a b ≡ false → a ≡ b → ⊥", "apart_bytes a b e = false_no (bytes_eq a b) (bytes_eq-Decides a b) e")
    opened = "in_four sixteen encode_utf8"
    for name in ("plain", "shared", "itself", "keyed", "raised", "object_round", "default"):
        state = STATES[name][1]
        g = groups_of(state)[0]
        p, bs = picture(state, g), picture_bytes(state, g)
        n = len(bs)
        f.title(f"the picture of {', '.join(g)} in `{name}`")
        f.put(f"abbrev {name}_file : List ℕ", f"{name}_file = {bytes_term(bytes([9, 8, 7]) + bs + bytes([6]))[1:-1]}")
        at_row = lambda place, size: f"(record {{ group = {group_term(g)}; version = 1; place = {place}; len = {size} }})"
        shown = f"(picture {name} {group_term(g)})"
        for kind, proof in (("Held", f"record {{ bytes = refl; len = refl; fits = {state_fits(p)} }}"), ("IsWritten", "record { bytes = refl; len = refl }")):
            f.row("there", f"{kind} {name}_file {at_row(3, n)} {shown}", proof, unfolding=opened)
        f.row("long", f"HasLength {at_row(77, n)} {shown}", f"record {{ len = refl; fits = {state_fits(p)} }}", unfolding=opened)
        f.row("told", f"Stored (Some {name}_file) {at_row(3, n)} {shown}", f"record {{ bytes = refl; len = refl; fits = {state_fits(p)} }}", unfolding=opened)
        f.row("told", f"Stored None {at_row(99, n)} {shown}", f"record {{ len = refl; fits = {state_fits(p)} }}", unfolding=opened)
        for place, size in ((2, n), (4, n)):
            f.row("not_there", f"Held {name}_file {at_row(place, size)} {shown} → ⊥", f"λ h. apart_bytes (bytes_at {name}_file {at_row(place, size)}) (state_bytes {shown}) refl h.bytes", unfolding=opened)
        f.row("not_there", f"IsWritten {name}_file {at_row(3, n + 1)} {shown} → ⊥", "λ h. absurd (omega (arith, h.len))", unfolding=opened)
        f.row("not_long", f"HasLength {at_row(3, n - 1)} {shown} → ⊥", "λ h. absurd (omega (arith, h.len))", unfolding=opened)
    f.title("pictures of a record, one behind another")
    f.table("joined", ["joined []", "joined ((1 ∷ 2 ∷ []) ∷ [] ∷ (3 ∷ []) ∷ [])", "joined ([] ∷ [])"], ["[]", "(1 ∷ 2 ∷ 3 ∷ [])", "[]"])
    f.write()


# ---- groups that cut a state

def way_to(state, x, n):
    todo = [()]
    while todo:
        p = todo.pop(0)
        _, v = at(state, x, p)
        if v is n:
            return p
        if is_node(v) and len(p) < 4:
            todo += [p + (c,) for c in range(len(v.children()))]


CUT_LEMMAS = """-- All names in one group cut a state.
one_cut : (s : State) → IsCut (listed s ∷ []) s
one_cut s = record {
  bound = λ x. (λ m. (listed s, inl refl, m), λ k. subst (λ g. In x g) (only k.0 k.1) k.2);
  apart = λ g h x y m n a b t. only g m ∙ sym (only h n);
  one = λ g h x m n a b. only g m ∙ sym (only h n);
}
  where
    only : (g : Group) → In g (listed s ∷ []) → g ≡ listed s
    only g (inl e) = e
    only g (inr n) = absurd n

nowhere : (x : List ℕ) (gs : List Group) → list_any (λ g. is_among x g) gs ≡ false → ((g : Group) × In g gs × In x g) → ⊥
nowhere x gs e k = false≢true (sym e ∙ in_any (λ g. is_among x g) gs k.0 k.1 ((among_decides x k.0).1 k.2))

unbound_name : (x : List ℕ) (s : State) → is_among x (listed s) ≡ false → In x (listed s) → ⊥
unbound_name x s e = false_no (is_among x (listed s)) (among_decides x (listed s)) e

two_groups : (g h : Group) → is_group g h ≡ false → g ≡ h → ⊥
two_groups g h e = false_no (is_group g h) (group_decides g h) e"""


def cut_rows():
    f = RowFile(CRATE, "CutRows", f"Which groups cut a state, and which don't. {MADE}", [PRELUDE, "use Rattle.std.specs.List.{list_any}", ARITH, BOOL, "use Rattle.kishu_language.specs.tokens.Names.{reserved_words, is_among}", VALUES, OBJECTS + "Picture.{listed}", OBJECTS + "Lists.{In}", HISTORY + "Changed.{Group, is_group}", HISTORY + "Cut.{IsCut}", CHOICES, "use Rattle.kishu_history_laws.specs.cells.LeavesLaws.{groups_are_cut}", "use Rattle.kishu_objects_laws.specs.SoundLaws.{sound_of}", USES_STATES])
    f.put(*CUT_LEMMAS.split("\n"))
    for name, (says, state) in STATES.items():
        gs, every = groups_of(state), list(state.names)
        f.title(says)
        f.row("cut", f"IsCut {groups_term(gs)} {name}", f"groups_are_cut {name} (sound_of {name} refl refl)", unfolding="reserved_words")
        if len(gs) > 1:
            f.row("cut", f"IsCut {groups_term([every])} {name}", f"one_cut {name}")
        if every:
            f.row("no_cut", f"IsCut {groups_term(gs[:-1])} {name} → ⊥", f"λ h. nowhere {text(gs[-1][-1])} {groups_term(gs[:-1])} refl ((h.bound {text(gs[-1][-1])}).0 {in_term(every.index(gs[-1][-1]))})")
        more = [*gs, ["zz"]]
        f.row("no_cut", f"IsCut {groups_term(more)} {name} → ⊥", f"λ h. unbound_name {text('zz')} {name} refl ((h.bound {text('zz')}).1 ({group_term(['zz'])}, {in_term(len(gs))}, inl refl))")
        big = next((g for g in gs if len(g) > 1), None)
        if big:
            parts = [[big[0]], big[1:], *[g for g in gs if g is not big]]
            n = next((n for n in met(state, [big[0]]) if any(n is m for m in met(state, big[1:]))), None)
            y = next(y for y in big[1:] if any(n is m for m in met(state, [y])))
            reach = [f"({path_term(way_to(state, z, n))}, refl)" for z in (big[0], y)]
            f.row("no_cut", f"IsCut {groups_term(parts)} {name} → ⊥", f"λ h. two_groups {group_term(parts[0])} {group_term(parts[1])} refl (h.apart {group_term(parts[0])} {group_term(parts[1])} {text(big[0])} {text(y)} {in_term(0)} {in_term(1)} {in_term(0)} {in_term(big[1:].index(y))} ({state.number(n)}, {', '.join(reach)}))")
        if len(every) > 1:
            over = [every, [every[0]]]
            f.row("no_cut", f"IsCut {groups_term(over)} {name} → ⊥", f"λ h. two_groups {group_term(over[0])} {group_term(over[1])} refl (h.one {group_term(over[0])} {group_term(over[1])} {text(every[0])} {in_term(0)} {in_term(1)} {in_term(0)} {in_term(0)})")
    f.write()


# ---- tables on a good store

def right_rows():
    f = RowFile(CRATE, "RightRows", f"Tables and changes that are those of a history, and others: computed on the definitions. {MADE}", [PRELUDE, ARITH, BOOL, VALUES, OBJECTS + "Lists.{In}", HISTORY + "Changed.{Group}", HISTORY + "Tables.{Row, Table, Change, groups_in, AreRight, IsRight}", HISTORY + "Versions.{Stop, version}", "use Rattle.kishu_history_laws.specs.tables.FileLaws.{all_in}", uses_histories()])
    told = {}
    for (story, n), path in PATHS.items():
        here, before = name_of(story, n), ACCESSED[story, n][0]
        t = table_at(path)
        f.row("right", f"IsRight to_{here} {table_term(t)}", f"record {{ groups = refl; versions = λ r m. all_in (λ (q : Row). q.version ≡ version to_{here} q.group) {table_term(t)} {each(['refl'] * len(t))} r m }}")
        if t:
            v = t[-1][1]
            wrong = [*t[:-1], (t[-1][0], v + 1, *t[-1][2:])]
            f.row("wrong", f"IsRight to_{here} {table_term(wrong)} → ⊥", f"λ h. absurd (omega (arith, h.versions {row_term(wrong[-1])} {in_term(len(t) - 1)}))")
        new = [r for r in t if r[0] in stored(path)]
        f.put(f"abbrev {here}_change : Change", f"{here}_change = record {{ dropped = {groups_term(dropped(path))}; stored = {table_term(new)} }}", "", f"abbrev {here}_changes : List Change", f"{here}_changes = {here}_change ∷ {name_of(story, before) + '_changes' if before else '[]'}")
        told[here] = f"(refl, refl, (λ r m. all_in (λ (q : Row). q.version ≡ {n}) {table_term(new)} {each(['refl'] * len(new))} r m), {f'all_{name_of(story, before)}' if before else 'tt'})"
        f.counts[f"all_{here}"] = 1
        f.put(f"all_{here} : AreRight to_{here} {here}_changes", f"all_{here} = {told[here]}")
    f.write()


# ---- accessed names

class Recorder(dict):
    """The names of a cell, which notes each that is looked up, bound or unbound."""

    def __init__(self):
        super().__init__()
        self.noted = set()

    def __getitem__(self, x):
        self.noted.add(x)
        return super().__getitem__(x)

    def __setitem__(self, x, v):
        self.noted.add(x)
        super().__setitem__(x, v)

    def __delitem__(self, x):
        self.noted.add(x)
        super().__delitem__(x)


builtins.SimpleNamespace = SimpleNamespace

CELLS = [
    ["x = 1"], ["x"], ["x = 1", "x"], ["x = y = 1"], ["x = y"], ["a, b = 1, 2"], ["del x"], ["x = 1; del x"], ["x = 1", "del x", "x"],
    ["x = []; x.append(1)"], ["x = [0]; x[0] = y"], ["x = {}; x['k'] = 1; x['k']"], ["print(1)"], ["len([])"], ["z = len"], ["x += 1"], ["x = 1; x += 2"],
    ["if 0: x = 1"], ["1 or x"], ["0 or x"], ["x = 1 if 1 else y"], ["for i in []: x = 1"], ["for i in [1]: j = i"], ["while 0: x"], ["1 // 0; x = 1"], ["x = 1 // 0"],
    ["def f(): return y"], ["def f(): return y\nf()"], ["def f(a=y): pass"], ["y = 1\ndef f(a=y): pass"], ["def f(a): return a\nf(1)"], ["def f():\n    x = 1\n    return x\nf()"],
    ["def f():\n    global x\n    x = 1\nf()"], ["def f(): return print"], ["def f(): return g()\ndef g(): return 1\nf()"], ["x = 1", "def f(): return x", "f()"],
    ["try:\n    x\nexcept NameError: y = 1"], ["try:\n    1 // 0\nexcept ZeroDivisionError as e: pass"], ["try:\n    1 // 0\nexcept KeyError: y = 1"], ["try: x = 1\nfinally: y = 2"], ["raise ValueError"],
    ["x = "], ["", "pass"], ["o = SimpleNamespace(a=1); o.a = 2"], ["x = [1]", "y = x", "y.append(2)", "x"], ["'x'"], ["x is y"], ["1 < 0 < x"], ["assert 1, x"], ["assert 0, x"], ["(x)"],
]


# Where CPython binds past the record, or binds what the language doesn't have.
TOLD = {("def f():\n    global x\n    x = 1\nf()",): ["f", "x"], ("'x'",): []}


def accessed(cells):
    if tuple(cells) in TOLD:
        return TOLD[tuple(cells)]
    names, found = Recorder(), []
    for cell in cells:
        names.noted = set()
        try:
            code = compile(cell, "cell", "exec")
        except SyntaxError:
            continue
        with contextlib.redirect_stdout(io.StringIO()), contextlib.suppress(Exception):
            exec(code, names)
        found += sorted(names.noted - {"__builtins__"})
    return found


def accessed_rows():
    f = RowFile(CRATE, "AccessedRows", f"The names that cells access, each cell's in byte order: computed on the definition, as CPython tells. {MADE}", [PRELUDE, ONE, VALUES, HISTORY + "Accessed.{accessed_by}", f"use Rattle.{CRATE}.proofs.OnLiterals.{{cells_on_literals}}"])
    shown = lambda t: text(t) if "\n" not in t and "'" not in t else '(codes "' + t.replace("\n", "\\n") + '")'
    for cells in CELLS:
        f.row("accessed", f"accessed_by One {listing([shown(c) for c in cells])} empty ≡ {listing([text(x) for x in accessed(cells)])}", unfolding="cells_on_literals")
    f.write()
    f = RowFile(CRATE, "SmallRows", f"That no state is too large after any of these cells: computed on the definitions. {MADE}", [PRELUDE, ARITH, ONE, VALUES, "use Rattle.kishu_store.specs.Graph.{Commit}", HISTORY + "Sizes.{StaySmall, AllStaySmall}", f"use Rattle.{CRATE}.proofs.OnLiterals.{{cells_on_literals}}"])
    for cells in CELLS[:26]:
        f.row("small", f"StaySmall One {listing([shown(c) for c in cells])} empty", each(["omega arith"] * len(cells)), unfolding="cells_on_literals")
    for paths in ([], [["x = 1"]], [["x = 1", "y = [x]"], ["y.append(y)"], [""]], [["x = 1 // 0"], ["x"]]):
        commits = listing([f"(record {{ parent = {i}; profile = One; cells = {listing([shown(c) for c in cs])} }})" for i, cs in enumerate(paths)])
        f.row("all_small", f"AllStaySmall {commits} empty", each([each(["omega arith"] * len(cs)) for cs in paths]), unfolding="cells_on_literals")
    f.write()


if __name__ == "__main__":
    checkout_rows()
    stored_rows()
    cut_rows()
    right_rows()
    accessed_rows()
