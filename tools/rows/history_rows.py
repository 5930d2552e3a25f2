#!/usr/bin/env python3
"""Makes the rows of crates/kishu_object_rows on histories: what is one state, which groups change, versions,
what commits store and drop, what is told among touched names, tables, and checkouts. What is wanted is told
by states.py, which has the rules a second time, on the histories of histories.py."""

from histories import ACCESSED, PATHS, STOPS
from nodes import number
from object_rows import CRATE, KEYS, ONE, STATES, USES_STATES, VALUES, names_term
from picture_reader import RESERVED
from row_file import PRELUDE, RowFile
from states import EMPTY, D, E, F, L, Named, O, State, T, dropped, end, group_term, groups, groups_of, groups_term, image, kept, key_term, left, loaded, node_term, picture, picture_bytes, size, stands, stored, text, value_term, version

HISTORY = "use Rattle.kishu_history.specs."
OBJECTS = "use Rattle.kishu_objects.specs."


def name_of(story, n):
    return f"{story}{n}"


def truths(bs):
    return [str(b).lower() for b in bs]


# ---- the histories

def write_histories():
    f = RowFile(CRATE, "Histories", "Histories of which the rows of this crate speak: after each commit the state, and the path to it. Made by tools/rows/history_rows.py.", [PRELUDE, ONE, KEYS, VALUES, HISTORY + "Versions.{Stop}"])
    for (story, n), path in PATHS.items():
        here, before = name_of(story, n), ACCESSED[story, n][0]
        f.note(f"{n}: {STOPS[story, n][0]}")
        f.put(f"abbrev pub {here} : State", f"{here} = {path[-1][1].term()}", "", f"abbrev pub to_{here} : List Stop", f"to_{here} = record {{ commit = {n}; state = {here} }} ∷ {f'to_{name_of(story, before)}' if before else '[]'}")
    f.write()


def uses_histories():
    every = [name_of(*k) for k in PATHS]
    return f"use Rattle.{CRATE}.proofs.Histories.{{{', '.join(every + ['to_' + e for e in every])}}}"


# ---- one state

def alike_rows():
    f = RowFile(CRATE, "AlikeRows", "Whether values, keys, nodes and states are one, place by place: each with each. Computed on the definitions; made by tools/rows/history_rows.py.", [PRELUDE, "use Rattle.std.specs.Prelude.{Bool, map}", ONE, "use Rattle.kishu_language.specs.declared.profile.Profile.{Profile}", "use Rattle.kishu_language.specs.declared.profile.Profile.TheVariants.{Two}", KEYS, "use Rattle.kishu_meaning.specs.values.Keys.{Key, KeyPart}", VALUES, HISTORY + "Alike.{is_value, is_profile, is_part, is_key, is_node, is_state}", USES_STATES])
    f.note("what a test says of each with each")
    f.put("abbrev each_with : {A : Type 0} → (A → A → Bool) → List A → List (List Bool)", "each_with same as' = map (λ a. map (same a) as') as'")

    def table(name, kind, things, term, one):
        f.put(f"abbrev {name}_things : List {kind}", f"{name}_things = {' ∷ '.join([term(t) for t in things] + ['[]'])}")
        wanted = [" ∷ ".join(truths(one(a, b) for b in things) + ["[]"]) for a in things]
        f.put(f"{name}_each : each_with is_{name} {name}_things ≡ " + " ∷ ".join([f"({w})" for w in wanted] + ["[]"]), f"{name}_each = refl")
        f.counts[name] = len(things) ** 2

    f.title("values")
    n = (L(), L())
    numbered = lambda m: n.index(m)
    plain = [None, False, True, 0, 1, -1, "", "a", "é", range(0, 1, 1), range(0, 2, 1), range(0, 1, 2), range(1, 1, 1), Named("abs"), Named("all"), Named("bool"), Named("dict"), n[0], n[1]]
    one_value = lambda a, b: a is b or type(a) is type(b) and not isinstance(a, L) and (a == b if not isinstance(a, range) else (a.start, a.stop, a.step) == (b.start, b.stop, b.step)) and (not isinstance(a, Named) or a == b)
    table("value", "Value", plain, lambda v: value_term(v, numbered), one_value)
    f.title("keys")
    keys = [None, False, 0, 1, True, "", "a", (), (1,), (True,), (1, 1), (None,), ("a",)]
    shown = lambda k: (type(k), tuple((type(p), p) for p in k) if isinstance(k, tuple) else k)
    table("key", "Key", keys, key_term, lambda a, b: shown(a) == shown(b))
    f.title("nodes")
    nodes = [L(), T(), D(), O(), L(1), L(True), L(1, 2), T(1), D((1, 2)), D((True, 2)), D((1, 3)), D((1, 2), ("k", 2)), D(("k", 2), (1, 2)), O(("k", 2)), O(("j", 2)), O(("k", 3)), F("def f(): pass"), F("def g(): pass"), F("def f(a=1): pass", 1), F("def f(a=1): pass", 2), E("Exception"), E("ValueError"), E("ValueError", 1)]
    inside = lambda m: (m.shows(), tuple((type(v), repr(v)) for v in m.children()))
    table("node", "Node", nodes, lambda m: node_term(m, None), lambda a, b: inside(a) == inside(b))
    f.title("states: their nodes have to stand at the same places")
    chosen = [k for k in STATES if k in ("unbound", "plain", "shared", "apart", "itself", "twice", "twice_there", "thrice", "once_each", "parted", "linked")]
    table("state", "State", chosen, lambda k: k, lambda a, b: STATES[a][1].term() == STATES[b][1].term())
    f.title("profiles")
    f.table("profile", ["is_profile One One", "is_profile Two Two", "is_profile One Two", "is_profile Two One"], ["true", "true", "false", "false"])
    f.write()


# ---- what changes, and versions

def changed_rows():
    f = RowFile(CRATE, "ChangedRows", "Which groups stand in a state with a picture, and which change: computed on the definitions. Made by tools/rows/history_rows.py.", [PRELUDE, VALUES, OBJECTS + "Picture.{picture}", OBJECTS + "Groups.{groups_of}", HISTORY + "Changed.{stands, changed}", uses_histories()])
    for (story, n), path in PATHS.items():
        before, state, here = (path[-2][1] if len(path) > 1 else EMPTY), path[-1][1], name_of(story, n)
        there = name_of(story, ACCESSED[story, n][0]) if len(path) > 1 else "empty"
        gone = lambda s, t: [g for g in groups_of(s) if not stands(t, g, image(s, g))]
        f.note(f"{here}: {STOPS[story, n][0]}")
        f.table("changes", [f"groups_of {here}", f"changed {there} {here}", f"changed {here} {there}"], [groups_term(groups_of(state)), groups_term(gone(before, state)), groups_term(gone(state, before))])
        gs = groups_of(before)
        if gs:
            f.table("stays", [f"stands {group_term(g)} (picture {there} {group_term(g)}) {here}" for g in gs], truths(stands(state, g, image(before, g)) for g in gs))
    f.write()


def in_term(i):
    return "(inl refl)" if i == 0 else f"(inr {in_term(i - 1)})"


def version_rows():
    f = RowFile(CRATE, "VersionRows", "Versions of groups, and what commits store and drop: computed on the definitions. Made by tools/rows/history_rows.py.", [PRELUDE, "use Rattle.std.proofs.Common.{inl, inr, arith}", HISTORY + "Versions.{version, stored, dropped, IsVersion}", "use Rattle.kishu_history_laws.specs.versions.EarliestLaws.{version_is, version_only}", uses_histories()])
    for (story, n), path in PATHS.items():
        here = name_of(story, n)
        gs = groups_of(path[-1][1])
        f.note(f"{here}: {STOPS[story, n][0]}")
        f.table("told", [f"stored to_{here}", f"dropped to_{here}"], [groups_term(stored(path)), groups_term(dropped(path))])
        if gs:
            f.table("versions", [f"version to_{here} {group_term(g)}" for g in gs], [str(version(path, g)) for g in gs])
            i = len(gs) - 1
            v = version(path, gs[i])
            rest = f"to_{name_of(story, ACCESSED[story, n][0])}" if ACCESSED[story, n][0] else "[]"
            parts = f"(record {{ commit = {n}; state = {here} }}) {rest} {group_term(gs[i])}"
            f.row("is_version", f"IsVersion to_{here} {group_term(gs[i])} {v}", f"version_is {parts} {in_term(i)}")
            wrong = v - 1 if v > 1 else v + 1
            f.row("no_version", f"IsVersion to_{here} {group_term(gs[i])} {wrong} → ⊥", f"λ h. absurd (omega (arith, version_only {parts} {wrong} h))")
    f.write()


WAYS = [(a, b) for a in (1, 2, 3, 5, 4, 6, 7, 8) for b in (1, 3, 5, 6, 7, 8) if a != b]


def way_rows():
    f = RowFile(CRATE, "WayRows", "What stays, is loaded and is left from one commit to another, on a history that branches: computed on the definitions. Made by tools/rows/history_rows.py.", [PRELUDE, HISTORY + "Versions.{Stop, kept, loaded, left}", uses_histories()])
    for a, b in WAYS:
        h, c = PATHS["ways", a], PATHS["ways", b]
        ends = f"to_ways{a} to_ways{b}"
        f.note(f"from {a} to {b}")
        f.table("way", [f"kept {ends}", f"loaded {ends}", f"left {ends}"], [groups_term(x(h, c)) for x in (kept, loaded, left)])
    for a in (3, 8):
        f.note(f"from {a} to the root, and back")
        f.table("way", [f"kept to_ways{a} []", f"loaded to_ways{a} []", f"left to_ways{a} []", f"kept [] to_ways{a}", f"loaded [] to_ways{a}", f"left [] to_ways{a}"], [groups_term(x(*p)) for p in ((PATHS["ways", a], []), ([], PATHS["ways", a])) for x in (kept, loaded, left)])
    for a, b in ((8, 1), (13, 1), (6, 4), (12, 8)):
        ends = f"to_lists{a} to_lists{b}"
        f.note(f"along one way, from {a} to {b}")
        f.table("way", [f"kept {ends}", f"loaded {ends}", f"left {ends}"], [groups_term(x(PATHS["lists", a], PATHS["lists", b])) for x in (kept, loaded, left)])
    f.write()


# ---- among touched names

def touched_names(gs, accessed, state):
    near = {x for g in gs if any(a in g for a in accessed) for x in g} | set(accessed)
    return [x for x in state.names if x in near]


def touched_rows():
    files = [RowFile(CRATE, name, "What cells touched and changed, told among the touched names: computed on the definitions. Made by tools/rows/history_rows.py.", [PRELUDE, "use Rattle.std.specs.Char.{encode_utf8}", "use Rattle.kishu_bytes.specs.Numbers.{sixteen}", VALUES, OBJECTS + "Bytes.{in_four}", OBJECTS + "Picture.{picture}", OBJECTS + "Groups.{groups_of}", HISTORY + "Tables.{Row, Table}", HISTORY + "Touched.{touched, classes, dropped_among, stored_among, untouched, size_told, holds_any, is_touched}", uses_histories()]) for name in ("TouchedRows", "MoreTouchedRows")]
    for (story, n), path in PATHS.items():
        f = files[story != "lists"]
        before, accessed = ACCESSED[story, n]
        old = path[-2][1] if len(path) > 1 else EMPTY
        state, here, there = path[-1][1], name_of(story, n), name_of(story, before) if before else "empty"
        gs = groups_of(old)
        f.note(f"{here}: {STOPS[story, n][0]}")
        asked = [accessed] + ([[*accessed, "zz"]] if n % 3 == 0 else [])
        for names in asked:
            names = sorted(names)
            near = touched_names(gs, names, state)
            classes = groups(state, near)
            same = lambda g: g in classes and image(state, g) == image(old, g)
            gone = [g for g in gs if any(x in g for x in names) and not same(g)]
            new = [g for g in classes if not (g in gs and image(state, g) == image(old, g))]
            told = f"(groups_of {there}) (picture {there}) {names_term(names)} {here}"
            f.table("among", [f"classes (groups_of {there}) {names_term(names)} {here}", f"dropped_among {told}", f"stored_among {told}"], [groups_term(x) for x in (classes, gone, new)])
            f.row("touched", f"touched (groups_of {there}) {names_term(names)} {here} ≡ {group_term(near)}")
        t = table_term([(g, 1, 0, len(picture_bytes(old, g))) for g in gs])
        kept_rows = [(g, 1, 0, len(picture_bytes(old, g))) for g in gs if not any(x in g for x in accessed)]
        f.row("untouched", f"untouched {t} {names_term(sorted(accessed))} ≡ {table_term(kept_rows)}")
        told = sum(r[3] for r in kept_rows) + sum(len(picture_bytes(state, g)) for g in groups(state, touched_names(gs, accessed, state)))
        f.row("takes", f"size_told {t} {names_term(sorted(accessed))} {here} ≡ {told}", unfolding="in_four sixteen encode_utf8")
        if told != size(state):
            print("the sizes differ", here, told, size(state))
    for f in files:
        f.write()


def row_term(r):
    return f"(record {{ group = {group_term(r[0])}; version = {r[1]}; place = {r[2]}; len = {r[3]} }})"


def table_term(rows):
    return "(" + " ∷ ".join([row_term(r) for r in rows] + ["[]"]) + ")" if rows else "[]"


if __name__ == "__main__":
    write_histories()
    alike_rows()
    changed_rows()
    version_rows()
    way_rows()
    touched_rows()
