#!/usr/bin/env python3
"""Makes the row file of crates/kishu_object_rows on good stores: files whose records drop and store just what their
commits have to, with the pictures that the replays have, and others, of which one thing is wrong. The records are
made by records.py, and what cells leave is told by request_machine.py."""

from checkout_rows import ARITH, BOOL, CHOICES, state_fits
from history_rows import HISTORY, OBJECTS, in_term
from nodes import listing, text
from object_rows import CRATE, KEYS, ONE, VALUES
from records import Commit, Store, body, change_term, front, group_bytes, record_term, row_term
from request_machine import run, state_of
from row_file import PRELUDE, RowFile
from same_rows import LEMMAS, bytes_term, path_term
from states import L, State, T, at, dropped, group_term, groups_of, groups_term, picture, picture_bytes, stored, value_term
from table_rows import each, group_proof, rises

MADE = "Made by tools/rows/good_rows.py."
STORE = "use Rattle.kishu_store.specs."
STORIES = {
    "one": ["a = [1]"],
    "shared": ["a = [1]; b = a", "b.append(2)"],
    "split": ["x = [1]; y = [x]; z = [2]", "y = 0"],
    "merged": ["a = [1]; b = 0", "b = [a]", "del a"],
    "rebound": ["a = [1]", "a[0] = 1"],
    "none": ["1"],
}
OPENED = "cells_on_literals"


def made(cells):
    """The records of these cells, one commit each, with the states that they leave."""
    path, entries = [], []
    for n, cell in enumerate(cells):
        names = {}
        run(cells[:n + 1], names)
        path.append((n + 1, state_of(names)))
        entries.append(Commit(n, [cell], dropped(path), [(g, picture_bytes(path[-1][1], g)) for g in stored(path)]))
    return path, entries


def good_rows():
    f = RowFile(CRATE, "GoodRows", f"Which stores are good: those whose records drop and store what they have to, with the pictures of the replays. {MADE}", [
        PRELUDE, "use Rattle.std.specs.Prelude.{◌≤◌, ◌<◌, length}", ARITH, BOOL, CHOICES.replace("in_any, group_decides, among_decides, ", ""),
        "use Rattle.std.specs.Str.{bytes_eq}", "use Rattle.std.proofs.lemmas.Slice.Eq.{bytes_eq-Decides}", ONE, KEYS, VALUES,
        OBJECTS + "Bytes.{state_bytes}", OBJECTS + "Lists.{In}", OBJECTS + "Picture.{picture}", STORE + "Graph.{Commit, path_in}", STORE + "Tables.{Row, Change, change_of, bytes_at}",
        HISTORY + "Versions.{at_end}", HISTORY + "Paths.{stops_in, changes_in}", HISTORY + "Tables.{AreRight}", HISTORY + "Stored.{Held}", HISTORY + "Sizes.{AllStaySmall}", HISTORY + "Good.{IsGoodStore}", f"use Rattle.{CRATE}.proofs.OnLiterals.{{cells_on_literals}}",
    ])
    f.put("apart_bytes : (a b : List ℕ) → bytes_eq a b ≡ false → a ≡ b → ⊥", "apart_bytes a b e = false_no (bytes_eq a b) (bytes_eq-Decides a b) e")
    f.put("too_far : (n c : ℕ) → n < c → c ≤ n → ⊥", "too_far n c l m = absurd (omega (arith, l, m))")
    for name, cells in STORIES.items():
        path, entries = made(cells)
        store = Store()
        for e in entries:
            store.add(e)
        changes = [store.changes[n + 1] for n in range(len(cells))]
        file = front(entries) + b"\0"
        f.title(" / ".join(cells))
        f.put(f"abbrev pub {name}_file : List ℕ", f"{name}_file = {bytes_term(file)[1:-1]}")
        commits = listing([f"(record {{ parent = {n}; profile = One; cells = {text(c)} ∷ [] }})" for n, c in reversed(list(enumerate(cells)))])
        f.put(f"abbrev pub {name}_commits : List Commit", f"{name}_commits = {commits[1:-1]}")
        told = lambda cs: listing([change_term(c) for c in reversed(cs)])
        f.put(f"abbrev pub {name}_of : ℕ → Change", f"{name}_of = change_of {told(changes)}")
        k, many = f"{name}_commits {name}_of", len(cells)
        counts = ["zero"] + [f"({'suc (' * i}zero{')' * i})"[0:] for i in range(1, many + 1)]
        far = "(" + "suc (" * (many + 1) + "c" + ")" * (many + 1) + ")"

        def by_commits(kind, claim, root, of_commit, more=""):
            full = f"{name}_{kind}"
            lines = [f"{full} : (c : ℕ) → c ≤ {many} → {claim}", f"unfolding {OPENED}"]
            lines.append(f"{full} zero l{more} = {root}")
            for i in range(1, many + 1):
                lines += of_commit(full, i)
            lines.append(f"{full} {far} l{more} = absurd (omega (arith, l))")
            f.put(*lines)

        def right(n):
            rows = changes[n - 1][1]
            version = "λ r m. " + ("absurd m" if not rows else f"{name}_version{n} r m")
            return f"(refl, refl, ({version}), {right(n - 1) if n > 1 else 'tt'})"

        for n in range(1, many + 1):
            rows = changes[n - 1][1]
            if rows:
                f.put(f"{name}_version{n} : (r : Row) → In r ({name}_of {n}).stored → r.version ≡ {n}", *[f"{name}_version{n} r {in_pattern(i)} = ap (λ (q : Row). q.version) e" for i in range(len(rows))], f"{name}_version{n} r {none_pattern(len(rows))} = absurd m")
        by_commits("right", f"AreRight (stops_in {name}_commits c) (changes_in {k} c)", "tt", lambda full, i: [f"{full} {counts[i]} l = {right(i)}"])

        def held(full, i):
            rows, state = changes[i - 1][1], path[i - 1][1]
            lines = []
            for j, r in enumerate(rows):
                fits = state_fits(picture(state, r[0]))
                lines.append(f"{full} {counts[i]} l r {in_pattern(j)} = subst (λ q. Held {name}_file q (picture (at_end (stops_in {name}_commits {i})) q.group)) (sym e) (record {{ bytes = refl; len = refl; fits = {fits} }})")
            return lines + [f"{full} {counts[i]} l r {none_pattern(len(rows))} = absurd m"]

        by_commits("held", f"(r : Row) → In r ({name}_of c).stored → Held {name}_file r (picture (at_end (stops_in {name}_commits c)) r.group)", "absurd m", held, " r m")
        by_commits("small", f"AllStaySmall (path_in {name}_commits c) empty", "tt", lambda full, i: [f"{full} {counts[i]} l = {each(['(omega arith, tt)'] * i)}"])
        f.row("good", f"IsGoodStore {name}_file {k}", f"record {{ right = {name}_right; pictures = {name}_held; small = {name}_small }}")
        n = many
        dropped_, rows = changes[-1]
        if rows:
            wrong = bytearray(file)
            r = rows[-1]
            wrong[r[2] + r[3] - 1] ^= 3
            f.put(f"abbrev pub {name}_spoilt : List ℕ", f"{name}_spoilt = {bytes_term(wrong)[1:-1]}")
            shown = f"(picture (at_end (stops_in {name}_commits {n})) {group_term(r[0])})"
            f.row("not_good", f"IsGoodStore {name}_spoilt {k} → ⊥", f"λ h. apart_bytes (bytes_at {name}_spoilt {row_term(r)}) (state_bytes {shown}) refl (h.pictures {n} (omega arith) {row_term(r)} {in_term(len(rows) - 1)}).bytes", unfolding=OPENED)
            other = [*changes[:-1], (dropped_, [*rows[:-1], (r[0], n + 1, *r[2:])])]
            f.row("not_good", f"IsGoodStore {name}_file {name}_commits (change_of {told(other)}) → ⊥", f"λ h. absurd (omega (arith, (h.right {n} (omega arith)).2 {row_term((r[0], n + 1, *r[2:]))} {in_term(len(rows) - 1)}))", unfolding=OPENED)
            other = [*changes[:-1], (dropped_, rows[:-1])]
            f.row("not_good", f"IsGoodStore {name}_file {name}_commits (change_of {told(other)}) → ⊥", f"λ h. absurd (let p : {groups_term([q[0] for q in rows[:-1]])} ≡ {groups_term([q[0] for q in rows])} = (h.right {n} (omega arith)).1 in omega (arith, ap length p))", unfolding=OPENED)
        gone = [["q"]] if not dropped_ else []
        other = [*changes[:-1], (gone, rows)]
        f.row("not_good", f"IsGoodStore {name}_file {name}_commits (change_of {told(other)}) → ⊥", f"λ h. absurd (let p : {groups_term(gone)} ≡ {groups_term(dropped_)} = (h.right {n} (omega arith)).0 in omega (arith, ap length p))", unfolding=OPENED)
    f.lines = ["pub " + l if l.startswith("good_") and " : " in l else l for l in f.lines]
    f.lines = [l.replace("{arith, sym, ◌∙◌, subst, inl, inr}", "{arith, sym, ap, subst, inl, inr}").replace("Prelude.{◌≤◌, ◌<◌, length}", "Prelude.{zero, suc, ◌≤◌, ◌<◌, length}") for l in f.lines]
    f.write()


ONLY = """-- A table of one row has that row alone.
only : (q r : Row) → In r (q ∷ []) → r ≡ q
only q r (inl e) = e
only q r (inr n) = absurd n"""

# Live states beside a store, with what is wrong with them, if anything is, as a proof from the sameness.
one_list, other_list = L(1, 2), L(1, 2)
LIVE = {
    "one": [
        ("as the cell leaves it", State({"a": L(1)}), None),
        ("behind a node that nothing reaches", State({"a": L(1)}, first=[L(7)]), None),
        ("another item", State({"a": L(2)}), ("views", "a", (0,))),
        ("True for 1", State({"a": L(True)}), ("views", "a", (0,))),
        ("an item more", State({"a": L(1, 1)}), ("views", "a", ())),
        ("an item less", State({"a": L()}), ("views", "a", ())),
        ("a text", State({"a": "[1]"}), ("views", "a", ())),
        ("a tuple for the list", State({"a": T(1)}), ("views", "a", ())),
        ("a name more", State({"a": L(1), "b": 0}), ("views", "b", ())),
        ("no name", State({}), ("views", "a", ())),
        ("another name", State({"b": L(1)}), ("views", "a", ())),
    ],
    "shared": [
        ("one list under two names", State({"a": one_list, "b": one_list}), None),
        ("the same with the list behind another", State({"a": one_list, "b": one_list}, first=[L(1)]), None),
        ("values and no sharing", State({"a": L(1, 2), "b": L(1, 2)}), ("shared", "a", (), "b", ())),
        ("as before the last cell", State({"a": (old := L(1)), "b": old}), ("views", "a", (1,))),
        ("a name less", State({"a": L(1, 2)}), ("views", "b", ())),
    ],
}


def attached_rows():
    f = RowFile(CRATE, "AttachedRows", f"Which live states are attached to a store at its head: those that are the same as the replay, sharing included. {MADE}", [
        PRELUDE, "use Rattle.std.specs.Prelude.{Bool}", "use Rattle.std.proofs.Common.{arith, sym, ◌∙◌, ap, subst, inl, inr}", BOOL, "use Rattle.std.specs.List.Sorted.{IsStrictlySortedBy}", "use Rattle.kishu_language.specs.tokens.Names.{reserved_words}", ONE, KEYS, VALUES,
        OBJECTS + "Lists.{In}", OBJECTS + "Picture.{picture, listed}", OBJECTS + "Same.{View, plain, inside, view}", STORE + "Graph.{Graph, main_branch}", STORE + "Tables.{Row}", "use Rattle.kishu_replay.specs.Replay.{replay}",
        HISTORY + "Alike.{is_value, is_node}", HISTORY + "Stored.{Held}", HISTORY + "Good.{IsAttached}", "use Rattle.kishu_objects_laws.specs.SoundLaws.{sound_of}", "use Rattle.kishu_objects_laws.specs.WholeLaws.{whole_same}",
        f"use Rattle.{CRATE}.proofs.OnLiterals.{{cells_on_literals}}", f"use Rattle.{CRATE}.proofs.GoodRows.{{one_file, one_commits, one_of, shared_file, shared_commits, shared_of, good_1, good_2}}",
    ])
    f.put(*ONLY.split("\n"))
    f.put(*LEMMAS.split("\n"))
    opened = OPENED + " reserved_words IsStrictlySortedBy"
    for good, name in (("good_1", "one"), ("good_2", "shared")):
        cells = STORIES[name]
        path, entries = made(cells)
        store = Store()
        for e in entries:
            store.add(e)
        n, row = len(cells), row_term(store.head_table()[0])
        end = path[-1][1]
        f.put(f"abbrev {name}_graph : Graph", f"{name}_graph = record {{ commits = {name}_commits; branches = (main_branch, {n}) ∷ []; head = record {{ commit = {n}; branch = Some main_branch }}; records = {n} }}")
        for i, (says, live, wrong) in enumerate(LIVE[name]):
            here = f"{name}_live{i + 1}"
            f.note(says)
            f.put(f"abbrev {here} : State", f"{here} = {live.term()}")
            claim = f"IsAttached {name}_file {name}_graph {name}_of {here}"
            if wrong is None:
                g = groups_of(live)[0]
                held = f"record {{ bytes = refl; len = refl; fits = {state_fits(picture(live, g))} }}"
                told = f"record {{ state = record {{ sound = sound_of {here} refl refl; rise = {rises(list(live.names))} }}; bound = λ x. (λ m. ({row}, inl refl, m), λ k. subst (λ (r : Row). In x r.group) (only {row} k.0 k.1) k.2); apart = λ r q x y m n a b t. only {row} r m ∙ sym (only {row} q n); pictures = λ r m. subst (λ q. Held {name}_file q (picture {here} q.group)) (sym (only {row} r m)) ({held}) }}"
                proof = f"record {{ good = {good}; head = omega arith; told = {told}; same = whole_same {here} (replay {name}_graph {n}) (sound_of {here} refl refl) (sound_of (replay {name}_graph {n}) refl refl) refl }}"
                f.row("attached", claim, proof, unfolding=opened)
                continue
            kind, x, p, *more = wrong
            if kind == "shared":
                y, q = more
                i, j = (live.number(at(live, *w)[1]) for w in ((x, p), (y, q)))
                proof = f"λ h. absurd (omega (arith, one_number {i} {j} (h.same.shared_here {text(x)} {path_term(p)} {text(y)} {path_term(q)} tt tt (0, refl, refl))))"
            else:
                (a, v), (b, w) = at(live, x, p), at(end, x, p)
                seen = f"h.same.views {text(x)} {path_term(p)} tt"
                proof = f"λ h. {seen}" if a != b else f"λ h. seen_apart (view {here}.nodes {value_term(v, live.number)}) (view (replay {name}_graph {n}).nodes {value_term(w, lambda m: 0)}) refl refl ({seen})"
            f.row("not_attached", f"{claim} → ⊥", proof, unfolding=opened)
    f.write()


def in_pattern(i):
    return "(inl e)" if i == 0 else f"(inr {in_pattern(i - 1)})"


def none_pattern(n):
    return "m" if n == 0 else f"(inr {none_pattern(n - 1)})"


if __name__ == "__main__":
    good_rows()
    attached_rows()
