#!/usr/bin/env python3
"""Makes the rows of crates/kishu_store_rows on tables, groups, what fits and what a file holds. What is
wanted is told by records.py, which has the rules a second time; of what breaks a rule it is written here
which one that is."""

import copy

from nodes import listing, text
from picture_reader import RESERVED
from record_rows import ARITH, BOOL, CRATE, ENTRIES, ONE, OPENED, SORTED, STORE, STORY, bytes_term, prefixes, uses_story
from records import HEADER, Commit, Move, Name, after, body, change_term, front, record_term, row_term, table_fits, table_term
from row_file import PRELUDE, RowFile
from states import group_term, groups_term

MADE = "Made by tools/rows/table_rows.py."
TABLES = STORE + "Tables.{Row, Table, Change, bytes_in, names_in, put_row, put_rows, without_groups, after, table_of, rows_from, bytes_at, are_apart, change_of, with_change, no_change, FitsTable, IsKeptTable}"


def row(names, version=1, place=20, size=5):
    return (names.split(), version, place, size)


# ---- proofs

def each(proofs):
    return "tt" if not proofs else f"({proofs[0]}, {each(proofs[1:])})"


def rises(names):
    return "tt" if not names else f"({each(['refl'] * (len(names) - 1))}, {rises(names[1:])})"


def at(n):
    """The n-th of what holds of each."""
    return ".1" * n + ".0"


def falls(names, of):
    """A proof that names that don't rise don't, from one that they do."""
    for i, x in enumerate(names):
        for j, y in enumerate(names[i + 1:]):
            if not x.encode() < y.encode():
                return f"(let p = {of}{'.1' * i}.0{at(j)} in cc)"
    raise ValueError(names)


def do_rise(names):
    return all(x.encode() < y.encode() for x, y in zip(names, names[1:]))


def is_name(x):
    return bool(x) and len(x) <= 255 and not x[0].isdigit() and all(c == "_" or c.isascii() and c.isalnum() for c in x) and x not in RESERVED


def group_proof(g):
    return f"record {{ some = omega arith; names = {each(['refl'] * len(g))}; rise = {rises(g)} }}"


def group_breaks(g, of):
    """A proof that these names are no group, from one that they are; None where they are one."""
    if not g:
        return f"absurd (omega (arith, {of}.some))"
    for i, x in enumerate(g):
        if not is_name(x):
            return f"absurd (false≢true ({of}.names{at(i)}))"
    return None if do_rise(g) else falls(g, f"{of}.rise")


# ---- rows

GROUPS = [["a"], ["a", "b"], ["Z", "_", "a", "a1", "b"], ["_"], ["x" * 255], ["iff"], ["If"], [], ["b", "a"], ["a", "a"], ["a", "b", "a"], ["1a"], ["a-b"], [""], ["if"], ["None"], ["a", "pass"], ["x" * 256], ["é"], ["a b"]]


def group_rows():
    f = RowFile(CRATE, "StoredGroupRows", f"What a group is that a record may tell, and when two are one: computed on the definitions. {MADE}", [PRELUDE, "use Rattle.std.specs.Prelude.{Bool, map, ◌^◌}", ARITH, BOOL, SORTED, "use Rattle.kishu_language.specs.tokens.Names.{reserved_words}", STORE + "Groups.{Group, first_name, is_group, is_one_of, IsGroup, AreGroups, IsStored, AreStored}"])
    some = [[], ["a"], ["b"], ["a", "b"], ["b", "a"], ["a", "b", "c"], ["ab"]]
    f.title("each with each")
    f.put("abbrev several : List Group", f"several = {groups_term(some)[1:-1]}")
    wanted = listing([listing([str(g == h).lower() for h in some]) for g in some])
    f.put(f"one_group : map (λ g. map (is_group g) several) several ≡ {wanted}", "one_group = refl")
    f.counts["one_group"] = len(some) ** 2
    f.table("one_of", [f"is_one_of {group_term(g)} {groups_term(hs)}" for g in some[1:4] for hs in ([], [["b"]], [["b"], ["a"]], [["a", "b"], ["c"]])], [str(g in hs).lower() for g in some[1:4] for hs in ([], [["b"]], [["b"], ["a"]], [["a", "b"], ["c"]])])
    f.table("first_name", [f"first_name {group_term(g)}" for g in some], [text(g[0]) if g else "[]" for g in some])
    opened = "IsStrictlySortedBy reserved_words"
    coded = lambda g: listing([text(x) if x.isascii() else bytes_term(x.encode()) for x in g])
    f.title("a group has a name, its names are names and rise")
    for g in GROUPS:
        broken = group_breaks(g, "h")
        f.row(*(("group", f"IsGroup {coded(g)}", group_proof(g)) if broken is None else ("no_group", f"IsGroup {coded(g)} → ⊥", f"λ h. {broken}")), unfolding=opened)
    f.title("groups rise by their first names")
    for gs in ([], [["a"]], [["a", "z"], ["b"]], [["Z"], ["_", "a"], ["b"]], [["b"], ["a"]], [["a"], ["a", "b"]], [["a"], []], [["a", "b"], ["c", "b"]], [["c"], ["b", "d"]]):
        broken = next((b for i, g in enumerate(gs) if (b := group_breaks(g, f"h.each{at(i)}"))), None)
        firsts = [g[0] for g in gs if g]
        if broken is None and not do_rise(firsts):
            broken = falls(firsts, "h.rise")
        proof = f"record {{ each = {each([group_proof(g) for g in gs])}; rise = {rises(firsts)} }}"
        f.row(*(("groups", f"AreGroups {groups_term(gs)}", proof) if broken is None else ("no_groups", f"AreGroups {groups_term(gs)} → ⊥", f"λ h. {broken}")), unfolding=opened)
    f.title("a stored group tells the length of its picture in eight bytes")
    for n in (0, 1, 2**64 - 1, 2**64):
        held = n < 2**64
        f.row("stored" if held else "not_stored", f"IsStored ((codes \"a\" ∷ []), {n})" + ("" if held else " → ⊥"), f"({group_proof(['a'])}, omega arith)" if held else "λ h. absurd (omega (arith, h.1))", unfolding=opened)
    f.row("all_stored", "AreStored ((codes \"a\" ∷ [], 1) ∷ (codes \"b\" ∷ codes \"c\" ∷ [], 0) ∷ [])", f"record {{ each = {each([f'({group_proof(g)}, omega arith)' for g in (['a'], ['b', 'c'])])}; rise = {rises(['a', 'b'])} }}", unfolding=opened)
    f.row("not_all_stored", "AreStored ((codes \"b\" ∷ [], 1) ∷ (codes \"a\" ∷ [], 0) ∷ []) → ⊥", f"λ h. {falls(['b', 'a'], 'h.rise')}", unfolding=opened)
    f.write()


KEPT = [row("a"), row("b c", 2, 30, 7), row("d z", 1, 40, 0)]


def table_rows():
    f = RowFile(CRATE, "TableRows", f"Tables: their rows, what a commit does to one, and what fits: computed on the definitions. {MADE}", [PRELUDE, "use Rattle.std.specs.Prelude.{Bool}", ARITH, BOOL, SORTED, TABLES, STORE + "Groups.{Group}"])
    t = table_term(KEPT)
    f.put("abbrev three : Table", f"three = {t[1:-1]}")
    f.title("a row is put behind those with smaller first names")
    for names in ("Z", "a0", "aa", "b", "c", "d", "e", "_"):
        r = row(names, 3, 90, 1)
        f.row("put", f"put_row {row_term(r)} three ≡ {table_term(sorted([r, *KEPT], key=lambda q: (q[0][0].encode(), q is not r)))}")
    f.row("put", f"put_row {row_term(KEPT[0])} [] ≡ {table_term(KEPT[:1])}")
    f.title("dropped groups are taken out by all their names")
    for gs in ([], [["a"]], [["b", "c"]], [["b"]], [["c", "b"]], [["a"], ["d", "z"]], [["a"], ["b", "c"], ["d", "z"]], [["z"]]):
        f.row("without", f"without_groups {groups_term(gs)} three ≡ {table_term([r for r in KEPT if r[0] not in gs])}")
    f.title("rows of a record lie one behind another")
    for start, gs in ((100, []), (100, [(["a"], 5)]), (0, [(["a"], 0), (["b", "c"], 7), (["d"], 1)])):
        place, rows = start, []
        for g, n in gs:
            rows.append((g, 4, place, n))
            place += n
        f.row("from", f"rows_from 4 {start} {listing([f'({group_term(g)}, {n})' for g, n in gs])} ≡ {table_term(rows)}")
    f.table("sums", ["bytes_in three", "bytes_in []"], ["12", "0"])
    f.row("names", "names_in three ≡ " + group_term(["a", "b", "c", "d", "z"]))
    f.table("bytes_at", [f"bytes_at (1 ∷ 2 ∷ 3 ∷ 4 ∷ []) {row_term(row('a', 1, p, n))}" for p, n in ((0, 4), (1, 2), (3, 1), (3, 2), (4, 1), (9, 1), (2, 0))], [bytes_term(bytes([1, 2, 3, 4])[p:p + n]) if bytes([1, 2, 3, 4])[p:p + n] else "[]" for p, n in ((0, 4), (1, 2), (3, 1), (3, 2), (4, 1), (9, 1), (2, 0))])
    f.table("apart", [f"are_apart {group_term(g)}" for g in ([], ["a"], ["a", "b"], ["a", "a"], ["a", "b", "a"], ["b", "a", "a"], ["a", "aa"])], ["true", "true", "true", "false", "false", "false", "true"])
    f.title("what a commit does to a table, and whether it fits")
    changes = [
        ([], []),
        ([["a"]], []),
        ([["a"]], [row("a", 3, 90, 1)]),
        ([["a"], ["b", "c"]], [row("a b", 3, 90, 1), row("c", 3, 91, 2)]),
        ([["b", "c"], ["d", "z"]], [row("b c d z", 3, 90, 1)]),
        ([], [row("e", 3, 90, 1), row("f", 3, 91, 0)]),
        ([["a"], ["b", "c"], ["d", "z"]], []),
        ([], [row("A", 3, 90, 2**28 - 12)]),
        ([["b", "c"]], [row("b c", 3, 90, 2**28 - 5)]),
        ([["b"]], []),
        ([["c", "b"]], []),
        ([["e"]], []),
        ([["a"], ["a", "b"]], []),
        ([], [row("a", 3, 90, 1)]),
        ([], [row("e z", 3, 90, 1)]),
        ([["a"]], [row("c", 3, 90, 1)]),
        ([], [row("e", 3, 90, 1), row("f e", 3, 91, 1)]),
        ([["d", "z"]], [row("e z", 3, 90, 1), row("z", 3, 91, 1)]),
        ([], [row("A", 3, 90, 2**28 - 11)]),
        ([["b", "c"]], [row("b c", 3, 90, 2**28 - 4)]),
        ([], [row("A", 3, 90, 2**27), row("B", 3, 90, 2**27)]),
    ]
    for c in changes:
        broken = table_fits(KEPT, c)
        if broken != "apart":
            f.row("after", f"after {change_term(c)} three ≡ {table_term(after(c, KEPT))}")
        proof = "record { dropped = refl; apart = refl; small = omega arith }" if broken is None else f"λ h. absurd ({'omega (arith, h.small)' if broken == 'small' else f'false≢true h.{broken}'})"
        f.row("fits" if broken is None else "fits_not", f"FitsTable three {change_term(c)}" + ("" if broken is None else " → ⊥"), proof)
    f.write()
    f = RowFile(CRATE, "KeptTableRows", f"The tables after commits, and what holds of each that records give: computed on the definitions. {MADE}", [PRELUDE, ARITH, BOOL, SORTED, "use Rattle.kishu_language.specs.tokens.Names.{reserved_words}", TABLES, STORE + "Groups.{Group}"])
    f.title("one commit after another, the newest first")
    for n in range(len(changes[:9]) + 1):
        t = KEPT
        for c in changes[:n]:
            t = after(c, t)
        told = listing([change_term(c) for c in reversed(changes[:n])] + [change_term(([], KEPT))])
        if n < 7:
            f.row("table", f"table_of {told} ≡ {table_term(t)}")
    f.table("change_of", [f"change_of {listing([change_term(changes[2]), change_term(changes[1])])} {n}" for n in range(4)], ["no_change", change_term(changes[1]), change_term(changes[2]), "no_change"])
    f.title("what holds of a table")
    for rows in ([], KEPT, [row("a", 1, 0, 2**28)], [row("a", 1, 0, 2**28 - 1), row("b", 1, 0, 1)], [row("Z"), row("_ a")], [row("b"), row("a")], [row("a"), row("a b")], [row("a b"), row("c b")], [row("a"), row("b a")], [row("b a")], [row("if")], [([], 1, 0, 0)], [row("a", 1, 0, 2**28 + 1)], [row("a", 1, 0, 2**28), row("b", 1, 0, 1)]):
        groups = [r[0] for r in rows]
        firsts, names = [g[0] if g else "" for g in groups], [x for g in groups for x in g]
        broken = next((b for i, g in enumerate(groups) if (b := group_breaks(g, f"h.groups{at(i)}"))), None)
        if broken is None and not do_rise(firsts):
            broken = falls(firsts, "h.rise")
        if broken is None and len(set(names)) < len(names):
            broken = "absurd (false≢true h.apart)"
        if broken is None and sum(r[3] for r in rows) > 2**28:
            broken = "absurd (omega (arith, h.small))"
        proof = f"record {{ rise = {rises(firsts)}; groups = {each([group_proof(g) for g in groups])}; apart = refl; small = omega arith }}"
        f.row("kept" if broken is None else "kept_not", f"IsKeptTable {table_term(rows)}" + ("" if broken is None else " → ⊥"), proof if broken is None else f"λ h. {broken}", unfolding="IsStrictlySortedBy reserved_words")
    f.write()


# ---- what fits the records before

class Long:
    """A picture of which the length alone is told."""

    def __init__(self, n):
        self.n = n

    def __len__(self):
        return self.n


def graph_proof(e):
    goes = {Commit: "refl", Name: "(refl, refl, omega arith)", Move: "refl" if not isinstance(getattr(e, "to", None), int) else "omega arith"}[type(e)]
    return f"record {{ room = omega arith; goes_on = {goes} }}"


def graph_breaks(e, broken, of):
    if broken == "room":
        return f"omega (arith, {of}.room)"
    if isinstance(e, Move) and isinstance(e.to, str):
        return f"false≢true {of}.goes_on"
    if isinstance(e, Name):
        return {"form": f"false≢true {of}.goes_on.0", "taken": f"some_none {of}.goes_on.1", "nowhere": f"omega (arith, {of}.goes_on.2)"}[broken]
    return f"omega (arith, {of}.goes_on)"


TRIED = [Move(0), Move(1), Move(3), Move(6), Move(7), Move("main"), Move("try"), Move("Z-9_"), Move("mai"), Name("new", 0), Name("main", 0), Name("try", 0), Name("9", 0), Name("", 0), Name("a", 9), Name("a b", 9), Name("main", 9), Commit(0, ["a"]), Commit(2, ["a"]), Commit(3, ["a"])]


def fitting_rows():
    f = RowFile(CRATE, "FittingRows", f"Which records fit the graph of those before them: computed on the definitions. {MADE}", [PRELUDE, ARITH, BOOL, ONE, ENTRIES, STORE + "Fitting.{Fits}", STORE + "Graph.{Graph, new_graph}", STORE + "Holds.{graph_of}", uses_story()])
    f.put("some_none : {n : ℕ} → Some n ≡ None → ⊥", "some_none e = cc")
    for n, s, old in prefixes():
        if n not in (0, 3, 6, 10):
            continue
        f.title(f"behind the first {n} records")
        for e in TRIED:
            broken = s.graph.fits(e)
            f.row("fits" if broken is None else "fits_not", f"Fits (graph_of said{n}) {e.term()}" + ("" if broken is None else " → ⊥"), graph_proof(e) if broken is None else f"λ h. absurd ({graph_breaks(e, broken, 'h')})")
    f.title("a store has room for 1,000,000 records")
    for n in (999999, 1000000, 1000001):
        for e in (Move("main"), Move(0), Name("try", 0), Commit(0, ["a"])):
            room = n < 1000000
            f.row("fits" if room else "fits_not", f"Fits (record new_graph {{ records = {n} }}) {e.term()}" + ("" if room else " → ⊥"), graph_proof(e) if room else "λ h. absurd (omega (arith, h.room))")
    f.write()


def following_rows():
    f = RowFile(CRATE, "FollowingRows", f"Which records fit behind those before them, tables included: computed on the definitions. {MADE}", [PRELUDE, ARITH, BOOL, ONE, ENTRIES, STORE + "EntryBytes.{head_of}", STORE + "Histories.{Follows}", STORE + "Holds.{history_of}", uses_story()])
    f.put("some_none : {n : ℕ} → Some n ≡ None → ⊥", "some_none e = cc")
    tried = [[], [Commit(1, ["a"], [["x", "y"]]), Commit(1, ["a"], [["x"]]), Commit(1, ["a"], [], [(["x"], b"")]), Commit(1, ["a"], [["x", "y"]], [(["x", "z"], b"")]), Commit(1, ["a"], [["x", "y"], ["z"]], [(["x", "z"], b"")]), Commit(1, ["a"], [["z"]], [(["z"], Long(2**28 - 3))]), Commit(1, ["a"], [["z"]], [(["z"], Long(2**28 - 2))]), Commit(0, ["a"], [["x", "y"]])]]
    for n, s, old in prefixes():
        t = s.head_table()
        names = [r[0] for r in t]
        for e in ([STORY[n]] if n < len(STORY) else []) + (tried[1] if n == 1 else [Commit(s.graph.head[0], ["a"], [["q"]]), Commit(s.graph.head[0], ["a"], names, [(["q"], Long(2**28 + 1))]), Commit(s.graph.head[0], ["a"], names, [(["q"], Long(2**28))]), Commit(s.graph.head[0] + 1, ["a"])]):
            broken, of_table = s.graph.fits(e), None
            if broken is None and isinstance(e, Commit):
                of_table = table_fits(t, (e.dropped, s.rows(e)))
            table = "(record { dropped = refl; apart = refl; small = omega arith }, tt)" if isinstance(e, Commit) else "tt"
            good = broken is None and of_table is None
            proof = f"record {{ graph = {graph_proof(e)}; table = {table} }}"
            if not good:
                shown = graph_breaks(e, broken, "h.graph") if broken else "omega (arith, h.table.0.small)" if of_table == "small" else f"false≢true h.table.0.{of_table}"
                proof = f"λ h. absurd ({shown})"
            f.row("follows" if good else "follows_not", f"Follows (history_of said{n}) {e.term()}" + ("" if good else " → ⊥"), proof, unfolding="head_of")
    f.write()


if __name__ == "__main__":
    group_rows()
    table_rows()
    fitting_rows()
    following_rows()
