#!/usr/bin/env python3
"""Makes the row file of crates/kishu_store_rows on the rules that each record keeps, whatever the graph is. Which
rule a record breaks is written here by hand."""

from nodes import listing, text
from record_rows import ARITH, BOOL, CRATE, ENTRIES, ONE, SORTED, STORE
from row_file import PRELUDE, RowFile
from table_rows import each, falls, group_proof, rises

GROUPS = [["a"], ["b", "c"]]


def coded(bs):
    return listing([str(b) for b in bs])


def utf8(t):
    return f"({listing([str(ord(c)) for c in t])}, (refl, refl))"


def title(t):
    return f"record {{ short = omega arith; utf8 = {utf8(t)} }}"


def cells(ts):
    return each([f"record {{ short = omega arith; utf8 = {utf8(t)} }}" for t in ts])


def groups(gs):
    return f"record {{ each = {each([group_proof(g) for g in gs])}; rise = {rises([g[0] for g in gs])} }}"


def stored(gs):
    return f"record {{ each = {each([f'({group_proof(g)}, omega arith)' for g in gs])}; rise = {rises([g[0] for g in gs])} }}"


def commit_proof(ts, ds, ss):
    return f"record {{ parent = omega arith; profile = refl; some = omega arith; cells = {cells(ts)}; dropped = {groups(ds)}; stored = {stored(ss)} }}"


def not_text(bs, of):
    return f"absurd (false≢true (is_utf8-from_IsUtf8 {coded(bs)} {of}))"


def group_terms(gs):
    return listing([listing([text(x) for x in g]) for g in gs])


def rule_rows():
    f = RowFile(CRATE, "RecordRuleRows", "The rules that each record keeps, whatever the graph is: computed on the definitions. Made by tools/rows/record_rule_rows.py.", [PRELUDE, "use Rattle.std.specs.Prelude.{length}", ARITH, BOOL, "use Rattle.std.proofs.lemmas.Str.{is_utf8-from_IsUtf8}", "use Rattle.std.specs.Char.{encode_utf8}", "use Rattle.std.specs.Str.{chars, is_utf8}", SORTED, "use Rattle.kishu_language.specs.tokens.Names.{reserved_words}", ONE, "use Rattle.kishu_language.specs.declared.profile.Profile.TheVariants.{Two}", ENTRIES, STORE + "EntryBytes.{head_of, body_of}", STORE + "Rules.{IsCell, IsTitle, KeepsRules, IsRecord}"])
    opened = "is_utf8 chars encode_utf8 IsStrictlySortedBy reserved_words"

    def row(good, kind, claim, proof, more=""):
        f.row(kind if good else f"no_{kind}", claim if good else f"{claim} → ⊥", proof if good else f"λ h. {proof}", unfolding=opened + more)

    f.title("cells and titles are UTF-8")
    for t in ("", "a\n", "é€\U0001f600", "\x00"):
        row(True, "cell", f"IsCell {coded(t.encode()) if t else '[]'}", f"record {{ short = omega arith; utf8 = {utf8(t)} }}")
    for bs in (b"\xff", b"a\xc3", b"\xed\xa0\x80", b"\xc0\x80", b"\xf4\x90\x80\x80"):
        row(False, "cell", f"IsCell {coded(bs)}", not_text(bs, "h.utf8"))
    for t in ("", "main", "not a name", "é", "t" * 255):
        row(True, "title", f"IsTitle {coded(t.encode()) if t else '[]'}", title(t))
    row(False, "title", f"IsTitle {text('t' * 256)}", "absurd (omega (arith, h.short))")
    row(False, "title", f"IsTitle {coded(b'a' + bytes([128]))}", not_text(b"a\x80", "h.utf8"))
    f.title("moves and names")
    for n in (0, 2**32 - 1, 2**32):
        good = n < 2**32
        row(good, "move", f"KeepsRules (move (to_commit {n}))", "omega arith" if good else "absurd (omega (arith, h))")
        row(good, "name", f"KeepsRules (name {text('9')} {n})", f"({title('9')}, omega arith)" if good else "absurd (omega (arith, h.1))")
    row(True, "move", f"KeepsRules (move (to_branch {text('no name')}))", title("no name"))
    row(False, "move", f"KeepsRules (move (to_branch {coded(bytes([255]))}))", not_text(b"\xff", "h.utf8"))
    row(False, "name", f"KeepsRules (name {text('t' * 256)} 0)", "absurd (omega (arith, h.0.short))")
    f.title("commits")
    commit = lambda parent=0, profile="One", cs="((codes \"a\") ∷ [])", ds=(), ss="[]": f"(commit {parent} {profile} {cs} {group_terms(ds)} {ss})"
    told = lambda gs, n=1: listing([f"({group_terms([g])[1:-6].strip()}, {n})" for g in gs])
    for parent in (0, 2**32 - 1, 2**32):
        good = parent < 2**32
        row(good, "commit", f"KeepsRules {commit(parent)}", commit_proof(["a"], [], []) if good else "absurd (omega (arith, h.parent))")
    row(True, "commit", f"KeepsRules {commit(ds=GROUPS, ss=told(GROUPS))}", commit_proof(["a"], GROUPS, GROUPS))
    row(True, "commit", f"KeepsRules {commit(cs='([] ∷ [] ∷ [])')}", commit_proof(["", ""], [], []))
    row(True, "commit", f"KeepsRules {commit(ss=told([['a']], 2**64 - 1))}", commit_proof(["a"], [], [["a"]]))
    row(False, "commit", f"KeepsRules {commit(profile='Two')}", "absurd (other_profile h.profile)")
    row(False, "commit", f"KeepsRules {commit(cs='[]')}", "absurd (omega (arith, h.some))")
    row(False, "commit", f"KeepsRules {commit(cs='((255 ∷ []) ∷ [])')}", not_text(b"\xff", "h.cells.0.utf8"))
    row(False, "commit", f"KeepsRules {commit(ds=GROUPS[::-1])}", falls(["b", "a"], "h.dropped.rise"))
    row(False, "commit", f"KeepsRules {commit(ss=told(GROUPS[::-1]))}", falls(["b", "a"], "h.stored.rise"))
    row(False, "commit", f"KeepsRules {commit(ds=[['if']])}", "absurd (false≢true h.dropped.each.0.names.0)")
    row(False, "commit", f"KeepsRules {commit(ds=[['a', 'a']])}", falls(["a", "a"], "h.dropped.each.0.rise"))
    row(False, "commit", f"KeepsRules {commit(ss=told([['a']], 2**64))}", "absurd (omega (arith, h.stored.each.0.1))")
    f.title("the pictures have the lengths that are told")
    record = lambda e, ps: f"(record {{ entry = {e}; pictures = {ps} }})"
    small = "; small = omega arith }"
    for n, ps, good in ((2, "((7 ∷ 8 ∷ []) ∷ [])", True), (0, "([] ∷ [])", True), (1, "((7 ∷ 8 ∷ []) ∷ [])", False), (2, "[]", False), (0, "[]", False)):
        e = commit(ss=told([["a"]], n))
        shown = "2 ∷ []" if "7" in ps else "0 ∷ []" if ps != "[]" else "[]"
        row(good, "record", f"IsRecord {record(e, ps)}", f"record {{ rules = {commit_proof(['a'], [], [['a']])}; pictures = refl{small}" if good else f"absurd (let p : {shown} ≡ {n} ∷ [] = h.pictures in omega (arith, ap length p, ap (λ (l : List ℕ). get_or l 0 9) p))", " head_of body_of")
    row(False, "record", f"IsRecord {record('(move (to_commit 0))', '([] ∷ [])')}", "absurd (let p : 0 ∷ [] ≡ [] = h.pictures in omega (arith, ap length p))", " head_of body_of")
    f.lines.insert(f.lines.index("-- ---- cells and titles are UTF-8") - 1, "\nother_profile : Two ≡ One → ⊥\nother_profile e = cc")
    f.lines = "\n".join(f.lines).split("\n")
    f.lines = [l.replace("Prelude.{length}", "Prelude.{length, get_or}") for l in f.lines]
    f.write()


if __name__ == "__main__":
    rule_rows()
