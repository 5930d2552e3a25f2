#!/usr/bin/env python3
"""Makes the rows of crates/kishu_store_rows on store files: which records they end with, which graph they hold,
and at which place they are broken. The records are those of record_rows.py."""

import copy

from nodes import listing, text
from record_rows import ARITH, BOOL, CRATE, ENTRIES, ONE, SORTED, STORE, STORY, bytes_term, prefixes, uses_story
from records import HEADER, Commit, Move, Name, body, front, record_term, table_fits
from row_file import PRELUDE, RowFile
from table_rows import each, graph_breaks, graph_proof, group_proof, rises

MADE = "Made by tools/rows/file_rows.py."
OPENED = "header framed head_of body_of encode_utf8 IsStrictlySortedBy reserved_words"
SOME = 6


def coded(t):
    return text(t) if t.isascii() else listing([str(b) for b in t.encode()])


def utf8(t):
    return f"({listing([str(ord(c)) for c in t])}, (refl, refl))"


def rules(e):
    if isinstance(e, Commit):
        cells = each([f"record {{ short = omega arith; utf8 = {utf8(c)} }}" for c in e.cells])
        dropped = f"record {{ each = {each([group_proof(g) for g in e.dropped])}; rise = {rises([g[0] for g in e.dropped])} }}"
        stored = f"record {{ each = {each([f'({group_proof(g)}, omega arith)' for g, _ in e.stored])}; rise = {rises([g[0] for g, _ in e.stored])} }}"
        return f"record {{ parent = omega arith; profile = refl; some = omega arith; cells = {cells}; dropped = {dropped}; stored = {stored} }}"
    if isinstance(e, Move):
        return "omega arith" if isinstance(e.to, int) else f"record {{ short = omega arith; utf8 = {utf8(e.to)} }}"
    return f"(record {{ short = omega arith; utf8 = {utf8(e.title)} }}, omega arith)"


def record_proof(e):
    return f"record {{ rules = {rules(e)}; pictures = refl; small = omega arith }}"


def follows_proof(e):
    table = "(record { dropped = refl; apart = refl; small = omega arith }, tt)" if isinstance(e, Commit) else "tt"
    return f"record {{ graph = {graph_proof(e)}; table = {table} }}"


LEMMAS = """-- What stands behind an open gate is no record where it has fewer than nine bytes,
pub too_few : (rest : List ℕ) → length rest < 9 → (g : History) (r : Record) → BeginsRecord (open_gate ∷ rest) g r → ⊥
too_few rest few g r b = absurd (omega (arith, few, ap length b.1, length-append (framed (body_of r)) b.0, length-framed (body_of r), b.2))

-- where the length is more than a body may have, or no byte is left behind it,
pub other_length : (size : ℕ) (rest : List ℕ) → size < 2 ^ 64 → (longest_body < size) ⊎ (length rest ≤ size) → (g : History) (r : Record) → BeginsRecord (open_gate ∷ (to_be_bytes w64 size ++ rest)) g r → ⊥
unfolding framed
other_length size rest far which g r b =
    let same : to_be_bytes w64 size ++ rest ≡ to_be_bytes w64 (length (body_of r)) ++ (body_of r ++ b.0) = cc (b.1) ∙ append_assoc (to_be_bytes w64 (length (body_of r))) (body_of r) b.0 in
    let parts = append-unique (to_be_bytes w64 size) (to_be_bytes w64 (length (body_of r))) rest (body_of r ++ b.0) refl same in
    let is : size ≡ length (body_of r) =
    sym (from_be_bytes-to_be_bytes_8 size far) ∙ ap (λ (l : List ℕ). from_be_bytes w64 l) parts.0 ∙ from_be_bytes-to_be_bytes_8 (length (body_of r)) (omega (arith, b.3.small)) in
    ⊎_elim (λ (long : longest_body < size). absurd (omega (arith, long, is, b.3.small)))
    (λ (short : length rest ≤ size). absurd (omega (arith, short, is, ap length parts.1, length-append (body_of r) b.0, b.2))) which

-- or where no record that fits has this body.
pub no_record : (body rest : List ℕ) (g : History) → length body ≤ longest_body → ((r : Record) → IsRecord r → Follows g r.entry → body ≡ body_of r → ⊥) → (r : Record) → BeginsRecord (open_gate ∷ (framed body ++ rest)) g r → ⊥
no_record body rest g small none r b =
    let same : framed body ++ rest ≡ framed (body_of r) ++ b.0 = cc (b.1) in
    none r b.3 b.4 (framed-unique body (body_of r) rest b.0 small b.3.small same).0

-- A record that keeps all rules and doesn't fit is none.
pub unfit : (wrong : Record) → IsRecord wrong → (g : History) → (Follows g wrong.entry → ⊥) → (r : Record) → IsRecord r → Follows g r.entry → body_of wrong ≡ body_of r → ⊥
unfit wrong is g not r rules fits same = not (subst (λ (x : Record). Follows g x.entry) (sym (body-unique wrong r is rules same)) fits)

-- The first byte of a head is the number of a kind.
pub other_kind : (k : ℕ) (rest : List ℕ) → (k ≡ 1 → ⊥) → (k ≡ 2 → ⊥) → (k ≡ 3 → ⊥) → (g : History) (r : Record) → IsRecord r → Follows g r.entry → 0 ∷ 0 ∷ 0 ∷ 1 ∷ k ∷ rest ≡ body_of r → ⊥
unfolding head_of body_of
other_kind k rest one two three g r is fits same = by_kind r.entry r.pictures same
  where
    by_kind : (e : Entry) (ps : List (List ℕ)) → 0 ∷ 0 ∷ 0 ∷ 1 ∷ k ∷ rest ≡ body_of (record { entry = e; pictures = ps }) → ⊥
    by_kind (commit p f cs ds ss) ps same = one (ap (λ (l : List ℕ). get_or l 4 0) same)
    by_kind (move (to_commit n)) ps same = two (ap (λ (l : List ℕ). get_or l 4 0) same)
    by_kind (move (to_branch t)) ps same = two (ap (λ (l : List ℕ). get_or l 4 0) same)
    by_kind (name t n) ps same = three (ap (λ (l : List ℕ). get_or l 4 0) same)

pub some_none : {n : ℕ} → Some n ≡ None → ⊥
some_none e = cc"""


def uses():
    return [
        PRELUDE,
        "use Rattle.std.specs.Prelude.{get_or, length, ◌^◌, ◌<◌, ◌≤◌, ◌⊎◌}",
        "use Rattle.std.proofs.Common.{⊎_elim, inl, inr, sym, ◌∙◌, ap, subst, arith, length-append, append_assoc, slice_index}",
        "use Rattle.std.proofs.lemmas.Nat.{from_be_bytes-to_be_bytes_8}",
        BOOL,
        "use Rattle.std.specs.Char.{encode_utf8}",
        SORTED,
        "use Rattle.std.specs.Int.{w64, to_be_bytes, from_be_bytes}",
        "use Rattle.kishu_bytes_laws.specs.NumberLaws.{append-unique}",
        "use Rattle.kishu_language.specs.tokens.Names.{reserved_words}",
        ONE,
        ENTRIES,
        STORE + "EntryBytes.{head_of, body_of}",
        STORE + "Graph.{new_graph}",
        STORE + "Histories.{History, new_history, Follows, AreRecords}",
        STORE + "Holds.{header, framed, front, end_of, graph_by, history_by, changes_by, open_gate, Ends, Holds, Gives, HasRecords, IsGood, BeginsRecord, IsBroken, IsForeign}",
        STORE + "Limits.{longest_body}",
        STORE + "Rules.{IsRecord}",
        "use Rattle.kishu_store_laws.specs.EntryLaws.{body-unique}",
        "use Rattle.kishu_store_laws.specs.Laws.{length-framed, framed-unique, ends-records, ends-holds, ends-gives, ends-good, broken-holds, foreign-holds}",
        uses_story(),
    ]


LEMMA_NAMES = "too_few, other_length, no_record, unfit, other_kind, some_none"


def lemma_rows():
    f = RowFile(CRATE, "FittingRecords", f"Records that follow one another, and what is no record. {MADE}", uses())
    f.put(*LEMMAS.split("\n"))
    f.title("records that follow one another")
    for n, e in enumerate(STORY[:SOME]):
        f.put(f"pub is_record{n + 1} : IsRecord record{n + 1}", f"unfolding {OPENED}", f"is_record{n + 1} = {record_proof(e)}", "", f"pub follows{n + 1} : Follows (history_by first{n}) entry{n + 1}", "unfolding head_of", f"follows{n + 1} = {follows_proof(e)}")
        f.counts[f"is_record{n}"] = f.counts[f"follows{n}"] = 1
    for n in range(SOME + 1):
        f.put(f"pub are{n} : AreRecords new_history first{n}", "unfolding head_of", f"are{n} = {nested(n)}")
        f.counts[f"are{n}"] = 1
    f.write()


def uses_lemmas():
    proofs = [f"{k}{n}" for k in ("is_record", "follows") for n in range(1, SOME + 1)] + [f"are{n}" for n in range(SOME + 1)]
    return f"use Rattle.{CRATE}.proofs.FittingRecords.{{{LEMMA_NAMES}, {', '.join(proofs)}}}"


def file_rows():
    f = RowFile(CRATE, "FileRows", f"Store files: which records they have and which graph they hold. {MADE}", [*uses(), uses_lemmas()])
    f.title("files that end with them, at a gate that is closed, whatever follows")
    for n in range(SOME + 1):
        gate, rest = ((0, b""), (60, b"\xa5\xa5"), (164, b"x"), (166, b""))[n % 4]
        file = front(STORY[:n]) + bytes([gate]) + rest
        f.put(f"abbrev file{n} : List ℕ", f"file{n} = {bytes_term(file)[1:-1]}")
        ends = f"Ends file{n} first{n}"
        f.row("ends", ends, f"record {{ gate = {gate}; rest = {bytes_term(rest) if rest else '[]'}; split = refl; closed = λ e. absurd (omega (arith, e)); fit = are{n} }}", unfolding=OPENED)
        if len(file) > 17:
            f.row("has_records", f"HasRecords file{n} first{n}", f"ends-records file{n} first{n} ends_{n + 1}")
        if len(file) > 17:
            f.row("holds", f"Holds file{n} (graph_by first{n})", f"ends-holds file{n} first{n} ends_{n + 1}")
            f.row("gives", f"Gives file{n} (changes_by first{n})", f"ends-gives file{n} first{n} ends_{n + 1}")
    f.title("short files hold the new graph, whatever they are")
    for bs in (b"", b"\xa5", b"KISHU", HEADER, HEADER + b"\xa5", b"x" * 17):
        f.row("short", f"Holds {bytes_term(bs) if bs else '[]'} new_graph", "inl (omega arith, refl)")
        f.row("short", f"HasRecords {bytes_term(bs) if bs else '[]'} []", "inl (omega arith, refl)")
    f.title("a longer file with another header is foreign: of each byte of the header, one that differs")
    for i, b in enumerate(HEADER):
        wrong = bytearray(HEADER + b"\0\0")
        wrong[i] = b + 1
        f.row("foreign", f"IsForeign {bytes_term(wrong)}", f"(omega arith, λ rest e. let d : {b + 1} ≡ {b} = ap (λ (l : List ℕ). slice_index l {i}) e in absurd (omega (arith, d)))", unfolding="header")
    f.write()


def nested(n):
    proof = "tt"
    for i in range(n, 0, -1):
        proof = f"(is_record{i}, follows{i}, {proof})"
    return proof


def broken_rows():
    f = RowFile(CRATE, "BrokenRows", f"At which place files are broken: behind so many records the gate is open, and no record that fits follows. {MADE}", [*uses(), uses_lemmas()])

    def broken(n, rest, none):
        at = len(front(STORY[:n]))
        f.row("broken", f"IsBroken (front first{n} ++ 165 ∷ {rest}) {at}", f"record {{ long = omega arith; before = first{n}; rest = {rest}; split = refl; fit = are{n}; place = refl; none = {none} }}", unfolding="header framed head_of body_of")

    f.title("fewer than nine bytes behind the gate")
    for n, size in ((0, 1), (0, 8), (2, 0), (2, 8), (5, 3)):
        rest = bytes_term(b"\0" * size) if size else "[]"
        broken(n, rest, f"too_few {rest} (omega arith) (history_by first{n})")
    f.title("a length past the longest, or past what is left")
    for n in (0, 5):
        for size, left in ((2**30 + 1, 2), (2**64 - 1, 1), (1, 1), (1, 0), (5, 5), (9, 3)):
            which = "inl" if size > 2**30 else "inr"
            rest = f"(to_be_bytes w64 {size} ++ {bytes_term(bytes(left)) if left else '[]'})"
            broken(n, rest, f"other_length {size} {bytes_term(bytes(left)) if left else '[]'} (omega arith) ({which} (omega arith)) (history_by first{n})")
    f.title("a head of no kind")
    for n in (0, 2):
        for k in (0, 4, 165, 255):
            inside = f"(0 ∷ 0 ∷ 0 ∷ 1 ∷ {k} ∷ [])"
            broken(n, f"(framed {inside} ++ 0 ∷ [])", f"no_record {inside} (0 ∷ []) (history_by first{n}) (omega arith) (other_kind {k} [] (λ e. absurd (omega (arith, e))) (λ e. absurd (omega (arith, e))) (λ e. absurd (omega (arith, e))) (history_by first{n}))")
    f.title("records that keep their rules and don't fit")
    stores = {n: s for n, s, _ in prefixes()}
    for n, e in ((0, Commit(1, ["a"])), (0, Move(1)), (0, Move("try")), (0, Name("9", 0)), (0, Name("main", 0)), (0, Name("a", 1)), (0, Commit(0, ["a"], [["x"]])), (0, Commit(0, ["a"], [], [(["a", "b"], b"p"), (["b"], b"")])), (2, Commit(1, ["a"])), (2, Move(3)), (2, Move("try")), (2, Name("main", 1)), (2, Commit(2, ["a"], [["x", "y"]])), (2, Commit(2, ["a"], [], [(["z"], b"")])), (5, Commit(2, ["a"])), (5, Name("try", 0)), (5, Move(4)), (5, Commit(3, ["a"], [["w"]])), (5, Commit(3, ["a"], [["w", "z"]], [(["w", "x"], b"")]))):
        s = stores[n]
        cause, of_table = s.graph.fits(e), None
        if cause is None:
            of_table = table_fits(s.head_table(), (e.dropped, s.rows(e)))
        shown = graph_breaks(e, cause, "h.graph") if cause else f"false≢true h.table.0.{of_table}"
        full = sum(1 for k in f.counts if k.startswith("wrong")) + 1
        f.counts[f"wrong{full}"] = 0
        f.put(f"abbrev wrong{full} : Record", f"wrong{full} = {record_term(e)}", "", f"is_wrong{full} : IsRecord wrong{full}", f"unfolding {OPENED}", f"is_wrong{full} = {record_proof(e)}", "", f"unfit{full} : Follows (history_by first{n}) wrong{full}.entry → ⊥", "unfolding head_of", f"unfit{full} h = absurd ({shown})")
        broken(n, f"(framed (body_of wrong{full}) ++ 0 ∷ [])", f"no_record (body_of wrong{full}) (0 ∷ []) (history_by first{n}) (omega arith) (unfit wrong{full} is_wrong{full} (history_by first{n}) unfit{full})")
    f.write()


if __name__ == "__main__":
    lemma_rows()
    file_rows()
    broken_rows()
