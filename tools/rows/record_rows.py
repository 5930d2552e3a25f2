#!/usr/bin/env python3
"""Makes the rows of crates/kishu_store_rows on records, the graph and tables. What is wanted is told by
records.py, which has the rules a second time."""

import copy

from nodes import listing, text
from records import HEADER, Commit, Graph, Move, Name, Store, after, body, change_term, front, group_bytes, history_term, is_branch_name, record_term, row_term, short, table_fits, table_term, u32
from row_file import PRELUDE, RowFile
from states import group_term, groups_term

CRATE = "kishu_store_rows"
STORE = "use Rattle.kishu_store.specs."
ONE = "use Rattle.kishu_language.specs.declared.profile.Profile.TheVariants.{One}"
ARITH = "use Rattle.std.proofs.Common.{arith, inl, inr, ap}"
BOOL = "use Rattle.std.proofs.lemmas.Bool.{false≢true}"
SORTED = "use Rattle.std.specs.List.Sorted.{IsStrictlySortedBy}"
ENTRIES = STORE + "Entries.{Entry, commit, move, name, to_commit, to_branch, Record, plain}"
MADE = "Made by tools/rows/record_rows.py."
OPENED = "head_of body_of"

STORY = [
    Commit(0, ["x = [1]; y = [x]; z = [2]"], [], [(["x", "y"], b"\x01\x02\x03"), (["z"], b"\x04")]),
    Commit(1, ["y = 0"], [["x", "y"]], [(["x"], b"\x05\x06"), (["y"], b"\x07")]),
    Name("try", 1),
    Move("try"),
    Commit(1, ["w = z", "1"], [["z"]], [(["w", "z"], b"\x08\x08")]),
    Move(2),
    Commit(2, [""]),
    Move("main"),
    Commit(2, ["del x, y, z"], [["x"], ["y"], ["z"]]),
    Name("Z-9_", 3),
    Move(0),
    Commit(0, ["a = b = 1"], [], [(["a"], b"\x09"), (["b"], b"")]),
    Move("Z-9_"),
    Commit(3, ["y = w"], [["w", "z"]], [(["w", "y", "z"], b"\x00")]),
]

OTHERS = [
    Commit(1, ["a", "", "é"], [["a"], ["b", "c"]], [(["a", "b"], b"xy"), (["d"], b"")]),
    Commit(2**32 - 1, ["a"]),
    Commit(256, ["a\nb"], [["_", "a1"]], []),
    Commit(7, ["x" * 40], [], [(["x" * 20], b"p" * 30)]),
    Move(0),
    Move(2**32 - 1),
    Move(258),
    Move("_"),
    Move("a-b"),
    Move(""),
    Name("é", 3),
    Name("", 0),
    Name("n" * 64, 65536),
]


def prefixes():
    """The store after each of the first records of the story, with what it was before."""
    s = Store()
    yield 0, s, None
    for n, e in enumerate(STORY):
        old, s = s, copy.deepcopy(s)
        s.add(e)
        yield n + 1, s, old


def bytes_term(bs):
    return listing([str(b) for b in bs])


# ---- bytes

def byte_rows():
    f = RowFile(CRATE, "RecordByteRows", f"The bytes of records: computed on the definitions. {MADE}", [PRELUDE, "use Rattle.std.specs.Prelude.{length}", ONE, ENTRIES, STORE + "EntryBytes.{eight, text_bytes, name_bytes, many, group_bytes, stored_bytes, head_of, body_of}", STORE + "Histories.{before_pictures, body_length}"])
    f.title("numbers of eight bytes, texts, names and groups")
    ns = (0, 1, 255, 256, 2**32, 2**63, 2**64 - 1)
    f.table("number", [f"eight {n}" for n in ns], [bytes_term(n.to_bytes(8, "big")) for n in ns])
    ts = ("", "a", "a\nb", "é" * 2)
    coded = lambda t: bytes_term(t.encode())
    f.table("text", [f"text_bytes {coded(t)}" for t in ts], [bytes_term(u32(len(t.encode())) + t.encode()) for t in ts])
    f.table("name", [f"name_bytes {coded(t)}" for t in ts], [bytes_term(short(t)) for t in ts])
    gs = (["a"], ["a", "b"], ["_", "a1", "zz"])
    f.table("group", [f"group_bytes {group_term(g)}" for g in gs], [bytes_term(group_bytes(g)) for g in gs])
    f.table("stored", [f"stored_bytes ({group_term(g)}, {n})" for g, n in zip(gs, (0, 300, 2**40))], [bytes_term(group_bytes(g) + n.to_bytes(8, "big")) for g, n in zip(gs, (0, 300, 2**40))])
    f.title("heads, bodies, and how long they are")
    for e in STORY + OTHERS:
        e = copy.deepcopy(e)
        f.row("head", f"head_of {e.term()} ≡ {bytes_term(e.head())}", unfolding=OPENED)
        f.row("body", f"body_of {record_term(e)} ≡ {bytes_term(body(e))}", unfolding=OPENED)
        f.table("long", [f"before_pictures {e.term()}", f"body_length {e.term()}"], [str(4 + len(e.head())), str(len(body(e)))], unfolding=OPENED)
    f.write()


# ---- branches, references and lines

def name_rows():
    f = RowFile(CRATE, "NameRows", f"Names of branches, references, and the lines by which commits are told: computed on the definitions. {MADE}", [PRELUDE, "use Rattle.std.specs.Prelude.{map}", ONE, STORE + "Branches.{Branches, commit_of, with_branch_at, is_branch_name}", STORE + "CommitLines.{line_in}", STORE + "Graph.{Graph}", STORE + "References.{is_decimal, number_from, resolve}"])
    f.title("which texts are names")
    names = ["", "a", "Z", "_", "-", "0", "a0", "0a", "a-", "-a", "a_b", "a.b", "a b", " a", "a ", "main", "A-1_z", "a/b", "a~", "a@", "a[", "a`", "a{", "a:", "a\\x"[:1] + "!", "n" * 64, "n" * 65, "n" * 63 + "-", "n" * 64 + "-", "9" * 3, "__", "a\n", "é"]
    coded = lambda t: text(t) if t.isascii() else bytes_term(t.encode())
    f.table("is_name", [f"is_branch_name {coded(t)}" for t in names], [str(is_branch_name(t)).lower() for t in names])
    every = {"Z": 4, "_": 0, "a": 3, "a-b": 2, "main": 1}
    term = lambda bs: listing([f"({text(b)}, {c})" for b, c in sorted(bs.items(), key=lambda x: x[0].encode())])
    f.title("branches stand in byte order")
    f.put("abbrev five : Branches", f"five = {term(every)[1:-1]}")
    asked = ["Z", "_", "a", "a-b", "main", "", "b", "z", "A", "a-", "a-bc", "mai"]
    f.table("commit", [f"commit_of {text(t)} five" for t in asked], [f"Some {every[t]}" if t in every else "None" for t in asked])
    for t in asked:
        f.row("with_branch", f"with_branch_at {text(t)} 9 five ≡ {term({**every, t: 9})}")
    f.row("with_branch", "with_branch_at (codes \"try\") 5 [] ≡ ((codes \"try\", 5) ∷ [])")
    f.title("references: decimal digits without leading zeros are a commit's number, all else is a branch")
    decimals = ["", "0", "1", "9", "10", "00", "01", "007", "12345678901234567890", "1a", "a1", "-1", "+1", " 1", "1 ", "1.0", "/", ":"]
    is_decimal = lambda t: t != "" and all(c in "0123456789" for c in t) and (t == "0" or t[0] != "0")
    f.table("decimal", [f"is_decimal {text(t)}" for t in decimals], [str(is_decimal(t)).lower() for t in decimals])
    f.table("number", [f"number_from 0 {text(t)}" for t in decimals if is_decimal(t)], [t for t in decimals if is_decimal(t)])
    *_, (_, s, _) = prefixes()
    g = s.graph
    f.put("abbrev told : Graph", f"told = {g.term()}")
    refs = ["0", "1", "5", "6", "7", "10", "00", "05", "main", "try", "Z-9_", "Z-9", "z-9_", "", "mai", "main ", "-1", "6a", "12345678901234567890"]

    def target(t):
        if is_decimal(t):
            return f"Some (record {{ commit = {t}; branch = None }})" if int(t) <= len(g.commits) else "None"
        return f"Some (record {{ commit = {g.branches[t]}; branch = Some {text(t)} }})" if t in g.branches else "None"

    f.table("refers", [f"resolve told {text(t)}" for t in refs], [target(t) for t in refs])
    f.title("the line of a commit: its first cell up to the first line end, cut to 60 characters")
    cells = [[""], ["a"], ["a", "b"], ["", "b"], ["a\nb"], ["a\rb"], ["a\r\nb"], ["\na"], ["\ra"], ["a" * 59], ["a" * 60], ["a" * 61], ["a" * 59 + "\nb"], ["é" * 60], ["é" * 61], ["€" * 30 + "a" * 31], ["\U0001f600" * 61], ["a" * 59 + "éb"], ["a" * 60 + "é"], ["  a  "], ["a\x0bb\x0cc\x85d\u2028e"], ["x = 'a\tb' # c"], ["\r\n"], ["\n\r"], ["a", "b" * 70, "c"], ["b" * 70, "c"], ["é\r"], ["\té"], ["a" * 58 + "é€x"], ["\U0001f600" * 59 + "ab"], ["a" * 60 + "\n"], ["a" * 61 + "\n"], [" " * 61], ["é" * 30 + "\n" + "é" * 40]]

    def line(cs):
        first = cs[0]
        for c in "\r\n":
            first = first.split(c)[0]
        return first[:60]

    f.table("line", [f"line_in {listing([bytes_term(c.encode()) if c else '[]' for c in cs])}" for cs in cells], [bytes_term(line(cs).encode()) if line(cs) else "[]" for cs in cells])
    f.row("no_line", "line_in [] ≡ []")
    f.write()


# ---- graphs and histories

def write_story():
    f = RowFile(CRATE, "Records", f"Records, one behind another, of which the rows of this crate speak. {MADE}", [PRELUDE, ONE, ENTRIES])
    for n, e in enumerate(STORY):
        f.put(f"abbrev pub record{n + 1} : Record", f"record{n + 1} = {record_term(e)[1:-1]}", "", f"abbrev pub entry{n + 1} : Entry", f"entry{n + 1} = {e.term()[1:-1]}")
    f.note("the first so many of them")
    for n in range(len(STORY) + 1):
        f.put(f"abbrev pub first{n} : List Record", f"first{n} = {' ∷ '.join([f'record{i + 1}' for i in range(n)] + ['[]'])}", "", f"abbrev pub said{n} : List Entry", f"said{n} = {' ∷ '.join([f'entry{i + 1}' for i in range(n)] + ['[]'])}")
    f.write()


def uses_story():
    return f"use Rattle.{CRATE}.proofs.Records.{{{', '.join(f'{k}{n}' for k in ('record', 'entry') for n in range(1, len(STORY) + 1))}, {', '.join(f'{k}{n}' for k in ('first', 'said') for n in range(len(STORY) + 1))}}}"


def history_rows():
    f = RowFile(CRATE, "GraphRows", f"What records make of the graph, and the paths in it: computed on the definitions. {MADE}", [PRELUDE, "use Rattle.std.specs.Prelude.{map}", ONE, ENTRIES, STORE + "Fitting.{changed, changed_by}", STORE + "Graph.{Commit, new_graph, path, back, count_of, newest}", STORE + "Holds.{graph_of}", uses_story()])
    commit_term = lambda c: f"(record {{ parent = {c[0]}; profile = One; cells = {listing([text(t) for t in c[1]])} }})"
    for n, s, old in prefixes():
        g = s.graph
        f.note(f"the first {n}")
        f.row("graph", f"graph_of said{n} ≡ {g.term()}")
        if old:
            f.row("change", f"changed ({old.graph.term()}) entry{n} ≡ {g.term()}")
        c = g.head[0]
        f.table("counts", [f"count_of (graph_of said{n}) {k}" for k in range(len(g.commits) + 1)], [str(sum(len(g.commits[i - 1][1]) for i in g.path(k))) for k in range(len(g.commits) + 1)])
        f.row("path", f"path (graph_of said{n}) {c} ≡ {listing([commit_term(g.commits[i - 1]) for i in g.path(c)])}")
        f.row("back", f"back (graph_of said{n}) {c} ≡ {listing([f'(record {{ number = {i}; commit = {commit_term(g.commits[i - 1])} }})' for i in reversed(g.path(c))])}")
    f.write()
    f = RowFile(CRATE, "HistoryRows", f"What records make of the tables of commits, and where their pictures lie: computed on the definitions. {MADE}", [PRELUDE, ONE, ENTRIES, STORE + "EntryBytes.{head_of, body_of}", STORE + "Graph.{new_graph}", STORE + "Tables.{Row, Table, bytes_at}", STORE + "Histories.{History, new_history, gives, led, table_to, head_table}", STORE + "Holds.{history_of, front, end_of, header, framed}", uses_story()])
    for n, s, old in prefixes():
        f.note(f"the first {n}")
        f.row("history", f"history_of said{n} ≡ {history_term(s)}", unfolding="head_of")
        f.row("table", f"head_table (history_of said{n}) ≡ {table_term(s.head_table())}", unfolding="head_of")
        f.table("place", [f"(history_of said{n}).place", f"end_of first{n}"], [str(s.place)] * 2, unfolding="header framed head_of body_of")
        if old:
            e = STORY[n - 1]
            f.row("gives", f"gives (history_of said{n - 1}) entry{n} ≡ " + (f"({change_term((e.dropped, old.rows(e)))} ∷ [])" if isinstance(e, Commit) else "[]"), unfolding="head_of")
            f.row("led", f"led (history_of said{n - 1}) entry{n} ≡ {history_term(s)}", unfolding="head_of")
    cs = range(len(s.graph.commits) + 1)
    f.title("the tables of all commits, and what the file has at the places of the head's rows")
    f.table("tables", [f"table_to (history_of said{n}) {c}" for c in cs], [table_term(s.table(c)) for c in cs], unfolding="head_of")
    for c in cs:
        if s.table(c):
            file = front(STORY)
            f.table("at_place", [f"bytes_at (front first{n}) {row_term(r)}" for r in s.table(c)], [bytes_term(file[r[2]:r[2] + r[3]]) for r in s.table(c)], unfolding="header framed head_of body_of")
    f.write()


if __name__ == "__main__":
    byte_rows()
    name_rows()
    write_story()
    history_rows()
