#!/usr/bin/env python3
"""Makes the rows of crates/kishu_store_rows on lines: what tells an answer, and which request a line is. JSON is
written and read by CPython; which values are a request stands here a second time."""

import json

from nodes import listing
from record_rows import CRATE, ONE, STORE
from request_machine import json_line
from request_rows import coded
from row_file import PRELUDE, RowFile

MODEL = "use Rattle.kishu_model.specs."
MADE = "Made by tools/rows/answer_rows.py."


# ---- answers

def output_term(o):
    if o["output_type"] == "stream":
        return f"(stream ({coded(o['text'])}))"
    if o["output_type"] == "error":
        return f"(fault ({coded(o['ename'])}) ({coded(o['evalue'])}))"
    return f"(shown ({coded(o['data']['text/plain'])}))"


OUTCOMES = {"ok": "Done", "error": "Raised", "stopped": "Stopped"}


def report_term(outcome, outputs):
    return f"(record {{ outcome = {OUTCOMES[outcome]}; outputs = {listing([output_term(o) for o in outputs])} }})"


def stream(t):
    return {"name": "stdout", "output_type": "stream", "text": t}


def shown(t, count):
    return {"data": {"text/plain": t}, "execution_count": count, "metadata": {}, "output_type": "execute_result"}


def fault(e, v):
    return {"ename": e, "evalue": v, "output_type": "error", "traceback": [f"{e}: {v}"]}


def option(t):
    return "None" if t is None else f"(Some ({coded(t)}))"


def texts_term(ts):
    return listing([f"({coded(t)})" for t in ts])


def groups_term(gs):
    return listing([texts_term(g) for g in gs])


def answer_rows():
    f = RowFile(CRATE, "AnswerRows", f"The lines that tell answers: computed on the definition. {MADE}", [PRELUDE, "use Rattle.kishu_meaning.specs.declared.result.Outcome.TheVariants.{Done, Raised, Stopped}", "use Rattle.kishu_meaning.specs.values.Values.{stream, shown, fault}", MODEL + "Answers.{Answer, Refusal, bad_request, no_such_ref, bad_name, name_taken, store_full, cell_too_long, state_too_large, ran_cell, ran_cells, checked_out, branched, logged, told_status, inspected, told_stored, told_plan, refused, answer_line, refusal_number, refusal_name, outcome_word}", f"use Rattle.{CRATE}.proofs.OnLiterals.{{requests_on_literals}}"])

    def row(kind, term, answer):
        f.row(kind, f"answer_line ({term}) ≡ {coded(json_line(answer))}", unfolding="requests_on_literals")

    odd = 'a"b\\c\nd\te\x01é\u2028\U0001f600/\x7f'
    for outcome, outputs in (("ok", lambda c: []), ("ok", lambda c: [stream("a\n")]), ("ok", lambda c: [stream("a"), shown("1", c)]), ("ok", lambda c: [shown(odd, c)]), ("error", lambda c: [fault("KeyError", "'k'")]), ("error", lambda c: [stream(odd), fault("ValueError", "")]), ("stopped", lambda c: [fault("Stopped", "step budget spent")]), ("stopped", lambda c: [stream("x"), fault("Stopped", "step budget spent")])):
        for commit, count in ((1, 1), (999999, 12345678901)):
            row("cell", f"ran_cell {commit} {count} {report_term(outcome, outputs(count))}", {"answer": "cell", "commit": commit, "count": count, "outcome": outcome, "outputs": outputs(count)})
    for rs in ([], [(1, "ok", [])], [(7, "ok", [stream("a"), shown("b", 7)]), (8, "error", [fault("E", "v")])], [(2, "stopped", [fault("Stopped", "step budget spent")])]):
        row("cells", f"ran_cells 3 {listing([f'(record {{ count = {c}; report = {report_term(o, outs)} }})' for c, o, outs in rs])}", {"answer": "cells", "commit": 3, "results": [{"count": c, "outcome": o, "outputs": outs} for c, o, outs in rs]})
    for c, b in ((0, None), (7, "main"), (1000000, "a-b_9")):
        row("checkout", f"checked_out {c} {option(b)}", {"answer": "checkout", "commit": c, "head": b})
    for c, n in ((0, "try"), (4294967295, "_")):
        row("branch", f"branched {c} ({coded(n)})", {"answer": "branch", "commit": c, "name": n})
    for bs, path in (([("main", 0)], []), ([], [(1, 1, "x", 0)]), ([("Z", 3), ("a", 0)], [(2, 3, odd, 1), (1, 1, "", 0)])):
        row("log", f"logged {listing([f'({coded(b)}, {c})' for b, c in bs])} {listing([f'(record {{ cells = {k}; commit = {n}; line = {coded(l)}; parent = {p} }})' for k, n, l, p in path])}", {"answer": "log", "branches": [{"commit": c, "name": b} for b, c in bs], "path": [{"cells": k, "commit": n, "line": l, "parent": p} for k, n, l, p in path]})
    for b, names, n in ((None, [], 0), ("main", ["Z", "_", "a"], 1000000)):
        row("status", f"told_status (record {{ branch = {option(b)}; commit = {n}; commits = {n + 1}; names = {texts_term(names)}; records = {n} }})", {"answer": "status", "branch": b, "commit": n, "commits": n + 1, "names": names, "records": n})
    for names, nodes in (([], []), ([("b", "#0"), ("a", "1"), ("Z", "None")], [["list"]]), ([("a", odd)], [["dict", "'k'", "#1"], ["object", "x", "'\"'"], ["function", "1", "def f():\n    pass"]])):
        row("inspect", f"inspected 5 {listing([f'({coded(x)}, {coded(v)})' for x, v in names])} {groups_term(nodes)}", {"answer": "inspect", "commit": 5, "names": dict(names), "nodes": nodes})
    for d, s in (([], []), ([["a", "b"], ["c"]], [["a"]])):
        row("stored", f"told_stored 9 {groups_term(d)} {groups_term(s)}", {"answer": "stored", "commit": 9, "dropped": d, "stored": s})
    for d, k, l in (([], [], []), ([["a"]], [["b", "c"]], [["d"], ["e"]])):
        row("plan", f"told_plan 0 {groups_term(d)} {groups_term(k)} {groups_term(l)}", {"answer": "plan", "commit": 0, "drop": d, "keep": k, "load": l})
    plain = [("bad_request", 1, "BadRequest"), ("no_such_ref", 2, "NoSuchRef"), ("bad_name", 3, "BadName"), ("name_taken", 4, "NameTaken"), ("store_full", 5, "StoreFull"), ("cell_too_long", 6, "CellTooLong")]
    for term, n, reason in plain:
        row("refused", f"refused {term}", {"answer": "refused", "number": n, "reason": reason})
    for n in (268435457, 301001535, 2**64 - 1):
        row("refused", f"refused (state_too_large {n})", {"answer": "refused", "bytes": n, "number": 7, "reason": "StateTooLarge"})
    f.write()


# ---- lines

KEYS = {"cell": {"text": str}, "cells": {"texts": list}, "checkout": {"to": str}, "log": {}, "status": {}, "inspect": {}, "stored": {"of": str}, "plan": {"to": str}}


def request(line):
    """The request that a line is, as a term; or nothing."""
    try:
        v = json.loads(line, parse_constant=lambda c: 1 / 0)
    except (ValueError, ZeroDivisionError, RecursionError):
        return "None"
    if not isinstance(v, dict) or not isinstance(v.get("op"), str):
        return "None"
    op, rest = v["op"], {k: x for k, x in v.items() if k != "op"}
    if op == "branch":
        good = set(rest) in ({"name"}, {"name", "at"}) and all(isinstance(x, str) for x in rest.values())
        return f"Some (branch ({coded(rest['name'])}) {option(rest.get('at'))})" if good else "None"
    if op not in KEYS or set(rest) != set(KEYS[op]) or any(not isinstance(rest[k], t) for k, t in KEYS[op].items()):
        return "None"
    if op == "cells":
        texts = rest["texts"]
        return f"Some (cells {texts_term(texts)})" if texts and all(isinstance(t, str) for t in texts) else "None"
    return f"Some ({' '.join([op, *[f'({coded(t)})' for t in rest.values()]])})"


LINES = [
    '{"op":"log"}', ' { "op" : "log" } ', '\t{"op":"status"}\r', '{"op":"inspect"}', '{"op":"cell","text":""}', '{"text":"a\\nb","op":"cell"}', '{"op":"cell","text":"\\u00e9\\ud83d\\ude00"}', '{"op":"cell","text":"é"}', '{"op":"cells","texts":["a","b"]}', '{"op":"cells","texts":[""]}', '{"op":"checkout","to":"main"}', '{"op":"checkout","to":""}', '{"op":"branch","name":"a"}', '{"op":"branch","name":"","at":""}', '{"at":"0","name":"x","op":"branch"}', '{"op":"stored","of":"1"}', '{"op":"plan","to":"1"}',
    '', ' ', '{}', '[]', 'null', '1', '"log"', '{"op":"Log"}', '{"op":"log "}', '{"op":"fly"}', '{"op":1}', '{"op":null}', '{"op":["log"]}', '{"Op":"log"}', '{"op":"log","to":"1"}', '{"op":"status","x":null}', '{"op":"inspect","of":""}', '{"op":"cell"}', '{"op":"cell","text":null}', '{"op":"cell","text":1}', '{"op":"cell","texts":["a"]}', '{"op":"cell","text":"a","texts":["a"]}', '{"op":"cells","text":"a"}', '{"op":"cells","texts":[]}', '{"op":"cells","texts":"a"}', '{"op":"cells","texts":[1]}', '{"op":"cells","texts":["a",["b"]]}', '{"op":"cells","texts":{"a":"b"}}', '{"op":"checkout"}', '{"op":"checkout","to":1}', '{"op":"checkout","of":"1"}', '{"op":"checkout","to":"1","to2":"1"}', '{"op":"branch"}', '{"op":"branch","at":"1"}', '{"op":"branch","name":1}', '{"op":"branch","name":"a","at":1}', '{"op":"branch","name":"a","at":null}', '{"op":"branch","name":"a","at":"1","x":1}', '{"op":"stored","to":"1"}', '{"op":"stored"}', '{"op":"plan","of":"1"}', '{"op":"plan","to":1}',
    '{"op":"log"', '"op":"log"}', "{'op':'log'}", '{"op":"log",}', '{"op":"log"}}', '{"op":"log"} x', '{"op" "log"}', '{op:"log"}', '{"op":"log}', '{"op":"cell","text":"a\nb"}', '{"op":"cell","text":"\\x"}', '{"op":"cell","text":"\\ud800"}', '// x', '{"op":"cell","text":"a"} {"op":"log"}', '\ufeff{"op":"log"}',
]
# serde_json reads no text with half a pair of surrogates.
NOT_READ = {'{"op":"cell","text":"\\ud800"}'}


def line_rows():
    f = RowFile(CRATE, "LineRows", f"Which request a line is, or that it is none: computed on the definition. {MADE}", [PRELUDE, MODEL + "Reading.{reading}", MODEL + "Request.{Request, cell, cells, checkout, branch, log, status, inspect, stored, plan}", f"use Rattle.{CRATE}.proofs.OnLiterals.{{lines_on_literals}}"])
    for line in LINES:
        f.row("line", f"reading ({coded(line)}) ≡ {'None' if line in NOT_READ else request(line)}", unfolding="lines_on_literals")
    f.write()


if __name__ == "__main__":
    answer_rows()
    line_rows()
