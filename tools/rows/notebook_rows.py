#!/usr/bin/env python3
"""Makes the rows of crates/kishu_store_rows on notebooks: which bytes are one, what its code cells run, and what
a run writes. JSON is read and written by CPython; the rules stand here a second time, and what cells give is
told by request_machine.py."""

import copy
import json

from nodes import listing
from record_rows import CRATE, ONE, STORE
from request_machine import Machine
from request_rows import coded
from row_file import PRELUDE, RowFile

MODEL = "use Rattle.kishu_model.specs."
MADE = "Made by tools/rows/notebook_rows.py."
OPENED = "notebooks_on_literals"


# ---- which bytes are a notebook

def whole(v):
    return type(v) is int and 0 <= v < 2**64


def id_fine(t):
    return isinstance(t, str) and 1 <= len(t) <= 64 and all(c.isascii() and (c.isalnum() or c in "-_") for c in t)


def cell_fine(c):
    if not isinstance(c, dict) or c.get("cell_type") not in ("code", "markdown", "raw") or not id_fine(c.get("id")) or not isinstance(c.get("metadata"), dict):
        return False
    source = c.get("source")
    if not isinstance(source, str) and not (isinstance(source, list) and all(isinstance(t, str) for t in source)):
        return False
    if c["cell_type"] != "code":
        return True
    outs = c.get("outputs")
    return isinstance(outs, list) and all(isinstance(o, dict) and isinstance(o.get("output_type"), str) for o in outs) and "execution_count" in c and (c["execution_count"] is None or whole(c["execution_count"]))


def floats(v):
    if isinstance(v, float):
        return True
    if isinstance(v, int) and not isinstance(v, bool):
        return not -(2**63) <= v < 2**64
    return any(map(floats, v.values() if isinstance(v, dict) else v if isinstance(v, list) else ()))


def fault(t):
    """The first fault, as a term; nothing where there is none."""
    try:
        v = json.loads(t, parse_constant=lambda c: 1 / 0)
    except (ValueError, ZeroDivisionError):
        return "not_json"
    if not isinstance(v, dict) or v.get("nbformat") != 4 or type(v.get("nbformat")) is not int:
        return "(not_notebook format_key)"
    if not whole(v.get("nbformat_minor")):
        return "(not_notebook minor_key)"
    if not isinstance(v.get("metadata"), dict):
        return "(not_notebook metadata_key)"
    if not isinstance(v.get("cells"), list):
        return "(not_notebook cells_key)"
    if v["nbformat_minor"] != 5:
        return f"(version {v['nbformat_minor']})"
    for i, c in enumerate(v["cells"]):
        if not cell_fine(c):
            return f"(bad_cell {i})"
    seen = set()
    for i, c in enumerate(v["cells"]):
        if c["id"] in seen:
            return f"(repeated_id {i})"
        seen.add(c["id"])
    return "not_whole" if floats(v) else None


CODE = {"cell_type": "code", "execution_count": None, "id": "a", "metadata": {}, "outputs": [], "source": "1"}
TEXT = {"cell_type": "markdown", "id": "m", "metadata": {}, "source": "1"}


def with_(cell, **changes):
    c = {**cell, **changes}
    return {k: v for k, v in c.items() if v is not ...}


def book(*cells, **changes):
    return json.dumps(with_({"cells": list(cells), "metadata": {}, "nbformat": 4, "nbformat_minor": 5}, **changes), ensure_ascii=False)


def tried():
    odd = [[], "", None, 0, 1.5, True, {}, "b c", "é", "-" * 64, "x" * 65]
    yield from ("", "{", "[]", "null", "{}", "1", '"a"', book(), book() + " ", book() + "x", book()[:-1], "\ufeff" + book())
    yield from (book(**{k: v}) for k in ("nbformat", "nbformat_minor", "metadata", "cells") for v in (..., None, "4", 4.0, 4, 5, 6, 0, -1, {}, []))
    yield from (book(nbformat=3, nbformat_minor=...), book(nbformat_minor=4, cells=[1]), book(nbformat_minor=6, metadata={"a": 1.5}), book(metadata=..., cells=...), book(nbformat_minor=2**64), book(nbformat_minor=2**64 - 1))
    yield from (book(CODE, with_(TEXT, id=v)) for v in odd)
    yield from (book(with_(CODE, **{k: ...})) for k in CODE)
    yield from (book(with_(TEXT, **{k: ...})) for k in TEXT)
    yield from (book(with_(CODE, cell_type=v)) for v in ("raw", "Code", "", None, 1, "code "))
    yield from (book(with_(CODE, execution_count=v)) for v in (0, 7, 2**64 - 1, 2**64, -1, 1.0, "1", True, []))
    yield from (book(with_(CODE, outputs=v)) for v in (None, {}, [1], [{}], [{"output_type": 1}], [{"output_type": ""}], [{"output_type": "x", "y": [None]}, {}]))
    yield from (book(with_(CODE, source=v)) for v in (None, 1, [], ["a", "b"], ["a", 1], {}, [["a"]]))
    yield from (book(with_(CODE, metadata=v)) for v in (None, [], {"a": {"b": 1}}, {"a": 1.5}, {"a": -(2**63)}, {"a": -(2**63) - 1}, {"a": 2**64 - 1}, {"a": 2**64}, {"a": 1e3}))
    yield from (book(CODE, TEXT, CODE), book(CODE, with_(TEXT, id="a"), 1), book(TEXT, 1, TEXT), book(with_(TEXT, id="A"), CODE), book(with_(CODE, metadata={"x": 0.5}), CODE), book(CODE, TEXT, with_(CODE, id="b"), with_(TEXT, id="b")), book(metadata={"x": 1.25}), book(with_(TEXT, outputs=1, execution_count="x")))


def fault_rows():
    f = RowFile(CRATE, "NotebookFaultRows", f"Which bytes are a notebook, and the first fault of others: computed on the definition. {MADE}", [PRELUDE, "use Rattle.std.specs.Prelude.{Result}", "use Rattle.serde_json.specs.Data.{Data}", MODEL + "notebooks.Notebook.{Fault, not_json, not_notebook, version, bad_cell, repeated_id, not_whole, format_key, minor_key, metadata_key, cells_key, opening, reason}", f"use Rattle.{CRATE}.proofs.OnLiterals.{{notebooks_on_literals}}"])
    f.put("-- the fault, if there is one", "abbrev fault_of : Result Data Fault → Option Fault", "fault_of (Ok d) = None", "fault_of (Err e) = Some e")
    tries, done = [], set()
    for t in tried():
        if t not in done:
            done.add(t)
            tries.append(t)
    for t in tries:
        found = fault(t)
        f.row("fault", f"fault_of (opening ({coded(t)})) ≡ {'None' if found is None else f'Some {found}'}", unfolding=OPENED)
    f.title("how faults are told")
    told = [("not_json", "not JSON"), ("(not_notebook format_key)", "key nbformat"), ("(not_notebook minor_key)", "key nbformat_minor"), ("(not_notebook metadata_key)", "key metadata"), ("(not_notebook cells_key)", "key cells"), ("(version 4)", "minor 4"), ("(version 0)", "minor 0"), ("(bad_cell 0)", "cell 0"), ("(bad_cell 17)", "cell 17"), ("(repeated_id 1)", "repeated id at cell 1"), ("not_whole", "a number is not whole")]
    f.table("reason", [f"reason {t}" for t, _ in told], [coded(t) for _, t in told], unfolding=OPENED)
    cut_in_two(f)


def cut_in_two(f):
    """Writes the rows into as many files as have room for them."""
    f.lines = f.used()
    head = next(i for i, l in enumerate(f.lines) if l.startswith("fault_1 "))
    begun, rest = f.lines[:head - 1], f.lines[head - 1:]
    per, n = 400, 0
    blocks, block = [], []
    for l in rest:
        if l == "" and len(block) > per:
            blocks.append(block)
            block = []
        block.append(l)
    blocks.append(block)
    for i, b in enumerate(blocks):
        path = f.path.with_name("More" * i + f.path.name)
        path.write_text("\n".join(begun + b) + "\n")
        print(path.name, len(begun + b), "lines")
    print("NotebookFaultRows", sum(f.counts.values()))


# ---- runs

def run(machine, t, together):
    """The bytes that are written, and how many code cells were asked for."""
    v = json.loads(t)
    code = [c for c in v["cells"] if c["cell_type"] == "code"]
    texts = ["".join(c["source"]) for c in code]
    done = []
    if together and texts:
        a = machine.answer(("cells", texts))
        done = [a] if a["answer"] == "refused" else a["results"]
    elif not together:
        for text in texts:
            done.append(machine.answer(("cell", text)))
            if done[-1]["answer"] == "refused" or done[-1]["outcome"] != "ok":
                break
    for c, a in zip(code, done):
        if a.get("answer") == "refused":
            c["execution_count"] = None
            c["outputs"] = [{"ename": a["reason"], "evalue": "", "output_type": "error", "traceback": [a["reason"] + ": "]}]
        else:
            c["execution_count"], c["outputs"] = a["count"], a["outputs"]
    return json.dumps(v, indent=2, sort_keys=True, ensure_ascii=False) + "\n", texts


BOOKS = [
    ("cells of each kind, of which the code alone is run", book(TEXT, with_(CODE, source=["x = [1]\n", "x"]), with_(CODE, id="b", cell_type="raw"), with_(CODE, id="c", source="x.append(2); print(x)"), with_(CODE, id="d", source=[]))),
    ("nothing behind an error", book(with_(CODE, source="print('a'); 1 // 0"), with_(CODE, id="b", source="2", outputs=[{"output_type": "x", "k": {"z": None, "a": [1, -5]}}], execution_count=9))),
    ("nor behind a text without a tree", book(with_(CODE, source="x = "), with_(CODE, id="b", source="1", metadata={"tags": ["é\n\"\\"]}))),
    ("further keys stay", book(with_(CODE, source="'é'", extra={"b": 1, "a": [True, None, {}]}), with_(TEXT, attachments={"i.png": {"image/png": "x"}}), zeta=[[]], metadata={"kernelspec": {"name": "k"}})),
    ("without code", book(TEXT, with_(TEXT, id="n", cell_type="raw", source=["a", "b"]))),
    ("without cells", book()),
]


def run_rows():
    f = RowFile(CRATE, "NotebookRunRows", f"What runs of notebooks write, and the graphs that they leave: computed on the definitions. {MADE}", [PRELUDE, "use Rattle.std.specs.Prelude.{map}", ONE, STORE + "Graph.{Graph, new_graph}", MODEL + "Serve.{answers, after_all}", MODEL + "Task.{task, notebook}", f"use Rattle.{CRATE}.proofs.OnLiterals.{{notebooks_on_literals}}"])
    for n, (says, t) in enumerate(BOOKS):
        f.title(says)
        f.put(f"abbrev book{n + 1} : List ℕ", f"book{n + 1} = {coded(t)}")
        for together in (False, True):
            for records in (0, 999999, 1000000) if n in (0, 4) else (0,):
                machine = Machine(records)
                written, texts = run(machine, t, together)
                start = f"(record new_graph {{ records = {records} }})" if records else "new_graph"
                task = f"(task (Some (notebook {str(together).lower()})) {start} book{n + 1})"
                f.row("writes", f"answers {start} {task} ≡ {coded(written)}", unfolding=OPENED)
                f.row("leaves", f"after_all {start} {task} ≡ {machine.graph.term()}", unfolding=OPENED)
    f.write()


if __name__ == "__main__":
    fault_rows()
    run_rows()
