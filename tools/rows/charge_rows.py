#!/usr/bin/env python3
"""Makes the row file of crates/kishu_store_rows on the steps that requests take. The steps are counted here by
hand, rule by rule: one for each statement, turn of a loop, node of an expression and operator; further ones for
items and code points that are made, and for the texts of values that are shown and of errors."""

from record_rows import CRATE, ONE, STORE
from request_rows import USES, requests_term, request_term
from row_file import PRELUDE, RowFile

MODEL = "use Rattle.kishu_model.specs."

CELLS = [
    ("", 0), ("pass", 1), ("x = 1", 2), ("None", 2), ("x = = 1", 0), ("1", 2 + 1), ("'ab'", 2 + 4), ("1 + 2", 4 + 1), ("x = [1, 2]", 4), ("x = (1, 2)", 4), ("x = {1: 2}", 4), ("print(1)", 4 + 2), ("x = 1; x", 4 + 1),
    ("if 1: pass", 3), ("if 0: pass", 2), ("while 0: pass", 2), ("for i in [1]: pass", 3 + 2), ("for i in []: pass", 2), ("not 1", 3 + 5), ("-1", 3 + 2), ("'a' + 'b'", 4 + 2 + 4), ("[1] * 3", 5 + 3 + 9), ("1 < 2", 4 + 4), ("x = 5\nx += 1", 2 + 4),
    ("def f(): pass", 1), ("def f(): return 1\nf()", 1 + 3 + 2 + 1), ("1 or 2", 3 + 1), ("1 if 1 else 2", 4 + 1), ("x = [0]; x[0]", 3 + 4 + 1), ("x = [0]; x[0] = 1", 3 + 4), ("x = []; x.append(1)", 2 + 5), ("x = 1; del x", 3),
    ("x", 2 + 23 + 1), ("1 // 0", 4 + 16 + 1), ("assert 1", 2), ("try: pass\nfinally: pass", 3), ("x = y = 1", 2), ("a, b = [1, 2]", 4 + 2),
]


def charge_rows():
    f = RowFile(CRATE, "ChargeRows", "The steps that requests take, counted by hand: computed on the definitions. Made by tools/rows/charge_rows.py.", [*USES, MODEL + "Step.{step, charge_of}"])
    f.title("cells, one in a request")
    for text, n in CELLS:
        f.row("cell", f"charge_of new_graph ({request_term(('cell', text))}) ≡ {n}", unfolding="requests_on_literals")
    f.title("several, up to the first that doesn't end well")
    for texts, n in ((["x = 1", "x"], 2 + 3), (["x = 1", "x // 0", "y"], 2 + 4 + 17), (["", ""], 0), (["x =", "1"], 0), ([], 0)):
        f.row("cells", f"charge_of new_graph ({request_term(('cells', texts))}) ≡ {n}", unfolding="requests_on_literals")
    f.title("other requests take none, nor do cells that aren't run")
    f.put("abbrev full : Graph", "full = record new_graph { records = 1000000 }")
    for g in ("new_graph", "full"):
        for q in (("unreadable",), ("checkout", "main"), ("checkout", "7"), ("branch", "try"), ("log",), ("status",), ("inspect",), ("stored", "0"), ("plan", "0")):
            f.row("other", f"charge_of {g} ({request_term(q)}) ≡ 0", unfolding="requests_on_literals")
    f.row("other", f"charge_of full ({request_term(('cell', '1'))}) ≡ 0", unfolding="requests_on_literals")
    f.row("other", f"charge_of full ({request_term(('cells', ['1', '2']))}) ≡ 0", unfolding="requests_on_literals")
    f.write()


if __name__ == "__main__":
    charge_rows()
