#!/usr/bin/env python3
"""Makes the row file of crates/kishu_store_rows on requests that are made from a number: the rule stands here a second
time."""

from nodes import text
from record_rows import CRATE
from request_rows import request_term
from row_file import PRELUDE, RowFile

MODEL = "use Rattle.kishu_model.specs."


def requests(start, many):
    x, cells = start, 0
    for k in range(1, many + 1):
        x = (1103515245 * x + 12345) % 2**31
        d = x // 65536
        i, j, w = d % 10, d // 10 % 10, d // 100 % 10
        if k <= 10:
            q = ("cell", f"v{k - 1} = [{k}]")
        elif w <= 2:
            q = ("cell", f"v{i} = [{k}, {j}]")
        elif w <= 4:
            q = ("cell", f"v{i} = [v{j}]")
        elif w <= 6:
            q = ("cell", f"v{i}.append({k})")
        elif w == 7:
            q = ("cell", f"print(v{i} is v{j}, len(v{j}))")
        elif w == 8:
            q = ("cell", f"v{i} = v{j}")
        else:
            q = ("checkout", str(d % (1 + cells)))
        cells += q[0] == "cell"
        yield x, q


def generated_rows():
    f = RowFile(CRATE, "GeneratedRows", "Requests that are made from a number: computed on the definitions. Made by tools/rows/generated_rows.py.", [PRELUDE, "use Rattle.std.specs.Fmt.{digits}", MODEL + "Request.{Request, cell, checkout}", MODEL + "generated.Requests.{next_number, number, drawn, cells_among, request_behind, requests_behind, generated_requests}"])
    for start in (0, 7, 123456789, 2**31 - 1):
        made = list(requests(start, 60))
        f.title(f"from {start}")
        f.row("number", f"number {start} 5 ≡ {made[4][0]}")
        f.row("number", f"next_number {start} ≡ {made[0][0]}")
        f.row("cells", f"cells_among {start} 60 ≡ {sum(q[0] == 'cell' for _, q in made)}")
        f.row("none", f"generated_requests {start} 0 ≡ []")
        for a, b in ((0, 12), (12, 24), (24, 36), (48, 60)):
            full = f"requests{start}_{a}"
            f.counts[full] = b - a
            f.put(f"{full} : requests_behind {start} {a} {b - a} ≡ " + " ∷ ".join([request_term(q) for _, q in made[a:b]] + ["[]"]), "unfolding digits", f"{full} = refl")
    f.write()


if __name__ == "__main__":
    generated_rows()
