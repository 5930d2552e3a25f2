#!/usr/bin/env python3
"""Counts the rows of each file of definitions: theorems of the crates of rows, and of the `proofs/` of crates of
definitions, that say what a definition of the file gives. One that compares lists counts for each time that the
definition stands on its left, and one that tests each thing with each for each answer. A request that is answered
or carried out counts for the file of its kind, and a run of a notebook for those of notebooks.

    tools/rows/count_rows.py [CRATE ..]"""

import collections
import pathlib
import re
import sys

TOP = pathlib.Path(__file__).resolve().parents[2]
ROWS = "kishu_rows kishu_object_rows kishu_store_rows kishu_objects kishu_objects_laws kishu_reading kishu_state_laws kishu_history".split()
ASKED = sys.argv[1:] or "kishu_objects kishu_reading kishu_history kishu_store kishu_model".split()
KINDS = "Cell Cells Checkout Branch Log Status Inspect Stored Plan".split()
CARRIED_OUT = {"answers", "answer_of", "step", "after", "after_all", "charge_of", "ran", "ran_together", "commits", "commits_together"}


def declared(path):
    text = path.read_text()
    return set(re.findall(r"(?m)^ *(?:unfoldable |abbrev )*pub (?:data |record )?([^\s:(]+)", text)) | set(re.findall(r"(?m)^  ([a-z_]+) :", text))


def uses(text):
    """Which names a file uses of which file of definitions."""
    found = {}
    for crate, path, names in re.findall(r"(?m)^use Rattle\.(kishu_\w+)\.specs\.([\w.]+)\.\{(.*?)\}", text):
        for n in names.split(","):
            found[n.strip().split(" as ")[0]] = (crate, path)
    return found


def theorems(text):
    """The two sides of each statement."""
    for block in re.split(r"\n\s*\n", text):
        lines = [l for l in block.split("\n") if not l.startswith("--")]
        if not lines or not re.match(r"^(pub )?[\w-]+ :", lines[0]):
            continue
        kept = []
        for l in lines:
            if l.startswith("unfolding") or re.match(r"^[\w-]+( \w+)* =", l):
                break
            kept.append(l)
        left, _, right = " ".join(kept).partition("≡")
        yield left, right


def count(text, exported, counts):
    used = uses(text)
    for left, right in theorems(text):
        words = collections.Counter(re.findall(r"[\w-]+", re.sub(r'"(\\.|[^"\\])*"', "", left)))
        told = collections.Counter()
        for n, where in used.items():
            if n in words:
                where = exported.get((where, n), where)
                told[where] = max(told[where], words[n])
        if "each_with" in words or "map (λ" in left:
            told = {where: len(re.findall(r"\b(?:true|false)\b", right)) for where in told}
        for where, n in told.items():
            counts[where] += n if right else 1
        if CARRIED_OUT & set(words):
            for kind in KINDS:
                if used.get(kind.lower()) == ("kishu_model", "Request"):
                    counts["kishu_model", f"requests.{kind}"] += words[kind.lower()]
            if "notebook" in words or {"ran", "ran_together", "commits", "commits_together"} & set(words):
                for part in ("Run", "Setting"):
                    counts["kishu_model", f"notebooks.{part}"] += 1
        if "opening" in words:
            counts["kishu_model", "notebooks.Cells"] += 1


def main():
    counts, exported = collections.Counter(), {}
    for crate in ASKED:
        top = TOP / "crates" / crate / "specs"
        for f in top.rglob("*.antt"):
            where = (crate, ".".join(f.relative_to(top).with_suffix("").parts))
            for n in declared(f):
                exported[where, n] = where
            for c, p, names in re.findall(r"(?m)^pub use Rattle\.(kishu_\w+)\.specs\.([\w.]+)\.\{(.*?)\}", f.read_text()):
                for n in names.split(","):
                    exported[where, n.strip()] = (c, p)
    for crate in ROWS:
        for f in (TOP / "crates" / crate / "proofs").rglob("*.antt"):
            count(f.read_text(), exported, counts)
    for crate in ASKED:
        top = TOP / "crates" / crate / "specs"
        for f in sorted(top.rglob("*.antt")):
            path = ".".join(f.relative_to(top).with_suffix("").parts)
            if f.stem != "Lib" and not f.with_suffix("").is_dir():
                print(f"{counts[crate, path]:6}  {crate}  {path}")


if __name__ == "__main__":
    main()
