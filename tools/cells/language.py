#!/usr/bin/env python3
"""Runs the examples of docs/LANGUAGE.md, or makes the table by which they are tested.

Usage: tools/cells/language.py PROGRAM     (runs each as `PROGRAM STORE cell`, on a store of its own)
       tools/cells/language.py --rows      (prints crates/kishu_tests/src/serve/language.rt)

An example is a fenced block of python and behind it a fenced block of text with what the cell shows: what it
prints, then the value of its last statement, then the exception that ends it as `ename: evalue`.
"""
import ast
import os
import pathlib
import re
import subprocess
import sys
import tempfile
import warnings
from collections import namedtuple

from cells import LISTED, answered, rust_row, spent

PAGE = pathlib.Path(__file__).resolve().parents[2] / "docs" / "LANGUAGE.md"
BLOCK = re.compile(r"^```(python|text)\n(.*?)^```$\n*", re.M | re.S)
ENDS = LISTED[LISTED.index("Exception") :] + ["Stopped"]
Example = namedtuple("Example", "outcome outputs")

HEAD = """// Made by tools/cells/language.py of docs/LANGUAGE.md: rows as those of `cells`.
pub(crate) const COUNT: usize = %d;

// Of these so many spend their steps.
pub(crate) const SPENT: usize = %d;

pub(crate) const ROWS: &str = "\\
"""


def shows_a_value(cell):
    """Whether the last statement is an expression, and no `print`."""
    last = ast.parse(cell).body[-1]
    return isinstance(last, ast.Expr) and not ast.unparse(last).startswith("print(")


def example(cell, text):
    lines, outcome, ends = text.splitlines(), "ok", []
    name, _, value = lines[-1].partition(": ")
    if name in ENDS:
        outcome, ends = "stopped" if name == "Stopped" else "error", [("fault", name, value)]
    elif shows_a_value(cell):
        ends = [("shown", lines[-1])]
    printed = lines[: len(lines) - len(ends)]
    return Example(outcome, ([("stream", "".join(line + "\n" for line in printed))] if printed else []) + ends)


def examples():
    """The cell of each example, without its last line feed, and what it shows."""
    with open(PAGE) as page:
        text = page.read()
    blocks = list(BLOCK.finditer(text))
    for cell, shown in zip(blocks[::2], blocks[1::2]):
        if (cell[1], shown[1]) != ("python", "text") or cell.end() != shown.start():
            sys.exit("no example, or nothing that it shows: %r" % cell[2])
    if len(blocks) % 2:
        sys.exit("nothing that the last example shows")
    return [(cell[2][:-1], example(cell[2], shown[2])) for cell, shown in zip(blocks[::2], blocks[1::2])]


def answer(program, cell):
    with tempfile.TemporaryDirectory() as folder:
        return subprocess.run([program, os.path.join(folder, "store"), "cell"], input=cell.encode(), capture_output=True).stdout.decode()


def main():
    warnings.simplefilter("ignore")
    rows = examples()
    if sys.argv[1:] == ["--rows"]:
        print(HEAD % (len(rows), spent(rows)) + "".join(rust_row(cell, found) for cell, found in rows) + '";')
        return None
    differ = 0
    for cell, found in rows:
        want, got = '{"answer":"cell","commit":1,"count":1,"outcome":%s}\n' % answered(found), answer(sys.argv[1], cell)
        if got != want:
            differ += 1
            print("%s\n  page:    %s  program: %s" % (cell, want, got))
    print("%d examples, %d differ" % (len(rows), differ))
    return 1 if differ else 0


if __name__ == "__main__":
    sys.exit(main())
