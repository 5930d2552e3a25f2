#!/usr/bin/env python3
"""Looks whether CPython reads the code of a function by itself as the function that it reads in the
whole text, for each row of crates/kishu_syntax_tests/src/parser/codes.rt.

Usage: tools/compare/codes.py

Prints how many rows there are, and ends with status 1 where one is read otherwise.
"""
import ast
import pathlib
import re
import sys

ROWS = pathlib.Path(__file__).resolve().parents[2] / "crates/kishu_syntax_tests/src/parser/codes.rt"
ESCAPES = {"n": "\n", "r": "\r", "t": "\t", "0": "\0", "\\": "\\", '"': '"', "'": "'"}


def character(found):
    """What an escape of a Rust text stands for; at the end of a line it takes the blanks of the next."""
    escape = found.group(1)
    if escape[0] in "xu":
        return chr(int(escape[1:].strip("{}"), 16))
    return ESCAPES.get(escape, "")


def rows():
    """The texts, each with the code of a function in it."""
    literal = re.search(r'ROWS: &str = "(.*)";', ROWS.read_text(), re.S).group(1)
    table = re.sub(r"\\(x[0-9a-f]{2}|u\{[0-9a-f]+\}|\n\s*|.)", character, literal)
    return [row.split("\x1f") for row in table.split("\x1e") if row]


def functions(text):
    return [ast.dump(node) for node in ast.walk(ast.parse(text)) if isinstance(node, ast.FunctionDef)]


def main():
    table = rows()
    bad = [code for text, code in table if len(functions(code)) != 1 or functions(code)[0] not in functions(text)]
    for code in bad:
        print(f"read otherwise: {code!r}")
    print(f"{len(table)} codes, {len(bad)} read otherwise")
    sys.exit(1 if bad else 0)


if __name__ == "__main__":
    main()
