#!/usr/bin/env python3
"""Times the parser on 256 KiB and on 1 MiB of the same kind of text, as timing.py says. The lexer's
work counts too.

Usage: tools/time/time_trees.py
"""
from timing import Reading, repeated, report

TREES = Reading("kishu_parser", "parse", "found.statements")


def numbered(piece, before, after):
    """A kind of text: pieces that each have a number of their own, between what stands once."""

    def text(size):
        room = size - len(before) - len(after)
        return (before + "".join(piece % i for i in range(room // len(piece % 0))) + after).encode()

    return text


KINDS = {
    "assignments": repeated("x = 1\n"),
    "names": repeated("x\n"),
    "statements of one line": repeated("x;", "", "\n"),
    "terms of one sum": repeated("+1", "1", "\n"),
    "factors of one product": repeated("*a", "a", "\n"),
    "comparisons": repeated("<a", "a", "\n"),
    "and, or, not": repeated(" or b and not c", "a", "\n"),
    "trailers": repeated("[0].b", "a", "\n"),
    "calls of calls": repeated("()", "a", "\n"),
    "arguments": repeated("a, ", "f(", ")\n"),
    "keyword arguments": numbered("a%06d=1,", "f(", ")\n"),
    "items of a list": repeated("a,", "[", "]\n"),
    "pairs of a dict": repeated("a: 'b', ", "x = {", "}\n"),
    "texts side by side": repeated("'a' ", "x = ", "\n"),
    "targets": repeated("a = ", "", "b\n"),
    "places to delete": repeated("a, ", "del ", "a\n"),
    "global names": numbered("a%06d,", "def f():\n  global ", "a\n"),
    "global again and again": repeated("  global a\n", "def f():\n", ""),
    "variables, then globals": numbered("  a%06d = b\n", "def f():\n", "  global c\n"),
    "parameters": numbered("a%06d=1,", "def f(", "): pass\n"),
    "if and else": repeated("if x:\n  y\nelse: z\n"),
    "elif": repeated("elif b: c\n", "if a: b\n", ""),
    "handlers": repeated("except A: b\n", "try: a\n", ""),
    "statements in a block": repeated("  y = z\n", "while x:\n", ""),
    "functions": repeated("def f(a, b=1):\n  return a\n"),
    "functions in a block": repeated("  def f(a): return a\n", "if x:\n", ""),
}


def main():
    report(TREES, KINDS)


if __name__ == "__main__":
    main()
