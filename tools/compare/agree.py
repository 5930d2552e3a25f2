#!/usr/bin/env python3
"""Runs random programs by Kishu and by CPython, and compares what they print and raise.

Usage: tools/compare/agree.py PROGRAM [COUNT [SEED]]      5000 programs of seed 1 where no numbers are given
       tools/compare/agree.py PROGRAM --only K [SEED]     shows program K of a seed, and what both make of it
       tools/compare/agree.py PROGRAM --file FILE         the same for the text in a file

PROGRAM is the built program, called as `PROGRAM STORE cell`. Program K of a seed depends on these two
numbers alone; agree_programs.py makes it of the forms in agree_forms.py. CPython is the one that runs this
script: a second process takes programs from a pipe and runs each by `exec` in fresh globals.

Compared are the printed text, the repr of a last expression, the class of the exception that ended the
program, and its text where the program made it (such texts begin with an exclamation mark) or where it is
a KeyError. A program that raised is followed by a second cell, which prints all its names. A program that
CPython doesn't end within five seconds is left out. What differs is reduced by leaving out lines, and
shown. The exit is 1 where something differed.

The programs keep to what both languages mean alike. What is known to differ is left out:
- whole numbers past 128 bits: each expression has a bound, and what is stored is kept small;
- negative powers, and what CPython takes besides: `%` of texts, slices of ranges, `sorted` of lists,
  further methods and arguments, methods without a call, attributes of functions and exceptions;
- `is` between whole numbers, texts, ranges and tuples, and `*=` of a list, which makes a new one here;
- slices with a bad bound and a step of 0, of which the earlier is told here and the step there;
- texts of exceptions that the language raises: programs see their class and the number of their arguments;
- a list after a `sort` that raised, and a dict that loses one key and gains another in one turn of a loop;
- texts with characters that aren't printable, and `count` and `replace` of the empty text;
- keys that aren't None, bool, int, str or a flat tuple of these;
- what is printed on the way into a recursion without end.
Addresses in the repr of functions, and the module of SimpleNamespace, are taken out of CPython's texts.
"""
import ast
import collections
import io
import json
import os
import re
import signal
import subprocess
import sys
import tempfile
import warnings

from agree_programs import Maker


class Late(BaseException):
    """The program took too long."""


def serve():
    """Runs the programs that come in, one a line, by this Python."""
    def late(*_):
        raise Late
    signal.signal(signal.SIGALRM, late)
    warnings.simplefilter("ignore")
    out = sys.stdout
    for line in sys.stdin:
        space, told = {"__name__": "cell"}, []
        for text in json.loads(line):
            sys.stdout, shown, raised = io.StringIO(), None, None
            try:
                signal.setitimer(signal.ITIMER_REAL, 5, 0.5)
                tree = ast.parse(text)
                last = ast.Expression(tree.body.pop().value) if tree.body and isinstance(tree.body[-1], ast.Expr) else None
                exec(compile(tree, "cell", "exec"), space)
                value = eval(compile(last, "cell", "eval"), space) if last else None
                shown = None if value is None else repr(value)
            except BaseException as fault:
                raised = type(fault).__name__, str(fault)
            signal.setitimer(signal.ITIMER_REAL, 0)
            told.append((sys.stdout.getvalue(), shown, raised))
            sys.stdout = out
            if raised is None:
                break
        print(json.dumps(told), flush=True)


class Python:
    """A process that runs `serve`."""

    def __init__(self):
        self.child = subprocess.Popen([sys.executable, os.path.abspath(__file__), "--serve"], stdin=subprocess.PIPE, stdout=subprocess.PIPE, text=True)

    def run(self, cells):
        self.child.stdin.write(json.dumps(cells) + "\n")
        self.child.stdin.flush()
        plain = re.sub(r" at 0x[0-9a-f]+>", ">", self.child.stdout.readline()).replace("types.SimpleNamespace", "SimpleNamespace")
        return [tuple(told) for told in json.loads(plain)]


def kishu(program, store, cells):
    """What Kishu makes of cells, up to the first that doesn't raise."""
    if os.path.exists(store):
        os.remove(store)
    told = []
    for text in cells:
        done = subprocess.run([program, store, "cell"], input=text.encode(), capture_output=True, timeout=120)
        if done.returncode != 0:
            return told + [("", None, (f"status {done.returncode}", done.stderr.decode()))]
        answer = json.loads(done.stdout)
        printed, shown, raised = "", None, None
        for output in answer["outputs"]:
            if output["output_type"] == "stream":
                printed += output["text"]
            elif output["output_type"] == "error":
                raised = output["ename"], output["evalue"]
            else:
                shown = output["data"]["text/plain"]
        if answer["outcome"] == "stopped":
            raised = "stopped", ""
        told.append((printed, shown, raised))
        if raised is None:
            break
    return told


def difference(ours, theirs):
    """In what the two differ, or None."""
    for mine, other in zip(ours, theirs):
        if (mine[2] or [None])[0] != (other[2] or [None])[0]:
            return "class"
        if mine[0] != other[0]:
            return "printed"
        if mine[1] != other[1]:
            return "shown"
        if other[2] and (re.match(r"\(?['\"]?!", other[2][1]) or other[2][0] == "KeyError") and mine[2][1] != other[2][1]:
            return "text"
    return None if len(ours) == len(theirs) else "cells"


class Pair:
    """The two languages, and what they made of the programs so far."""

    def __init__(self, program, folder):
        self.program, self.store = program, os.path.join(folder, "store")
        self.python = Python()

    def both(self, cells):
        return kishu(self.program, self.store, cells), self.python.run(cells)

    def differs(self, cells):
        ours, theirs = self.both(cells)
        usable = not any(raised and raised[0] in ("Late", "SyntaxError", "IndentationError", "TabError", "MemoryError") for _, _, raised in theirs)
        return difference(ours, theirs) if usable else None

    def reduced(self, cells):
        """The first cell with lines left out while it still differs in the same way."""
        wanted, lines = self.differs(cells), cells[0].split("\n")
        size = max(1, len(lines) // 2)
        while size:
            start = 0
            while start < len(lines):
                fewer = lines[:start] + lines[start + size:]
                if self.differs(["\n".join(fewer), *cells[1:]]) == wanted:
                    lines = fewer
                else:
                    start += size
            size //= 2
        return ["\n".join(lines), *cells[1:]]

    def show(self, cells):
        for text, told in zip(("Kishu", "CPython"), self.both(cells)):
            print(f"  {text}:", *(f"    {part!r}" for part in told), sep="\n")


def main():
    if sys.argv[1:] == ["--serve"]:
        return serve()
    if len(sys.argv) < 2:
        sys.exit(__doc__)
    program, words = os.path.abspath(sys.argv[1]), sys.argv[2:]
    with tempfile.TemporaryDirectory() as folder:
        pair = Pair(program, folder)
        if words[:1] == ["--file"]:
            cells = [open(words[1], encoding="utf-8").read()]
        elif words[:1] == ["--only"]:
            cells = Maker(f"{words[2] if len(words) > 2 else 1}/{words[1]}").program()
        else:
            return compare(pair, int(words[0]) if words else 5000, words[1] if len(words) > 1 else "1")
        print(cells[0])
        pair.show(cells)
        print("differs in:", pair.differs(cells))


def compare(pair, count, seed):
    wrong, late, ends = 0, 0, collections.Counter()
    for k in range(1, count + 1):
        cells = Maker(f"{seed}/{k}").program()
        ours, theirs = pair.both(cells)
        end = theirs[0][2][0] if theirs[0][2] else "plain"
        ends[end] += 1
        if end in ("Late", "MemoryError"):
            late += 1
        elif difference(ours, theirs):
            wrong += 1
            print(f"--- program {k} of seed {seed} differs in: {difference(ours, theirs)}", flush=True)
            fewer = pair.reduced(cells)
            print(fewer[0])
            pair.show(fewer)
        if k % 500 == 0:
            print(f"{k} programs, {wrong} differ", flush=True)
    print(f"{count} programs of seed {seed}: {wrong} differ, {late} left out as too long; ended by", *(f"{name} {number}" for name, number in ends.most_common()))
    sys.exit(wrong > 0)


if __name__ == "__main__":
    main()
