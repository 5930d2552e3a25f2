#!/usr/bin/env python3
"""A shell for people over `kishu STORE session`: type a cell, see what it gives, and take it back.

What is shown is what the program answers. The texts of cells are read from the store file, as docs/STORE.md
tells its bytes; nothing else is kept, here or anywhere. With `prompt_toolkit` cells are edited and recalled,
without it they are typed line by line.
"""
from __future__ import annotations

import argparse
import ast
import builtins
import contextlib
import io
import json
import os
import re
import shlex
import shutil
import signal
import struct
import sys
import tempfile
import textwrap
import threading
import tokenize
import warnings
from dataclasses import dataclass
from subprocess import PIPE, Popen
from typing import Any, Callable, Dict, Iterable, Iterator, NamedTuple, Tuple
from xml.sax.saxutils import escape

Answer = Dict[str, Any]
Ref = Tuple[str, str]  # what stands on a commit: a style, for the head or a branch, and a name

HERE = os.path.dirname(os.path.realpath(__file__))
WIDEST_LINE, WIDEST_VALUE, DEEPEST_VALUE, MOST_TREE_LINES = 60, 70, 20, 1000
EMPTY = "the empty session"
BUILDING = "The program isn't built, or its sources have changed, so that comes first; Ctrl-C stops it.\n"


class Told(Exception):
    """What is wrong and what to do about it, in one plain sentence. The session goes on."""


class Ended(Exception):
    """The program has ended, and why, in one plain sentence; and the status to end the shell with."""


# The store file.

HEADER, OPEN_GATE, COMMIT_KIND, LONGEST_BODY = b"KISHU-JOURNAL-1\n", b"\xa5", 1, 2**30


@dataclass
class Commit:
    parent: int
    cells: list[str]


def commit_of(head: bytes) -> Commit:
    """Reads the parent and the cells of a commit's record. What it drops and stores stands behind them."""
    _, parent, _, count = struct.unpack_from(">BIBI", head)
    at, cells = 10, []
    for _ in range(count):
        (length,) = struct.unpack_from(">I", head, at)
        cells.append(head[at + 4 : at + 4 + length].decode())
        at += 4 + length
    return Commit(parent, cells)


def read_store(path: str) -> tuple[list[Commit], int]:
    """Returns a store's commits by their numbers, the root first, and how many records it has.

    ValueError, struct.error: the bytes aren't those of a store up to its closed gate.
    """
    commits, records = [Commit(0, [])], 0
    with open(path, "rb") as file:
        if os.fstat(file.fileno()).st_size <= len(HEADER) + 1:
            return commits, records
        if file.read(len(HEADER)) != HEADER:
            raise ValueError("another header")
        gate = file.read(1)
        while gate == OPEN_GATE:
            length, head_length = struct.unpack(">QI", file.read(12))
            if not 4 < 4 + head_length <= length <= LONGEST_BODY:
                raise ValueError("a length of no record")
            head = file.read(head_length)
            if head[0] == COMMIT_KIND:
                commits.append(commit_of(head))
            records += 1
            file.seek(length - 4 - head_length, os.SEEK_CUR)  # (over the pictures)
            gate = file.read(1)
    if not gate:
        raise ValueError("no gate")
    return commits, records


def is_short_other(path: str) -> bool:
    """Whether a file is no store, and so short that the program would begin it anew as one."""
    with contextlib.suppress(OSError), open(path, "rb") as file:
        begun = file.read(len(HEADER) + 2)
        written = zip(begun, HEADER + b"\0")
        return len(begun) <= len(HEADER) + 1 and any(byte not in (0, wanted) for byte, wanted in written)
    return False


def stamp_of(path: str) -> tuple[int, ...]:
    """What changes about a file where another process replaces it or writes to it."""
    with contextlib.suppress(OSError):
        seen = os.stat(path)
        return seen.st_dev, seen.st_ino, seen.st_size, seen.st_mtime_ns
    return ()


# The program.

def why_ended(status: int, said: str, path: str) -> str:
    """Tells why a run on a store ended, and what to do, by its status and its last line on standard error."""
    if status < 0:
        return f"The program was ended by signal {-status}: try again."
    if status == 3 and said == "not a journal":
        return f"{path} is no store of Kishu, and was left as it was: give another file."
    if status == 5 and os.path.isfile(path):
        return f"Another run may be at {path}: end it, or see that the file may be written and has room."
    folder = os.path.dirname(path)
    if status == 5 and os.path.isdir(path):
        return f"{path} is a folder: give the name of a file in it."
    if status == 5 and folder and not os.path.isdir(folder):
        return f"There is no folder {folder}: make it, or give another file."
    return {
        0: "The program ended: try again.",
        1: "The program couldn't be built: do what stands above, and try again.",
        2: f"{path!r} can't be the name of a store: give another one.",
        3: f"{path} is {said}, and was left as it was: go on with an earlier copy of it.",
        5: f"{path} can't be read or written: see that you may write it and its disk has room.",
        8: "The memory ran out: end other programs, or go back to a commit that holds less, and try again.",
        9: "A line may have 16 MiB, and all lines of a session 1 GiB: give the program less at once.",
    }.get(status, f"The program ended with the status {status} ({said}): try again.")


class Session:
    """A run of the program on a store: each request goes to it as a line, and a line comes back."""

    def __init__(self, program: str, path: str):
        self.path, self.said = path, ""
        words = [program, os.path.join(".", path), "session"]
        try:  # (a session of its own, so that Ctrl-C comes to the shell alone)
            self.process = Popen(words, stdin=PIPE, stdout=PIPE, stderr=PIPE, start_new_session=True)
        except OSError as error:
            raise Ended(f"{program} can't be run ({error.strerror}): name another by --program.", 1) from None
        self.listener = threading.Thread(target=self.listen, daemon=True)
        self.listener.start()

    def listen(self) -> None:
        """Shows what the script `kishu` says while it builds the program, and keeps the last line."""
        for line in self.process.stderr:
            before, self.said = self.said, line.decode(errors="replace").strip()
            if self.said.startswith("kishu: "):
                begun = "" if before.startswith("kishu: ") else BUILDING
                print(begun + self.said, file=sys.stderr, flush=True)

    def ask(self, request: dict[str, Any]) -> Answer:
        line = b""
        with contextlib.suppress(BrokenPipeError, ValueError):  # (ended, or stopped here)
            # (what is no text goes on as it is, for the program to refuse it)
            text = json.dumps(request, ensure_ascii=False)
            self.process.stdin.write(text.encode(errors="surrogatepass") + b"\n")
            self.process.stdin.flush()
            line = self.process.stdout.readline()
        if line.endswith(b"\n"):
            with contextlib.suppress(ValueError):
                return json.loads(line)
            self.stop(signal.SIGKILL)
            raise Ended("The program answered a broken line, so it was stopped: see :log and try again.", 1)
        status = self.close()
        raise Ended(why_ended(status, self.said, self.path), status if status > 0 else 128 - status)

    def stop(self, number: signal.Signals) -> None:
        self.process.send_signal(number)
        self.close()

    def close(self) -> int:
        """Ends the input, and with it the run. Returns its status."""
        with contextlib.suppress(OSError):
            self.process.stdin.close()
        status = self.process.wait()
        self.listener.join(1)  # (for its last lines)
        return status


def refusal(answer: Answer, parts: dict[str, Any]) -> str:
    """Tells why a request was refused, and what to do."""
    ref = next((parts[part] for part in ("to", "of", "at") if part in parts), "")
    return {
        "BadRequest": "The program can't read that: type it in UTF-8, or see that the program isn't too old.",
        "NoSuchRef": f"There is no commit or branch {shlex.quote(ref)}: :log shows those that there are.",
        "BadName": "A branch's name is 1 to 64 ASCII letters, digits, - and _, a letter or _ first.",
        "NameTaken": f"There is a branch {parts.get('name')} already: give another name.",
        "StoreFull": "The store has its 1,000,000 records: :save the cells, and go on with a new store.",
        "CellTooLong": "A cell may have 1,048,576 bytes: cut it into several.",
        "StateTooLarge": f"The names would take {answer.get('bytes', 0):,} bytes, more than 268,435,456, "
        "so they stay as they were: do it with less.",
    }.get(answer["reason"], f"That was refused as {answer['reason']}: see docs/LINES.md.")


class Store:
    """A store that is open: the program's session on it, and where this stands by the last answers."""

    def __init__(self, program: str, path: str):
        self.program, self.path, self.records = program, path, 0
        self.open()

    def open(self) -> None:
        self.session, self.stamp = Session(self.program, self.path), None
        try:
            status = self.ask("status")
            self.branch, self.commit, self.records = status["branch"], status["commit"], status["records"]
            self.cells = self.count()
        except KeyboardInterrupt:  # (a build keeps what it has proved)
            self.session.stop(signal.SIGINT)
            raise

    def ask(self, op: str, **parts: Any) -> Answer:
        if self.stamp is not None and stamp_of(self.path) != self.stamp:
            self.again()
            raise Told(f"Another program has changed {self.path}, so it was only opened anew: see :log.")
        answer = self.session.ask({"op": op, **parts})
        self.stamp = stamp_of(self.path)
        if answer["answer"] == "refused":
            raise Told(refusal(answer, parts))
        self.records += op in ("cell", "cells", "checkout", "branch")
        return answer

    def count(self) -> int:
        return sum(row["cells"] for row in self.ask("log")["path"])

    def run(self, *texts: str) -> list[Answer]:
        """Runs cells as one commit, up to the first that doesn't end well, and returns what each gave."""
        is_one = len(texts) == 1
        answer = self.ask("cell", text=texts[0]) if is_one else self.ask("cells", texts=texts)
        results = [answer] if is_one else answer["results"]
        self.commit, self.cells = answer["commit"], results[-1]["count"]
        return results

    def go(self, to: str) -> None:
        answer = self.ask("checkout", to=to)
        self.branch, self.commit, self.cells = answer["head"], answer["commit"], self.count()

    def place(self) -> str:
        return self.branch or f"commit {self.commit}"

    def commits(self) -> list[Commit]:
        """Returns the commits that the file holds, which have to be as many as the session has."""
        status = self.ask("status")
        try:
            commits, records = read_store(self.path)
        except (OSError, ValueError, IndexError, struct.error):
            commits, records = [], 0
        if (len(commits), records) != (status["commits"], status["records"]):
            raise Told(f"{self.path} isn't what the session wrote: end the shell by Ctrl-D, and start anew.")
        return commits

    def again(self) -> None:
        """Opens the store anew, after the program has ended or was stopped."""
        self.session.stop(signal.SIGTERM)
        self.open()


# What Python has and the language of cells hasn't.

LONGEST_HINTED = 100_000
LEFT_OUT = {
    "Import": "imports but that of SimpleNamespace", "ImportFrom": "imports but that of SimpleNamespace",
    "ClassDef": "class", "With": "with", "Match": "match", "Lambda": "lambda", "JoinedStr": "f-strings",
    "ListComp": "comprehensions", "SetComp": "comprehensions", "DictComp": "comprehensions",
    "GeneratorExp": "comprehensions", "Set": "sets", "NamedExpr": ":=", "Starred": "starred forms",
    "AnnAssign": "annotations", "Yield": "yield", "YieldFrom": "yield", "Nonlocal": "nonlocal",
    "AsyncFunctionDef": "async", "Div": "/, only // for whole numbers", "MatMult": "@", "LShift": "<<",
    "RShift": ">>", "BitAnd": "&", "BitOr": "|", "BitXor": "^", "Invert": "~",
}


def left_out(node: ast.AST) -> str:
    """Returns what of a node of Python's tree the language of cells hasn't, or nothing."""
    kind = type(node).__name__
    if isinstance(node, ast.ImportFrom):
        is_there = node.module == "types" and [it.name for it in node.names] == ["SimpleNamespace"]
        return "" if is_there else LEFT_OUT[kind]
    if isinstance(node, (ast.BinOp, ast.AugAssign, ast.UnaryOp)):
        return LEFT_OUT.get(type(node.op).__name__, "")
    if isinstance(node, ast.Constant) and type(node.value) in (float, complex, bytes, type(...)):
        return {float: "floats", complex: "complex numbers", bytes: "bytes"}.get(type(node.value), "...")
    if isinstance(node, ast.Constant) and type(node.value) is int and node.value >= 2**127:
        return "numbers past 2^127 - 1"
    if isinstance(node, ast.FunctionDef):
        given, inside = node.args, (part for it in node.body for part in ast.walk(it))
        every = [*given.args, *given.kwonlyargs, *getattr(given, "posonlyargs", [])]
        return (
            "decorators" if node.decorator_list
            else "annotations" if node.returns or any(it.annotation for it in every)
            else "starred forms" if given.vararg or given.kwarg or len(every) > len(given.args)
            else "def inside a def" if any(isinstance(it, ast.FunctionDef) for it in inside)
            else ""
        )
    if isinstance(node, (ast.For, ast.While)):
        return "else on loops" if node.orelse else ""
    if isinstance(node, ast.Call) and any(it.arg is None for it in node.keywords):
        return "starred forms"
    if isinstance(node, ast.Raise) and node.cause:
        return "raise .. from"
    if isinstance(node, ast.Name) and not node.id.isascii():
        return "names of other letters than ASCII's"
    return LEFT_OUT.get(kind, "")


def hint(text: str, output: dict) -> str:
    """Tells what in a cell is Python's alone, by its own reading, where that may have raised an exception."""
    name = re.fullmatch("name '(.*)' is not defined", output.get("evalue", ""))
    if output.get("ename") == "NameError" and name and hasattr(builtins, name[1]):
        if name[1] in ("exit", "quit"):
            return ":quit ends the shell."
        return f"The language of cells has no {name[1]}: see docs/LANGUAGE.md."
    if output.get("ename") != "SyntaxError" or not output["evalue"].startswith("invalid syntax, line "):
        return ""
    other = "docs/LANGUAGE.md tells what the language of cells has."
    if len(text) > LONGEST_HINTED:
        return other
    try:
        with warnings.catch_warnings():
            warnings.simplefilter("ignore")
            nodes = [it for it in ast.walk(ast.parse(text)) if hasattr(it, "lineno")]
    except SyntaxError as error:
        if re.match(r"\s*[%!?]", text):
            return "The language of cells has no commands of IPython: see docs/LANGUAGE.md."
        return f"Python can't read it either: {error.msg}, line {error.lineno}."
    except (ValueError, RecursionError, MemoryError):
        return other
    found = [(it.lineno, it.col_offset, left_out(it)) for it in nodes if left_out(it)]
    if not found:
        return other
    line, _, what = min(found)
    return f"The language of cells has no {what} (line {line}): see docs/LANGUAGE.md."


# The graph.

class Row(NamedTuple):
    """A commit's place in the drawing: its lane, and whether that joins the next one to the left below it."""

    commit: int
    lane: int
    joins: bool


def rows_of(commits: list[Commit]) -> list[Row]:
    """Returns the rows of the drawing: commits above their parents, and the newest one's path in lane 0."""
    newest, children = list(range(len(commits))), [[] for _ in commits]
    for number in range(len(commits) - 1, 0, -1):
        parent = commits[number].parent
        newest[parent] = max(newest[parent], newest[number])
        children[parent].append(number)
    rows, waiting = [], [Row(0, 0, False)]
    while waiting:
        rows.append(waiting.pop())
        number, lane, _ = rows[-1]
        found = sorted(children[number], key=newest.__getitem__, reverse=True)
        waiting += [Row(child, lane, False) for child in found[:1]]
        waiting += [Row(child, lane + 1, True) for child in found[1:]]
    return rows[::-1]


def printable(text: str) -> str:
    """Returns a text with blanks for any that it has, and with a mark for all else that shows nothing."""
    text = re.sub(r"\s", " ", text.expandtabs(4))
    return "".join(letter if letter.isprintable() else "\ufffd" for letter in text)


def first_line(commit: Commit) -> str:
    """Returns what a commit is told by: the first line of its first cell, and how many it has."""
    if not commit.cells:
        return EMPTY
    line = printable(re.split("[\n\r]", commit.cells[0])[0][:WIDEST_LINE])
    return line if len(commit.cells) == 1 else f"{line} ({len(commit.cells)} cells)"


def graph_lines(commits: list[Commit], refs: dict[int, list[Ref]]) -> Iterator[str]:
    """Draws the graph as `git log --graph --oneline` does."""
    for row in rows_of(commits):
        names = ", ".join(paint(*ref) for ref in refs.get(row.commit, []))
        told = (f"({names}) " if names else "") + first_line(commits[row.commit])
        yield f"{'| ' * row.lane}* {paint('number', str(row.commit))} {told}".rstrip()
        if row.joins:
            yield "| " * (row.lane - 1) + "|/"


STEP, LANE, EDGE, LETTER = 28, 22, 20, 7.9
LANE_COLOURS = ["#0969da", "#bf3989", "#1a7f37", "#9a6700", "#8250df", "#cf222e"]


def svg_of(commits: list[Commit], refs: dict[int, list[Ref]]) -> str:
    """Draws the graph as a picture, a row for each commit, the newest above."""
    rows = rows_of(commits)
    at = {row.commit: (EDGE + LANE * row.lane, EDGE + STEP * place) for place, row in enumerate(rows)}
    text_at, widest, edges, dots, texts = 2 * EDGE + LANE * max(row.lane for row in rows), 0, [], [], []
    for row in rows:
        (x, y), commit, here = at[row.commit], commits[row.commit], refs.get(row.commit, [])
        names, is_head = ", ".join(name for _, name in here), any(style == "head" for style, _ in here)
        stroke = f'stroke="{LANE_COLOURS[row.lane % len(LANE_COLOURS)]}"'
        if row.joins:
            bend = f"C{x},{y + STEP * 0.6:g} {x - LANE},{y + STEP * 0.4:g} {x - LANE},{y + STEP}"
            edges.append(f'<path d="M{x},{y} {bend}" {stroke}/>')
        elif row.commit:
            edges.append(f'<path d="M{x},{y} V{at[commit.parent][1]}" {stroke}/>')
        dots.append(f'<circle cx="{x}" cy="{y}" r="{7 if is_head else 5}" {stroke}/>')
        told = f'<tspan fill="#9a6700">{row.commit}</tspan> '
        told += f'<tspan fill="#1a7f37" font-weight="bold">({escape(names)})</tspan> ' if names else ""
        told += escape(first_line(commit))
        texts.append(f'<text x="{text_at}" y="{y + 5}" xml:space="preserve">{told}</text>')
        widest = max(widest, len(f"{row.commit} ({names}) {first_line(commit)}"))
    width, height = int(text_at + LETTER * widest + EDGE), 2 * EDGE + STEP * (len(rows) - 1)
    return "\n".join([
        f'<svg xmlns="http://www.w3.org/2000/svg" width="{width}" height="{height}">',
        '<rect width="100%" height="100%" fill="#ffffff"/>',
        '<g fill="none" stroke-width="2">', *edges, "</g>",
        '<g fill="#ffffff" stroke-width="2">', *dots, "</g>",
        '<g font-family="monospace" font-size="13" fill="#1f2328">', *texts, "</g>",
        "</svg>", "",
    ])


# What is bound.

class Node(NamedTuple):
    """An object, as `inspect` tells it: its kind, the ends of its repr, and its parts."""

    kind: str
    before: str
    behind: str
    parts: list[tuple[str, str, str]]  # label, what stands before the value in the repr, value


def node_of(row: list[str]) -> Node:
    kind, *rest = row
    pairs = list(zip(rest[::2], rest[1::2]))
    if kind == "dict":
        return Node(kind, "{", "}", [(f"[{key}]", f"{key}: ", value) for key, value in pairs])
    if kind == "object":
        parts = [(f".{name}", f"{name}=", value) for name, value in pairs]
        return Node("SimpleNamespace", "namespace(", ")", parts)
    if kind == "function":
        name = "function " + re.match(r"def[ \t\\\n]+(\w+)", rest[1])[1]
        return Node(name, f"<{name}", ">", [(f"default {i}", "", value) for i, value in enumerate(rest[2:])])
    if kind == "exception":
        name, *values = rest
        return Node(name, f"{name}(", ")", [(f".args[{i}]", "", value) for i, value in enumerate(values)])
    before, behind = "[]" if kind == "list" else ("(", ",)" if len(rest) == 1 else ")")
    return Node(kind, before, behind, [(f"[{i}]", "", value) for i, value in enumerate(rest)])


class Bound:
    """The names with the objects that they reach."""

    def __init__(self, answer: Answer):
        self.names: dict[str, str] = answer["names"]
        self.nodes = {f"#{i}": node_of(row) for i, row in enumerate(answer["nodes"])}

    def reach(self, value: str, seen: set[str] | None = None) -> set[str]:
        """Returns the nodes that a value reaches. What those reach that were seen before isn't looked at."""
        seen = set() if seen is None else seen
        found, waiting = set(), [value]
        while waiting:
            node = waiting.pop()
            if node in self.nodes and node not in found:
                found.add(node)
                if node not in seen:
                    waiting += [part for _, _, part in self.nodes[node].parts]
        seen |= found
        return found

    def groups(self) -> list[tuple[str, ...]]:
        """Returns the names in groups, of which no two share an object."""
        seen, owner, group = set(), {}, {name: [name] for name in self.names}
        for name, value in self.names.items():
            for node in self.reach(value, seen):
                other = owner.setdefault(node, name)
                if group[other] is not group[name]:
                    small, large = sorted((group[other], group[name]), key=len)
                    large += small
                    group.update((moved, large) for moved in small)
        return sorted({tuple(sorted(names)) for names in group.values()})

    def pieces(self, value: str, above: tuple[str, ...] = ()) -> Iterator[str]:
        """Writes a value piece by piece, with dots for an object inside itself and for what lies too deep."""
        node = self.nodes.get(value)
        if node is None:
            yield value
            return
        yield node.before
        if value in above or len(above) > DEEPEST_VALUE:
            yield "..." + node.behind[-1]  # (a tuple's comma stands behind its one item alone)
            return
        if not node.kind.startswith("function"):
            for place, (_, before, part) in enumerate(node.parts):
                yield f", {before}" if place else before
                yield from self.pieces(part, (*above, value))
        yield node.behind

    def text(self, value: str) -> str:
        """Returns what a value is, in at most a line."""
        found = ""
        for piece in self.pieces(value):
            found += piece
            if len(found) > WIDEST_VALUE:
                return printable(found[: WIDEST_VALUE - 3]) + "..."
        return printable(found)

    def tree(self, name: str) -> Iterator[tuple[str, str]]:
        """Tells a name's value object by object, and how each is shared: with other names, or twice in it."""
        group = next(names for names in self.groups() if name in names)
        others = {other: self.reach(self.names[other]) for other in group if other != name}
        told, waiting = set(), [(0, f"{name} =", self.names[name])]
        while waiting:
            depth, label, value = waiting.pop()
            line = f"{'  ' * depth}{label} "
            if value not in self.nodes:
                yield line + self.text(value), ""
            elif value in told:
                yield line + value, ", shared: it stands above"
            else:
                told.add(value)
                sharing = ", ".join(other for other, reach in others.items() if value in reach)
                yield f"{line}{value} {self.nodes[value].kind}", f", shared with {sharing}" if sharing else ""
                waiting += [(depth + 1, label, part) for label, _, part in reversed(self.nodes[value].parts)]


# Notebooks.

def cells_in(path: str) -> list[str]:
    """Returns the texts of a notebook's code cells."""
    try:
        with open(os.path.expanduser(path), encoding="utf-8") as file:
            cells = json.load(file)["cells"]
        return ["".join(cell["source"]) for cell in cells if cell["cell_type"] == "code"]
    except OSError as error:
        raise Told(f"{path} can't be read, {error.strerror}: give another file.") from None
    except (ValueError, KeyError, TypeError, RecursionError):
        raise Told(f"{path} is no notebook of nbformat 4: save it as one from Jupyter.") from None


def notebook_of(cells: Iterable[tuple[str, Answer]]) -> str:
    """Writes a notebook of cells with what they gave."""
    made = [
        {
            "cell_type": "code", "id": f"cell-{given['count']}", "metadata": {},
            "source": text.splitlines(True), "execution_count": given["count"], "outputs": given["outputs"],
        }
        for text, given in cells
    ]
    kernel = {"display_name": "Python 3 (ipykernel)", "language": "python", "name": "python3"}
    metadata = {"kernelspec": kernel, "language_info": {"name": "python"}}
    notebook = {"cells": made, "metadata": metadata, "nbformat": 4, "nbformat_minor": 5}
    return json.dumps(notebook, indent=1, ensure_ascii=False, sort_keys=True) + "\n"


# The terminal.

STYLES = {
    "prompt": "32", "out": "31", "error": "31", "number": "33", "head": "1;36", "branch": "1;32",
    "mark": "33", "drop": "31", "keep": "0", "load": "32",
}
BLOCK = re.compile(r"\s*((if|while|for|try|def|class|with|async)\b|@)")


def is_smart(*streams: Any) -> bool:
    """Whether these are a terminal that can do more than show lines."""
    return all(stream.isatty() for stream in streams) and os.environ.get("TERM", "dumb") != "dumb"


def paint(style: str, text: str) -> str:
    """Colours a text, where the output is a terminal and NO_COLOR isn't set."""
    if not text or os.environ.get("NO_COLOR") or not is_smart(sys.stdout):
        return text
    return f"\x1b[{STYLES[style]}m{text}\x1b[0m"


@contextlib.contextmanager
def progress(text: str) -> Iterator[None]:
    """Tells on one line of the terminal how far something is, as long as it takes."""
    if not sys.stdout.isatty():
        yield
        return
    text = text[-WIDEST_VALUE:]
    print(f"\r{text}", end="", flush=True)
    try:
        yield
    finally:
        print(f"\r{' ' * len(text)}\r", end="", flush=True)


def plural(count: int, word: str) -> str:
    return f"{count} {word}" if count == 1 else f"{count} {word}s"


def is_open(text: str) -> bool:
    """Whether a bracket or a long text isn't closed yet, or a backslash joins the next line."""
    depth = 0
    try:
        for token in tokenize.generate_tokens(io.StringIO(text).readline):
            if token.type == tokenize.COMMENT and token.end[0] > text.count("\n"):
                return depth > 0  # (a backslash in it joins nothing)
            depth += (token.string in tuple("([{")) - (token.string in tuple(")]}"))
            if depth < 0:
                return False
    except tokenize.TokenError as error:
        return "EOF" in str(error) or "triple-quoted" in str(error)
    except SyntaxError:
        return False
    return text.endswith("\\")


def goes_on(text: str) -> bool:
    """Whether a cell goes on behind these lines, as at Python's prompt: a block does up to an empty line."""
    if text.lstrip().startswith(":"):
        return False
    last = text.rpartition("\n")[2]
    return is_open(text) or BLOCK.match(text) is not None and last.strip() != ""


class Lines:
    """Reads cells line by line."""

    def line(self, prompt: str) -> str:
        print(paint("prompt", prompt) if sys.stdin.isatty() else "", end="", flush=True)
        return input()

    def cell(self, prompt: str) -> str:
        text = self.line(prompt)
        while goes_on(text):
            try:
                text += "\n" + self.line("...: ".rjust(len(prompt)))
            except EOFError:
                if sys.stdin.isatty():
                    raise
                break
        return text


class Editor:
    """Reads cells by prompt_toolkit. Earlier ones are recalled, those that the store has among them."""

    def __init__(self, cells: list[str]):
        from prompt_toolkit import PromptSession, enums, filters, formatted_text, history, key_binding

        os.environ.setdefault("PROMPT_TOOLKIT_NO_CPR", "1")  # (there are no menus to find a place for)
        keys, in_cell = key_binding.KeyBindings(), filters.has_focus(enums.DEFAULT_BUFFER)

        @keys.add("enter", filter=in_cell)
        def _enter(event: Any) -> None:
            buffer = event.current_buffer
            if not buffer.document.on_last_line or goes_on(buffer.text):
                buffer.newline(False)  # (with no margin copied)
            else:
                buffer.validate_and_handle()

        keys.add("escape", "enter", filter=in_cell)(lambda event: event.current_buffer.newline(False))
        keys.add("tab", filter=in_cell)(lambda event: event.current_buffer.insert_text("    "))
        self.ansi, earlier = formatted_text.ANSI, history.InMemoryHistory(cells)
        self.session = PromptSession(history=earlier, multiline=True, key_bindings=keys)

    def cell(self, prompt: str) -> str:
        then = self.ansi(paint("prompt", "...: ".rjust(len(prompt))))
        return self.session.prompt(self.ansi(paint("prompt", prompt)), prompt_continuation=lambda *_: then)


# The shell.

class Shell:
    """What is typed is done on a store, and what comes of it is shown."""

    def __init__(self, store: Store):
        self.store = store

    def show(self, text: str, outputs: list[dict]) -> None:
        """Shows the outputs of a cell as Jupyter does."""
        for output in outputs:
            if output["output_type"] == "stream":
                print(output["text"], end="" if output["text"].endswith("\n") else "\n")
            elif output["output_type"] == "execute_result":
                print(paint("out", f"Out[{output['execution_count']}]: ") + output["data"]["text/plain"])
            else:
                print(paint("error", "\n".join(output["traceback"])))
                if told := hint(text, output):
                    print(told)

    # Where the head stands.

    def told_head(self) -> str:
        path = self.store.ask("log")["path"]
        store, line = self.store, printable(path[0]["line"]) if path else EMPTY
        branch = f"branch {store.branch}" if store.branch else "no branch"
        return f"On {branch}, at commit {store.commit}: {line}"

    def go(self, to: str) -> None:
        """Goes to a commit, by its number, or to a branch."""
        self.store.go(to)
        print(self.told_head())

    def undo(self, count: str = "1") -> None:
        """Goes back over the last cell, or the last n."""
        if not re.fullmatch("[1-9][0-9]{0,17}", count):
            raise Told("That is no number of cells: type :undo, or :undo 2 to go back over two.")
        path, left, cells = self.store.ask("log")["path"], int(count), self.store.cells
        if left > cells:
            told = f"Here {plural(cells, 'cell')} can be taken back: give no more than that."
            raise Told(told if cells else "There is nothing to take back.")
        for row in path:
            left -= row["cells"]
            if left <= 0:
                break
        if left < 0:
            print(f"The {row['cells']} cells of commit {row['commit']} are taken back together.")
        self.go(str(row["parent"]))

    def redo(self) -> None:
        """Goes on to the next commit, where there is just one."""
        commits, here = self.store.commits(), self.store.commit
        ways = [number for number in range(1, len(commits)) if commits[number].parent == here]
        if not ways:
            raise Told(f"No cell was run behind commit {here} yet: :log shows where there are more.")
        if len(ways) > 1:
            raise Told(f"Behind commit {here} there are {', '.join(map(str, ways))}: :go to one of them.")
        names = [name for name, commit in self.branch_rows() if commit == ways[0]]
        self.go(names[0] if len(names) == 1 else str(ways[0]))

    # Branches and commits.

    def branch(self, name: str, *at: str) -> None:
        """Makes a branch here, or at a commit or branch."""
        answer = self.store.ask("branch", name=name, **({"at": at[0]} if at else {}))
        print(f"Branch {name} begins at commit {answer['commit']}; :go {name} leads there.")

    def branch_rows(self) -> list[tuple[str, int]]:
        return [(branch["name"], branch["commit"]) for branch in self.store.ask("log")["branches"]]

    def branches(self) -> None:
        """Lists the branches."""
        commits, here, rows = self.store.commits(), self.store.place(), self.branch_rows()
        rows = rows if self.store.branch else [(here, self.store.commit), *rows]
        width = max(len(name) for name, _ in rows)
        for name, commit in rows:
            shown = paint("branch", f"* {name:<{width}}") if name == here else f"  {name:<{width}}"
            print(f"{shown}  {paint('number', str(commit))} {first_line(commits[commit])}")

    def refs(self) -> dict[int, list[Ref]]:
        """Returns what stands on each commit, as git tells it: the head first, then the other branches."""
        branch = self.store.branch
        found = {self.store.commit: [("head", f"HEAD -> {branch}" if branch else "HEAD")]}
        for name, commit in self.branch_rows():
            if name != branch:
                found.setdefault(commit, []).append(("branch", name))
        return found

    def log(self) -> None:
        """Draws the graph of all commits."""
        print("\n".join(graph_lines(self.store.commits(), self.refs())))

    def path(self) -> list[Commit]:
        """Returns the commits of the head's path, the first one first."""
        commits = self.store.commits()
        return [commits[row["commit"]] for row in reversed(self.store.ask("log")["path"])]

    def show_commit(self, ref: str) -> None:
        """Prints a commit's cells, and which groups of names it changed."""
        stored, commits = self.store.ask("stored", of=ref), self.store.commits()
        number = stored["commit"]
        names = ", ".join(name for _, name in self.refs().get(number, []))
        on = f", on commit {commits[number].parent}" if number else f", {EMPTY}"
        print(paint("number", f"commit {number}") + (f" ({names})" if names else "") + on)
        for text in commits[number].cells:
            print(f"\n{textwrap.indent(text, '    ', lambda _: True)}")
        for what in ("dropped", "stored"):
            if stored[what]:
                print(f"\n{what}: {'; '.join(map(', '.join, stored[what]))}")

    def diff(self, ref: str) -> None:
        """Tells which groups of names :go REF would drop, keep and load."""
        plan = self.store.ask("plan", to=ref)
        print(f"To go to commit {plan['commit']} would drop (-), keep and load (+) these groups of names:")
        for what, sign in (("drop", "-"), ("keep", " "), ("load", "+")):
            for group in plan[what]:
                print(paint(what, f"{sign} {', '.join(group)}"))

    # What is bound.

    def names(self) -> None:
        """Lists the names, and which of them share objects."""
        bound = Bound(self.store.ask("inspect"))
        for group in bound.groups():
            indent = "  " if len(group) > 1 else ""
            if indent:
                print(paint("mark", f"{', '.join(group)} share:"))
            for name in group:
                print(f"{indent}{name} = {bound.text(bound.names[name])}")
        if not bound.names:
            print("No name is bound.")

    def tree(self, name: str) -> None:
        """Shows a value object by object, and what of it is shared."""
        bound = Bound(self.store.ask("inspect"))
        if name not in bound.names:
            raise Told(f"No name {name} is bound: :names lists those that are.")
        for place, (line, shared) in enumerate(bound.tree(name)):
            if place == MOST_TREE_LINES:
                print("... and more")
                break
            print(printable(line) + paint("mark", shared))

    # Files.

    def run_file(self, path: str, *together: str) -> None:
        """Runs a notebook's cells, each as a commit or all as one."""
        texts, ran, end = cells_in(path), 0, ""
        batches = [texts] if together and texts else [[text] for text in texts]
        for batch in batches:
            which = "all" if together else f"cell {ran + 1}"
            try:
                with progress(f"{path}: {which} of {plural(len(texts), 'cell')}"):
                    results = self.store.run(*batch)
            except Told as told:
                end = f": {told}" if together else f", {which} didn't: {told}"
                break
            for text, result in zip(batch, results):
                self.show(text, result["outputs"])
            ran += len(results)
            if ran < len(texts) and results[-1]["outcome"] != "ok":
                end = ": the last one didn't end well."
                break
        print(f"{ran} of {plural(len(texts), 'cell')} ran{end or '.'}")

    def replay(self) -> Iterator[tuple[str, Answer]]:
        """Runs the path's cells on a new store, and returns each with what it gave: a store keeps no outputs,
        but those of a session are what its path gives when it is run from empty."""
        path = self.path()
        with tempfile.TemporaryDirectory() as folder:
            store = Store(self.store.program, os.path.join(folder, "path.kishu"))
            try:
                for number, commit in enumerate(path, 1):
                    with progress(f"outputs of commit {number} of {len(path)}"):
                        given = store.run(*commit.cells)
                    yield from zip(commit.cells, given)
            finally:
                store.session.stop(signal.SIGTERM)

    def save(self, path: str, *over: str) -> None:
        """Writes the cells of the path and their outputs as a notebook."""
        self.write(path, ".ipynb", bool(over), lambda: notebook_of(self.replay()))
        print(f"{path} has {plural(self.store.cells, 'cell')} with their outputs.")

    def draw(self, path: str, *over: str) -> None:
        """Draws the graph as a picture."""
        commits = self.store.commits()
        self.write(path, ".svg", bool(over), lambda: svg_of(commits, self.refs()))
        print(f"{path} shows {plural(len(commits) - 1, 'commit')}.")

    def write(self, path: str, ending: str, is_over: bool, make: Callable[[], str]) -> None:
        """Makes a text and writes it to a file in one piece, if the file is one to write to."""
        to = os.path.expanduser(path)
        is_there = os.path.exists(to)
        if not path.endswith(ending) or is_there and os.path.samefile(to, self.store.path):
            raise Told(f"{path} isn't written over: give another name that ends with {ending}.")
        if is_there and not (is_over and os.path.isfile(to)):
            raise Told(f"{path} is there already: give another name, or put --over behind this one.")
        with tempfile.TemporaryDirectory(prefix=".kishu-", dir=os.path.dirname(to) or ".") as folder:
            made = os.path.join(folder, "made")
            with open(made, "w", encoding="utf-8") as file:
                file.write(make())
            os.replace(made, to)

    # Words.

    def help(self) -> None:
        """Lists these words."""
        print("A cell runs at the end of its line; one that begins with a block runs at an empty line.")
        for name, (use, run) in WORDS.items():
            print(f"  {f':{name} {use}':<30} {run.__doc__}")
        print("Ctrl-C drops what is typed or stops what runs; Ctrl-D ends the shell. What ran stays stored.")

    def quit(self) -> None:
        """Ends the shell, as Ctrl-D does."""
        raise EOFError

    def do(self, line: str) -> None:
        """Does what a line that begins with a colon asks for."""
        try:
            name, *arguments = shlex.split(line[1:]) or [""]
        except ValueError:
            raise Told("A quoted part of that isn't closed: close it, or type :help.") from None
        if name not in WORDS:
            raise Told(f":{name} is no word of the shell: :help lists them.")
        use, run = WORDS[name]
        flags = [word for word in arguments if word.startswith("--") and f"[{word}]" in use]
        others = [word for word in arguments if word not in flags]
        parts = [part for part in use.split() if not part.startswith("[--")]
        least = sum(not part.startswith("[") for part in parts)
        if not least <= len(others) <= len(parts):
            raise Told(f"That isn't how :{name} is used: type :{name} {use}".rstrip() + ".")
        run(self, *others, *flags)

    def take(self, text: str) -> None:
        """Takes what was typed: a line with a word, or a cell."""
        if text.lstrip().startswith(":"):
            self.do(text.strip())
        elif text.strip():
            self.show(text, self.store.run(text.rstrip())[0]["outputs"])

    def try_to_take(self, text: str) -> None:
        """Takes what was typed. Where the program ends over it, or Ctrl-C stops it, opens the store anew."""
        try:
            self.take(text)
            return
        except Told as told:
            print(told)
            return
        except OSError as error:
            print(f"That can't be done ({error.strerror}): see that there is a folder for it that has room.")
            return
        except Ended as ended:
            print(ended.args[0])
        except KeyboardInterrupt:
            print("Stopped.")
        before = self.store.records
        self.store.again()
        if self.store.records > before:
            print("The request that was under way was done all the same.")
        print(self.told_head())

    def reader(self) -> Lines | Editor:
        if is_smart(sys.stdin, sys.stdout):
            with contextlib.suppress(ImportError):
                return Editor([text for commit in self.path() for text in commit.cells])
        return Lines()

    def talk(self) -> int:
        """Takes what is typed up to the end of the input. Returns the status to end with."""
        reader = self.reader()
        print(f"{self.store.path} is open (:help tells more). {self.told_head()}")
        while True:
            try:
                self.try_to_take(reader.cell(f"({self.store.place()}) In [{self.store.cells + 1}]: "))
            except KeyboardInterrupt:
                print()
            except EOFError:
                print(end="\n" if sys.stdin.isatty() else "", flush=True)
                return self.store.session.close()


# How each word is used, what may be left out in brackets, and what it does.
WORDS: dict[str, tuple[str, Callable[..., None]]] = {
    "undo": ("[n]", Shell.undo), "redo": ("", Shell.redo), "go": ("REF", Shell.go),
    "branch": ("NAME [REF]", Shell.branch), "branches": ("", Shell.branches),
    "log": ("", Shell.log), "show": ("N", Shell.show_commit), "diff": ("REF", Shell.diff),
    "names": ("", Shell.names), "tree": ("NAME", Shell.tree),
    "run": ("FILE.ipynb [--together]", Shell.run_file), "save": ("FILE.ipynb [--over]", Shell.save),
    "graph": ("FILE.svg [--over]", Shell.draw), "help": ("", Shell.help), "quit": ("", Shell.quit),
}


def program_at(given: str | None) -> str:
    """Returns the path of the program, or of the checkout's script, which builds it where that isn't done."""
    near = (os.path.join(folder, "kishu") for folder in (HERE, os.path.dirname(HERE)))
    found = shutil.which(given or next(filter(os.path.isfile, near), "kishu"))
    if not found:
        raise Ended(f"There is no program {given or 'kishu'} to run: name it by --program.", 1)
    return os.path.abspath(found)


def main() -> int:
    parser = argparse.ArgumentParser(prog="kishu-shell", description="A shell on a store of Kishu.")
    parser.add_argument("store", metavar="STORE", help="the store's file, which is made where there is none")
    parser.add_argument("--program", metavar="PROGRAM", help="the program, if not the checkout's own")
    options = parser.parse_args()
    if not options.store:
        parser.error("the name of the store is empty")
    if os.path.isfile(options.store) and is_short_other(options.store):
        parser.error(f"{options.store} is a file and no store of Kishu: give another name")
    if sys.stdin is None or sys.stdout is None:
        parser.error("the input or the output is closed")
    sys.stdin.reconfigure(errors="surrogateescape")
    sys.stdout.reconfigure(errors="backslashreplace")
    try:
        return Shell(Store(program_at(options.program), options.store)).talk()
    except KeyboardInterrupt:
        return 128 + signal.SIGINT
    except OSError as error:
        os.dup2(os.open(os.devnull, os.O_WRONLY), sys.stdout.fileno())  # (for what couldn't be shown)
        print(f"kishu-shell: The output or the input failed ({error.strerror}): start anew.", file=sys.stderr)
        return 1
    except (Ended, Told) as ended:
        print(f"kishu-shell: {ended.args[0]}", file=sys.stderr)
        return ended.args[1] if isinstance(ended, Ended) else 1


if __name__ == "__main__":
    sys.exit(main())
