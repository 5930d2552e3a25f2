"""Random notebooks for play.py, of which some are refused."""
import json

from cell_texts import cell_text

FREE = [
    None, True, 0, -1, 2**64 - 1, -(2**63), "a", "é\n\t\"\\\x01\x7f\U0001f600", [], {},
    [1, [2, {"b": [], "a": "x"}]], {"é": 1, "z": {}, "a": [[]]},
]
OTHERS = [
    b"", b"[]", b"4", b"null", b'{"nbformat":4}', b'{"a":' + b"[" * 126 + b"]" * 126 + b"}", b'{"a":' + b"[" * 127 + b"]" * 127 + b"}",
]
NUMBERS = ["1.0", "-0", "1e2", "18446744073709551616", "-9223372036854775809", "0.5E-7", "1e999", "-1E400", "9" * 400]
IDS = ["a", "b-2", "_", "0", "x" * 64]
BAD_IDS = ["", "x" * 65, "a b", "é", "a.b", None, 1, ["a"]]
OUTPUTS = [
    {"name": "stdout", "output_type": "stream", "text": ["old\n", "lines"]},
    {"data": {"image/png": "AAAA", "text/plain": ["<x>"]}, "metadata": {"b": 1, "a": {}}, "output_type": "display_data"},
    {"ename": "E", "evalue": "", "output_type": "error", "traceback": ["\x1b[31mred\x1b[0m"]},
    {"output_type": "", "free": None},
]
MARK = "\x00number"


def free_object(rng):
    return {rng.choice(["tags", "name", "é", "", "A"]): rng.choice(FREE) for _ in range(rng.choice([0, 0, 1, 3]))}


def source_of(rng, text):
    """A text as one text or as a list of some."""
    if rng.random() < 0.5:
        return text
    place = rng.randint(0, len(text))
    return rng.choice([text.splitlines(True), [text], [text[:place], text[place:]], [text, ""]])


def cell_of(rng, number):
    cell = {"cell_type": rng.choice(["code"] * 4 + ["markdown", "raw"]), "id": f"c{number}", "metadata": free_object(rng)}
    if cell["cell_type"] == "code":
        cell["outputs"] = [rng.choice(OUTPUTS) for _ in range(rng.choice([0, 0, 1, 2]))]
        cell["execution_count"] = rng.choice([None, 0, 7, 2**64 - 1])
        cell["source"] = source_of(rng, cell_text(rng))
    else:
        cell["source"] = source_of(rng, rng.choice(["# Title\n", "", "1 // 0", "two\nlines"]))
        cell["attachments"] = free_object(rng)
    if rng.random() < 0.1:
        cell["more"] = rng.choice(FREE)
    return cell


def harmed_cell(rng, cell):
    """Break a rule of cells."""
    ways = [
        ("id", BAD_IDS), ("cell_type", ["Code", None, "heading"]), ("metadata", [None, []]), ("source", [None, 1, ["a", 1], {}]),
        ("outputs", [None, {}, [1], [{}], [{"output_type": 1}]]), ("execution_count", ["1", -1, True, MARK]),
    ]
    key, values = rng.choice(ways if cell.get("cell_type") == "code" else ways[:4])
    if rng.random() < 0.25:
        cell.pop(key, None)
    else:
        cell[key] = rng.choice(values)


def harm(rng, notebook):
    """Break a rule, or two, somewhere in a notebook."""
    cells = notebook["cells"]
    chance = rng.random()
    if chance < 0.3:
        key = rng.choice(["nbformat", "nbformat_minor", "metadata", "cells"])
        if rng.random() < 0.3:
            notebook.pop(key, None)
        else:
            notebook[key] = rng.choice([None, 3, 4, 6, -1, "4", [], {}, True, [{}]])
    elif chance < 0.5 and all(cells) and cells:
        harmed_cell(rng, rng.choice(cells))
    elif chance < 0.7 and len(cells) > 1:
        rng.choice(cells)["id"] = rng.choice(cells).get("id", "a")
    else:
        rng.choice(cells or [notebook])["metadata"] = {"n": [MARK]}


def notebook_bytes(rng):
    """The bytes of a random notebook."""
    cells = [cell_of(rng, number) for number in range(rng.choice([0, 1, 2, 3, 3, 5]))]
    if cells and rng.random() < 0.3:
        rng.choice(cells)["id"] = rng.choice(IDS)
    notebook = {"cells": cells, "metadata": free_object(rng), "nbformat": 4, "nbformat_minor": 5}
    if rng.random() < 0.2:
        notebook[rng.choice(["more", "é"])] = rng.choice(FREE)
    while rng.random() < 0.25 and isinstance(notebook.get("cells"), list):
        harm(rng, notebook)
    text = json.dumps(notebook, ensure_ascii=rng.random() < 0.5, indent=rng.choice([None, 1, 2]), sort_keys=rng.random() < 0.5)
    data = text.replace(json.dumps(MARK), rng.choice(NUMBERS)).encode()
    chance = rng.random()
    if chance < 0.04:
        place = rng.randint(0, len(data))
        return data[:place] + rng.choice([b"\xff", b"", b",", b"}", b"\\ud800", b"NaN"]) + data[place + rng.randint(0, 3) :]
    if chance < 0.08:
        return rng.choice(OTHERS + [b"\xef\xbb\xbf" + data, data + b"x", data + b"\n "])
    if chance < 0.12:
        # A key that is repeated: the last value counts.
        return data[:1] + b'"nbformat": 3, "metadata": [], "cells": {"a": {"a": 1}}, ' + data[1:]
    return data
