"""Bytes that are run as notebooks, and what comes of them by notebook_rules.py."""
import copy
import json

import line_inputs
import mutations
import notebook_rules
import python_cells
import session_rules

CELLS = ["x = [1]\nx", "x.append(2)", "print(x)", "x[5]", "", "y = 'a\u00fc'; y", "x = = 1", "1 // 0", "len(x)"]
KNOWN = frozenset(CELLS)
ODD = [
    None, True, False, 0, 1, -1, 5, 4, 2**63, 2**64 - 1, 2**64, -(2**63), -(2**63) - 1, 1.5, 1.0, -0.0, 1e300, "", "a", "code", "markdown", "raw", "id-1", "\u00fc", "a" * 64, "a" * 65, [], ["a"], ["a", 1], [[]], {}, {"a": 1.5},
    {"a": [{"b": 2**64}]}, {"output_type": 1}, {"output_type": "stream"}, [{"output_type": "error", "extra": 1}], [{}],
]
KEYS = ["nbformat", "nbformat_minor", "metadata", "cells", "cell_type", "id", "source", "outputs", "execution_count", "attachments", "extra", ""]


def cell_of(rng, number):
    kind = rng.choice(["code", "code", "code", "markdown", "raw"])
    text = rng.choice(CELLS)
    cell = {"cell_type": kind, "id": f"cell-{number}", "metadata": {}, "source": rng.choice([text, text.splitlines(keepends=True)])}
    if kind == "code":
        cell |= {"execution_count": rng.choice([None, 3]), "outputs": rng.choice([[], [{"output_type": "stream", "name": "stdout", "text": ["old\n"]}]])}
    return cell


def notebook_of(rng):
    return {"cells": [cell_of(rng, number) for number in range(rng.randrange(5))], "metadata": rng.choice([{}, {"kernelspec": {"name": "python3"}}]), "nbformat": 4, "nbformat_minor": 5}


def places_in(value):
    """The lists and dicts of a value."""
    if isinstance(value, (list, dict)):
        yield value
        for part in value.values() if isinstance(value, dict) else value:
            yield from places_in(part)


def with_value(rng, value):
    """A notebook with something else at one of its places."""
    value = copy.deepcopy(value)
    place = rng.choice(list(places_in(value)))
    if isinstance(place, list):
        at = rng.randrange(len(place) + 1)
        place[at : at + rng.choice([0, 1])] = rng.choice([[], [rng.choice(ODD)], place[:1], [cell_of(rng, rng.randrange(5))]])
        return value
    key = rng.choice([*place, *KEYS])
    if rng.random() < 0.3:
        place.pop(key, None)
    else:
        place[key] = rng.choice(ODD)
    return value


def notebook_input(rng):
    value, kind = notebook_of(rng), rng.random()
    if kind < 0.05:
        return json.dumps(value).encode()
    if kind < 0.6:
        for _ in range(rng.choice([1, 1, 1, 2, 3])):
            value = with_value(rng, value)
        data = json.dumps(value, ensure_ascii=rng.random() < 0.5, indent=rng.choice([None, 1]), allow_nan=True)
        return data.encode("utf-8", "surrogatepass")
    data = json.dumps(value, ensure_ascii=rng.random() < 0.5).encode()
    if kind < 0.63:
        deep = rng.choice([120, 124, 125, 126, 127, 200, 4000])
        return data.replace(b'"metadata": {}', b'"metadata": {"a": ' + b"[" * deep + b"]" * deep + b"}", 1)
    return mutations.changed(rng, data)


def bare(value):
    """A notebook without what a run sets."""
    value = copy.deepcopy(value)
    for cell in notebook_rules.code_cells(value):
        cell["outputs"] = cell["execution_count"] = None
    return value


def check(words, data, found):
    """Looks whether a run on an empty store ended as it has to. The reason of a refusal, or `run`, or `taken` where the cells aren't known."""
    status, text, out, file = found
    try:
        notebook = notebook_rules.read(data)
    except notebook_rules.Refused as refusal:
        line_inputs.expect("a refused notebook", found, (4, b"notebook refused: %s\n" % refusal.args[0].encode(), b"", b""))
        return refusal.args[0].rstrip("0123456789 ")
    try:
        line_inputs.expect("a notebook's run", found, session_rules.expected(words, data, b"", KNOWN))
        return "run"
    except python_cells.Unlike:
        line_inputs.expect("the status", (status, text), (0, b""))
        line_inputs.expect("the notebook", bare(notebook_rules.read(out)), bare(notebook))
        return "taken"
