"""Notebooks as the input of `run`, for play.py: which are refused, which texts are run, what is set and what is written;
from docs/NOTEBOOKS.md alone."""
import json
import re

from lines import Bad, nesting, refuse_constant, refuse_surrogates

NESTING = 127
LONGEST = 67_108_864
KINDS = ("code", "markdown", "raw")


class NotRun(Exception):
    """A notebook that is refused, with the reason."""


class NotWhole:
    """A number that isn't a whole one of 64 bits."""


def whole(text):
    """A number without point and exponent, or a NotWhole."""
    if float(text) in (float("inf"), float("-inf")):
        raise Bad
    return int(text) if text != "-0" and len(text) < 25 and -(2**63) <= int(text) < 2**64 else NotWhole()


def not_whole(text):
    """A number with a point or an exponent."""
    if float(text) in (float("inf"), float("-inf")):
        raise Bad
    return NotWhole()


def values_in(value):
    """A value and all that stands in it."""
    yield value
    inner = value.values() if isinstance(value, dict) else value if isinstance(value, list) else ()
    for one in inner:
        yield from values_in(one)


def is_count(value):
    return type(value) is int and value >= 0


def is_cell(cell):
    """Whether a value is a cell by the rules of the page."""
    if not isinstance(cell, dict) or cell.get("cell_type") not in KINDS or not isinstance(cell.get("metadata"), dict):
        return False
    name, source = cell.get("id"), cell.get("source")
    if not isinstance(name, str) or not re.fullmatch("[A-Za-z0-9_-]{1,64}", name):
        return False
    if not isinstance(source, str) and not (isinstance(source, list) and all(isinstance(part, str) for part in source)):
        return False
    if cell["cell_type"] != "code":
        return True
    outputs = cell.get("outputs")
    if not isinstance(outputs, list) or not all(isinstance(one, dict) and isinstance(one.get("output_type"), str) for one in outputs):
        return False
    return "execution_count" in cell and (cell["execution_count"] is None or is_count(cell["execution_count"]))


def json_of(data):
    """The JSON value of some bytes, in which numbers that aren't whole are NotWhole."""
    try:
        text = data.decode()
        if nesting(text) > NESTING:
            raise Bad
        value = json.loads(text, parse_constant=refuse_constant, parse_int=whole, parse_float=not_whole)
        # A key that is repeated is read as well, though the last value counts.
        json.loads(text, object_pairs_hook=lambda pairs: [refuse_surrogates(list(pair)) for pair in pairs], parse_int=str)
        refuse_surrogates([value])
    except (UnicodeDecodeError, json.JSONDecodeError, Bad) as error:
        raise NotRun("not JSON") from error
    return value


def read_notebook(data):
    """The notebook that some bytes are, or NotRun with the first fault."""
    value = json_of(data)
    rules = {
        "nbformat": lambda one: type(one) is int and one == 4,
        "nbformat_minor": is_count,
        "metadata": lambda one: isinstance(one, dict),
        "cells": lambda one: isinstance(one, list),
    }
    for key, rule in rules.items():
        if not isinstance(value, dict) or key not in value or not rule(value[key]):
            raise NotRun(f"key {key}")
    if value["nbformat_minor"] != 5:
        raise NotRun(f"minor {value['nbformat_minor']}")
    for number, cell in enumerate(value["cells"]):
        if not is_cell(cell):
            raise NotRun(f"cell {number}")
    names = [cell["id"] for cell in value["cells"]]
    for number, name in enumerate(names):
        if name in names[:number]:
            raise NotRun(f"repeated id at cell {number}")
    if any(isinstance(one, NotWhole) for one in values_in(value)):
        raise NotRun("a number is not whole")
    return value


def code_cells(notebook):
    return [cell for cell in notebook["cells"] if cell["cell_type"] == "code"]


def text_of(cell):
    return "".join(cell["source"])


def set_result(cell, result):
    """Put what a run gave into a cell; a refusal is told by its reason."""
    if "reason" in result:
        reason = result["reason"]
        cell["outputs"] = [{"ename": reason, "evalue": "", "output_type": "error", "traceback": [f"{reason}: "]}]
        cell["execution_count"] = None
    else:
        cell["outputs"], cell["execution_count"] = result["outputs"], result["count"]


def written(notebook):
    return json.dumps(notebook, ensure_ascii=False, indent=2, sort_keys=True).encode() + b"\n"
