"""Requests and answers as lines for play.py, from docs/LINES.md alone."""
import json
import re

NESTING = 127
FORMS = {
    "cell": [{"text"}], "cells": [{"texts"}], "checkout": [{"to"}], "branch": [{"name"}, {"name", "at"}], "log": [set()], "status": [set()],
    "inspect": [set()], "stored": [{"of"}], "plan": [{"to"}],
}
REASONS = {"BadRequest": 1, "NoSuchRef": 2, "BadName": 3, "NameTaken": 4, "StoreFull": 5, "CellTooLong": 6, "StateTooLarge": 7}


class Bad(Exception):
    """A line that is no request."""


def refuse_surrogates(value):
    if isinstance(value, str):
        if any("\ud800" <= char <= "\udfff" for char in value):
            raise Bad
    elif isinstance(value, list):
        for item in value:
            refuse_surrogates(item)


def object_of(pairs):
    for key, value in pairs:
        refuse_surrogates(key)
        refuse_surrogates(value)
    return dict(pairs)


def refuse_constant(_):
    raise Bad


def number_of(text):
    """A number, of which only is asked that it can be read."""
    if float(text) in (float("inf"), float("-inf")):
        raise Bad
    return 0


def nesting(text):
    """How deep the brackets of a JSON text nest outside its texts."""
    deepest = depth = 0
    for mark in re.findall(r'"(?:[^"\\]|\\.)*"|[][{}]', text, re.DOTALL):
        if mark in "[{":
            depth += 1
            deepest = max(deepest, depth)
        elif mark in "]}":
            depth -= 1
    return deepest


def read_request(line):
    """The request that a line is, as a dict, or Bad."""
    try:
        text = line.decode()
        if nesting(text) > NESTING:
            raise Bad
        value = json.loads(text, object_pairs_hook=object_of, parse_constant=refuse_constant, parse_int=number_of, parse_float=number_of)
    except (UnicodeDecodeError, json.JSONDecodeError) as error:
        raise Bad from error
    if not isinstance(value, dict) or not isinstance(value.get("op"), str):
        raise Bad
    if set(value) - {"op"} not in FORMS.get(value["op"], []):
        raise Bad
    for key, item in value.items():
        if key == "texts":
            if not isinstance(item, list) or not item or not all(isinstance(one, str) for one in item):
                raise Bad
        elif not isinstance(item, str):
            raise Bad
    return value


def line_of(answer):
    return json.dumps(answer, ensure_ascii=False, sort_keys=True, separators=(",", ":")).encode() + b"\n"


def refusal(reason, **more):
    return dict(answer="refused", number=REASONS[reason], reason=reason, **more)


def outputs_of(count, printed, shown, error):
    outputs = []
    if printed:
        outputs.append({"name": "stdout", "output_type": "stream", "text": printed})
    if shown is not None:
        outputs.append({"data": {"text/plain": shown}, "execution_count": count, "metadata": {}, "output_type": "execute_result"})
    if error:
        kind, text = error
        outputs.append({"ename": kind, "evalue": text, "output_type": "error", "traceback": [f"{kind}: {text}"]})
    return outputs
