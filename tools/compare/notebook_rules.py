"""The rules of notebooks and of their runs, read a second time: by docs/NOTEBOOKS.md, and by nothing of the program."""
import copy
import json
import re

import json_rules

LONGEST = 2**26
LEAST, MOST = -(2**63), 2**64 - 1


class Refused(Exception):
    """The bytes are no notebook that is run, for the reason that is the argument."""


class Unwhole:
    """A number that isn't whole."""


def real(text):
    json_rules.real(text)
    return Unwhole()


def whole(text):
    """A whole number. One that is too large is read as one that isn't whole, as long as it is a number at all."""
    if text == "-0" or len(text) > 20 or not LEAST <= int(text) <= MOST:
        return real(text)
    return int(text)


def is_natural(value):
    return type(value) is int and value >= 0


def all_whole(value):
    if isinstance(value, dict):
        return all(map(all_whole, value.values()))
    if isinstance(value, list):
        return all(map(all_whole, value))
    return not isinstance(value, Unwhole)


def is_source(value):
    return isinstance(value, str) or isinstance(value, list) and all(isinstance(part, str) for part in value)


def is_output(value):
    return isinstance(value, dict) and isinstance(value.get("output_type"), str)


def is_cell(cell):
    if not isinstance(cell, dict) or cell.get("cell_type") not in ("code", "markdown", "raw"):
        return False
    if not isinstance(cell.get("id"), str) or not re.fullmatch(r"[A-Za-z0-9_-]{1,64}", cell["id"]):
        return False
    if not isinstance(cell.get("metadata"), dict) or not is_source(cell.get("source")):
        return False
    if cell["cell_type"] != "code":
        return True
    outputs, count = cell.get("outputs"), cell.get("execution_count", Unwhole())
    return isinstance(outputs, list) and all(map(is_output, outputs)) and (count is None or is_natural(count))


def first(found, kept):
    """The first place of a list whose item isn't kept."""
    return next((place for place, item in enumerate(found) if not kept(item)), None)


def read(data):
    """The notebook that some bytes are, as a JSON value."""
    try:
        value = json_rules.json_of(data, whole, real)
    except ValueError:
        raise Refused("not JSON") from None
    if not isinstance(value, dict) or type(value.get("nbformat")) is not int or value["nbformat"] != 4:
        raise Refused("key nbformat")
    for key, fits in (
        ("nbformat_minor", is_natural), ("metadata", lambda part: isinstance(part, dict)), ("cells", lambda part: isinstance(part, list)),
    ):
        if not fits(value.get(key)):
            raise Refused(f"key {key}")
    if value["nbformat_minor"] != 5:
        raise Refused(f"minor {value['nbformat_minor']}")
    place = first(value["cells"], is_cell)
    if place is not None:
        raise Refused(f"cell {place}")
    ids = [cell["id"] for cell in value["cells"]]
    place = first(range(len(ids)), lambda at: ids[at] not in ids[:at])
    if place is not None:
        raise Refused(f"repeated id at cell {place}")
    if not all_whole(value):
        raise Refused("a number is not whole")
    return value


def joined(source):
    return source if isinstance(source, str) else "".join(source)


def code_cells(value):
    return [cell for cell in value["cells"] if cell["cell_type"] == "code"]


def pretty(value):
    """The bytes of a notebook as Kishu writes it."""
    return (json.dumps(value, ensure_ascii=False, indent=2, sort_keys=True) + "\n").encode()


def set_result(cell, result):
    cell["outputs"], cell["execution_count"] = result["outputs"], result["count"]


def set_refused(cell, reason):
    cell["outputs"] = [{"ename": reason, "evalue": "", "output_type": "error", "traceback": [f"{reason}: "]}]
    cell["execution_count"] = None


def run(value, together, told):
    """The notebook behind a run of its code cells. `told` answers a request, as a dict."""
    value = copy.deepcopy(value)
    cells = code_cells(value)
    if together:
        if cells:
            answer = told({"op": "cells", "texts": [joined(cell["source"]) for cell in cells]})
            if answer["answer"] == "refused":
                set_refused(cells[0], answer["reason"])
            else:
                for cell, result in zip(cells, answer["results"]):
                    set_result(cell, result)
        return value
    for cell in cells:
        answer = told({"op": "cell", "text": joined(cell["source"])})
        if answer["answer"] == "refused":
            set_refused(cell, answer["reason"])
            break
        set_result(cell, answer)
        if answer["outcome"] != "ok":
            break
    return value
