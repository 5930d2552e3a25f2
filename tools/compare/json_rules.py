"""JSON as Kishu reads it, of request lines and of notebooks."""
import json
import math
import re

DEEPEST = 127


def depth_of(text):
    """How deep brackets stand in one another, outside texts."""
    depth = deepest = 0
    for sign in re.findall(r"[\[\]{}]", re.sub(r'"(?:[^"\\]|\\.)*"', "", text)):
        depth += (sign in "[{") - (sign in "]}")
        deepest = max(deepest, depth)
    return deepest


def is_lone(value):
    """Whether half of a surrogate pair stands in a text of a value."""
    if isinstance(value, list):
        return any(is_lone(part) for part in value)
    return isinstance(value, str) and any("\ud800" <= sign <= "\udfff" for sign in value)


def pairs_of(pairs):
    if any(is_lone(key) or is_lone(value) for key, value in pairs):
        raise ValueError
    return dict(pairs)


def real(text):
    """A number with a point or an exponent. ValueError: it is too large to be one."""
    number = float(text)
    if math.isinf(number):
        raise ValueError
    return number


def no_number(text):
    raise ValueError(text)


def json_of(data, whole, real):
    """The JSON value that some bytes are, with its numbers read by these. ValueError: they are none."""
    text = data.decode("utf-8")
    if depth_of(text) > DEEPEST:
        raise ValueError
    value = json.loads(text, object_pairs_hook=pairs_of, parse_int=whole, parse_float=real, parse_constant=no_number)
    if is_lone(value):
        raise ValueError
    return value
