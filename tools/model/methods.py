"""The methods of lists, tuples, dicts and texts for play.py, from docs/LANGUAGE.md alone."""
from values import Tup, check_sequence, fail, found, is_number, items_of, key_of, kind, length, take

SPACE = " \t\n\r\v\f"


def bad_arguments(name):
    fail("TypeError", f"{name}() got bad arguments")


def index_of(value, size):
    """The place that an index means."""
    if not is_number(value):
        fail("TypeError", f"bad index type: '{kind(value)}'")
    if not -size <= value < size:
        fail("IndexError", "index out of range")
    return value + size if value < 0 else int(value)


def sorted_items(value, name):
    check_sequence(value)
    size = length(value)
    take(size * size.bit_length() + size)
    items = items_of(value)
    if not (all(map(is_number, items)) or all(isinstance(item, str) for item in items)):
        bad_arguments(name)
    return sorted(items)


def texts_only(name, *values):
    if not all(isinstance(value, str) for value in values):
        bad_arguments(name)


def not_empty(part):
    if not part:
        fail("ValueError", "empty separator")


def list_pop(_, value, *index):
    if not index:
        if not value:
            fail("IndexError", "pop from empty list")
        return value.pop()
    if not is_number(index[0]):
        fail("TypeError", f"bad index type: '{kind(index[0])}'")
    if not value:
        fail("IndexError", "pop from empty list")
    place = index_of(index[0], len(value))
    take(len(value))
    return value.pop(place)


def list_insert(_, value, index, item):
    if not is_number(index):
        fail("TypeError", f"bad index type: '{kind(index)}'")
    take(len(value))
    size = len(value)
    value.insert(max(0, index + size) if index < 0 else min(index, size), item)


def list_extend(_, value, items):
    check_sequence(items)
    take(length(items))
    value.extend(items_of(items))


def index_in(depth, value, item):
    place = found(item, list(value), depth)
    if place < 0:
        fail("ValueError", "value not found")
    return place


def count_in(depth, value, item):
    return sum(found(item, [one], depth) == 0 for one in list(value))


def list_remove(depth, value, item):
    del value[index_in(depth, value, item)]


def list_reverse(_, value):
    take(len(value))
    value.reverse()


def list_copy(_, value):
    take(len(value))
    return list(value)


def list_sort(_, value):
    value[:] = sorted_items(value, "sort")


def dict_get(_, value, key, default=None):
    return value.get(key_of(key), default)


def dict_setdefault(_, value, key, default=None):
    return value.setdefault(key_of(key), default)


def dict_pop(_, value, key, *default):
    plain = key_of(key)
    if plain in value:
        return value.pop(plain)
    return default[0] if default else fail("KeyError", key)


def dict_update(_, value, other):
    if not isinstance(other, dict):
        bad_arguments("update")
    take(len(other))
    value.update(other)


def dict_copy(_, value):
    take(len(value))
    return dict(value)


def text_ends(name, value, part):
    texts_only(name, part)
    take(len(value))
    return getattr(value, name)(part)


def text_strip(_, value):
    take(len(value))
    return value.strip(SPACE)


def text_isdigit(_, value):
    take(len(value))
    return value.isascii() and value.isdigit()


def text_split(_, value, *part):
    if part:
        texts_only("split", *part)
        not_empty(*part)
        take(len(value) * len(part[0]))
        pieces = value.split(part[0])
        take(sum(map(len, pieces)))
        return pieces
    take(len(value))
    for char in SPACE:
        value = value.replace(char, " ")
    return [piece for piece in value.split(" ") if piece]


def text_find(_, value, part):
    texts_only("find", part)
    take(len(value) * max(1, len(part)))
    return value.find(part)


def text_count(_, value, part):
    texts_only("count", part)
    not_empty(part)
    take(len(value) * len(part))
    return value.count(part)


def text_replace(_, value, part, other):
    texts_only("replace", part, other)
    not_empty(part)
    take(len(value) * len(part))
    take(len(value) + value.count(part) * (len(other) - len(part)))
    return value.replace(part, other)


def text_join(_, value, items):
    check_sequence(items)
    take(length(items))
    pieces = items_of(items)
    if not all(isinstance(piece, str) for piece in pieces):
        bad_arguments("join")
    take(sum(map(len, pieces)) + len(value) * max(0, len(pieces) - 1))
    return value.join(pieces)


# Of each kind and name the numbers of arguments, and what is called with the depth, the value and the arguments.
METHODS = {
    (list, "append"): ((1,), lambda _, value, item: value.append(item)),
    (list, "clear"): ((0,), lambda _, value: value.clear()),
    (list, "copy"): ((0,), list_copy),
    (list, "count"): ((1,), count_in),
    (list, "extend"): ((1,), list_extend),
    (list, "index"): ((1,), index_in),
    (list, "insert"): ((2,), list_insert),
    (list, "pop"): ((0, 1), list_pop),
    (list, "remove"): ((1,), list_remove),
    (list, "reverse"): ((0,), list_reverse),
    (list, "sort"): ((0,), list_sort),
    (Tup, "count"): ((1,), count_in),
    (Tup, "index"): ((1,), index_in),
    (dict, "clear"): ((0,), lambda _, value: value.clear()),
    (dict, "copy"): ((0,), dict_copy),
    (dict, "get"): ((1, 2), dict_get),
    (dict, "pop"): ((1, 2), dict_pop),
    (dict, "setdefault"): ((1, 2), dict_setdefault),
    (dict, "update"): ((1,), dict_update),
    (str, "count"): ((1,), text_count),
    (str, "endswith"): ((1,), lambda _, value, part: text_ends("endswith", value, part)),
    (str, "find"): ((1,), text_find),
    (str, "isdigit"): ((0,), text_isdigit),
    (str, "join"): ((1,), text_join),
    (str, "replace"): ((2,), text_replace),
    (str, "split"): ((0, 1), text_split),
    (str, "startswith"): ((1,), lambda _, value, part: text_ends("startswith", value, part)),
    (str, "strip"): ((0,), text_strip),
}
