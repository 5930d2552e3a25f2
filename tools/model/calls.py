"""Operators, access, calls, builtin functions, classes and methods of cells for play.py, from docs/LANGUAGE.md
alone. Each function here is called by the Python code that cells.py makes of a cell."""
import re

from methods import METHODS, SPACE, bad_arguments, index_of, sorted_items
from values import BUILTINS, DEPTH, ERRORS, GREATEST, LEAST, Builtin, Class, Function, Raised, Thing, Tup, at, bounded, check_sequence, fail
from values import is_number, is_sequence, items_of, key_of, kind, length, less, repr_of, run, str_of, take

# Names.


def read_name(nest, name):
    at(nest)
    run.accessed.add(name)
    if name in run.names:
        return run.names[name]
    if name in BUILTINS:
        return BUILTINS[name]
    return fail("NameError", f"name '{name}' is not defined")


def read_local(nest, name, names):
    at(nest)
    if name not in names:
        fail("UnboundLocalError", f"local name '{name}' has no value")
    return names[name]


def bind_name(name, value):
    run.accessed.add(name)
    run.names[name] = value


def delete_name(name, names, local):
    if not local:
        run.accessed.add(name)
    if name not in names:
        if local:
            fail("UnboundLocalError", f"local name '{name}' has no value")
        fail("NameError", f"name '{name}' is not defined")
    del names[name]


def unbind(name, names):
    """The way out of a handler with `as`; a stopped run takes none."""
    if not run.stopped:
        if names is run.names:
            run.accessed.add(name)
        names.pop(name, None)


# Operators.


def bad_types(op, one, other):
    fail("TypeError", f"bad operand types for {op}: '{kind(one)}' and '{kind(other)}'")


def operate(op, one, other):
    """A binary operator, when its operands are evaluated."""
    take(1)
    if is_number(one) and is_number(other):
        return calculate(op, one, other)
    if op == "+" and type(one) is type(other) and isinstance(one, (str, list, Tup)):
        take(len(one) + len(other))
        return Tup(one + other) if isinstance(one, Tup) else one + other
    if op == "*":
        if is_number(one):
            one, other = other, one
            if isinstance(one, (str, list, Tup)):
                return repeated(one, other)
            return bad_types(op, other, one)
        if isinstance(one, (str, list, Tup)) and is_number(other):
            return repeated(one, other)
    return bad_types(op, one, other)


def repeated(value, times):
    times = max(0, times) if value else 0
    take(len(value) * times)
    result = value * times
    return Tup(result) if isinstance(value, Tup) else result


def calculate(op, one, other):
    if op in ("//", "%"):
        if other == 0:
            fail("ZeroDivisionError", "division by zero")
        return bounded(int(one) // other if op == "//" else int(one) % other)
    if op == "**":
        if other < 0:
            fail("ValueError", "negative power")
        if one not in (0, 1, -1) and other > 127:
            fail("OverflowError", "whole number too large")
        return bounded(int(one) ** int(other))
    return bounded({"+": int.__add__, "-": int.__sub__, "*": int.__mul__}[op](int(one), int(other)))


def update(op, one, other):
    """The operation of `op=`: a list's `+=` extends it in place."""
    if op == "+" and isinstance(one, list):
        take(1)
        check_sequence(other)
        take(length(other))
        one.extend(items_of(other))
        return one
    return operate(op, one, other)


def sign(op, value):
    take(1)
    if not is_number(value):
        fail("TypeError", f"bad operand type for {op}: '{kind(value)}'")
    return bounded(-value if op == "-" else int(value))


def negate(value):
    take(1)
    return not value


def second(_, value):
    """The value of a form whose step was taken by the first argument."""
    return value


def constant(nest, value):
    at(nest)
    return value


def make_tuple(_, *items):
    return Tup(items)


def make_dict(_, *parts):
    result = {}
    for key, value in zip(parts[::2], parts[1::2]):
        result[key_of(key)] = value
    return result


# Items, slices and attributes.


def not_subscriptable(value):
    fail("TypeError", f"'{kind(value)}' object is not subscriptable")


def get_item(_, holder, index):
    if isinstance(holder, dict):
        key = key_of(index)
        if key not in holder:
            fail("KeyError", index)
        return holder[key]
    if not is_sequence(holder):
        not_subscriptable(holder)
    return holder[index_of(index, length(holder))]


def get_slice(_, holder, begin, end, step):
    if not isinstance(holder, (list, Tup, str)):
        not_subscriptable(holder)
    for bound in (begin, end, step):
        if bound is not None and not is_number(bound):
            fail("TypeError", f"bad index type: '{kind(bound)}'")
    if step is not None and step == 0:
        fail("ValueError", "step is zero")
    result = holder[begin:end:step]
    take(len(result))
    return Tup(result) if isinstance(holder, Tup) else result


def set_item(holder, index, value):
    if isinstance(holder, dict):
        holder[key_of(index)] = value
    elif isinstance(holder, list):
        holder[index_of(index, len(holder))] = value
    else:
        not_subscriptable(holder)


def delete_item(holder, index):
    if isinstance(holder, dict):
        key = key_of(index)
        if key not in holder:
            fail("KeyError", index)
        del holder[key]
    elif isinstance(holder, list):
        del holder[index_of(index, len(holder))]
    else:
        not_subscriptable(holder)


def no_attribute(value, name):
    fail("AttributeError", f"'{kind(value)}' object has no attribute '{name}'")


def get_attribute(_, value, name):
    if isinstance(value, Thing) and name in value.entries:
        return value.entries[name]
    if isinstance(value, Raised) and name == "args":
        return Tup(value.items)
    return no_attribute(value, name)


def set_attribute(holder, name, value):
    if not isinstance(holder, Thing):
        no_attribute(holder, name)
    holder.entries[name] = value


def delete_attribute(holder, name):
    if not isinstance(holder, Thing) or name not in holder.entries:
        no_attribute(holder, name)
    del holder.entries[name]


def unpack(value, count):
    check_sequence(value)
    take(length(value))
    if length(value) != count:
        fail("ValueError", f"cannot unpack into {count}")
    return items_of(value)


# Exceptions.


def to_raise(value):
    if isinstance(value, Class) and value.native:
        return value.native()
    if not isinstance(value, Raised):
        fail("TypeError", "exceptions must be exception classes or objects")
    return value


def assertion(*items):
    return ERRORS["AssertionError"](items)


def matches(error, classes):
    error.__traceback__ = error.__context__ = None
    wanted = classes if isinstance(classes, Tup) else (classes,)
    if not all(isinstance(one, Class) and one.native for one in wanted):
        fail("TypeError", "exceptions must be exception classes or objects")
    return any(isinstance(error, one.native) for one in wanted)


# Calls.


class Method:
    """A method that was looked for, with the value that it is of."""

    def __init__(self, value, name):
        self.value, self.name = value, name


def find_method(_, value, name):
    if isinstance(value, Thing):
        return get_attribute(None, value, name)
    if (type(value), name) not in METHODS:
        no_attribute(value, name)
    return Method(value, name)


def call(nest, _, callee, plain, named=()):
    named = list(named)
    if isinstance(callee, Function):
        return call_function(nest, callee, plain, named)
    depth = run.depth + nest
    if isinstance(callee, Method):
        counts, body = METHODS[type(callee.value), callee.name]
        if named or len(plain) not in counts:
            bad_arguments(callee.name)
        return body(depth, callee.value, *plain)
    if isinstance(callee, Class) and callee.native:
        if named:
            bad_arguments(callee.name)
        return callee.native(plain)
    if not isinstance(callee, (Builtin, Class)):
        fail("TypeError", f"'{kind(callee)}' object is not callable")
    if callee.name in ("print", "SimpleNamespace"):
        return call_print(depth, plain, named) if callee.name == "print" else call_namespace(plain, named)
    counts, body = CALLS[callee.name]
    if named or not counts[0] <= len(plain) <= counts[1]:
        bad_arguments(callee.name)
    return body(depth, *plain)


def call_function(nest, function, plain, named):
    names = dict(zip(function.params, plain))
    if len(plain) > len(function.params):
        bad_arguments(function.name)
    for name, value in named:
        if name in names or name not in function.params:
            bad_arguments(function.name)
        names[name] = value
    defaults = function.params[len(function.params) - len(function.defaults) :]
    for name, value in zip(defaults, function.defaults):
        names.setdefault(name, value)
    if len(names) != len(function.params):
        bad_arguments(function.name)
    before = run.depth
    run.depth += nest + 1
    try:
        if run.depth > DEPTH:
            fail("RecursionError", "depth limit reached")
        return function.body(names)
    finally:
        run.depth = before


def call_print(depth, plain, named):
    ends = {"sep": " ", "end": "\n"}
    seen = set()
    for name, value in named:
        if name not in ends or name in seen or not isinstance(value, str):
            bad_arguments("print")
        seen.add(name)
        ends[name] = value
    pieces = []
    for number, value in enumerate(plain):
        if number:
            take(len(ends["sep"]))
            pieces.append(ends["sep"])
        pieces.append(str_of(value, depth))
    take(len(ends["end"]))
    run.printed.append("".join(pieces) + ends["end"])


def call_namespace(plain, named):
    if plain:
        bad_arguments("SimpleNamespace")
    return Thing(dict(named))


def numbers_only(name, *values):
    if not all(map(is_number, values)):
        bad_arguments(name)


def call_all(depth, value, wanted=True):
    check_sequence(value)
    for item in items_of(value):
        take(1)
        if bool(item) != wanted:
            return not wanted
    return wanted


def call_chr(_, value):
    numbers_only("chr", value)
    if not 0 <= value <= 0x10FFFF or 0xD800 <= value <= 0xDFFF:
        fail("ValueError", "not a character")
    return chr(value)


def call_divmod(_, one, other):
    numbers_only("divmod", one, other)
    return Tup((calculate("//", one, other), calculate("%", one, other)))


def call_isinstance(_, value, classes):
    wanted = classes if isinstance(classes, Tup) else (classes,)
    if not all(isinstance(one, Class) for one in wanted):
        bad_arguments("isinstance")

    def matching(one):
        return isinstance(value, one.native) if one.native else kind(value) == one.name or (kind(value) == "bool" and one.name == "int")

    return any(map(matching, wanted))


def call_len(_, value):
    if not is_sequence(value):
        bad_arguments("len")
    return bounded(length(value))


def call_best(name, depth, *values):
    if len(values) == 1:
        check_sequence(values[0])
        values = items_of(values[0])
    if not values:
        fail("ValueError", "empty argument")
    best = None
    for number, value in enumerate(values):
        take(1)
        if number == 0 or compare_best(name, value, best, depth):
            best = value
    return best


def compare_best(name, value, best, depth):
    op = ">" if name == "max" else "<"

    def told():
        fail("TypeError", f"bad operand types for {op}: '{kind(value)}' and '{kind(best)}'")

    return less(best, value, depth, told, True) if op == ">" else less(value, best, depth, told)


def call_ord(_, value):
    if not isinstance(value, str) or len(value) != 1:
        bad_arguments("ord")
    return ord(value)


def call_sum(_, value):
    check_sequence(value)
    total = 0
    for item in items_of(value):
        take(1)
        numbers_only("sum", item)
        total = bounded(total + item)
    return total


def call_int(_, value=0):
    if is_number(value):
        return int(value)
    if not isinstance(value, str):
        bad_arguments("int")
    take(len(value))
    match = re.fullmatch(r"([+-]?)0*([0-9]{0,39})", value.strip(SPACE))
    if not match or not re.search("[0-9]", value):
        fail("ValueError", "not a whole number")
    number = int(match.group(1) + (match.group(2) or "0"))
    if not LEAST <= number <= GREATEST:
        fail("ValueError", "not a whole number")
    return number


def call_list(_, value=Tup(), made=list):
    if made is Tup and isinstance(value, Tup):
        return value
    check_sequence(value)
    take(length(value))
    return made(items_of(value))


def call_dict(_, *values):
    value = values[0] if values else {}
    if not isinstance(value, dict):
        bad_arguments("dict")
    take(len(value))
    return dict(value)


def call_range(_, *bounds):
    numbers_only("range", *bounds)
    if len(bounds) == 3 and bounds[2] == 0:
        fail("ValueError", "step is zero")
    return range(*map(int, bounds))


CALLS = {
    "abs": ((1, 1), lambda _, value: numbers_only("abs", value) or bounded(abs(value))),
    "all": ((1, 1), call_all),
    "any": ((1, 1), lambda depth, value: call_all(depth, value, False)),
    "bool": ((0, 1), lambda _, value=False: bool(value)),
    "chr": ((1, 1), call_chr),
    "dict": ((0, 1), call_dict),
    "divmod": ((2, 2), call_divmod),
    "int": ((0, 1), call_int),
    "isinstance": ((2, 2), call_isinstance),
    "len": ((1, 1), call_len),
    "list": ((0, 1), call_list),
    "max": ((1, 10**9), lambda *parts: call_best("max", *parts)),
    "min": ((1, 10**9), lambda *parts: call_best("min", *parts)),
    "ord": ((1, 1), call_ord),
    "range": ((1, 3), call_range),
    "repr": ((1, 1), lambda depth, value: repr_of(value, depth)),
    "sorted": ((1, 1), lambda _, value: sorted_items(value, "sorted")),
    "str": ((0, 1), lambda depth, value="": str_of(value, depth)),
    "sum": ((1, 1), call_sum),
    "tuple": ((0, 1), lambda depth, *values: call_list(depth, *values, made=Tup)),
}
