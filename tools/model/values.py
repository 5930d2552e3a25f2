"""The values of cells for play.py: kinds, identity, comparisons, texts, keys, walks, and the run's steps
and depth, from docs/LANGUAGE.md alone.

Lists, dicts, numbers, texts and ranges are CPython's own. A tuple is a `Tup`, so that each one is a thing of its own,
also the empty one; objects, functions, builtin functions, classes and exceptions are the classes below.
"""
import itertools

STEPS = 4_000_000
DEPTH = 1_000
LEAST, GREATEST = -(2**127), 2**127 - 1


class Stopped(BaseException):
    """The budget of steps is spent; no handler of a cell catches it."""


class Tup(tuple):
    """A tuple with an identity."""

    __slots__ = ()


class Thing:
    """An object of `SimpleNamespace`; `entries` are its attributes in order."""

    __slots__ = ("entries",)

    def __init__(self, entries):
        self.entries = entries


class Function:
    """A function of a cell: its name, its code, its parameters, its defaults and the Python function that it runs."""

    __slots__ = ("name", "code", "params", "defaults", "body")

    def __init__(self, name, code, params, defaults, body):
        self.name, self.code, self.params, self.defaults, self.body = name, code, params, defaults, body


class Builtin:
    """A builtin function."""

    def __init__(self, name):
        self.name = name


class Class:
    """A class of values or of exceptions; `native` is the Python class of the latter."""

    def __init__(self, name, native=None):
        self.name, self.native = name, native


class Raised(Exception):
    """The root of the language's exceptions; `items` are the arguments."""

    def __init__(self, items=()):
        super().__init__()
        self.items = list(items)

    @property
    def kind(self):
        return type(self).__name__


EXCEPTION_TREE = (
    "Exception ArithmeticError OverflowError ZeroDivisionError AssertionError AttributeError LookupError IndexError KeyError NameError "
    "UnboundLocalError RuntimeError NotImplementedError RecursionError SyntaxError TypeError ValueError"
).split()
PARENTS = {
    "OverflowError": "ArithmeticError", "ZeroDivisionError": "ArithmeticError", "IndexError": "LookupError", "KeyError": "LookupError",
    "UnboundLocalError": "NameError", "NotImplementedError": "RuntimeError", "RecursionError": "RuntimeError",
}
BUILTIN_NAMES = "abs all any chr divmod isinstance len max min ord print repr sorted sum".split()
VALUE_CLASSES = "bool dict int list range SimpleNamespace str tuple".split()

ERRORS = {"Exception": type("Exception", (Raised,), {})}
for _name in EXCEPTION_TREE[1:]:
    ERRORS[_name] = type(_name, (ERRORS[PARENTS.get(_name, "Exception")],), {})
BUILTINS = {name: Builtin(name) for name in BUILTIN_NAMES}
BUILTINS.update((name, Class(name)) for name in VALUE_CLASSES)
BUILTINS.update((name, Class(name, ERRORS[name])) for name in EXCEPTION_TREE)
BUILTIN_NUMBERS = {name: number for number, name in enumerate(BUILTIN_NAMES)}
CLASS_NUMBERS = {name: number for number, name in enumerate(VALUE_CLASSES + EXCEPTION_TREE)}


class Run:
    """What a cell's run has taken and given: steps, the depth of its calls, what it printed, and the session's names."""

    def __init__(self):
        self.names = {}
        self.accessed = set()  # the names of the session that were looked up, bound or unbound
        self.begin()

    def begin(self):
        self.steps, self.depth, self.printed, self.value, self.stopped = 0, 0, [], None, False


run = Run()


def stop():
    run.stopped = True
    raise Stopped


def take(count):
    """Further steps."""
    run.steps += count
    if run.steps > STEPS:
        stop()


def at(nest):
    """The step before a statement or an expression that stands `nest` deep in its text, where it isn't too deep."""
    if run.depth + nest > DEPTH:
        fail("RecursionError", "depth limit reached")
    run.steps += 1
    if run.steps > STEPS:
        stop()


def fail(kind, *items):
    raise ERRORS[kind](items)


def deeper(depth):
    if depth > DEPTH:
        fail("RecursionError", "depth limit reached")


def kind(value):
    if value is None:
        return "NoneType"
    if isinstance(value, Raised):
        return value.kind
    return {
        bool: "bool", int: "int", str: "str", range: "range", Builtin: "builtin", Class: "class", Tup: "tuple", list: "list", dict: "dict",
        Thing: "SimpleNamespace", Function: "function",
    }[type(value)]


def is_node(value):
    """Whether the value is one thing, which `is` knows from its like."""
    return isinstance(value, (list, Tup, dict, Thing, Function, Raised))


def is_number(value):
    return isinstance(value, int)


def bounded(number):
    if not LEAST <= number <= GREATEST:
        fail("OverflowError", "whole number too large")
    return number


def length(value):
    """The length of a sequence; of a range also where CPython's `len` has no number for it."""
    if isinstance(value, range):
        span = value.stop - value.start
        return max(0, -(-span // value.step))
    return len(value)


def is_sequence(value):
    return isinstance(value, (list, Tup, str, dict, range))


# Keys are None, bools, numbers, texts, and plain tuples of these.


def key_of(value):
    if isinstance(value, Tup):
        take(len(value))
        for item in value:
            if is_node(item) or isinstance(item, (range, Builtin, Class)):
                fail("TypeError", f"unhashable key: '{kind(item)}'")
        return tuple(value)
    if value is not None and not isinstance(value, (int, str)):
        fail("TypeError", f"unhashable key: '{kind(value)}'")
    return value


def of_key(key):
    """A key as a walk gives it."""
    if type(key) is tuple:
        take(len(key))
        return Tup(key)
    return key


def check_sequence(value):
    if not is_sequence(value):
        fail("TypeError", f"'{kind(value)}' object is not iterable")


def items_of(value):
    """All items of a sequence, as a list."""
    check_sequence(value)
    if isinstance(value, dict):
        return [of_key(key) for key in value]
    return list(value)


def walk(value, view=None):
    """What a `for` walks. A list goes by index; a dict by positions, and has to keep its size."""
    if view is None:
        check_sequence(value)
    if not isinstance(value, dict):
        yield from value
        return
    size = len(value)
    for position in itertools.count():
        if len(value) != size:
            fail("RuntimeError", "dictionary changed size during iteration")
        if position >= size:
            return
        key = next(itertools.islice(value, position, None))
        if view == "values":
            yield value[key]
        elif view == "items":
            yield Tup((of_key(key), value[key]))
        else:
            yield of_key(key)


# Comparisons. `depth` is that of the pair that is compared.


def identical(one, other):
    """`is`: the same thing, or the same kind and value."""
    if is_node(one) or is_node(other) or isinstance(one, (Builtin, Class)):
        return one is other
    if type(one) is not type(other):
        return False
    if isinstance(one, str):
        take(min(len(one), len(other)))
        return one == other
    if isinstance(one, range):
        return (one.start, one.stop, one.step) == (other.start, other.stop, other.step)
    return one == other


def equal_pair(one, other, depth):
    """Whether a pair inside two values is equal: by `is`, and else by `==`."""
    take(1)
    if is_node(one) and is_node(other):
        if one is other:
            return True
        return equal(one, other, depth + 1)
    if isinstance(one, str) and isinstance(other, str):
        return identical(one, other)
    return identical(one, other) or equal(one, other, depth)


def equal(one, other, depth):
    if is_number(one) and is_number(other):
        return one == other
    if isinstance(one, str) and isinstance(other, str):
        take(min(len(one), len(other)))
        return one == other
    if isinstance(one, range) and isinstance(other, range):
        return one == other
    if isinstance(one, (list, Tup)) and type(one) is type(other):
        deeper(depth)
        return len(one) == len(other) and all(equal_pair(a, b, depth) for a, b in zip(list(one), list(other)))
    if isinstance(one, dict) and isinstance(other, dict):
        deeper(depth)
        return len(one) == len(other) and all(key in other and equal_pair(item, other[key], depth) for key, item in one.items())
    if isinstance(one, Thing) and isinstance(other, Thing):
        deeper(depth)
        first, second = one.entries, other.entries
        return len(first) == len(second) and all(name in second and equal_pair(item, second[name], depth) for name, item in first.items())
    return one is other


def less(one, other, depth, told, turned=False):
    """`one < other`, with the pairs asked turned round or not; `told` raises the TypeError of the operator and its operands."""
    if is_number(one) and is_number(other):
        return one < other
    if isinstance(one, str) and isinstance(other, str):
        take(min(len(one), len(other)))
        return one < other
    if isinstance(one, (list, Tup)) and type(one) is type(other):
        deeper(depth)
        for a, b in zip(one, other):
            if not (equal_pair(b, a, depth) if turned else equal_pair(a, b, depth)):
                return less(a, b, depth + 1 if is_node(a) and is_node(b) else depth, told, turned)
        return len(one) < len(other)
    return told()


def compare(nest, op, one, other):
    """A comparison that stands `nest` deep, when its operands are evaluated."""
    take(1)
    depth = run.depth + nest
    if op in ("is", "is not"):
        return identical(one, other) == (op == "is")
    if op in ("==", "!="):
        return equal(one, other, depth) == (op == "==")
    if op in ("in", "not in"):
        return contains(one, other, depth, op) == (op == "in")

    def told():
        fail("TypeError", f"bad operand types for {op}: '{kind(one)}' and '{kind(other)}'")

    if op == "<":
        return less(one, other, depth, told)
    if op == ">":
        return less(other, one, depth, told, True)
    if op == "<=":
        return not less(other, one, depth, told, True)
    return not less(one, other, depth, told)


def found(item, values, depth):
    """The place of the first item that is equal, or -1; one step for each that is visited. Each comparison is one of its
    own, in which the item isn't inside the list."""
    for place, value in enumerate(values):
        if equal_pair(value, item, depth - 1):
            return place
    return -1


def contains(item, holder, depth, op):
    if isinstance(holder, str):
        if not isinstance(item, str):
            fail("TypeError", f"bad operand types for {op}: '{kind(item)}' and 'str'")
        take(len(holder) * max(1, len(item)))
        return item in holder
    if isinstance(holder, (list, Tup)):
        return found(item, list(holder), depth) >= 0
    if isinstance(holder, dict):
        return key_of(item) in holder
    if isinstance(holder, range):
        return is_number(item) and item in holder
    return check_sequence(holder)


# Texts of values.


def quoted(text):
    quote = '"' if "'" in text and '"' not in text else "'"
    pieces = []
    for char in text:
        if char in ("\\", quote):
            pieces.append("\\" + char)
        elif char in "\n\r\t":
            pieces.append({"\n": "\\n", "\r": "\\r", "\t": "\\t"}[char])
        elif char < " " or char == "\x7f":
            pieces.append(f"\\x{ord(char):02x}")
        else:
            pieces.append(char)
    return quote + "".join(pieces) + quote


class Text:
    """A text that is being made; each piece takes its code points as steps."""

    def __init__(self):
        self.pieces, self.shown = [], set()

    def put(self, piece):
        take(len(piece))
        self.pieces.append(piece)

    def show(self, value, depth):
        if not is_node(value):
            return self.put(plain_text(value))
        if isinstance(value, Function):
            return self.put(f"<function {value.name}>")
        deeper(depth)
        begin, end, members = parts_of(value)
        if id(value) in self.shown:
            return self.put(f"{begin}...{end[-1]}")
        self.shown.add(id(value))
        self.put(begin)
        for number, (lead, item) in enumerate(members):
            self.put((", " if number else "") + lead)
            self.show(item, depth + 1 if is_node(item) and not isinstance(item, Function) else depth)
        self.put(end)
        self.shown.discard(id(value))


def parts_of(value):
    """How the text of a node begins and ends, and its members with what stands before each."""
    if isinstance(value, list):
        return "[", "]", [("", item) for item in value]
    if isinstance(value, Tup):
        return "(", ",)" if len(value) == 1 else ")", [("", item) for item in value]
    if isinstance(value, dict):
        return "{", "}", [(plain_text(key) + ": ", item) for key, item in value.items()]
    if isinstance(value, Thing):
        return "namespace(", ")", [(f"{name}=", item) for name, item in value.entries.items()]
    return f"{value.kind}(", ")", [("", item) for item in value.items]


def plain_text(value):
    """The repr of a value that is no node; of a tuple as a key as well."""
    if isinstance(value, str):
        return quoted(value)
    if type(value) is tuple:
        return "(" + ", ".join(map(plain_text, value)) + (",)" if len(value) == 1 else ")")
    if isinstance(value, Builtin):
        return f"<built-in function {value.name}>"
    if isinstance(value, Class):
        return f"<class '{value.name}'>"
    if isinstance(value, range):
        last = f", {value.step}" if value.step != 1 else ""
        return f"range({value.start}, {value.stop}{last})"
    return repr(value)


def repr_of(value, depth):
    text = Text()
    text.show(value, depth)
    return "".join(text.pieces)


def str_of(value, depth):
    if isinstance(value, str):
        take(len(value))
        return value
    if not isinstance(value, Raised) or len(value.items) > 1:
        if isinstance(value, Raised):
            return repr_of(Tup(value.items), depth)
        return repr_of(value, depth)
    if not value.items:
        return ""
    take(1)
    inner = value.items[0]
    if is_node(inner) and not isinstance(inner, Function):
        deeper(depth + 1)
        depth += 1
    return repr_of(inner, depth) if value.kind == "KeyError" else str_of(inner, depth)
