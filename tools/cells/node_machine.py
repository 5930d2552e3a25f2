"""Runs cells over nodes as cell_machine.py runs those of plain values, and counts the steps.

A list, a tuple, a dict and an object are things with a number each, in the order of making. The rules are written
here a second time, so that the definitions of `kishu_meaning` have something to be compared with.
"""
import ast

from cell_machine import KINDS, OPERATORS, PRINT, Left, Machine, Raised, is_number, quoted

class Class:
    """A class, by its name."""

    def __init__(self, name):
        self.name = name


class Builtin:
    """A builtin function, by its name."""

    def __init__(self, name):
        self.name = name


CLASS = Class("SimpleNamespace")
VIEWS = ("keys", "values", "items")


class Thing:
    """A node: `inside` is a list, or a dict of a dict's entries or an object's attributes."""

    def __init__(self, number, kind, inside):
        self.number, self.kind, self.inside = number, kind, inside


def kind_name(value):
    if isinstance(value, Thing):
        return value.kind
    named = "builtin" if value is PRINT or isinstance(value, Builtin) else "class" if isinstance(value, Class) else "range" if isinstance(value, range) else None
    return named or KINDS[type(value)]


def kind(value):
    return "'%s'" % kind_name(value)


def is_kind(value, *kinds):
    return isinstance(value, Thing) and value.kind in kinds


def is_same(a, b):
    if isinstance(a, Thing) or isinstance(b, Thing):
        return a is b
    if isinstance(a, range) and isinstance(b, range):
        return (a.start, a.stop, a.step) == (b.start, b.stop, b.step)
    return a is b or type(a) is type(b) and a == b


def type_error(text):
    return Raised("TypeError", text)


def bad_arguments(name):
    return type_error("%s() got bad arguments" % name)


def no_attribute(value, name):
    return Raised("AttributeError", "%s object has no attribute '%s'" % (kind(value), name))


def show_key(key):
    if isinstance(key, tuple):
        return "(" + ", ".join(map(show_key, key)) + (",)" if len(key) == 1 else ")")
    return quoted(key) if isinstance(key, str) else str(key)


BRACKETS = {"list": ("[", "]"), "tuple": ("(", ")"), "dict": ("{", "}"), "SimpleNamespace": ("namespace(", ")")}


def representation(value, shown=()):
    if isinstance(value, Class):
        return "<class '%s'>" % value.name
    if value is PRINT or isinstance(value, Builtin):
        return "<built-in function %s>" % ("print" if value is PRINT else value.name)
    if not isinstance(value, Thing):
        return show_key(value)
    if value.kind == "function":
        return "<function %s>" % value.inside.name
    begin, end = BRACKETS.get(value.kind, (value.kind + "(", ")"))
    if value in shown:
        return begin + "..." + end
    inner = shown + (value,)
    if value.kind == "dict":
        parts = ["%s: %s" % (show_key(k), representation(v, inner)) for k, v in value.inside.items()]
    elif value.kind == "SimpleNamespace":
        parts = ["%s=%s" % (k, representation(v, inner)) for k, v in value.inside.items()]
    else:
        parts = [representation(v, inner) for v in value.inside]
    comma = "," if value.kind == "tuple" and len(parts) == 1 else ""
    return begin + ", ".join(parts) + comma + end


class Nodes(Machine):
    """A machine with nodes."""

    def __init__(self, names, budget):
        super().__init__(names, budget)
        self.things = []

    def make(self, kind_of, inside):
        self.things.append(Thing(len(self.things), kind_of, inside))
        return self.things[-1]

    def kind(self, value):
        return kind(value)

    def truth(self, value):
        if is_kind(value, "list", "tuple", "dict"):
            return len(value.inside) > 0
        return isinstance(value, Thing) or bool(value)

    # ---- names

    def read(self, name):
        if name == "SimpleNamespace" and name not in self.names:
            self.accessed.append(name)
            return CLASS
        return super().read(name)

    def delete(self, name):
        self.accessed.append(name)
        if name not in self.names:
            raise Raised("NameError", "name '%s' is not defined" % name)
        del self.names[name]

    # ---- keys and items

    def key_part(self, value):
        if isinstance(value, (Thing, Class, Builtin, range)) or value is PRINT:
            raise type_error("unhashable key: %s" % kind(value))
        return value

    def key(self, value):
        if is_kind(value, "tuple"):
            self.step(len(value.inside))
            return tuple([self.key_part(v) for v in value.inside])
        return self.key_part(value)

    def key_value(self, key):
        if isinstance(key, tuple):
            self.step(len(key))
            return self.make("tuple", list(key))
        return key

    def size(self, value):
        if isinstance(value, range):
            return -((value.start - value.stop) // value.step) if value else 0
        if isinstance(value, str) or is_kind(value, "list", "tuple", "dict"):
            return len(value.inside if isinstance(value, Thing) else value)
        raise type_error("%s object is not iterable" % kind(value))

    def items(self, value):
        self.size(value)
        if isinstance(value, (str, range)):
            return list(value)
        return [self.key_value(k) for k in value.inside] if value.kind == "dict" else list(value.inside)

    # ---- comparisons

    def texts(self, a, b):
        if isinstance(a, str) and isinstance(b, str):
            self.step(min(len(a), len(b)))

    def pair(self, a, b):
        self.step()
        if is_same(a, b):
            self.texts(a, b)
            return True
        return self.equal(a, b)

    def equal(self, a, b):
        if not (isinstance(a, Thing) and isinstance(b, Thing)):
            self.texts(a, b)
            alike = is_number(a) and is_number(b) or isinstance(a, range) and isinstance(b, range)
            return is_same(a, b) or alike and a == b
        if a.kind not in BRACKETS:
            return a is b
        if a.kind != b.kind or len(a.inside) != len(b.inside):
            return False
        if isinstance(a.inside, dict):
            return all(k in b.inside and self.pair(v, b.inside[k]) for k, v in a.inside.items())
        return all(self.pair(v, w) for v, w in zip(a.inside, b.inside))

    def less(self, a, b, turned=False):
        """None where the two have no order. Pairs of items are asked turned round or not."""
        if not (isinstance(a, Thing) and isinstance(b, Thing)):
            self.texts(a, b)
            ordered = is_number(a) and is_number(b) or isinstance(a, str) and isinstance(b, str)
            return a < b if ordered else None
        if a.kind != b.kind or a.kind not in ("list", "tuple"):
            return None
        for v, w in zip(a.inside, b.inside):
            if not (self.pair(w, v) if turned else self.pair(v, w)):
                return self.less(v, w, turned)
        return len(a.inside) < len(b.inside)

    def ordered(self, sign, a, b):
        found = self.less(b, a, True) if sign in (">", "<=") else self.less(a, b)
        if found is None:
            raise type_error("bad operand types for %s: %s and %s" % (sign, kind(a), kind(b)))
        return found == (sign in ("<", ">"))

    def compare(self, sign, a, b):
        if sign in ("in", "not in"):
            return self.contains(sign, a, b) == (sign == "in")
        if sign in ("is", "is not"):
            self.texts(a, b)
            return is_same(a, b) == (sign == "is")
        if sign in ("==", "!="):
            return self.equal(a, b) == (sign == "==")
        return self.ordered(sign, a, b)

    def contains(self, sign, a, b):
        if is_kind(b, "list", "tuple"):
            return any(self.pair(item, a) for item in b.inside)
        if is_kind(b, "dict"):
            return self.key(a) in b.inside
        if isinstance(b, range):
            return is_number(a) and a in b
        if not isinstance(b, str):
            raise type_error("%s object is not iterable" % kind(b))
        if not isinstance(a, str):
            raise type_error("bad operand types for %s: %s and %s" % (sign, kind(a), kind(b)))
        return super().contains(sign, a, b)

    # ---- operators

    def operate(self, sign, a, b):
        if sign == "*" and is_number(a) and is_kind(b, "list", "tuple"):
            a, b = b, a
        if sign == "*" and is_kind(a, "list", "tuple") and is_number(b):
            self.step(len(a.inside) * max(b, 0))
            return self.make(a.kind, a.inside * b)
        if sign == "+" and is_kind(a, "list", "tuple") and is_kind(b, a.kind):
            self.step(len(a.inside) + len(b.inside))
            return self.make(a.kind, a.inside + b.inside)
        if not isinstance(a, (Thing, Class, Builtin, range)) and not isinstance(b, (Thing, Class, Builtin, range)):
            return super().operate(sign, a, b)
        raise type_error("bad operand types for %s: %s and %s" % (sign, kind(a), kind(b)))

    def update_with(self, sign, a, b):
        if sign != "+" or not is_kind(a, "list"):
            return self.operate(sign, a, b)
        self.step(self.size(b))
        a.inside.extend(self.items(b))
        return a

    # ---- items, slices and attributes

    def index(self, value):
        if is_number(value):
            return int(value)
        raise type_error("bad index type: %s" % kind(value))

    def place(self, inside, value):
        at = self.index(value)
        if not -len(inside) <= at < len(inside):
            raise Raised("IndexError", "index out of range")
        return at % len(inside)

    def not_subscriptable(self, value):
        return type_error("%s object is not subscriptable" % kind(value))

    def item(self, value, at):
        if isinstance(value, (str, range)):
            return value[self.place(value, at)]
        if is_kind(value, "list", "tuple"):
            return value.inside[self.place(value.inside, at)]
        if is_kind(value, "dict"):
            return value.inside[self.found(value, at)]
        raise self.not_subscriptable(value)

    def found(self, value, at):
        key = self.key(at)
        if key not in value.inside:
            raise Raised("KeyError", at)
        return key

    def bound(self, value):
        return None if value is None else self.index(value)

    def cut(self, value, start, stop, step):
        if not (isinstance(value, str) or is_kind(value, "list", "tuple")):
            raise self.not_subscriptable(value)
        start, stop, step = self.bound(start), self.bound(stop), self.bound(step)
        if step == 0:
            raise Raised("ValueError", "step is zero")
        inside = value if isinstance(value, str) else value.inside
        made = inside[start:stop:step]
        self.step(len(made))
        return made if isinstance(value, str) else self.make(value.kind, made)

    def attribute(self, value, name):
        if is_kind(value, "SimpleNamespace") and name in value.inside:
            return value.inside[name]
        raise no_attribute(value, name)

    # ---- calls

    def method(self, value, name, given):
        if is_kind(value, "list") and name == "append" and len(given) == 1:
            value.inside.append(given[0])
        elif is_kind(value, "list") and name == "pop" and not given:
            if not value.inside:
                raise Raised("IndexError", "pop from empty list")
            return value.inside.pop()
        elif name == "clear" and not given:
            value.inside.clear()
        elif is_kind(value, "dict") and name == "get" and len(given) in (1, 2):
            return value.inside.get(self.key(given[0]), given[1] if len(given) == 2 else None)
        elif is_kind(value, "dict") and name == "update" and len(given) == 1 and is_kind(given[0], "dict"):
            self.step(len(given[0].inside))
            value.inside.update(given[0].inside)
        else:
            raise bad_arguments(name)
        return None

    def has_method(self, value, name):
        return name in {"list": ("append", "pop", "clear"), "dict": ("get", "update", "clear")}.get(kind_name(value), ())

    def given(self, e):
        plain = [self.value(a) for a in e.args]
        return plain, {k.arg: self.value(k.value) for k in e.keywords}

    def Call(self, e):
        if not isinstance(e.func, ast.Attribute):
            return self.call(self.value(e.func), *self.given(e))
        self.step()
        value, name = self.value(e.func.value), e.func.attr
        if is_kind(value, "SimpleNamespace"):
            return self.call(self.attribute(value, name), *self.given(e))
        if not self.has_method(value, name):
            raise no_attribute(value, name)
        plain, named = self.given(e)
        if named:
            raise bad_arguments(name)
        return self.method(value, name, plain)

    def call(self, callee, plain, named):
        if callee is CLASS:
            if plain:
                raise bad_arguments("SimpleNamespace")
            return self.make("SimpleNamespace", named)
        if callee is not PRINT:
            raise type_error("%s object is not callable" % kind(callee))
        if not all(k in ("sep", "end") and isinstance(v, str) for k, v in named.items()):
            raise bad_arguments("print")
        return self.print_by(plain, named.get("sep", " "), named.get("end", "\n"))

    def print_by(self, values, separator, end):
        made = separator.join([self.text(v) for v in values])
        self.step(max(len(values) - 1, 0) * len(separator) + len(end))
        self.out += made + end

    def representation(self, value):
        return representation(value)

    # ---- expressions

    def List(self, e):
        return self.make("list", [self.value(part) for part in e.elts])

    def Tuple(self, e):
        return self.make("tuple", [self.value(part) for part in e.elts])

    def Dict(self, e):
        pairs = [(self.value(k), self.value(v)) for k, v in zip(e.keys, e.values)]
        entries = {}
        for k, v in pairs:
            entries[self.key(k)] = v
        return self.make("dict", entries)

    def Subscript(self, e):
        value = self.value(e.value)
        if not isinstance(e.slice, ast.Slice):
            return self.item(value, self.value(e.slice))
        return self.cut(value, *[None if b is None else self.value(b) for b in (e.slice.lower, e.slice.upper, e.slice.step)])

    def Attribute(self, e):
        return self.attribute(self.value(e.value), e.attr)

    # ---- places

    def placed(self, e):
        if isinstance(e, ast.Name):
            return (e.id,)
        value = self.value(e.value)
        return (value, e.attr, None) if isinstance(e, ast.Attribute) else (value, self.value(e.slice))

    def read_place(self, place):
        if len(place) == 1:
            return self.read(place[0])
        return self.item(*place) if len(place) == 2 else self.attribute(*place[:2])

    def store_in(self, place, value):
        if len(place) == 1:
            self.assign(place[0], value)
        elif len(place) == 3:
            if not is_kind(place[0], "SimpleNamespace"):
                raise no_attribute(*place[:2])
            place[0].inside[place[1]] = value
        else:
            self.store_item(*place, value)

    def store_item(self, container, at, value):
        if is_kind(container, "list"):
            container.inside[self.place(container.inside, at)] = value
        elif is_kind(container, "dict"):
            container.inside[self.key(at)] = value
        else:
            raise self.not_subscriptable(container)

    def delete_place(self, place):
        if len(place) == 1:
            return self.delete(place[0])
        container, at = place[:2]
        if len(place) == 3:
            self.attribute(container, at)
            del container.inside[at]
        elif is_kind(container, "list"):
            del container.inside[self.place(container.inside, at)]
        elif is_kind(container, "dict"):
            del container.inside[self.found(container, at)]
        else:
            raise self.not_subscriptable(container)

    def target(self, e, value):
        if not isinstance(e, (ast.Tuple, ast.List)):
            return self.store_in(self.placed(e), value)
        self.step(self.size(value))
        if self.size(value) != len(e.elts):
            raise Raised("ValueError", "cannot unpack into %d" % len(e.elts))
        for part, item in zip(e.elts, self.items(value)):
            self.target(part, item)

    # ---- statements

    def store(self, targets, value):
        for target in targets:
            self.target(target, value)

    def update(self, s):
        place = self.placed(s.target)
        self.step()
        before = self.read_place(place)
        operand = self.value(s.value)
        self.step()
        self.store_in(place, self.update_with(OPERATORS[type(s.op)], before, operand))

    def run(self, s):
        form = type(s).__name__
        if form not in ("Delete", "ImportFrom", "For"):
            return super().run(s)
        self.step()
        if form == "For":
            return self.walk(s)
        if form == "ImportFrom":
            return self.assign(s.names[0].asname or s.names[0].name, CLASS)
        for target in s.targets:
            self.delete_place(self.placed(target))

    def walked(self, e):
        """What is walked, and what is taken of a dict's entries."""
        call = isinstance(e, ast.Call) and isinstance(e.func, ast.Attribute) and e.func.attr in VIEWS and not e.args and not e.keywords
        if not call:
            return self.value(e), "keys"
        self.step(2)
        value = self.value(e.func.value)
        if is_kind(value, "dict"):
            return value, e.func.attr
        if is_kind(value, "SimpleNamespace"):
            return self.call(self.attribute(value, e.func.attr), [], {}), "keys"
        raise no_attribute(value, e.func.attr)

    def seen(self, view, key, value):
        if view == "values":
            return value
        found = self.key_value(key)
        return found if view == "keys" else self.make("tuple", [found, value])

    def turns(self, value, view):
        """The item of each turn."""
        size, at = self.size(value), 0
        while True:
            inside = value.inside if isinstance(value, Thing) else value
            if is_kind(value, "dict") and len(inside) != size:
                raise Raised("RuntimeError", "dictionary changed size during iteration")
            if at >= self.size(value):
                return
            yield self.seen(view, *list(inside.items())[at]) if isinstance(inside, dict) else inside[at]
            at += 1

    def walk(self, s):
        for item in self.turns(*self.walked(s.iter)):
            self.step()
            self.target(s.target, item)
            try:
                self.block(s.body)
            except Left as left:
                if not left.again:
                    return
