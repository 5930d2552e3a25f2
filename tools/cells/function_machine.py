"""Runs cells with functions and exceptions, beside all that node_machine.py runs, and counts the steps."""
import ast

from cell_machine import LISTED, Raised, Spent
from node_machine import Class, Nodes, Thing, bad_arguments, is_kind, type_error

ABOVE = {
    "OverflowError": "ArithmeticError", "ZeroDivisionError": "ArithmeticError", "IndexError": "LookupError", "KeyError": "LookupError",
    "UnboundLocalError": "NameError", "NotImplementedError": "RuntimeError", "RecursionError": "RuntimeError",
}
CLASSES = {name: Class(name) for name in LISTED[LISTED.index("Exception") :]}
NO_EXCEPTION = "exceptions must be exception classes or objects"


class Returned(Exception):
    """A function is left with a value."""

    def __init__(self, value):
        super().__init__(value)
        self.value = value


class Body:
    """What a function is: its name, its statement, its code and its defaults."""

    def __init__(self, statement, code, defaults):
        self.name, self.statement, self.code, self.defaults = statement.name, statement, code, defaults


def own_names(statement):
    """The names that are local to a function's body."""
    own, declared = [a.arg for a in statement.args.args], []
    for node in ast.walk(statement):
        if isinstance(node, ast.Name) and not isinstance(node.ctx, ast.Load):
            own.append(node.id)
        elif isinstance(node, ast.ExceptHandler) and node.name:
            own.append(node.name)
        elif isinstance(node, ast.alias):
            own.append(node.asname or node.name)
        elif isinstance(node, ast.Global):
            declared += node.names
    return [name for name in own if name not in declared]


class Functions(Nodes):
    """A machine with functions and exceptions."""

    def __init__(self, names, budget, source):
        super().__init__(names, budget)
        self.source, self.own, self.locals, self.handled = source, (), {}, []

    # ---- names

    def unbound(self, name):
        return Raised("UnboundLocalError", "local name '%s' has no value" % name)

    def read(self, name):
        if name in self.own:
            if name not in self.locals:
                raise self.unbound(name)
            return self.locals[name]
        if name in CLASSES and name not in self.names:
            self.accessed.append(name)
            return CLASSES[name]
        return super().read(name)

    def assign(self, name, value):
        if name in self.own:
            self.locals[name] = value
        else:
            super().assign(name, value)

    def delete(self, name):
        if name not in self.own:
            return super().delete(name)
        if name not in self.locals:
            raise self.unbound(name)
        del self.locals[name]

    def forget(self, name):
        if name in self.own:
            self.locals.pop(name, None)
        else:
            self.accessed.append(name)
            self.names.pop(name, None)

    # ---- calls

    def call(self, callee, plain, named):
        if is_kind(callee, "function"):
            return self.enter(callee.inside, plain, named)
        if callee in CLASSES.values():
            if named:
                raise bad_arguments(callee.name)
            return self.make(callee.name, plain)
        return super().call(callee, plain, named)

    def values_for(self, body, plain, named):
        titles = [a.arg for a in body.statement.args.args]
        if len(plain) > len(titles) or any(name not in titles[len(plain) :] for name in named):
            raise bad_arguments(body.name)
        values = dict(zip(titles[len(titles) - len(body.defaults) :], body.defaults))
        values.update(zip(titles, plain), **named)
        if len(values) < len(titles):
            raise bad_arguments(body.name)
        return values

    def enter(self, body, plain, named):
        before = self.own, self.locals
        self.own, self.locals = own_names(body.statement), self.values_for(body, plain, named)
        try:
            self.block(body.statement.body)
        except Returned as returned:
            return returned.value
        finally:
            self.own, self.locals = before
        return None

    def define(self, s):
        defaults = [self.value(d) for d in s.args.defaults]
        self.assign(s.name, self.make("function", Body(s, ast.get_source_segment(self.source, s), defaults)))

    # ---- exceptions

    def attribute(self, value, name):
        if isinstance(value, Thing) and value.kind in CLASSES and name == "args":
            return self.make("tuple", list(value.inside))
        return super().attribute(value, name)

    def exception_text(self, kind, given):
        if len(given) < 2:
            return super().exception_text(kind, given)
        return self.shown(Thing(None, "tuple", given))

    def text(self, value):
        if isinstance(value, Thing) and value.kind in CLASSES:
            return self.exception_text(value.kind, value.inside)
        return super().text(value)

    def object_of(self, raised):
        return raised.thing or self.make(raised.kind, raised.given)

    def raised_by(self, value):
        if value in CLASSES.values():
            value = self.make(value.name, [])
        if not (isinstance(value, Thing) and value.kind in CLASSES):
            return type_error(NO_EXCEPTION)
        return Raised(value.kind, *value.inside, thing=value)

    def is_caught(self, raised, value):
        classes = value.inside if is_kind(value, "tuple") else [value]
        if not all(c in CLASSES.values() for c in classes):
            raise type_error(NO_EXCEPTION)
        lines = [raised.kind, ABOVE.get(raised.kind), ABOVE.get(ABOVE.get(raised.kind)), "Exception"]
        return any(c.name in lines for c in classes)

    def attempt(self, s):
        try:
            self.block(s.body)
        except Raised as raised:
            handler = next((h for h in s.handlers if h.type is None or self.is_caught(raised, self.value(h.type))), None)
            if handler is None:
                raise
            return self.handle(handler, self.object_of(raised))
        self.block(s.orelse)

    def handle(self, handler, thing):
        if handler.name:
            self.assign(handler.name, thing)
        try:
            self.handled.append(thing)
            try:
                self.block(handler.body)
            finally:
                self.handled.pop()
        except Exception as way:
            if handler.name and not isinstance(way, Spent):
                self.forget(handler.name)
            raise
        if handler.name:
            self.forget(handler.name)

    def tried(self, s):
        try:
            self.attempt(s)
        except Exception as way:
            if not isinstance(way, Spent):
                self.block(s.finalbody)
            raise
        self.block(s.finalbody)

    # ---- statements

    def run(self, s):
        form = type(s).__name__
        if form not in ("FunctionDef", "Return", "Global", "Raise", "Assert", "Try"):
            return super().run(s)
        self.step()
        if form == "FunctionDef":
            self.define(s)
        elif form == "Return":
            raise Returned(None if s.value is None else self.value(s.value))
        elif form == "Raise":
            raise self.raised_by(self.handled[-1] if s.exc is None else self.value(s.exc))
        elif form == "Assert":
            if not self.truth(self.value(s.test)):
                raise Raised("AssertionError", *([] if s.msg is None else [self.value(s.msg)]))
        elif form == "Try":
            self.tried(s)
