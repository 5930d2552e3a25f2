"""Runs cells of the plain forms over CPython's trees, and counts the steps; node_machine.py adds the forms over nodes.

The rules are written here a second time, so that the definitions of `kishu_meaning` have something
to be compared with. No cell here nests deeply, so the depth isn't counted.
"""
import ast
import re

BUDGET = 4_000_000
LEAST, GREATEST = -(2**127), 2**127 - 1
LISTED = (
    "abs all any chr divmod isinstance len max min ord print repr sorted sum bool dict int list range SimpleNamespace str tuple Exception "
    "ArithmeticError OverflowError ZeroDivisionError AssertionError AttributeError LookupError IndexError KeyError NameError UnboundLocalError "
    "RuntimeError NotImplementedError RecursionError SyntaxError TypeError ValueError"
).split()

KINDS = {type(None): "NoneType", bool: "bool", int: "int", str: "str"}
OPERATORS = {ast.Add: "+", ast.Sub: "-", ast.Mult: "*", ast.FloorDiv: "//", ast.Mod: "%", ast.Pow: "**"}
SIGNS = {ast.Lt: "<", ast.LtE: "<=", ast.Gt: ">", ast.GtE: ">=", ast.Eq: "==", ast.NotEq: "!=", ast.In: "in", ast.NotIn: "not in", ast.Is: "is", ast.IsNot: "is not"}
PRINT = object()


class Raised(Exception):
    """An exception of the language: its class and its arguments, and its object where it has one."""

    def __init__(self, kind, *given, thing=None):
        super().__init__(kind, *given)
        self.kind, self.given, self.thing = kind, list(given), thing


class Spent(Exception):
    """No step is left."""


class Left(Exception):
    """A loop is left, or its next turn begins."""

    def __init__(self, again):
        super().__init__(again)
        self.again = again


class NotRead(Exception):
    """No form of these cells."""


def is_number(value):
    return isinstance(value, int)


def quoted(text):
    quote = '"' if "'" in text and '"' not in text else "'"
    letters = {"\\": "\\\\", quote: "\\" + quote, "\n": "\\n", "\r": "\\r", "\t": "\\t"}
    return quote + "".join(letters.get(c, "\\x%02x" % ord(c) if c < " " or c == "\x7f" else c) for c in text) + quote


def representation(value):
    return quoted(value) if isinstance(value, str) else str(value)


def whole(z):
    if LEAST <= z <= GREATEST:
        return z
    raise Raised("OverflowError", "whole number too large")


def divided(make, a, b):
    if b == 0:
        raise Raised("ZeroDivisionError", "division by zero")
    return whole(make(a, b))


def to_power(a, b):
    if b < 0:
        raise Raised("ValueError", "negative power")
    if a not in (-1, 0, 1) and b > 127:
        return whole(GREATEST + 1)
    return whole(a ** (b if abs(a) > 1 else min(b, b % 2 + 2)))


ARITHMETIC = {
    "+": lambda a, b: whole(a + b), "-": lambda a, b: whole(a - b), "*": lambda a, b: whole(a * b), "**": to_power,
    "//": lambda a, b: divided(lambda x, y: x // y, a, b), "%": lambda a, b: divided(lambda x, y: x % y, a, b),
}
ORDER = {"<": lambda a, b: a < b, "<=": lambda a, b: a <= b, ">": lambda a, b: a > b, ">=": lambda a, b: a >= b}


class Machine:
    """Runs statements and expressions, and counts the steps."""

    def __init__(self, names, budget):
        self.names, self.left, self.accessed, self.out = dict(names), budget, [], ""

    def step(self, n=1):
        if n > self.left:
            self.left = 0
            raise Spent
        self.left -= n

    def kind(self, value):
        return "'%s'" % KINDS[type(value)]

    def truth(self, value):
        return bool(value)

    # ---- names

    def read(self, name):
        self.accessed.append(name)
        if name in self.names:
            return self.names[name]
        if name == "print":
            return PRINT
        if name in LISTED:
            raise NotRead(name)
        raise Raised("NameError", "name '%s' is not defined" % name)

    def assign(self, name, value):
        self.accessed.append(name)
        self.names[name] = value

    # ---- operators

    def operate(self, sign, a, b):
        if is_number(a) and is_number(b):
            return ARITHMETIC[sign](int(a), int(b))
        if sign == "+" and isinstance(a, str) and isinstance(b, str):
            self.step(len(a) + len(b))
            return a + b
        if sign == "*" and is_number(a) and isinstance(b, str):
            a, b = b, a
        elif not (sign == "*" and isinstance(a, str) and is_number(b)):
            raise Raised("TypeError", "bad operand types for %s: %s and %s" % (sign, self.kind(a), self.kind(b)))
        self.step(len(a) * max(b, 0))
        return a * b if a else ""

    def compare(self, sign, a, b):
        if sign in ("in", "not in"):
            return self.contains(sign, a, b) == (sign == "in")
        both = isinstance(a, str) and isinstance(b, str)
        if both:
            self.step(min(len(a), len(b)))
        if sign in ("is", "is not"):
            return (type(a) is type(b) and a == b) == (sign == "is")
        if sign in ("==", "!="):
            return (a == b) == (sign == "==")
        if both or is_number(a) and is_number(b):
            return ORDER[sign](a, b)
        raise Raised("TypeError", "bad operand types for %s: %s and %s" % (sign, self.kind(a), self.kind(b)))

    def contains(self, sign, a, b):
        if not isinstance(b, str):
            raise Raised("TypeError", "%s object is not iterable" % self.kind(b))
        if not isinstance(a, str):
            raise Raised("TypeError", "bad operand types for %s: %s and %s" % (sign, self.kind(a), self.kind(b)))
        self.step(len(b) * max(len(a), 1))
        return a in b

    def representation(self, value):
        return representation(value)

    def text(self, value):
        made = value if isinstance(value, str) else self.representation(value)
        self.step(len(made))
        return made

    def shown(self, value):
        made = self.representation(value)
        self.step(len(made))
        return made

    def exception_text(self, kind, given):
        """The text of an exception with one argument, or without."""
        if not given:
            return ""
        self.step()
        return self.shown(given[0]) if kind == "KeyError" else self.text(given[0])

    def print(self, values):
        made = " ".join([self.text(v) for v in values])
        self.step(max(len(values) - 1, 0) + 1)
        self.out += made + "\n"

    # ---- expressions

    def value(self, e):
        form = type(e).__name__
        if form in ("UnaryOp", "BinOp", "Compare"):
            return getattr(self, form)(e)
        self.step()
        return getattr(self, form, self.unread)(e)

    def unread(self, e):
        raise NotRead(ast.dump(e))

    def Name(self, e):
        return self.read(e.id)

    def Constant(self, e):
        if type(e.value) not in KINDS:
            raise NotRead(e.value)
        return e.value

    def IfExp(self, e):
        return self.value(e.body) if self.truth(self.value(e.test)) else self.value(e.orelse)

    def BoolOp(self, e):
        for part in e.values[:-1]:
            found = self.value(part)
            if self.truth(found) == isinstance(e.op, ast.Or):
                return found
        return self.value(e.values[-1])

    def UnaryOp(self, e):
        found = self.value(e.operand)
        self.step()
        if isinstance(e.op, ast.Not):
            return not self.truth(found)
        sign = {ast.UAdd: "+", ast.USub: "-"}[type(e.op)]
        if not is_number(found):
            raise Raised("TypeError", "bad operand type for %s: %s" % (sign, self.kind(found)))
        return whole(int(found) if sign == "+" else -int(found))

    def BinOp(self, e):
        a, b = self.value(e.left), self.value(e.right)
        self.step()
        return self.operate(OPERATORS[type(e.op)], a, b)

    def Compare(self, e):
        a, found = self.value(e.left), True
        for sign, right in zip(e.ops, e.comparators):
            b = self.value(right)
            self.step()
            found = self.compare(SIGNS[type(sign)], a, b)
            if not found:
                break
            a = b
        return found

    def Call(self, e):
        if not (isinstance(e.func, ast.Name) and e.func.id == "print") or e.keywords:
            raise NotRead(ast.dump(e))
        self.value(e.func)
        self.print([self.value(a) for a in e.args])

    # ---- statements

    def block(self, body):
        for s in body:
            self.run(s)

    def run(self, s):
        self.step()
        form = type(s).__name__
        if form in ("Break", "Continue"):
            raise Left(form == "Continue")
        if form == "Expr":
            self.value(s.value)
        elif form == "Assign":
            self.store(s.targets, self.value(s.value))
        elif form == "AugAssign":
            self.update(s)
        elif form == "If":
            self.choose(s)
        elif form == "While" and not s.orelse:
            self.loop(s)
        elif form != "Pass":
            raise NotRead(form)

    def store(self, targets, value):
        for target in targets:
            if not isinstance(target, ast.Name) or target.id in LISTED:
                raise NotRead(ast.dump(target))
            self.assign(target.id, value)

    def update(self, s):
        self.step()
        before = self.read(s.target.id)
        operand = self.value(s.value)
        self.step()
        self.assign(s.target.id, self.operate(OPERATORS[type(s.op)], before, operand))

    def choose(self, s):
        while not self.truth(self.value(s.test)):
            if len(s.orelse) == 1 and isinstance(s.orelse[0], ast.If) and s.orelse[0].col_offset == s.col_offset:
                s = s.orelse[0]
            else:
                return self.block(s.orelse)
        return self.block(s.body)

    def loop(self, s):
        while self.truth(self.value(s.test)):
            self.step()
            try:
                self.block(s.body)
            except Left as left:
                if not left.again:
                    return

    def cell(self, body):
        for s in body[:-1]:
            self.run(s)
        if body and isinstance(body[-1], ast.Expr):
            self.step()
            found = self.value(body[-1].value)
            return [] if found is None else [("shown", self.shown(found))]
        self.block(body[-1:])
        return []


class Ran:
    """What a run gives."""

    def __init__(self, text, line=None, names=(), budget=BUDGET, machine=Machine):
        self.machine = machine(names, budget)
        if line is None:
            self.outcome, outputs = self.ended(ast.parse(re.sub("\r\n?", "\n", text)).body)
            self.charge = BUDGET - self.machine.left
        else:
            self.outcome, outputs = "error", [("fault", "SyntaxError", "invalid syntax, line %d" % line)]
            self.charge = 0
        self.outputs = ([("stream", self.machine.out)] if self.machine.out else []) + outputs
        self.names, self.accessed = self.machine.names, self.machine.accessed

    def ended(self, body):
        try:
            try:
                return "ok", self.machine.cell(body)
            except Raised as raised:
                return "error", [("fault", raised.kind, self.machine.exception_text(raised.kind, raised.given))]
        except Spent:
            return "stopped", [("fault", "Stopped", "step budget spent")]
