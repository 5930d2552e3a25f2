"""Cells made into Python code that CPython runs, for play.py, from docs/LANGUAGE.md alone.

CPython's `ast` reads a cell. What it does by itself, as loops, handlers, ways out and the order of evaluation, is left
to CPython; names, operators, access and calls go to the functions of calls.py and values.py, which take
the steps, look at the depth and raise the language's exceptions.
"""
import ast
import bisect
import re
import warnings

import calls
import methods
import values
from reading import Fault, Reading
from values import BUILTINS, Function, Raised, Stopped, repr_of, run, str_of

NEST = 60
BINARY = {ast.Add: "+", ast.Sub: "-", ast.Mult: "*", ast.FloorDiv: "//", ast.Mod: "%", ast.Pow: "**"}
UNARY = {ast.UAdd: "+", ast.USub: "-", ast.Not: "not"}
COMPARED = {
    ast.Lt: "<", ast.LtE: "<=", ast.Gt: ">", ast.GtE: ">=", ast.Eq: "==", ast.NotEq: "!=", ast.Is: "is", ast.IsNot: "is not",
    ast.In: "in", ast.NotIn: "not in",
}


class Unread(Exception):
    """A form that isn't there in the language."""


def demand(condition):
    if not condition:
        raise Unread


class Maker:
    """The Python code of the statements of one text; `globals_` are the names that stand in exec's namespace."""

    def __init__(self, reading):
        self.reading = reading
        lines = reading.text.split("\n")
        self.line_places = [0]
        for line in lines:
            self.line_places.append(self.line_places[-1] + len(line) + 1)
        self.lines = lines
        self.bracket_places = [place for place, _ in reading.brackets]
        self.count = 0
        self.outside = 0  # how deep the function that is made stands in the cell
        self.local = None  # the local names of the function that is made
        self.loops = 0
        self.caught = []

    def fresh(self):
        self.count += 1
        return f"_{self.count}"

    def place(self, line, column):
        """The place of a point in the text that CPython tells by line and bytes."""
        return self.line_places[line - 1] + len(self.lines[line - 1].encode()[:column].decode())

    def brackets(self, node):
        index = bisect.bisect_left(self.bracket_places, self.place(node.lineno, node.col_offset))
        return self.reading.brackets[index - 1][1] if index else 0

    # Expressions. `base` is how deep the point is nested without brackets.

    def expr(self, node, base):
        nest = base + self.brackets(node)
        self.limit(nest)
        make = getattr(self, "expr_" + type(node).__name__, None)
        demand(make)
        return make(node, base, nest)

    def limit(self, nest):
        """A point that is nested too deep; those of a function count from the beginning of the cell here."""
        demand(self.outside + nest <= NEST)

    def exprs(self, nodes, base, nest):
        """The items of a pair of brackets, which has a point in it also where it is empty."""
        self.limit(nest + 1)
        return "".join(self.expr(node, base) + ", " for node in nodes)

    def expr_Name(self, node, _, nest):
        if self.local is not None and node.id in self.local:
            return f"read_local({nest}, {node.id!r}, _l)"
        return f"read_name({nest}, {node.id!r})"

    def expr_Constant(self, node, _, nest):
        demand(node.value is None or type(node.value) in (bool, int, str))
        return f"constant({nest}, {node.value!r})"

    def expr_List(self, node, base, nest):
        return f"second(at({nest}), [{self.exprs(node.elts, base, nest)}])"

    def expr_Tuple(self, node, base, nest):
        inner = self.exprs(node.elts, base, nest - (bool(node.elts)))
        return f"make_tuple(at({nest}), {inner})"

    def expr_Dict(self, node, base, nest):
        demand(None not in node.keys)
        parts = [part for pair in zip(node.keys, node.values) for part in pair]
        return f"make_dict(at({nest}), {self.exprs(parts, base, nest)})"

    def expr_Attribute(self, node, base, nest):
        return f"get_attribute(at({nest}), {self.expr(node.value, base)}, {node.attr!r})"

    def expr_Subscript(self, node, base, nest):
        value = self.expr(node.value, base)
        if isinstance(node.slice, ast.Slice):
            bounds = (node.slice.lower, node.slice.upper, node.slice.step)
            made = ", ".join(self.expr(bound, base) if bound else "None" for bound in bounds)
            return f"get_slice(at({nest}), {value}, {made})"
        return f"get_item(at({nest}), {value}, {self.index(node.slice, base)})"

    def index(self, node, base):
        items = node.elts if isinstance(node, ast.Tuple) else [node]
        demand(not any(isinstance(item, ast.Slice) for item in items))
        return self.expr(node, base)

    def expr_BinOp(self, node, base, _):
        op = BINARY.get(type(node.op))
        demand(op)
        right = self.expr(node.right, base + (op == "**"))
        return f"operate({op!r}, {self.expr(node.left, base)}, {right})"

    def expr_UnaryOp(self, node, base, _):
        op = UNARY.get(type(node.op))
        demand(op)
        operand = self.expr(node.operand, base + 1)
        return f"negate({operand})" if op == "not" else f"sign({op!r}, {operand})"

    def expr_BoolOp(self, node, base, nest):
        word = " and " if isinstance(node.op, ast.And) else " or "
        return f"second(at({nest}), ({word.join(self.expr(value, base) for value in node.values)}))"

    def expr_IfExp(self, node, base, nest):
        body, test = self.expr(node.body, base), self.expr(node.test, base)
        return f"second(at({nest}), ({body} if {test} else {self.expr(node.orelse, base + 1)}))"

    def expr_Compare(self, node, base, nest):
        parts, left = [], self.expr(node.left, base)
        for op, right in zip(node.ops, node.comparators):
            kept = self.fresh()
            parts.append(f"compare({nest}, {COMPARED[type(op)]!r}, {left}, ({kept} := {self.expr(right, base)}))")
            left = kept
        return parts[0] if len(parts) == 1 else f"({' and '.join(parts)})"

    def expr_Call(self, node, base, nest):
        names = [keyword.arg for keyword in node.keywords]
        demand(None not in names and len(set(names)) == len(names) and not any(isinstance(item, ast.Starred) for item in node.args))
        last = max((self.place(item.lineno, item.col_offset) for item in node.args), default=-1)
        demand(all(last < self.place(word.lineno, word.col_offset) for word in node.keywords))
        if isinstance(node.func, ast.Attribute):
            value = self.expr(node.func.value, base)
            callee = f"find_method(at({nest}), {value}, {node.func.attr!r})"
        else:
            callee = self.expr(node.func, base)
        named = "".join(f"({word.arg!r}, {self.expr(word.value, base)}), " for word in node.keywords)
        return f"call({nest}, at({nest}), {callee}, ({self.exprs(node.args, base, nest)}), ({named}))"

    def bracketed(self, node):
        """Whether parentheses stand around an expression before which nothing else of it stands."""
        end = self.place(node.end_lineno, node.end_col_offset)
        return self.reading.text[end:].lstrip(" \t\\\n").startswith(")")

    def ended(self, node):
        """The last character of a statement."""
        return self.reading.text[self.place(node.end_lineno, node.end_col_offset) - 1]

    # Statements, as lists of lines.

    def block(self, nodes, nest):
        self.limit(nest)
        return ["    " + line for node in nodes for line in self.stmt(node, nest)]

    def stmt(self, node, nest):
        make = getattr(self, "stmt_" + type(node).__name__, None)
        demand(make)
        return [f"at({nest})"] + make(node, nest)

    def is_local(self, name):
        return self.local is not None and name in self.local

    def bind(self, name, value):
        """The line that binds a name."""
        return f"_l[{name!r}] = {value}" if self.is_local(name) else f"bind_name({name!r}, {value})"

    def store(self, target, value, nest):
        """The lines that store what stands in the Python name `value`."""
        if isinstance(target, ast.Name):
            return [self.bind(target.id, value)]
        if isinstance(target, ast.Attribute):
            return [f"set_attribute({self.expr(target.value, nest)}, {target.attr!r}, {value})"]
        if isinstance(target, ast.Subscript):
            return [f"set_item({self.expr(target.value, nest)}, {self.index(target.slice, nest)}, {value})"]
        demand(isinstance(target, (ast.Tuple, ast.List)) and target.elts)
        items = self.fresh()
        lines = [f"{items} = unpack({value}, {len(target.elts)})"]
        for number, item in enumerate(target.elts):
            part = self.fresh()
            lines += [f"{part} = {items}[{number}]"] + self.store(item, part, nest)
        return lines

    def stmt_Pass(self, node, nest):
        return []

    def stmt_Break(self, node, nest):
        demand(self.loops)
        return [type(node).__name__.lower()]

    stmt_Continue = stmt_Break

    def stmt_Expr(self, node, nest):
        return [f"_value = {self.expr(node.value, nest)}"]

    def stmt_Assign(self, node, nest):
        value = self.fresh()
        return [f"{value} = {self.expr(node.value, nest)}"] + [line for target in node.targets for line in self.store(target, value, nest)]

    def stmt_AugAssign(self, node, nest):
        op = BINARY.get(type(node.op))
        demand(op)
        target, old, holder, index = node.target, self.fresh(), self.fresh(), self.fresh()
        deep = nest + self.brackets(target)
        demand(not self.bracketed(target))
        if isinstance(target, ast.Name):
            made = self.bind(target.id, f"update({op!r}, {old}, {self.expr(node.value, nest)})")
            return [f"{old} = {self.expr(target, nest)}", made]
        if isinstance(target, ast.Attribute):
            before = [f"{holder} = {self.expr(target.value, nest)}"]
            read, after = f"get_attribute(at({deep}), {holder}, {target.attr!r})", f"set_attribute({holder}, {target.attr!r}, "
        else:
            demand(isinstance(target, ast.Subscript))
            before = [f"{holder} = {self.expr(target.value, nest)}", f"{index} = {self.index(target.slice, nest)}"]
            read, after = f"get_item(at({deep}), {holder}, {index})", f"set_item({holder}, {index}, "
        return before + [f"{old} = {read}", f"{after}update({op!r}, {old}, {self.expr(node.value, nest)}))"]

    def stmt_Delete(self, node, nest):
        lines = []
        demand(self.ended(node) != ",")
        for target in node.targets:
            demand(not self.brackets(target) and not self.bracketed(target))
            if isinstance(target, ast.Name):
                local = self.is_local(target.id)
                lines.append(f"delete_name({target.id!r}, {'_l' if local else 'run.names'}, {local})")
            elif isinstance(target, ast.Attribute):
                lines.append(f"delete_attribute({self.expr(target.value, nest)}, {target.attr!r})")
            else:
                demand(isinstance(target, ast.Subscript))
                lines.append(f"delete_item({self.expr(target.value, nest)}, {self.index(target.slice, nest)})")
        return lines

    def stmt_Global(self, node, nest):
        demand(self.local is not None)
        return []

    def stmt_ImportFrom(self, node, nest):
        demand(node.module == "types" and not node.level and [alias.name for alias in node.names] == ["SimpleNamespace"])
        demand(self.ended(node) != ")")
        name = node.names[0].asname or "SimpleNamespace"
        return [self.bind(name, "BUILTINS['SimpleNamespace']")]

    def stmt_Assert(self, node, nest):
        told = self.expr(node.msg, nest) if node.msg else ""
        return [f"if not {self.expr(node.test, nest)}: raise assertion({told})"]

    def stmt_Raise(self, node, nest):
        demand(not node.cause and (node.exc or self.caught))
        return [f"raise to_raise({self.expr(node.exc, nest)})" if node.exc else f"raise {self.caught[-1]}"]

    def stmt_Return(self, node, nest):
        demand(self.local is not None)
        return [f"return {self.expr(node.value, nest)}" if node.value else "return None"]

    def stmt_If(self, node, nest, word="if"):
        lines = [f"{word} {self.expr(node.test, nest)}:"] + self.block(node.body, nest + 1)
        if node.orelse:
            lines += ["else:"] + self.orelse(node, nest)
        return lines

    def orelse(self, node, nest):
        """What stands behind `else`; an `elif` isn't deeper than its `if`."""
        first = node.orelse[0]
        alone = len(node.orelse) == 1 and isinstance(first, ast.If)
        if alone and self.reading.text.startswith("elif", self.place(first.lineno, first.col_offset)):
            return ["    " + line for line in self.stmt_If(first, nest)]
        return self.block(node.orelse, nest + 1)

    def loop(self, node, nest):
        demand(not node.orelse)
        self.loops += 1
        lines = self.block(node.body, nest + 1)
        self.loops -= 1
        return lines

    def stmt_While(self, node, nest):
        return [f"while {self.expr(node.test, nest)}:", f"    at({nest})"] + self.loop(node, nest)

    def stmt_For(self, node, nest):
        walked, item = node.iter, self.fresh()
        view = isinstance(walked, ast.Call) and isinstance(walked.func, ast.Attribute) and walked.func.attr in ("keys", "values", "items")
        if view and not walked.args and not walked.keywords:
            deep = nest + self.brackets(walked)
            value = f"view_of({deep}, at({deep}), at({deep}), {self.expr(walked.func.value, nest)}, {walked.func.attr!r})"
        else:
            value = f"walk({self.expr(walked, nest)})"
        lines = [f"for {item} in {value}:", f"    at({nest})"]
        return lines + ["    " + line for line in self.store(node.target, item, nest)] + self.loop(node, nest)

    def stmt_Try(self, node, nest):
        lines = ["try:"] + self.block(node.body, nest + 1)
        if node.handlers:
            error = self.fresh()
            lines += [f"except Raised as _e{error}:", f"    {error} = _e{error}"]
            lines += ["    " + line for line in self.handlers(node, error, nest)]
        if node.orelse:
            lines += ["else:"] + self.block(node.orelse, nest + 1)
        if node.finalbody:
            lines += ["finally:", "    if not run.stopped:"] + ["    " + line for line in self.block(node.finalbody, nest + 1)]
        return lines

    def handlers(self, node, error, nest):
        lines = []
        for number, handler in enumerate(node.handlers):
            demand(handler.type or number == len(node.handlers) - 1)
            test = f"matches({error}, {self.expr(handler.type, nest)})" if handler.type else f"forget({error})"
            lines.append(("elif " if number else "if ") + test + ":")
            self.caught.append(error)
            body = self.block(handler.body, nest + 1)
            self.caught.pop()
            if handler.name:
                names = "_l" if self.is_local(handler.name) else "run.names"
                body = ["    " + self.bind(handler.name, error), "    try:"] + ["    " + line for line in body]
                body += ["    finally:", f"        unbind({handler.name!r}, {names})"]
            lines += body
        return lines + ["else:", f"    raise {error}"]

    def stmt_FunctionDef(self, node, nest):
        args = node.args
        demand(self.local is None and not node.decorator_list and not node.returns)
        demand(len({one.arg for one in args.args}) == len(args.args))
        demand(not (args.posonlyargs or args.kwonlyargs or args.vararg or args.kwarg or any(one.annotation for one in args.args)))
        params = [one.arg for one in args.args]
        defaults = self.exprs(args.defaults, nest, nest)
        kept = self.loops, self.caught
        self.local, self.loops, self.caught, self.outside = bound_names(node, params), 0, [], nest
        body, made = self.block(node.body, 1), self.fresh()
        self.local, (self.loops, self.caught), self.outside = None, kept, 0
        parts = f"{node.name!r}, {self.code(node)!r}, {params!r}, [{defaults}], {made}"
        return [f"def {made}(_l):"] + body + [self.bind(node.name, f"Function({parts})")]

    def code(self, node):
        """From `def` to the last token of the body that stands for something, a `;` too."""
        begin, end = self.place(node.lineno, node.col_offset), self.place(node.end_lineno, node.end_col_offset)
        rest = self.reading.text[end:]
        follows = len(rest) - len(rest.lstrip(" \t"))
        while rest.startswith("\\\n", follows):
            follows += 2
            follows += len(rest[follows:]) - len(rest[follows:].lstrip(" \t"))
        return self.reading.text[begin : end + follows + 1 if rest.startswith(";", follows) else end]


def bound_names(node, params):
    """The local names of a function."""
    bound, free, read = set(params), set(), set(params)
    for inner in ordered(node.body):
        if isinstance(inner, ast.Global):
            demand(not set(inner.names) & read)
            free |= set(inner.names)
        elif isinstance(inner, ast.Name):
            read.add(inner.id)
            if not isinstance(inner.ctx, ast.Load):
                bound.add(inner.id)
        elif isinstance(inner, ast.ExceptHandler) and inner.name:
            bound.add(inner.name)
            read.add(inner.name)
        elif isinstance(inner, ast.ImportFrom):
            for alias in inner.names:
                bound.add(alias.asname or alias.name)
                read.add(alias.asname or alias.name)
    return bound - free


def ordered(nodes):
    for node in nodes:
        yield from sorted(ast.walk(node), key=lambda one: (getattr(one, "lineno", 0), getattr(one, "col_offset", 0)))


def forget(error):
    error.__traceback__ = error.__context__ = None
    return True


def view_of(nest, _, __, value, name):
    """What `for .. in value.keys()` and its kin walk."""
    if isinstance(value, dict):
        return values.walk(value, name)
    found = calls.find_method(None, value, name)
    return values.walk(calls.call(nest, None, found, ()))


HELPERS = {name: value for module in (calls, methods, values) for name, value in vars(module).items() if not name.startswith("_")}
HELPERS.update(BUILTINS=BUILTINS, Function=Function, Raised=Raised, run=run, forget=forget, view_of=view_of)


def parse(text):
    with warnings.catch_warnings():
        warnings.simplefilter("ignore")
        try:
            return ast.parse(text)
        except (SyntaxError, ValueError, MemoryError, RecursionError) as error:
            raise Unread from error


def made(reading):
    tree = parse(reading.text)
    maker = Maker(reading)
    return tree, [line for node in tree.body for line in maker.stmt(node, 0)]


def read(text):
    """The Python code of a cell, and whether its last statement is an expression; a Fault tells the line otherwise."""
    reading = Reading(text)
    try:
        tree, lines = made(reading)
    except Unread:
        for line, piece in reading.pieces:
            try:
                made(Reading(piece))
            except (Unread, Fault):
                raise Fault(line) from None
        # CPython takes no backslash before the first token of a logical line.
        joined = re.sub(r"(?m)^([ \t]*)\\\n[ \t]*", r"\1", reading.text)
        assert joined != reading.text, "no piece is the one that can't be read"
        return read(joined)
    return "\n".join(lines), bool(tree.body) and isinstance(tree.body[-1], ast.Expr)


def run_cell(text):
    """Run a cell on `run.names`: its outcome, what it printed, its shown value or None, and its exception's texts."""
    run.begin()
    shown = error = None
    try:
        try:
            code, shows = read(text)
        except Fault as fault:
            values.fail("SyntaxError", f"invalid syntax, line {fault.line}")
        names = dict(HELPERS, _value=None)
        with warnings.catch_warnings():
            warnings.simplefilter("ignore")
            compiled = compile(code, "cell", "exec")
        exec(compiled, names)
        if shows and names["_value"] is not None:
            shown = repr_of(names["_value"], 0)
    except Stopped:
        error = "Stopped", "step budget spent"
    except Raised as raised:
        forget(raised)
        error = raised.kind, told(raised)
    outcome = "ok" if not error else "stopped" if run.stopped else "error"
    if run.stopped:
        error = "Stopped", "step budget spent"
    return outcome, "".join(run.printed), shown, error


def told(raised):
    run.depth = 0
    try:
        return str_of(raised, 0)
    except Raised:
        return ""
    except Stopped:
        return ""
