"""The trees of Python texts, from CPython's `ast.parse`, as tuples: the kind of an expression or a
statement, and its parts. Parentheses, which leave a trace in our trees, come from `tokenize`.
"""
import ast
import io
import tokenize

OPERATORS = {ast.Add: "Add", ast.Sub: "Subtract", ast.Mult: "Multiply", ast.FloorDiv: "FloorDivide", ast.Mod: "Modulo", ast.Pow: "Power"}
COMPARISONS = {ast.Lt: "Less", ast.LtE: "LessEqual", ast.Gt: "Greater", ast.GtE: "GreaterEqual", ast.Eq: "Equal", ast.NotEq: "NotEqual", ast.In: "In", ast.NotIn: "NotIn", ast.Is: "Is", ast.IsNot: "IsNot"}
SIGNS = {ast.UAdd: "Plus", ast.USub: "Minus"}
JOINED = {"sum": (ast.Add, ast.Sub), "product": (ast.Mult, ast.FloorDiv, ast.Mod)}


class PythonTrees:
    """The trees of one text."""

    def __init__(self, text):
        text = text.replace("\r\n", "\n").replace("\r", "\n")
        self.lines = text.split("\n")
        self.tree = ast.parse(text)
        kept = (tokenize.OP, tokenize.NAME, tokenize.NUMBER, tokenize.STRING)
        self.tokens = [t for t in tokenize.generate_tokens(io.StringIO(text).readline) if t.type in kept]
        self.starts = {self.place(t.start): i for i, t in enumerate(self.tokens)}
        self.ends = {self.place(t.end): i for i, t in enumerate(self.tokens)}
        self.pairs, opened = {}, []
        for i, t in enumerate(self.tokens):
            if t.string in ("(", "[", "{"):
                opened.append(i)
            elif t.string in (")", "]", "}"):
                self.pairs[opened.pop()] = i
        # the parentheses that belong to a call
        self.taken = set()
        for node in ast.walk(self.tree):
            if isinstance(node, ast.Call):
                last = self.ends[(node.end_lineno, node.end_col_offset)]
                self.taken.add(next(i for i, j in self.pairs.items() if j == last))

    def place(self, at):
        """A place of `tokenize`, which counts characters, as one of `ast`, which counts bytes."""
        line, column = at
        return line, len(self.lines[line - 1][:column].encode())

    def span(self, e):
        return self.starts[(e.lineno, e.col_offset)], self.ends[(e.end_lineno, e.end_col_offset)]

    def parens(self, e):
        """How many pairs of parentheses stand around an expression."""
        i, j = self.span(e)
        count = 0
        if isinstance(e, ast.Tuple) and e.elts and self.tokens[i].string == "(" and self.pairs[i] == j:
            count = 1
        while i > 0 and self.tokens[i - 1].string == "(" and self.pairs[i - 1] == j + 1 and i - 1 not in self.taken:
            i, j, count = i - 1, j + 1, count + 1
        return count

    def expression(self, e):
        found = self.bare(e)
        for _ in range(self.parens(e)):
            found = ("paren", found)
        return found

    def expressions(self, es):
        return [self.expression(e) for e in es]

    def optional(self, e):
        return None if e is None else self.expression(e)

    def bare(self, e):
        """An expression without the parentheses around it."""
        match e:
            case ast.Name():
                return ("name", e.id)
            case ast.Constant():
                return self.constant(e.value)
            case ast.Tuple():
                return ("tuple", self.expressions(e.elts))
            case ast.List():
                return ("list", self.expressions(e.elts))
            case ast.Dict():
                return ("dict", list(zip(self.expressions(e.keys), self.expressions(e.values))))
            case ast.IfExp():
                return ("conditional", *self.expressions([e.body, e.test, e.orelse]))
            case ast.BoolOp():
                return ("or" if isinstance(e.op, ast.Or) else "and", self.expressions(e.values))
            case ast.UnaryOp(op=ast.Not()):
                return ("not", self.expression(e.operand))
            case ast.UnaryOp():
                return ("signed", SIGNS[type(e.op)], self.expression(e.operand))
            case ast.Compare():
                return ("compared", self.expression(e.left), [(COMPARISONS[type(o)], self.expression(r)) for o, r in zip(e.ops, e.comparators)])
            case ast.BinOp(op=ast.Pow()):
                return ("power", self.expression(e.left), self.expression(e.right))
            case ast.BinOp():
                return self.joined(e)
        return self.primary(e)

    def constant(self, value):
        if value is None or isinstance(value, bool):
            return (str(value).lower(),)
        return ("text" if isinstance(value, str) else "integer", value)

    def joined(self, e):
        """A sum or a product: its first operand, and the others with their operators."""
        make, kinds = next((make, kinds) for make, kinds in JOINED.items() if isinstance(e.op, kinds))
        found = []
        while isinstance(e, ast.BinOp) and isinstance(e.op, kinds) and (not found or not self.parens(e)):
            found.insert(0, (OPERATORS[type(e.op)], self.expression(e.right)))
            e = e.left
        return (make, self.expression(e), found)

    def primary(self, e):
        found = []
        while isinstance(e, (ast.Attribute, ast.Call, ast.Subscript)) and (not found or not self.parens(e)):
            found.insert(0, self.trailer(e))
            e = e.func if isinstance(e, ast.Call) else e.value
        return ("primary", self.expression(e), found)

    def trailer(self, e):
        match e:
            case ast.Attribute():
                return ("attribute", e.attr)
            case ast.Call():
                plain = [("plain", self.expression(a)) for a in e.args]
                return ("call", plain + [("keyword", k.arg, self.expression(k.value)) for k in e.keywords])
            case ast.Subscript(slice=ast.Slice()):
                return ("slice", *(self.optional(b) for b in (e.slice.lower, e.slice.upper, e.slice.step)))
        return ("index", self.expression(e.slice))

    def block(self, body):
        return [self.statement(x) for x in body]

    def statement(self, x):
        match x:
            case ast.Pass() | ast.Break() | ast.Continue():
                return (type(x).__name__.lower(),)
            case ast.Return():
                return ("return", self.optional(x.value))
            case ast.Raise():
                return ("raise", self.optional(x.exc))
            case ast.Assert():
                return ("assert", self.expression(x.test), self.optional(x.msg))
            case ast.Delete():
                return ("delete", self.expressions(x.targets))
            case ast.Global():
                return ("global", x.names)
            case ast.ImportFrom():
                return ("import", x.names[0].asname)
            case ast.AugAssign():
                return ("update", self.expression(x.target), OPERATORS[type(x.op)], self.expression(x.value))
            case ast.Assign():
                return ("assign", self.expressions(x.targets), self.expression(x.value))
            case ast.Expr():
                return ("assign", [], self.expression(x.value))
        return self.compound(x)

    def compound(self, x):
        match x:
            case ast.If():
                return self.choice(x)
            case ast.While():
                return ("while", self.expression(x.test), self.block(x.body))
            case ast.For():
                return ("for", self.expression(x.target), self.expression(x.iter), self.block(x.body))
            case ast.Try(handlers=[]):
                return ("finally", self.block(x.body), self.block(x.finalbody))
            case ast.Try():
                handlers = [(self.optional(h.type), h.name, self.block(h.body)) for h in x.handlers]
                return ("try", self.block(x.body), handlers, self.block(x.orelse), self.block(x.finalbody))
            case ast.FunctionDef():
                return self.define(x)
        raise SystemExit(f"not read: {type(x).__name__}")

    def choice(self, x):
        arms = []
        while True:
            arms.append((self.expression(x.test), self.block(x.body)))
            if len(x.orelse) != 1 or not isinstance(x.orelse[0], ast.If) or self.tokens[self.span(x.orelse[0])[0]].string != "elif":
                return ("choose", arms, self.block(x.orelse))
            x = x.orelse[0]

    def define(self, x):
        names = [a.arg for a in x.args.args]
        defaults = [None] * (len(names) - len(x.args.defaults)) + self.expressions(x.args.defaults)
        return ("define", x.name, list(zip(names, defaults)), self.block(x.body), self.code(x))

    def code(self, x):
        last = self.span(x)[1]
        # CPython leaves out a `;` at the end of the body.
        if last + 1 < len(self.tokens) and self.tokens[last + 1].string == ";":
            last += 1
        (line, end), first = self.tokens[last].end, x.lineno - 1
        lines = self.lines[first:line - 1] + [self.lines[line - 1][:end]]
        return "\n".join(lines).encode()[x.col_offset:].decode()

    def program(self):
        return self.block(self.tree.body)
