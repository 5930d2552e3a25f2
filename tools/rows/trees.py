#!/usr/bin/env python3
"""Makes the tables of texts with their trees, or the lines of their faults, by which the grammar is
tested.

Usage: tools/rows/trees.py antt TREES FAULTS OTHERS    (TreeExamples.antt, FaultExamples.antt and OtherExamples.antt
                                                        in crates/kishu_language_rows/proofs)
       tools/rows/trees.py rust > crates/kishu_syntax_tests/src/parser/table.rt

The texts stand in tree_texts.py, and their trees come from CPython (python_trees.py). A text that
CPython doesn't take as tree_texts.py says is told on standard error.
"""
import sys
import warnings

from python_trees import PythonTrees
from tree_texts import BOTH_REFUSE, MORE, MORE_FAULTS, MORE_OTHER, OTHER, SAME, nested

warnings.simplefilter("ignore")

NAMED = {"none": "None", "true": "True", "false": "False"}


def codes(text):
    if all(32 <= ord(c) < 127 for c in text.replace("\n", " ")):
        return '(codes "%s")' % text.replace("\\", "\\\\").replace('"', '\\"').replace("\n", "\\n")
    raise SystemExit("not plain: %r" % text)


def pair(first, second):
    return "(%s, %s)" % (first, second)


class Defined:
    """Trees as the definitions of Tree write them."""

    def listed(self, items):
        return "(" + "".join(i + " ∷ " for i in items) + "[])"

    def some(self, value, write):
        return "None" if value is None else "(Some %s)" % write(value)

    def expressions(self, es):
        return "(expressions %s)" % self.listed(self.expression(e) for e in es)

    def operands(self, prefix, found):
        return self.listed(pair(prefix + operator, self.expression(e)) for operator, e in found)

    def expression(self, e):
        match e:
            case ("name" | "text" as kind, text):
                return "(t.%s %s)" % (kind, codes(text))
            case ("integer", value):
                return "(t.integer (pos %d))" % value
            case ("none" | "true" | "false" as kind,):
                return "t." + kind
            case ("tuple" | "list" | "or" | "and" as kind, es):
                return "(t.%s %s)" % (kind, self.expressions(es))
            case ("dict", found):
                return "(t.dict (pairs %s))" % self.listed(pair(self.expression(k), self.expression(v)) for k, v in found)
            case ("signed", sign, operand):
                return "(t.signed s.%s %s)" % (sign, self.expression(operand))
            case ("compared", first, found):
                return "(t.compared %s (links %s))" % (self.expression(first), self.operands("c.", found))
            case ("sum" | "product" as kind, first, found):
                return "(t.%s %s (operands %s))" % (kind, self.expression(first), self.operands("o.", found))
            case ("primary", first, found):
                return "(t.primary %s (trailers %s))" % (self.expression(first), self.listed(self.trailer(t) for t in found))
            case (kind, *parts):
                return "(t.%s %s)" % (kind, " ".join(self.expression(p) for p in parts))

    def trailer(self, trailer):
        match trailer:
            case ("attribute", name):
                return "t.attribute %s" % codes(name)
            case ("call", found):
                return "t.call (arguments %s)" % self.listed(self.argument(a) for a in found)
            case ("index", index):
                return "t.index %s" % self.expression(index)
            case ("slice", *bounds):
                return "t.slice %s" % " ".join("absent" if b is None else "(bound %s)" % self.expression(b) for b in bounds)

    def argument(self, argument):
        match argument:
            case ("plain", value):
                return "t.plain %s" % self.expression(value)
            case ("keyword", name, value):
                return "t.keyword %s %s" % (codes(name), self.expression(value))

    def statements(self, body):
        return "(statements %s)" % self.listed(self.statement(x) for x in body)

    def handler(self, found):
        kind, name, body = found
        return "record { class = %s; caught = %s; body = %s }" % (self.some(kind, self.expression), self.some(name, codes), self.statements(body))

    def arm(self, arm):
        test, body = arm
        return pair(self.expression(test), self.statements(body))

    def statement(self, x):
        match x:
            case ("pass" | "break" | "continue" as kind,):
                return "t." + kind
            case ("return" | "raise" as kind, value):
                return "t.%s %s" % (kind, self.some(value, self.expression))
            case ("assert", test, message):
                return "t.assert %s %s" % (self.expression(test), self.some(message, self.expression))
            case ("delete", places):
                return "t.delete %s" % self.listed(self.expression(e) for e in places)
            case ("global", names):
                return "t.global %s" % self.listed(codes(n) for n in names)
            case ("import", name):
                return "t.import %s" % self.some(name, codes)
            case ("update", place, operator, value):
                return "t.update %s o.%s %s" % (self.expression(place), operator, self.expression(value))
            case ("assign", [], value):
                return "t.assign [] %s" % self.expression(value)
            case ("assign", targets, value):
                return "t.assign %s %s" % (self.listed(self.expression(e) for e in targets), self.expression(value))
        return self.compound(x)

    def compound(self, x):
        match x:
            case ("choose", arms, other):
                return "t.choose (arms %s) %s" % (self.listed(map(self.arm, arms)), self.statements(other))
            case ("while", test, body):
                return "t.while %s %s" % (self.expression(test), self.statements(body))
            case ("for", targets, walked, body):
                return "t.for %s %s %s" % (self.expression(targets), self.expression(walked), self.statements(body))
            case ("try", body, handlers, other, last):
                found = self.listed(self.handler(h) for h in handlers)
                return "t.try %s (handlers %s) %s %s" % (self.statements(body), found, self.statements(other), self.statements(last))
            case ("finally", body, last):
                return "t.finally %s %s" % (self.statements(body), self.statements(last))
            case ("define", name, parameters, body, code):
                found = self.listed(pair(codes(p), self.some(d, self.expression)) for p, d in parameters)
                return "t.define %s %s %s %s" % (codes(name), found, self.statements(body), codes(code))

    def program(self, statements):
        return "Ok %s" % self.listed(self.statement(x) for x in statements)


class DeepDefined(Defined):
    """Deep trees, without the parentheses that could be spared."""

    def listed(self, items):
        return super().listed(items).replace("([])", "[]")

    def arm(self, arm):
        test, body = arm
        return pair(self.expression(test), "statements %s" % self.listed(self.statement(x) for x in body))


class Shown:
    """Trees as the tests of kishu_parser write them."""

    def optional(self, e):
        return "_" if e is None else self.expression(e)

    def words(self, word, found):
        return "(%s)" % " ".join([word, *found])

    def several(self, word, es):
        return self.words(word, [self.expression(e) for e in es])

    def operands(self, found):
        return ["%s %s" % (operator, self.expression(e)) for operator, e in found]

    def expression(self, e):
        match e:
            case ("name", text):
                return text
            case ("text", text):
                return "'%s'" % text
            case ("integer", value):
                return "#%d" % value
            case ("none" | "true" | "false" as kind,):
                return NAMED[kind]
            case ("tuple" | "list" | "or" | "and" as kind, es):
                return self.several(kind, es)
            case ("dict", found):
                return self.several("dict", [e for both in found for e in both])
            case ("signed", sign, operand):
                return self.several(sign, [operand])
            case ("compared" | "sum" | "product" as kind, first, found):
                return self.words(kind, [self.expression(first), *self.operands(found)])
            case ("primary", first, found):
                return self.words("primary", [self.expression(first), *map(self.trailer, found)])
            case ("conditional", *parts):
                return self.several("if", parts)
            case (kind, *parts):
                return self.several(kind, parts)

    def trailer(self, trailer):
        match trailer:
            case ("attribute", name):
                return "(. %s)" % name
            case ("call", found):
                return self.words("call", [self.argument(a) for a in found])
            case ("index", index):
                return self.several("index", [index])
            case ("slice", *bounds):
                return self.words("slice", [self.optional(b) for b in bounds])

    def argument(self, argument):
        match argument:
            case ("plain", value):
                return self.expression(value)
            case ("keyword", name, value):
                return "(= %s %s)" % (name, self.expression(value))

    def block(self, body):
        return " {%s}" % "".join(self.statement(x) for x in body)

    def statement(self, x):
        match x:
            case ("pass" | "break" | "continue" as kind,):
                return "(%s)" % kind
            case ("return" | "raise" as kind, value):
                return self.words(kind, [self.optional(value)])
            case ("assert", test, message):
                return self.words("assert", [self.expression(test), self.optional(message)])
            case ("delete", places):
                return self.several("del", places)
            case ("global", names):
                return self.words("global", names)
            case ("import", name):
                return self.words("import", [name or "_"])
            case ("update", place, operator, value):
                return self.words("update", [self.expression(place), operator, self.expression(value)])
            case ("assign", targets, value):
                return self.words("=", [self.several("to", targets), self.expression(value)])
        return self.compound(x)

    def compound(self, x):
        match x:
            case ("choose", arms, other):
                found = "".join("[%s%s]" % (self.expression(e), self.block(b)) for e, b in arms)
                return "(if %s%s)" % (found, self.block(other))
            case ("while", test, body):
                return "(while %s%s)" % (self.expression(test), self.block(body))
            case ("for", targets, walked, body):
                return "(for %s %s%s)" % (self.expression(targets), self.expression(walked), self.block(body))
            case ("try", body, handlers, other, last):
                found = "".join(" [%s %s%s]" % (self.optional(k), n or "_", self.block(b)) for k, n, b in handlers)
                return "(try%s%s%s%s)" % (self.block(body), found, self.block(other), self.block(last))
            case ("finally", body, last):
                return "(finally%s%s)" % (self.block(body), self.block(last))
            case ("define", name, parameters, body, code):
                found = "".join(" (%s %s)" % (p, self.optional(d)) for p, d in parameters)
                return "(def %s%s%s '%s')" % (name, found, self.block(body), code)

    def program(self, statements):
        return "".join(self.statement(x) for x in statements)


def deep_trees(n):
    """The trees of nested(n)."""
    a, b, f = (("name", x) for x in "abf")

    def around(inside, wrap, times=n):
        for _ in range(times):
            inside = wrap(inside)
        return inside

    def parens(e):
        return ("paren", e)

    def called(e):
        return ("primary", f, [("call", [("plain", e)])])

    def indexed(e):
        return ("primary", a, [("index", e)])

    def one(e):
        return ("list", [e])

    values = [
        around(a, parens),
        around(a, one),
        around(a, indexed),
        around(a, called),
        around(a, lambda e: ("not", e)),
        around(a, lambda e: ("signed", "Minus", e)),
        around(a, lambda e: ("power", a, e)),
        around(a, lambda e: ("conditional", a, b, e)),
    ]
    empty = [
        around(("tuple", []), parens, n - 1),
        around(("list", []), one, n - 1),
        around(("primary", f, [("call", [])]), called, n - 1),
        around(("primary", a, [("slice", None, None, None)]), indexed, n - 1),
        around(("dict", []), lambda e: ("dict", [(a, e)]), n - 1),
    ]
    blocks = [around(x, lambda x: ("choose", [(a, [x])], [])) for x in (("assign", [], b), ("pass",))]
    statements = [("assign", [], e) for e in values] + [("assign", [values[0]], b)] + [("assign", [], e) for e in empty] + blocks
    return [[x] for x in statements]


IMPORTS = """use Rattle.std.proofs.Common.{%s}
use Rattle.std.specs.Prelude.{%s}
use Rattle.std.specs.Char.{encode_utf8}
use Rattle.kishu_language.specs.declared.profile.Profile.TheVariants.{One}
%suse Rattle.kishu_language.specs.tokens.Marks.{reserved_marks, delimiter, operator}
use Rattle.kishu_language.specs.tokens.Numerals.{numeral}
use Rattle.kishu_language.specs.tokens.Quoted as Q
use Rattle.kishu_language.specs.tokens.Lexemes.{token_piece, lexeme}
use Rattle.kishu_language.specs.tokens.Layout.{cut, indented, begin, bracket, step, layout}
%suse Rattle.kishu_language.specs.trees.Code.{code_of}
use Rattle.kishu_language.specs.reading.ReadExpressions as E
use Rattle.kishu_language.specs.reading.ReadStatements as S
use Rattle.kishu_language.specs.reading.ReadText as R
use Rattle.kishu_language.specs.reading.ReadText.{read_chars}
"""
TREE_IMPORTS = (
    "◌≡◌, ◌∷◌, [], refl",
    "pos, codes, Some, None, Ok",
    "use Rattle.kishu_language.specs.declared.tree.Operator.TheVariants as o\nuse Rattle.kishu_language.specs.declared.tree.Sign.TheVariants as s\nuse Rattle.kishu_language.specs.declared.tree.Comparison.TheVariants as c\n",
    "use Rattle.kishu_language.specs.trees.Tree.{expressions, operands, links, pairs, trailers, arguments, statements, arms, handlers, absent, bound}\nuse Rattle.kishu_language.specs.trees.Tree as t\n",
)
FAULT_IMPORTS = ("◌≡◌, refl", "codes, Err", "", "")
EXPRESSIONS = "keyword_begins another argument attribute call slice_after item_or_slice trailer parenthesised list pair dict atom primary_parts primary power unary_level term sum compared negated_level conjunction disjunction expr_level exprs_level phrase"
STATEMENTS = "primary_at another_simple raise return assertion delete global import update_of assignment_of update_or_assignment simple simples line block block_after arm choice while for caught handler handled finished try parameter definition define compound chunk program"
UNFOLDING = (
    "unfolding reserved_marks delimiter operator numeral Q.escape Q.item Q.closes Q.body Q.quoted token_piece lexeme cut indented begin bracket step layout encode_utf8 code_of "
    + " ".join("E." + x for x in EXPRESSIONS.split()) + " " + " ".join("S." + x for x in STATEMENTS.split()) + " R.piece read_chars"
)


def write(path, head, imports, name, rows):
    with open(path, "w") as out:
        out.write("-- %s: computed on the definition. Made by tools/rows/trees.py.\n" % head)
        out.write(IMPORTS % imports)
        for i, (text, answer) in enumerate(rows, 1):
            out.write("\n%s_%d : read_chars One %s ≡ %s\n%s\n%s_%d = refl\n" % (name, i, codes(text), answer, UNFOLDING, name, i))


def rows_of(texts, form, deep_form):
    """The texts with their trees, and those that are as deep as may be."""
    rows = [(text, form.program(PythonTrees(text).program())) for text in texts]
    return rows + list(zip(nested(60), map(deep_form.program, deep_trees(60))))


def write_antt(trees, faults, others):
    too_deep = [(text, 1) for text in nested(61)]
    write(trees, "Which trees some texts have", TREE_IMPORTS, "tree", rows_of(SAME, Defined(), DeepDefined()))
    write(faults, "On which line some texts have a fault", FAULT_IMPORTS, "fault", [(text, "Err %d" % line) for text, line in BOTH_REFUSE])
    write(others, "On which line texts that Python reads have a fault", FAULT_IMPORTS, "other", [(text, "Err %d" % line) for text, line in OTHER + too_deep])


def quoted(text):
    plain = text.replace("\\", "\\\\").replace('"', '\\"').replace("\n", "\\n").replace("\r", "\\r")
    return "".join(c if ord(c) < 127 else "\\u{%x}" % ord(c) for c in plain)


def write_rust():
    too_deep = [(text, 1) for text in nested(61)]
    rows = rows_of(SAME + MORE, Shown(), Shown()) + [(text, "line %d" % line) for text, line in BOTH_REFUSE + MORE_FAULTS + OTHER + MORE_OTHER + too_deep]
    print("// Made by tools/rows/trees.py: what is wanted and the text, with \\x1f between, and \\x1e behind each row.")
    print("pub(crate) const COUNT: usize = %d;\n" % len(rows))
    print('pub(crate) const ROWS: &str = "\\')
    for text, want in rows:
        print("    %s\\x1f%s\\x1e\\" % (quoted(want), quoted(text)))
    print('    ";')


def accepts(text):
    try:
        compile(text, "cell", "exec")
        return True
    except SyntaxError:
        return False


def compare_with_python():
    for text in SAME + MORE + nested(60)[:-2] + [text for text, _ in OTHER + MORE_OTHER]:
        if not accepts(text):
            print("refused by Python: %r" % text, file=sys.stderr)
    for text, _ in BOTH_REFUSE + MORE_FAULTS:
        if accepts(text):
            print("accepted by Python: %r" % text, file=sys.stderr)


def main():
    compare_with_python()
    if sys.argv[1] == "rust":
        write_rust()
    else:
        write_antt(*sys.argv[2:])


if __name__ == "__main__":
    main()
