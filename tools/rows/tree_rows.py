#!/usr/bin/env python3
"""Makes the further rows on trees in crates/kishu_language_rows/proofs: MoreTreeExamples,
MoreFaultExamples, LineExamples, NestingExamples, HeightExamples, CodeExamples, ParseRows and FitRows.

Trees, heights and the codes of functions come from CPython (python_trees.py and `ast`), and it must accept
or refuse each text as it is said here. The lines of faults stand here by hand.
"""
import ast
import sys
import warnings

import trees
from nodes import listing, row_file, write
from python_trees import PythonTrees
from tokens import antt_bytes, antt_text
from tree_texts import MORE, MORE_FAULTS, MORE_OTHER
from trees import IMPORTS, TREE_IMPORTS, UNFOLDING, Defined, accepts

warnings.simplefilter("ignore")
sys.setrecursionlimit(10000)
trees.codes = antt_bytes
OPENED = UNFOLDING.removeprefix("unfolding ")

# Refused by both: the line is that of the first fault of the tokens, or else of the first piece that is no chunk.
LINED_FAULTS = [
    ("x\ny = = 1\n", 2), ("x\n\n\ny = = 1\n", 4), ("# c\n\nx = = 1\n", 3), ("if a:\n  b\nc = = d\n", 3), ("if a:\n  b\n\n  c = = d\ne\n", 1), ("a\nif b:\n  c = = d\n", 2), ("a\nif b: c\nelif d: = e\n", 2), ("a\nif b: c\nelse:\n  = d\n", 2), ("if a: b\nc = = d\nelse: e\n", 2),
    ("try: a\nfinally: b\nx = = y\n", 3), ("a\ntry: b\nexcept c: d\nelse: = e\n", 2), ("a = (\n  1\n)\nb = = c\n", 4), ("a = (1,\n 2 3)\nb\n", 1), ("a\nb = (1,\n 2 3)\n", 2), ("'''a\n\n'''\nb = = c\n", 4), ("a = 'b\\\nc'\nd = = e\n", 3), ("a = \\\n 1\nb = = c\n", 3), ("a\n\\\nb = = c\n", 3), ("\\\nx = = 1\n", 2),
    ("  \\\nx\n", 1), ("a\n  b\n", 1), ("a\n  \\\n b\nc\n", 1), ("\n  a\n", 2), ("\n\n  \\\n\\\n a\n", 3), ("a;\nb;;\n", 2), ("a\r\nb = = c\r\n", 2), ("a\rb\rc = = d\r", 3), ("pass\nreturn\n", 2), ("def f(): pass\ndef g(): break\n", 2), ("a\n\ndef f(a):\n  b\n  global a\n", 3), ("while a: b\n\nbreak\n", 3),
    ("a\nb\nc\nd e\n", 4), ("if a:\n  if b:\n    c d\n  e\nf\n", 1), ("a\nif b:\n  c\n\n# d\nelse: e f\n", 2), ("a\n\n# b\n\nc d\n", 5), ("a\nf(a=1, 2)\n", 2), ("a\nf(b=1, b=2)\n", 2), ("a\n\n\ntry: b\n", 4), ("a\ndef f(a, a): b\n", 2), ("a\ndef f(a=1, b): c\n", 2), ("a\ntry: b\nexcept: c\nexcept d: e\n", 2),
    ("a = = b\n$\n", 2), ("a = = b\nc\n'd\n", 3), ("return\n(\n", 2), ("a b\nif c:\n    d\n  e\n", 4), ("a b\n01\n", 2), ("a b\n]\n", 2), ("if a\n\n!", 3), ("a b\n'\\x4'\n", 2), ("a b\n\\ \n", 2), ("def f(): break\n1a\n", 2), ("a b\n'''c\n\n", 2), ("(a\n b\n  $", 3),
]
# Accepted by CPython.
OWN_LINED_FAULTS = [("x\nglobal y\n", 2), ("a\n(b) += 1\n", 2), ("for a in b:\n  c\ndel (d)\n", 3), ("def f():\n  def g(): a\nb\n", 1), ("a\nraise\n", 2), ("a\n\nclass b: c\n", 3), ("a\nb\n[c for d in e]\n", 3), ("a\n\\\n\\\nlambda: b\n", 4), ("if a:\n  b\nelse:\n  lambda: c\nd\n", 1), ("a\n\nwhile b: c\nelse: d\n", 3)]


# ---- nesting

def deep(n, inner="a"):
    return "(" * n + inner + ")" * n


def blocks(head, n, tail=""):
    """Blocks of one kind, one inside the other; the tail stands behind each body."""
    lines = [" " * i + head + "\n" for i in range(n)] + [" " * n + "a\n"]
    return "".join(lines + [" " * i + tail + "\n" for i in reversed(range(n)) if tail])


# Each gives a text whose innermost point is nested n deep.
CAUSES = [
    lambda n: "f(x=" * n + "a" + ")" * n, lambda n: "{a: " * n + "b" + "}" * n, lambda n: "{" * n + "a" + ": b}" * n, lambda n: "a[" * n + "b" + ":]" * n, lambda n: "a[:" * n + "b" + "]" * n, lambda n: "a[::" * n + "b" + "]" * n, lambda n: "(" * n + "a" + ",)" * n, lambda n: "a[b, " * n + "c" + "]" * n,
    lambda n: "[" * n + "a" + "]" * n + " = b", lambda n: "(" * n + "a" + ",)" * n + " = b", lambda n: "for " + deep(n) + " in b: c", lambda n: "del " + "a[" * n + "b" + "]" * n, lambda n: "a[" * n + "b" + "]" * n + " = c", lambda n: "a[" * n + "b" + "]" * n + " += c", lambda n: "a = " + deep(n), lambda n: "a += " + deep(n), lambda n: deep(n) + ".a = b",
    lambda n: "def f(a=" + deep(n - 1) + "): b", lambda n: "def f(a, b=1, c=" + "[" * (n - 1) + "]" * (n - 1) + "): d", lambda n: "def f(): " + deep(n - 1), lambda n: "def f(): return " + deep(n - 1), lambda n: "if a: b\nelif c: " + deep(n - 1), lambda n: "if a: b\nelse: " + deep(n - 1), lambda n: "while a: " + deep(n - 1), lambda n: "for a in b: " + deep(n - 1),
    lambda n: "try: " + deep(n - 1) + "\nfinally: a", lambda n: "try: a\nexcept b: " + deep(n - 1), lambda n: "try: a\nexcept b: c\nelse: " + deep(n - 1), lambda n: "try: a\nfinally: " + deep(n - 1), lambda n: "if " + deep(n) + ": a", lambda n: "if a: b\nelif " + deep(n) + ": c", lambda n: "while " + deep(n) + ": a", lambda n: "for a in " + deep(n) + ": b", lambda n: "try: a\nexcept " + deep(n) + ": b",
    lambda n: "assert a, " + deep(n), lambda n: "raise " + deep(n), lambda n: "not (" * (n // 2) + ("not " if n % 2 else "") + "a" + ")" * (n // 2), lambda n: "-(" * (n // 2) + ("-" if n % 2 else "") + "a" + ")" * (n // 2), lambda n: "a ** (" * (n // 2) + ("-" if n % 2 else "") + "a" + ")" * (n // 2), lambda n: "a if b else [" * (n // 2) + ("-" if n % 2 else "") + "a" + "]" * (n // 2), lambda n: "f(not " * (n // 2) + ("-" if n % 2 else "") + "a" + ")" * (n // 2),
    lambda n: deep(n) + " if b else c", lambda n: "a if " + deep(n) + " else c", lambda n: "a if b else " + deep(n - 1), lambda n: deep(n) + " ** b", lambda n: "a ** " + deep(n - 1), lambda n: "-a ** " + deep(n - 2), lambda n: "not " + deep(n - 1), lambda n: deep(n) + " + b", lambda n: "a < b < " + deep(n), lambda n: "a or b or " + deep(n), lambda n: "a and " + deep(n),
    lambda n: blocks("while a:", n), lambda n: blocks("for a in b:", n), lambda n: blocks("if a:", n, "else: b"), lambda n: blocks("try:", n, "finally: b"), lambda n: "".join(" " * i + ("if a:", "while a:", "for a in b:")[i % 3] + "\n" for i in range(n - 1)) + " " * (n - 1) + "if -a: b",
]
# CPython takes no more than 20 blocks of these, and no more than 100 indentations.
LONG = [
    "if a: b\n" + "elif c: d\n" * 70 + "else: " + deep(59), "a + " * 70 + "b", "a * " * 70 + "b", "a and " * 70 + "b", "a or " * 70 + "b", "a < " * 70 + "b", "a" + ".b" * 70, "a" + "[0]" * 70, "a" + "()" * 70, "a = " * 70 + "b", "a, " * 70 + "b", "a; " * 70 + "b", "'a' " * 70, "f(" + "a, " * 70 + ")", "{" + "a: b, " * 70 + "}",
]


def fault_rows():
    rows = []
    for cause in CAUSES:
        for n, line in ((60, 0), (61, 2)):
            rows.append(f"fault_line (read_chars One {antt_text('x' + chr(10) + cause(n))}) ≡ {line}")
    return rows + [f"fault_line (read_chars One {antt_text(text)}) ≡ 0" for text in LONG]


FAULT_LINE = """
-- 0 where there is none
abbrev fault_line : Result (List Statement) ℕ → ℕ
fault_line (Ok found) = 0
fault_line (Err line) = line""".split("\n")


# ---- heights

HIGH = [
    "", "a", "1", "'a'", "None", "()", "[]", "{}", "(a)", "((a))", "a,", "[a]", "[[a]]", "[a, [b, [c]]]", "{a: b}", "{a: [b]}", "{[a]: b}", "a + b", "a + b + c", "a + b * c", "(a + b) * c", "-a", "- -a", "not a", "not not a", "a ** b", "a ** b ** c", "-a ** b", "a or b", "a or b and c", "not a or b", "a < b", "a < b < (c)", "a if b else c", "a if b else c if d else e",
    "a.b", "a.b.c", "f()", "f(a)", "f(a)(b)", "f(a, b=(c))", "f(g(h(a)))", "a[b]", "a[b:c]", "a[:]", "a[b:c:(d)]", "a[b][c]", "a[b, c]",
    "pass", "while a: break", "while a: continue", "a = b", "a = b = c", "a = [b]", "a.b = c", "a += b", "a += (b)", "del a", "del a, b.c", "assert a", "assert a, (b)", "from types import SimpleNamespace", "def f(): pass", "def f(): return", "def f(): return a", "def f(): global a", "def f(a=(b)): pass", "def f(a, b=[c]): a",
    "if a: b", "if a: b\nelif (c): d", "if a: b\nelse: (c)", "if a:\n  if b:\n    c", "if a:\n  b\n  (c)\n  d", "while (a): b", "for a in b: c", "for (a, b) in c: d", "for a in (b): c", "try: a\nexcept: b", "try: a\nexcept (b): c", "try: a\nexcept b as c: raise", "try: a\nfinally: (b)", "try: a\nexcept b: c\nelse: ((d))\nfinally: e", "a\n(b)\nc", "if a:\n  while b:\n    for c in d:\n      (e)", "raise_ = a; b; c",
]


def height(parts):
    """One more than the highest of the parts; lists count no level."""
    if isinstance(parts, list):
        return max(map(height, parts), default=0)
    if isinstance(parts, tuple) and parts and isinstance(parts[0], str) and parts[0] in KINDS:
        inner = parts[1:]
        if parts[0] in ("name", "text", "integer", "global", "import"):
            return 1
        if parts[0] in ("attribute", "call", "index", "slice", "plain", "keyword"):
            return height(list(inner))
        return 1 + height(list(inner))
    if isinstance(parts, tuple):
        return max(map(height, parts), default=0)
    return 0


KINDS = set(
    "name text integer none true false tuple list or and not compared sum product signed power primary paren dict conditional attribute call index slice plain keyword "
    "pass break continue return raise assert delete global import update assign choose while for try finally define".split()
)
HEIGHT = """
abbrev height : Result (List Statement) ℕ → ℕ
height (Ok found) = of_statements (statements found)
height (Err line) = 0""".split("\n")


def height_rows():
    return [f"height (read_chars One {antt_text(text) if text else '[]'}) ≡ {height(PythonTrees(text).program())}" for text in HIGH]


# ---- the codes of functions

FUNCTIONS = [
    "def f(): pass", "def f(): pass\n", "def f(): pass  # c\n", "def f():\n  a\n", "def f():\n  a\n\n\nb\n", "def f():\n  a\n  # c\nb\n", "def f():\n  a  # c\n# d\n", "a\ndef f(): b\nc\n", "def f(): a\ndef g(): b\n", "def f():\n  a\n\n  b\n", "def f():\n\n  a\n", "def f():  # c\n  a\n", "def f(a,\n  b): c\n", "def f(a=(1,\n  2)): return a\n",
    "def f():\n  return (a,\n    b)\n", "def f(): '''a\n  b'''\nc\n", "def f():\n  if a:\n    b\n  else:\n    c\nd\n", "def f():\n  while a:\n    b\n\n\n", "def f():\n  try: a\n  finally: b\n", "def f(): return\n", "def  f ( ) : a\n", "def f(a, b=1, c='x',): a\n", "def f():\n\ta\n\tb\n", "a; b\ndef f(): c; d\n", "def f(): a = \\\n  b\nc\n", "def \\\n  f(): a\n", "def f(): 'é'\n", "'é€😀'\ndef f(): a\n", "def f(a='😀'): # é\n  'é'\n", "def f():\r\n  a\r\n  b\r\nc\r\n", "def f():\r  a\rb\r", "a\r\n\r\ndef f(): '''x\r\ny'''\r\n", "def f(): a[b:c]\n", "def f():\n  global a\n  a = 1\n", "def f():\n  for a in b:\n    if c: break\n", "if a: b\ndef f(): c\nif d: e\n", "def f(): (a)\n", "def f(): {a: b}\n", "def f():\n  a\n   \n  \t\nb\n", "# c\ndef f(): a  \n",
]
# The code ends with the last token of the body, and `;` is one.
OWN_FUNCTIONS = [("def f(): a;\n", ["def f(): a;"]), ("def f(): a; b ;  # c\n", ["def f(): a; b ;"]), ("def f():\n  a;\nb\n", ["def f():\n  a;"])]
CODES = """
abbrev code_in : Statement → List Text
code_in (t.define title parameters body code) = code ∷ []
code_in _ = []

-- of the functions that stand in no block
abbrev codes_in : Result (List Statement) ℕ → List Text
codes_in (Ok found) = flat_map code_in found
codes_in (Err line) = []""".split("\n")


def python_codes(text):
    plain = text.replace("\r\n", "\n").replace("\r", "\n")
    return [ast.get_source_segment(plain, node) for node in ast.parse(plain).body if isinstance(node, ast.FunctionDef)]


def code_rows():
    table = [(text, python_codes(text)) for text in FUNCTIONS] + OWN_FUNCTIONS
    table += [(code, [code]) for _, codes in table for code in codes]
    return [f"codes_in (read_chars One {antt_text(text)}) ≡ {listing([antt_bytes(code) for code in codes])}" for text, codes in dict((t, c) for t, c in table).items()]


# ---- what the relations say of closed texts, by the law that the reader finds just that

PARSED = [
    "", "x", "x = 1\n", "a = b = c, d\n", "a, = x\n", "(a, b), [c, d] = x\n", "a.b = c[1]\n", "a += 1, 2\n", "1 + 2 * 3\n", "-a ** b\n", "a < b in c\n", "not a or b and c\n", "x if a else y\n", "f(a, b=1,)\n", "a[1:2], a[::3]\n", "(), (a,), [a], {a: b}\n", "'a' 'b'\n", "None, True\n", "pass; x;\n", "assert a, b\n", "del a, b[0]\n", "from types import SimpleNamespace as S\n",
    "if a: b\nelif c: d\nelse: e\n", "while a:\n  break\n", "for a, b in c: d\n", "try: a\nexcept A as b: raise\n", "try: a\nfinally: b\n", "raise a\n", "def f(a, b=1): return a\nf(1)\n", "\\\nx\n", "x\r\ny\r", "# c\n",
]
WHOLE = ["def f(): pass", "def f(): return", "def f(a, b=1): return a, b", "def f():\n  a", "def f():\n\n  a\n  # c\n  b", "def f(): a;", "def f():\n  global a\n  a = 1", "def f(): '''a\n'''", "def f(a,): (a)", "def f():\n  for a in b:\n    if a: return b", "def f():\n  try: a\n  except: raise", "def \\\n f(): a"]
# Texts that are no function's code, though they have a tree.
NOT_WHOLE = ["", "x\n", "f()", "def f(): pass\n", " ", "def f(): pass  ", "def f(): pass # c", "x\ndef f(): pass", "def f(): pass\nx", "def f(): a\ndef g(): b", "if a:\n  def f(): b", "def f():\r\n  a", "\ndef f(): a", "# c\ndef f(): a", "\\\ndef f(): a"]


def source_of(text):
    return antt_bytes(text) if text else "[]"


def parsed(form, text):
    return form.program(PythonTrees(text).program()).removeprefix("Ok ")


def parts(form, text):
    """The name, the parameters, the body and the code of a text's one function, as terms."""
    (_, name, parameters, body, _), = PythonTrees(text).program()
    found = form.listed(trees.pair(trees.codes(p), form.some(d, form.expression)) for p, d in parameters)
    return trees.codes(name), found, form.statements(body)


def not_whole(form, text):
    source, tree = source_of(text), parsed(form, text)
    other = f"t.define d.title d.parameters d.body {source} ∷ []"
    same = f"(λ d k. (let same : {tree} ≡ {other} = one_parse One {source} {tree} ({other}) (read_found One {source} {tree} refl) k in absurd cc))"
    return "inr (\n" + "".join(f"  {part},\n" for part in (tree, f"read_found One {source} {tree} refl", same, "refl")) + ")"


def lemma_rows():
    form = Defined()
    rows = [(f"Parse One {source_of(text)} {parsed(form, text)}", f"read_found One {source_of(text)} {parsed(form, text)} refl") for text in PARSED]
    rows += [(f"Line One {source_of(text)} {line}", f"line_found One {source_of(text)} {line} refl") for text, line in (LINED_FAULTS + OWN_LINED_FAULTS)[::2]]
    for text in WHOLE:
        title, parameters, body = parts(form, text)
        found = f"t.define {title} {parameters} {body} {source_of(text)} ∷ []"
        rows.append((f"ParseDef One {source_of(text)} (record {{ title = {title}; parameters = {parameters}; body = {body} }})", f"read_found One {source_of(text)} ({found}) refl"))
    rows += [(f"LineDef One {source_of(text)} {line}", f"inl (line_found One {source_of(text)} {line} refl)") for text, line in LINED_FAULTS[:16]]
    return rows + [(f"LineDef One {source_of(text)} 1", not_whole(form, text)) for text in NOT_WHOLE]


FITTING = [
    "", "x", "a = b.c", "f(a, b=1, c=2)", "(a, [b.c, d[e]]) = f", "def f(): pass", "def f(a, b=1): return a", "if a:\n  def f(): b", "def f(): a\ndef g(b): c", "while a:\n  def f():\n    b\n  c", "def f():\n  global a\n  a = 1\nf()", "try: a\nexcept A as b: c", "for a, b in c: d", "from types import SimpleNamespace as S", "def f(): 'a'\n", "def f(a=(1, 2)): (a)  # b\n", "def f():\r\n  a\r\n", "del a.b, c", "try: a\nfinally:\n  def f(): b\n", "a += b",
]


def fit_rows():
    form = Defined()
    rows = []
    for text in FITTING:
        source, tree = source_of(text), parsed(form, text)
        found = f"(read_found One {source} {tree} refl)"
        rows.append((f"StatementsFit (statements {tree})", f"text_fits One {source} (IsUtf8-from_is_utf8 {source} refl) (omega arith) {tree} {found}"))
        rows.append((f"CodesRead One {source} {tree}", f"codes_read One {source} (IsUtf8-from_is_utf8 {source} refl) {tree} {found}"))
    return rows


def write_lemma_rows(name, head, uses, rows, prefix, further=""):
    lines = [f"-- {head}. Made by tools/rows/tree_rows.py."] + uses
    for i, (claim, proof) in enumerate(rows, 1):
        lines += ["", f"{prefix}_{i} : {claim}", f"unfolding {OPENED} chars{further}", f"{prefix}_{i} = {proof}"]
    row_file(name, uses).write_text("\n".join(lines) + "\n")


# ---- the files

def rows_file(name, head, uses, rows, prefix, further=""):
    write(name, head + ": computed on the definition.", uses, rows, prefix, OPENED + further, maker="tree_rows.py")


def uses(common, prelude, *more):
    return (IMPORTS % (common, prelude, "", "")).splitlines() + list(more)


def read_rows(pairs):
    return [f"read_chars One {antt_text(text)} ≡ {answer}" for text, answer in pairs]


def compare():
    for text in MORE + [t for t, _ in OWN_LINED_FAULTS if "global" not in t and "raise" not in t] + [c(20) for c in CAUSES] + LONG + HIGH + FUNCTIONS + [t for t, _ in OWN_FUNCTIONS]:
        if not accepts(text) and "raise" not in text:
            print("refused by Python: %r" % text, file=sys.stderr)
    for text, _ in LINED_FAULTS:
        if accepts(text):
            print("accepted by Python: %r" % text, file=sys.stderr)


def main():
    compare()
    form = Defined()
    rows_file("MoreTreeExamples", "Which trees further texts have", (IMPORTS % TREE_IMPORTS).splitlines(), read_rows([(text, form.program(PythonTrees(text).program())) for text in MORE]), "tree")
    rows_file("MoreFaultExamples", "On which line further texts have a fault", uses("◌≡◌, ◌∷◌, [], refl", "codes, Err"), read_rows([(text, f"Err {line}") for text, line in MORE_FAULTS + MORE_OTHER]), "fault")
    lined = [(text, f"Err {line}") for text, line in LINED_FAULTS + OWN_LINED_FAULTS]
    rows_file("LineExamples", "On which line some texts of several pieces have a fault", uses("◌≡◌, ◌∷◌, [], refl", "codes, Err"), read_rows(lined), "line")
    tree = "use Rattle.kishu_language.specs.trees.Tree.{%s}"
    rows_file("NestingExamples", "How deep texts may be nested, by each cause of nesting", uses("◌≡◌, refl", "ℕ, List, codes, Result, Ok, Err", tree % "Statement", *FAULT_LINE), fault_rows(), "nesting")
    rows_file("HeightExamples", "How high some trees are", uses("◌≡◌, [], refl", "ℕ, List, codes, Result, Ok, Err", tree % "Statement, statements", "use Rattle.kishu_language.specs.trees.Height.{of_statements}", *HEIGHT), height_rows(), "height")
    rows_file("CodeExamples", "The codes of functions, as CPython finds them, and that each reads by itself", uses("◌≡◌, ◌∷◌, [], refl", "ℕ, List, codes, Result, Ok, Err", "use Rattle.std.specs.List.{flat_map}", tree % "Text, Statement", "use Rattle.kishu_language.specs.trees.Tree as t", *CODES), code_rows(), "code")
    first, prelude, more, last = TREE_IMPORTS
    heads = (IMPORTS % (first + ", inl, inr", prelude.replace(", Ok", ""), more, last)).splitlines()
    heads += ["use Rattle.std.specs.Str.{chars}", "use Rattle.kishu_language.specs.grammar.Parse.{Parse, Line, ParseDef, LineDef}", "use Rattle.kishu_language_laws.specs.reading.ExactText.{read_found, line_found, one_parse}"]
    write_lemma_rows("ParseRows", "Texts with the trees, lines and functions that the relation of the grammar gives them, by the law that the reader finds just these", heads, lemma_rows(), "parse")
    heads = (IMPORTS % (first.replace("◌≡◌, ", "") + ", arith", prelude.replace(", Ok", ""), more.splitlines()[0] + "\n", last)).splitlines()
    heads += ["use Rattle.std.specs.Str.{chars, is_utf8}", "use Rattle.std.proofs.lemmas.Str.{IsUtf8-from_is_utf8}", "use Rattle.kishu_language_laws.specs.reading.ExactText.{read_found}", "use Rattle.kishu_language.specs.trees.Fits.{StatementsFit}", "use Rattle.kishu_language.specs.trees.FunctionCodes.{CodesRead}"]
    heads += ["use Rattle.kishu_language_laws.specs.codes.CodeLaws.{codes_read}", "use Rattle.kishu_language_laws.specs.trees.ParsedFits.{text_fits}"]
    write_lemma_rows("FitRows", "Trees that fit, and functions whose codes read by themselves, by the laws that those of texts do", heads, fit_rows(), "fit", " is_utf8")


if __name__ == "__main__":
    main()
