#!/usr/bin/env python3
"""Makes the tables of cells and of what they show by which the meaning of cells is tested.

Usage: tools/cells/cells.py antt FOLDER    (crates/kishu_meaning_rows/proofs, for MeaningExamples.antt,
                                            MoreExamples.antt, BudgetExamples.antt, DepthExamples.antt, those over nodes,
                                            NodeCells.antt and the like, those of functions and builtin functions, and
                                            RuleCells.antt, MoreRuleCells.antt and RuleDepth.antt)
       tools/cells/cells.py rust CELLS     (crates/kishu_tests/src/serve/cells.rt: answers in JSON)
       tools/cells/cells.py told CELLS     (crates/kishu_interp_tests/src/interp/cells.rt: the same in plain words)

A cell is read by CPython's `ast.parse` and run by the small machine of cell_machine.py and
node_machine.py, which counts the steps. Each cell of SAME also runs in CPython, and prints, shows,
binds and raises the same there. FAULTS gives the line of each syntax fault. The cells over nodes stand
in node_cells.py.
"""
import ast
import builtins
import contextlib
import io
import json
import pathlib
import re
import sys
import warnings
from types import SimpleNamespace

import builtin_cells
import function_cells
import node_cells
import rule_cells
from cell_machine import LISTED, PRINT
from cell_machine import Ran as CellRan
from builtin_machine import Whole
from function_machine import CLASSES
from node_machine import Builtin, Class, Thing, representation

sys.path.append(str(pathlib.Path(__file__).resolve().parents[1] / "rows"))
from rust_text import escaped

warnings.simplefilter("ignore")
builtins.SimpleNamespace = SimpleNamespace


def Ran(text, line=None, budget=None, names=()):
    def machine(names, left):
        return Whole(names, left if budget is None else budget, re.sub("\r\n?", "\n", text))

    return CellRan(text, line, names=names, machine=machine)



# CPython prints, shows, binds and raises the same.
SAME = [
    "", "pass", "# nothing\n\n", "1", "-7", "None", "True; False", "1;", "1; 2", "x = 1; x;", "x = 1 # c\nx", "((1))",
    "'a'", "\"it's\"", "'\"'", "'\\'\"'", "'a\\tb\\n\\r\\\\'", "'\\0\\x1f\\x7f'", "r'\\n'", "'a' \"b\"", "'''a\nb'''", "'\\x41\\u00e9'", "'é😀'",
    "0xff + 0o17 + 0b11", "1_000", "print(1 + 2)", "x = 2\nprint(x * x + 1)", "print(z)", "print()", "print('')", "print(print(1))",
    "print(None, True, False, 0, -5, 'x')", "print('a\\tb', '\\\\')", "print('é' * 2)", "print(1)\nprint(2)\n3", "print('x'); 1 // 0; print('y')",
    "1 + 2 * 3 - 4 // 3 % 2", "(1 + 2) * 3", "print(-7 // 2, -7 % 2)", "print(7 // -2, 7 % -2, -7 // -2, -7 % -2)", "print(0 // 5, 0 % -5)",
    "print(2 ** 10, 0 ** 0, -2 ** 2, (-2) ** 3, 2 ** 3 ** 2)", "print(True + True, True * 3, -True, +False, True ** 2)",
    "-2 ** 126 * 2", "170141183460469231731687303715884105727", "1 // 0", "1 % 0", "0 // False",
    "'a' + 'b'", "'ab' * 3", "3 * 'ab'", "print('ab' * -1, 'ab' * True, False * 'ab', '' * 10)",
    "'a' + 1", "1 + 'a'", "'a' - 'b'", "None + 1", "'a' * 'b'", "None * 2", "'a' // 2", "'a' % 1", "1 ** 'a'", "1 % None", "-'a'", "+None",
    "1 < 'a'", "None < 1", "'a' >= 2", "None > None", "1 <= None", "1 in 'a'", "None not in 'a'", "'a' in 1", "'a' not in None",
    "print(1 < 2 < 3, 3 > 2 > 2, 1 <= 1, 2 >= 3)", "print(1 == True, 1 is True, 1 != 2, None is None, None == None, 'a' == 1, None != 0)",
    "print('a' < 'b', 'ab' < 'abc', 'b' > 'abc', '' <= '', 'a' >= 'b')", "print('ab' == 'ab', 'ab' != 'abc')", "'é' < '😀'",
    "print('an' in 'banana', '' in '', 'x' not in 'abc', 'abcd' in 'abc')", "1 < 2 == True", "(1 < 2) == True",
    "print(1 is 2, True is False, 'a' is 'ab', 1 is not 2, None is 0, 'a' is 1, 0 is False)", "print(2 >= 2, 2 <= 2, 2 > 2, 2 < 2, 'b' >= 'b', 'b' > 'b', 1 != True, 0 == False)", "print(1 == 2, True == False, 0 == False, 1 == 'a', None == 0, '' == None)",
    "print(1) == print(2) != print(3)", "1 > 2 > print(3)", "1 < 2 < 'a'", "1 is 1 is not None",
    "0 or 'a'", "'' and 1", "1 and 2 and 3", "0 or None or ''", "1 and 0 and print(1)", "1 or print(2)", "(0 or 1) and 'b'", "0 or x",
    "not 0", "not 'a'", "not not None", "not -0 == 0", "1 if 'x' else 2", "print(1) if 0 else 'no'", "1 if 0 else 2 if '' else 3", "x = -(1 if None else -(2)) ** (0 or 3)\nx", "x if 1 else 2",
    "a = b = 'q'\na + b", "x = 5; x -= 2; x *= 4; x //= 5; x **= 3; x %= 5\nx", "x = 'a'\nx += 'b'\nx *= 2\nx", "x = 1\nx += 'a'",
    "y += 1 // 0", "x = 1\nx += y", "a = 1 // 0", "a = 1\na = b", "n = 1; m = 1 // 0; n = 2", "x = 1; x // 0", "_a1 = Zz = 0; _a1", "x = None; y = not x; z = 'é'; y", "b = a = 0; B = a; a_ = B",
    "(a) = 1; a", "(a) = (b) = c = 3; print(a, b, c)", "((a)) = 1\n(a) = a + 1\na", "(print)(1)", "((print))((2), 'x')", "((x)) = (y)",
    "x = 3\nif x > 2: 'big'", "if 0: print(1)\nelif '': print(2)\nelif 1: print(3)\nelse: print(4)", "if None: pass\nelse: print('else')", "if 0: x = 1\nelif None: x = 2",
    "if 1:\n  if '':\n    print(1)\n  else:\n    print(2)\n  x = 5\nx", "if y: pass", "if 0 or 1: x = not 1\nx",
    "n = 3\nwhile n: print(n); n -= 1", "while 0: print(1)", "while x: pass", "n = 0\nwhile True:\n  n += 1\n  if n == 2: continue\n  if n == 4: break\n  print(n)\nn",
    "i = 0\nwhile i < 2:\n  j = 0\n  while True:\n    j += 1\n    if j > i: break\n  print(i, j)\n  i += 1", "n = 3\nwhile n:\n  n -= 1\n  n // (n - 1)",
]

# What CPython does otherwise, doesn't promise, or takes too long for.
OWN = [
    "2 ** 127", "170141183460469231731687303715884105727 + 1", "-170141183460469231731687303715884105727 - 2", "x = -2 ** 126 * 2; x // -1", "x = -2 ** 126 * 2; -x",
    "2 ** -1", "0 ** -1", "x = 'ab'; x is 'a' 'b'", "'a' is not 'b'", "print(1)\r\nprint(2)\r", "print('''a\r\nb''')",
    "n = 0\nwhile True: n += 1", "print('before')\nwhile True: pass", "x = 'a' * 4000000", "x = 'a' * 3999996", "x = 'a' * 3999997",
    "x = 'a' * 2000000\nprint('one')\nprint(x)", "'a' * 1999999", "'a' * 170141183460469231731687303715884105727", "('b' * 2000) in 'b' * 2000",
]

# Texts without a tree, with the line of the fault.
FAULTS = [
    ("170141183460469231731687303715884105728", 1), ("x = 1\nif x:\n    y = ", 2), ("'abc", 1), ("a = = 1", 1), ("pass\n\nx = (1", 3), ("x\n  y\nz", 1),
    ("print('no')\nbreak", 2), ("x = 01", 1), ("while 1:\npass", 1), ("x = 1 $ 2", 1), ("\n\nx = 1 +\n", 3), ("if 1: pass\nelse pass", 1),
]

# How many steps are left, and the cell.
FEW = [
    (20, "n = 0\nwhile True: n += 1"), (21, "n = 0\nwhile True: n += 1"), (16, "n = 0\nwhile True: n += 1"), (3, "x = 1 + 2"), (4, "x = 1 + 2"), (0, "pass"), (1, "pass"),
    (8, "print('abc')"), (7, "print('abc')"), (9, "print(1, 2)"), (8, "print(1, 2)"), (4, "print()"), (3, "print()"), (3, "'a'"), (5, "'a'"), (4, "'a'"),
    (7, "x = 'ab' + 'cd'"), (8, "x = 'ab' + 'cd'"), (9, "x = 'ab' * 3"), (10, "x = 'ab' * 3"), (21, "1 // 0"), (20, "1 // 0"), (4, "1 // 0"), (3, "1 // 0"), (25, "x"), (26, "x"), (2, "x"),
    (6, "x = 'ab' < 'abc'"), (5, "x = 'ab' < 'abc'"), (6, "x = 'ab' is 'abc'"), (5, "x = 'ab' is 'abc'"), (10, "x = 'ab' in 'abc'"), (9, "x = 'ab' in 'abc'"), (4, "x = '' in 'a'"), (5, "x = '' in 'a'"),
    (6, "x = 'abc' > 'ab'"), (6, "x = 'abc' != 'ab'"), (4, "x = 1 == 'a'"), (6, "x = 1\nx = 2 if x else 3"), (5, "x = 1\nx = 2 if x else 3"), (5, "x = 0 or not 1"), (4, "x = 0 or not 1"), (3, "while 1: pass"), (4, "while 1: pass"),
    (7, "x = 'a'\nx += 'b'"), (8, "x = 'a'\nx += 'b'"), (12, "print(1)\nprint(2)"), (10, "print(1)\nprint(2)"),
    (2, "x if y else z"), (2, "x or 1"), (2, "x and 1"), (2, "not x"), (2, "-x"), (2, "x + 1"), (2, "x < 1"), (2, "print(x)"), (3, "print(x)"), (2, "while x: pass"), (2, "if x: pass"),
    (5, "x = 1\nx + y"), (5, "x = 1\nx * y"), (5, "x = 1\nx ** y"), (5, "x = 1\nx < y"), (5, "x = 1\nx += y"), (4, "x = 1\nx += y"), (3, "x = 1\nx += y"), (3, "while 1: x"), (4, "while 1: x"), (5, "while 1: x"),
    (8, "x = 1 < 2 < y"), (6, "x = 1 < 2 < y"), (5, "x = 1 < 2 < y"),
]

# ---- beside CPython


def plain(text):
    """A repr without modules and addresses."""
    return re.sub(r"<function (\w+) at \w+>", r"<function \1>", text.replace("'types.", "'"))


def in_python(text, names=()):
    """What CPython prints, shows, binds and raises."""
    names, out, shown, error = dict(names), io.StringIO(), [], None
    body = ast.parse(text).body
    last = body.pop() if body and isinstance(body[-1], ast.Expr) else None
    with contextlib.redirect_stdout(out):
        try:
            exec(compile(ast.Module(body, []), "cell", "exec"), names)
            found = eval(compile(ast.Expression(last.value), "cell", "eval"), names) if last else None
            shown = [] if found is None else [("shown", plain(repr(found)))]
        except Exception as raised:
            error = type(raised).__name__
    names.pop("__builtins__", None)
    return out.getvalue(), shown, {n: plain(repr(v)) for n, v in names.items()}, error


def in_machine(ran):
    shown = [o for o in ran.outputs if o[0] == "shown"]
    error = next((o[1] for o in ran.outputs if o[0] == "fault"), None)
    return ran.machine.out, shown, {n: representation(v) for n, v in ran.names.items()}, error


def is_refused(text):
    try:
        compile(text, "cell", "exec")
        return False
    except SyntaxError:
        return True


def check_same(rows, names=()):
    for text, ran in rows:
        if text not in node_cells.APART and repr(in_python(text, names)) != repr(in_machine(ran)):
            sys.exit("CPython differs at %r: %r, and not %r" % (text, in_python(text, names), in_machine(ran)))


def check(rows):
    check_same(rows)
    for text, _ in FAULTS[1:]:
        if not is_refused(text):
            sys.exit("CPython accepts %r" % text)


# ---- the tables


def rust_text(text):
    return escaped(text, str.isascii)


def spent(rows):
    return sum(ran.outcome == "stopped" for _, ran in rows)


def output_json(output):
    if output[0] == "stream":
        return {"name": "stdout", "output_type": "stream", "text": output[1]}
    if output[0] == "shown":
        return {"data": {"text/plain": output[1]}, "execution_count": 1, "metadata": {}, "output_type": "execute_result"}
    return {"ename": output[1], "evalue": output[2], "output_type": "error", "traceback": ["%s: %s" % output[1:]]}


RUST_HEAD = """// Made by tools/cells/cells.py: the cell's outcome and outputs in its answer, and its text, with \\x1f between, and
// \\x1e behind each row. The answer is BEGIN, this, END.
pub(crate) const COUNT: usize = %d;

// Of these so many spend their steps.
pub(crate) const SPENT: usize = %d;

pub(crate) const BEGIN: &str = "{\\"answer\\":\\"cell\\",\\"commit\\":1,\\"count\\":1,\\"outcome\\":";

pub(crate) const END: &str = "}\\n";

pub(crate) const ROWS: &str = "\\
"""


def answered(ran):
    """The outcome and the outputs, as they stand in the answer."""
    outputs = json.dumps([output_json(o) for o in ran.outputs], ensure_ascii=False, separators=(",", ":"), sort_keys=True)
    return '"%s","outputs":%s' % (ran.outcome, outputs)


def rust_row(text, ran):
    return "    %s\\x1f%s\\x1e\\\n" % (rust_text(answered(ran)), rust_text(text))


def rust(path, rows):
    with open(path, "w") as out:
        out.write(RUST_HEAD % (len(rows), spent(rows)))
        for text, ran in rows:
            out.write(rust_row(text, ran))
        out.write('";\n')


TOLD_HEAD = """// Made by tools/cells/cells.py: how a cell ended and what it shows, and its text, with \\x1f between, and \\x1e
// behind each row. What was printed stands in `<` and `>`.
pub(crate) const COUNT: usize = %d;

// Of these so many spend their steps.
pub(crate) const SPENT: usize = %d;

pub(crate) const ROWS: &str = "\\
"""


def told_output(output):
    return {"stream": " <%s>", "shown": " %s", "fault": " %s: %s"}[output[0]] % output[1:]


def told(path, rows):
    with open(path, "w") as out:
        out.write(TOLD_HEAD % (len(rows), spent(rows)))
        for text, ran in rows:
            out.write("    %s\\x1f%s\\x1e\\\n" % (rust_text(ran.outcome + "".join(map(told_output, ran.outputs))), rust_text(text)))
        out.write('";\n')


def codes(text, of=lambda t: t.encode()):
    if all(32 <= ord(c) < 127 or c == "\n" for c in text):
        return '(codes "%s")' % text.replace("\\", "\\\\").replace('"', '\\"').replace("\n", "\\n")
    return "(" + "".join("%d ∷ " % c for c in of(text)) + "[])"


def listed(items):
    items = list(items)
    return "(" + "".join(i + " ∷ " for i in items) + "[])" if items else "[]"


def class_number(name):
    return LISTED.index(name) - LISTED.index("bool")


def antt_value(value):
    if value is None:
        return "none"
    if isinstance(value, Class):
        return "class %d" % class_number(value.name)
    if value is PRINT or isinstance(value, Builtin):
        return "builtin %d" % LISTED.index("print" if value is PRINT else value.name)
    if isinstance(value, Thing):
        return "node %d" % value.number
    if isinstance(value, range):
        return "range %s" % " ".join(antt_value(n).split(" ", 1)[1] for n in (value.start, value.stop, value.step))
    if isinstance(value, str):
        return "text %s" % codes(value, lambda t: map(ord, t))
    if isinstance(value, bool):
        return "bool %s" % str(value).lower()
    return "integer (pos %d)" % value if value >= 0 else "integer (negsuc %d)" % (-value - 1)


def antt_key(key):
    if isinstance(key, tuple):
        return "p.tuple %s" % listed("p.%s" % antt_value(part) for part in key)
    return "p.single (p.%s)" % antt_value(key) if key is not None else "p.single p.none"


def antt_node(thing):
    if thing.kind == "dict":
        return "dict %s" % listed("(%s, %s)" % (antt_key(k), antt_value(v)) for k, v in thing.inside.items())
    if thing.kind == "SimpleNamespace":
        return "object %s" % listed("(%s, %s)" % (codes(k).strip("()"), antt_value(v)) for k, v in thing.inside.items())
    if thing.kind == "function":
        return "function One %s %s" % (codes(thing.inside.code), listed(map(antt_value, thing.inside.defaults)))
    if thing.kind in CLASSES:
        return "exception %d %s" % (class_number(thing.kind), listed(map(antt_value, thing.inside)))
    return "%s %s" % (thing.kind, listed(map(antt_value, thing.inside)))


def antt_ran(ran):
    outcome = {"ok": "Done", "error": "Raised", "stopped": "Stopped"}[ran.outcome]
    outputs = listed(["%s %s" % (o[0], " ".join(codes(part) for part in o[1:])) for o in ran.outputs])
    names = listed(["(codes \"%s\", %s)" % (n, antt_value(ran.names[n])) for n in sorted(ran.names)])
    accessed = listed(['codes "%s"' % n for n in sorted(set(ran.accessed))])
    if getattr(ran.machine, "things", None):
        return "ran_over %s %s %s %s %s %d" % (outcome, outputs, names, listed(map(antt_node, ran.machine.things)), accessed, ran.charge)
    return "ran %s %s %s %s %d" % (outcome, outputs, names, accessed, ran.charge)


# How many nestings stand around the innermost point that is evaluated.
DEEP = [
    (0, "x = y = 1\nx += y * 2 - 3"), (0, "x = 1\nx < 2 and x or (1)"), (1, "(1)"), (2, "((1))"), (1, "print(1)"), (2, "print((1))"), (2, "print(print(1))"), (1, "not 1"), (2, "not not 1"), (1, "-1"), (3, "- -(1)"),
    (1, "2 ** 3"), (1, "(1) ** 2"), (2, "2 ** 3 ** 1"), (4, "2 ** -(-1)"), (1, "1 if 0 else 2"), (2, "1 if 0 else 2 if 0 else 3"), (0, "1 if 2 else (3)"), (1, "(1) if 2 else 3"), (1, "1 < (2)"), (0, "1 > 2 > (3)"), (0, "0 and (1)"),
    (1, "if 1: pass"), (2, "if 1:\n  if 1: pass"), (1, "if 0: pass\nelse: 1"), (2, "if 0: pass\nelif 1: (1)"), (0, "if 0: (1)"), (2, "if 1: x = not 1"), (1, "while 1: break"), (2, "while 1:\n  if 1: break"), (1, "while (0): pass"), (1, "x = 1\nx += (2)"),
    (1, "(1); (2)"), (1, "(1) + -2 * (3)"), (2, "x = 3\nwhile x: x -= (1)"),
]

EXPRESSIONS = "keyword_begins another argument attribute call slice_after item_or_slice trailer parenthesised list pair dict atom primary_parts primary power unary_level term sum compared negated_level conjunction disjunction expr_level exprs_level phrase"
STATEMENTS = "primary_at another_simple raise return assertion delete global import update_of assignment_of update_or_assignment simple simples line block block_after arm choice while for caught handler handled finished try parameter definition define compound chunk program"
UNFOLDING = (
    "unfolding reserved_marks delimiter operator numeral Q.escape Q.item Q.closes Q.body Q.quoted token_piece lexeme cut indented begin bracket step layout encode_utf8 code_of "
    + " ".join("E." + x for x in EXPRESSIONS.split()) + " " + " ".join("S." + x for x in STATEMENTS.split()) + " R.piece read_chars chars digits power builtin_names class_names"
)
IMPORTS = """use Rattle.std.proofs.Common.{◌≡◌, ◌∷◌, [], refl}
use Rattle.std.specs.Prelude.{%s}
use Rattle.std.specs.Char.{encode_utf8}
use Rattle.std.specs.Fmt.{digits}
use Rattle.std.specs.Str.{chars}
%suse Rattle.kishu_meaning.specs.values.BuiltinNames.{builtin_names, class_names}
use Rattle.kishu_meaning.specs.values.Numbers.{power}
use Rattle.kishu_language.specs.tokens.Marks.{reserved_marks, delimiter, operator}
use Rattle.kishu_language.specs.tokens.Numerals.{numeral}
use Rattle.kishu_language.specs.tokens.Quoted as Q
use Rattle.kishu_language.specs.tokens.Lexemes.{token_piece, lexeme}
use Rattle.kishu_language.specs.tokens.Layout.{cut, indented, begin, bracket, step, layout}
use Rattle.kishu_language.specs.trees.Code.{code_of}
use Rattle.kishu_language.specs.reading.ReadExpressions as E
use Rattle.kishu_language.specs.reading.ReadStatements as S
use Rattle.kishu_language.specs.reading.ReadText as R
use Rattle.kishu_language.specs.reading.ReadText.{read_chars}
%s"""


FIRST = "pos negsuc true false codes Some None"
PROFILES = ("use Rattle.kishu_language.specs.declared.profile.Profile.TheVariants.{%s}\n", "One")
OUTCOMES = ("use Rattle.kishu_meaning.specs.declared.result.Outcome.TheVariants.{%s}\n", "Done Raised Stopped")
GROUPS = (
    ("use Rattle.kishu_meaning.specs.values.Keys as %s\n", "p"),
    ("use Rattle.kishu_meaning.specs.values.Values.{%s}\n", "none bool integer text range builtin class node list tuple dict object function exception empty stream shown fault"),
    ("use Rattle.kishu_meaning.specs.cells.Meaning.{%s}\n", "run call"),
    ("use Rattle.kishu_meaning_rows.proofs.Cells.{%s}\n", "ran ran_over ranged run_with run_at"),
)


def imports(rows):
    words = set(re.findall(r"\w+", re.sub(r'"(\\.|[^"\\])*"', "", " ".join(call + " " + answer for call, answer in rows))))

    def line(group):
        names = ", ".join(n for n in group[1].split() if n in words)
        return group[0] % names if names else ""

    return IMPORTS % (line(("%s", FIRST)), line(PROFILES) + line(OUTCOMES), "".join(map(line, GROUPS)))


def antt(path, head, name, first, rows, further=""):
    own = rows[0][0].split()[0]
    unfolding = UNFOLDING + {"run": " run"}.get(own, "") + further
    with open(path, "w") as out:
        out.write("-- %s: computed on the definition. Made by tools/cells/cells.py.\n%s" % (head, imports(rows + [(further, "")])))
        for i, (call, answer) in enumerate(rows, first):
            out.write("\n%s_%d : %s ≡ %s\n%s\n%s_%d = refl\n" % (name, i, call, answer, unfolding, name, i))


def antt_nodes(folder, rows):
    short = [("run One %s empty" % codes(text), antt_ran(ran)) for text, ran in rows if ran.charge < 500]
    third = -(-len(short) // 3)
    files = ("NodeCells", "What some cells over nodes give"), ("MoreNodeCells", "What further cells over nodes give"), ("LastNodeCells", "What the last cells over nodes give")
    for i, (name, head) in enumerate(files):
        antt("%s/%s.antt" % (folder, name), head, "over", third * i + 1, short[third * i : third * (i + 1)])
    ranged = [(text, Ran(text, names=node_cells.RANGES)) for text in node_cells.RANGED + node_cells.RANGED_OWN]
    check_same(ranged[: len(node_cells.RANGED)], node_cells.RANGES)
    ranges = [("run One %s ranged" % codes(text), antt_ran(ran)) for text, ran in ranged]
    antt(folder + "/RangeCells.antt", "What some cells give that begin with ranges", "along", 1, ranges)
    few = [("run_with %d %s" % (n, codes(text)), antt_ran(Ran(text, budget=n))) for n, text in node_cells.FEW]
    deep = [("run_at %d %s" % (1000 - n, codes(text)), antt_ran(Ran(text))) for n, text in node_cells.DEEP]
    too_deep = [("(run_at %d %s).report.outputs" % (1001 - n, codes(text)), TOO_DEEP) for n, text in node_cells.DEEP if n > 0]
    antt(folder + "/NodeBudget.antt", "What some cells over nodes give where few steps are left", "scarce", 1, few)
    antt(folder + "/NodeDepth.antt", "What some cells over nodes give that begin at a great depth", "low", 1, deep + too_deep)


def antt_functions(folder, rows):
    short = [("run One %s empty" % codes(text), antt_ran(ran)) for text, ran in rows if ran.charge < 500]
    half = len(short) // 2
    antt(folder + "/FunctionCells.antt", "What some cells with functions and exceptions give", "way", 1, short[:half], " call")
    antt(folder + "/MoreFunctionCells.antt", "What further cells with functions and exceptions give", "way", half + 1, short[half:], " call")
    deep = [("run_at %d %s" % (1000 - n, codes(text)), antt_ran(Ran(text))) for n, text in function_cells.DEEP]
    too_deep = [("(run_at %d %s).report.outputs" % (1001 - n, codes(text)), TOO_DEEP) for n, text in function_cells.DEEP if n > 0 and "except" not in text]
    too_deep += [("(run_at %d %s).report.outputs" % (n, codes(text)), TOO_DEEP) for n, text in function_cells.TOO_DEEP]
    few = [("run_with %d %s" % (n, codes(text)), antt_ran(Ran(text, budget=n))) for n, text in function_cells.FEW]
    antt(folder + "/FunctionBudget.antt", "What some cells with functions and exceptions give where few steps are left", "short", 1, few, " call")
    antt(folder + "/FunctionDepth.antt", "What some cells with functions and exceptions give that begin at a great depth", "far", 1, deep + too_deep, " call")


def antt_builtins(folder, rows):
    short = [("run One %s empty" % codes(text), antt_ran(ran)) for text, ran in rows if ran.charge < 500]
    half = len(short) // 2
    antt(folder + "/BuiltinCells.antt", "What some cells with builtin functions and classes give", "builtin", 1, short[:half], " call")
    antt(folder + "/MoreBuiltinCells.antt", "What further cells with builtin functions and classes give", "builtin", half + 1, short[half:], " call")
    few = [("run_with %d %s" % (n, codes(text)), antt_ran(Ran(text, budget=n))) for n, text in builtin_cells.FEW]
    antt(folder + "/BuiltinBudget.antt", "What some cells with builtin functions and classes give where few steps are left", "spare", 1, few)


TOO_DEEP = 'fault (codes "RecursionError") (codes "depth limit reached") ∷ []'


def antt_plain(folder, rows):
    """The rows of plain cells: what they give, with few steps, and at a great depth."""
    short = [("run One %s empty" % codes(text), antt_ran(ran)) for text, ran in rows if ran.charge < 500]
    few = [("run_with %d %s" % (n, codes(text)), antt_ran(Ran(text, budget=n))) for n, text in FEW]
    deep = [("run_at %d %s" % (1000 - n, codes(text)), antt_ran(Ran(text))) for n, text in DEEP]
    too_deep = [("(run_at %d %s).report.outputs" % (1001 - n, codes(text)), TOO_DEEP) for n, text in DEEP if n > 0]
    half = len(short) // 2
    tables = (
        ("MeaningExamples", "What some cells give", "cell", 1, short[:half]),
        ("MoreExamples", "What further cells give", "cell", half + 1, short[half:]),
        ("BudgetExamples", "What some cells give where few steps are left", "few", 1, few),
        ("DepthExamples", "What some cells give that begin at a great depth", "deep", 1, deep + too_deep),
    )
    for name, head, row, first, found in tables:
        antt("%s/%s.antt" % (folder, name), head, row, first, found)


def antt_rules(folder):
    """The rows of which kishu_tests has none."""
    rows = [(text, Ran(text)) for text in rule_cells.SAME + rule_cells.OWN]
    check_same(rows[: len(rule_cells.SAME)])
    cells = [("run One %s empty" % codes(text), antt_ran(ran)) for text, ran in rows]
    half = len(cells) // 2
    antt(folder + "/RuleCells.antt", "What some cells give, for each rule of expressions and builtin functions", "rule", 1, cells[:half], " call")
    antt(folder + "/MoreRuleCells.antt", "What some cells give, for each rule of statements, and where CPython differs", "rule", half + 1, cells[half:], " call")
    deep = [("run_at %d %s" % (1000 - n, codes(text)), antt_ran(Ran(text))) for n, text in rule_cells.DEEP]
    too_deep = [("(run_at %d %s).report.outputs" % (1001 - n, codes(text)), TOO_DEEP) for n, text in rule_cells.DEEP]
    antt(folder + "/RuleDepth.antt", "What some cells give that compare nodes at a great depth", "level", 1, deep + too_deep)


def main():
    rows = [(text, Ran(text)) for text in SAME + OWN] + [(text, Ran(text, line)) for text, line in FAULTS]
    over_nodes = [(text, Ran(text)) for text in node_cells.SAME + node_cells.OWN]
    functions = [(text, Ran(text)) for text in function_cells.SAME + function_cells.OWN]
    with_builtins = [(text, Ran(text)) for text in builtin_cells.SAME + builtin_cells.OWN]
    check(rows[: len(SAME)] + over_nodes[: len(node_cells.SAME)] + functions[: len(function_cells.SAME)] + with_builtins[: len(builtin_cells.SAME)])
    if sys.argv[1] == "rust":
        return rust(sys.argv[2], rows + over_nodes + functions + with_builtins)
    if sys.argv[1] == "told":
        return told(sys.argv[2], rows + over_nodes + functions + with_builtins)
    folder = sys.argv[2]
    antt_nodes(folder, over_nodes)
    antt_functions(folder, functions)
    antt_builtins(folder, with_builtins)
    antt_plain(folder, rows)
    antt_rules(folder)


if __name__ == "__main__":
    main()
