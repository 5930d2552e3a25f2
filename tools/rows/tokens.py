#!/usr/bin/env python3
"""Makes the table of texts and their tokens by which the lexer is tested.

Usage: tools/rows/tokens.py rust > crates/kishu_syntax_tests/src/lexer/table.rt
       tools/rows/tokens.py antt > crates/kishu_language_rows/proofs/TokenExamples.antt

Where the language agrees with Python the tokens come from CPython's `tokenize`, with their lines
and places, and the values of numbers and texts from `ast.literal_eval`. The rows of OWN differ
from Python (or `tokenize` reads them otherwise than CPython's parser), so their tokens stand here
by hand; FAULTS gives the line of the first fault.
"""
import ast
import io
import keyword
import sys
import tokenize
import warnings

from rust_text import escaped

warnings.simplefilter("ignore")

SIGNS = {
    "+": "Plus", "-": "Minus", "*": "Star", "//": "FloorDivide", "%": "Percent", "**": "Power",
    "==": "Equal", "!=": "NotEqual", "<": "Less", "<=": "LessEqual", ">": "Greater",
    ">=": "GreaterEqual", "=": "Assign", "+=": "PlusAssign", "-=": "MinusAssign",
    "*=": "StarAssign", "//=": "FloorDivideAssign", "%=": "PercentAssign", "**=": "PowerAssign",
    "(": "LeftParenthesis", ")": "RightParenthesis", "[": "LeftBracket", "]": "RightBracket",
    "{": "LeftBrace", "}": "RightBrace", ",": "Comma", ":": "Colon", ".": "Dot", ";": "Semicolon",
}

# Read as CPython reads them.
SAME = [
    "",
    "x",
    "x\n",
    "x = 1\n",
    "\n\n  \n# c\n",
    "x # c \\\ny\n",
    "x = \\\n  1\ny\n",
    "(a,\n b)\nc\n",
    "[\n# c\n\n  {\n}\n]\n",
    "if a:\n  b\n\n    # c\n  c\nd\n",
    "if a:\n\tif b:\n\t  c\nd\n",
    "if a:\n  b",
    "if a:\n  if b:\n    c\n",
    "if a:\n  if b:\n    c\nd\n",
    "if a:\n \tb\n \tif c:\n \t\td\n \te\n",
    "if a:\n  b\n # c\nd\n",
    "if a: b\n",
    "_a1 Zz __\n",
    " ".join(sorted(keyword.kwlist)) + "\n",
    "iff nota NONE\n",
    "0 00 0_0 1 12 1_2_3\n",
    "1'a' 1(2)x\n",
    "0x1F 0XaB_c 0o17 0O7 0b101 0B_1 0x_f\n",
    "170141183460469231731687303715884105727\n",
    "0x7fffffffffffffffffffffffffffffff\n",
    "'a' \"b\" '''c''' \"\"\"d\"\"\"\n",
    "'' \"\" '''''' r''\n",
    "'a\"b' \"a'b\" '''a'b''c'''\n",
    "r'a\\'b' R\"\\n\\x\" u'x\\t' U\"y\"\n",
    "r x\n",
    "\"\"\"a\n'b\"c\n\"\"\"\nx\n",
    "'a\\\nb'\nx\n",
    "r'a\\\nb'\nx\n",
    "r'\\N\\ud800\\\\' R'\\'' r\"\"\"a\n\\\"\"\"\"\n",
    "'''\\\na\\n'''\n",
    "'\\\\\\'\\\"\\a\\b\\f\\n\\r\\t\\v'\n",
    "'\\0\\12\\101\\1018\\777\\8'\n",
    "'\\x41\\x7f\\xe9\\u00e9\\U0001F600\\U0010ffff'\n",
    "'\\q\\é\\_'\n",
    "'é😀' x\n",
    "'a' 'b'\n",
    "# é\nx\n",
    "'a\x0cb' # \x0c\nx\n",
    "+ - * // % ** == != < <= > >= = += -= *= //= %= **= , : . ;\n",
    "()[]{}\n",
    "a**=b**c//=d//e*f\n",
    "a<=b<c==d!=e>=f>g=h\n",
    "a-=1-b+=2+c*=3*d%=4%e\n",
    "a.b;c:d\n",
    "a--b\n",
    "x\r\ny\rz\n",
    "x\r\r\ny\n",
    "'''a\r\nb\rc''' d\n",
    "# a\rx\n",
    "x\n\n\n  # end",
    "a" * 255 + "\n",
    "x\t=\t1\n",
]

# Read otherwise than CPython reads them, or than `tokenize` does.
OWN = [
    ("\\\nx\n", "x@2:2-3 newline@2:3-4"),
    ("\\\n  x\n", "x@2:4-5 newline@2:5-6"),
    ("  \\\n a", "indent@1:0-2 a@2:5-6 newline@2:6-6 dedent@2:6-6"),
    ("  \\\n\\\n x\ny\n", "indent@1:0-2 x@3:7-8 newline@3:8-9 dedent@4:9-9 y@4:9-10 newline@4:10-11"),
    ("if a:\n  \\\n b\n", "If@1:0-2 a@1:3-4 Colon@1:4-5 newline@1:5-6 indent@2:6-8 b@3:11-12 newline@3:12-13 dedent@4:13-13"),
    ("if a:\n    b\n\\\nc\n", "If@1:0-2 a@1:3-4 Colon@1:4-5 newline@1:5-6 indent@2:6-10 b@2:10-11 newline@2:11-12 dedent@3:12-12 c@4:14-15 newline@4:15-16"),
    ("if a:\n  if b:\n    c\n  \\\nd\n", "If@1:0-2 a@1:3-4 Colon@1:4-5 newline@1:5-6 indent@2:6-8 If@2:8-10 b@2:11-12 Colon@2:12-13 newline@2:13-14 indent@3:14-18 c@3:18-19 newline@3:19-20 dedent@4:22-22 d@5:24-25 newline@5:25-26 dedent@6:26-26"),
    ("x\\\n", "x@1:0-1 newline@2:3-3"),
    ("\\\n", ""),
    ("x\n  \\\n\n\\\n # c\ny\n", "x@1:0-1 newline@1:1-2 y@6:14-15 newline@6:15-16"),
    ("br'x'\n", "br@1:0-2 'x'@1:2-5 newline@1:5-6"),
    ("rr'x'\n", "rr@1:0-2 'x'@1:2-5 newline@1:5-6"),
    ("ur'x' Rr'y'", "ur@1:0-2 'x'@1:2-5 Rr@1:6-8 'y'@1:8-11 newline@1:11-11"),
    (".5\n", "Dot@1:0-1 #5@1:1-2 newline@1:2-3"),
    ("a<>b:=c->d...\n", "a@1:0-1 Less@1:1-2 Greater@1:2-3 b@1:3-4 Colon@1:4-5 Assign@1:5-6 c@1:6-7 Minus@1:7-8 Greater@1:8-9 d@1:9-10 Dot@1:10-11 Dot@1:11-12 Dot@1:12-13 newline@1:13-14"),
    ("1 if x\n", "#1@1:0-1 If@1:2-4 x@1:5-6 newline@1:6-7"),
    ("print\n", "print@1:0-5 newline@1:5-6"),
]

# A text, and the line of its first fault.
FAULTS = [
    ("a\n$\n", 2), ("?", 1), ("a ! b", 1), ("a / b", 1), ("a /= b", 1), ("a @ b", 1), ("~a", 1),
    ("é", 1), ("aé", 1), ("a\x0cb", 1), ("\x0ca", 1), ("x\n \x0c\n", 2), ("a\x0b", 1),
    ("\u00a0a", 1), ("\ufeffa", 1), ("a\n\n(\n\n`", 5),
    ("a\0", 1), ("a\n# \0\n", 2), ("\n\0\n", 2), ("'\0'", 1), ("'''\n\n\0'''", 3),
    ("'''\n\0\n\\x1'''", 1), ("'''\n\0", 1), ("if a:\n  b\n#\0\n c", 3),
    ("r'\\\0'", 1), ("a\\\0", 1), ("1\0", 1), ("(\n# \0\n", 2),
    ("a \\ b", 1), ("a\\", 1), ("\\", 1), ("a\\ \nb", 1),
    ("if a:\n    b\n  c\n", 3), ("if a:\n\tb\n        c\n", 3), ("if a:\n  b\n\tc\n", 3),
    ("if a:\n  if b:\n    c\n   d\n", 4), ("if a:\n\t b\n \tc\n", 3),
    ("if a:\n    b\n  \\\nc\n", 3), ("if a:\n    b\n  \\\n$", 3), ("if a:\n    b\n  \\\n)", 3),
    ("if a:\n    b\n  \\\n# \0", 4), ("if a:\n    b\n\\\n$", 4),
    ("if a:\n    b\n  '''\n\0", 3), ("if a:\n    b\n  '''\n\0'''", 3), ("if a:\n    b\n  'c\\\n\0'", 3),
    ("if a:\n    b\n    '''\n\0'''", 4), ("if a:\n    b\n '''\n\\x1'''", 3),
    (")", 1), ("(\n]", 2), ("(]", 1), ("[(])", 1), ("{\n)\n", 2), ("(\n", 1), ("(\n[\n", 2), ("(\n[\n]\n", 1),
    ("(\n\n$", 3), ("(\n'a", 2), ("{a\nb", 1),
    ("a" * 256, 1),
    ("01", 1), ("0_1", 1), ("1_", 1), ("1__0", 1), ("0x", 1), ("0x_", 1), ("0x1_", 1), ("0x__1", 1),
    ("0xg", 1), ("0b2", 1), ("0o8", 1), ("1a", 1), ("1.5", 1), ("1.", 1), ("0x1.", 1), ("1_a", 1),
    ("12e3", 1), ("1if", 1), ("0__0", 1),
    ("170141183460469231731687303715884105728", 1), ("0x80000000000000000000000000000000", 1),
    ("99999999999999999999999999999999999999999999", 1),
    ("'a\nb'", 1), ("x\n'''a\n", 2), ("'a", 1), ("'a\\", 1), ("r'\\'", 1), ("'''a''", 1), ("\"a'", 1),
    ("'\\x4'", 1), ("'\\xg1'", 1), ("'\\u123'", 1), ("'\\U0001234'", 1), ("'\\ud800'", 1),
    ("'\\udfff'", 1), ("'\\U00110000'", 1), ("'\\N{DIGIT ONE}'", 1), ("x\n'''a\n\\N'''", 2),
    ("'\\x", 1), ("u'\\N'", 1), ("'\\UD800DFFF'", 1), ("'\\Uffffffff'", 1), ("\n'''\n\\udc00'''", 2),
    ("r'''a''", 1), ("r'a\nb'", 1), ("'''\\'''", 1),
    ("x = \\\n\n$", 3), ("'a\\\nb'\n$", 3), ("'''a\n\n'''$", 3), ("a\r\n$", 2), ("a\r$", 2), ("a\r\r$", 3),
]

# Those whose examples are computed on the definition itself.
COMPUTED_TOKENS = [
    "", "x", "x = 1\n", "\n\n  \n# c\n", "x # c \\\ny\n", "x = \\\n  1\ny\n", "(a,\n b)\nc\n",
    "if a:\n  b\n\n    # c\n  c\nd\n", "if a:\n  b", "if a:\n  if b:\n    c\nd\n",
    "0 00 0_0 1 12 1_2_3\n", "0x1F 0XaB_c 0o17 0O7 0b101 0B_1 0x_f\n",
    "170141183460469231731687303715884105727\n",
    "'a' \"b\" '''c''' \"\"\"d\"\"\"\n", "r'a\\'b' R\"\\n\\x\" u'x\\t' U\"y\"\n", "'a\\\nb'\nx\n",
    "'\\\\\\'\\\"\\a\\b\\f\\n\\r\\t\\v'\n", "'\\0\\12\\101\\1018\\777\\8'\n", "'\\q\\é\\_'\n",
    "'\\x41\\x7f\\xe9\\u00e9\\U0001F600\\U0010ffff'\n",
    "+ - * // % ** == != < <= > >= = += -= *= //= %= **= , : . ;\n", "()[]{}\n",
    "a**=b**c//=d//e*f\n", "x\r\ny\rz\n", "'''a\r\nb\rc''' d\n", "x\\\n", "br'x'\n", "ur'x' Rr'y'", ".5\n",
    "  \\\n a", "\\\n  x\n", "if a:\n    b\n\\\nc\n", "\\\n",
]
COMPUTED_FAULTS = [
    "a\n$\n", "a / b", "é", "a\x0cb", "a\n# \0\n", "'''\n\n\0'''", "'''\n\0\n\\x1'''", "a \\ b", "a\\",
    "if a:\n    b\n  c\n", "if a:\n\tb\n        c\n", "if a:\n    b\n  \\\nc\n", "if a:\n    b\n  '''\n\0",
    "if a:\n    b\n  \\\n# \0", "(\n]", "(\n[\n", "(\n\n$", "0_1", "0x_", "1.",
    "170141183460469231731687303715884105728", "'a\nb'", "x\n'''a\n", "r'\\'", "'\\u123'", "'\\ud800'",
    "'\\N{DIGIT ONE}'", "x = \\\n\n$",
]


def plain(text):
    return text.replace("\r\n", "\n").replace("\r", "\n")


def read(text):
    """The tokens of a text by `tokenize`: kind, line, start and end."""
    text = plain(text)
    lines = text.split("\n")
    starts = [0]
    for line in lines:
        starts.append(starts[-1] + len(line.encode()) + 1)
    length = len(text.encode())

    def place(row, column):
        if row > len(lines):
            return length
        line = lines[row - 1] + "\n"
        return min(length, starts[row - 1] + len(line[:column].encode()))

    tokens = []
    for token in tokenize.generate_tokens(io.StringIO(text).readline):
        line, start, end = token.start[0], place(*token.start), place(*token.end)
        if token.type in (tokenize.COMMENT, tokenize.NL, tokenize.ENDMARKER):
            continue
        if token.type == tokenize.NEWLINE:
            if token.string == "":
                start = end = length
            kind = ("newline", None)
        elif token.type == tokenize.INDENT:
            kind = ("indent", None)
        elif token.type == tokenize.DEDENT:
            kind = ("dedent", None)
            line, end = min(line, len(lines)), start
        elif token.type == tokenize.NAME and keyword.iskeyword(token.string):
            kind = ("mark", token.string.capitalize())
        elif token.type == tokenize.NAME:
            kind = ("name", token.string)
        elif token.type == tokenize.NUMBER:
            kind = ("number", ast.literal_eval(token.string))
        elif token.type == tokenize.STRING:
            kind = ("text", ast.literal_eval(token.string))
        elif token.type == tokenize.OP:
            kind = ("mark", SIGNS[token.string])
        else:
            sys.exit(f"{text!r}: {token}")
        tokens.append((kind, line, start, end))
    return tokens


def own(shown):
    """The tokens that are written down by hand."""
    tokens = []
    for token in shown.split():
        kind, at = token.rsplit("@", 1)
        line, span = at.split(":")
        start, end = span.split("-")
        if kind in ("newline", "indent", "dedent"):
            kind = (kind, None)
        elif kind.startswith("#"):
            kind = ("number", int(kind[1:]))
        elif kind.startswith("'"):
            kind = ("text", kind[1:-1])
        elif kind in SIGNS.values() or kind.lower() in map(str.lower, keyword.kwlist):
            kind = ("mark", kind)
        else:
            kind = ("name", kind)
        tokens.append((kind, int(line), int(start), int(end)))
    return tokens


def shown(tokens):
    def kind(k):
        return {"number": f"#{k[1]}", "text": f"'{k[1]}'", "name": k[1], "mark": k[1]}.get(k[0], k[0])

    return " ".join(f"{kind(k)}@{line}:{start}-{end}" for k, line, start, end in tokens)


def rust_text(text):
    return '"' + escaped(text, lambda c: c.isprintable() and ord(c) < 0x10000) + '"'


def antt_text(text):
    """The characters of a text, as a list of their codes."""
    if all(32 <= ord(c) < 127 or c == "\n" for c in text):
        return '(codes "' + text.replace("\\", "\\\\").replace('"', '\\"').replace("\n", "\\n") + '")'
    return "(" + " ∷ ".join(str(ord(c)) for c in text) + " ∷ [])"


def antt_bytes(text):
    return antt_text("".join(map(chr, text.encode())))


def antt_kind(kind):
    word, value = kind
    if word == "name":
        return f"(name {antt_bytes(value)})"
    if word == "text":
        return f"(quoted {antt_bytes(value)})"
    if word == "number":
        return f"(integer (pos {value}))"
    if word == "mark":
        return f"(mark m.{value})"
    return word


ROWS = [(text, read(text)) for text in SAME] + [(text, own(tokens)) for text, tokens in OWN]


def rust():
    rows = [(text, shown(tokens)) for text, tokens in ROWS]
    rows += [(text, f"line {line}") for text, line in FAULTS]
    # What a row wants stands first, so that no line of the string begins with the text's blanks.
    print("// Made by tools/rows/tokens.py: what is wanted and the text, with \\x1f between, and \\x1e behind each row.")
    print(f"pub(crate) const COUNT: usize = {len(rows)};\n")
    print('pub(crate) const ROWS: &str = "\\')
    for text, want in rows:
        print(f"    {rust_text(want)[1:-1]}\\x1f{rust_text(text)[1:-1]}\\x1e\\")
    print('    ";')


OPENED = (
    "unfolding reserved_marks delimiter operator numeral escape item closes body Q.quoted token_piece lexeme cut "
    "indented begin bracket step layout encode_utf8"
)


HEAD = """-- Which tokens some texts have, and where some have a fault: computed on the definition. Made by tools/rows/tokens.py.
use Rattle.std.proofs.Common.{◌≡◌, ◌∷◌, [], refl}
use Rattle.std.specs.Prelude.{pos, codes, Ok, Err}
use Rattle.std.specs.Char.{encode_utf8}
use Rattle.kishu_language.specs.declared.profile.Profile.TheVariants.{One}
use Rattle.kishu_language.specs.declared.token.Mark.TheVariants as m
use Rattle.kishu_language.specs.tokens.Marks.{reserved_marks, delimiter, operator}
use Rattle.kishu_language.specs.tokens.Numerals.{numeral}
use Rattle.kishu_language.specs.tokens.Quoted as Q
use Rattle.kishu_language.specs.tokens.Quoted.{escape, item, closes, body}
use Rattle.kishu_language.specs.tokens.Lexemes.{token_piece, lexeme}
use Rattle.kishu_language.specs.tokens.Layout.{name, integer, quoted, newline, indent, dedent, mark, token, cut, indented, begin, bracket, step, layout}
use Rattle.kishu_language.specs.tokens.Tokens.{tokens_of_chars}
"""


def antt():
    known, faults = dict(ROWS), dict(FAULTS)
    claims = []
    for text in COMPUTED_TOKENS:
        listed = "".join(f"token {antt_kind(k)} {line} {start} {end} ∷ " for k, line, start, end in known[text])
        claims.append(f"tokens_of_chars One {antt_text(text)} ≡ Ok ({listed}[])")
    for text in COMPUTED_FAULTS:
        claims.append(f"tokens_of_chars One {antt_text(text)} ≡ Err {faults[text]}")
    texts = [f"text_{i} : {claim}\n{OPENED}\ntext_{i} = refl" for i, claim in enumerate(claims, 1)]
    print("\n\n".join([HEAD.rstrip()] + texts))


if __name__ == "__main__":
    {"rust": rust, "antt": antt}[sys.argv[1]]()
