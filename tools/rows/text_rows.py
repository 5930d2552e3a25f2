#!/usr/bin/env python3
"""Makes the rows on single rules of texts: in crates/kishu_language_rows/proofs NumeralExamples,
QuotedExamples, LexemeExamples, MoreTokenExamples, TokenFaultExamples, PlainLineExamples and PlaceRows, and in
crates/kishu_meaning_rows/proofs NameExamples, WhiteExamples, CuttingExamples, NumberRows, ReadingRows and ResultRows.

What they want is asked of CPython: of `int` with base 0, of `ast.literal_eval`, `str.isidentifier` and
`keyword`, of the methods of `str`, and of its whole numbers. What stands under OWN is this language's own.
"""
import ast
import io
import keyword
import re
import tokenize
import warnings

import tokens
from nodes import BUILTINS, CLASSES, LANGUAGE, MEANING, listing, needed, number, row_file, text, truth, write
from tokens import antt_kind, antt_text

warnings.simplefilter("ignore")

COMMON = "use Rattle.std.proofs.Common.{◌≡◌, refl, [], ◌∷◌, true, false, ◌-◌, ◌^◌, ◌++◌, replicate}"
PRELUDE = "use Rattle.std.specs.Prelude.{pos, negsuc, codes, Some, None, Ok, Err}"


def rows_file(name, head, uses, rows, prefix, unfolding=""):
    signs = " ◌++◌" if any(" ++ " in row for row in rows) else ""
    write(name, head + ": computed on the definition.", needed([COMMON, PRELUDE] + uses, rows, unfolding + signs), rows, prefix, unfolding, maker="text_rows.py")


def some(found):
    return "None" if found is None else f"Some {found}"


# ---- numbers in a text

WORDS = [
    "0", "00", "000", "0_0", "0_0_0", "1", "9", "10", "12", "1_2_3", "1_000_000", "9_9", "007", "01", "0_1", "00_1", "1_", "1__0", "0_", "0__0", "1_0_",
    "0x0", "0X1", "0x1F", "0xaF", "0XaB_c", "0x_f", "0x__f", "0x", "0X", "0x_", "0xf_", "0xg", "0x1g", "0xb", "0x0b1", "0x00ff", "0xf__f",
    "0o17", "0O7", "0o_7", "0o777", "0o8", "0o18", "0o", "0o_", "0o7_", "0o7__7", "0oa",
    "0b101", "0B_1", "0b2", "0b12", "0b", "0b_", "0b1_0_1", "0b1__0", "0b1_", "0b000",
    "12e3", "1a", "0d1", "0_x1", "00x1", "1x1", "1L", "0a",
]
LIMITS = [str(2**127 - 1), hex(2**127 - 1), oct(2**127 - 1), bin(2**127 - 1), str(2**127), hex(2**127), oct(2**127), bin(2**127), "1" + "0" * 60, "0x" + "0" * 40 + "1", "0" * 60]


def numeral_row(word):
    try:
        value = int(word, 0)
    except ValueError:
        value = None
    wide = value is not None and value >= 2**127
    return f"numeral {text(word)} ≡ {some(None if value is None or wide else number(value))}"


# ---- texts in quotes

QUOTES = [
    "'a'", '"a"', "''", '""', "''''''", '""""""', "'''a'''", '"""a"""', "'a' b'", "'a\"b'", "\"a'b\"", "'''a'b''c'''", "''''a'''", "'''\"\"\"'''", '"""\'\'\'"""', "'''a\nb'''", "'''\n'''", "'é'", "'😀é'",
    "'a\\x41'", "'\\n\\t'", "'\\\\'", "'\\''", "'\\\"'", "'\\a\\b\\f\\r\\v'", "'\\0'", "'\\7'", "'\\12'", "'\\101'", "'\\1018'", "'\\400'", "'\\777'", "'\\8'", "'\\09'", "'\\x7f'", "'\\xe9'", "'\\u00e9'", "'\\uD7ff'", "'\\ue000'", "'\\U0001F600'", "'\\U0010ffff'",
    "'\\q'", "'\\é'", "'\\ '", "'\\\na'", "'a\\\n'", "'''\\\n'''", "'\\X41'", "'a\tb'", "'a\x0cb'", "'\\\\n'", "'''\\''''", "'''a\\'''b'''",
]
RAW_QUOTES = ["'a'", "'\\n'", "'\\x'", "'\\''", "'\\\\'", "'a\\\\b'", "'\\N'", "'\\ud800'", "'\\\nb'", "'''\\'''a'''", "\"\\\"'\"", "'\\é'"]
# A text that doesn't end, or has a wrong escape.
NO_QUOTES = ["'", "'a", "'a\nb'", "'''a", "'''a''", "'''a'", "\"a'", "'\\'", "'a\\", "'\\x4'", "'\\x'", "'\\xg1'", "'\\x4g'", "'\\u123'", "'\\u123g'", "'\\U0001234'", "'\\U00110000'", "'\\Uffffffff'", "'''\\'''", "'a\\\n"]
OWN_NO_QUOTES = ["'\\ud800'", "'\\udfff'", "'\\uDbff'", "'\\U0000dc00'", "'\\N{DIGIT ONE}'", "'\\N'"]
NO_RAW_QUOTES = ["'\\'", "'a", "'\\\\\\'", "'a\nb'", "'''\\'''", "'a\\"]


def quoted_row(source, raw):
    prefix = "r" if raw else ""
    token = next(tokenize.generate_tokens(io.StringIO(prefix + source).readline))
    assert token.type == tokenize.STRING, source
    value, length = ast.literal_eval(token.string), len(token.string) - len(prefix)
    return f"Q.quoted {truth(raw)} {antt_text(source)} ≡ Some ({tokens.antt_bytes(value) if value else '[]'}, {length})"


def unquoted_row(source, raw, own=False):
    if not own:
        try:
            ast.literal_eval(("r" if raw else "") + source)
            raise AssertionError(source)
        except SyntaxError:
            pass
    return f"Q.quoted {truth(raw)} {antt_text(source)} ≡ None"


# ---- names

NAMES = ["a", "_", "__", "A1", "_1", "a_b", "Zz9", "print", "list", "match", "case", "type", "nonlocals", "none", "true", "IF", "x" * 20, "", "1", "1a", "9_", "a b", "a-b", "a.b", " a", "a ", "a\n", "$", "a$", "a@", "a[", "`", "{", "a/", "a:"]
# Characters past ASCII are no letters here.
OWN_NO_NAMES = ["é", "aé", "ª", "a²", "Ω"]


def is_own_name(word):
    return word.isascii() and word.isidentifier() and not keyword.iskeyword(word)


def name_rows():
    rows = [f"is_name {antt_text(w) if w else '[]'} ≡ {truth(is_own_name(w))}" for w in NAMES + OWN_NO_NAMES + keyword.kwlist]
    rows += [f"is_name (replicate {n} 97) ≡ {truth(n <= 255)}" for n in (254, 255, 256, 257)]
    rows += [f"is_name (codes \"if\" ++ replicate {n} 95) ≡ {truth(n <= 253)}" for n in (1, 253, 254)]
    rows += [f"is_reserved_word {text(w)} ≡ {truth(keyword.iskeyword(w))}" for w in ["if", "If", "print", "match", "None", "none", "async", "self", "nonlocal", "exec"]]
    rows += [f"place_among {text(w)} builtin_names ≡ {some(BUILTINS.index(w) if w in BUILTINS else None)}" for w in BUILTINS + ["open", "input", ""]]
    rows += [f"place_among {text(w)} class_names ≡ {some(CLASSES.index(w) if w in CLASSES else None)}" for w in CLASSES + ["float", "BaseException", "StopIteration"]]
    rows += [f"{call} {ord(c)} ≡ {truth(found(c))}" for call, found in (("is_letter", lambda c: c == "_" or c.isascii() and c.isalpha()), ("is_digit", lambda c: c in "0123456789"), ("is_word_char", lambda c: c == "_" or c.isascii() and c.isalnum())) for c in "@AZ[^_`az{/09:é²"]
    return rows


# ---- the piece at the front of a text

def sign_text(k):
    return f"(sign m.{k}, %d)"


LEXEMES = [
    (" a", '(blank (codes " "), 1)'), (" \t a", "(blank (32 ∷ 9 ∷ 32 ∷ []), 3)"), ("\t", "(blank (9 ∷ []), 1)"), ("\n\n", "(feed, 1)"), ("\\\nx", "(joined, 2)"), ("\\ \n", "(bad 0, 1)"), ("\\", "(bad 0, 1)"), ("\\\\\n", "(bad 0, 1)"),
    ("# a\\\nb", "(comment, 4)"), ("#", "(comment, 1)"), ("# é\x0c\n", "(comment, 4)"), ("#\0\n", "(bad_comment, 2)"), ("# a\0b", "(bad_comment, 5)"), ("#\n\0", "(comment, 1)"),
    ("abc d", '(word (codes "abc"), 3)'), ("_1+", '(word (codes "_1"), 2)'), ("iff", '(word (codes "iff"), 3)'), ("if a", '(word (codes "if"), 2)'), ("br'x'", '(word (codes "br"), 2)'), ("b'x'", '(word (codes "b"), 1)'), ("f\"x\"", '(word (codes "f"), 1)'), ("r x", '(word (codes "r"), 1)'), ("aé", '(word (codes "a"), 1)'),
    ("12 ", "(number (pos 12), 2)"), ("0x1F,", "(number (pos 31), 4)"), ("1.", "(bad 0, 1)"), ("1.5", "(bad 0, 1)"), ("0x1.", "(bad 0, 3)"), ("1_.", "(bad 0, 2)"), ("1if", "(bad 0, 3)"), ("1'a'", "(number (pos 1), 1)"), ("1(", "(number (pos 1), 1)"), ("1é", "(number (pos 1), 1)"), ("01", "(bad 0, 2)"),
    ("r'a'", '(string (codes "a"), 4)'), ("R\"\\n\"", "(string (92 ∷ 110 ∷ []), 5)"), ("u'\\n'", "(string (10 ∷ []), 5)"), ("U''", "(string [], 3)"), ("r'''a'''x", '(string (codes "a"), 8)'), ("'a", "(bad 0, 1)"), ("'a\0'", "(bad 0, 1 + 3)"), ("'''\n\0'''", "(bad 1, 8)"), ("'''\n\n\0\n\0'''", "(bad 2, 11)"), ("'''\0", "(bad 0, 1)"), ("'\\\n\0'", "(bad 1, 5)"), ("r'\\x\n'", "(bad 0, 1)"),
    ("**=x", "(sign m.PowerAssign, 3)"), ("** =", "(sign m.Power, 2)"), ("*x", "(sign m.Star, 1)"), ("//=", "(sign m.FloorDivideAssign, 3)"), ("//x", "(sign m.FloorDivide, 2)"), ("/x", "(bad 0, 1)"), ("/=x", "(bad 0, 1)"), ("!=", "(sign m.NotEqual, 2)"), ("!x", "(bad 0, 1)"), ("! =", "(bad 0, 1)"),
    ("<=", "(sign m.LessEqual, 2)"), ("<>", "(sign m.Less, 1)"), ("<<=", "(sign m.Less, 1)"), (">>", "(sign m.Greater, 1)"), ("===", "(sign m.Equal, 2)"), ("=>", "(sign m.Assign, 1)"), ("->", "(sign m.Minus, 1)"), (":=", "(sign m.Colon, 1)"), ("...", "(sign m.Dot, 1)"), ("+=", "(sign m.PlusAssign, 2)"), ("++", "(sign m.Plus, 1)"),
    ("$", "(bad 0, 1)"), ("?", "(bad 0, 1)"), ("`", "(bad 0, 1)"), ("@", "(bad 0, 1)"), ("~", "(bad 0, 1)"), ("&", "(bad 0, 1)"), ("|", "(bad 0, 1)"), ("^", "(bad 0, 1)"), ("\0", "(bad 0, 1)"), ("\x0c", "(bad 0, 1)"), ("\x0b", "(bad 0, 1)"), ("\r", "(bad 0, 1)"), ("\u00a0", "(bad 0, 1)"), ("\ufeffa", "(bad 0, 1)"), ("é", "(bad 0, 1)"),
]


def lexeme_rows():
    rows = [f"lexeme {antt_text(source)} ≡ {found.replace('1 + 3', '4')}" for source, found in LEXEMES]
    rows += [f"lexeme (replicate 255 97) ≡ (word (replicate 255 97), 255)", "lexeme (replicate 256 97) ≡ (bad 0, 256)", "lexeme (replicate 255 97 ++ codes \"'\") ≡ (word (replicate 255 97), 255)", "lexeme (replicate 255 97 ++ codes \"1 \") ≡ (bad 0, 256)"]
    return rows


# ---- tokens

# Read as CPython reads them, beside those of tokens.py.
MORE_SAME = [
    "''''a'''\n", "'''a\"\"\"b'''\n", "x = 1 # end", "x\n  # c", "(\n\n# c\n  a,\n\tb\n)\n", "if a:\n  b\n  # c\n# d\n", "a\tb\t\n", "x = \\\r\n1\n", "# a\r\nx\r\n", "{a:\n[b,\n(c)\n]}\nd\n", "if a:\n\tb\nc", "a;b\n", "x = (1 +\n    2)\n", "if a:\n  (b,\nc)\nd\n", "'a' # 'b'\n", "x = '''a\n\n  b'''; y\n",
    "if a:\n  if b:\n    if c:\n      d\n\ne\n", "a \\\n  \\\n b\n", "not a\n", "x = 0xff_ff + 0b1\n",
]
MORE_OWN = [("if a:\n  b\n\\\n c\n", "If@1:0-2 a@1:3-4 Colon@1:4-5 newline@1:5-6 indent@2:6-8 b@2:8-9 newline@2:9-10 dedent@3:10-10 c@4:13-14 newline@4:14-15 "), ("a.b.c", "a@1:0-1 Dot@1:1-2 b@1:2-3 Dot@1:3-4 c@1:4-5 newline@1:5-5"), ("!=a", "NotEqual@1:0-2 a@1:2-3 newline@1:3-3"), ("a\n \n\t\n", "a@1:0-1 newline@1:1-2"), ("\\\n\nx = 1\n", "x@3:3-4 Assign@3:5-6 #1@3:7-8 newline@3:8-9")]
MORE_FAULTS = [
    ("\0", 1), ("a\n\n\0", 3), (")", 1), ("a\n]", 2), ("}", 1), ("()]", 1), ("{)", 1), ("[\n\n}", 3), ("!", 1), ("a\n!b", 2), ("\u2028", 1), ("a\u00a0b", 1), ("'\\U00110000'", 1), ("'\\U0000'", 1), ("x\n'\\U0000'", 2), ("0b2", 1), ("0o8", 1), ("1_", 1), ("0b1_", 1), ("0x", 1), ("a\n0b", 2), ("1__0", 1),
    ("0b1a", 1), ("0b1.", 1), ("0x1_", 1), (bin(2**127), 1), (oct(2**127), 1), ("''''", 1), ("'''''", 1), ("'a\\", 1), ("x = \\\n'a", 2), ("(\n(\n)", 1), ("[\n(\n)\n", 1), ("{\n[\n(", 3), ("a\\\r\n$", 2), ("# c\r\0", 2), ("'\\\n'\n$", 3), ("if a:\n  b\n c\n$", 3), ("$\n  a\n b\n", 1),
]
OPENED = tokens.OPENED.removeprefix("unfolding ")


def token_rows(pairs):
    return ["tokens_of_chars One %s ≡ Ok (%s[])" % (antt_text(source) if source else "[]", "".join(f"token {antt_kind(k)} {line} {start} {end} ∷ " for k, line, start, end in found)) for source, found in pairs]


def more_tokens():
    found = [(t, f) for t, f in tokens.ROWS if t not in tokens.COMPUTED_TOKENS and len(t) < 200]
    rows = token_rows(found + [(t, tokens.read(t)) for t in MORE_SAME] + [(t, tokens.own(f)) for t, f in MORE_OWN])
    return rows + ["tokens_of_chars One (replicate 255 97) ≡ Ok (token (name (replicate 255 97)) 1 0 255 ∷ token newline 1 255 255 ∷ [])"]


def token_faults():
    listed = [(t, n) for t, n in tokens.FAULTS if t not in tokens.COMPUTED_FAULTS and len(t) < 200] + MORE_FAULTS
    rows = [f"tokens_of_chars One {antt_text(t)} ≡ Err {n}" for t, n in dict(listed).items()]
    return rows + ["tokens_of_chars One (replicate 256 97) ≡ Err 1", "tokens_of_chars One (codes \"a\\n\" ++ replicate 256 97) ≡ Err 2"]


# ---- the places of tokens

def place_rows():
    """Tokens whose places lie in order, and some whose places don't."""
    rows = []
    for source, found in [row for row in tokens.ROWS if len(row[1]) <= 7][:30]:
        listed = "".join(f"token {antt_kind(k)} {line} {start} {end} ∷ " for k, line, start, end in found)
        rows.append((f"InOrder 0 ({listed}[]) {len(tokens.plain(source).encode())}", "(omega arith, (omega arith, " * len(found) + "omega arith" + "))" * len(found)))
    for low, start, end, high in ((1, 0, 2, 5), (3, 2, 4, 9), (9, 8, 9, 9), (0, 2, 1, 5), (0, 5, 0, 9), (1, 3, 2, 4), (0, 1, 2, 1), (0, 4, 9, 8), (2, 2, 3, 2), (0, 0, 1, 0)):
        part, claim = next((p, c) for p, c, bad in (("h.0", f"{low} ≤ {start}", low > start), ("h.1.0", f"{start} ≤ {end}", start > end), ("h.1.1", f"{end} ≤ {high}", end > high)) if bad)
        rows.append((f"InOrder {low} (token newline 1 {start} {end} ∷ []) {high} → ⊥", f"λ h. let far : {claim} = {part} in absurd (omega arith)"))
    return rows


def write_places():
    rows = place_rows()
    uses = ["use Rattle.std.proofs.Common.{◌≤◌, [], ◌∷◌, arith, codes}", "use Rattle.std.specs.Prelude.{pos}", "use Rattle.kishu_language.specs.declared.token.Mark.TheVariants as m", LANGUAGE + "tokens.Layout.{name, integer, quoted, newline, indent, dedent, mark, token}", LANGUAGE + "tokens.Places.{InOrder}"]
    lines = ["-- Tokens whose places lie in order within a text, and some whose places don't. Made by tools/rows/text_rows.py."] + needed(uses, [claim for claim, _ in rows], "◌≤◌ arith")
    lines = [line.replace("◌≡◌, ", "") for line in lines]
    for i, (claim, proof) in enumerate(rows, 1):
        lines += ["", f"places_{i} : {claim}", f"places_{i} = {proof}"]
    row_file("PlaceRows", uses).write_text("\n".join(lines) + "\n")


# ---- line ends

LINED = [
    "", "a", "\n", "\r", "\r\n", "\n\r", "\r\r", "\n\n", "\r\r\n", "\r\n\r", "\r\n\n", "\n\r\n", "\r\n\r\n", "\r\r\r", "a\r", "a\r\n", "a\rb", "a\r\nb", "a\n\rb", "\ra", "\r\na", "a\r\rb", "a\r\n\r\nb", "a\r\r\nb", "a\rb\nc\r\nd", "\x0b", "\x0c", "\x1c", "\x85", "\u2028",
    "a\x0cb\r", "'\r'", "'''a\r\nb'''", "# c\r", "\\\r\nx", "\\\rx", " \r ", "\t\r\n\t", "é\ré", "\0\r", "ab\rcd\ref",
]


def plain_row(source):
    plain = io.StringIO(source, newline=None).read()
    return f"plain_lines {antt_text(source) if source else '[]'} ≡ {antt_text(plain) if plain else '[]'}"


# ---- white space, and texts that are cut

SIX = " \t\n\r\x0b\x0c"
STRIPPED = ["", " ", "a", " a", "a ", " a ", "a b", "\ta\t", "\na\n", "\ra\r", "\x0ba\x0b", "\x0ca\x0c", SIX, SIX + "a" + SIX, "a" + SIX + "b", " a b ", "\x1ca", "a\x1f", "\x85a", "\xa0a\xa0", "\u2003a", "\x08a", "\x0ea", "\0a", "'", "  é  ", "\n\n"]
OWN_WHITE = "\x1c\x1d\x1e\x1f\x85\xa0\u2000\u2003\u2028\u3000"


def strip(t):
    return t.strip(SIX)


def words(t):
    return [w for w in re.split("[%s]" % SIX, t) if w]


def plain_text(t):
    return antt_text(t) if t else "[]"


def white_rows():
    rows = [f"is_white {ord(c)} ≡ {truth(c in SIX)}" for c in SIX + "\x08\x0e\x1b!a0_\0" + OWN_WHITE]
    rows += [f"stripped {plain_text(t)} ≡ {plain_text(strip(t))}" for t in STRIPPED]
    rows += [f"words {plain_text(t)} ≡ {listing([plain_text(w) for w in words(t)])}" for t in ["", " ", "a", " a", "a ", "a b", "a  b", " a \n b\t", "a\x0bb\x0cc\rd", "a\x1fb", "a\xa0b", "é 😀", "\n\n", "ab cd ef", "a" + SIX + "b"]]
    for t in STRIPPED + ["a  b", "é 😀"]:
        if t.isascii() and not set(t) & set(OWN_WHITE):
            assert t.strip() == strip(t) and t.split() == words(t), t
    return rows


PARTS = [("", ""), ("", "a"), ("a", ""), ("a", "a"), ("a", "b"), ("ab", "a"), ("a", "ba"), ("ab", "aab"), ("aa", "aaa"), ("aa", "aaaa"), ("aba", "ababa"), ("na", "banana"), ("ana", "banana"), ("x", "banana"), ("a", "aaaa"), ("😀", "é😀é"), ("é", "éaéé"), ("\n", "a\nb\n"), (" ", "  a "), ("abc", "abcabcabc"), ("aab", "aaaab"), ("b", "aab"), ("ba", "abab"), ("'", "it's"), (",", ",a,,b,")]
REPRS = ["", "a", "'", '"', "'\"", "it's", 'say "a"', "\\", "\\n", "\n", "\t", "\r", "\0", "\x1b", "\x1f", "\x7f", " ", "~", "\x08\x0b\x0c", "a\nb", "'\n", "\"\\", "''", "'\"'"]
# All characters from U+0080 on stand as they are.
OWN_REPRS = ["\x80", "\xa0", "\xad", "é", "😀", "\u2028", "\ud7ff", "\U0010ffff"]


def cutting_rows():
    rows = []
    for part, t in PARTS:
        place = t.find(part)
        rows.append(f"first_place {plain_text(part)} {plain_text(t)} ≡ {some(place if place >= 0 else None)}")
        rows.append(f"begins {plain_text(part)} {plain_text(t)} ≡ {truth(t.startswith(part))}")
        if part:
            rows.append(f"occurrences {plain_text(part)} {plain_text(t)} ≡ {t.count(part)}")
            rows.append(f"pieces {plain_text(part)} {plain_text(t)} ≡ {listing([plain_text(p) for p in t.split(part)])}")
            by = {"a": "bc", "aa": "", ",": "--"}.get(part, part + part)
            rows.append(f"replaced {plain_text(t)} {plain_text(part)} {plain_text(by)} ≡ {plain_text(t.replace(part, by))}")
    for by, parts in [(",", []), (",", ["a"]), (",", ["a", "b"]), ("", ["a", "b", "c"]), ("--", ["", "", ""]), ("x", [""]), (", ", ["é", "", "😀"])]:
        rows.append(f"joined {plain_text(by)} {listing([plain_text(p) for p in parts])} ≡ {plain_text(by.join(parts))}")
    rows += [f"quoted {plain_text(t)} ≡ {plain_text(repr(t))}" for t in REPRS]
    rows += [f"quoted {plain_text(t)} ≡ {plain_text(chr(39) + t + chr(39))}" for t in OWN_REPRS]
    for start, step, n, size in [(0, 1, 3, 5), (4, -1, 5, 5), (0, 2, 3, 5), (5, -2, 3, 6), (2, 7, 1, 3), (3, 1, 0, 3), (0, 0, 2, 1)]:
        at = [start + step * i for i in range(n)]
        rows.append(f"places {number(start)} {number(step)} {n} ≡ {listing([number(z) for z in at])}")
        rows.append(f"picked {plain_text('abcdefgh'[:size])} (places {number(start)} {number(step)} {n}) ≡ {plain_text(''.join('abcdefgh'[z] for z in at))}")
    return rows


# ---- whole numbers

TOP, LOW = 2**127 - 1, -(2**127)
SUMS = [(TOP, 0), (TOP, 1), (TOP, -1), (TOP, TOP), (TOP, LOW), (LOW, -1), (LOW, 1), (LOW, LOW), (LOW, TOP), (0, LOW), (0, 0), (1, -1), (2**126, 2**126), (2**126, 2**126 - 1), (-(2**126), -(2**126)), (-(2**126), -(2**126) - 1)]
DIFFERENCES = [(0, LOW), (0, TOP), (-1, TOP), (-2, TOP), (-1, LOW), (1, LOW), (TOP, -1), (LOW, 1), (LOW, LOW), (TOP, TOP), (5, 7)]
PRODUCTS = [(TOP, 1), (TOP, -1), (TOP, 2), (LOW, 1), (LOW, -1), (LOW, 0), (2**63, 2**64), (2**63, -(2**64)), (-(2**63), -(2**64)), (2**64 - 1, 2**63), (13, 13087783343113017825514438799031192748), (-3, 7), (0, 0), (2**126, 2), (2**126, -2)]
QUOTIENTS = [(7, 2), (-7, 2), (7, -2), (-7, -2), (6, 3), (-6, 3), (6, -3), (-6, -3), (0, 5), (0, -5), (1, TOP), (-1, TOP), (1, LOW), (-1, LOW), (TOP, TOP), (TOP, LOW), (LOW, TOP), (LOW, LOW), (LOW, 1), (LOW, -1), (TOP, -1), (TOP, 2), (LOW, 2), (LOW, 3), (TOP, 10), (5, 0), (0, 0), (LOW, 0)]
POWERS = [(0, 0), (0, 1), (0, 5), (1, 1000), (-1, 3), (-1, 4), (2, 10), (2, 126), (2, 127), (-2, 127), (-2, 128), (-2, 3), (3, 80), (3, 81), (TOP, 1), (TOP, 2), (LOW, 1), (LOW, 0), (7, 45), (7, 46), (-7, 45), (10, 38), (10, 39), (2, -1), (0, -1), (1, -1), (-1, -2), (5, LOW)]
OPERATORS = {"Add": (SUMS, lambda a, b: a + b), "Subtract": (DIFFERENCES, lambda a, b: a - b), "Multiply": (PRODUCTS, lambda a, b: a * b), "FloorDivide": (QUOTIENTS, lambda a, b: a // b), "Modulo": (QUOTIENTS, lambda a, b: a % b), "Power": (POWERS, lambda a, b: a**b)}
READ = ["0", "7", "42", "007", "+5", "-5", "-0", "+0", " 42 ", "\t\n+007\r", "\x0b1\x0c", str(TOP), str(TOP + 1), str(LOW), str(LOW - 1), "0" * 50 + "1", "-" + "0" * 50, "", " ", "+", "-", "+-1", "--1", "- 1", "+ 1", "1 2", "1.0", "1e3", "0x1", "a", "1a", "a1", "1-", "1+"]
# CPython takes these, or other digits and white space.
OWN_UNREAD = ["1_0", "\u0661", "\xa01", "\x1f1", "²"]


def fails(kind, message):
    return f"raised (fresh {CLASSES.index(kind)} (text {text(message)} ∷ [])) now"


def whole(value):
    return f"fine (integer {number(value)}) now" if LOW <= value <= TOP else fails("OverflowError", "whole number too large")


def operation_row(name, a, b, found):
    if name == "Power" and b < 0:
        end = fails("ValueError", "negative power")
    elif name in ("FloorDivide", "Modulo") and b == 0:
        end = fails("ZeroDivisionError", "division by zero")
    else:
        end = whole(found(a, b))
    return f"arithmetic operators.{name} {number(a)} {number(b)} now ≡ {end}"


def number_rows():
    return [operation_row(name, a, b, found) for name, (pairs, found) in OPERATORS.items() for a, b in pairs]


def reading_rows():
    rows = [f"is_whole {number(z)} ≡ {truth(LOW <= z <= TOP)}" for z in (0, TOP, TOP + 1, LOW, LOW - 1, 10**60, -(10**60))]
    for t in READ:
        try:
            value = int(t)
        except ValueError:
            value = None
        rows.append(f"number_read {plain_text(t)} ≡ {some(None if value is None or not LOW <= value <= TOP else number(value))}")
    rows += [f"number_read {plain_text(t)} ≡ None" for t in OWN_UNREAD]
    for a, b in QUOTIENTS:
        if b:
            rows += [f"floor_quotient {number(a)} {number(b)} ≡ {number(a // b)}", f"floor_remainder {number(a)} {number(b)} ≡ {number(a % b)}"]
    return rows + [f"power {number(a)} {b} ≡ {number(a**b)}" for a, b in POWERS if 0 <= b <= 128]


def result(value):
    return f"Ok {number(value)}" if LOW <= value <= TOP else "Err Overflow"


def result_rows():
    wholes = sorted({found(a, b) for name, (pairs, found) in OPERATORS.items() if name in ("Add", "Subtract", "Multiply") for a, b in pairs})
    rows = [f"in_range {number(z)} ≡ {result(z)}" for z in wholes[::2]]
    rows += [f"divided_by {number(b)} {number(a // b if b else 0)} ≡ " + (result(a // b) if b else "Err ZeroDivisor") for a, b in QUOTIENTS[::2] + [(LOW, -1), (0, 0)]]
    return rows + [f"raised_to {number(a)} {number(b)} ≡ " + (result(a**b) if b >= 0 else "Err NegativePower") for a, b in POWERS]


NOW = ["use Rattle.kishu_meaning_laws.specs.Bare.{bare}", "", "abbrev now : Moment", "now = bare [] 100 0"]


def main():
    bodies = [LANGUAGE + "tokens.Quoted.{escape, item, closes, body}", "use Rattle.std.specs.Char.{encode_utf8}"]
    rows_file("NumeralExamples", "Which numbers some words are, as CPython's `int` tells, and which are none", [LANGUAGE + "tokens.Numerals.{numeral}"], [numeral_row(w) for w in WORDS + LIMITS], "numeral", "numeral")
    quoted = [quoted_row(t, False) for t in QUOTES] + [quoted_row(t, True) for t in RAW_QUOTES] + [unquoted_row(t, False) for t in NO_QUOTES] + [unquoted_row(t, False, True) for t in OWN_NO_QUOTES] + [unquoted_row(t, True) for t in NO_RAW_QUOTES]
    rows_file("QuotedExamples", "Which texts stand between quotes, with the characters that they take, as CPython tells where the languages agree", [LANGUAGE + "tokens.Quoted as Q"] + bodies, quoted, "quoted", "escape item closes body Q.quoted encode_utf8")
    rows_file("NameExamples", "Which words are names, reserved words, builtin functions and classes, as CPython tells of ASCII words", [LANGUAGE + "tokens.Names.{is_name, is_reserved_word, place_among, reserved_words, is_letter, is_digit, is_word_char}", MEANING + "values.BuiltinNames.{builtin_names, class_names}"], name_rows(), "name", "reserved_words builtin_names class_names")
    marks = [LANGUAGE + "tokens.Marks.{reserved_marks, delimiter, operator}", LANGUAGE + "tokens.Numerals.{numeral}", LANGUAGE + "tokens.Quoted as Q"] + bodies
    rows_file("LexemeExamples", "The pieces at the front of some texts", ["use Rattle.kishu_language.specs.declared.token.Mark.TheVariants as m"] + marks + [LANGUAGE + "tokens.Lexemes.{blank, comment, bad_comment, joined, feed, word, number, string, sign, bad, token_piece, lexeme}"], lexeme_rows(), "piece", "delimiter operator numeral escape item closes body Q.quoted token_piece lexeme encode_utf8")
    laid = ["use Rattle.kishu_language.specs.declared.profile.Profile.TheVariants.{One}", "use Rattle.kishu_language.specs.declared.token.Mark.TheVariants as m"] + marks + [LANGUAGE + "tokens.Lexemes.{token_piece, lexeme}", LANGUAGE + "tokens.Layout.{name, integer, quoted, newline, indent, dedent, mark, token, cut, indented, begin, bracket, step, layout}", LANGUAGE + "tokens.Tokens.{tokens_of_chars}"]
    rows_file("MoreTokenExamples", "Which tokens further texts have, from CPython where the languages agree", laid, more_tokens(), "text", OPENED)
    rows_file("TokenFaultExamples", "On which line further texts have a fault in their tokens", [u for u in laid if "Mark.TheVariants" not in u], token_faults(), "fault", OPENED)
    rows_file("PlainLineExamples", "Texts with plain line ends, as CPython reads a text", [LANGUAGE + "tokens.PlainLines.{plain_lines}"], [plain_row(t) for t in LINED], "plain")
    rows_file("WhiteExamples", "Texts without the white space round them, and their words, as CPython tells of ASCII texts", [MEANING + "values.White.{is_white, stripped}", MEANING + "values.Texts.{words}"], white_rows(), "white")
    rows_file("CuttingExamples", "Texts that are searched, cut, joined, picked from and put between quotes, as CPython tells where the languages agree", [MEANING + "values.Texts.{places, picked, begins, first_place, occurrences, pieces, joined, replaced, quoted}"], cutting_rows(), "cutting")
    moment = [MEANING + "values.Values.{integer, text}", MEANING + "moments.Moment.{Moment, fresh, fine, raised}"]
    write("NumberRows", "What the operators answer on whole numbers at the edges of their range, as CPython's numbers tell: computed on the definition.",
          needed([COMMON, PRELUDE, "use Rattle.kishu_language.specs.declared.tree.Operator.TheVariants as operators"], number_rows()) + [MEANING + "values.Numbers.{power}"] + moment + [MEANING + "calls.Operators.{arithmetic}"] + NOW, number_rows(), "number", "power", maker="text_rows.py")
    rows_file("ReadingRows", "Numbers that texts write, and floors and powers, as CPython tells", [MEANING + "values.Numbers.{is_whole, number_read, floor_quotient, floor_remainder, power}"], reading_rows(), "reading", "power")
    rows_file("ResultRows", "The results of operations and their faults, as CPython's numbers tell", ["use Rattle.kishu_num.specs.declared.fault.NumFault.TheVariants.{Overflow, ZeroDivisor, NegativePower}", MEANING + "values.Numbers.{power}", "use Rattle.kishu_num.specs.Results.{in_range, divided_by, raised_to}"], result_rows(), "result", "power")
    write_places()


if __name__ == "__main__":
    main()
