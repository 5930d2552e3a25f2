#!/usr/bin/env python3
"""Prints the tables that kishu_text's tests hold, from what CPython answers.

    python3 tools/rows/texts.py > crates/kishu_value_tests/src/texts/tables.rt

and `rt fmt` in that crate lays them out.

White space is that of `bytes`, which are space, \\t, \\n, \\r, \\v and \\f; that of `str` is wider.
A repr leaves each character from U+0080 on as it is, so that the tables hold of every release.
"""

TEXTS = ["", "a", "abc", "h\u00e9llo", "\u00e9", "\U0001f600", "a\U0001f600\u00e9", "\U0001f600\U0001f600\U0001f600"]

PARTS = [
    ("", ""), ("abc", ""), ("", "a"), ("abc", "abc"), ("abc", "abcd"), ("abc", "c"), ("abc", "bc"), ("abc", "cb"),
    ("aaaaa", "aaa"), ("aaaaaa", "aa"), ("aab", "ab"), ("-a-b-", "-"), ("--", "--"), ("a--b", "-"),
    ("h\u00e9ll\u00e9", "\u00e9"), ("h\u00e9llo", "l"), ("\u00e9\u00e8", "\u00e8"), ("\u00c3\u00a9", "\u00e9"),
    ("a\U0001f600b\U0001f600", "\U0001f600"), ("a\U0001f600b\U0001f600", "b"), ("\U0001f601\U0001f600", "\U0001f600"),
]

SLICES = [
    ("abcdef", slice(None, None, None)), ("abcdef", slice(1, 4)), ("abcdef", slice(None, None, 2)), ("abcdef", slice(None, None, -1)),
    ("abcdef", slice(None, None, -2)), ("abcdef", slice(4, 1, -2)), ("abcdef", slice(3, 3)), ("abcdef", slice(5, None, 10 ** 30)),
    ("", slice(None, None, -1)), ("h\u00e9llo", slice(1, 3)), ("h\u00e9llo", slice(None, None, -2)),
    ("a\U0001f600\u00e9", slice(None, None, -1)), ("a\U0001f600\u00e9", slice(1, 2)), ("\U0001f600\U0001f600\U0001f600", slice(2, None)),
]

SPACED = [
    "", " ", " \t\n\r\x0b\x0c", "a", " a ", "a  b", "\ta\nb\rc\x0bd\x0ce ", "\u00e9 \U0001f600", " \U0001f600 \u00e9 ",
    "\u00a0a\u00a0", "\x1ca\x1f", "\x85a\x85", "a\x00 ", "a b  c   d",
]

QUOTED = [
    "", "a", "'", '"', "'\"", "it's", 'say "a"', "both ' and \"", "\\", "\\'", "\n\r\t", "\x00\x01\x1f", " ~", "\x0b\x0c\x1b", "\x7f", "\x80",
    "\u00e9\u00a0", "\U0001f600", "a'\U0001f600'\n",
]


def rust(value):
    """A value as the tests write it."""
    if value is None:
        return "None"
    if isinstance(value, int):
        return str(value)
    body = "".join(c if " " <= c <= "~" and c not in '"\\' else "\\" + c if c in '"\\' else "\\u{%x}" % ord(c) for c in value)
    return '"' + body + '"'


def some(value, mark=""):
    """A value that may be missing; `mark` is the quote of a character."""
    if value is None:
        return "None"
    return "Some(" + (mark + rust(value)[1:-1] + mark if mark else rust(value)) + ")"


def shown(pieces):
    return "".join("[" + piece + "]" for piece in pieces)


def repr_of(text):
    late = [c for c in text if ord(c) >= 0x80]
    parts = repr("".join("\u03a9" if ord(c) >= 0x80 else c for c in text)).split("\u03a9")
    return parts[0] + "".join(c + part for c, part in zip(late, parts[1:]))


def table(doc, name, kind, rows):
    print(f"\n/// {doc}\npub(crate) const {name}: [({kind}); {len(rows)}] = [")
    for row in rows:
        print("    (" + ", ".join(row) + "),")
    print("];")


def taken(text, part):
    places = range(*part.indices(len(text)))
    return rust(text), rust(places.start), rust(places.step), rust(len(places)), rust(text[part])


def main():
    full = [(text, part) for text, part in PARTS if part]
    print("// Printed by tools/rows/texts.py, from what CPython answers.")
    table("A text and its length.", "COUNTS", "&str, usize", [(rust(t), rust(len(t))) for t in TEXTS])
    at = [(t, i, t[i] if i < len(t) else None) for t in TEXTS for i in range(len(t) + 1)]
    table("A text, a place and the character there.", "PLACES", "&str, usize, Option<char>", [(rust(t), rust(i), some(c, "'")) for t, i, c in at])
    table("A text, the first place, the step, the length and the slice.", "SLICES", "&str, i128, i128, usize, &str", [taken(t, s) for t, s in SLICES])
    finds = [(t, p, None if t.find(p) < 0 else t.find(p)) for t, p in PARTS]
    table("A text, a part and its first place.", "FINDS", "&str, &str, Option<usize>", [(rust(t), rust(p), some(i)) for t, p, i in finds])
    table("A text, a part and how often it occurs.", "OCCURRENCES", "&str, &str, usize", [(rust(t), rust(p), rust(t.count(p))) for t, p in full])
    table("A text, a part and the pieces, each in brackets.", "SPLITS", "&str, &str, &str", [(rust(t), rust(p), rust(shown(t.split(p)))) for t, p in full])
    by = ["", "-", "\u00e9", "aa"]
    swaps = [(t, p, b) for k, (t, p) in enumerate(full) for b in (by[k % 4], by[(k + 1) % 4])]
    table("A text, a part, what stands in its place and the text that comes of it.", "REPLACES", "&str, &str, &str, &str", [(rust(t), rust(p), rust(b), rust(t.replace(p, b))) for t, p, b in swaps])
    table("A text and what strip leaves.", "STRIPS", "&str, &str", [(rust(t), rust(t.encode().strip().decode())) for t in SPACED])
    table("A text and its words, each in brackets.", "WORDS", "&str, &str", [(rust(t), rust(shown(w.decode() for w in t.encode().split()))) for t in SPACED])
    table("A text and its repr.", "QUOTES", "&str, &str", [(rust(t), rust(repr_of(t))) for t in QUOTED])


main()
