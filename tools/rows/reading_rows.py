#!/usr/bin/env python3
"""Makes the rows of crates/kishu_object_rows on pictures that are read from bytes: at each field what is
wrong there is told with its place. What is wanted is told by picture_reader.py, which has the rules a
second time; of the codes of functions it is written here by hand."""

from nodes import text
from object_rows import CRATE, KEYS, ONE, STATES, VALUES
from picture_reader import Fault, Reader, read
from row_file import PRELUDE, RowFile
from same_rows import bytes_term
from states import D, E, F, L, Laid, Named, O, State, T, node_term, picture, state_bytes

READING = "use Rattle.kishu_reading.specs."
OPENED = "read_picture reserved_words chars encode_utf8"
USES = [
    PRELUDE,
    "use Rattle.std.specs.Prelude.{◌+◌, take, drop}",
    "use Rattle.std.specs.Char.{encode_utf8}",
    "use Rattle.std.specs.Str.{chars}",
    "use Rattle.kishu_language.specs.tokens.Names.{reserved_words}",
    ONE,
    KEYS,
    VALUES,
    READING + "FromBytes.{read_picture}",
]

# What is put in the place of a field, by the field's kind.
WRONG = {
    "number of names": [b"\x00\x00\x00\x00", b"\x00\x00\x00\x09", b"\xff\xff\xff\xff"],
    "length of a name": [b"\x00", b"\xff", b"\x02"],
    "name": [b"1", b"-", b"\xc3", b"\x00"],
    "kind of a value": [b"\x09", b"\xff", b"\x00", b"\x03", b"\x04", b"\x05", b"\x08"],
    "whole number": [b"\x80" + b"\x00" * 15, b"\x7f" + b"\xff" * 15],
    "step": [b"\x00" * 16, b"\xff" * 16],
    "length of a text": [b"\x00\x00\x00\x00", b"\x00\x00\x00\x01", b"\xff\xff\xff\xff"],
    "text": [b"\xff", b"\xed\xa0\x80", b"\xf4\x90\x80\x80", b"\xc0\x80", b"\xe2\x82"],
    "builtin": [b"\x0d", b"\x0e", b"\xff"],
    "class": [b"\x18", b"\x19", b"\xff"],
    "node": [b"\x00\x00\x00\x00", b"\x00\x00\x00\x01", b"\x00\x00\x00\x02", b"\xff\xff\xff\xff"],
    "number of nodes": [b"\x00\x00\x00\x00", b"\x00\x00\x00\x01", b"\x00\x00\x00\x07", b"\xff\xff\xff\xff"],
    "kind of a row": [b"\x00", b"\x07", b"\x01", b"\x02"],
    "number of items": [b"\x00\x00\x00\x00", b"\x00\x00\x00\x09"],
    "number of entries": [b"\x00\x00\x00\x00", b"\x00\x00\x00\x01", b"\x00\x00\x00\x09"],
    "kind of a key": [b"\x05", b"\x08", b"\x0a", b"\x00"],
    "kind of a part": [b"\x05", b"\x09", b"\x00"],
    "number of parts": [b"\x00\x00\x00\x00", b"\x00\x00\x00\x03"],
    "class of an exception": [b"\x07", b"\x08", b"\x19"],
}


def told(bs, codes=()):
    found = read(bs, codes)
    return f"Err {found}" if isinstance(found, int) else f"Ok ({found.term()})"


def bases():
    inner = L()
    itself = L()
    itself.inside.append(itself)
    return [
        ("a whole number, a text and a range", State({"a": 5, "b": "é", "r": range(1, 2, 3)})),
        ("two names of a list, and another list", State({"a": inner, "b": inner, "c": L(inner, L())})),
        ("a builtin function, a class, and a list in itself", State({"f": Named("sum"), "g": Named("str"), "i": itself})),
        ("a dict", State({"d": D((None, True), ((1, "k"), L()), ("k", 2))})),
        ("an object and a tuple", State({"o": O(("x", T()), ("y_", None))})),
        ("an exception", State({"e": E("KeyError", "k", L())})),
    ]


def field_rows():
    files = [RowFile(CRATE, name, "Pictures in which one field is cut or changed: what is read, or the place of the first field at fault. Computed on the definition; made by tools/rows/reading_rows.py.", USES) for name in ("FieldRows", "MoreFieldRows")]
    for f in files:
        f.note("the bytes, with others in the place of so many of them")
        f.put("abbrev put : (at out : ℕ) → (new bs : List ℕ) → List ℕ", "put at out new bs = take at bs ++ (new ++ drop (at + out) bs)")
    for n, (says, state) in enumerate(bases()):
        f, base = files[n >= 3], f"base{n + 1}"
        bs = state_bytes(picture(state, list(state.names)))
        f.title(says)
        f.put(f"abbrev {base} : List ℕ", f"{base} = {bytes_term(bs)[1:-1]}")
        f.table("whole", [f"read_picture {base}", f"read_picture ({base} ++ 0 ∷ [])"], [told(bs), told(bs + bytes([0]))], unfolding=OPENED)
        r = Reader(bs)
        r.picture()
        for start, size, kind in r.fields:
            if not size:
                continue
            lefts, rights = [f"read_picture (take {start + size - 1} {base})"], [told(bs[:start + size - 1])]
            for wrong in WRONG[kind]:
                changed = bs[:start] + wrong + bs[start + size:]
                if changed != bs:
                    lefts.append(f"read_picture (put {start} {size} {bytes_term(wrong)} {base})")
                    rights.append(told(changed))
            f.note(f"{kind}, at {start}")
            f.table("at_fault", lefts, rights, unfolding=OPENED)
    for f in files:
        f.write()


# ---- codes of functions, by hand: with how many defaults the text is the code of a function, if it is

CODES = [
    ("def f(): pass", 0),
    ("def f(a): pass", 0),
    ("def f(a=1): pass", 1),
    ("def f(a, b=1, c=2): pass", 2),
    ("def f(a=1,): pass", 1),
    ("def f():\n    pass", 0),
    ("def f():\n    if 1:\n        pass\n    return 2", 0),
    ("def f(): pass;", 0),
    ("def f(): x = 1; return x", 0),
    ("def f( ) :pass", 0),
    ("def f(): return 'é'", 0),
    ("def f(): # c\n    pass", 0),
    ("def f():\n\n    pass", 0),
    ("def f(): pass ", None),
    ("def f(): pass\n", None),
    ("def f(): pass # c", None),
    (" def f(): pass", None),
    ("\ndef f(): pass", None),
    ("# c\ndef f(): pass", None),
    ("def f(): pass\ndef g(): pass", None),
    ("def f():\n    pass\n    # c", None),
    ("def f():\r    pass", None),
    ("def f():\r\n    pass", None),
    ("def f(a=1, b): pass", None),
    ("def f(a, a): pass", None),
    ("def f(): def g(): pass", None),
    ("def f():\n    def g(): pass", None),
    ("def f(): break", None),
    ("def f()", None),
    ("f", None),
    ("", None),
    ("pass", None),
    ("def if(): pass", None),
]


def code_rows():
    f = RowFile(CRATE, "FunctionRows", "Which texts are the code of a function, with how many defaults, told by the picture of one. Computed on the definition; made by tools/rows/reading_rows.py.", [*USES, "use Rattle.kishu_reading.specs.FromBytes.{code_defaults}", f"use Rattle.{CRATE}.proofs.OnLiterals.{{functions_on_literals}}"])
    for code, many in CODES:
        bs = code.encode()
        f.note(repr(code).replace("'", "`"))
        head = b"\x00\x00\x00\x01\x01f\x08\x00\x00\x00\x00\x00\x00\x00\x01\x05\x01" + len(bs).to_bytes(4, "big") + bs
        defaults = lambda n: n.to_bytes(4, "big") + b"\x01" * n
        known = {} if many is None else {code: many}
        tries = [head + defaults(n) for n in ((0,) if many is None else (many, many + 1))]
        f.table("code", [f"read_picture {bytes_term(t)}" for t in tries], [told(t, known) for t in tries], unfolding="functions_on_literals")
    f.write()


if __name__ == "__main__":
    field_rows()
    code_rows()
