#!/usr/bin/env python3
"""Makes the rows of crates/kishu_object_rows on which states are the same, and on the bytes of pictures.
What is wanted is told by states.py, which has the rules a second time."""

from nodes import number
from object_rows import CRATE, KEYS, OBJECTS, ONE, STATES, USES_STATES, VALUES, names_of, names_term
from row_file import PRELUDE, RowFile
from states import D, E, F, L, Named, O, State, T, at, difference, groups_of, i128, is_node, key_bytes, key_term, node_term, numbers_term, picture_bytes, row_bytes, size, text, u32, value_bytes, value_term

NODES = {n: STATES[n][1] for n in STATES}


# ---- pairs of states

def pairs():
    """Each with what it shows, two states, and the names asked about where these aren't all."""
    one, two = L(1), L(2)
    ring, other, third = L(), L(), L()
    ring.inside.append(other)
    other.inside.append(third)
    third.inside.append(ring)
    itself = L()
    itself.inside.append(itself)
    pair = L()
    pair.inside.append(L(pair))
    back = L(L())
    back.inside[0].inside.append(back.inside[0])
    one_default = L()
    key = T(1)
    seen = L()
    return [
        ("node numbers don't count", State({"a": L(one, two, one)}), State({"a": L(one, two, one)}, first=[L(), two], turned=True)),
        ("nor do nodes that nothing reaches", State({"a": one}), State({"a": one}, first=[L(), T(L())])),
        ("a list in itself is none that holds another one", State({"a": itself}), State({"a": pair})),
        ("nor one whose item holds itself", State({"a": itself}), State({"a": back})),
        ("a ring of three is no ring of two", State({"a": ring}), State({"a": pair})),
        ("rings are the same wherever their nodes stand", State({"a": ring}), State({"a": ring}, turned=True)),
        ("one name more", State({"a": 1}), State({"a": 1, "b": 1})),
        ("another name", State({"a": 1}), State({"b": 1})),
        ("no names", State({}, first=[L()]), State({})),
        ("1 and True are two values", State({"a": 1}), State({"a": True})),
        ("0, False, None and '' are four", State({"a": 0, "b": None}), State({"a": 0, "b": ""})),
        ("texts by their code points", State({"a": "é"}), State({"a": "e\u0301"})),
        ("equal ranges with other numbers are two values", State({"a": range(0, 3, 2)}), State({"a": range(0, 4, 2)})),
        ("a builtin function and a class of one number", State({"a": Named("all")}), State({"a": Named("dict")})),
        ("a list is no tuple", State({"a": L(1)}), State({"a": T(1)})),
        ("one item more", State({"a": L(1)}), State({"a": L(1, 2)})),
        ("a child that is a node, and one that isn't", State({"a": L(L())}), State({"a": L(None)})),
        ("the order of a dict's keys counts", State({"a": D((1, None), ("k", None))}), State({"a": D(("k", None), (1, None))})),
        ("a key 1 is no key True", State({"a": D((1, 0))}), State({"a": D((True, 0))})),
        ("a tuple key is kept by what it holds", State({"a": D(((1, "k"), 0))}), State({"a": D(((1, "k"), 0))}, first=[L()])),
        ("a key (1,) is no key 1", State({"a": D(((1,), 0))}), State({"a": D((1, 0))})),
        ("a key () is no key ((),)'s kin None", State({"a": D(((), 0))}), State({"a": D((None, 0))})),
        ("a tuple key shares nothing with a tuple", State({"a": D(((1,), key)), "t": key}), State({"a": D(((1,), T(1))), "t": T(1)})),
        ("the order of attributes counts", State({"a": O(("x", 1), ("y", 2))}), State({"a": O(("y", 2), ("x", 1))})),
        ("an attribute less", State({"a": O(("x", 1), ("y", 2))}), State({"a": O(("x", 1))})),
        ("an object is no dict", State({"a": O(("x", 1))}), State({"a": D(("x", 1))})),
        ("a function's code counts to its blanks", State({"a": F("def f(): pass")}), State({"a": F("def f():  pass")})),
        ("a default counts", State({"a": F("def f(b=1): pass", 1)}), State({"a": F("def f(b=1): pass", 2)})),
        ("one default of two functions", State({"f": F("def f(b=[]): pass", one_default), "g": F("def g(b=[]): pass", one_default)}), State({"f": F("def f(b=[]): pass", L()), "g": F("def g(b=[]): pass", L())})),
        ("an exception's class counts", State({"a": E("KeyError", 1)}), State({"a": E("LookupError", 1)})),
        ("and its arguments", State({"a": E("ValueError", seen), "b": seen}), State({"a": E("ValueError", L()), "b": L()})),
        ("what two names share", State({"a": L(one), "b": one}), State({"a": L(one), "b": L(1)})),
        ("what one name holds twice", State({"a": L(one, one)}), State({"a": L(one, L(1))})),
        ("far inside", State({"a": L(L(L(1))), "b": 0}), State({"a": L(L(L(2))), "b": 0})),
        ("for b alone they are the same", State({"a": 1, "b": L(1)}), State({"a": 2, "b": L(1)}, first=[L()]), ["b"]),
        ("and so they are for names that are bound in neither", State({"a": 1}), State({"a": 2}), ["b", "c"]),
        ("not where one is bound in one of them", State({"a": 1, "b": 1}), State({"a": 1}), ["a", "b"]),
        ("what is shared with a name that isn't asked about doesn't count", State({"a": one, "b": one}), State({"a": L(1), "b": L(1)}), ["a"]),
        ("nor in the other order", State({"a": L(1), "b": L(1)}), State({"a": one, "b": one}), ["b"]),
        ("with both names it does", State({"a": one, "b": one}), State({"a": L(1), "b": L(1)}), ["a", "b"]),
        ("a path through a name that isn't asked about", State({"a": L(one), "b": one, "c": 0}), State({"a": L(one), "b": one, "c": 1}), ["a", "b"]),
    ]


def path_term(p):
    return "(" + " ∷ ".join([str(c) for c in reversed(p)] + ["[]"]) + ")" if p else "[]"


def among(x, names):
    return "tt" if names is None else f"({names.index(x)}, omega arith, refl)"


def refuted(s, t, found, names, prefix):
    """A proof that the states differ."""
    if found[0] == "views":
        _, x, p = found
        seen = f"h.views {text(x)} {path_term(p)} {among(x, names)}"
        (a, v), (b, w) = at(s, x, p), at(t, x, p)
        if a != b:
            return seen
        return f"seen_apart (view {prefix}_here.nodes {value_term(v, s.number)}) (view {prefix}_there.nodes {value_term(w, t.number)}) refl refl ({seen})"
    _, x, p, y, q, here = found
    side, one, other = ("shared_there", s, t) if here else ("shared_here", t, s)
    i = one.number(at(one, x, p)[1])
    j, k = (other.number(at(other, *place)[1]) for place in ((x, p), (y, q)))
    return f"absurd (omega (arith, one_number {j} {k} (h.{side} {text(x)} {path_term(p)} {text(y)} {path_term(q)} {among(x, names)} {among(y, names)} ({i}, refl, refl))))"


LEMMAS = """-- whether two views are one, by the test of values and nodes
abbrev is_seen : View → View → Bool
is_seen (plain v) (plain w) = is_value v w
is_seen (inside n) (inside m) = is_node n m
is_seen a b = false

-- Where the test tells two apart, they are.
seen_apart : (a b : View) → is_seen a b ≡ false → is_seen a a ≡ true → a ≡ b → ⊥
seen_apart a b other same e = false≢true (sym other ∙ ap (λ c. is_seen a c) (sym e) ∙ same)

-- Two paths that reach one node reach one number.
one_number : (j k : ℕ) → (i : ℕ) × (Some (node j) ≡ Some (node i)) × (Some (node k) ≡ Some (node i)) → j ≡ k
one_number j k (i, e, f) = cc"""


def same_rows():
    uses = [
        PRELUDE,
        "use Rattle.std.specs.Prelude.{Bool}",
        "use Rattle.std.proofs.Common.{sym, ◌∙◌, ap, arith}",
        "use Rattle.std.proofs.lemmas.Bool.{false≢true}",
        "use Rattle.kishu_language.specs.tokens.Names.{reserved_words}",
        ONE,
        KEYS,
        VALUES,
        OBJECTS + "Same.{Same, SameOn, View, plain, inside, view}",
        OBJECTS + "Sound.{IsSound}",
        "use Rattle.kishu_objects_laws.specs.SameLaws.{picture_same}",
        "use Rattle.kishu_objects_laws.specs.SoundLaws.{sound_of}",
        "use Rattle.kishu_objects_laws.specs.WholeLaws.{whole_same}",
        "use Rattle.kishu_history.specs.Alike.{is_value, is_node}",
    ]
    files = [RowFile(CRATE, name, says + " Made by tools/rows/same_rows.py.", uses) for name, says in (
        ("SameRows", "Which states are the same: those that are by the pictures of their names, and the others by a path that shows how they differ."),
        ("MoreSameRows", "Further states that are the same or differ, for all names or some."),
    )]
    for f in files:
        f.put(*LEMMAS.split("\n"))
    every = pairs()
    for n, (says, s, t, *asked) in enumerate(every):
        f = files[n >= 22]
        names = asked[0] if asked else None
        prefix = f"pair{n + 1}"
        f.title(says)
        f.put(f"abbrev {prefix}_here : State", f"{prefix}_here = {s.term()}")
        f.put(f"abbrev {prefix}_there : State", f"{prefix}_there = {t.term()}")
        for a, b, c, d in ((s, t, "here", "there"), (t, s, "there", "here")):
            found = difference(a, b, names or sorted(set(a.names) | set(b.names)))
            claim = f"SameOn {prefix}_{c} {prefix}_{d} {names_term(names)}" if names else f"Same {prefix}_{c} {prefix}_{d}"
            if found is None:
                sound = " ".join(f"(sound_of {prefix}_{e} refl refl)" for e in (c, d))
                proof = f"picture_same {prefix}_{c} {prefix}_{d} {sound} {names_term(names)} refl" if names else f"whole_same {prefix}_{c} {prefix}_{d} {sound} refl"
                f.row("same", claim, proof, unfolding="reserved_words")
            else:
                proof = refuted(a, b, found, names, prefix) if (c, d) == ("here", "there") else refuted(a, b, found, names, prefix).replace("_here.nodes", "_x.nodes").replace("_there.nodes", "_here.nodes").replace("_x.nodes", "_there.nodes")
                f.row("differ", f"{claim} → ⊥", f"λ h. {proof}")
    for f in files:
        f.write()


# ---- bytes

def bytes_term(bs):
    return numbers_term(list(bs))


WHOLE = [0, 1, 255, 256, -1, -2, -128, 2**64, 2**127 - 1, -(2**127)]
TEXTS = ["", "a", "é", "€", "\U0001f600", "a\x00b", "\uffff\U00010000"]


def byte_rows():
    uses = [PRELUDE, "use Rattle.std.specs.Char.{encode_utf8}", "use Rattle.std.specs.Prelude.{◌-◌, ◌^◌}", "use Rattle.kishu_bytes.specs.Numbers.{sixteen}", ONE, KEYS, VALUES, OBJECTS + "Bytes.{in_four, value_bytes, part_bytes, key_bytes, entry_bytes, name_bytes, row_bytes, state_bytes, picture_bytes}", USES_STATES]
    f = RowFile(CRATE, "ByteRows", "The bytes of values, keys, nodes and pictures: computed on the definitions. Made by tools/rows/same_rows.py.", uses)
    opened = "in_four sixteen encode_utf8"
    f.title("values")
    for v in [None, False, True, *WHOLE, *TEXTS, range(0, 3, -1), range(-1, 2**127 - 1, 5), Named("abs"), Named("sum"), Named("bool"), Named("ValueError")]:
        f.row("value", f"value_bytes {value_term(v, None)} ≡ {bytes_term(value_bytes(v, None))}", unfolding=opened)
    for i in (0, 255, 256, 2**32 - 1):
        f.row("value", f"value_bytes (node {i}) ≡ {bytes_term(value_bytes(L(), lambda n: i))}", unfolding=opened)
    f.title("keys: one part as that part, and a tuple behind a number of its own")
    for k in (None, False, True, 1, -1, "", "é", (), (1,), (True,), (None, "k", -1, False), ((2**127 - 1),)):
        f.row("key", f"key_bytes {key_term(k)} ≡ {bytes_term(key_bytes(k))}", unfolding=opened)
    f.title("nodes, whose children are no nodes")
    for n in (L(), L(1), T(), T(None, "a"), D(), D(("k", 1), ((), None)), D((True, False)), O(), O(("b", None), ("a", True)), F("def f(): pass"), F("def f(a=1, b=None): pass", 1, None), E("Exception"), E("ValueError", "x", 1), E("KeyError", None)):
        f.row("row", f"row_bytes {node_term(n, None)} ≡ {bytes_term(row_bytes(n, None))}", unfolding=opened)
    f.write()
    f = RowFile(CRATE, "PictureByteRows", "The bytes of pictures of names: computed on the definition. Made by tools/rows/same_rows.py.", uses)
    for name, (says, state) in STATES.items():
        f.title(says)
        for asked in names_of(state)[-3:]:
            f.row(f"bytes_{name}", f"picture_bytes {name} {names_term(asked)} ≡ {bytes_term(picture_bytes(state, asked))}", unfolding=opened)
    f.write()


def size_rows():
    f = RowFile(CRATE, "SizeRows", "How many bytes the pictures of a state's groups take: computed on the definitions. Made by tools/rows/same_rows.py.", [PRELUDE, "use Rattle.std.specs.Char.{encode_utf8}", "use Rattle.kishu_bytes.specs.Numbers.{sixteen}", OBJECTS + "Bytes.{in_four}", OBJECTS + "Sizes.{size, size_among}", USES_STATES])
    opened = "in_four sixteen encode_utf8"
    for name, (says, state) in STATES.items():
        f.title(says)
        f.row(f"size_{name}", f"size {name} ≡ {size(state)}", unfolding=opened)
        f.row(f"first_{name}", f"size_among ({' ∷ '.join([names_term(g) for g in groups_of(state)[:1]] + ['[]'])}) {name} ≡ {sum(len(picture_bytes(state, g)) for g in groups_of(state)[:1])}", unfolding=opened)
    f.write()


if __name__ == "__main__":
    same_rows()
    byte_rows()
    size_rows()
