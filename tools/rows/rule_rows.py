#!/usr/bin/env python3
"""Makes the rows of crates/kishu_object_rows on what is a value, a node, a state, what can be written as
bytes, and which bytes are a picture. Which rule something breaks is written here by hand; what is read from
bytes is told by picture_reader.py."""

from nodes import CLASSES, listing, number, text
from object_rows import CRATE, KEYS, OBJECTS, ONE, STATES, VALUES
from picture_reader import RESERVED, read
from reading_rows import OPENED
from row_file import PRELUDE, RowFile
from same_rows import bytes_term
from states import D, E, F, L, Laid, O, State, T, picture, state_bytes
from table_rows import at, do_rise, each, falls, is_name, rises

MADE = "Made by tools/rows/rule_rows.py."
ARITH = "use Rattle.std.proofs.Common.{arith, sym}"
BOOL = "use Rattle.std.proofs.lemmas.Bool.{false≢true}"
PRE = [PRELUDE, "use Rattle.std.specs.Prelude.{Bool, ◌^◌, ◌-◌, ◌<◌, length}", ARITH, BOOL]
BUILTINS, CLASS_COUNT, HALF = 14, 25, 2**127


class Wrong:
    """A value as it is written, with how that it is one is proved, or how it is refuted from `of`."""

    def __init__(self, term, proof=None, refuted=None, children=()):
        self.term, self.proof, self.refuted = term, proof, refuted


def is_true(of):
    return f"absurd (false≢true {of})"


def is_false(of):
    return f"absurd (false≢true (sym {of}))"


def whole(z):
    return -HALF <= z < HALF


def scalar(c):
    return c < 0xD800 or 0xDFFF < c < 0x110000


def whole_term(z):
    """A number near the limits, in terms of them."""
    if abs(z) < 2**40:
        return number(z)
    n = z if z >= 0 else -z - 1
    return f"({'pos' if z >= 0 else 'negsuc'} (2 ^ 127{'' if n == HALF else f' - {HALF - n}'}))" if n <= HALF else f"(pos {n})"


def integer(z):
    return Wrong(f"(integer {whole_term(z)})", "refl", None if whole(z) else is_true)


def spelled(*cs):
    return Wrong(f"(text {listing([str(c) for c in cs])})", "refl", None if all(map(scalar, cs)) else is_true)


def span(a, b, c):
    bad = next((i for i, z in enumerate((a, b, c)) if not whole(z)), None)
    refuted = None if bad is None and c else (lambda of: is_true(f"{of}.{bad}")) if bad is not None else lambda of: is_false(f"{of}.3")
    return Wrong(f"(range {whole_term(a)} {whole_term(b)} {whole_term(c)})", "(refl, refl, refl, refl)", refuted)


def counted(kind, n, limit):
    return Wrong(f"({kind} {n})", "omega arith", None if n < limit else lambda of: f"absurd (omega (arith, {of}))")


PLAIN = [Wrong("none", "tt"), Wrong("(bool true)", "tt")]


def claims(f, kind, claim, what, opened=""):
    """A row that it is one, or that it is none."""
    if what.refuted is None:
        f.row(kind, claim, what.proof, unfolding=opened)
    else:
        f.row(f"no_{kind}", f"{claim} → ⊥", f"λ h. {what.refuted('h')}", unfolding=opened)


def all_of(ws):
    """What holds of each, from the first that it doesn't hold of."""
    bad = next(((i, w) for i, w in enumerate(ws) if w.refuted), None)
    return Wrong("", each([w.proof for w in ws]), None if bad is None else lambda of: bad[1].refuted(of + at(bad[0])))


def both(*parts):
    bad = next(((i, w) for i, w in enumerate(parts) if w.refuted), None)
    return Wrong("", "(" + ", ".join(w.proof for w in parts) + ")", None if bad is None else lambda of: bad[1].refuted(f"{of}.{bad[0]}"))


def apart(keys):
    """No two of the keys are one."""
    bad = next((i for i, k in enumerate(keys) if k in keys[i + 1:]), None)
    return Wrong("", each(["refl"] * len(keys)), None if bad is None else lambda of: is_false(of + at(bad)))


def names(xs):
    bad = next((i for i, x in enumerate(xs) if not is_name(x)), None)
    return Wrong("", each(["refl"] * len(xs)), None if bad is None else lambda of: is_true(of + at(bad)))


def rising(xs):
    return Wrong("", rises(xs), None if do_rise(xs) else lambda of: falls(xs, of))


# ---- states

VALUE_ROWS = [integer(z) for z in (0, -1, HALF - 1, HALF, -HALF, -HALF - 1)] + [spelled(), spelled(0, 0x7F, 0x80), spelled(0xD7FF), spelled(0xD800), spelled(0xDFFF), spelled(0xE000), spelled(0x10FFFF), spelled(0x110000), spelled(97, 0xDC00)] + [span(0, 0, 1), span(5, 0, -1), span(0, 5, 0), span(HALF, 0, 1), span(0, -HALF - 1, 1), span(0, 0, HALF), span(-HALF, HALF - 1, -HALF)] + [counted("builtin", n, BUILTINS) for n in (0, 13, 14)] + [counted("class", n, CLASS_COUNT) for n in (0, 24, 25)]


def dict_of(*pairs):
    """Pairs of a key, as a tuple of what it is compared by and its claim, and a value's claim."""
    keys = [k for k, _, _ in pairs]
    term = f"(dict {listing([f'({t}, {v.term})' for (_, t, _), v in zip([(k, c.term, c) for k, c, _ in pairs], [v for _, _, v in pairs])])})"
    w = both(all_of([c for _, c, _ in pairs]), apart(keys), all_of([v for _, _, v in pairs]))
    w.term = term
    return w


def key(k):
    """What keys are compared by, and the claim that it is one."""
    part = lambda p: Wrong("k.none", "tt") if p is None else Wrong(f"(k.bool {str(p).lower()})", "tt") if isinstance(p, bool) else Wrong(f"(k.integer {whole_term(p)})", "refl", None if whole(p) else is_true) if isinstance(p, int) else Wrong(f"(k.text {listing([str(ord(c)) for c in p])})", "refl", None if all(scalar(ord(c)) for c in p) else is_true)
    if isinstance(k, tuple):
        w = all_of([part(p) for p in k])
        w.term = f"(k.tuple {listing([part(p).term for p in k])})"
        return k, w
    w = part(k)
    w.term = f"(k.single {w.term})"
    return k, w


def object_of(*pairs):
    xs = [x for x, _ in pairs]
    w = both(names(xs), apart(xs), all_of([v for _, v in pairs]))
    w.term = f"(object {listing([f'({text(x)}, {v.term})' for x, v in pairs])})"
    return w


def of_values(kind, *vs):
    w = all_of(vs)
    w.term = f"({kind} {listing([v.term for v in vs])})"
    return w


def exception_of(n, *vs):
    w = both(Wrong("", "refl", None if 8 <= n <= 24 else is_true), all_of(vs))
    w.term = f"(exception {n} {listing([v.term for v in vs])})"
    return w


def node(i, k):
    return counted("node", i, k)


def node_rows():
    n, t = Wrong("none", "tt"), Wrong("(bool true)", "tt")
    return [of_values("list"), of_values("list", n, node(1, 2)), of_values("list", n, node(2, 2)), of_values("tuple", integer(HALF)), of_values("tuple", spelled(97)),
            dict_of(), dict_of((*key(1), n), (*key("1"), n), (*key((1,)), node(0, 2))), dict_of((*key(1), n), (*key(True), n)), dict_of((*key((1, 0)), n), (*key((True, False)), t)), dict_of((*key(()), n), (*key(None), t)), dict_of((*key("\ud800"), n)), dict_of((*key((1, HALF)), n)), dict_of((*key("a"), n), (*key("b"), n), (*key("a"), n)), dict_of((*key("a"), node(2, 2))),
            object_of(), object_of(("b", n), ("a", t)), object_of(("a", n), ("a", n)), object_of(("if", n)), object_of(("", n)), object_of(("1", n)), object_of(("a", spelled(0xD800))),
            exception_of(8), exception_of(24, n, node(1, 2)), exception_of(7), exception_of(25), exception_of(16, node(2, 2))]


def names_claim(bs, k):
    """The names with their values' claims."""
    xs = [x for x, _ in bs]
    parts = (("titles", names(xs)), ("rise", rising(xs)), ("values", all_of([v for _, v in bs])))
    bad = next(((p, w) for p, w in parts if w.refuted), None)
    w = Wrong(listing([f"({text(x)}, {v.term})" for x, v in bs]), "record { " + "; ".join(f"{p} = {w.proof}" for p, w in parts) + " }", None if bad is None else lambda of: bad[1].refuted(f"{of}.{bad[0]}"))
    return w


def state_rows():
    f = RowFile(CRATE, "StateRows", f"What is a value, a key, a node and a state, and what isn't: computed on the definitions. {MADE}", [*PRE, "use Rattle.std.specs.List.Sorted.{IsStrictlySortedBy}", "use Rattle.kishu_language.specs.tokens.Names.{reserved_words}", ONE, KEYS, VALUES, OBJECTS + "State.{IsValue, IsKey, IsName, IsNode, AreNames, IsState, Stays, Grown, the_same, lists, dicts, objects}"])
    f.title("values, among two nodes")
    for w in PLAIN + VALUE_ROWS + [node(0, 2), node(1, 2), node(2, 2)]:
        claims(f, "value", f"IsValue 2 {w.term}", w)
    f.title("keys")
    for k in (None, HALF - 1, HALF, "\ud7ff", "\udfff", (), (None, True, "a"), ("a", "\udc00"), (-HALF - 1, 0)):
        _, w = key(k)
        claims(f, "key", f"IsKey {w.term}", w)
    f.title("nodes, among two")
    opened = "reserved_words"
    for w in node_rows():
        claims(f, "node", f"IsNode 2 {w.term}", w, opened)
    f.title("names")
    n = Wrong("none", "tt")
    for bs in ([], [("a", n)], [("Z", n), ("_", node(0, 1)), ("a", n)], [("b", n), ("a", n)], [("a", n), ("a", n)], [("if", n)], [("a", node(1, 1))], [("a", n), ("b", integer(HALF))], [("a", n), ("aa", n), ("ab", n)]):
        w = names_claim(bs, 1)
        claims(f, "names", f"AreNames 1 {w.term}", w, opened + " IsStrictlySortedBy")
    f.title("what a node may become, and that old nodes keep their numbers")
    for kind, a, b in (("lists", "list", "[]"), ("dicts", "dict", "[]"), ("objects", "object", "[]")):
        f.row("stays", f"Stays ({a} []) ({a} [])", f"{kind} [] []")
    f.row("stays", "Stays (list (none ∷ [])) (list [])", "lists (none ∷ []) []")
    f.row("stays", "Stays (tuple (none ∷ [])) (tuple (none ∷ []))", "the_same (tuple (none ∷ []))")
    f.put("tuple_stays : (vs : List Value) (m : Node) → Stays (tuple vs) m → m ≡ tuple vs", "tuple_stays vs m (the_same n) = refl")
    f.put("exception_stays : (kind : ℕ) (vs : List Value) (m : Node) → Stays (exception kind vs) m → m ≡ exception kind vs", "exception_stays kind vs m (the_same n) = refl")
    f.row("stays_not", "Stays (tuple (none ∷ [])) (tuple []) → ⊥", "λ h. let e = tuple_stays (none ∷ []) (tuple []) h in cc")
    f.row("stays_not", "Stays (tuple []) (list []) → ⊥", "λ h. let e = tuple_stays [] (list []) h in cc")
    f.row("stays_not", "Stays (exception 8 []) (exception 8 (none ∷ [])) → ⊥", "λ h. let e = exception_stays 8 [] (exception 8 (none ∷ [])) h in cc")
    f.row("grown", "Grown [] (list [] ∷ [])", "tt")
    f.row("grown", "Grown (list [] ∷ tuple [] ∷ []) (list (none ∷ []) ∷ tuple [] ∷ dict [] ∷ [])", "(lists [] (none ∷ []), (the_same (tuple []), tt))")
    f.row("grown_not", "Grown (list [] ∷ []) [] → ⊥", "λ h. h")
    f.row("grown_not", "Grown (tuple [] ∷ []) (list [] ∷ tuple [] ∷ []) → ⊥", "λ h. let e = tuple_stays [] (list []) h.0 in cc")
    f.title("states")
    for bs, ns in (([], []), ([("a", node(0, 1))], [of_values("list", node(0, 1))]), ([], [of_values("tuple"), exception_of(9)])):
        nw, dw = names_claim(bs, len(ns)), all_of(ns)
        f.row("state", f"IsState (record {{ names = {nw.term}; nodes = {listing([w.term for w in ns])} }})", f"record {{ names = {nw.proof}; nodes = {dw.proof} }}", unfolding=opened + " IsStrictlySortedBy")
    for bs, ns in (([("a", node(1, 1))], [of_values("list")]), ([("a", node(0, 0))], []), ([], [of_values("list", node(1, 1))]), ([("a", n)], [exception_of(7)])):
        nw, dw = names_claim(bs, len(ns)), all_of(ns)
        shown = nw.refuted("h.names") if nw.refuted else dw.refuted("h.nodes")
        f.row("no_state", f"IsState (record {{ names = {nw.term}; nodes = {listing([w.term for w in ns])} }}) → ⊥", f"λ h. {shown}", unfolding=opened + " IsStrictlySortedBy")
    f.write()


# ---- what can be written

def signed(z):
    return Wrong("", "record { sfits = omega arith }", None if whole(z) else lambda of: f"absurd (omega (arith, {of}.sfits))")


def spells(cs):
    return Wrong("", "(refl, omega arith)", None if all(map(scalar, cs)) else lambda of: is_true(f"{of}.0"))


def counts(w):
    return both(Wrong("", "omega arith"), w)


def fit_rows():
    f = RowFile(CRATE, "FitRows", f"What can be written as bytes, and what can't: computed on the definitions. {MADE}", [*PRE, "use Rattle.std.specs.Char.{encode_utf8}", ONE, KEYS, VALUES, OBJECTS + "Fits.{IsCounted, Spells, ValueFits, PartFits, KeyFits, NodeFits, StateFits}"])
    opened = "encode_utf8"
    f.title("values and parts of keys")
    zs = (0, HALF - 1, HALF, -HALF, -HALF - 1)
    for z in zs:
        claims(f, "value", f"ValueFits (integer {whole_term(z)})", signed(z))
        claims(f, "part", f"PartFits (k.integer {whole_term(z)})", signed(z))
    for cs in ((), (97, 233, 0x20AC, 0x1F600), (0xD7FF, 0xE000, 0x10FFFF), (0xD800,), (97, 0xDFFF), (0x110000,)):
        term = listing([str(c) for c in cs])
        claims(f, "value", f"ValueFits (text {term})", spells(cs), opened)
        claims(f, "part", f"PartFits (k.text {term})", spells(cs), opened)
    for a, b, c in ((0, 0, 0), (HALF - 1, -HALF, 1), (HALF, 0, 1), (0, -HALF - 1, 1), (0, 0, HALF)):
        claims(f, "value", f"ValueFits (range {whole_term(a)} {whole_term(b)} {whole_term(c)})", both(*map(signed, (a, b, c))))
    for i in (0, 2**32 - 1, 2**32):
        claims(f, "value", f"ValueFits (node {i})", counted("node", i, 2**32))
    for v in ("none", "(bool false)", "(builtin 99)", "(class 99)"):
        f.row("value", f"ValueFits {v}", "tt")
    for p in ("k.none", "(k.bool true)"):
        f.row("part", f"PartFits {p}", "tt")
    f.title("keys, nodes and states")
    one, far, none = signed(1), signed(HALF), Wrong("", "tt")
    number_of = {one: "(integer (pos 1))", far: "(integer (pos (2 ^ 127)))", none: "none"}
    for ps in ([], [one], [one, far]):
        claims(f, "key", f"KeyFits (k.tuple {listing(['(k.' + number_of[p][1:] for p in ps])})", counts(all_of(ps)))
    claims(f, "key", "KeyFits (k.single (k.integer (pos (2 ^ 127))))", far)
    for kind in ("list", "tuple", "exception 8", "exception 300"):
        for vs in ([], [one, none], [none, far]):
            claims(f, "node", f"NodeFits ({kind} {listing([number_of[v] for v in vs])})", counts(all_of(vs)))
    for vs in ([one], [far]):
        claims(f, "node", f"NodeFits (dict ((k.single (k.integer (pos 1)), {number_of[vs[0]]}) ∷ []))", counts(all_of([both(one, vs[0])])))
        claims(f, "node", f"NodeFits (object ((codes \"if\", {number_of[vs[0]]}) ∷ []))", counts(all_of(vs)))
        claims(f, "node", f"NodeFits (function One (codes \"f\") ({number_of[vs[0]]} ∷ []))", both(Wrong("", "omega arith"), counts(all_of(vs))))
    claims(f, "node", "NodeFits (dict ((k.single (k.integer (pos (2 ^ 127))), none) ∷ []))", counts(all_of([both(far, none)])))
    for bs, ns in (([], []), ([one], [one]), ([far], []), ([], [far])):
        names_term, nodes_term = listing([f"(codes \"a\", {number_of[v]})" for v in bs]), listing([f"(list ({number_of[v]} ∷ []))" for v in ns])
        claims(f, "state", f"StateFits (record {{ names = {names_term}; nodes = {nodes_term} }})", both(counts(all_of(bs)), counts(all_of([counts(all_of([v])) for v in ns]))))
    f.write()


# ---- pictures

def pictured_rows():
    reading = "use Rattle.kishu_reading.specs."
    f = RowFile(CRATE, "PicturedRows", f"Which bytes are a picture, and of which state: by what is read from them. {MADE}", [*PRE, "use Rattle.std.specs.Prelude.{nat_lt}", "use Rattle.std.specs.List.{list_all}", "use Rattle.std.specs.Char.{encode_utf8}", "use Rattle.std.specs.Str.{chars}", "use Rattle.std.proofs.lemmas.Bool.{and_parts, ltb-true}", "use Rattle.kishu_language.specs.tokens.Names.{reserved_words}", ONE, "use Rattle.kishu_language.specs.declared.profile.Profile.TheVariants.{Two}", KEYS, VALUES, "use Rattle.kishu_bytes.specs.Numbers.{sixteen}", OBJECTS + "Bytes.{in_four}", reading + "FromBytes.{read_picture}", reading + "Pictured.{HasKnownProfile, AreKnown, IsInPicture, IsPictureOf, IsPicture, AreBytes}", "use Rattle.kishu_reading_laws.specs.PictureLaws.{read_back, picture_is_read, read_is_picture}"])
    f.put("bytes_of : (bs : List ℕ) → list_all (λ b. nat_lt b 256) bs ≡ true → AreBytes bs", "bytes_of [] h = tt", "bytes_of (b ∷ bs) h = (let parts = and_parts (nat_lt b 256) (list_all (λ c. nat_lt c 256) bs) h in (ltb-true b 256 parts.0, bytes_of bs parts.1))")
    f.put("faulty : (n : ℕ) (p : State) → Err n ≡ Ok p → ⊥", "faulty n p e = cc")
    opened = OPENED
    chosen = [k for k in STATES if k not in ("default", "defaults", "long_chain")]
    f.title("bytes that are the picture of a state, which is its own picture")
    for name in chosen:
        p = picture(STATES[name][1], list(STATES[name][1].names))
        bs = bytes_term(state_bytes(p))
        f.put(f"abbrev {name}_bytes : List ℕ", f"{name}_bytes = {bs[1:-1]}")
        f.row("is_picture", f"IsPictureOf {name}_bytes ({p.term()})", f"read_is_picture {name}_bytes ({p.term()}) (bytes_of {name}_bytes refl) refl", unfolding=opened)
        f.row("in_picture", f"IsInPicture ({p.term()})", f"(read_is_picture {name}_bytes ({p.term()}) (bytes_of {name}_bytes refl) refl).state", unfolding=opened)
    f.title("bytes that are the picture of no state")
    whole_bytes = {name: state_bytes(picture(STATES[name][1], list(STATES[name][1].names))) for name in chosen}
    for name in ("shared", "itself", "keyed", "raised", "object_round", "equal"):
        bs = whole_bytes[name]
        for changed in (bs[:-1], bs + b"\0", bytes([1]) + bs[1:]):
            found = read(changed)
            f.row("no_picture", f"IsPicture {bytes_term(changed)} → ⊥", f"λ h. faulty {found} h.0 (picture_is_read {bytes_term(changed)} h.0 h.1)", unfolding=opened)
    f.row("no_picture", "IsPicture [] → ⊥", "λ h. faulty 0 h.0 (picture_is_read [] h.0 h.1)", unfolding=opened)
    f.title("states that aren't their own pictures")
    a, b = L(), L(1)
    holder = L(b, a)
    for says, p in (
        ("nodes in another order than that of first meeting", Laid({"x": a, "y": b}, [b, a])),
        ("a node that nothing reaches", Laid({"x": a}, [a, b])),
        ("a row before its node was met", Laid({"x": holder}, [holder, a, b])),
        ("names that don't rise", Laid({"y": 1, "x": 2}, [])),
        ("a name that is none", Laid({"if": 1}, [])),
        ("one key twice", Laid({"d": (d := D((1, None), (True, None)))}, [d])),
        ("one attribute twice", Laid({"o": (o := O(("x", 1), ("x", 2)))}, [o])),
    ):
        found = read(state_bytes(p))
        f.note(says)
        f.row("not_own", f"IsInPicture ({p.term()}) → ⊥", f"λ h. faulty {found} ({p.term()}) (read_back ({p.term()}) h)", unfolding=opened + " in_four sixteen")
    f.title("profiles and bytes")
    f.row("known", "AreKnown (list [] ∷ tuple [] ∷ dict [] ∷ object [] ∷ exception 8 [] ∷ function One [] [] ∷ [])", "(tt, (tt, (tt, (tt, (tt, (refl, tt))))))")
    f.row("unknown", "HasKnownProfile (function Two [] []) → ⊥", "λ h. cc")
    f.row("bytes", "AreBytes (0 ∷ 255 ∷ [])", "bytes_of (0 ∷ 255 ∷ []) refl")
    f.row("no_bytes", "AreBytes (0 ∷ 256 ∷ []) → ⊥", "λ h. absurd (omega (arith, h.1.0))")
    f.write()


if __name__ == "__main__":
    state_rows()
    fit_rows()
    pictured_rows()
