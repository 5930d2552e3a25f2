#!/usr/bin/env python3
"""Makes the row file of crates/kishu_store_rows on states that are as large as a commit may keep, and larger by a
byte: of the sizes it is written here how many bytes each kind of state takes besides the letters of a text."""

from record_rows import CRATE
from row_file import PRELUDE, RowFile

MODEL = "use Rattle.kishu_model.specs."
OBJECTS = "use Rattle.kishu_objects.specs."
MOST, TOLD = 2**28, 2**64 - 1

LEMMAS = """-- so many letters a
unfoldable letters : ℕ → List ℕ
letters zero = []
letters (suc n) = 97 ∷ letters n

in_bytes : (n : ℕ) → length (encode_utf8_all (letters n)) ≡ n
unfolding letters encode_utf8
in_bytes zero = refl
in_bytes (suc n) = ap suc (in_bytes n)

abbrev coded : ℕ → List ℕ
coded n = encode_utf8_all (letters n)

large : (s : State) (size_is : ℕ) (b : Bool) → size s ≡ size_is → nat_lt most_bytes size_is ≡ b → is_too_large s ≡ b
large s size_is b t e = ap (nat_lt most_bytes) t ∙ e

told : (s : State) (size_is : ℕ) → size s ≡ size_is → too_large s ≡ state_too_large (min size_is most_told)
told s size_is t = ap (λ k. state_too_large (min k most_told)) t

kept_where : (s : State) (g : Graph) (k : Stepped) → is_too_large s ≡ false → unless_too_large s g k ≡ k
kept_where s g k e = rw e refl

refused_where : (s : State) (g : Graph) (k : Stepped) (bytes : ℕ) → is_too_large s ≡ true → too_large s ≡ state_too_large bytes → unless_too_large s g k ≡ refused_with (state_too_large bytes) g
refused_where s g k bytes e f = rw (e, f) refl"""

# Each with what it says, its names and nodes, how many times it has the text, how many bytes it takes besides, and
# which lengths are added up.
ZEROS = "(0 ∷ 0 ∷ 0 ∷ 0 ∷ [])"
SHAPES = [
    ("twice", "two names, each with the text: two groups", "(codes \"a\", text (letters n)) ∷ (codes \"b\", text (letters n)) ∷ []", "[]", 2, 30, [f"length-append (coded n ++ []) {ZEROS}", "length-append (coded n) []", "in_bytes n"]),
    ("listed", "a list that holds the text", "(codes \"a\", node 0) ∷ []", "list (text (letters n) ∷ []) ∷ []", 1, 25, ["length-append (coded n ++ []) []", "length-append (coded n) []", "in_bytes n"]),
    ("keyed", "a dict whose key is the text", "(codes \"a\", node 0) ∷ []", "dict ((k.single (k.text (letters n)), none) ∷ []) ∷ []", 1, 26, ["length-append ((coded n ++ (0 ∷ [])) ++ []) []", "length-append (coded n ++ (0 ∷ [])) []", "length-append (coded n) (0 ∷ [])", "in_bytes n"]),
]


def limit_rows():
    f = RowFile(CRATE, "LargeRows", "States as large as a commit may keep, and larger by a byte. Made by tools/rows/limit_rows.py.", [PRELUDE, "use Rattle.std.specs.Prelude.{◌+◌, ◌*◌, zero, suc, length, min, nat_lt, Bool}", "use Rattle.std.proofs.Common.{arith, ap, ◌∙◌, length-append}", "use Rattle.std.specs.Char.{encode_utf8}", "use Rattle.std.specs.Str.{encode_utf8_all}", "use Rattle.kishu_meaning.specs.values.Keys as k", "use Rattle.kishu_meaning.specs.values.Values.{none, text, node, list, dict, State}", OBJECTS + "Bytes.{in_four}", OBJECTS + "Sizes.{size, most_bytes}", "use Rattle.kishu_store.specs.Graph.{Graph, new_graph}", MODEL + "Answers.{state_too_large}", MODEL + "Request.{Stepped, refused_with}", MODEL + "requests.TooLarge.{is_too_large, too_large, most_told, unless_too_large}"])
    f.put(*LEMMAS.split("\n"))
    for name, says, names, nodes, times, more, lengths in SHAPES:
        f.title(says)
        f.put(f"abbrev {name} : ℕ → State", f"{name} n = record {{ names = {names}; nodes = {nodes} }}")
        takes = f"{more} + {f'{times} * n' if times > 1 else 'n'}"
        f.put(f"{name}_takes : (n : ℕ) → size ({name} n) ≡ {takes}", "unfolding in_four", f"{name}_takes n = omega (arith, {', '.join(lengths)})")
        at = lambda n: more + times * n
        limit = (MOST - more) // times
        for n in (0, limit, limit + 1, 2**40):
            big = at(n) > MOST
            flag = f"large ({name} {n}) {at(n)} {str(big).lower()} ({name}_takes {n}) refl"
            f.row(f"{name}_large", f"is_too_large ({name} {n}) ≡ {str(big).lower()}", flag)
            if big:
                f.row(f"{name}_told", f"too_large ({name} {n}) ≡ state_too_large {min(at(n), TOLD)}", f"told ({name} {n}) {at(n)} ({name}_takes {n})")
                f.row(f"{name}_refused", f"(q : Stepped) → unless_too_large ({name} {n}) new_graph q ≡ refused_with (state_too_large {min(at(n), TOLD)}) new_graph", f"λ q. refused_where ({name} {n}) new_graph q {min(at(n), TOLD)} ({flag}) (told ({name} {n}) {at(n)} ({name}_takes {n}))")
            else:
                f.row(f"{name}_kept", f"(q : Stepped) → unless_too_large ({name} {n}) new_graph q ≡ q", f"λ q. kept_where ({name} {n}) new_graph q ({flag})")
    f.write()


if __name__ == "__main__":
    limit_rows()
