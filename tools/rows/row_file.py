"""How the scripts of rows write a file of them: a line that says what it is, what it uses, and rows."""

import pathlib
import re

TOP = pathlib.Path(__file__).resolve().parents[2]
PRELUDE = "use Rattle.std.specs.Prelude.{◌≡◌, ℕ, pos, negsuc, true, false, List, [], ◌∷◌, ◌++◌, codes, Option, Some, None, Ok, Err, refl}"


def is_used(name, words, body):
    if re.fullmatch(r"[\w-]+", name):
        return name in words
    return name.strip("◌").split("◌")[0] in body


class RowFile:
    def __init__(self, crate, name, says, uses):
        self.path = TOP / "crates" / crate / "proofs" / f"{name}.antt"
        self.lines = [f"-- {says}", *uses]
        self.counts = {}

    def title(self, words):
        self.lines += ["", f"-- ---- {words}"]

    def note(self, words):
        self.lines += ["", f"-- {words}"]
        self.noted = True

    noted = False

    def put(self, *lines):
        if not self.noted:
            self.lines.append("")
        self.noted = False
        self.lines += lines

    def row(self, name, statement, proof="refl", unfolding=""):
        """A row of this kind, which gets the kind's next number."""
        self.counts[name] = self.counts.get(name, 0) + 1
        full = f"{name}_{self.counts[name]}"
        self.put(f"{full} : {statement}", *([f"unfolding {unfolding}"] if unfolding else []), f"{full} = {proof}")

    def table(self, name, lefts, rights, unfolding=""):
        """Several rows in one theorem: a list of what is computed, and one of what is wanted."""
        full = f"{name}_{sum(1 for t in self.counts if t.startswith(name + ' ')) + 1}"
        self.counts[f"{name} {full}"] = len(lefts)
        self.put(f"{full} : {' ∷ '.join([*lefts, '[]'])}", f"    ≡ {' ∷ '.join([*rights, '[]'])}", *([f"unfolding {unfolding}"] if unfolding else []), f"{full} = refl")

    def used(self):
        """The lines, with those names alone that the rows use."""
        head = 1 + next(i for i, l in enumerate(self.lines[1:]) if not l.startswith("use "))
        body = "\n".join(l for l in self.lines[head:] if not l.startswith("--"))
        body = re.sub(r'"(\\.|[^"\\])*"', '""', body)
        words = set(re.findall(r"[\w-]+", body))
        kept = []
        for l in self.lines[1:head]:
            begin, brace, names = l.partition("{")
            if not brace:
                kept += [l] if f"{l.split()[-1]}." in body else []
                continue
            names = [n for n in names.rstrip("}").split(", ") if is_used(n, words, body)]
            kept += [f"{begin}{{{', '.join(names)}}}"] if names else []
        return [self.lines[0], *dict.fromkeys(kept), *self.lines[head:]]

    def write(self):
        self.lines = self.used()
        self.path.parent.mkdir(parents=True, exist_ok=True)
        if len(self.lines) > 500:
            print(self.path.name, "has", len(self.lines), "lines")
        self.path.write_text("\n".join(self.lines) + "\n")
        print(self.path.name, sum(self.counts.values()))
