"""Runs cells with builtin functions and classes, beside all that function_machine.py runs, and counts the steps."""
from cell_machine import Raised, is_number, whole
from function_machine import ABOVE, CLASSES, Functions
from node_machine import Builtin, Class, Thing, bad_arguments, is_kind

FUNCTIONS = "abs all any chr divmod isinstance len max min ord repr sorted sum".split()
TYPES = {name: Class(name) for name in "bool dict int list range str tuple".split()}
WHITE = " \t\n\r\v\f"


BUILTINS = {name: Builtin(name) for name in FUNCTIONS}
KINDS_OF = {"NoneType": (), "bool": ("bool", "int"), "builtin": (), "class": (), "function": ()}


class Whole(Functions):
    """A machine with all of the language."""

    # ---- names

    def read(self, name):
        known = BUILTINS.get(name) or TYPES.get(name)
        if known is None or name in self.own or name in self.names:
            return super().read(name)
        self.accessed.append(name)
        return known

    # ---- calls

    def call(self, callee, plain, named):
        if not isinstance(callee, Builtin) and callee not in TYPES.values():
            return super().call(callee, plain, named)
        if named:
            raise bad_arguments(callee.name)
        low, high, form = self.forms()[callee.name]
        if not low <= len(plain) <= high:
            raise bad_arguments(callee.name)
        return form(*plain)

    def forms(self):
        """The least and the greatest number of arguments, and what is done with them."""
        return {
            "abs": (1, 1, lambda n: whole(abs(self.number("abs", n)))), "all": (1, 1, lambda s: self.decide(s, False)), "any": (1, 1, lambda s: self.decide(s, True)),
            "chr": (1, 1, self.character), "divmod": (2, 2, self.both), "isinstance": (2, 2, self.is_instance), "len": (1, 1, self.length),
            "max": (1, 99, lambda *given: self.best("max", ">", given)), "min": (1, 99, lambda *given: self.best("min", "<", given)), "ord": (1, 1, self.code),
            "repr": (1, 1, self.shown), "sorted": (1, 1, self.sorted), "sum": (1, 1, self.sum),
            "bool": (0, 1, lambda v=False: self.truth(v)), "dict": (0, 1, self.dict), "int": (0, 1, self.int), "list": (0, 1, lambda *s: self.make("list", self.all_items(s))),
            "range": (1, 3, self.range), "str": (0, 1, lambda *v: self.text(*v) if v else ""), "tuple": (0, 1, self.tuple),
        }

    def number(self, name, value):
        if not is_number(value):
            raise bad_arguments(name)
        return int(value)

    def visited(self, value):
        for item in self.turns(value, "keys"):
            self.step()
            yield item

    def decide(self, value, which):
        return which if any(self.truth(item) == which for item in self.visited(value)) else not which

    def character(self, value):
        n = self.number("chr", value)
        if not 0 <= n <= 0x10FFFF or 0xD800 <= n <= 0xDFFF:
            raise Raised("ValueError", "not a character")
        return chr(n)

    def both(self, v, w):
        a, b = self.number("divmod", v), self.number("divmod", w)
        return self.make("tuple", [self.operate("//", a, b), self.operate("%", a, b)])

    def kinds_of(self, value):
        name = self.kind(value).strip("'")
        line = (name, ABOVE.get(name), ABOVE.get(ABOVE.get(name)), "Exception") if name in CLASSES else (name,)
        return KINDS_OF.get(name, line)

    def is_instance(self, value, classes):
        classes = classes.inside if is_kind(classes, "tuple") else [classes]
        if not all(isinstance(c, Class) for c in classes):
            raise bad_arguments("isinstance")
        return any(c.name in self.kinds_of(value) for c in classes)

    def length(self, value):
        if isinstance(value, range):
            return whole(self.size(value))
        if not (isinstance(value, str) or is_kind(value, "list", "tuple", "dict")):
            raise bad_arguments("len")
        return self.size(value)

    def best(self, name, sign, given):
        found = []
        for item in self.visited(given[0] if len(given) == 1 else Thing(None, "tuple", list(given))):
            if not found or self.compare(sign, item, found[0]):
                found = [item]
        if not found:
            raise Raised("ValueError", "empty argument")
        return found[0]

    def code(self, value):
        if not (isinstance(value, str) and len(value) == 1):
            raise bad_arguments("ord")
        return ord(value)

    def sorted(self, value):
        n = self.size(value)
        self.step(n * n.bit_length() + n)
        items = self.items(value)
        if not (all(map(is_number, items)) or all(isinstance(i, str) for i in items)):
            raise bad_arguments("sorted")
        return self.make("list", sorted(items))

    def sum(self, value):
        total = 0
        for item in self.visited(value):
            total = self.operate("+", total, self.number("sum", item))
        return total

    # ---- classes

    def all_items(self, given):
        if not given:
            return []
        self.step(self.size(given[0]))
        return self.items(given[0])

    def tuple(self, *given):
        return given[0] if given and is_kind(given[0], "tuple") else self.make("tuple", self.all_items(given))

    def dict(self, *given):
        if not given:
            return self.make("dict", {})
        if not is_kind(given[0], "dict"):
            raise bad_arguments("dict")
        self.step(len(given[0].inside))
        return self.make("dict", dict(given[0].inside))

    def int(self, value=0):
        if not isinstance(value, str):
            return self.number("int", value)
        self.step(len(value))
        digits = value.strip(WHITE)
        unsigned = digits[1:] if digits[:1] in ("+", "-") else digits
        if not (unsigned.isascii() and unsigned.isdigit() and -(2**127) <= int(digits) < 2**127):
            raise Raised("ValueError", "not a whole number")
        return int(digits)

    def range(self, *given):
        start, stop, step = {1: (0, given[0], 1), 2: (*given[:2], 1), 3: given}[len(given)]
        start, stop, step = [self.number("range", v) for v in (start, stop, step)]
        if step == 0:
            raise Raised("ValueError", "step is zero")
        return range(start, stop, step)
