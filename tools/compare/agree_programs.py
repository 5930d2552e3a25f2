"""Makes random programs of the language that Kishu and CPython have in common, of the forms in agree_forms.py."""
import random
import re

from agree_forms import (
    ALIASES, ATOM, CHANGES, CONDITION, Expression, FAULTS, FORMS, HIGHEST, LARGE, LITERALS, LONG, METHODS, NOT, ORDERS,
    OTHERS, POOLS, POWER, RAISED, RECURSIONS, RISKY, SMALL, STORES, SUM, TERM, TYPES, UNARY, UNPACKED, WALKS, WORDS,
)


class Lacking(Exception):
    """There is no name of a type that may be bound."""


class Maker:
    """Makes one program from a seed."""

    def __init__(self, seed):
        self.random = random.Random(seed)
        self.lines = []  # each with its depth
        self.pad = 0
        self.scope = {}  # the names that are bound here, with their types
        self.names = []  # all names that the program may bind outside functions
        self.functions = {}  # name: the parameters (name, type, default), and the type of the result
        self.inner = None  # in a function: the type of its result, and the global names that it may bind
        self.loops = self.still = self.deep = self.counters = 0
        self.risk = self.pick(0.0, 0.0, 0.02, 0.05)
        self.see = False  # whether there is a function that prints what it is called with

    def chance(self, share):
        return self.random.random() < share

    def pick(self, *choices):
        return self.random.choice(choices)

    def out(self, text):
        self.lines.append((self.pad, text))

    # ---- expressions

    def within(self, made, level):
        """An expression's text, in parentheses where it binds less than `level`."""
        if self.see and made.level > ATOM and self.chance(0.1):
            return f"see({made.text})"
        return f"({made.text})" if made.level > level or self.chance(0.04) else made.text

    def fill(self, form):
        return re.sub(r"<([@!]?)(\w+)(?::(\d))?>", lambda m: self.part(m[1], m[2], int(m[3] or CONDITION)), form)

    def part(self, mark, word, level):
        if mark == "@":
            return self.leaf(word).text
        if mark == "!":
            return self.pick(*self.bound(word))
        if word in POOLS:
            return self.within(self.expression(word), level)
        if word in WORDS:
            return self.pick(*WORDS[word])
        return {
            "num": self.number, "word": self.word, "few": self.few, "slice": self.slice, "small": lambda: self.within(self.stored("int"), level), "item": lambda: self.item(),
            "walked": lambda: self.expression(self.pick("li", "ws", "mx", "tu", "ds", "rg", "str")).text, "other": lambda: self.leaf(self.pick("str", "li", "tu", "ds", "ns")).text, "raised": self.raised,
        }[word]()

    def number(self):
        value = self.pick(self.random.randrange(10), self.random.randrange(10), self.random.randrange(-9, 0), self.random.randrange(-1000, 5000))
        return ("{}" if self.chance(0.9) or value < 0 else self.pick("{:#x}", "{:#b}", "{:#o}", "{:_}", "0X{:X}")).format(value)

    def few(self):
        names = [name for name, kind in self.scope.items() if kind == "turn"]
        return self.pick(*names) if names and self.chance(0.3) else str(self.random.randrange(5))

    def word(self, before=""):
        letters = self.random.choices(["a", "b", "ab", "x", "1", " ", ",", "-", "Z", *"é😀\n\t'\"\\\r\v\x01\x7f\0"], [18, 18, 10, 10, 10, 10, 6, 6, 6] + [2] * 7 + [1] * 5, k=self.random.randrange(1, 5))
        text, form = before + "".join(letters), self.random.random()
        if form < 0.06 and text.isprintable() and not re.search(r"['\"\\]", text):
            return self.pick("r'%s'", '"%s"', "u'%s'", "'''%s'''", '"""%s"""', "'%s' ''") % text
        if form < 0.1:
            return "'" + "".join(self.pick(f"\\x{ord(c):02x}", f"\\{ord(c):03o}") if ord(c) < 128 else f"\\U{ord(c):08x}" for c in text) + "'"
        return repr(text)

    def slice(self):
        start, stop = (self.pick("", "", "None", *(str(n) for n in range(-9, 10)), self.leaf("int").text) for _ in "ab")
        return f"{start}:{stop}" + self.pick("", "", ":", ":-1", ":2", ":-2", ":3", ":-3", ":None", ":True")

    def item(self):
        """What is put into lists, tuples and attributes: nothing that could hold itself twice."""
        kind = self.pick("int", "str", "bool", "li", "ws", None)
        return "None" if kind is None else self.leaf(kind).text if kind in ("li", "ws") else self.stored(kind).text

    def raised(self):
        return f"{self.pick(*RAISED)}({self.pick('', '', self.word('!'), self.word('!') + ', ' + self.item())})"

    def leaf(self, kind):
        if kind == "any":
            kind = self.pick(*TYPES[:-1])
        names = [name for name, type in self.scope.items() if type == kind or kind == "int" and type == "turn"]
        if names and self.chance(0.75):
            return Expression(self.pick(*names), ATOM, LARGE if kind == "int" else LONG)
        text = self.fill(self.pick(*LITERALS[kind]))
        return Expression(text, UNARY if text[0] == "-" else ATOM, 5000 if kind == "int" else 5)

    def expression(self, kind):
        if kind == "any":
            kind = self.pick("int", "str", "bool", *TYPES)
            if kind == "any":
                return Expression(self.pick("None", *[name for name, type in self.scope.items() if type == "any"]), ATOM, LONG)
        if self.deep >= 3 or self.chance(0.35):
            return self.leaf(kind)
        self.deep += 1
        fitting = [name for name, (_, result) in self.functions.items() if result == kind]
        if fitting and not self.still and self.chance(0.2):
            made = Expression(self.call(self.pick(*fitting)), ATOM, LARGE if kind == "int" else LONG)
        elif kind == "int" and self.chance(0.5):
            made = self.arithmetic()
        else:
            level, bound, form = self.pick(*(RISKY[kind] if kind in RISKY and not self.still and self.chance(self.risk * 2) else FORMS[kind]))
            made = Expression(self.fill(form), level, bound)
        self.deep -= 1
        return made

    def arithmetic(self):
        left, right = self.expression("int"), self.expression("int")
        sign = self.pick("+", "-", "*", "//", "%", "**", "unary")
        if sign == "*" and left.bound * right.bound < HIGHEST:
            return Expression(f"{self.within(left, TERM)} * {self.within(right, UNARY)}", TERM, left.bound * right.bound)
        if sign in ("//", "%"):
            if not self.chance(self.risk):
                right = Expression(*self.pick(("2", ATOM, 2), ("3", ATOM, 3), ("-4", UNARY, 4), ("7", ATOM, 7), ("-1", UNARY, 1), ("True", ATOM, 1)))
            return Expression(f"{self.within(left, TERM)} {sign} {self.within(right, UNARY)}", TERM, left.bound + 1 if sign == "//" else right.bound)
        if sign == "**" and left.bound**3 < HIGHEST:
            return Expression(f"{self.within(left, ATOM)} ** {self.pick('0', '1', '2', '3', 'True', f'({self.within(right, TERM)} % 3)')}", POWER, left.bound**3 + 1)
        if sign == "unary":
            return Expression(f"{self.pick('-', '+', '- ')}{self.within(left, UNARY)}", UNARY, left.bound)
        if left.bound + right.bound > HIGHEST:
            return left
        return Expression(f"{self.within(left, SUM)} {'-' if sign == '-' else '+'} {self.within(right, TERM)}", SUM, left.bound + right.bound)

    def stored(self, kind):
        """An expression whose value is small enough to be stored."""
        made = self.expression(kind)
        if kind == "int" and made.bound > SMALL:
            return Expression(f"{self.within(made, TERM)} % {self.pick('97', '1009', '-50')}", TERM, 1009)
        if kind in ("str", "li", "ws", "mx", "rows", "tu") and made.bound > LONG:
            return Expression(f"{self.within(made, ATOM)}[:{self.random.randrange(2, 8)}]", ATOM, 8)
        return self.leaf("any") if kind == "any" and made.bound > LONG else made

    def call(self, name):
        plain, named = [], []
        for parameter, kind, default in self.functions[name][0]:
            if default is not None and self.chance(0.4):
                named.append("")
            elif named or self.chance(0.2):
                named.append(f"{parameter}={self.stored(kind).text}")
            else:
                plain.append(self.stored(kind).text)
        self.random.shuffle(named)
        callee = self.pick(*["{0}"] * 9, "({0})", "[{0}][0]", "{{'a': {0}}}['a']", "SimpleNamespace(m={0}).m", "({0} if 1 else None)").format(name)
        return f"{callee}({', '.join(plain + [text for text in named if text])})"

    # ---- statements

    def name(self, kind):
        """A name for a value of a type that may be bound here."""
        pool = POOLS[kind].split()
        if self.inner is None:
            return self.known(self.pick(*pool))
        shared = [name for name in self.inner[1] if name in pool]
        return self.pick(*shared) if shared and self.chance(0.6) else self.pick(*pool) + "_"

    def known(self, name):
        if name not in self.names:
            self.names.append(name)
        return name

    def bind(self, *names):
        for name in names:
            self.scope[name] = next(kind for kind in TYPES if name.strip("_") in POOLS[kind].split())

    def bound(self, *kinds):
        """The names of these types that may be bound here."""
        names = [name for name, kind in self.scope.items() if kind in kinds and (self.inner is None or name.endswith("_") or name in self.inner[1])]
        if not names:
            raise Lacking
        return names

    def holder(self, kind):
        """A name of a value that is changed."""
        names = [name for name, type in self.scope.items() if type == kind]
        if not names:
            raise Lacking
        return self.pick(*names)

    def block(self, least, most, first=None, last=None):
        """A block one level deeper. The names that are bound in it are forgotten behind it."""
        kept, start = dict(self.scope), len(self.lines)
        self.pad += 1
        if first:
            self.out(first)
        for _ in range(self.random.randint(least, most)):
            self.statement()
        if last:
            last()
        if len(self.lines) == start:
            self.out("pass")
        self.pad -= 1
        self.scope = kept
        if len(self.lines) == start + 1 and not re.match(r"(if|while|for|try|def)\b", self.lines[start][1]) and self.chance(0.4):
            self.lines[start - 1:] = [(self.pad, self.lines[start - 1][1] + " " + self.lines[start][1])]

    def statement(self):
        if self.pad and self.chance(self.risk):
            return self.fault()
        forms = [self.assign] * 5 + [self.operate] * 3 + [self.unpack] * 2 + [self.store] * 3 + [self.method] * 3 + [self.show] * 5 + [self.judge] * 3 + [self.leave]
        if self.pad < 3:
            forms += [self.condition] * 3 + [self.repeat] + [self.walk] * 3 + [self.changing] + [self.attempt] * 3
        if self.inner is None and self.pad == 0:
            forms += [self.define] * 3 + [self.delete, self.recursion, self.other, self.other, self.alias, self.alias]
        if self.see:
            forms += [self.order] * 5
        if self.functions and not self.still:
            forms += [self.invoke] * 2
        try:
            self.pick(*forms)()
        except Lacking:
            self.assign()

    def assign(self):
        kind = self.pick("int", "int", "str", "li", "li", *TYPES)
        names = [self.name(kind)] + ([self.name(kind)] if self.chance(0.15) else [])
        self.out(" = ".join(names + [self.stored(kind).text]))
        self.bind(*names)

    def operate(self):
        name = self.pick(*self.bound("int", "int", "str", "li", "tu", "ws"))
        kind = self.scope[name]
        if self.still and kind in ("li", "ws"):
            return self.show()
        form = self.pick(*{
            "int": ["+= <small>", "-= <small>", "+= <bool>", "//= <nonzero>", "%= <nonzero>", "*= <num>; {0} %= 997", "**= 2; {0} %= -31", "**= <bit> + 1; {0} %= 50"],
            "str": ["+= <word>", "+= <word>", "*= <bit>"], "tu": ["+= (<item>,)", "+= <num>, <item>", "*= <bit>"], "li": ["+= [<small>]", "+= <small>, <small>", "+= range(<few>)", "+= <@li>[:2]"], "ws": ["+= [<word>]", "+= <word>", "+= <@ds>"],
        }[kind])
        self.out(self.fill(f"{name} {form.format(name)}"))

    def unpack(self):
        form = self.pick(*UNPACKED)
        names = {letter: self.name(kind) for letter, kind in zip("ijstabpvw", "int int str str li li tu any any".split())}
        if self.chance(0.2) and names["i"] in self.scope and names["j"] in self.scope:
            form = "{i}, {j} = {j}, {i}"
        self.out(self.fill(form.format(**names)))
        self.bind(*(names[letter] for letter in re.findall(r"{(\w)}", form)))

    def store(self):
        kind = self.pick(*STORES)
        form = self.pick(*STORES[kind])
        if self.still and kind not in ("li", "ns"):
            return self.show()
        self.out(self.fill(form.format(self.holder(kind), i=self.name("int"))))

    def method(self):
        kind = self.pick("li", "li", *METHODS)
        if self.still:
            return self.show()
        self.out(self.fill(self.pick(*METHODS[kind]).format(self.holder(kind))))

    def show(self):
        parts = [self.expression("any").text for _ in range(self.random.randint(1, 3))]
        ends = self.pick("", "", "", "", "", f", sep={self.word()}", ", end=';'", f", end={self.word()}, sep=''")
        self.out(self.pick(*[f"print({', '.join(parts)}{ends})"] * 18, "print()", "pass", parts[0]))

    def order(self):
        if self.still:
            return self.show()
        names = {letter: self.name(kind) for letter, kind in zip("ijv", "int int any".split())}
        form = self.fill(re.sub(r"{([ijv])}", lambda m: names[m[1]], self.pick(*ORDERS)))
        self.out(form if self.chance(0.15) else f"try:\n    {form}\nexcept {self.pick('Exception', 'Exception', 'LookupError')} as e: print('raised', len(e.args))")

    def judge(self):
        self.out(f"print({', '.join(self.expression('bool').text for _ in range(self.random.randint(2, 4)))})")

    def alias(self):
        for name in "xv":
            self.known(name)
        self.out(self.fill(self.pick(*ALIASES)))

    def other(self):
        for name in "xve":
            self.known(name)
        self.out(self.fill(self.pick(*OTHERS)))

    def leave(self, always=False):
        """A way out of a loop or a function."""
        ways = (["break", "continue"] if self.loops else []) + ([f"return {self.result()}"] if self.inner else [])
        if not ways:
            return self.show()
        self.out(("" if always else f"if {self.expression('bool').text}: ") + self.pick(*ways))

    def result(self):
        return self.stored(self.inner[0]).text if self.inner[0] else self.pick("", "None")

    def condition(self):
        self.out(f"if {self.expression(self.pick('bool', 'bool', 'any')).text}:")
        self.block(1, 2)
        if self.chance(0.3):
            self.out(f"elif {self.expression('bool').text}:")
            self.block(1, 2)
        if self.chance(0.5):
            self.out("else:")
            self.block(1, 2)

    def repeat(self):
        self.counters += 1
        name = f"k{self.counters}_" if self.inner else self.known(f"k{self.counters}")
        self.out(f"{name} = {self.random.randint(1, 4)}")
        self.scope[name] = "turn"
        endless = self.chance(0.2)
        self.out("while True:" if endless else self.pick(f"while {name}:", f"while {name} > 0:", f"while {name} > 0 and {self.within(self.expression('bool'), NOT)}:", f"while not {name} <= 0:"))
        self.loops += 1
        self.block(1, 3, f"{name} -= 1" + (f"\nif {name} < 0: break" if endless else ""))
        self.loops -= 1

    def walk(self):
        form = self.pick(*WALKS)
        names = {letter: self.name(kind) for letter, kind in zip("isva", "int str any li".split())}
        self.out(f"for {self.fill(form.format(**names))}:")
        kept, still = dict(self.scope), "@" in form
        self.bind(*(names[letter] for letter in re.findall(r"{(\w)}", form)))
        self.loops += 1
        self.still += still
        self.block(1, 3)
        self.still -= still
        self.loops -= 1
        self.scope = kept

    def changing(self):
        """A walk over a list or dict that changes under it."""
        if self.still:
            return self.show()
        form = self.pick(*CHANGES).replace("<!ds>", self.pick(*self.bound("ds")))
        self.out(self.fill(form.format(i=self.name("any"), a=self.pick(*self.bound("li")))))

    def attempt(self):
        self.out("try:")
        risk, self.risk = self.risk, max(self.risk, 0.1)
        self.block(0, 2, last=self.guarded if self.chance(0.2) and self.pad < 3 else self.tried)
        self.risk = risk
        wanted = self.random.sample(RAISED + ["(KeyError, IndexError)", "(TypeError, ArithmeticError)", "()"], self.pick(0, 0, 0, 1, 1, 2))
        if self.chance(0.06):
            wanted.insert(0, self.pick("5", "'x'", "missing", "int", "(KeyError, 5)", "None", "[]"))
        elif self.see and self.chance(0.2):
            wanted.insert(0, f"see({self.pick(*RAISED)})")
        if self.chance(0.95) or not wanted:
            wanted.append(self.pick("Exception", "Exception", "Exception", "", "(LookupError, Exception)"))
        for classes in wanted:
            self.handler(classes)
        if self.chance(0.2):
            self.out("else:")
            self.block(1, 1, last=self.tried if self.chance(0.15) else None)
        if self.chance(0.25):
            self.last()

    def last(self):
        self.out("finally:")
        self.block(1, 1, last=(lambda: self.leave(True)) if self.chance(0.15) else None)

    def guarded(self):
        self.out("try:")
        self.block(0, 1, last=self.tried)
        self.last()

    def tried(self):
        if self.chance(0.1):
            self.leave(True)
        if self.chance(0.8):
            self.fault()
        if self.chance(0.3):
            self.show()

    def handler(self, classes):
        name = self.pick("", "e", "e", "err") if classes else ""
        self.out("except" + (" " + classes if classes else "") + (" as " + name if name else "") + ":")
        first = f"print({self.word()})"
        if name:
            own = self.pick("print('own', {e}, repr({e}))", "print({e}.args)", "print(str({e}) + '.', [{e}])")
            form = self.pick("print(isinstance({e}, <error>), isinstance({e}, <error>), len({e}.args))", "print(isinstance({e}, (TypeError, ValueError)), {e} is {e}, {e} == {e})",
                             "if {e}.args and str({e}.args[0])[:1] == '!': " + own, "if isinstance({e}, KeyError): " + own, "print({e} is None); del {e}")
            first = self.fill(form.replace("{e}", name))
        again = self.pick("raise", "raise", f"raise {self.pick(*RAISED)}('!again')", "raise KeyError('!')", f"raise {name}" if name and "del" not in first else "raise")
        self.block(0, 1, first, last=(lambda: self.out(again)) if self.chance(0.08) else None)

    def fault(self):
        while True:
            form = self.pick(*FAULTS)
            if self.functions and self.chance(0.1):
                name = self.pick(*self.functions)
                one = (self.functions[name][0] or [("zz",)])[0][0]
                form = self.pick("{0}(1, 2, 3, 4, 5)", "{0}(nope=<any>)", "print({0}(<any>, <any>, <any>, <any>))", "{0}(<any>, {1}=1)", "{0}.a()", "{0}[0]", "{0} + 1", "-{0}", "{0} < {0}").format(name, one)
            try:
                return self.out(self.fill(form))
            except Lacking:
                pass

    # ---- functions

    def define(self):
        name = self.pick("f", "f2", "calc", "make", "step")
        if name in self.names:
            return self.show()
        outer, parameters, defaults = self.scope, [], False
        for kind in self.random.choices(["int", "int", "str", "li", "any", "ds"], k=self.random.randrange(4)):
            defaults = defaults or self.chance(0.4)
            parameters.append((f"{POOLS[kind].split()[-1]}{len(parameters)}_", kind, self.leaf(kind).text if defaults else None))
        shared = [given for given in self.names if self.chance(0.15) and any(given in POOLS[kind].split() for kind in ("int", "str", "li", "ds"))]
        self.known(name)
        self.out(f"def {name}({', '.join(given if default is None else given + '=' + default for given, _, default in parameters)}):")
        self.scope = {**{given: kind for given, kind in outer.items() if kind != "turn"}, **{given: kind for given, kind, _ in parameters}}
        self.inner = self.pick("int", "int", "str", "li", "bool", "any", "tu", None), shared
        self.block(1, 3, f"global {', '.join(shared)}" if shared else None, lambda: self.out(f"return {self.result()}".strip()) if self.inner[0] else None)
        self.functions[name] = parameters, self.inner[0]
        self.scope, self.inner = outer, None

    def recursion(self):
        name = self.pick("rec", "down")
        if name in self.names:
            return self.show()
        self.out(self.fill(self.pick(*RECURSIONS).format(self.known(name))))
        self.out(f"try: print({name}({self.random.randrange(8)}))\nexcept (ValueError, RecursionError) as e: print(isinstance(e, RecursionError))")

    def invoke(self):
        call = self.call(self.pick(*self.functions))
        self.out(self.pick(call, f"print({call})", f"print({call})"))

    def delete(self):
        names = [name for name, kind in self.scope.items() if kind != "turn"]
        if len(names) < 5:
            return self.assign()
        names = self.random.sample(names, self.pick(1, 1, 2))
        for name in names:
            del self.scope[name]
        self.out(f"del {', '.join(names)}")

    # ---- the program

    def laid_out(self):
        """The text of the lines."""
        unit, text = self.pick("    ", "    ", "  ", "\t", " "), ""
        for pad, lines in self.lines:
            for line in lines.split("\n"):
                bare = line.lstrip(" ")
                text += unit * (pad + (len(line) - len(bare)) // 4) + bare + self.pick(*[""] * 40, "  # note", "\n", "\n   # more", ";" if bare[-1] != ":" else " ") + "\n"
        return text

    def program(self):
        """The program's text, and a cell that prints its names."""
        self.out("from types import SimpleNamespace")
        if self.chance(0.4):
            self.see = True
            self.out("def see(x):\n    print('>', x)\n    return x")
        for kind in self.random.sample(TYPES, 4):
            name = self.name(kind)
            self.out(f"{name} = {self.stored(kind).text}")
            self.bind(name)
        length = len(self.lines) + self.random.randint(4, 22)
        wrong = self.random.randrange(6, length + 1) if self.chance(0.14) else None
        while len(self.lines) < length:
            if wrong is not None and len(self.lines) >= wrong:
                wrong = None
                self.fault()
            self.statement()
        for name in self.functions:
            self.out(f"try: print({self.call(name)})\nexcept {self.pick('Exception', 'Exception', 'Exception as e', 'TypeError')}: print({self.word()})")
        text = self.laid_out()
        nodes = [f"{one} is {two}" for one, kind in self.scope.items() for two in self.scope if one < two and kind == self.scope[two] and kind in ("li", "ws", "ds", "ns", "rows")]
        unsure = [name for name in [*self.names, *"ijnvx", "late"] if name not in self.scope]
        listed = "".join(f"try: print('{name}', repr({name}))\nexcept NameError: print('-')\n" for name in dict.fromkeys(unsure + list(self.scope)))
        text += f"print({', '.join(f'repr({name})' for name in self.scope)}, sep='\\n')\n" + "".join(f"try: print('{name}', repr({name}))\nexcept NameError: print('-')\n" for name in dict.fromkeys(unsure) if name in self.names)
        text += f"print({', '.join(nodes)})\n" + (self.expression("any").text if self.chance(0.3) else "")
        return text, listed
