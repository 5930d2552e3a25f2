"""Random expressions and blocks of the language for play.py, made from a table of forms by kinds.

In a form `<int>` stands for an expression of that kind, and so do the other kinds; now and then it is one of another
kind, so that operators, builtin functions and methods meet what they don't take."""
import re

from cell_forms import FUNCTIONS, KEYS, NAMES
from values import Function, Raised, Thing, Tup, run

KINDS = {
    "int": (bool, int), "bool": (bool,), "text": (str,), "list": (list,), "tuple": (Tup,), "dict": (dict,), "range": (range,),
    "object": (Thing,), "raised": (Raised,), "function": (Function,),
}
LITERALS = {
    "int": ["0", "1", "2", "3", "(-1)", "7", "40", "True", "(2 ** 126)", "(-2 ** 127)", "(2 ** 127 - 1)", "0x1F"],
    "bool": ["True", "False", "1", "None", "[]"],
    "text": ["''", "'a'", "'abc'", "'a b  c'", "' \\t1\\n'", "'12'", "'-0'", "'é\\U0001f600'", "\"it's\"", "'ab,c,,ab'",
        "'\\x00'", "('x' * 300)"],
    "list": ["[]", "[1]", "[2, 1, True]", "['b', 'a']", "[[1], [2]]", "[None, 'a', ()]", "[(1, 2), (0, 3)]"],
    "tuple": ["()", "(1,)", "(1, 'a')", "(1, [2])", "(True, None)", "('a', 'b', 'a')"],
    "dict": ["{}", "{1: 2}", "{(1, 'a'): 3, 'a': [1]}", "{True: 1, 0: 2}", "{'k': {}, None: ()}"],
    "range": ["range(3)", "range(5, 0, -2)", "range(0)", "range(-3, 9, 4)"],
    "object": ["SimpleNamespace()", "SimpleNamespace(a=1, b=[2])", "SimpleNamespace(b=None)"],
    "raised": ["ValueError()", "KeyError('k')", "IndexError(1, 2)", "Exception([1])", "SyntaxError('mine')"],
    "class": ["int", "bool", "str", "list", "tuple", "dict", "range", "SimpleNamespace", "ValueError", "LookupError",
        "Exception", "KeyError"],
    "function": ["f", "k", "add", "len", "repr", "sorted", "sum", "int", "str", "list", "max", "print", "abs"],
    "small": ["0", "1", "2", "3", "-1", "-2", "5", "True", "None", "'a'"],
    "slice": ["1:", ":2", "::-1", "::2", "-2:", "1:3", ":", "::0", "-9:9", "4:0:-2", "None:None:None", "'a'::0", "2:1",
        ":-1", "::-3"],
    "sequence": ["range(4)", "'ab'", "[0, 1]", "(1, 2)", "{1: 2}", "[0, '', 5]"],
}
FORMS = {
    "int":
        "<int> + <int>|<int> - <int>|<int> * <int>|<int> // <int>|<int> % <int>|<int> ** <small>|-<int>|+<bool>|(<int>)|"
        "len(<sequence>)|abs(<int>)|ord(<text>[<small>])|max(<int>, <int>)|min(<sequence>)|max(<sequence>)|"
        "sum(<sequence>)|int(<text>)|int(<int>)|<list>.index(<any>)|<list>.count(<any>)|<tuple>.index(<any>)|"
        "<tuple>.count(<any>)|<text>.find(<text>)|<text>.count(<text>)|<int> if <bool> else <int>|<range>[<small>]|"
        "<list>[<small>]|divmod(<int>, <int>)[<small>]|<dict>.get(<key>, <int>)|<list>.pop(<small>)|sum([<int>, <int>])",
    "bool":
        "<any> == <any>|<any> != <any>|<int> < <int>|<any> <= <any>|<list> < <list>|<tuple> >= <tuple>|<text> > <text>|"
        "<any> is <any>|<any> is not <any>|<any> in <sequence>|<text> in <text>|<key> in <dict>|<any> not in <list>|"
        "<int> in <range>|not <any>|<any> and <any>|<any> or <any>|bool(<any>)|isinstance(<any>, <class>)|"
        "isinstance(<any>, (<class>, <class>))|<text>.startswith(<text>)|<text>.endswith(<text>)|<text>.isdigit()|"
        "all(<sequence>)|any(<sequence>)|<int> < <int> <= <int>|<any> == <any> != <any>|<list> == <list>|<dict> == <dict>|"
        "<object> == <object>|<range> == <range>",
    "text":
        "<text> + <text>|<text> * <small>|<small> * <text>|<text>[<small>]|<text>[<slice>]|str(<any>)|repr(<any>)|"
        "chr(<int>)|<text>.replace(<text>, <text>)|<text>.strip()|<text>.join(<text>.split())|<text>.join(<sequence>)|"
        "<text>.join([<text>, <text>])|str()",
    "list":
        "[<any>, <any>]|[<any>]|<list> + <list>|<list> * <small>|<small> * <list>|<list>[<slice>]|list(<sequence>)|"
        "sorted(<sequence>)|<text>.split(<text>)|<text>.split()|<list>.copy()|[<list>] * 2|list()",
    "tuple":
        "(<any>, <any>)|(<any>,)|tuple(<sequence>)|<tuple> + <tuple>|<tuple> * <small>|<tuple>[<slice>]|"
        "divmod(<int>, <int>)|<raised>.args|tuple()",
    "dict": "{<key>: <any>, <key>: <any>}|dict(<dict>)|<dict>.copy()|{<key>: <dict>}|dict()|{<any>: <any>}",
    "range": "range(<int>)|range(<small>, <int>)|range(<int>, <small>, <small>)",
    "object": "SimpleNamespace(a=<any>, b=<any>)|SimpleNamespace(v=<object>)",
    "raised": "ValueError(<any>)|KeyError(<any>, <any>)|Exception(<raised>)",
    "any":
        "<dict>[<key>]|<dict>.get(<key>)|<dict>.get(<key>, <any>)|<dict>.pop(<key>, <any>)|<dict>.pop(<key>)|"
        "<dict>.setdefault(<key>, <any>)|<object>.a|<object>.b|<object>.v|<raised>.args|<list>[<int>]|<list>.pop()|"
        "<list>.pop(<int>)|<function>(<any>)|<function>(<any>, <any>)|<function>()|<function>(v=<any>)|"
        "<function>(<any>, w=<any>)|print(<any>, <any>, sep=<text>)|print(<any>, end=<text>)|<any> if <bool> else <any>|"
        "(<any>)|<any>[<any>]|(<any>).a|<any> + <any>|<any> * <any>|<any> % <any>|max(<any>, <any>)|min([<any>, <any>])|"
        "<list>.append(<any>)|<list>.insert(<int>, <any>)|<list>.extend(<sequence>)|<list>.remove(<any>)|<list>.sort()|"
        "<list>.reverse()|<list>.clear()|<dict>.update(<dict>)|<dict>.clear()|(<any>).nope(<any>)|len(<any>)|list(<any>)|"
        "abs(<any>)|(<any>).pop(<any>)|(<any>).count(<any>)|(<any>).copy()|(<any>).index(<any>)|sum(<any>)|sorted(<any>)|"
        "int(<any>)",
}
FORMS = {kind: forms.split("|") for kind, forms in FORMS.items()}
PLAIN_KINDS = [kind for kind in FORMS if kind != "any"]
STATEMENTS = (
    "<N> = <any>|<N> = <any>|<N> = <any>|<N>, <N> = <tuple>|<N>, <N> = <sequence>|(<N>, [<N>, <N>]) = <any>, <text>|"
    "<N> = <N> = <list>|<N> += <any>|<N> -= <int>|<N> *= <small>|<N> //= <int>|<N> %= <int>|<N> **= <small>|"
    "<list>[<int>] = <any>|<dict>[<key>] = <any>|<object>.a = <any>|<list>[<int>] += <any>|<dict>[<key>] += <any>|"
    "<object>.a += <any>|del <list>[<small>]|del <dict>[<key>]|del <object>.a|del <N>|print(<any>, <any>)|print(<any>)|"
    "<any>|<any>|assert <bool>, <any>|assert <bool>|raise <raised>|raise <class>|pass|<any>[<any>] = <any>|"
    "(<any>).a = <any>|<N>, <list>[0] = <list>[0], <any>"
).split("|")
BLOCKS = (
    "if <bool>:;-;elif <bool>:;-;else:;-|if <bool>:;-|for <N> in <sequence>:;-|for <N> in <any>:;-|"
    "for <N>, <N> in <dict>.items():;-|for <N> in <dict>.values():;-|for <N> in <dict>.keys():;-|"
    "for <N>, <N> in [<tuple>, <tuple>]:;-|v = 0;while v < 3:;    v += 1;-|try:;-;except <class>:;-|"
    "try:;-;except <class> as <N>:;-|try:;-;except (<class>, <class>) as e:;-;else:;-;finally:;-|try:;-;finally:;-|"
    "try:;-;except <any>:;-;except:;-|try:;    raise <raised>;except Exception as <N>:;-|"
    "def <f>(v, w=<any>):;-;    return v|def <f>(v=<any>, w=<any>):;-;    return w, v|"
    "def <f>():;    global <N>;-;    return <N>"
).split("|")
LOOP_ENDS = ["break", "continue", "if <bool>: break", "if <bool>: continue"]


class Expressions:
    """Random texts of the forms above, with the names that are live."""

    def __init__(self, rng):
        self.rng = rng

    def names_of(self, kind):
        """The live names that stand for a value of a kind, or all of them."""
        kinds = KINDS.get(kind)
        return [name for name, value in run.names.items() if len(name) < 20 and (not kinds or isinstance(value, kinds))]

    def filled(self, form, depth):
        return re.sub(r"<(\w+)>", lambda match: self.part(match.group(1), depth), form)

    def part(self, kind, depth):
        """An expression of a kind, or a name or key."""
        rng = self.rng
        if kind == "N":
            return rng.choice(NAMES)
        if kind == "f":
            return rng.choice(FUNCTIONS)
        if kind == "key" and rng.random() < 0.8:
            return rng.choice(KEYS)
        if kind == "sequence" and rng.random() < 0.7:
            kind = rng.choice(["list", "tuple", "text", "dict", "range"])
        if rng.random() < 0.04:
            kind = rng.choice(PLAIN_KINDS)
        if kind in ("any", "key"):
            kind = rng.choice(PLAIN_KINDS + ["any", "any", "class", "function"])
        names = self.names_of(kind) if kind != "small" else []
        if names and rng.random() < 0.45:
            return rng.choice(names)
        if depth <= 0 or kind not in FORMS or kind in LITERALS and rng.random() < 0.3:
            return rng.choice(LITERALS.get(kind) or self.names_of("any") or LITERALS["list"])
        form = rng.choice(FORMS[kind])
        made = self.filled(form, depth - 1)
        whole = " " not in re.sub(r", |\(.*\)|\[.*\]|\{.*\}", "", form)  # no operator stands outside brackets
        return f"({made})" if rng.random() < (0.1 if whole else 0.95) else made

    def statement(self):
        return self.filled(self.rng.choice(STATEMENTS), self.rng.randint(0, 3))

    def block(self, deep=2, loop=False):
        """The lines of some statements."""
        rng, lines = self.rng, []
        for _ in range(rng.choice([1, 1, 2, 3])):
            chance = rng.random()
            if deep and chance < 0.3:
                lines += self.compound(deep - 1, loop)
            elif chance < 0.6:
                lines += ["try: " + self.statement(), "except Exception as err: print(repr(err))"]
            else:
                lines.append(self.statement())
        if loop and rng.random() < 0.3:
            lines.append(self.filled(rng.choice(LOOP_ENDS), 1))
        if rng.random() < 0.02:
            lines.append(rng.choice(["return 1", "raise", "break", "global x"]))
        return lines

    def compound(self, deep, loop):
        """The lines of a compound statement: of its form `-` stands for an inner block."""
        form = self.rng.choice(BLOCKS)
        inside = form.startswith(("for", "v = 0")) or (loop and not form.startswith("def"))
        lines = []
        for line in form.split(";"):
            if line == "-":
                lines += ["    " + inner for inner in self.block(deep, inside)]
            else:
                lines.append(self.filled(line, 1))
        return lines

    def text(self):
        return "\n".join(self.block())
