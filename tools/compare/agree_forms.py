"""The forms of the random programs that agree.py runs, from which agree_programs.py makes them."""
import collections

# Levels of binding, from the tightest.
ATOM, POWER, UNARY, TERM, SUM, COMPARISON, NOT, AND, OR, CONDITION = range(10)
# An expression's bound is that of its value or length.
Expression = collections.namedtuple("Expression", "text level bound")
SMALL = 10**6  # the greatest number that is stored,
LARGE = 10**9  # how far a stored one may rise by `+=` in loops,
HIGHEST = 10**30  # and any other
LONG = 40  # the greatest length that is stored,
WIDE = 10**4  # and any other

POOLS = {
    "int": "i j n m", "bool": "ok yes", "str": "s t u", "li": "a b c", "ws": "words ws", "mx": "mix", "rows": "rows grid",
    "tu": "p q", "ds": "d g", "di": "h", "dl": "lists", "rg": "r", "ns": "o o2", "any": "v w x",
}
TYPES = list(POOLS)
CLASSES = "int bool str list tuple dict range SimpleNamespace Exception KeyError".split()
RAISED = (
    "Exception ArithmeticError OverflowError ZeroDivisionError AssertionError AttributeError LookupError IndexError KeyError "
    "NameError UnboundLocalError RuntimeError NotImplementedError RecursionError TypeError ValueError"
).split()

# The forms of expressions: level, bound, text. `<type:level>` is an expression of at most that level, `<@type>` a
# name or literal, `<!type>` a name that may be bound, and the other words are those of `Maker.part`.
FORMS = {
    "int": [
        (ATOM, WIDE, "len(<str>)"), (ATOM, WIDE, "len(<li>)"), (ATOM, WIDE, "len(<ds>)"), (ATOM, WIDE, "len(<rg>)"), (ATOM, SMALL, "abs(<small>)"), (ATOM, WIDE, "len(<tu>)"),
        (ATOM, LARGE * WIDE, "sum(<li>)"), (ATOM, LARGE, "max(<small>, <small>)"), (ATOM, SMALL, "min(<small>, <small>, <num>)"), (ATOM, SMALL, "min((<small>, <num>))"),
        (ATOM, LARGE, "max(<li:4> + [<small>])"), (ATOM, WIDE, "int(<digits>)"), (ATOM, 1, "int(<bool>)"), (ATOM, SMALL, "int(str(<small>))"), (ATOM, WIDE, "<str:0>.find(<str>)"),
        (ATOM, LARGE, "(<li:4> + [<small>, <small>])[<bit>]"), (ATOM, WIDE, "<li:0>.count(<small>)"), (ATOM, WIDE, "<tu:0>.count(<any>)"), (ATOM, WIDE, "<str:0>.count(<word>)"),
        (ATOM, LARGE, "<ds:0>.get(<key>, <small>)"), (ATOM, SMALL, "divmod(<small>, <nonzero>)[<bit>]"), (ATOM, LARGE, "<@ns>.n"), (CONDITION, SMALL, "<small:8> if <bool:8> else <small>"),
        (AND, SMALL, "<small:7> and <small:6>"), (OR, SMALL, "<small:8> or <small:7>"), (ATOM, WIDE, "sum(range(<few>))"), (ATOM, 1, "(<bool>)"), (ATOM, WIDE, "ord(chr(97 + <few>))"), (SUM, 2, "(<bool>) + (<bool>)"),
        (ATOM, 1, "max([<bit>, <bit>, <bit>])"), (ATOM, 1, "min(<bit>, <bit>)"), (SUM, 2**126 + SMALL, "2 ** 126 - <small:3>"), (UNARY, 2**127 - 1, f"-{2**127 - 1}"), (ATOM, 2**127 - 1, f"int('{2**127 - 1}')"), (TERM, 2**126, f"{2**127 - 1} // <over>"),
    ],
    "bool": [
        (COMPARISON, 1, "<int:4> <order> <int:4>"), (COMPARISON, 1, "<str:4> <order> <str:4>"), (COMPARISON, 1, "<li:4> <order> <li:4>"), (COMPARISON, 1, "<ns:4> <equal> <ns:4>"),
        (COMPARISON, 1, "<int:4> <order> <int:4> <order> <int:4>"), (COMPARISON, 1, "<ws:4> <order> <ws:4>"), (COMPARISON, 1, "<any:4> <equal> <any:4>"), (COMPARISON, 1, "<@li> <is> <@li>"),
        (COMPARISON, 1, "<small:4> <in> <li:4>"), (COMPARISON, 1, "<str:4> <in> <str:4>"), (COMPARISON, 1, "<str:4> <in> <ws:4>"), (COMPARISON, 1, "<key:4> <in> <ds:4>"), (COMPARISON, 1, "<bool:4> <is> True"),
        (COMPARISON, 1, "<small:4> <in> <rg:4>"), (COMPARISON, 1, "<any:4> <in> <mx:4>"), (COMPARISON, 1, "<any:4> <in> <tu:4>"), (COMPARISON, 1, "<any:4> <is> None"), (COMPARISON, 1, "<@ds> <is> <@ds>"),
        (COMPARISON, 1, "<ds:4> <equal> <ds:4>"), (COMPARISON, 1, "<int:4> <order> <int:4> <in> <li:4>"), (COMPARISON, 1, "<rg:4> <equal> <rg:4>"), (COMPARISON, 1, "<di:4> <equal> <di:4>"),
        (COMPARISON, 1, "<mx:4> <equal> <mx:4>"), (COMPARISON, 1, "<rows:4> <order> <rows:4>"), (COMPARISON, 1, "(<int>, <str>) <order> (<int>, <str>)"), (COMPARISON, 1, "<word:4> <in> <rg:4>"),
        (NOT, 1, "not <bool:6>"), (NOT, 1, "not <any:6>"), (AND, 1, "<bool:7> and <bool:6>"), (OR, 1, "<bool:8> or <bool:7>"), (CONDITION, 1, "<bool:8> if <bool:8> else <bool>"), (ATOM, 1, "isinstance(<any>, <class>)"),
        (ATOM, 1, "isinstance(<any>, (<class>, <class>))"), (ATOM, 1, "all(<walked>)"), (ATOM, 1, "any(<walked>)"), (ATOM, 1, "bool(<any>)"), (ATOM, 1, "<str:0>.startswith(<str>)"), (ATOM, 1, "<str:0>.endswith(<str>)"), (ATOM, 1, "<str:0>.isdigit()"),
        (COMPARISON, 1, "<rows:4> <equal> <rows:4>"), (COMPARISON, 1, "[<int>, <bool>] <order> [<int>, <bool>]"), (COMPARISON, 1, "<any:4> <is> (<bool>)"),
        (COMPARISON, 1, "<few> <order> <few>"), (COMPARISON, 1, "[<few>, <few>] <order> [<few>, <few>]"), (COMPARISON, 1, "<key> <order> <key>"), (COMPARISON, 1, "<@int> <order> <@int> <order> <few>"), (COMPARISON, 1, "(<few>, <key>) <order> (<few>, <key>)"), (COMPARISON, 1, "<@li> <is> <@li>.copy()"),
        (COMPARISON, 1, "[<bit>, <bit>] <equal> [<bit>, <bit>]"), (COMPARISON, 1, "<@li> <order> <@li>[:]"), (COMPARISON, 1, "<@str> <order> <@str>"), (COMPARISON, 1, "{<key>: <bit>} <equal> {<key>: <bit>}"), (COMPARISON, 1, "<few> <order> <few> <order> <few>"),
    ],
    "str": [
        (SUM, WIDE, "<str:4> + <str:3>"), (TERM, WIDE, "<str:3> * <few>"), (TERM, WIDE, "<few> * <str:2>"), (ATOM, 1, "(<str:4> + <word> + 'z')[<bit>]"), (ATOM, WIDE, "<str:0>[<slice>]"), (ATOM, 0, "str()"),
        (ATOM, WIDE, "str(<any>)"), (ATOM, WIDE, "repr(<any>)"), (ATOM, WIDE, "<str:0>.join(<ws>)"), (ATOM, WIDE, "<str:0>.replace(<word>, <str>)"), (ATOM, LONG, "<@str>.strip()"), (ATOM, WIDE, "max(<ws:4> + [<word>])"),
        (ATOM, 1, "chr(97 + <few>)"), (CONDITION, WIDE, "<str:8> if <bool:8> else <str>"), (OR, WIDE, "<str:8> or <str:7>"), (AND, WIDE, "<str:7> and <str:6>"), (ATOM, WIDE, "repr(<raised>)"), (ATOM, WIDE, "','.join(<ds>)"),
        (ATOM, LONG, "<di:0>.get(<few>, <word>)"), (ATOM, LONG, "<@ns>.s"), (ATOM, WIDE, "str(<int>)"), (ATOM, WIDE, "'-'.join(<str>)"), (ATOM, WIDE, "str(<raised>)"), (ATOM, WIDE, "str(KeyError(<any>))"), (ATOM, 7, "'abcdefg'[<slice>]"),
    ],
    "li": [
        (SUM, WIDE, "<li:4> + <li:3>"), (TERM, WIDE, "<li:3> * <few>"), (ATOM, WIDE, "<li:0>[<slice>]"), (ATOM, 5, "list(range(<few>))"), (ATOM, LONG, "sorted(<@li>)"), (ATOM, LONG, "(<rows:4> + [<@li>])[0]"), (ATOM, 2, "list(divmod(<small>, <nonzero>))"),
        (ATOM, LONG, "<@li>.copy()"), (ATOM, LONG, "list(<@li>)"), (ATOM, 5, "[<small>, <small>]"), (CONDITION, LONG, "<@li> if <bool:8> else <@li>"), (ATOM, LONG, "<dl:0>.get(<key>, <@li>)"), (ATOM, 9, "sorted([<small>, <bool>, <small>])"),
        (OR, LONG, "<@li> or <@li>"), (TERM, 5, "[<small>] * <few>"), (TERM, 5, "<few> * [<num>]"), (ATOM, LONG, "<@ns>.c"), (ATOM, 9, "list(range(<few>, <few>, <nonzero>))"), (ATOM, 9, "sorted({<num>: 1, <num>: 2})"),
        (ATOM, 7, "list(range(7))[<slice>]"), (ATOM, 5, "sorted([1, True, 0, False, <num>])"),
    ],
    "ws": [
        (SUM, WIDE, "<ws:4> + <ws:3>"), (ATOM, WIDE, "<str:0>.split()"), (ATOM, WIDE, "<str:0>.split(<word>)"), (ATOM, LONG, "sorted(<@ds>)"), (ATOM, LONG, "list(<word>)"), (ATOM, LONG, "list(<@ds>)"), (ATOM, WIDE, "sorted(<str>)"),
        (ATOM, WIDE, "<ws:0>[<slice>]"), (ATOM, 2, "[<word>, <word>]"), (ATOM, LONG, "sorted(<@ws>)"),
    ],
    "mx": [(ATOM, 4, "[<item>, <item>]"), (ATOM, 3, "[<item>, None, <bool>]"), (SUM, WIDE, "<mx:4> + [<item>]"), (ATOM, WIDE, "list(<tu>)"), (ATOM, 2, "[(<item>,), <@li>]"), (ATOM, 2, "[<@ds>]"), (ATOM, WIDE, "<mx:0>[<slice>]")],
    "rows": [(ATOM, 2, "[<@li>, <@li>]"), (TERM, 5, "[<@li>] * <few>"), (ATOM, 2, "[<@li>, [<small>]]"), (SUM, WIDE, "<rows:4> + [<@li>]"), (ATOM, LONG, "<@rows>.copy()"), (ATOM, WIDE, "<rows:0>[<slice>]")],
    "tu": [
        (ATOM, 2, "(<item>, <item>)"), (ATOM, 1, "(<item>,)"), (SUM, WIDE, "<tu:4> + <tu:3>"), (TERM, WIDE, "<tu:3> * <few>"), (ATOM, WIDE, "<tu:0>[<slice>]"), (ATOM, WIDE, "tuple(<li>)"), (ATOM, WIDE, "tuple(<str>)"),
        (ATOM, 2, "divmod(<small>, <nonzero>)"), (ATOM, 3, "ValueError('!', <item>).args"), (ATOM, LONG, "tuple(<@di>)"), (ATOM, LONG, "tuple(<@tu>)"),
    ],
    "ds": [(ATOM, 2, "{<key>: <small>, <key>: <small>}"), (ATOM, LONG, "dict(<@ds>)"), (ATOM, LONG, "<@ds>.copy()"), (ATOM, 3, "{<key>: <small>, <key>: <small>, <key>: <small>,}")],
    "di": [(ATOM, 2, "{<few>: <word>, <few>: <word>}"), (ATOM, 3, "{<bit>: <word>, <bool>: <word>, <few>: <word>}"), (ATOM, LONG, "dict(<@di>)"), (ATOM, LONG, "{(<small>, <word>): <word>}")],
    "dl": [(ATOM, 2, "{<key>: <@li>, <key>: <@li>}"), (ATOM, 1, "{<key>: <@li>}"), (ATOM, LONG, "<@dl>.copy()")],
    "rg": [(ATOM, 9, "range(<few>)"), (ATOM, 9, "range(<few>, <few>)"), (ATOM, 9, "range(<few>, <num>, <nonzero>)"), (ATOM, 9, "range(len(<word>))")],
    "ns": [(ATOM, 1, "SimpleNamespace(n=<small>, s=<word>, c=<@li>)"), (ATOM, 1, "SimpleNamespace(c=<@li>, n=<num>, s=<word>)")],
}
# Forms that may raise.
RISKY = {
    "int": [
        (ATOM, LARGE, "<li:0>[<few>]"), (ATOM, LARGE, "<ds:0>[<key>]"), (ATOM, WIDE, "<li:0>.index(<small>)"), (ATOM, LARGE, "<@li>.pop()"), (ATOM, LARGE, "max(<li>)"), (ATOM, WIDE, "ord(<str>)"), (ATOM, LARGE, "<ds:0>.pop(<key>)"),
        (ATOM, WIDE, "<rg:0>[<few>]"), (ATOM, WIDE, "<rg:0>[-2]"), (TERM, LARGE, "<small:3> // <small:2>"), (TERM, LARGE, "<small:3> % <small:2>"), (ATOM, WIDE, "int(<str>)"), (ATOM, WIDE, "<tu:0>.index(<any>)"), (ATOM, WIDE, "len(<any>)"),
    ],
    "str": [(ATOM, LONG, "<ws:0>[<few>]"), (ATOM, 1, "<str:0>[<few>]"), (ATOM, LONG, "<di:0>[<few>]"), (ATOM, LONG, "min(<ws>)"), (ATOM, 1, "max(<str>)"), (ATOM, WIDE, "', '.join(<mx>)"), (ATOM, 1, "<str:0>[<any>]")],
    "bool": [(COMPARISON, 1, "<mx:4> <order> <mx:4>"), (COMPARISON, 1, "<tu:4> <order> <tu:4>"), (COMPARISON, 1, "<any:4> <order> <any:4>"), (COMPARISON, 1, "<str:4> <in> <any:4>"), (COMPARISON, 1, "<li:4> <in> <any:4>"), (ATOM, 1, "all(<any>)")],
    "li": [(ATOM, LONG, "<rows:0>[<few>]"), (ATOM, LONG, "<dl:0>[<key>]"), (ATOM, LONG, "<dl:0>.pop(<key>)")], "mx": [(ATOM, 9, "[<@li>[<few>], <@ds>[<key>]]")],
}
LITERALS = {
    "int": ["<num>"], "bool": ["True", "False"], "str": ["<word>", "<word>", "<word>", "''"], "li": ["[]", "[<num>]", "[<num>, <num>]", "[<num>, <num>, <num>]", "[<num>, <num>, <num>, <num>,]"],
    "ws": ["[]", "[<word>]", "[<word>, <word>, <word>]"], "mx": ["[]", "[None, <num>]", "[<word>, <num>, []]", "[{}, (), True]"], "rows": ["[]", "[[]]", "[[<num>], [<num>, <num>]]"],
    "tu": ["()", "(<num>,)", "(<num>, <word>)", "(<word>, None, <num>)", "(<num>, (<num>, []))"], "ds": ["{}", "{'a': <num>}", "{'a': <num>, 'b': <num>}", "{'b': <num>, 'c': <num>, 'a': <num>}"],
    "di": ["{}", "{1: <word>, 2: <word>}", "{True: <word>, 0: <word>}", "{None: <word>, (1, 'a'): <word>}"], "dl": ["{'a': [<num>]}", "{'b': [], 'c': [<num>, <num>]}"],
    "rg": ["range(3)", "range(1, 7, 2)", "range(5, 0, -1)", "range(0)"], "ns": ["SimpleNamespace(n=<num>, s=<word>, c=[<num>])"],
}
# Statements that raise, or most of them.
FAULTS = """
<int:3> // (<@int> * 0)|<int> // 0|<int:3> % 0|divmod(<int>, 0)|missing|print(missing, <int>)|print(late); late = 1|<li:0>[99]|<li:0>[-99]|<str:0>[99]|<tu:0>[50]|<ds:0>['zz']|<di:0>[99]|<di:0>[(1, 2)]
del <@ds>['zz']|del <@li>[99]|<@ds>.pop('zz')|[].pop()|<@li>.pop(99)|<@li>.remove(12345)|<li:0>.index(12345)|<tu:0>.index('zz')|None + <int:3>|<str:4> + <int:3>|<int:4> + <str:3>|<li:4> + <tu:3>|<li:4> + <str:3>|<tu:4> + <li:3>
-<str:2>|+None|-<li:2>|abs(<other>)|<str:3> * <str:2>|<li:3> * <li:2>|<li:3> // <int:2>|<other> // <other>|<str:4> - <str:3>|None ** 2|2 ** <str:2>|<ds:4> + <ds:3>|<str:4> <order> <int:4>|None <order> <int:4>|<li:4> <order> <tu:4>
<ds:4> <order> <ds:4>|<int:4> in <int:4>|<int:4> in <str:4>|<int:4> not in None|[1] in <@ds>|<li:0>[<str>]|<str:0>['a']|<li:0>[None]|<int:0>[0]|None[0]|<@ns>[0]|(<int>).a|<@str>.a|<@li>.a|None.a|<@ns>.nope|del <@ns>.nope
<@str>.nope(<int>)|<@li>.nope()|<@ns>.nope(<int>)|<@int>()|<@str>(<int>)|<@li>(<int>)|None(<int>)|<@ns>()|len(<int>)|len(None)|len()|len(<ns>)|int('x')|int('')|int('1 2')|int(None)|int(<li>)|int('1.5')|int(<str>)
chr(-1)|chr('a')|ord('ab')|ord('')|ord(<int>)|max([])|min('')|max(<int>)|max(<int>, <str>)|max()|sum(<ws:4> + ['a'])|sum(<int>)|sum([[]])|sorted([<int>, <str>])|sorted([<str>, None])|list(<int>)|tuple(None)|list(1, 2)
dict(<int>)|range(<int>, <int>, 0)|range(<str>)|range()|bool(1, 2)|str(1, 2)|sorted()|i, j = [1, 2, 3]|i, j = <int>|i, j, n = <tu:4> + (1, 2, 3, 4)|i, (j, n) = <small>, 'abc'|i, j = {'a': 1}|(i,) = []|i, j = None|[i, j] = range(5)
a[0], v = <small>, None|for i, j in [(1, 2), (3,)]: print(i, j)|{[]: <int>}|{'a': <int>, {}: <int>}|<@ds>[[1]] = <int>|<@ds>[{}]|<@di>[[]] = 's'|<str:0>[0] = 'x'|<@tu>[0] = <int>|<int:0>[0] = 1|(<int>).a = 1|<@li>.a = <int>
<@li>[99] = <small>|<@li>[<str>] = 1|None[0] = 1|<li:0>[::0]|<str:0>[::0]|<li:0>['a':]|<tu:0>[1:2:'x']|<int:0>[1:]|<@ds>[1:]|<@li>[(1, 2)]|<@li>[1, 2]|<@rg>[50]|<@rg>['a']|del <@tu>[0]|del <@str>[0]|del None.a
del <@li>['a']|del missing|raise <raised>|raise <raised>|raise <error>|raise <int>|raise <str>|raise None|raise int|raise ValueError('!one')|assert <int:4> > <int:4>, '!less'|assert <bool>|assert [], ('!', <item>)|assert not <str:6>, '!' + <str:3>
raise missing|for i in <int>: print(i)|for i in None: pass|for i in <ns>: pass|<str:0>.split('')|','.join([<int>])|','.join(<int>)|<str:0>.find(<int>)|<str:0>.startswith(<int>)|<str:0>.replace('a')|<str:0>.strip(1)|<str:0>.split(1)
print(<int>, sep=5)|print(<int>, end=1)|print(<int>, foo=1)|<@li>.append()|<@li>.append(1, 2)|<@li>.extend(<int>)|<!li> += <int>|<!tu> += [<int>]|<!str> += <int>|<!int> += <str>|<!int> -= <li>|<!int> //= 0|<!li> -= <li>|<@ns>.nope += 1
<@ds>['zz'] += 1|x = ([], 1); x[0] += [<small>]|<@li>[99] += <int>|missing += 1|isinstance(1, 1)|isinstance(1)|isinstance(<any>, <str>)|<@ds>.get()|<@ds>.clear(1)|<@ds>.update(5)|<@li>.insert(1)|<@li>.insert('a', 1)|<@li>.pop('a')
<@tu>.count()|SimpleNamespace(1)|abs()|abs(1, 2)|divmod(1)|divmod('a', 1)|repr()|all(<int>)|any(None)|min(<int>, None)|max([<str>, <int>])|ValueError('!', 1)()|ValueError('!').nope|KeyError(<any>)['a']|raise KeyError(<item>)|<@li>.index()
'a'.nope(missing)|missing(missing2)|(<int>)(missing)|len(missing, 1)|<int:4> + missing(<int>)|<bool:7> and missing|[<int>, missing, <int>]|{<key>: missing}|(<@li> + missing)[<int>]|<any:8> if missing else <any>|not missing|print(<any>, missing)|<@li>[missing] = <int>
""".replace("\n", "|").strip("|").split("|")
WORDS = {
    "digits": ["'7'", "' 12 '", "'-3'", "'+40'", "'007'", "'0'", "'\\t5\\n'"], "copied": ["x", "x.copy()", "x[:]", "list(x)", "x + []", "x * 1", "(x)", "x or [1]", "x[::-1]"], "dicted": ["(x)", "x.copy()", "dict(x)", "x"], "over": ["2", "3", "-2", "97"], "nonzero": ["1", "2", "3", "-1", "-2", "7"], "bit": ["0", "1", "-1", "False", "True"], "key": ["'a'", "'b'", "'c'", "'d'", '"a"'],
    "order": ["<", "<=", ">", ">=", "==", "!="], "equal": ["==", "!="], "in": ["in", "not in"], "is": ["is", "is not"], "class": CLASSES, "error": RAISED,
}
WALKS = [
    "{i} in range(<few>)", "{i} in <li:0>[:4]", "{s} in <ws:0>[:4]", "{s} in <word>", "{s}, {i} in <@ds>.items()", "{s} in <@ds>", "{i} in <@ds>.values()", "{s} in <@ds>.keys()", "{i}, {s} in [(<num>, <word>), (<small>, <word>)]",
    "({s}, {i}) in <@ds>.items()", "[{s}, {i}] in ((<word>, 1), [<word>, 2])", "{i} in <@li>", "{i} in <num>, <small>, <num>", "{v} in <mx:0>[:3]", "{v} in <tu:0>[:3]", "{i} in range(<few>, <few>, <nonzero>)", "{i} in {{<num>: 1, <few>: 2}}",
    "{s} in sorted(<ds>)", "{v} in <@di>", "{v}, {s} in <@di>.items()", "{v}, {a} in <@dl>.items()", "{i}, {a} in [[<small>, <@li>]] * 2", "{i}, ({s}, {v}) in [(<num>, (<word>, <item>)), (<num>, ('a', None))]", "{s}, {v} in ('ab', 'cd')", "<@ns>.n in <small>, <small>", "{i}, <@ns>.s in [(<num>, <word>)] * 2",
]
UNPACKED = [
    "{i}, {s} = <small>, <word>", "[{i}, {j}] = [<small>, <num>]", "({i}, ({s}, {j})) = <num>, (<word>, <small>)", "{i}, {j}, = divmod(<small>, <nonzero>)", "{p} = {i}, {v} = <num>, <item>", "{s}, {t} = 'ab'", "[{i}], {j} = [[<small>], <small>]",
    "{i}, {j} = range(<few>, 9)[<bit>], <num>", "{s}, {t} = {{'a': 1, 'b': 2}}", "{a}, {b} = [<@li>] * 2", "{i} = {j} = <small>", "{a} = {b} = <li:0>[:3]", "{v}, {w} = <item>, <item>", "{i}, = [<small>]", "({i}) = <small>", "({i}), [{s}] = <num>, <word>",
    "[({i}, {j})] = [(<num>, <small>)]", "{i}, {j} = <small>, <num>; {i}, {j} = {j}, {i}", "{i} = [{j}] = [<small>]; {i} = {j}", "{a}, {i} = [], <small>",
]
STORES = {
    "li": ["if {0}: {0}[<bit> % len({0})] = <small>", "if len({0}) > 1: {0}[0], {0}[1] = {0}[1], {0}[0]", "if {0}: {0}[-1] += <small>", "if len({0}) > 2: del {0}[1]", "if {0}: {i}, {0}[0] = {0}[0], <small>"],
    "ds": ["{0}[<key>] = <small>", "{0}['a'] = {0}.get('a', 0) + 1", "if 'a' in {0}: {0}['a'] = 1", "if 'b' in {0}: del {0}['b']", "if 'a' in {0}: {0}['a'] -= <small>"],
    "ns": ["{0}.n += <small>", "{0}.s = <word>", "{0}.c = <@li>", "{0}.n, {0}.s = <small>, <word>", "{0}.more = <item>", "{0}.n -= 1", "{0}.it = {0}"],
    "dl": ["{0}[<key>] = <@li>", "{0}.setdefault(<key>, []).append(<small>)"], "rows": ["{0}.append(<@li>)", "if {0}: {0}[0].append(<num>)", "if {0}: {0}[-1] = <@li>"],
    "di": ["{0}[<few>] = <word>", "{0}[None] = <word>", "{0}[True] = <word>", "{0}[(<few>, <word>)] = <word>"],
}
METHODS = {
    "li": [
        "{0}.append(<small>)", "{0}.append(<small>)", "{0}.insert(<num>, <small>)", "{0}.extend(<@li>[:3])", "{0}.extend(range(<few>))", "if {0}: print({0}.pop(), {0})", "if len({0}) > 2: print({0}.pop(<bit>))", "if 1 in {0}: {0}.remove(1)", "{0}.reverse()",
        "{0}.sort()", "{0}.clear()", "print({0}.append(<small>))", "{0}.insert(<few>, <num>)", "if <small:4> in {0}: print({0}.index({0}[0]), {0}.count({0}[-1]))",
    ],
    "ds": ["{0}.update(<@ds>)", "print({0}.setdefault(<key>, <small>), {0})", "print({0}.pop(<key>, <any>), {0})", "print({0}.get(<key>), {0}.get(<key>, <small>))", "{0}.clear()"],
    "ws": ["{0}.append(<word>)", "{0}.sort()", "{0}.reverse()", "{0}.extend(<word>)", "{0}.insert(<num>, <word>)"],
    "mx": ["{0}.append(<item>)", "{0}.append({0})", "{0}.append(None)", "print({0}.count(<any>))", "{0}.insert(0, <small>)", "{0}.reverse()"],
}
CHANGES = [
    "for {i} in {a}: {a}.remove({i})", "for {i} in {a}: print({i}, {a}.pop())", "for {i} in {a}:\n    if len({a}) < 9: {a}.append({i})", "for {i} in {a}:\n    if len({a}) < 7: {a}.insert(0, {i})",
    "try:\n    for {i} in <!ds>:\n        print({i})\n        <!ds>[<num>] = <num>\nexcept RuntimeError: print('changed')", "try:\n    for {i} in <!ds>.values(): <!ds>.clear()\nexcept RuntimeError: print('changed')",
]
# Statements that show the order in which parts are evaluated.
ORDERS = [
    "see(<@ds>)[see(<key>)] = see(<small>)", "see(<@ns>).n += see(<small>)", "print(see(<int>) <order> see(<int>) <order> see(<int>))", "print(see(<@li>)[see(<few>):see(<few>):see(<nonzero>)])", "print({see(<key>): see(<num>), see(<key>): see(<num>)})",
    "see(<@li>)[see(0)] = see(<small>)", "see(<@li>)[see(-1)] += see(<small>)", "del see(<@ds>)[see('a')]", "print(see(<@li>).count(see(<small>)))", "print(see(<str>), see(<int>), sep=see('-'))", "print(see(<bool>) and see(<any>) or see(<any>))",
    "{v} = see(<@li>)[see(0)] = see(<small>)", "{v} = see(<any>) if see(<bool>) else see(<any>)", "{i}, see(<@ns>).n = see(<small>), see(<small>)", "raise see(ValueError('!'))", "assert see(<bool>), see('!')", "for {i} in see(<@li>)[:2]: see({i})", "{i}, {j} = see([<small>, <num>])",
    "see(<@ns>).c, see(<@ds>)[see(<key>)] = see([]), see(<num>)", "see(<@ds>)[see(<key>)] += see(<num>)", "see(<@ds>).update({see('a'): see(<num>)})", "del see(<@li>)[see(0)], see(<@ns>).n", "see(<int>) // see(<int>) + see(<int>) % 0", "see(<@str>).nope(see(1))",
    "see(5)(see(1))", "print(see(<few>) <order> see(<few>))", "see(<@ns>).n = see(<@ds>)[see(<key>)] = see(<num>)", "print(see(<li>) + see(<li>))", "print(see(<few>) * see(<num>) - see(<few>))", "see(<bool>) == see(<any>) != see(<any>)", "print(see(<int>) in see(<li>), not see(<bool>), -see(<int>))", "isinstance(see(<any>), see(<class>))", "divmod(see(<int>), see(<bit>))", "{v} = [see(<num>)] * see(<few>)", "see(see)(<num>)",
]
# Statements that show what two names share.
ALIASES = [
    "x = <@li>; v = <copied>; v.append(<num>); print(x, v, x is v, x == v)", "x = <@li>; v = <copied>; x += [<num>]; print(x, v, x is v, x == v)", "x = [<@li>, <@li>]; v = <copied>; v[0].append(<num>); v.reverse(); print(x, v, x[0] is v[1])",
    "x = <@ds>; v = <dicted>; v['new'] = <num>; print(x, v, x is v, x == v)", "x = <@li>; v = (x, x); v[0].insert(0, <num>); print(v, v[1] is x)", "x = <@ds>; v = [x] * 2; v[1].clear(); print(x, v, v[0] is v[1])", "x = <@ns>; v = x; v.n = <num>; print(x, x is v, x == SimpleNamespace(n=v.n, s=v.s, c=v.c))",
    "x = [<@li>]; v = x + x; x[0] += [<num>]; x[0] = []; print(x, v)", "x = v = <li>; x = x + [<num>]; v += x; print(x, v)", "x = <@rows>; v = <copied>; print(x is v, x == v, v)",
]
# Statements that stand for themselves.
OTHERS = [
    "x = len; print(x(<str>), x)", "len = <num>; print(len); del len; print(len(<li>))", "max = min; print(max(<small>, <small>)); del max", "str = repr; print(str('a')); del str", "int = str; print(isinstance('a', int)); del int; print(isinstance('a', int))",
    "print([abs, len, int, KeyError, SimpleNamespace][<few>])", "print([abs, len].count(len), len in [abs], int == bool, {'f': len}['f'](<li>))", "x = <raised>\ntry: raise x\nexcept Exception as e: print(e is x, e, x)", "x = []; x.append((x, 1)); print(x)", "x = {}; x['x'] = [x]; print(x, x == x)",
    "x = SimpleNamespace(); x.x = x; print(x, x == x)", "x = [1]; x += [x]; print(x, x == x, [x] == [x], len(x))", "try: print(e is None)\nexcept NameError as e: print('gone')",
    "try: raise <error>\nexcept <error> as e: print('one')\nexcept Exception as e:\n    try: raise <error>('!')\n    except Exception as e: print(e)\n    try: print(e)\n    except NameError: print('gone')",
    "try:\n    try: raise <error>('!1')\n    except <error>: raise <error>('!2')\n    finally: print('last')\nexcept Exception as e: print(e)", "try:\n    try: missing\n    except NameError:\n        try: raise <error>('!')\n        except Exception: pass\n        raise\nexcept Exception as e: print(isinstance(e, NameError))",
    "for k0 in range(4):\n    try:\n        if k0 == 1: continue\n        if k0 == 2: break\n        print(k0)\n    finally: print('f', k0)", "for k0 in range(3):\n    try: print(k0 // (k0 - 1))\n    except ArithmeticError: continue\n    else: print('else')\n    finally:\n        print('f')\n        if k0 < 1: continue",
    "while True:\n    try: raise <error>('!')\n    finally: break", "x = [0, [1, 2], 'a']; x[0], x[1][0], x[2] = x[1], x[2], x; print(x)", "x = [1, 2, 3]; x[0], x = x, 5; print(x)", "x = 0; v = [5, 6, 7]; x, v[x] = 2, <num>; print(x, v)", "x = v = [1]; x += [2]; v = v + [3]; print(x, v, x is v)",
    "from types import SimpleNamespace as Space; print(Space, Space(a=<item>), Space is SimpleNamespace)", "x = {<key>: 1, <key>: 2}; x.pop('a', 0); x['a'] = <num>; print(x, len(x))", "x = {1: 'a', True: 'b', (1,): 'c', (True,): 'd', None: 0}; print(x, x[True], x[(1,)])",
    "x = <@ds>; v = x; v['zz'] = <num>; print(x, x is v, x == v)", "del missing, x", "x = 0; v = [5, 6, 7]; x = v[x] = 2; print(x, v)", "x = 2; v = {}; x = v[x] = x + 1; print(x, v)",
    "try:\n    try: print(<any>)\n    except Exception: print('inner')\n    else: raise <error>('!')\n    finally: print('last')\nexcept Exception as e: print('outer', e)", "assert (<bool>, '!')", "x = 'ab' 'cd' \"e'f\"; print(x, repr(x))", "print(not 1 == 2, - 2 ** 2, 2 ** 3 ** 2 % 7, 7 // -2 * 3, -7 % 5 - 1)",
]
RECURSIONS = [
    "def {0}(n, m=<num>): return m if n <= 0 else n + {0}(n - 1, m)", "def {0}(n, l=[]):\n    l.append(n)\n    if n > 0: {0}(n - 1)\n    return l[-4:]", "def {0}(n): return [] if not n else [n] + {0}(n - 1)",
    "def {0}(n):\n    if n < 2: return n\n    return {0}(n - 1) + {0}(n - 2)", "def {0}(n):\n    try:\n        if n == 0: raise ValueError('!end', n)\n        return {0}(n - 1)\n    finally: print('out', n)", "def {0}(n): return 1 + {0}(n + 1)",
    "def {0}(n):\n    for i in range(5):\n        try:\n            if i == n: return i\n        finally:\n            print('f', i)\n            if i == 3: return 'late'", "def {0}(n):\n    global x\n    x = [n]\n    try: del x\n    finally: x = n\n    return x", "def {0}(n):\n    if n: x = 1\n    print(n)\n    return x",
    "def {0}(n):\n    try: return 1 // n\n    except ZeroDivisionError as e: n = 'zero'\n    finally: print(n)\n    return e", "def {0}(n, f=len): return f('a' * n) if n > 2 else {0}(3, f=repr)", "def {0}(n):\n    while True:\n        n += 1\n        try: continue\n        finally:\n            if n > 6: return n",
    "def {0}(n, s=<word>): return s if n == 0 else '(' + {0}(n=n - 1, s=s) + ')'",
]
