"""The forms of cells for play.py. In a form `<x>` is a name that is bound, `<N>` a name that may not be, `<L>` a list's
name, `<T>` a tuple's, `<D>` a dict's, `<O>` an object's, `<F>` a function's, `<E>` an exception's, `<f>` a name for a
function, `<i>` a plain value and `<k>` a key."""
NAMES = "a b c d e g h p q r s t x y z".split() + ["data", "_", "n1", "Kept"]
FUNCTIONS = "f k add make".split()
HIDDEN = {"len", "int", "print", "str", "max"}  # names of builtin functions, which forms call

KEYS = [
    "'k'", "1", "True", "None", "(1, 'a')", "'m'", "0", "(True, 'a')", "()", "'it\\'s'",
]
PLAIN = [
    "0", "1", "True", "None", "'a'", "''", "-7", "2 ** 100", "range(3)", "range(1, 9, 2)", "len", "KeyError", "'\\n\\x00é'",
    "int", "print", "'ab' * 3", "False", "-2 ** 127", "'\\U0001f600'",
]
# What makes new things of what is there.
MAKES = [
    "<N> = <i>", "<N> = [<i>, <i>]", "<N> = [<x>]", "<N> = [<x>, <x>]", "<N> = (<x>, <i>)", "<N> = (<x>,)", "<N> = ()",
    "<N> = []", "<N> = {}", "<N> = {<k>: <x>, <k>: <i>}", "<N> = {<k>: <x>}", "<N> = SimpleNamespace(v=<x>, w=<i>)",
    "<N> = SimpleNamespace()", "<N> = ValueError(<x>, <i>)", "<N> = KeyError(<i>)", "<N> = IndexError()", "<N> = <x>",
    "<N> = <x>", "<N> = <N> = [<i>]", "<N>, <N> = <x>, <x>", "<N> = [[<i>], (<x>, {<k>: <x>})]", "def <f>(v, w=<x>): return w",
    "def <f>(v=<x>, w=[]):\n    w.append(v)\n    return w", "def <f>(v):\n    global <N>\n    <N> = [v]",
    "def <f>(): return <N>",
    "if True:\n    def <f>(v=[<i>]):\n        # a note\n        v.append(<i>)\n\n        return v;  # more",
    "def <f>(v, w=SimpleNamespace(last=<x>)):\n    w.last, before = v, w.last\n    return before", "<N> = <F>",
    "<N> = [<F>, <F>]", "from types import SimpleNamespace as <N>", "<N> = [[]] * 3", "<N> = <x>; <N> = [<x>, <x>]",
    "<N> = ((<x>, <x>), <x>)", "def <f>(w=[]):\n    w.append(<F>)\n    return w", "<N> = []\nfor v in range(1200): <N> = [<N>]",
    "<N> = {}\nfor v in range(40): <N>[v] = [<N>, <x>]", "<N> = <N> = <N> = {}; <N> = [<x>, [<x>]]",
    "v = [<x>]\nfor v in [v] * 3: <N> = v", "abcdefghij" * 25 + "_____ = <x>",
    "try: 1 // 0\nexcept ZeroDivisionError as <N>: <N> = <N>", "try: [][<i>]\nexcept Exception as err: <N> = err",
    "try: raise KeyError(<x>)\nexcept LookupError as err: <N>, <N> = err, err.args",
    "try: missing\nexcept NameError as e: <N> = [e, e]",
]
# What changes things that are there.
ALTERS = [
    "<L>.append(<x>)", "<L>.append(<i>)", "<L>.append(<L>)", "<L>.append((<L>, <x>))", "<L>.insert(0, <x>)",
    "if <L>: <L>[0] = <x>", "if <L>: <L>[-1] = <i>", "if <L>: <L>.pop()", "<L>.clear()", "<L> += [<x>]", "<L> += <L>[:2]",
    "<L>.extend(<L>[:2])", "<L>.reverse()", "if <L>: del <L>[0]", "<D>[<k>] = <x>", "<D>[<k>] = <D>", "<D>[<k>] = [<x>, <D>]",
    "<D>.pop(<k>, None)", "<D>.clear()", "<D>.update(<D>)", "<D>.setdefault(<k>, []).append(<x>)", "<O>.v = <x>", "<O>.w = <i>",
    "<O>.me = <O>", "<O>.u = [<O>, <x>]", "<E>.args[0].append(<x>)", "<N> = <F>()", "<N> = <F>(<x>)", "<F>(<i>)",
    "<F>(<x>, <x>)", "<F>(v=<x>)", "<N>.append(<F>)", "<T>[0].append(<i>)", "<T>[0][<k>] = <x>",
    "for v in <L>[:3]: <D>[<k>] = v", "for v in <D>.values():\n    if isinstance(v, list): v.append(<i>)",
    "if <L> and isinstance(<L>[0], list): <L>[0].append(<i>)", "<L>.append(<x>); <L>.append(<x>)", "<x>, <x> = <x>, <x>",
    "<L>[:0], <x> = <i>, <i>", "<x> = 0", "<x> = <i>", "<x> = [<x>]", "<x> = (<x>, <x>)", "<x> += <i>", "<x> += <x>",
    "<x> *= 2",
]
# What leaves equal values, of which some are other objects.
LEAVES = [
    "<x>", "print(<x>)", "<x> is <x>", "<x> == <x>", "[<x>, <x>]", "<x> = <x>", "<L> = <L>", "<N> = <L>[:]", "<L> = <L>[:]",
    "<L> = list(<L>)", "<L> = <L> + []", "<L> = <L>.copy()", "<T> = <T> + ()", "<T> = <T>[:]", "<T> = tuple(<T>)",
    "<D> = <D>.copy()", "<D> = dict(<D>)", "<L>.append(0); <L>.pop()", "<L>.reverse(); <L>.reverse()",
    "if <L>: <L>[0] = <L>[0]", "if <L>: <L>.append(<L>.pop())", "for v in <D>: <D>[v] = <D>[v]",
    "v = <D>.pop(<k>, 0); <D>[<k>] = v; del v", "<D>['new'] = 1; del <D>['new']", "<O>.new = 1; del <O>.new", "<O>.v = <O>.v",
    "v = <O>.v; del <O>.v; <O>.v = v; del v", "len(<x>)", "repr(<x>)", "<F>", "<E>", "<E>.args", "str(<E>)", "<x> = [<x>][0]",
    "<N> = <x>; del <N>", "<D>.get(<k>)", "<L>.count(<x>)", "<x> in <L>", "None", "1", "'it\\'s \"é\"'", "pass", "",
    "# nothing", "<x>, <x> = <x>, <x>", "if <L>: <L>[0] = 1", "if <L>: <L>[0] = True", "if <L> and <L>[0] == 1: <L>[0] = True",
    "for v in range(len(<L>)):\n    if <L>[v] == 1: <L>[v] = 1", "for v in <D>:\n    if <D>[v] == 1: <D>[v] = True",
    "x = y = 1", "x = y = True", "<N> = [1]", "<N> = [True]", "<N> = {1: 0}", "<N> = {True: False}", "<D>[1] = <D>.pop(1, 0)",
    "<D>[True] = <D>.pop(1, 0)", "def unused(): return <x>", "del unused", "v = 1; del v", "v = [<x>]; v.append(v)",
    "global_ = <x>; del global_",
]
# What unbinds names and takes out items.
DELETES = [
    "del <x>", "del <x>", "del <x>, <x>", "<x> = None", "<x> = 0; del <x>", "del <D>[<k>]", "del <L>[-1]", "del <O>.v",
    "del <N>", "del <x>; <x> = []", "<N> = <x>; del <x>",
]
# What ends by an exception that isn't caught, mostly with something done before it.
RAISES = [
    "<L>.append(<i>); 1 // 0", "<N> = [<x>]; missing", "<L>.append(<x>); raise ValueError(<x>)", "raise <E>",
    "raise KeyError('k', <i>)", "raise IndexError", "assert <L> is None, <i>", "<D>[[]] = <i>", "<D>[<x>] = <x>", "<x>()",
    "<F>(1, 2, 3, 4)", "<L>[99]", "<x>.nope", "<x>.nope()", "<N> = <x>; del <N>; <N>", "raise <x>",
    "print('before', <x>); <x> + None", "<N> = 1; raise KeyError(<x>)", "try: <L>.append(<i>)\nfinally: missing()",
    "def <f>(): return <f>()\n<f>()", "def <f>(v, w=[]):\n    w.append(v)\n    return <f>(v)\n<f>(<x>)",
    "for v in <D>: <D>[(v, 1)] = 0", "<N>, <N> = 1, 2, 3", "import os", "raise SyntaxError('mine')", "raise NameError",
    "<L> += 5", "<T>[0] = 1", "<T>[0] += [<i>]", "<O>.gone", "x = 2 ** 126 * 2", "int('x')", "[<x>] * 5000000",
    "t = 'a' * 5000000", "try: raise ValueError([<x>])\nexcept ValueError as err:\n    <N> = err\n    raise",
    "err = [<x>]; raise ValueError(err)",
]
# What spends its steps.
SPENDS = [
    "<N> = []\nwhile True: <N>.append(0) or <N>.clear()", "<N> = 0\nwhile True: <N> += 1",
    "'a' * 3999000\n<N> = 0\nwhile True:\n    <N> += 1\n    <x> == <x>",
    "'a' * 3990000\n<N> = [0]\nwhile True:\n    try: <N>[0] += 1\n    finally: <N>[0] += 1",
    "'a' * 3999000\nfor v in range(10 ** 30): <N> = (v, <x>)", "<L>.append('a' * 4000000)",
    "'a' * 3990000\ndef <f>(v, w=[]):\n    if len(w) > 8: w.clear()\n    w.append(v)\n    return w\nwhile True: <N> = <f>(<x>)",
    "'a' * 3990000\ntry: 1 // 0\nexcept ZeroDivisionError as e:\n    while True: <N> = e",
    "'a' * 3999500\nwhile True:\n    <N> = [repr(<x>)]\n    <N> = sorted([2, 1, 3])",
    "'a' * 3999900; <N> = 'b' * 60; raise ValueError('a' * 30)", "'a' * 3999900; <N> = 'b' * 60; 'c' * 20",
]
# What can't be read, and what can.
UNREAD = [
    "x = 1 +", "(", "x = [1, 2", "print('a)", "'''open", "x = 1 $ 2", "1 = x", "f(x", ")", "if True:\npass", "  x = 1",
    "if True:\n    x = 1\n  y = 2", "return 5", "break", "continue", "raise", "global x", "def f():\n    def g(): pass",
    "def f(a, a): pass", "def f(a=1, b): pass", "f(a=1, 2)", "f(a=1, a=2)", "x = 1.5", "x = 1 / 2", "[n for n in x]",
    "lambda: 1", "class A: pass", "with x: pass", "x := 1", "(x := 1)", "*a, b = x", "f(*x)", "{1, 2}", "f'{x}'", "b'a'",
    "x = 0777", "import os", "from types import *", "a if b", "x = é", "'\\N{DIGIT ONE}'", "'\\ud800'",
    "170141183460469231731687303715884105728", "try: pass", "try: pass\nexcept: pass\nexcept ValueError: pass",
    "while x: pass\nelse: pass", "for x in y: pass\nelse: pass", "x = yield", "assert", "del", "del f()", "f() = 1",
    "x += y += 1", "x, y += 1", "not", "1if x else 2", "0x", "1_", "'a' 1", "x = (1,\n2))", "@f\ndef g(): pass", "x: int = 1",
    "def f() -> int: pass", "def f(*a): pass", "def f(a, /): pass", "nonlocal x", "async def f(): pass", "x = `1`", "x ? y",
    "!x", "a & b", "a | b", "~a", "a ^ b", "a << 1", "a @ b", "...", "x = 1;; y = 2", ";", "else: pass", "elif x: pass",
    "except: pass", "if x: pass\nelse pass", "def f(): x = 1\n    y = 2", "if True: if x: pass", "x[1:2, 3]", "x[1:2] = 3",
    "del x[1:2]", "[] = x", "() = x", "del (x)", "x\f = 1", "lambda", "True = 1", "None.x = 1 = 2",
    "def f():\n    x = 1\n    global x", "def f(x): global x", "from types import SimpleNamespace, x",
    "from types import (SimpleNamespace)", "import types", "print(1) print(2)", "x = = 1", "for in x: pass", "for 1 in x: pass",
    "if x\n    y", "match x:\n    case 1: pass", "x = 1\n\tif y: pass", "(" * 61 + ")" * 61, "[" * 61 + "]" * 61,
    "not " * 61 + "x", "(1\n$", "x = '\\x4'", "u'a' r'\\' ", "raise ValueError from x", "x = 1 if y", "a.1", "a.if",
    "print(end=)", "print(a b)", "{1: 2, 3}", "{**x}", "type X = int", "x = 'a\nb'", "with open('a') as f: pass",
]
READ = [
    "(" * 60 + "1" + ")" * 60, "not " * 60 + "1", "match = case = type = 1", "x = u'a' R'\\d' \"b\"",
    "x = 0xFF + 0b1_1 + 0o17 + 00", "if 1:\n\tx = 1\n\ty = 2", "x = (1,\n  2)\r\ny = 3", "x = 1; y = 2;", "x = 1 \\\n + 2",
    "(x) = 5", "x, = [1]", "for (v) in [1]: pass", "x = '''a\nb\r\nc'''", "'\\a\\b\\f\\v\\0\\101\\q'", "x = 1 # é", "\n\n# c\n",
    "if 1: x = 1; y = 2", "def f(a, b=1,): return a", "print('a', end='')", "print('é\\U0001f600')", "print(1, 2, sep=', ')",
    "x = {}; x[1, 2] = 3; x", "not not 1", "-1 ** 2", "1 < 2 < 3 != 4", "[] is []", "() is ()", "'a' 'b'",
]
