"""The cells over nodes by which the meaning of cells is tested: lists, tuples, dicts and objects."""

IMPORT = "from types import SimpleNamespace\n"

# CPython prints, shows, binds and raises the same.
SAME = [
    # displays
    "[]", "()", "{}", "[1, 'a', None]", "(1,)", "1, 2", "x = 1,\nx", "[[1], [2]], ()", "{1: 'a', True: 'b'}", "d = {1: 'a', True: 'b'}; print(d)", "{'k': [1], (1, 'a'): {}}",
    "{None: 0, 'a': 1, 2: 3, (): 4}", "{[]: 1}", "{{}: 1}", "{(1, []): 1}", "{1: x}", "[1, x]", "x = {[]: print(1), 2: print(3)}", "{1: 2}[print(3)]", "a = []; a.append(a); a", "print([print(1), print(2)], {print(3): print(4)})",
    # identity
    "a = [1]; b = a; b.append(2); print(a, a is b, [1] is [1])", "a = []; b = [a, a]; b[0].append(1); print(b, b[0] is b[1], a is not b[0])", "d = {}; d is {} or d is d", "a = (1, 2); b = a; a is b",
    "print([] is None, None is [], 1 is [1])",
    # truth
    "[] or () or {} or 'none'", "[0] and (0,) and {0: 0} and 'all'", "x = 1 if [] else 2\nx", "not [[]]",
    # items
    "[1, 2, 3][0]", "[1, 2, 3][-1]", "(1, 2)[True]", "'abc'[1]", "'abc'[-3]", "{'a': 1}['a']", "{1: 2}[True]", "{(1, 2): 3}[1, 2]", "[[1, 2], [3]][0][1]", "'é😀'[1]",
    "[1][1]", "[1][-2]", "()[0]", "''[0]", "{}['k']", "{1: 2}[(1,)]", "{}[[]]", "[1]['a']", "[1][None]", "'a'['b']", "1[0]", "None[0]", "(1 < 2)[0]", "x = [1]\nx[1 // 0]", "x = {}\nx[y]",
    # slices
    "[1, 2, 3, 4][1:3]", "[1, 2, 3, 4][:2], [1, 2, 3, 4][2:], [1, 2][:]", "print('abcdef'[::-2], [1, 2, 3, 4][-3:-1])", "[1, 2, 3][::-1]", "(1, 2, 3)[1:], (1, 2)[5:], (1, 2)[-9:9]",
    "'abcde'[3:0:-1]", "'abcde'[-1:-4:-2]", "[1, 2, 3][None:None:None]", "[1, 2, 3][2:1]", "'abc'[1:-1:2]", "[1, 2, 3, 4, 5][-2::-2]", "[1, 2][10:-10:-1]", "'ab'[::100]", "a = [1]; a[:] is a",
    "[1][::0]", "[1]['a':]", "[1][:'b']", "[1][::'c']", "[1]['a'::0]", "1[1:2]", "{}[1:2]", "[1][x:]",
    # attributes and objects
    IMPORT + "o = SimpleNamespace(a=1); o.b = [o]; o", IMPORT + "o = SimpleNamespace(); o.x = 1; o.y = o.x; del o.x; o", IMPORT + "o = SimpleNamespace(a=1); o.a += 2; o.a", IMPORT + "SimpleNamespace(a=1, b=[2]).b[0]",
    IMPORT + "SimpleNamespace().a", IMPORT + "o = SimpleNamespace(); del o.a", IMPORT + "o = SimpleNamespace(a=[]); o.a.append(1); o.f = SimpleNamespace; o.f(b=o.a)", IMPORT + "SimpleNamespace(1)",
    IMPORT + "o = SimpleNamespace(keys=SimpleNamespace); o.keys()", IMPORT + "o = SimpleNamespace(); o.keys()", "from types import SimpleNamespace as S\no = S(a=S()); o.a.b = 1; o", IMPORT + "x = SimpleNamespace(a=1) == SimpleNamespace(a=1), SimpleNamespace(a=1) == SimpleNamespace(b=1); x",
    "[].a", "x = 1\nx.a = 2", "'a'.b", "(1).a = x", "[1].x = 2", "del [1].x", "None.a.b",
    # methods
    "a = [1]; a.append(a.append(2)); a", "[].foo()", "x = [].append(1)\nx", "[].append(1, 2)", "[].foo(print(1))", "(1).append(2)", "a = [3]; (a.append)(4); a", "a = [1, 2]; print(a.pop(), a)",
    "[].pop()", "d = {'k': 1}; d.update({'k': 2, 'j': 3}); d", "d = {1: 2}; print(d.get(1), d.get(3), d.get(3, 4))", "{}.get([])", "[].append(x=1)", "1()", "[](2)", "x = 1\nx(print(2))", "None(y)",
    # operators
    "[1] + [2, 3]", "(1,) + (2,)", "a = [1]; b = a + []; b is a", "[1, 2] * 2", "2 * (1, 2)", "[1] * -1, () * 3, [0] * True", "[1] + (2,)", "[1] + 1", "1 + [1]", "(1,) - (1,)", "[1] * [1]", "{} + {}", "'a' * []", "-[1]",
    "not {}", "a = [[]] * 2; a[0].append(1); a",
    # comparisons
    "[1, 2] == [1, 2], (1,) == (1,), [1] == (1,), {1: 2} == {True: 2}", "print((1, 2) < (1, 3), [1] == [True], {1: 2} == {True: 2})", "[1, 'a'] < [1, 'b'], [] < [0], [1] <= [1], (2,) > (1, 5)", "[1] < ['a']", "[1] < (1,)", "{} < {}", "[1, []] >= [1, {}]",
    "[{1: 1, 2: 2}] > [{2: 3, 1: 1}]", "[{1: 1, 2: 2}] <= [{2: 3, 1: 1}]", "max([{1: 1, 2: 2}], [{2: 3, 1: 1}])",
    "[] != [], [[]] != [[], 1]", "{1: [2], 3: 4} == {3: 4, 1: [2]}", "1 in [1, 2], 'a' in ('b',), [1] in [[1]], 3 not in [1, 2]", "1 in {True: 0}, 'k' in {}, (1,) in {(1,): 2}", "[] in {}", "1 in 1", "1 in None", "1 in [2, 1, x]", "1 in [x]",
    "a = []; a in [[], a]", "1 < 2 in [2, True]",
    # names and places
    "a, b = 1, 2\nb, a = a, b\n(a, b)", "[a, (b, c)] = 1, [2, 3]\na, b, c", "a, b = 'xy'; a, b", "(a), = [1]; a", "a, b = {'x': 1, 'y': 2}; a, b", "a, b = 1, 2, 3", "a, b = 1,", "a, b = 5", "a, b = None", "[a, b] = x", "a = b, c = 1, 2\na, b, c", "a, (b, c) = 1, 2",
    "a = [0, 0]; i = 0; i, a[i] = 1, 2; a", "a = [1, 2]; a[0], a[1] = a[1], a[0]; a", "a = [0]; a[0] = a; a", "a = [0]; a[-1] = 5; a", "d = {}; d['k'] = d['j'] = 1; d", "d = {}; d[1, 2] = 3; d", "a = [1]; a[1] = 2", "a = [1]; a['x'] = 2", "d = {}; d[[]] = 1", "x = 'ab'\nx[0] = 'c'", "(1, 2)[0] = 3", "x = 1\nx[0] = y",
    "x = [1]; x[print(0)] = print(1)", "x = [0]\nprint(x)\nx[0] = x[0] + 1, x[0]\nx", "a = b = []; a.append(1); b", "a = [1]\na, a[0] = [2], 3\na",
    # `op=`
    "a = [1]; b = a; a += [2]; print(a, b, a is b)", "a = [1]; b = a; a = a + [2]; print(a, b)", "a = [1]; a += 'xy'; a += (3,); a += {4: 5}; a", "a = [1]; a += a; a", "a = [1]; a += 1", "a = [1]; a *= 2; a", "d = {'n': 1}; d['n'] += 2; d", "a = [[1]]; a[0] += [2]; a", "t = (1,); t += (2,); t", "a = [1]; a -= 1", "x = [1, 2]\nx[print(0) is None] += 5\nx", "d = {}; d['n'] += 1", "a = []; a[0] += 1", "[1][0] += 1", "(1, 2)[0] += 1", "x.a += 1", "a = ([1],)\na[0] += [2]", "a = [5]\ni = 0\na[i] **= 2\na",
    # del
    "x = 1; del x; x", "del x", "a = [1, 2, 3]; del a[1]; a", "a = [1, 2]; del a[-1], a[0]; a", "d = {1: 2, 3: 4}; del d[True]; d", "d = {}; del d['k']", "a = []; del a[0]", "del (1, 2)[0]", "a = [1]; del a['x']", "x = y = 1\ndel x, x", "d = {1: 2}; del d[[]]", "d = {1: 2, 3: 4}; del d[1]; d[1] = 5; d",
    # for
    "for x in [1, 2]: print(x)", "for x in (): print(x)\nx", "for c in 'ab': print(c)", "for k in {'a': 1, 'b': 2}: print(k)", "for a, b in [(1, 2), (3, 4)]: print(a + b)", "for x in 1, 2: print(x)", "for [a, b] in 'xy', [1, 2]: print(a, b)", "for x, in [[1], (2,)]: print(x)", "for x in 5: pass", "for x in None: pass", "for x in y: pass", "for a, b in [1]: pass",
    "a = [1]\nfor x in a:\n    if x < 3: a.append(x + 1)\nprint(a)", "a = [1, 2, 3, 4]\nfor x in a:\n    a.pop()\n    print(x)", "d = {1: 1}\nfor k in d: d[k + 1] = 0", "d = {1: 1, 2: 2}\nfor k in d: d[k] += 1\nd", "d = {1: 1}\nfor k in d: d.clear()", "d = {1: 1, 2: 2}\nfor k in d:\n    d.clear()\n    break\nd", "d = {(1, 2): 3}\nfor k in d: print(k, k is k)\nfor a, b in d: print(a)",
    "d = {'a': 1, 'b': 2}\nfor k in d.keys(): print(k)\nfor v in d.values(): print(v)\nfor k, v in d.items(): print(k, v)", "d = {(1, 2): 3}\nfor p in d.items(): print(p)", "d = {1: 2}\nfor k, v in d.items(): d[3] = v", "d = {}\nfor k in (d.keys()): pass\nd", "for k in {1: 2}.keys(): print(k)", "for k in [1].keys(): pass", "for k in {}.keyz(): pass",
    IMPORT + "o = SimpleNamespace(keys=SimpleNamespace)\nfor k in o.keys(): pass", "x = [3, 1]\nfor x[0] in [7, 8]: pass\nx", "for i in [1, 2, 3]:\n    if i == 2: continue\n    if i == 3: break\n    print(i)\ni", "for i in [1, 2]:\n    for j in 'ab':\n        if j == 'b': break\n        print(i, j)", "for x in [1, 0]: 1 // x", "n = 0\nfor x in [1, 2, 3]: n += x\nn",
    "rows = [{'name': 'ann', 'n': 3}, {'name': 'bo', 'n': 4}, {'name': 'ann', 'n': 5}]\ntot = {}\nfor r in rows:\n    tot[r['name']] = tot.get(r['name'], 0) + r['n']\ntot",
    # print
    "print(1, 2, sep='')", "print('a', 'b', sep=', ', end='!')", "print(end='')", "print(sep=1)", "print(1, sep='-', end='\\n\\n')", "print(x=1)", "print([1, 'a'], {'k': (1,)}, 'x')", "print(1, 2, end='', sep='\\t')",
    # imports
    "from types import SimpleNamespace as S; S is S", IMPORT + "SimpleNamespace is SimpleNamespace", "from types import SimpleNamespace as S\nS.a", "from types import SimpleNamespace as S\nS[0]", "from types import SimpleNamespace as S\ndel S\nS",
    # what was done stays
    "a = [1]\na.append(2)\na.append(1 // 0)", "a = [1]\na[0], b, c = 5, 6", "a = [0]\na[0], a[1] = 5, 6", "x, y.a = 1, 2",
]

# Of these, what CPython does otherwise: it looks at the step first.
APART = ["[1]['a'::0]"]

# What CPython does otherwise.
OWN = [
    "[].append", "{}.keys()", "{1: 2}.items", "for k in [{}.keys()]: pass", "x = {}\nfor k in x.keys(1): pass", "{}.values()[0]", "o = SimpleNamespace(a=1); o.b = [o]; o", "SimpleNamespace(a=1).a", "print(sep=None)", "print(1, end=None)",
    "from types import SimpleNamespace as S\nS", "from types import SimpleNamespace as S\nS + 1", "from types import SimpleNamespace as print\nprint(a=1)", "from types import SimpleNamespace as S\n{S: 1}", "{1: 2}[1:2]", "[1, 2] is [1, 2]", "a = [1]; b = a; a *= 2; a is b, a, b", "a = []; (a.append)(x=1)", "a = []; ((a).append)((1)); (a).pop()",
    "x = [1] * 4000000", "x = [0]\nx *= 170141183460469231731687303715884105727", "x = [0]\nwhile True: x += x", "a = [1]\nfor x in a: a.append(x)", "d = {}\nn = 0\nwhile True:\n    d[n] = n\n    n += 1",
]

# Cells that begin with these ranges.
RANGES = {"d": range(5, 0, -2), "e": range(0), "r": range(0, 10, 3)}

RANGED = [
    "r[0], r[-1], r[1]", "r[4]", "d[True], d[-3]", "r['a']", "e[0]", "3 in r, 4 in r, True in e, 'a' in r, 10 in r, -3 in r, 5 in d, 1 in d, 0 in d, 4 in d, [] in r, None in r", "for i in r: print(i)", "for i in d: print(i)", "for i in e: print(i)\ni", "a, b, c = d\na, b, c", "a, b = r", "x = []; x += r; x",
    "r == r, r == d, e == [], r != 0", "r is r, r is d, r is 0", "not e, not r", "r", "print(r, d, e)", "r + r", "r * 2", "[] + r", "r < r", "r.a", "r.a = 1", "r[0] = 1", "del r[0]", "r.a()", "r()", "[r] == [r], [r] == [d]", "[r] < [d]", "-r", "r in [d, r]", "1 in [r]", "'a'[r]",
    "(a, b), c = r, 1", "for a, b in r: pass", "r += 1", "d -= d", "x = r[0] < d[0] < 6\nx", "if e: 1\nelif r: 'r'",
]

# What CPython does otherwise.
RANGED_OWN = ["{r: 1}", "{}[r]", "r in {}", "r[0:1]"]

# How many steps are left, and the cell.
FEW = [
    (2, "[1]"), (3, "x = [1]"), (2, "x = [1]"), (4, "x = 1, 2"), (3, "x = 1, 2"), (4, "x = {1: 2}"), (3, "x = {1: 2}"), (5, "x = {(1,): 2}"), (6, "x = {(1,): 2}"),
    (8, "x = [1] + [2, 3]"), (10, "x = [1] + [2, 3]"), (9, "x = [1] + [2, 3]"), (9, "x = [1, 2] * 2"), (8, "x = [1, 2] * 2"), (9, "x = [1, 2][0:1]"), (8, "x = [1, 2][0:1]"), (6, "a, b = 1, 2"), (5, "a, b = 1, 2"), (6, "a, b = 1, 2, 3"), (8, "a, b = 1, 2, 3"), (7, "a, b = 1, 2, 3"),
    (10, "a = [1]\na += 'xy'"), (9, "a = [1]\na += 'xy'"), (11, "a = [1]\na += 'xy'"), (5, "for x in [1, 2]: pass"), (6, "for x in [1, 2]: pass"), (7, "for x in [1, 2]: pass"), (8, "for x in [1, 2]: pass"), (4, "for x in [1, 2]: pass"),
    (9, "for x in {(1, 2): 3}: pass"), (10, "for x in {(1, 2): 3}: pass"), (11, "for x in {(1, 2): 3}: pass"), (7, "x = 1 in [2, 3]"), (8, "x = 1 in [2, 3]"), (6, "x = 1 in [2, 3]"), (8, "x = [1] == [1]"), (6, "x = [1] == [1]"), (5, "x = [1] == [1]"), (7, "a = []; a.append(1)"), (5, "a = []; a.append(1)"), (4, "a = []; a.append(1)"),
    (6, "print(1, sep='')"), (7, "print(1, 2, sep='-', end='')"), (9, "print(1, 2, sep='-', end='')"), (8, "print(1, 2, sep='-', end='')"), (6, "a = [1]\na[0] = 2"), (5, "a = [1]\na[0] = 2"), (9, "a = [1]\na[0] += 2"), (8, "a = [1]\na[0] += 2"),
]

# How many nestings stand around the innermost point that is evaluated.
DEEP = [
    (1, "[1]"), (0, "[]"), (0, "()"), (2, "((1,))"), (1, "(1, 2)"), (0, "1, 2"), (2, "[[1]]"), (1, "{1: 2}"), (2, "{1: [2]}"), (2, "{(1): 2}"), (1, "x = [1][0]"), (2, "x = [1][(0)]"), (1, "x = 'a'[0:1]"), (2, "x = 'a'[:-1]"), (1, "a = [0]\na[0] = 1"), (1, "(a) = 1"), (2, "([a, b]) = 1, 2"), (1, "[a] = 1,"),
    (0, "a, b = 1, 2"), (2, "a = [0]\n(a[0]) = 1"), (2, "for x in (1,): [x]"), (0, "for x in '': pass"), (1, "for x in 'a': pass"), (2, "for x in 'a': (x)"), (2, "print(sep=('a'))"), (1, "print(sep='')"),
    (1, "a = [1]\na[0] += 1"), (1, "del [0][0]"),
]
