"""The cells with functions and exceptions by which the meaning of cells is tested."""

# CPython prints, shows, binds and raises the same.
SAME = [
    # functions
    "def f(): pass\nf()\nprint(f())", "def f(): return 1\nf() + 1", "def f(a, b=2, c=3): return a, b, c\nf(1), f(1, 5), f(1, c=7), f(b=1, a=0)", "def f(x): return x\nf", "def f(): return\nf() is None", "def f(a): pass\nf()", "def f(a): pass\nf(1, 2)", "def f(a): pass\nf(b=1)", "def f(a): pass\nf(1, a=2)",
    "def f(a, b): return b\nf(b=1)", "def f(a=[]):\n    a.append(1)\n    return a\nf()\nf() is f(), f()", "def g(x, acc=[]): acc.append(x); return acc\nprint(g(1) is g(2), g(3))", "d = []\ndef f(a=d): return a\nd.append(1)\nd = 5\nf()", "def f(a=print(1), b=print(2)): pass\nf(print(3))", "def f(a=x): pass",
    "def f(n): return 1 if n < 2 else n * f(n - 1)\nf(5)", "def even(n): return True if n == 0 else odd(n - 1)\ndef odd(n): return False if n == 0 else even(n - 1)\neven(4), odd(4)", "def f(): return g()\ndef g(): return 1\na = f()\ndef g(): return 2\na, f()", "L = []\ndef f(): L.append(1)\nf(); f(); L",
    "x = 1\ndef f():\n    x = 2\n    return x\nf(), x", "x = 1\ndef f():\n    global x\n    x = 2\nf(); x", "x = 1\ndef f(): return x\nx = 5\nf()", "x = 1\ndef f():\n    print(x)\n    x = 2\nf()", "def f():\n    if 0: y = 1\n    return y\nf()", "def f(a):\n    del a\n    return a\nf(1)", "def f():\n    del a\nf()", "def f(a):\n    a += 1\n    return a\nf(1)", "x = 1\ndef f(): x += 1\nf()",
    "def f():\n    for i in [1, 2]:\n        if i == 2: return i\n    return 0\nf()", "def f():\n    while 1:\n        return 'w'\nf()", "def f(f): return f\nf(1)", "def f(): return f\nf() is f", "def f(): return f\ng = f\ndef f(): pass\ng() is f, g is f", "def f(): return y\nf()", "def f(x): x = 2\nx = 1\nf(x); x", "def f(x): x.append(2)\nx = [1]\nf(x); x",
    "def f():\n    global a\n    a, b = 1, 2\nf()\na\nb", "def f(): (a, [b]), c[0] = [1, [2]], 3\nf()", "def f():\n    from types import SimpleNamespace\n    return SimpleNamespace(a=1)\nf().a", "def f(a, b): return a - b\nf(print(1) or 5, b=print(2) or 3)", "def f(): pass\nf.a", "def f(): pass\nf == f, f is f, f != 1, not f", "def f(): pass\nf < f", "def f(): 1 // 0\nf()",
    "def f(a=1): return a\no = [f]\no[0](), o[0](2)", "from types import SimpleNamespace\ndef f(a): return a\no = SimpleNamespace(f=f)\no.f(1)", "def f():\n    x = 1\n    def_ = 2\n    return x, def_\nf()", "def f(a): return a\nf(1)(2)", "def f(): del x\nx = 1\nf()", "def f():\n    global x\n    del x\nx = 1\nf()\nx",
    # try
    "try:\n    {}['k']\nexcept KeyError as e:\n    print(e)\nfinally:\n    print('end')", "try: raise ZeroDivisionError('z')\nexcept ArithmeticError as e: print(e)", "try: 1 // 0\nexcept KeyError: print('no')\nexcept (IndexError, ZeroDivisionError): print('yes')", "try: x\nexcept: print('any')", "try: pass\nexcept: print('no')\nelse: print('else')\nfinally: print('last')",
    "try: 1 // 0\nexcept KeyError: pass\nfinally: print('f')", "try:\n    try: 1 // 0\n    finally: print('inner')\nexcept Exception: print('outer')", "try: 1 // 0\nexcept ZeroDivisionError as e: pass\ne", "e = 5\ntry: 1 // 0\nexcept Exception as e: e = 6\ne", "try: 1 // 0\nexcept Exception as e: del e", "try: x\nexcept Exception as e: x = e\nx", "try: y\nexcept Exception as e: y = e.args\ny",
    "try: 1 // 0\nexcept 5: pass", "try: 1 // 0\nexcept (KeyError, 5): pass", "try: pass\nexcept 5: pass\n1", "try: 1 // 0\nexcept KeyError: pass\nexcept x: pass", "try: 1 // 0\nexcept print(1): pass", "try: 1 // 0\nexcept Exception as e: z", "try: 1 // 0\nexcept () : pass", "try: {}[1, 'a']\nexcept LookupError as e: print(e)", "try: x\nexcept NameError: print(1)\nelse: print(2)", "try: 'a' + 1\nexcept (ValueError, (TypeError)): print('t')",
    "def f():\n    try: return 1\n    finally: print('f')\nf()", "def f():\n    try: return 1\n    finally: return 2\nf()", "def f():\n    try: 1 // 0\n    finally: return 2\nf()", "def f():\n    for i in [1, 2]:\n        try: continue\n        finally: print(i)\n    return 'd'\nf()", "for i in [1, 2]:\n    try: break\n    finally: print(i)\ni", "for i in [1, 2]:\n    try: 1 // 0\n    except: continue\n    print('no')", "while 1:\n    try: 1 // 0\n    finally: break\n1",
    "try: 1 // 0\nexcept: 1 // 0\nfinally: print('f')", "try: pass\nfinally: x", "try: x\nfinally: y // 1", "try:\n    try: x\n    except NameError: raise\nexcept Exception as e: print(e)", "try:\n    try: {}[0]\n    except Exception as e: x = e; raise\nexcept Exception as f: print(f is x)", "try: 1 // 0\nexcept Exception:\n    try: x\n    except Exception: pass\n    raise", "def f():\n    try: return {}[0]\n    except Exception as e: return e\nf()", "def f():\n    try: return 1 // 0\n    except Exception: return 'h'\n    else: return 'e'\nf()",
    "try: pass\nexcept: pass\nelse: 1 // 0", "for i in [1]:\n    try: pass\n    except: pass\n    else: break\ni", "try:\n    x = 1\n    1 // 0\nexcept: pass\nx",
    # raise and assert
    "raise ValueError('x', 1)", "raise ValueError", "raise ValueError()", "raise KeyError('k')", "raise KeyError((1,))", "raise ValueError([1])", "raise 5", "raise None", "raise print", "raise (ValueError,)", "x = ValueError('a'); raise x", "x = ValueError('a')\ntry: raise x\nexcept ValueError as e: print(e is x, e.args)", "raise x", "raise ValueError(1 // 0)", "e = KeyError(1, 2)\ne", "ValueError('a') == ValueError('a')", "ValueError(a=1)", "ValueError('a').args[0]", 
    "assert 1", "assert 0", "assert [], 'm'", "assert 1, x", "assert 0, x", "assert x", "assert 0, [1, 'a']", "assert 0, ('a', 'b')", "assert (0, 1)", "try: assert 0, 5\nexcept AssertionError as e: print(e, e.args)", "try: raise NotImplementedError\nexcept RuntimeError as e: e.args", "ValueError.a", "ValueError().b", "ValueError", "print(ValueError('x'), KeyError('x'), ValueError(), ValueError(1, 2))", "not ValueError()", "ValueError is ValueError, ValueError == KeyError",
    "try: raise UnboundLocalError\nexcept NameError: print('n')", "try: raise RecursionError\nexcept (LookupError, RuntimeError): print('r')", "try: raise Exception\nexcept ValueError: print('no')", "try: raise OverflowError\nexcept LookupError: print('no')",
]

# What CPython does otherwise.
OWN = [
    "def f(): pass\nf.a = 1", "x = ValueError([]); x.args[0].append(x); x", "try: 1 // 0\nexcept Exception as e: x = e\nx", "try: [][0]\nexcept LookupError as e: print(e)", "def f(): pass\n{f: 1}", "ValueError().args()", "ValueError('a').foo(1)", "def f(): pass\nf.x(1)", "try:\n    while True: pass\nexcept Exception: print('no')\nfinally: print('no')", "def f():\n    while True: pass\ntry: f()\nexcept: pass", "try: 1 // 0\nexcept SimpleNamespace: pass", "raise SimpleNamespace", "def f(x): pass\nf(1, 2)",
    "try: 1 // 0\nexcept Exception as e:\n    while True: pass", "def f(): return x\nx = 'a' * 4000000\nf()",
]

# How many nestings and calls stand around the innermost point that is evaluated.
DEEP = [
    (2, "def f(): pass\nf()"), (1, "def f(a=1): pass"), (3, "def f(): (1)\nf()"), (4, "def f(): return g()\ndef g(): pass\nf()"), (3, "def f():\n    if 1: pass\nf()"), (1, "try: pass\nfinally: pass"), (2, "try: (x)\nexcept: pass"), (1, "try: x\nexcept: pass"), (1, "try: x\nexcept NameError: pass"), (2, "try: x\nexcept (KeyError, NameError): (1)"),
    (2, "raise ValueError((1))"), (1, "assert 0, (1)"), (2, "def f(n): return n\nf(1)"),
]

# Where they begin, and cells that go too deep from there.
TOO_DEEP = [
    (900, "def f(n): return f(n - 1)\nf(0)"), (997, "def f(): return f\nx = f()\nx()\nf()()\ndef g(): return f()\ng()"), (990, "def f(n): return n if n == 0 else f(n - 1)\nf(5)"),
]

# How many steps are left, and the cell.
FEW = [
    (3, "try: x\nexcept NameError as e: 1"), (4, "try: x\nexcept NameError as e: 1"), (5, "try: x\nexcept NameError as e: 1"), (6, "try: x\nexcept NameError as e: 1"), (2, "try: 1\nexcept: 2\nfinally: 3"), (3, "try: 1\nfinally: 2"),
    (5, "def f(): return 1\nx = f()"), (6, "def f(): return 1\nx = f()"), (4, "def f(a=1): x = a\nf()"), (5, "raise KeyError('k')"), (9, "raise KeyError('k')"), (8, "raise KeyError('k')"), (3, "assert 0, 'm'"), (5, "assert 0, 'm'"), (4, "assert 0, 'm'"),
]
