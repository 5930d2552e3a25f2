"""What a cell gives that Kishu and CPython mean alike: by CPython's `exec`, with the texts of exceptions that docs/LANGUAGE.md tells."""
import ast
import builtins
import contextlib
import dis
import io
import keyword
import re
import signal
import sys
import types
import warnings

SECONDS = 5
NAMES = (
    "abs all any chr divmod isinstance len max min ord print repr sorted sum bool dict int list range str tuple Exception ArithmeticError "
    "OverflowError ZeroDivisionError AssertionError AttributeError LookupError IndexError KeyError NameError UnboundLocalError "
    "RuntimeError NotImplementedError RecursionError SyntaxError TypeError ValueError __import__"
).split()
BUILTINS = {name: getattr(builtins, name) for name in NAMES} | {"SimpleNamespace": types.SimpleNamespace}

# Cells that have no tree, with the line of the fault. CPython takes some of them.
WRONG = {
    "x = = 1": 1, "'abc": 1, "x = 1\nif x:\n    y = ": 2, "print(1)\n\nlambda: 1": 3, "return 1": 1, "x = 1.5": 1, "x = 1 / 2": 1,
    "print(2)\nwith x: pass": 2, "one = [1\ntwo = 2": 1, "break": 1, "\f": 1, "x = 1\nimport os\ny = 2": 2, "\u00e9 = 1": 1,
}
# Cells that spend all their steps, with a cell that leaves the same state.
SPENT = {"n = 0\nwhile True: n += 1": "n = 666666"}

RESERVED = frozenset(keyword.kwlist)
# The instructions that access a name of the namespace.
ACCESSES = frozenset(f"{what}_{where}" for what in ("LOAD", "STORE", "DELETE") for where in ("NAME", "GLOBAL"))
# The functions of all cells that were read: the text of each code object by its number, with the object, and the object by its text.
CODES, FUNCTIONS = {}, {}

KIND = "(NoneType|bool|int|str|range|list|tuple|dict|SimpleNamespace|function)"
# The class of an exception that the language raises, CPython's text and Kishu's.
TEXTS = [
    ("ZeroDivisionError", "integer division or modulo by zero|integer modulo by zero|division by zero", "division by zero"),
    ("NameError", r"name '(\w+)' is not defined", r"name '\1' is not defined"),
    ("UnboundLocalError", r"cannot access local variable '(\w+)' where it is not associated with a value", r"local name '\1' has no value"),
    ("IndexError", "pop from empty list", "pop from empty list"),
    ("IndexError", ".*index out of range", "index out of range"),
    ("TypeError", rf"unsupported operand type\(s\) for (\+|-|\*|//|%): '{KIND}' and '{KIND}'", r"bad operand types for \1: '\2' and '\3'"),
    ("TypeError", rf"bad operand type for unary (\+|-): '{KIND}'", r"bad operand type for \1: '\2'"),
    ("TypeError", rf"'{KIND}' object is not (callable|iterable|subscriptable)", r"'\1' object is not \2"),
    ("TypeError", rf"unhashable type: '{KIND}'", r"unhashable key: '\1'"),
    ("AttributeError", rf"'{KIND}' object has no attribute '(\w+)'", r"'\1' object has no attribute '\2'"),
    ("RuntimeError", "dictionary changed size during iteration", "dictionary changed size during iteration"),
    ("RecursionError", "maximum recursion depth exceeded.*", "depth limit reached"),
    ("ValueError", r"(?:not enough|too many) values to unpack \(expected (\d+).*", r"cannot unpack into \1"),
    ("ValueError", r"(?:max|min)\(\) arg is an empty sequence", "empty argument"),
    ("ValueError", r"invalid literal for int\(\) with base 10: .*", "not a whole number"),
    ("ValueError", "empty separator", "empty separator"),
]


class Unlike(Exception):
    """It isn't known that both languages mean this cell alike."""


class Late(BaseException):
    """The cell took too long."""


def empty_space():
    """A namespace without names. The builtins aren't in it."""
    return {"__builtins__": BUILTINS}


def names_in(space):
    return sorted(name for name in space if name != "__builtins__")


def plain(text):
    """A text of CPython's without addresses and without the module of SimpleNamespace."""
    return re.sub(r" at 0x[0-9a-f]+>", ">", text).replace("types.SimpleNamespace", "SimpleNamespace")


def raising(error):
    """The name of the instruction that raised an exception."""
    trace = error.__traceback__
    while trace.tb_next:
        trace = trace.tb_next
    return dis.opname[trace.tb_frame.f_code.co_code[trace.tb_lasti]]


def in_a_call(error):
    """Whether a builtin function or a method raised the exception, as `sum` where it adds and `update` where it walks."""
    return "CALL" in raising(error)


def arguments(error):
    """The arguments that Kishu gives an exception: where the language raised it, its text, or the key that is missing."""
    if error.__traceback__ is None or isinstance(error, KeyError) or raising(error) == "RAISE_VARARGS":
        return list(error.args)
    return [text_of(error)]


def text_of(error):
    """The text that Kishu gives an exception."""
    name, text = type(error).__name__, plain(str(error))
    if not error.args or name in ("KeyError", "AssertionError") or re.match(r"\(?['\"]?!", text):
        return text
    for of, pattern, ours in TEXTS:
        found = re.fullmatch(pattern, text, re.DOTALL) if of == name else None
        if found and re.match(r"unsupported operand|.* is not iterable", text) and in_a_call(error):
            raise Unlike(f"{name} of a call: {text}")
        if found:
            return found.expand(ours)
    raise Unlike(f"{name}: {text}")


def has_foreign_names(tree):
    """Whether a name of the tree isn't ASCII: CPython takes it, and Kishu finds a fault there."""
    names = (getattr(node, field, None) for node in ast.walk(tree) for field in ("id", "name", "attr", "arg"))
    return any(isinstance(name, str) and not name.isascii() for name in names)


def text_of_def(lines, node):
    """The text of a function's code: up to its last token that stands for something, a `;` among these."""
    first = lines[node.lineno - 1].encode()[node.col_offset :].decode()
    last = lines[node.end_lineno - 1].encode()
    end = last[: node.end_col_offset].decode() + re.match(r"([ \t]*;)?", last[node.end_col_offset :].decode()).group()
    if node.lineno == node.end_lineno:
        return first[: len(first) - (len(last.decode()) - len(end))]
    return "\n".join([first, *lines[node.lineno : node.end_lineno - 1], end])


def codes_in(code):
    """The code objects in one, however deep."""
    for part in code.co_consts:
        if isinstance(part, types.CodeType):
            yield part
            yield from codes_in(part)


def note_functions(text, tree, code):
    """Keeps the texts of a cell's functions."""
    lines = re.sub("\r\n?", "\n", text).split("\n")
    texts = {(node.name, node.lineno): text_of_def(lines, node) for node in ast.walk(tree) if isinstance(node, ast.FunctionDef)}
    for part in codes_in(code):
        own = texts.get((part.co_name, part.co_firstlineno))
        if own is not None:
            CODES[id(part)], FUNCTIONS[own] = (own, part), part


def code_of(function):
    """The text of a function's code."""
    return CODES[id(function.__code__)][0]


def function_of(text, space):
    """A function of this code in a namespace. Its defaults are as many as they have to be. Unlike: it isn't known whether the text is one's code."""
    if text not in FUNCTIONS:
        raise Unlike("the code isn't known")
    made = types.FunctionType(FUNCTIONS[text], space)
    made.__defaults__ = (None,) * len(definition(text).args.defaults)
    return made


def definition(text):
    """The tree of a function's code, whose lines may stand further right."""
    try:
        return ast.parse(text).body[0]
    except IndentationError:
        raise Unlike("the code can't be read by itself") from None


def parsed(text):
    """The code of a cell, and that of its last expression where it ends with one."""
    try:
        tree = ast.parse(text)
        if has_foreign_names(tree):
            raise Unlike("a name isn't ASCII")
        last = tree.body.pop() if tree.body and isinstance(tree.body[-1], ast.Expr) else None
        code = compile(tree, "cell", "exec")
        note_functions(text, tree, code)
        return code, last and compile(ast.Expression(last.value), "cell", "eval")
    except (SyntaxError, ValueError) as error:
        raise Unlike(str(error)) from None


@contextlib.contextmanager
def in_time():
    def late(*_):
        raise Late
    before = signal.signal(signal.SIGALRM, late)
    signal.setitimer(signal.ITIMER_REAL, SECONDS, 0.5)
    try:
        yield
    except (Late, MemoryError):
        raise Unlike("it takes too much") from None
    finally:
        signal.setitimer(signal.ITIMER_REAL, 0)
        signal.signal(signal.SIGALRM, before)


def named_at(code):
    """The name that each instruction of some code looks up, binds or unbinds in the namespace, by the instruction's place."""
    found, wide = {}, []
    for instruction in dis.get_instructions(code):
        if instruction.opname == "EXTENDED_ARG":  # the instruction behind it is told at this place
            wide.append(instruction.offset)
            continue
        if instruction.opname in ACCESSES:
            found |= {place: instruction.argval for place in [*wide, instruction.offset]}
        wide = []
    return found


@contextlib.contextmanager
def watched(space, accessed):
    """Adds the names that code looks up, binds or unbinds in a namespace, a miss too, where these are asked for."""
    names = {}

    def note(frame, event, _):
        if frame.f_globals is not space:
            return None
        frame.f_trace_opcodes = True
        if event == "opcode":
            code = frame.f_code
            if code not in names:
                names[code] = named_at(code)
            if frame.f_lasti in names[code]:
                accessed.add(names[code][frame.f_lasti])
        return note

    if accessed is None:
        yield
        return
    before = sys.gettrace()
    sys.settrace(note)
    try:
        yield
    finally:
        sys.settrace(before)


def run(text, space, accessed=None):
    """Runs a cell in a namespace: its outcome, what it printed, the shown value or None, and the class and text of a fault or None. The
    names that it accesses are added to a set, where one is handed in."""
    if text in WRONG:
        return "error", "", None, ("SyntaxError", f"invalid syntax, line {WRONG[text]}")
    if text in SPENT:
        with watched(space, accessed):
            exec(SPENT[text], space)
        return "stopped", "", None, ("Stopped", "step budget spent")
    printed, shown, fault = io.StringIO(), None, None
    with warnings.catch_warnings():
        warnings.simplefilter("ignore")
        code, last = parsed(text)
    with in_time(), contextlib.redirect_stdout(printed), watched(space, accessed):
        try:
            exec(code, space)
            value = eval(last, space) if last else None
            shown = None if value is None else plain(repr(value))
        except Exception as error:
            fault = type(error).__name__, text_of(error)
    return ("ok" if fault is None else "error"), plain(printed.getvalue()), shown, fault


def outputs_of(printed, shown, fault, count):
    """The outputs of a cell in a notebook."""
    outputs = []
    if printed:
        outputs.append({"name": "stdout", "output_type": "stream", "text": printed})
    if shown is not None:
        outputs.append({"data": {"text/plain": shown}, "execution_count": count, "metadata": {}, "output_type": "execute_result"})
    if fault is not None:
        name, text = fault
        outputs.append({"ename": name, "evalue": text, "output_type": "error", "traceback": [f"{name}: {text}"]})
    return outputs


def is_release():
    """Whether this is a release of Python whose texts are known here."""
    return sys.version_info[:2] == (3, 11)
