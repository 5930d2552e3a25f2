"""Makes random cases for sessions.py: runs on one store, with request lines and notebooks of which the most are good, and harm to the
file between."""
import dataclasses
import json
import re

import group_rules
import python_cells
import session_rules
from agree_programs import Maker
from agree_forms import POOLS
from session_rules import TOGETHER
from store_rules import CLOSED, HEADER, OPEN, Damaged, NotAJournal, opened

STORE = "store"

# Cells about what names share. `#` is a small number.
SHARED = [
    "one = [#]; two = one", "two.append(#)", "print(one, two, one is two)", "one is two", "one = one[:]", "one, two = two, one",
    "ring = [#]; ring.append(ring)", "print(ring, ring[1] is ring)", "box = {'k': one, 'n': two}", "box['k'].append(#)",
    "print(box, box['k'] is one, box['k'] is box['n'])", "def tally(x, seen=[]): seen.append(x); return seen", "last = tally(#)",
    "print(tally(#) is last, last)", "def grow(): one.append(#)", "grow(); print(one)", "def fresh(x, d={}):\n    d[x] = one\n    return d",
    "got = fresh(#)\nprint(got is fresh(#), got)", "try: raise ValueError([#], one)\nexcept ValueError as e: kept = e",
    "print(kept, kept.args[1] is one)", "raise kept", "spot = SimpleNamespace(at=one, up=None); spot.up = spot",
    "print(spot, spot.up is spot, spot.at is one)", "spot.at += [#]", "pair = (one, two)", "print(pair, pair[0] is pair[1])", "del one",
    "del two, ring", "one += [two]; print(one[-1] is two)", "total = 0", "total += #", "total", "one", "spot", "tally", "last[0]",
    "def reset():\n    global one\n    one = []\n    return one", "print(reset() is one, two)", "from types import SimpleNamespace",
    "SimpleNamespace", "len = #", "del len", "print(len)", "one = two = []", "for i in range(#): one.append(i)", "one[#]", "one[#] = two",
    "box.pop('k') is one", "shown = repr(box)", "print('first'); 1 // 0; print('never')", "raise KeyError('!gone', #)", "missing",
    "print('\u00e9\U0001f600', end='')", "", "# note", "pass", "print()", "\n\n", "one = [\n    #,\n]\nprint(one)\r\nprint(2)",
    "print(1)\rprint(2)", "'a' * # # " + "\u00e9" * 70, "print('\\x00\\x01\\x7f\\t\"\\\\')",
]
# Cells about groups of many names that join, split, change back and go. A, B and C are names, F is a function's, `#` a small number.
GROUPED = [
    "A = [#]", "A = [#]", "A = [#, [#]]", "A = #", "A = '#'", "A = B = [#]", "A = [B]", "A = [B, C]", "A = (B, C)", "A = B", "A, B = B, A", "A = B, C = [#], [#]",
    "A = {'k': B, #: [#]}", "A['k'] = B", "A.pop('k')", "A = SimpleNamespace(left=B, right=None)", "A.left = B", "A.left = None", "A.right = [A]",
    "A.append(#)", "A.append(B)", "A.pop()", "A.append(#); A.pop()", "A[0] = A[0]", "A[0] = #", "A[0] = B", "A[0] = 1 - A[0]", "A += [#]", "A = A[:]", "A.clear()",
    "A = A", "A", "A is B", "print(A, B)", "print(A is B, len(C))", "A == B", "A[0] is B[0]", "if A == B: A = B", "A = [B, B]; A.pop()", "repr(A)", "len(A); B.append(#)",
    "for A in [B, C]: pass", "for A in B: pass", "A = [#] + B", "A = B * 2", "A = [[#]] * 2", "A = list(B)", "A = dict(B)", "A = [A]",
    "del A", "del A, B", "del A[0]", "try: raise ValueError(B)\nexcept ValueError as A: pass", "try: raise ValueError([#], B)\nexcept ValueError as A: C = A",
    "try: raise IndexError(B, #)\nexcept IndexError as A: C = [A]", "try: A.nothing\nexcept AttributeError: B = [#]", "A = [#]; 1 // 0; B = [#]", "A.append(#); A.nothing",
    "def F(): A.append(#)", "def F(x=A): x.append(#); return x", "def F(x, seen=[]): seen.append(x); return seen", "def F():\n    global A\n    A = [B]\n    return A",
    "def F():\n    global A\n    del A", "def F(x):\n    global A\n    A = x", "def F(): return A", "def F(): return [A, B]", "def F(x): return x",
    "F()", "F()", "A = F()", "F(A)", "A = F(B)", "A = F", "A = [F]", "del F", "F(B); F(C)", "try: F(A, B, C)\nexcept TypeError as A: pass",
    "A = B = C = []", "A = []; B = [A]; C = [B]", "A = [#]; B = [#]; C = [A, B]", "C = 0", "A = B = 0", "from types import SimpleNamespace", "len = A", "del len",
]
# CPython cuts a name in the text of a NameError to 200 characters, so none is longer.
GROUP_NAMES = [f"p{number}" for number in range(7)] + ["P", "_q", "q" * 200]
FUNCTION_NAMES = ["f0", "f1", "f2"]
NAMES = ["try", "back", "b-1", "_x", "B", "a" * 64]
BAD_NAMES = ["", "9", "007", "-a", "a b", "a.b", "\u00e9", "main\n", "a" * 65, "x\u0000"]
BAD_REFERENCES = ["007", "00", "01", "999", "", "-1", "+1", "1 ", " 1", "nope", "Main", "4294967296", "99999999999999999999", "\u0661", "0x1", "1_0"]
WORDS = [
    [], [STORE], [STORE, "fly"], [STORE, "log", "x"], [STORE, "session", "x"], [STORE, "checkout"], [STORE, "branch"], ["log"], [STORE, ""],
    [STORE, "checkout", "1", "2"], [STORE, "branch", "a", "main", "x"], ["-x", STORE, "log"], [STORE, "log", ""], [STORE, "status", "--together"],
    [STORE, "run", "x"], [STORE, "run", "--together", "--together"], ["--together", "run"], [STORE, "cell", "--together"], [STORE, "--togethe", "run"],
    [STORE, "run", "--together=true"], [STORE, "--together"], [STORE, "run", "--"], ["--together"],
    [STORE, "gen"], [STORE, "gen", "7"], [STORE, "gen", "7", "1", "x"], [STORE, "gen", "07", "1"], [STORE, "gen", "7", "01"], [STORE, "gen", "+7", "1"],
    [STORE, "gen", "2147483648", "1"], [STORE, "gen", "7", "100001"], [STORE, "gen", "7", "18446744073709551617"], [STORE, "gen", "0x7", "1"],
    [STORE, "gen", "7", "1", "--together"], [STORE, "gen", "\u0667", "1"], [STORE, "gen", "7", ""],
    ["", "log"], [STORE, "checkout", "-1"], [STORE, "branch", "-a"], [STORE, "branch", "a", ""], [STORE, "Log"], ["--", STORE, "log"],
]
BAD_LINES = [
    b"", b" ", b"{}", b"[]", b"null", b'"log"', b"log", b'{"op":"fly"}', b'{"op":"Log"}', b'{"op":""}', b'{"op":"log"',
    b'{"op":"log"}}', b'{"op":"log","x":1}', b'{"op":"status","to":"0"}', b'{"op":"cell"}', b'{"op":"cell","text":1}',
    b'{"op":"cell","text":["a"]}', b'{"op":"cells","texts":[]}', b'{"op":"cells","texts":"a"}', b'{"op":"cells","text":["a"]}',
    b'{"op":"cells"}', b'{"op":"cells","texts":["a",1]}', b'{"op":"cells","texts":[["a"]]}', b'{"op":"cells","texts":["a","\\ud800"]}',
    b'{"op":"cells","texts":["a"],"text":"a"}', b'{"op":"cell","texts":["a"]}', b'{"op":"cells","texts":{"0":"a"}}', b'{"op":"cells","texts":null}',
    b'{"op":"cell","text":null}', b'{"op":"checkout"}', b'{"op":"checkout","to":0}',
    b'{"op":"checkout","to":"0","at":"0"}', b'{"op":"branch"}', b'{"op":"branch","at":"0"}',
    b'{"op":"branch","name":"a","at":null}', b'{"op":"branch","name":true}', b'{"op":["log"]}', b'{"Op":"log"}',
    b"{'op':'log'}", b'{"op":"log",}', b'{op:"log"}', b'\xef\xbb\xbf{"op":"log"}', b'{"op":"log"}\x00', b'{"op":"l\\og"}',
    b'{"op":"cell","text":"\\ud800"}', b'{"op":"cell","text":"\\udc00\\ud800"}', b'{"op":"cell","text":"\xff"}',
    b'{"op":"cell","text":"\xed\xa0\x80"}', b"\xff", b'{"op":"cell","text":"\t"}', b'{"op":"cell","text":"a\x01"}',
    b'{"op":"cell","text":"\\u12"}', b'{"op":"log","op":1}', b'{"op":"log","x":' + b"[" * 127 + b"]" * 127 + b"}", b"[" * 200,
    b'{"op":"stored"}', b'{"op":"stored","of":1}', b'{"op":"stored","to":"1"}', b'{"op":"stored","of":"1","to":"1"}', b'{"op":"stored","of":["1"]}',
    b'{"op":"plan"}', b'{"op":"plan","to":1}', b'{"op":"plan","of":"1"}', b'{"op":"plan","to":"1","of":"1"}', b'{"op":"plan","to":["1"]}', b'{"op":"plan","to":null}',
    b'{"op":"log"}{"op":"log"}', b'{"op":"checkout","to":"0","to":0}', b'{"op":"log" "x":1}', b'// {"op":"log"}',
    b'{"op":"cell","text":"\\x41"}',
]
# Good lines, oddly written.
ODD_LINES = [
    b' { "op" : "log" } ', b'\t{"op"\r:"status"}\r', b'{"\\u006fp":"l\\u006fg"}', b'{"op":1,"op":"status"}', b'{"op":"status","op":"log"}',
    b'{"op":' + b"[" * 126 + b"]" * 126 + b',"op":"status"}', b'{"op":"fly","op":"log"}',
    b'{"of":"0", "op" :"stored"}', b'{"of":1,"op":"stored","of":"m\\u0061in"}',
    b'\t{"to" :"0", "op":"plan"}', b'{"to":"1","op":"checkout","op":"plan","to":"m\\u0061in"}',
    b'{"texts":1,"op":"cells","texts":["","#"]}', b'{"to":"0","to":"main","op":"checkout"}', b'{"at":"0","op":"branch","name":"\\u0074ry"}',
]


@dataclasses.dataclass
class Run:
    """A run of the program on the store. Its input is there from the start, or typed: a line once the one before is answered."""

    words: list
    data: bytes
    typed: bool = False


@dataclasses.dataclass
class Harm:
    """A change of the file: `cut` at a place, `set` a place to a byte, `out` one byte, or `gate`: the gate at the end is opened."""

    kind: str
    place: int = 0
    byte: int = 0

    def done(self, file):
        if self.kind == "gate":
            return gate_opened(file)
        at = self.place % max(1, len(file))
        if self.kind == "cut":
            return file[:at]
        return file[:at] + (bytes([self.byte]) if self.kind == "set" else b"") + file[at + 1 :]


def gate_opened(file):
    """The file with the gate opened at which its records end."""
    try:
        _, at, _ = opened(file)
    except (NotAJournal, Damaged):
        return file
    return file[:at] + OPEN + file[at + 1 :]


@dataclasses.dataclass
class Case:
    """A file to begin with, what is done then, and the texts of cells that are known to be meant alike."""

    file: bytes | None
    steps: list
    known: set


# ---- cells

FITS = {
    "int": lambda v: type(v) is int and abs(v) < 10**6, "bool": lambda v: type(v) is bool, "str": lambda v: type(v) is str and len(v) < 50,
    "li": lambda v: type(v) is list and len(v) < 50 and all(type(part) in (int, bool) for part in v),
    "ws": lambda v: type(v) is list and len(v) < 50 and all(type(part) is str for part in v),
    "rows": lambda v: type(v) is list and len(v) < 50 and all(FITS["li"](part) for part in v), "mx": lambda v: type(v) is list and len(v) < 50,
    "tu": lambda v: type(v) is tuple and len(v) < 50, "rg": lambda v: type(v) is range,
    "ds": lambda v: type(v) is dict and all(type(key) is str and type(part) is int for key, part in v.items()),
    "di": lambda v: type(v) is dict and all(type(part) is str for part in v.values()),
    "dl": lambda v: type(v) is dict and all(type(key) is str and FITS["li"](part) for key, part in v.items()),
    "ns": lambda v: all(name in vars(v) for name in "nsc") if type(v).__name__ == "SimpleNamespace" else False, "any": lambda v: True,
}


class CellMaker(Maker):
    """Makes cells for the state that there is."""

    def meet(self, space, functions):
        """Takes the names of a state with their types, and the functions that are bound there."""
        self.lines, self.pad, self.inner, self.loops, self.still, self.deep = [], 0, None, 0, 0, 0
        self.scope = {name: kind for kind, pool in POOLS.items() for name in pool.split() if name in space and FITS[kind](space[name])}
        self.functions = {name: kind for name, kind in functions.items() if callable(space.get(name))}
        self.names = [*self.scope, *self.functions]
        self.see = callable(space.get("see"))
        self.risk = 0.03

    def cell(self):
        if not self.see and self.chance(0.05):
            self.out("def see(x):\n    print('>', x)\n    return x")
        for _ in range(self.pick(1, 1, 1, 2, 3)):
            self.statement()
        if self.chance(0.3):
            self.out(self.expression("any").text)
        text = self.laid_out()
        return text if self.chance(0.5) else text.rstrip("\n")


# ---- cases


class Player:
    """Makes a case, and knows by the rules what each step gives."""

    def __init__(self, seed, size):
        self.maker = CellMaker(seed)
        self.random = self.maker.random
        self.size = size
        self.functions = {}  # of each commit
        self.grouped = self.pick(0.1, 0.3, 0.8)  # the share of cells that are about groups
        self.case = Case(self.first_file(), [], {"", "#"})
        self.file = self.case.file

    def chance(self, share):
        return self.random.random() < share

    def pick(self, *choices):
        return self.random.choice(choices)

    def first_file(self):
        if self.chance(0.85):
            return None
        return self.pick(b"", b"x" * 17, b"x" * 18, HEADER, HEADER + CLOSED, HEADER + b"<", HEADER + OPEN, HEADER[:9], HEADER + CLOSED + b"\xa5" * 30)

    def made(self):
        """The case: some runs, and at the end perhaps harm and a run or two on what it left."""
        for _ in range(self.pick(1, 1, 2, 3, 4)):
            self.run()
        if self.chance(0.4):
            for _ in range(self.pick(1, 1, 1, 2)):
                self.harm()
            self.after_harm()
        return self.case

    def step(self, step):
        self.case.steps.append(step)
        if isinstance(step, Harm):
            self.file = step.done(self.file) if self.file is not None else None
        else:
            self.file = session_rules.expected(step.words, step.data, self.file, self.case.known)[3]

    def session(self):
        """The session that a run would begin with, or None."""
        try:
            return session_rules.Session(self.file, self.case.known)
        except (NotAJournal, Damaged):
            return None

    def run(self):
        chance, session = self.random.random(), self.session()
        if session is None or chance < 0.05:
            return self.step(Run(self.pick(*WORDS), b"print(1)")) if session else self.step(Run([STORE, "status"], b""))
        if chance < 0.65:
            return self.step(Run([STORE, "session"], self.input_of(session)))
        if chance < 0.77:
            return self.step(Run(self.shuffled([STORE, "run", *self.pick([], [TOGETHER])]), self.notebook(session)))
        if chance < 0.84:
            data = self.cell(session).encode() if self.chance(0.95) else self.pick(b"\xff", b"print(1)\xc3")
            return self.step(Run([STORE, "cell"], data))
        name, reference = self.name(session), self.reference(session)
        words = self.pick(["log"], ["status"], ["checkout", reference], ["branch", name], ["branch", name, reference])
        if not any("\0" in word for word in words):
            self.step(Run([STORE, *words], self.pick(b"", b"print(1)\n")))

    def input_of(self, session):
        """The lines of a session, each made for the state behind the one before."""
        lines = []
        for _ in range(self.random.randint(1, self.size)):
            line = self.line(session)
            session.answer(session_rules.request_of(line))
            lines.append(line)
        data = b"".join(line + b"\n" for line in lines)
        return data[:-1] if self.chance(0.2) else data

    def line(self, session):
        chance = self.random.random()
        if chance < 0.05:
            return self.pick(*BAD_LINES)
        if chance < 0.07:
            return self.pick(*ODD_LINES)
        if chance < 0.10:
            return self.written({"op": "log"})
        if chance < 0.16:
            return self.written({"op": "status"})
        if chance < 0.19:
            return self.written({"op": "inspect"})
        if chance < 0.26:
            return self.written({"op": "stored", "of": self.reference(session)})
        if chance < 0.32:
            return self.written({"op": "plan", "to": self.reference(session)})
        chance = (chance - 0.32) * 0.83 / 0.68 + 0.17
        if chance < 0.28:
            return self.written({"op": "checkout", "to": self.reference(session)})
        if chance < 0.34:
            return self.written({"op": "branch", "name": self.name(session)} | ({"at": self.reference(session)} if self.chance(0.5) else {}))
        if chance < 0.44:
            return self.written({"op": "cells", "texts": self.cells(session)})
        return self.written({"op": "cell", "text": self.cell(session)})

    def written(self, request):
        """A request's line."""
        keys = list(request)
        self.random.shuffle(keys)
        separators = self.pick((",", ":"), (",", ":"), (", ", ": "), (" ,\t", " :\r"))
        return json.dumps({key: request[key] for key in keys}, ensure_ascii=self.chance(0.3), separators=separators).encode()

    def reference(self, session):
        if self.chance(0.07):
            return self.pick(*BAD_REFERENCES)
        newest = len(session.graph.parents) - 1
        number = self.pick(0, newest, self.random.randint(0, newest), self.random.randint(0, newest + 1))
        return self.pick(str(number), str(number), "main", *session.graph.branches)

    def name(self, session):
        return self.pick(*BAD_NAMES) if self.chance(0.1) else self.pick(*NAMES, *NAMES, "main", *session.graph.branches)

    def cell(self, session):
        """A cell whose meaning is known at the session's head."""
        graph = session.graph
        while True:
            trial = session_rules.Session(session.file)
            text = self.some_cell(trial.space, self.functions.get(graph.commit, {}))
            try:
                fault = trial.run(text, trial.space)[3]
                group_rules.groups(trial.space)
            except python_cells.Unlike:
                continue
            if fault is not None and fault[0] == "NameError" and self.chance(0.8):
                continue
            self.case.known.add(text)
            self.functions[len(graph.parents)] = dict(self.maker.functions)
            return text

    def cells(self, session):
        """Cells whose meaning is known one behind the other, and perhaps some behind one that isn't ok."""
        trial, texts = session_rules.Session(session.file, self.case.known), []
        for _ in range(self.pick(1, 2, 2, 3, 4)):
            texts.append(self.cell(trial))
            if trial.told({"op": "cell", "text": texts[-1]})["outcome"] != "ok" and self.chance(0.7):
                break
        self.functions[len(session.graph.parents)] = dict(self.maker.functions)
        return texts

    # notebooks

    def shuffled(self, words):
        """The words with the flag at any place."""
        plain = [word for word in words if word != TOGETHER]
        for _ in range(words.count(TOGETHER)):
            plain.insert(self.random.randrange(len(plain) + 1), TOGETHER)
        return plain

    def notebook(self, session):
        """The bytes of a notebook of known cells, or now and then what is none."""
        texts = self.cells(session) if self.chance(0.9) else []
        value = {"cells": [self.code_cell(text) for text in texts], "metadata": {}, "nbformat": 4, "nbformat_minor": 5}
        for _ in range(self.pick(0, 0, 1, 2)):
            other = {"cell_type": self.pick("markdown", "raw"), "metadata": {"a": [1, None]}, "source": self.source("# a title\nprint(1)")}
            value["cells"].insert(self.random.randrange(len(value["cells"]) + 1), other)
        for number, cell in enumerate(value["cells"]):
            cell["id"] = f"cell-{number}"
        if self.chance(0.15):
            self.spoil(value)
        data = json.dumps(value, ensure_ascii=self.chance(0.3), indent=self.pick(None, 1)).encode()
        return self.pick(data[:-1], b"", b"[]", data + b"{", b"\xff" + data) if self.chance(0.05) else data

    def source(self, text):
        return text.splitlines(keepends=True) if self.chance(0.7) else text

    def code_cell(self, text):
        old = self.pick([], [{"output_type": "display_data", "data": {"image/png": "iVBORw0KGgo="}, "metadata": {}}])
        return {"cell_type": "code", "execution_count": self.pick(None, 7), "metadata": {}, "outputs": old, "source": self.source(text)}

    def spoil(self, value):
        """Makes a fault in a notebook, if it can have it."""
        cell = self.pick(*value["cells"], {})
        self.pick(
            lambda: cell.pop("metadata", None), lambda: cell.pop("id", None), lambda: cell.update(id="cell-0"), lambda: cell.update(source=1),
            lambda: cell.update(id="a b"), lambda: cell.update(cell_type="other"), lambda: cell.update(execution_count=-1),
            lambda: cell.update(outputs=[{}]), lambda: value.update(nbformat_minor=4), lambda: value.update(nbformat=3),
            lambda: value.update(metadata=[]), lambda: value.update(cells={}), lambda: value["metadata"].update(a=self.pick(0.5, 2**64, -(2**63) - 1)),
            lambda: value.pop("nbformat_minor"),
        )()

    def some_cell(self, space, functions):
        if self.chance(self.grouped):
            return self.grouped_cell(space)
        self.maker.meet(space, functions)
        chance = self.random.random()
        if chance < 0.5:
            return self.pick(*SHARED).replace("#", str(self.random.randrange(4)), 1)
        if chance < 0.53:
            return self.pick(*python_cells.WRONG)
        if chance < 0.532:
            return self.pick(*python_cells.SPENT)
        return self.maker.cell()

    def grouped_cell(self, space):
        """A cell about groups, and now and then two."""
        names = {letter: self.pick(*self.bound_first(space, GROUP_NAMES)) for letter in "ABC"} | {"F": self.pick(*self.bound_first(space, FUNCTION_NAMES))}
        form = self.pick(*GROUPED) if self.chance(0.85) else "\n".join(self.pick(*GROUPED) for _ in range(self.pick(2, 3)))
        return re.sub(r"\b[ABCF]\b|#", lambda found: names.get(found.group()) or str(self.random.randrange(3)), form)

    def bound_first(self, space, names):
        """The names, those that are bound more often."""
        bound = [name for name in names if name in space]
        return [*names, *bound * (1 + 2 * len(names) // max(1, len(bound)))]

    # harm

    def harm(self):
        if not self.file:
            return
        length = len(self.file)
        near = self.random.randrange(self.pick(length, min(length, 60)))
        near = self.pick(near, near, max(0, length - 1 - self.random.randrange(40)))
        byte = self.pick(0, 1, 2, 3, 0xA5, 0xFF, self.random.randrange(256))
        harm = self.pick(Harm("cut", near), Harm("set", near, byte), Harm("set", near, byte), Harm("out", near), Harm("gate"), *self.old_gates())
        if self.is_known(harm.done(self.file)):
            self.step(harm)

    def is_known(self, file):
        """Whether what opening and checkouts make of a file is known: a function's code that no cell has may be one or none."""
        try:
            session = session_rules.Session(file)
        except python_cells.Unlike:
            return False
        except (NotAJournal, Damaged):
            return True
        return all(self.is_loaded(session, commit) for commit in range(len(session.graph.parents)))

    def is_loaded(self, session, commit):
        """Whether the state of a commit is known, or that it can't be loaded."""
        try:
            group_rules.groups(session.loaded(commit))
        except python_cells.Unlike:
            return False
        except Damaged:
            pass
        return True

    def old_gates(self):
        """Each open gate that could be closed, so that what stands behind it is written over, or set to another byte."""
        try:
            _, at, _ = opened(self.file)
        except (NotAJournal, Damaged):
            return []
        gates = [place for place in range(len(HEADER), at) if self.file[place : place + 1] == OPEN]
        return [Harm("set", self.pick(*gates), self.pick(0, 0x3C, 0xA4))] if gates else []

    def after_harm(self):
        if self.session() is None:
            self.step(Run([STORE, "log"], b""))
        elif self.chance(0.3):
            self.step(Run([STORE, self.pick("status", "inspect")], b""))
        else:
            self.run()
            if self.chance(0.5) and self.file and self.is_known(Harm("gate").done(self.file)):
                self.step(Harm("gate"))
                self.step(Run([STORE, "status"], b""))
