"""Random texts of cells for play.py, by the forms of cell_forms.py and expressions.py on the names that are live."""
import re

from cell_forms import ALTERS, DELETES, FUNCTIONS, HIDDEN, KEYS, LEAVES, MAKES, NAMES, PLAIN, RAISES, READ, SPENDS, UNREAD
from cells import run_cell
from expressions import Expressions
from states import copy_state
from values import STEPS, Function, Raised, Thing, Tup, run

TOKENS = [
    "", "", "(", ")", "[", "]", ",", ":", "=", " ", "\n", "    ", "x", "1", "'", "\\", ";", ".", "not ", "#", "if", "-", "**", "é", "$",
    "\t", "else:", "\r", "def ", "'''", "0x", "in", "%", "==",
]
CHANGED = 0.02  # how many cells have other characters or tokens,
TIGHT = 0.02  # and how many are made to spend their steps near their end
WRAPS = [
    "({})", "[{}]", "-{}", "not {}", "2 ** {}", "max({}, 0)", "0 if not n else {}", "{{1: {}}}", "({},)", "SimpleNamespace(a={})",
    "f(n - 1) and {}",
]
SHOWS = [
    "t = repr(x); len(t)", "t = str([x]); len(t)", "x == y", "[x] == [y]", "x < y", "[x, 1] < [y, 2]", "print(x == y, [x] != [y])",
    "y in [x]", "x",
]
TRIES = ["{}", "print(1)\n{}", "try: {}\nexcept RecursionError as e: print(e)"]


def names_by_marks():
    """The live names by the marks that stand for them."""
    kinds = {mark: [] for mark in "xLTDOFE"}
    for name, value in run.names.items():
        if len(name) <= 20 and name not in HIDDEN:
            kinds["x"].append(name)
            for mark, made in (("L", list), ("T", Tup), ("D", dict), ("O", Thing), ("F", Function), ("E", Raised)):
                if isinstance(value, made):
                    kinds[mark].append(name)
    return kinds


def fill(rng, table):
    """A form of a table with its marks filled, mostly one for whose marks there are names."""
    kinds = names_by_marks()
    form = rng.choice(table)
    for _ in range(20 if rng.random() < 0.95 else 0):
        if all(kinds[mark] for mark in re.findall("<([xLTDOFE])>", form)):
            break
        form = rng.choice(table)

    def filled(match):
        mark = match.group(1)
        free = {"N": NAMES, "f": FUNCTIONS, "i": PLAIN, "k": KEYS}
        if mark in free:
            return rng.choice(free[mark])
        if kinds[mark] and rng.random() < 0.98:
            return rng.choice(kinds[mark])
        return rng.choice(kinds["x"] or NAMES)

    return re.sub("<([xNLTDOFEifk])>", filled, form)


def changed_text(rng, text):
    """A text in which some tokens are others."""
    for _ in range(rng.choice([1, 1, 2])):
        tokens = re.findall(r"\w+|\s|.", text, re.DOTALL)
        place = rng.randint(0, len(tokens))
        tokens[place : place + rng.randint(0, 1)] = [rng.choice(TOKENS + tokens)]
        text = "".join(tokens)
    return text


def tight_text(rng, text):
    """A text before which just so many steps are spent that its last ones are the last of the budget, or the first past it."""
    names = run.names
    run.names = copy_state(names)
    run_cell(text)
    run.names, taken = names, run.steps
    spent = STEPS - taken - 4 + rng.choice([0, 0, 0, 1, 1, 1, 2, 3, rng.randint(0, taken)])
    return f"'a' * {spent}\n{text}" if 0 <= spent else text


def deep_text(rng):
    """A text whose run comes near to the limit of depth."""
    return deep_nodes(rng) if rng.random() < 0.4 else deep_calls(rng)


def deep_nodes(rng):
    """Nodes in one another, which are shown or compared."""
    nodes = rng.choice(["[{}]", "({},)", "{{1: {}}}", "SimpleNamespace(a={})", "ValueError({})"])
    makes = f"    x = {nodes.format('x')}\n    y = {nodes.format('y')}"
    return f"x = []\ny = []\nfor v in range({1000 + rng.randint(-8, 3)}):\n{makes}\n{rng.choice(SHOWS)}"


def deep_calls(rng):
    """A function that calls itself."""
    call = "f(n - 1)"
    for _ in range(rng.randint(0, 4)):
        call = rng.choice(WRAPS).format(call) if rng.random() < 0.9 else "(" * 7 + call + ")" * 7
    blocks, brackets = rng.randint(0, 3), rng.randint(0, 2)
    lines = ["    " * (level + 1) + "if n:" for level in range(blocks)] + ["    " * (blocks + 1) + f"return n and {call}"]
    near = 1000 // rng.randint(2, 5 + blocks + brackets) + rng.randint(-4, 4)
    used = "(" * brackets + f"f({near})" + ")" * brackets
    return "def f(n):\n" + "\n".join(lines) + "\n" + rng.choice(TRIES).format(used)


def cell_text(rng):
    """The text of a random cell."""
    chance = rng.random()
    if chance < CHANGED:
        return changed_text(rng, made_text(rng))
    return tight_text(rng, made_text(rng)) if chance < CHANGED + TIGHT else made_text(rng)


def made_text(rng):
    """The text of a cell of some forms."""
    chance = rng.random()
    if chance < 0.03:
        lines = [fill(rng, MAKES) for _ in range(rng.randint(0, 2))]
        lines.insert(rng.randint(0, len(lines)), rng.choice(UNREAD))
        return "\n".join(lines)
    if chance < 0.05:
        return rng.choice(READ)
    if chance < 0.055:
        return fill(rng, SPENDS)
    if chance < 0.06:
        return deep_text(rng)
    if chance < 0.2:
        return Expressions(rng).text()
    if len(run.names) < 4 and chance < 0.8:
        tables, count = [MAKES], rng.randint(2, 6)
    else:
        tables, count = [MAKES, MAKES, ALTERS, ALTERS, ALTERS, ALTERS, LEAVES, LEAVES], rng.choice([1, 1, 1, 1, 2, 2, 3, 5])
    lines = [fill(rng, rng.choice(tables)) for _ in range(count)]
    if rng.random() < 0.15:
        lines[-1] = fill(rng, rng.choice([DELETES, RAISES]))
    return rng.choice(["\n", "\n", "\n", "\n", "\r\n", "\r"]).join(lines)
