"""Random sessions for play.py, as steps of steps.py."""
import random

from cell_texts import cell_text
from line_forms import BAD_BRANCHES, BRANCHES, changed_line, reference, request_line
from lines import line_of
from machine import LONGEST_CELL
from notebook_forms import notebook_bytes
from notebooks import LONGEST
from steps import LONGEST_LINE, Script
from values import run

HEADS = [b"", b"", b"", b"", b"\x00", b"KISHU-JOURNAL-1\n\x00", b"KISHU-JOURNAL-1\n\xa5", b"junk", b"0123456789abcdefg", b"KISHU"]
BAD_WORDS = [[]] + [words.split(" ") for words in (
    "STORE|--together| status|STORE nope|STORE |STORE cell x|STORE log 1|STORE branch|STORE branch a 0 b|"
    "STORE checkout|STORE checkout 0 0|STORE gen|STORE gen 1|STORE gen 01 2|STORE gen 1 100001|"
    "STORE gen 2147483648 1|STORE gen -1 1|STORE gen 1 +1|STORE gen 1 2 3|STORE session x|STORE Session|"
    "STORE status |STORE status --together|STORE session --together|--together STORE run --together|STORE run x|"
    "STORE --help|-h|STORE status --|--version|STORE plan 0|STORE stored 0|STORE cells|STORE help|help|"
    "STORE run --together=1|STORE checkout -"
).split("|")]
STATUS = b'{"op":"status"}\n'
LARGE_CELLS = [
    "z = ['a' * 1000000] * 269", "x = 'é' * 1000000; z = [[x] * 67, [x] * 68]", "z = SimpleNamespace(a=['a' * 500000] * 600)\nz.me = z",
    "x = 'b' * 2000000\nz = {1: x}; y = (z, [x] * 150)", "z = ['a' * 1000000] * 268\ny = 'a' * 434082; x = 0; del x",
    "x = [0]\nprint('told')\nz = ['a' * 1000000] * 300; 1 // 0",
]


def words_of(rng, model):
    """The words of a run and its input."""
    run.names = model.live
    chance = rng.random()
    if chance < 0.2:
        data = cell_text(rng).encode()
        return ["STORE", "cell"], rng.choice([data, data, data, data + b"\xff", b"", data + b"\n"])
    if chance < 0.3:
        return ["STORE", "checkout", reference(rng, model)], b""
    if chance < 0.4:
        name = rng.choice(BRANCHES + BAD_BRANCHES).replace("\0", "0")
        return ["STORE", "branch", name] + [reference(rng, model)] * rng.randint(0, 1), b""
    if chance < 0.48:
        start = rng.choice([0, 1, 7, 2**31 - 1, rng.randrange(2**31)])
        return ["STORE", "gen", str(start), str(rng.choice([0, 1, 5, 10, 11, 30]))], b""
    if chance < 0.55:
        lines = [request_line(rng, model) for _ in range(rng.randint(0, 3))]
        return ["STORE", "session"], b"\n".join(lines) + rng.choice([b"", b"\n", b"\n\n"])
    if chance < 0.82:
        words = rng.choice(["STORE run", "STORE run", "STORE run --together", "STORE --together run", "--together STORE run"])
        return words.split(), notebook_bytes(rng)
    if chance < 0.89:
        return rng.choice(BAD_WORDS), b""
    return ["STORE", rng.choice(["log", "status", "inspect"])], rng.choice([b"", b"unread"])


def words_step(rng, model):
    """A run of its own, mostly with an output and an input that go well."""
    words, data = words_of(rng, model)
    chance = rng.random()
    if chance < 0.04:
        return "muted", words, data
    if chance < 0.07:
        return "deaf", words
    return ("nowhere" if chance < 0.09 else "words"), words, data


def large_line(rng):
    """A line at or past a limit."""
    if rng.random() < 0.4:
        texts = [rng.choice(LARGE_CELLS)]
        if rng.random() < 0.4:
            texts = ["a = [1]; b = a"] * rng.randint(0, 2) + texts + ["b = 1"]
        alone = len(texts) == 1 and rng.random() < 0.7
        return line_of({"op": "cell", "text": texts[0]} if alone else {"op": "cells", "texts": texts})[:-1]
    text = long_text(rng)
    texts = rng.choice([[text], ["a = 1", text], ["1 // 0", text]])
    return line_of({"op": "cells", "texts": texts} if len(texts) > 1 else {"op": "cell", "text": text})[:-1]


def long_text(rng):
    """The text of a cell of about the greatest length."""
    return "#" + "é" * ((LONGEST_CELL - 1) // 2) + "a" * rng.choice([0, 1, 1, 2, 3])


def long_words(rng):
    """A run whose input is at or past a limit."""
    chance = rng.random()
    if chance < 0.4:
        return "words", ["STORE", "cell"], long_text(rng).encode()
    if chance < 0.6:
        notebook = notebook_bytes(rng)
        return "words", ["STORE", "run"], notebook + b" " * (LONGEST - len(notebook) - rng.randint(0, 2))
    line = b'{"op":"cell","text":"long = 1"}'
    line += b" " * (LONGEST_LINE - len(line) - rng.choice([0, 0, 1, 1, 2]))
    lines = [b'{"op":"cell","text":"before = 1"}', line, b'{"op":"cell","text":"after = 1"}']
    return "words", ["STORE", "session"], b"\n".join(lines) + rng.choice([b"", b"\n"])


def harmed_step(rng, model):
    """A file that is none, or damaged, or cut off, and what is told of it."""
    file = model.file
    data = bytearray(file.data)
    chance = rng.random()
    if chance < 0.25 and any(commit.table for commit in model.commits):
        return spoilt_step(rng, model)
    if not file.gates or chance < 0.35:
        data += bytes(2)
        data[rng.randrange(16)] ^= rng.randint(1, 255)
        return "harmed", bytes(data), STATUS, b"", b"not a journal\n"
    gate = rng.choice(file.gates[-3:])
    if chance < 0.65:
        following = [other for other in file.gates + [file.end] if other > gate][0]
        del data[rng.randint(gate + 1, following) :]
        if len(data) <= 17:
            data += b"\x00"
    else:
        places = {"length": gate + 1 + rng.randrange(8), "head": gate + 9 + rng.randrange(4), "kind": gate + 13, "profile": gate + 18}
        place = places[rng.choice(["length", "head", "kind"] + ["profile"] * (data[gate + 13] == 1))]
        data[place] ^= 4 if place == gate + 13 else rng.randint(1, 255)
    return "harmed", bytes(data), STATUS, b"", b"damaged at %d\n" % gate


def spoilt_step(rng, model):
    """A file in which a picture is none: it is told where the picture is to be loaded, at opening or by a checkout."""
    data = bytearray(model.file.data)
    number = rng.choice([number for number, commit in enumerate(model.commits) if commit.table])
    group = rng.choice(list(model.commits[number].table))
    place = model.place_of(number, group)
    data[place] = 0xFF
    opened = model.commits[model.at].table.get(group) == model.commits[number].table[group]
    lines = STATUS + b'{"op":"checkout","to":"%d"}\n' % number + STATUS
    told = b"" if opened else model.answer(STATUS[:-1])
    return "harmed", bytes(data), lines, told, b"damaged at %d\n" % place


def junk_of(rng, model):
    """What a stop may leave behind the closed gate: anything, or the begin of a record."""
    data = model.file.data
    if model.file.gates and rng.random() < 0.5:
        gate = rng.choice(model.file.gates)
        return bytes(data[gate + 1 : gate + 1 + rng.choice([1, 7, 8, 9, 30, 10000])])
    return rng.randbytes(rng.choice([1, 8, 9, 100, 3000]))


def between_runs(rng, script):
    """Runs by words, and what is done to the file."""
    for _ in range(rng.choice([0, 0, 0, 1, 2])):
        script.take(words_step(rng, script.model))
    chance = rng.random()
    file = script.model.file
    if file.end == 0:
        return
    if chance < 0.1:
        script.take(("junk", junk_of(rng, script.model)))
    elif chance < 0.18:
        records = max(file.earlier, file.records - rng.choice([0, 1, 1, 2, 3])) - file.earlier
        script.take(("shut", records, rng.choice([0, 0, 1, 0xFF, 0xA4, ord("a")])))
    elif chance < 0.30:
        script.take(harmed_step(rng, script.model))
    elif chance < 0.31 and not file.earlier:
        script.take(("cut", bytes(file.data[: rng.choice([0, 1, 15, 16, 17])])))


def make_script(seed):
    """A random session: one in a hundred comes to limits, one in four begins with a file that the model wrote, and one in
    five hundred with nearly as many records as a store has."""
    rng = random.Random(seed)
    script = Script(rng.choice(HEADS))
    kind = rng.random()
    large, odd, watched = kind < 0.01, 0.25 <= kind < 0.27, 0.27 <= kind < 0.37
    given = rng.randint(1, 12) if 0.01 <= kind < 0.24 and not script.begun else 0
    if 0.24 <= kind < 0.242:
        script.take(("full", 1_000_000 - rng.choice([1, 2, 3, 5, 8])))
    for number in range(rng.choice([5, 10, 15, 20, 30, 40, 60])):
        if odd or (large and rng.random() < 0.1):
            script.take(("line", changed_line(rng) if odd else large_line(rng)))
        else:
            script.take(("line", request_line(rng, script.model)))
        if given:
            if number + 1 == given:
                texts = [cell_text(rng) for _ in range(3)]
                script.take(("given",) if kind < 0.12 else ("rewritten", rng.choice(["older", "joined", "joined", "altered"]), texts))
                given = 0
            continue
        chance = rng.random()
        if chance < 0.05 or watched:
            script.take(("compare",))
        if 0.05 <= chance < 0.11:
            script.take(("end",) if chance < 0.09 else ("kill",))
            between_runs(rng, script)
        elif 0.11 <= chance < 0.115:
            script.take(("second",))
    script.take(("end",))
    if rng.random() < 0.3:
        script.take(words_step(rng, script.model))
    if large and rng.random() < 0.5:
        script.take(long_words(rng))
    return script
