"""Random lines of input for play.py, good ones and such that are refused."""
import json

from cell_texts import cell_text
from values import run

REFERENCES = [
    "", "00", "01", "-1", "999", "none", "main ", "Main", "1.0", "99999999999999999999", "4294967296", "é", "+1", " 1", "0x1",
    "1_0",
]
BRANCHES = [
    "try", "b1", "_", "B-2", "old", "x" * 64, "main-2",
]
BAD_BRANCHES = [
    "", "1a", "-a", "a b", "é", "x" * 65, "a/b", "a.b", "a\n", "0", "12", "\x00", "a" * 300,
]
BAD_LINES = [
    b"", b" ", b"{}", b"[]", b"null", b"{", b"log", b'"log"', b'{"op":"log"} x', b'{"op":"log",}', b"{'op':'log'}",
    b'{"op":"logs"}', b'{"op":null}', b'{"op":["log"]}', b'{"op":1}', b'{"op":"log","x":1}', b'{"op":"log","text":"a"}',
    b'{"op":"cell"}', b'{"op":"cell","text":1}', b'{"op":"cell","text":null}', b'{"op":"cell","text":["a"]}',
    b'{"op":"cell","texts":["a"]}', b'{"op":"cells","texts":[]}', b'{"op":"cells","texts":["a",1]}',
    b'{"op":"cells","texts":"a"}', b'{"op":"cells","text":"a"}', b'{"op":"cells","texts":[["a"]]}',
    b'{"op":"cells","texts":{"a":"b"}}', b'{"op":"checkout"}', b'{"op":"checkout","to":1}', b'{"op":"checkout","of":"1"}',
    b'{"op":"branch"}', b'{"op":"branch","name":1}', b'{"op":"branch","name":"a","at":0}',
    b'{"op":"branch","name":"a","at":"0","x":"y"}', b'{"op":"branch","name":"a","to":"0"}', b'{"op":"stored"}',
    b'{"op":"stored","to":"1"}', b'{"op":"plan","of":"1"}', b'{"op":"plan"}', b'{"op":"inspect","of":"1"}',
    b'{"op":"status","a":null}', b'{"Op":"log"}', b'{"op":"LOG"}', b'{"op":"log"}{"op":"log"}',
    b'{"op":"cell","text":"\\ud800"}', b'{"op":"cell","text":"\\udc00\\ud800"}', b'{"op":"cell","text":"\xff"}',
    b'{"op":"cell","text":"\xc3"}', b'{"op":"cell","text":"\xed\xa0\x80"}', b'{"op":"cell","text":"\x01"}',
    b'{"op":"cell","text":"a\tb"}', b'{"op":"cell","text":"\\x"}', b'{"op":"cell","text":"\\u12"}',
    b"\xef\xbb\xbf" + b'{"op":"log"}', b'{"op":"log"}\x00', b"\x00", b'{"op":"log" "a":1}', b'{"op" "log"}', b'{op:"log"}',
    b'{"op":"log"// }', b'{"op":01,"op":"log"}', b'{"op":NaN,"op":"log"}', b'{"op":Infinity,"op":"log"}',
    b'{"op":"\\ud800","op":"log"}', b'{"op":' + b"[" * 127 + b"]" * 127 + b',"op":"log"}', b'{"op":' + b"[" * 5000,
    b"[" * 128 + b"]" * 128, b'{"op":+1,"op":"log"}', b'{"op":.5,"op":"log"}', b'{"op":1.,"op":"log"}',
    b'{"op":truE,"op":"log"}', b'{"op":"log"}\xc2\xa0', b'\x0c{"op":"log"}',
]
ODD_LINES = [
    b' {"op" : "log" } ', b'{"\\u006fp":"log"}', b'{"op":"cell","op":"log"}', b'{"op":1,"op":"log"}', b'{"op":"log"}\r',
    b'\t{"op":"status"}', b'{"op":-0,"op":"log"}', b'{"op":1e5,"op":"log"}',
    b'{"op":' + b"[" * 126 + b"]" * 126 + b',"op":"log"}', b'{"text":"a = 1","op":"cell"}',
    b'{"op":"cell","text":"\\ud83d\\ude00 = 1"}', b'{"op":"cell","text":"print(\'\\ud83d\\ude00\')"}',
    b'{"op":"cell","text":"a","text":"b = 2"}', b'{"op":"cell","text":"\\u0000"}', b'{"op":"cell","text":"\xf0\x9f\x98\x80"}',
    b'{"texts":["a = 1"],"op":"cells"}', b'{"op":"branch","at":"0","name":"odd"}', b'{"op":1.5E-3,"op":"status"}',
    b'{"op":"cell","text":"1\\/1"}', b'{"op":[1,{"a":null}],"op":"inspect"}', b'{"op":"cell","text":"\\b\\f"}',
    b'{"op":{},"op":"log"}', b'{"op":1234567890123456789012345678901234567890,"op":"log"}',
]
# What stands in lines that were changed.
LINE_PARTS = [
    b"{", b"}", b"[", b"]", b'"', b":", b",", b"\\", b" ", b"0", b"-1", b"1e999", b"1E-5", b"null", b"true", b"\x80",
    b"\xc3\xa9", b"\t", b"\r", b"\\u0061", b"\\ud800", b"\\udc00", b"\\n", b"\\/", b"/", b"'", b"\x00", b"\x1f", b"\x7f", b".",
    b"e", b'"op"', b'"log"', b"[]", b"{}", b"\xf0\x9f\x98\x80",
]


def reference(rng, model):
    chance = rng.random()
    if chance < 0.12:
        return rng.choice(REFERENCES + [str(len(model.commits))])
    if chance < 0.5:
        return rng.choice(list(model.branches))
    if chance < 0.7:
        return str(max(0, len(model.commits) - 1 - rng.randint(0, 3)))
    return str(rng.randrange(len(model.commits)))


def changed_line(rng):
    """A line in which some bytes are others."""
    line = rng.choice(ODD_LINES + BAD_LINES)
    for _ in range(rng.choice([1, 1, 2, 3])):
        place = rng.randint(0, len(line))
        line = line[:place] + rng.choice(LINE_PARTS + [b""]) + line[place + rng.randint(0, 1) :]
    return line.replace(b"\n", b"")


def request_line(rng, model):
    """A random line of input, without its line feed."""
    run.names = model.live
    chance = rng.random()
    if chance < 0.03:
        return rng.choice(BAD_LINES)
    if chance < 0.045:
        return rng.choice(ODD_LINES)
    if chance < 0.047:
        return changed_line(rng)
    if chance < 0.09 and len(model.commits) > 1:
        # A cell once more: it may leave a state that stands elsewhere in another version.
        request = {"op": "cell", "text": rng.choice(rng.choice(model.commits[1:]).cells)}
    elif chance < 0.50:
        request = {"op": "cell", "text": cell_text(rng)}
    elif chance < 0.57:
        request = {"op": "cells", "texts": [cell_text(rng) for _ in range(rng.randint(1, 4))]}
    elif chance < 0.70:
        request = {"op": "checkout", "to": reference(rng, model)}
    elif chance < 0.77:
        request = {"op": "branch", "name": rng.choice(BRANCHES + list(model.branches) if rng.random() < 0.85 else BAD_BRANCHES)}
        if rng.random() < 0.5:
            request["at"] = reference(rng, model)
    elif chance < 0.82:
        request = {"op": "stored", "of": reference(rng, model)}
    elif chance < 0.90:
        request = {"op": "plan", "to": reference(rng, model)}
    else:
        request = {"op": rng.choice(["log", "status", "inspect", "inspect"])}
    parts = list(request.items())
    rng.shuffle(parts)
    return json.dumps(dict(parts), ensure_ascii=rng.random() < 0.5).encode()
