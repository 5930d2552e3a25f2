#!/usr/bin/env python3
"""Prints the tables of whole numbers that crates/kishu_num/src/tests.rt holds.

The results are CPython's. Where the language is narrower, this script says so itself: numbers lie
in -2^127 to 2^127-1, a negative exponent has no result, and `int` reads ASCII digits without
underscores, between the six characters of white space that `strip` knows.
"""

LEAST, GREATEST = -(2**127), 2**127 - 1
WHITE = " \t\n\r\v\f"

OPERATORS = {
    "Add": lambda a, b: a + b,
    "Sub": lambda a, b: a - b,
    "Mul": lambda a, b: a * b,
    "FloorDiv": lambda a, b: a // b,
    "Modulo": lambda a, b: a % b,
    "Power": lambda a, b: a**b,
}

OPERATIONS = [
    (1, "Add", 2),
    (GREATEST, "Add", 1),
    (GREATEST, "Add", LEAST),
    (LEAST, "Add", -1),
    (1, "Sub", 2),
    (LEAST, "Sub", 1),
    (-1, "Sub", LEAST),
    (0, "Sub", LEAST),
    (-3, "Mul", 4),
    (2**126, "Mul", 2),
    (2**126, "Mul", -2),
    (LEAST, "Mul", -1),
    (LEAST, "Mul", 1),
    (7, "FloorDiv", 2),
    (-7, "FloorDiv", 2),
    (7, "FloorDiv", -2),
    (-7, "FloorDiv", -2),
    (-8, "FloorDiv", 2),
    (8, "FloorDiv", -2),
    (-1, "FloorDiv", GREATEST),
    (0, "FloorDiv", -5),
    (LEAST, "FloorDiv", -1),
    (LEAST, "FloorDiv", 1),
    (LEAST, "FloorDiv", LEAST),
    (GREATEST, "FloorDiv", LEAST),
    (GREATEST, "FloorDiv", -1),
    (LEAST, "FloorDiv", 0),
    (7, "Modulo", 2),
    (-7, "Modulo", 2),
    (7, "Modulo", -2),
    (-7, "Modulo", -2),
    (-8, "Modulo", 2),
    (8, "Modulo", -2),
    (1, "Modulo", LEAST),
    (-1, "Modulo", GREATEST),
    (LEAST, "Modulo", GREATEST),
    (LEAST, "Modulo", -1),
    (LEAST, "Modulo", LEAST),
    (0, "Modulo", 0),
    (0, "Power", 0),
    (5, "Power", 0),
    (0, "Power", 1),
    (7, "Power", 1),
    (2, "Power", 10),
    (-3, "Power", 5),
    (2, "Power", 126),
    (2, "Power", 127),
    (-2, "Power", 126),
    (-2, "Power", 127),
    (-2, "Power", 128),
    (3, "Power", 80),
    (3, "Power", 81),
    (2**63, "Power", 2),
    (2**64, "Power", 2),
    (2**64, "Power", 1),
    (GREATEST, "Power", 1),
    (LEAST, "Power", 1),
    (LEAST, "Power", 2),
    (0, "Power", GREATEST),
    (1, "Power", GREATEST),
    (-1, "Power", GREATEST),
    (-1, "Power", GREATEST - 1),
    (2, "Power", GREATEST),
    (-2, "Power", GREATEST),
    (2, "Power", -1),
    (0, "Power", -1),
    (1, "Power", LEAST),
]

TEXTS = [
    "0",
    "42",
    " 42 ",
    "\t\n\r\v\f42\f\v\r\n\t",
    "+7",
    "-7",
    "-0",
    "+0",
    "007",
    "0" * 60 + "7",
    "-" + "0" * 60 + "7",
    str(GREATEST),
    "+" + str(GREATEST),
    str(GREATEST + 1),
    str(LEAST),
    str(LEAST - 1),
    "0" * 30 + str(GREATEST),
    "0" * 30 + str(GREATEST + 1),
    "1" + "0" * 60,
    "",
    " ",
    "+",
    "-",
    " - ",
    "+-1",
    "--1",
    "++1",
    "- 1",
    "+ 1",
    "1 2",
    "1_0",
    "_1",
    "1_",
    "0x1",
    "1.",
    "1e3",
    "a",
    "1a",
    "\u0663",
    "\u00a01",
    "1\u2003",
    "\x1c1",
    "1\0",
    "\u22121",
]

NUMBERS = [0, 7, 10, -1, -10, 2**64, -(2**64), GREATEST, LEAST]


def rust(n):
    return {LEAST: "i128::MIN", GREATEST: "i128::MAX", -GREATEST: "i128::MIN + 1", GREATEST - 1: "i128::MAX - 1"}.get(n, str(n))


def quoted(text):
    names = {"\t": "\\t", "\n": "\\n", "\r": "\\r", "\0": "\\0"}
    return '"' + "".join(names.get(c) or (c if " " <= c <= "~" else f"\\u{{{ord(c):x}}}") for c in text) + '"'


def operation(a, operator, b):
    if operator == "Power" and b < 0:
        return "Err(NegativePower)"
    if operator == "Power" and abs(a) > 1 and b > 1000:
        return "Err(Overflow)"
    try:
        result = OPERATORS[operator](a, b)
    except ZeroDivisionError:
        return "Err(ZeroDivisor)"
    return f"Ok({rust(result)})" if LEAST <= result <= GREATEST else "Err(Overflow)"


def reading(text):
    text = text.strip(WHITE)
    if text != text.strip() or "_" in text or not text.isascii():
        return "None"
    try:
        result = int(text)
    except ValueError:
        return "None"
    return f"Some({rust(result)})" if LEAST <= result <= GREATEST else "None"


def row(*parts):
    """A row as rustfmt lays it out."""
    line = ", ".join(parts)
    if len(line) <= 60:
        print(f"    ({line}),")
    else:
        print("    (", *(f"        {part}," for part in parts), "    ),", sep="\n")


for a, operator, b in OPERATIONS:
    row(rust(a), operator, rust(b), operation(a, operator, b))
print()
for text in TEXTS:
    row(quoted(text), reading(text))
print()
for n in NUMBERS:
    row(rust(n), f'"{n}"')
