#!/usr/bin/env python3
"""Times the lexer on 256 KiB and on 1 MiB of the same kind of text, as timing.py says.

Usage: tools/time/time_tokens.py
"""
from timing import Reading, repeated, report

TOKENS = Reading("kishu_lexer", "tokens", "found")
PIECES = ["x = 1\n", "()", "(", "'a\\n' ", "'é' ", "#", '"""\\x41\n"""\n', "0_", "if x:\n  y\n", "a \\\n"]


def blocks_in_blocks(size):
    """As deep as there is room for."""
    text = ""
    for depth in range(size):
        line = " " * depth + "if x:\n"
        if len(text) + len(line) > size:
            break
        text += line
    return text.encode()


def main():
    kinds = {repr(piece): repeated(piece) for piece in PIECES}
    report(TOKENS, kinds | {"blocks in blocks": blocks_in_blocks})


if __name__ == "__main__":
    main()
