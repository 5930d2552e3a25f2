#!/usr/bin/env python3
"""Runs the session that README shows, and draws its graph as docs/graph.svg.

Usage: shell/picture.py PROGRAM

PROGRAM is the built program. What README is to show of the session is printed.
"""
from __future__ import annotations

import os
import sys
import tempfile

from terminal import Terminal

HERE = os.path.dirname(os.path.realpath(__file__))
PICTURE = os.path.join(os.path.dirname(HERE), "docs", "graph.svg")
# What is typed, and the prompt behind it.
TYPED = [
    ("sales = [3, 4, 5]; best = sales", "(main) In [2]: "),
    ("best.append(8); sales", "(main) In [3]: "),
    (":undo", "(commit 1) In [2]: "),
    ("sum(best)", "(commit 3) In [3]: "),
    (":graph first.svg", "(commit 3) In [3]: "),
]


def run(program: str, folder: str) -> tuple[str, str]:
    """Returns what the terminal shows of the session, and the picture that it draws."""
    shell = os.path.join(HERE, "kishu_shell.py")
    words = [sys.executable, shell, "--program", os.path.abspath(program), "first"]
    terminal = Terminal(words, folder, TERM="dumb")
    try:
        prompt = "(main) In [1]: "
        shown = "$ ./kishu-shell first\n" + terminal.prompt(prompt)
        for line, then in TYPED:
            terminal.send(f"{line}\r")
            shown, prompt = shown + prompt + terminal.prompt(then), then
        terminal.send("\x04")
        terminal.ended()
    finally:
        terminal.close()
    with open(os.path.join(folder, "first.svg"), encoding="utf-8") as file:
        return shown, file.read()


def main() -> None:
    if len(sys.argv) != 2:
        sys.exit(__doc__)
    with tempfile.TemporaryDirectory() as folder:
        shown, drawn = run(sys.argv[1], folder)
    with open(PICTURE, "w", encoding="utf-8") as file:
        file.write(drawn)
    print(shown, end="")


if __name__ == "__main__":
    main()
