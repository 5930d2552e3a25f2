#!/usr/bin/env python3
"""Drives the shell through a pseudo-terminal, over the built program.

Usage: shell/test_shell.py [-v] [TEST ..]

The program is crates/kishu_cli/out/kishu_cli, or the one that the variable KISHU names. Where it isn't there
the tests that run it are skipped, and so are those of prompt_toolkit, nbformat or git where these aren't.
"""
from __future__ import annotations

import contextlib
import fcntl
import importlib.util
import io
import json
import os
import re
import shutil
import signal
import struct
import subprocess
import sys
import tempfile
import time
import unittest
import unittest.mock

import kishu_shell
import picture
from terminal import SECONDS, Terminal

HERE = os.path.dirname(os.path.realpath(__file__))
TOP = os.path.dirname(HERE)
SHELL = os.path.join(HERE, "kishu_shell.py")
PROGRAM = os.environ.get("KISHU") or os.path.join(TOP, "crates", "kishu_cli", "out", "kishu_cli")
IS_BUILT = os.access(PROGRAM, os.X_OK)
HAS_EDITOR = importlib.util.find_spec("prompt_toolkit") is not None
VALIDATES = "import nbformat, sys; nbformat.validate(nbformat.read(sys.argv[1], 4))"
GIT = {f"GIT_{who}_{what}": "x" for who in ("AUTHOR", "COMMITTER") for what in ("NAME", "EMAIL")}


def has_nbformat(python: str) -> bool:
    return subprocess.run([python, "-c", "import nbformat"], capture_output=True).returncode == 0


def notebook(*texts: str) -> bytes:
    return json.dumps({"cells": [{"cell_type": "code", "source": text} for text in texts]}).encode()


class Case(unittest.TestCase):
    """A folder for each test, in which shells are started."""

    variables = {"TERM": "dumb"}

    def setUp(self) -> None:
        folder = tempfile.TemporaryDirectory()
        self.addCleanup(folder.cleanup)
        self.folder = folder.name

    def path(self, name: str) -> str:
        return os.path.join(self.folder, name)

    def write(self, name: str, data: bytes) -> None:
        with open(self.path(name), "wb") as file:
            file.write(data)

    def read(self, name: str) -> str:
        with open(self.path(name), encoding="utf-8") as file:
            return file.read()

    def shell(self, store: str = "s", program: str = PROGRAM, **variables: str) -> Terminal:
        words = [sys.executable, SHELL, "--program", program, store]
        terminal = Terminal(words, self.folder, **{**self.variables, **variables})
        self.addCleanup(terminal.close)
        return terminal

    def opened(self, prompt: str = "(main) In [1]: ", **given: str) -> Terminal:
        terminal = self.shell(**given)
        terminal.prompt(prompt)
        return terminal

    def enter(self, terminal: Terminal, line: str, prompt: str) -> str:
        """Types a line, waits for the prompt, and returns what was shown in between."""
        terminal.send(f"{line}\r")
        shown = terminal.prompt(prompt)
        *_, typed = re.finditer(f"(^|: ?){re.escape(line)}\n", shown)  # (an editor shows it twice)
        return shown[typed.end() :].strip("\n")

    def program_of(self, terminal: Terminal) -> int:
        """The process of the program that a shell has started."""
        with open(f"/proc/{terminal.pid}/task/{terminal.pid}/children", encoding="ascii") as file:
            return int(file.read())

    def leave(self, terminal: Terminal) -> None:
        terminal.send("\x04")
        self.assertEqual(terminal.ended(), 0)

    def finished(self, words: list[str], given: str = "") -> subprocess.CompletedProcess:
        return subprocess.run(
            words, input=given, capture_output=True, text=True, cwd=self.folder, timeout=SECONDS
        )

    def piped(self, *lines: str, store: str = "s") -> subprocess.CompletedProcess:
        """What comes of lines where neither input nor output is a terminal."""
        words = [sys.executable, SHELL, "--program", PROGRAM, store]
        return self.finished(words, "".join(f"{line}\n" for line in lines))


@unittest.skipUnless(IS_BUILT, "the program isn't built")
class Typed(Case):
    """What is typed on a terminal, line by line."""

    def test_cells_and_undo(self) -> None:
        shell = self.opened()
        told = "There is nothing to take back."
        self.assertEqual(self.enter(shell, ":undo", "(main) In [1]: "), told)
        self.assertEqual(self.enter(shell, "a = [1]; b = a", "(main) In [2]: "), "")
        self.assertEqual(self.enter(shell, "b.append(2)", "(main) In [3]: "), "")
        self.assertEqual(self.enter(shell, "a", "(main) In [4]: "), "Out[3]: [1, 2]")
        shown = self.enter(shell, "print(1 // 0)", "(main) In [5]: ")
        self.assertEqual(shown, "ZeroDivisionError: division by zero")
        shown = self.enter(shell, ":undo 3", "(commit 1) In [2]: ")
        self.assertEqual(shown, "On no branch, at commit 1: a = [1]; b = a")
        self.assertEqual(self.enter(shell, "print(a, a is b)", "(commit 5) In [3]: "), "[1] True")
        self.assertEqual(self.enter(shell, ":undo", "(commit 1) In [2]: "), shown)
        self.assertIn("Behind commit 1 there are 2, 5", self.enter(shell, ":redo", "(commit 1) In [2]: "))
        self.enter(shell, ":go 2", "(commit 2) In [3]: ")
        self.enter(shell, ":redo", "(commit 3) In [4]: ")
        self.assertIn("On branch main, at commit 4", self.enter(shell, ":redo", "(main) In [5]: "))
        self.assertIn("No cell was run behind commit 4", self.enter(shell, ":redo", "(main) In [5]: "))
        self.assertIn("Here 4 cells can be taken back", self.enter(shell, ":undo 5", "(main) In [5]: "))
        self.leave(shell)

    def test_cells_of_several_lines(self) -> None:
        shell = self.opened()
        self.enter(shell, "for i in range(2):", "...: ")
        self.enter(shell, "    print(i)", "...: ")
        self.assertEqual(self.enter(shell, "", "(main) In [2]: "), "0\n1")
        self.enter(shell, "x = [1,", "...: ")
        self.enter(shell, "2]", "(main) In [3]: ")
        self.assertEqual(self.enter(shell, "x", "(main) In [4]: "), "Out[3]: [1, 2]")
        shell.send("\r")
        shell.wait(r"\n\(main\) In \[4\]: *$")  # (an editor shows the old prompt again first)
        self.leave(shell)

    def test_branches_graph_and_plan(self) -> None:
        shell = self.opened()
        self.enter(shell, "x = [1]; y = [x]; z = [2]", "(main) In [2]: ")
        self.assertIn("begins at commit 1", self.enter(shell, ":branch try", "(main) In [2]: "))
        self.enter(shell, "y = 0", "(main) In [3]: ")
        self.enter(shell, ":go try", "(try) In [2]: ")
        self.enter(shell, "z.append(3)", "(try) In [3]: ")
        words = [":log", ":branches", ":diff main", ":diff 1", ":show 2"]
        words += [":branch try", ":go 9", ":go", ":gone", ":help"]
        tell = {word: self.enter(shell, word, "(try) In [3]: ").split("\n") for word in words}
        graph = ["* 3 (HEAD -> try) z.append(3)", "| * 2 (main) y = 0", "|/", "* 1 x = [1]; y = [x]; z = [2]"]
        self.assertEqual(tell[":log"], [*graph, "* 0 the empty session"])
        self.assertEqual(tell[":branches"], ["  main  2 y = 0", "* try   3 z.append(3)"])
        self.assertEqual(tell[":diff main"][1:], ["- x, y", "- z", "+ x", "+ y", "+ z"])
        self.assertEqual(tell[":diff 1"][1:], ["- z", "  x, y", "+ z"])
        changed = ["", "dropped: x, y", "", "stored: x; y"]
        self.assertEqual(tell[":show 2"], ["commit 2 (main), on commit 1", "", "    y = 0", *changed])
        self.assertEqual(tell[":branch try"], ["There is a branch try already: give another name."])
        self.assertEqual(tell[":go 9"], ["There is no commit or branch 9: :log shows those that there are."])
        self.assertEqual(tell[":go"], ["That isn't how :go is used: type :go REF."])
        self.assertEqual(tell[":gone"], [":gone is no word of the shell: :help lists them."])
        self.assertEqual(len(tell[":help"]), len(kishu_shell.WORDS) + 2)
        self.leave(shell)

    def test_restart_in_between(self) -> None:
        shell = self.opened()
        self.enter(shell, "x = [1]", "(main) In [2]: ")
        self.enter(shell, "x.append(2)", "(main) In [3]: ")
        self.enter(shell, ":undo", "(commit 1) In [2]: ")
        self.leave(shell)
        shell = self.shell()
        self.assertIn("On no branch, at commit 1: x = [1]", shell.prompt("(commit 1) In [2]: "))
        self.assertEqual(self.enter(shell, "x", "(commit 3) In [3]: "), "Out[2]: [1]")
        self.leave(shell)

    def interrupt(self, shell: Terminal, typed: str) -> None:
        shell.send(typed)
        time.sleep(0.5)  # (Python sees Ctrl-C late where it comes just before it reads)
        shell.send("\x03")
        shell.prompt("(main) In [1]: ")

    def test_ctrl_c_drops_what_is_typed(self) -> None:
        shell = self.opened()
        self.enter(shell, "for i in range(2):", "...: ")
        self.interrupt(shell, "    pri")
        self.interrupt(shell, "nonsense")
        self.assertEqual(self.enter(shell, "1 + 1", "(main) In [2]: "), "Out[1]: 2")
        self.leave(shell)

    def test_ctrl_c_in_a_cell(self) -> None:
        shell = self.opened()
        self.enter(shell, "while True: pass", "...: ")
        program = self.program_of(shell)
        os.kill(program, signal.SIGSTOP)  # (held, since its steps would be spent before Ctrl-C comes)
        shell.send("\r")
        time.sleep(1)
        shell.send("\x03")
        shell.wait(r"Stopped\.\n")
        os.kill(program, signal.SIGCONT)
        self.assertEqual(shell.prompt("(main) In [1]: "), "On branch main, at commit 0: the empty session\n")
        self.assertEqual(self.enter(shell, "1 + 1", "(main) In [2]: "), "Out[1]: 2")
        self.leave(shell)

    def test_ctrl_c_in_a_notebook(self) -> None:
        texts = [f"for x in range({number} * 100): pass" for number in range(1, 301)]
        self.write("long.ipynb", notebook(*texts))
        shell = self.opened()
        shell.send(":run long.ipynb\r")
        shell.wait("long.ipynb: cell 3 of 300 cells")
        shell.send("\x03")
        shell.wait(r"Stopped\.\n")
        shown = shell.wait(r"\(main\) In \[\d+\]: *$")
        # (before it the shell may say that the cell under way was done all the same)
        count = int(re.search(r"^On branch main, at commit (\d+): for x in range", shown, re.MULTILINE)[1])
        self.assertTrue(2 <= count < 300, count)
        shown = self.enter(shell, "x + 1", f"(main) In [{count + 2}]: ")
        self.assertEqual(shown, f"Out[{count + 1}]: {count}00")
        self.leave(shell)

    def test_a_killed_shell(self) -> None:
        shell = self.opened()
        for number in range(1, 5):
            self.enter(shell, f"x{number} = {number}", f"(main) In [{number + 1}]: ")
        os.kill(shell.pid, signal.SIGKILL)
        shell.ended()
        with open(self.path("s"), "rb") as file:
            fcntl.flock(file, fcntl.LOCK_SH)  # (which waits for the program's end)
        shell = self.opened("(main) In [5]: ")
        self.assertEqual(self.enter(shell, "x1 + x2 + x3 + x4", "(main) In [6]: "), "Out[5]: 10")
        self.leave(shell)

    def test_a_killed_program(self) -> None:
        shell = self.opened()
        self.enter(shell, "x = 1", "(main) In [2]: ")
        os.kill(self.program_of(shell), signal.SIGKILL)
        shown = self.enter(shell, "x = 2", "(main) In [2]: ").split("\n")
        wanted = ["The program was ended by signal 9: try again.", "On branch main, at commit 1: x = 1"]
        self.assertEqual(shown, wanted)
        self.assertEqual(self.enter(shell, "x", "(main) In [3]: "), "Out[2]: 1")
        self.leave(shell)

    def test_a_store_that_another_process_changes(self) -> None:
        shell = self.opened()
        self.enter(shell, "x = 1", "(main) In [2]: ")
        with open(self.path("s"), "ab") as file:
            file.write(b"more")
        self.assertIn("Another program has changed s", self.enter(shell, "x = 2", "(main) In [2]: "))
        self.assertEqual(self.enter(shell, "x", "(main) In [3]: "), "Out[2]: 1")
        os.remove(self.path("s"))
        self.assertIn("Another program has changed s", self.enter(shell, "x", "(main) In [1]: "))
        self.leave(shell)

    def test_text_that_is_not_utf8(self) -> None:
        shell = self.opened()
        os.write(shell.end, b"print('\xff')\r")
        self.assertIn("can't read that", shell.prompt("(main) In [1]: "))
        self.leave(shell)

    def test_names_and_trees(self) -> None:
        shell = self.opened()
        self.enter(shell, "a = [1]; b = {'k': (a,), 2: a}; n = 3", "(main) In [2]: ")
        shown = self.enter(shell, ":names", "(main) In [2]: ").split("\n")
        self.assertEqual(shown, ["a, b share:", "  a = [1]", "  b = {'k': ([1],), 2: [1]}", "n = 3"])
        shown = self.enter(shell, ":tree b", "(main) In [2]: ").split("\n")
        wanted = ["b = #1 dict", "  ['k'] #2 tuple", "    [0] #0 list, shared with a", "      [0] 1"]
        self.assertEqual(shown, [*wanted, "  [2] #0, shared: it stands above"])
        self.assertIn("No name c is bound", self.enter(shell, ":tree c", "(main) In [2]: "))
        self.leave(shell)

    def test_notebooks(self) -> None:
        shutil.copy(os.path.join(TOP, "docs", "sales.ipynb"), self.path("sales.ipynb"))
        shell = self.opened()
        shell.send(":run sales.ipynb\r")
        shown = shell.prompt("(main) In [4]: ")
        for text in ("sales.ipynb: cell 2 of 3 cells", "Out[2]: 12\n", "3 of 3 cells ran."):
            self.assertIn(text, shown)
        self.enter(shell, "sales[9]", "(main) In [5]: ")
        self.assertIn("4 cells", self.enter(shell, ":save done.ipynb", "(main) In [5]: "))
        faults = {
            "s": "s isn't written over", "no/x.ipynb": "(No such file or directory)",
            "done.ipynb": "done.ipynb is there already", "sales.ipynb": "sales.ipynb is there already",
        }
        for name, told in faults.items():
            shown = self.enter(shell, f":save {name}", "(main) In [5]: ")
            self.assertIn(told, shown)
            self.assertNotIn("outputs of commit", shown)
        self.write("done.ipynb.part", b"mine")
        self.assertIn("4 cells", self.enter(shell, ":save --over done.ipynb", "(main) In [5]: "))
        self.assertEqual(self.read("done.ipynb.part"), "mine")
        names = ["done.ipynb", "done.ipynb.part", "s", "sales.ipynb"]
        self.assertEqual(sorted(os.listdir(self.folder)), names)
        self.enter(shell, ":run --together sales.ipynb", "(main) In [8]: ")
        self.assertIn("The 3 cells of commit 5", self.enter(shell, ":undo", "(commit 4) In [5]: "))
        done = json.loads(self.read("done.ipynb"))
        done["cells"].reverse()
        self.write("fault.ipynb", json.dumps(done).encode())
        shown = self.enter(shell, ":run fault.ipynb", "(commit 6) In [6]: ")
        self.assertIn("1 of 4 cells ran: the last one didn't end well.", shown)
        self.write("long.ipynb", notebook("x = 1", "#" * (2**20 + 1), "x = 2"))
        shown = self.enter(shell, ":run long.ipynb --together", "(commit 6) In [6]: ")
        self.assertIn("0 of 3 cells ran: A cell may have 1,048,576 bytes", shown)
        self.enter(shell, ":undo", "(commit 4) In [5]: ")
        shown = self.enter(shell, ":run long.ipynb", "(commit 7) In [6]: ")
        self.assertIn("1 of 3 cells ran, cell 2 didn't: A cell may have 1,048,576 bytes", shown)
        self.enter(shell, ":go 6", "(commit 6) In [6]: ")
        self.assertIn("none can't be read", self.enter(shell, ":run none", "(commit 6) In [6]: "))
        self.assertIn("s is no notebook", self.enter(shell, ":run s", "(commit 6) In [6]: "))
        self.leave(shell)
        self.look_at_notebook("done.ipynb")

    def look_at_notebook(self, name: str) -> None:
        """A saved notebook is one by nbformat, and the program shows on a new store what it holds."""
        cells = json.loads(self.read(name))["cells"]
        self.assertEqual([cell["execution_count"] for cell in cells], [1, 2, 3, 4])
        self.assertEqual("".join(cells[1]["source"]), "total = 0\nfor n in sales:\n    total += n\ntotal")
        again = self.finished([PROGRAM, "new", "run"], self.read(name))
        self.assertEqual(json.loads(again.stdout)["cells"], cells)
        python = next(filter(has_nbformat, [sys.executable, "/usr/bin/python3"]), None)
        if python is None:
            self.skipTest("nbformat isn't installed, so it validated no notebook")
        self.assertEqual(self.finished([python, "-W", "error", "-c", VALIDATES, name]).stderr, "")

    def test_colours(self) -> None:
        for store, variables in (("red", {}), ("none", {"NO_COLOR": "1"})):
            shell = self.opened(store=store, **{"TERM": "xterm", "NO_COLOR": "", **variables})
            shell.send("nothing\r")
            while b"NameError: name 'nothing' is not defined" not in shell.raw:
                self.assertTrue(shell.more(SECONDS))
            self.assertEqual(b"\x1b[31mNameError" in shell.raw, store == "red")
            self.assertEqual(re.search(rb"\x1b\[[\d;]*3\dm", shell.raw) is not None, store == "red")
            shell.prompt("(main) In [2]: ")
            self.leave(shell)


@unittest.skipUnless(HAS_EDITOR, "prompt_toolkit isn't installed")
class Edited(Typed):
    """The same by prompt_toolkit."""

    variables = {"TERM": "xterm", "NO_COLOR": "1"}

    def test_lines_of_one_cell(self) -> None:
        shell = self.opened()
        shell.send("\x1b[200~a = 1\nb = 2\nprint(a + b)\x1b[201~\r")
        self.assertIn("\n3\n", shell.prompt("(main) In [2]: "))
        shell.send("a = 3\x1b\rprint(a + b)\r")
        self.assertIn("\n5\n", shell.prompt("(main) In [3]: "))
        self.assertIn("* 2 (HEAD -> main) a = 3\n* 1 a = 1\n", self.enter(shell, ":log", "(main) In [3]: "))
        self.leave(shell)

    def test_earlier_cells_are_recalled(self) -> None:
        shell = self.opened()
        self.enter(shell, "x = 41", "(main) In [2]: ")
        self.leave(shell)
        shell = self.opened("(main) In [2]: ")
        shell.send("\x1b[A")
        shell.wait("x = 41")
        shell.send("\x7f2\r")
        shell.prompt("(main) In [3]: ")
        self.assertEqual(self.enter(shell, "x", "(main) In [4]: "), "Out[3]: 42")
        self.leave(shell)


@unittest.skipUnless(IS_BUILT, "the program isn't built")
class Piped(Case):
    """Without a terminal, and what is the same on each."""

    def test_lines_of_a_file(self) -> None:
        block = ["if x:", "    x += 1", ""]
        done = self.piped("x = 1", *block, "x", "nothing", ":log", "for i in [3]:", "    print(i)")
        self.assertEqual(done.returncode, 0)
        graph = ["* 4 (HEAD -> main) nothing", "* 3 x", "* 2 if x:", "* 1 x = 1", "* 0 the empty session"]
        wanted = ["Out[3]: 2", "NameError: name 'nothing' is not defined", *graph, "3"]
        self.assertEqual(done.stdout.split("\n")[1:-1], wanted)

    def test_stores_that_cannot_be_opened(self) -> None:
        self.write("other", b"This is another file, and no store.")
        done = self.piped(":log", store="other")
        self.assertEqual(done.returncode, 3)
        told = "kishu-shell: other is no store of Kishu, and was left as it was: give another file.\n"
        self.assertEqual(done.stderr, told)
        self.piped("x = 1")
        with open(self.path("s"), "rb") as file:
            whole = file.read()
        self.write("s", whole[:-1])
        done = self.piped(":log")
        self.assertEqual(done.returncode, 3)
        self.assertIn("s is damaged at 16, and was left as it was", done.stderr)
        self.write("short", b"print(1)\n")
        stores = {"no/store": (5, "There is no folder no: make it"), ".": (5, ". is a folder: give the name")}
        stores["short"] = (2, "short is a file and no store of Kishu: give another name")
        stores[""] = (2, "the name of the store is empty")
        for store, (status, told) in stores.items():
            done = self.piped(":log", store=store)
            self.assertEqual(done.returncode, status)
            self.assertIn(told, done.stderr)
        self.assertEqual(self.read("short"), "print(1)\n")
        for begun in (b"", b"KISHU-JOU", bytes(17)):
            self.write("begun", begun)
            self.assertEqual(self.piped("1", store="begun").returncode, 0)

    def test_words_that_are_told(self) -> None:
        """What is typed wrong, and where there is no folder for files, is told, and the shell goes on."""
        lines = [f":undo {'9' * 5000}", ':go ""', ":branch HEAD", "x = 1", ":log", ":tree", ":run a b"]
        done = self.piped(*lines)
        self.assertEqual((done.returncode, done.stderr), (0, ""))
        told = ["That is no number of cells: type :undo, or :undo 2 to go back over two."]
        told += ["There is no commit or branch '': :log shows those that there are."]
        told += ["Branch HEAD begins at commit 0; :go HEAD leads there."]
        told += ["* 1 (HEAD -> main) x = 1", "* 0 (HEAD) the empty session"]
        told += ["That isn't how :tree is used: type :tree NAME."]
        told += ["That isn't how :run is used: type :run FILE.ipynb [--together]."]
        self.assertEqual(done.stdout.split("\n")[1:-1], told)
        with unittest.mock.patch.dict(os.environ, {"HOME": "/none"}):
            done = self.piped(":save ~/x.ipynb", ":graph ~/x.svg", "x")
        told = "That can't be done (No such file or directory): see that there is a folder for it"
        self.assertEqual(done.stdout.count(told), 2)
        self.assertEqual(done.stdout.split("\n")[3], "Out[2]: 1")

    def test_what_only_python_has(self) -> None:
        block = ["for i in [1]:", "    y = i", "    z = [a for a in y]", ""]
        done = self.piped("import os", *block, "x = 'a", "open('a')", "exit()", ":quit", "print('never')")
        refused, see = "SyntaxError: invalid syntax, line 1", "see docs/LANGUAGE.md."
        told = [refused, f"The language of cells has no imports but that of SimpleNamespace (line 1): {see}"]
        told += [refused, f"The language of cells has no comprehensions (line 3): {see}", refused]
        shown = done.stdout.split("\n")[1:-1]
        self.assertEqual(shown[:5], told)
        self.assertIn("Python can't read it either: ", shown[5])
        told = ["NameError: name 'open' is not defined", f"The language of cells has no open: {see}"]
        told += ["NameError: name 'exit' is not defined", ":quit ends the shell."]
        self.assertEqual(shown[6:], told)

    def test_an_output_that_is_full(self) -> None:
        words = [sys.executable, SHELL, "--program", PROGRAM, "s"]
        with open("/dev/full", "wb") as full:
            done = subprocess.run(words, input=b"1", stdout=full, stderr=subprocess.PIPE, cwd=self.folder)
        told = b"kishu-shell: The output or the input failed (No space left on device): start anew.\n"
        self.assertEqual((done.returncode, done.stderr), (1, told))

    def test_a_line_that_is_too_long(self) -> None:
        done = self.piped("x = 1", f"x = '{'a' * 2**24}'", "x")
        told = "A line may have 16 MiB, and all lines of a session 1 GiB: give the program less at once."
        wanted = [told, "On branch main, at commit 1: x = 1", "Out[2]: 1"]
        self.assertEqual(done.stdout.split("\n")[1:-1], wanted)

    def test_another_run_at_the_store(self) -> None:
        shell = self.opened()
        done = self.piped("x = 1")
        self.assertEqual(done.returncode, 5)
        self.assertIn("Another run may be at s", done.stderr)
        self.leave(shell)

    def test_a_hundred_commits(self) -> None:
        """The graph of 100 commits, every third of them on a way of its own, is drawn in under a second."""
        lines = []
        for number in range(1, 101):
            lines += [f"x = {number}"] + [f":go {number // 2}"] * (number % 3 == 0)
        self.piped(*lines)
        shell = self.shell()
        shell.wait(r"In \[\d+\]: *$")
        for word, shown in (":log", r"\* 100 \(HEAD\) x = 100\n"), (":graph g.svg", "shows 100 commits"):
            began = time.monotonic()
            shell.send(f"{word}\r")
            shell.wait(shown)
            shell.wait(r"In \[\d+\]: *$")
            self.assertLess(time.monotonic() - began, 1, word)
        self.leave(shell)
        self.assertEqual(self.read("g.svg").count("<circle"), 101)

    def test_a_build_comes_first(self) -> None:
        """A script tells how far a build is, and then is the program, as `kishu` is."""
        self.write("script", f'#!/bin/sh\necho "kishu: 1 of 2 crates" >&2\nexec {PROGRAM} "$@"\n'.encode())
        os.chmod(self.path("script"), 0o755)
        shell = self.shell(program="./script")
        shown = shell.prompt("(main) In [1]: ")
        self.assertIn("The program isn't built, or its sources have changed", shown)
        self.assertIn("\nkishu: 1 of 2 crates\n", shown)
        self.assertEqual(self.enter(shell, "1 + 1", "(main) In [2]: "), "Out[1]: 2")
        self.leave(shell)

    def test_the_picture_and_what_the_readme_shows(self) -> None:
        with open(os.path.join(TOP, "README.md"), encoding="utf-8") as file:
            block = re.search(r"```\n(\$ \./kishu-shell .*?)```", file.read(), re.DOTALL)
        shown, drawn = picture.run(PROGRAM, self.folder)
        self.assertEqual(block[1], shown)
        with open(picture.PICTURE, encoding="utf-8") as file:
            self.assertEqual(file.read(), drawn)


class Alone(Case):
    """The parts that need no program."""

    def test_a_build_that_cannot_be(self) -> None:
        """The script `kishu` itself, in a checkout that has no line for the program."""
        os.makedirs(self.path("crates"))
        self.write("crates.txt", b"")
        for name in ("kishu", "kishu-shell"):
            shutil.copy(os.path.join(TOP, name), self.folder)
        for name in ("shell", "tools/build"):
            shutil.copytree(os.path.join(TOP, name), self.path(name))
        done = self.finished(["./kishu-shell", "s"])
        self.assertEqual(done.returncode, 1)
        self.assertIn("\nkishu: crates.txt has no line for kishu_cli: restore it\n", done.stderr)
        self.assertIn("couldn't be built: do what stands above", done.stderr)

    def test_a_build_that_is_stopped(self) -> None:
        self.write("script", b'#!/bin/sh\necho "kishu: 1 of 2 crates" >&2\nexec sleep 1000\n')
        os.chmod(self.path("script"), 0o755)
        shell = self.shell(program="./script")
        shell.wait("kishu: 1 of 2 crates\n")
        shell.send("\x03")
        self.assertEqual(shell.ended(), 130)

    def test_programs_that_cannot_be_run(self) -> None:
        self.write("script", b"\x7fELF and no more")
        os.chmod(self.path("script"), 0o755)
        done = self.finished([sys.executable, SHELL, "--program", "./script", "s"])
        self.assertEqual(done.returncode, 1)
        self.assertIn("script can't be run (Exec format error): name another", done.stderr)

    def test_where_the_program_is(self) -> None:
        for name in ("x/kishu", "x/y/kishu"):
            os.makedirs(self.path("x/y"), exist_ok=True)
            self.write(name, b"")
            os.chmod(self.path(name), 0o755)
            with unittest.mock.patch.object(kishu_shell, "HERE", self.path("x/y")):
                self.assertEqual(kishu_shell.program_at(None), self.path(name))
        with unittest.mock.patch.object(kishu_shell, "HERE", self.folder):
            self.assertNotIn(self.folder, kishu_shell.program_at("sh"))

    def test_words_of_the_script(self) -> None:
        """The script `kishu` tells its words without a program."""
        done = self.finished([os.path.join(TOP, "kishu"), "--help"])
        self.assertEqual((done.returncode, done.stderr), (0, ""))
        self.assertTrue(done.stdout.startswith("usage: kishu STORE COMMAND\n"))
        for words in ([], ["s"], ["s", "--help"], ["s", "sesion"], ["--together", "s"]):
            again = self.finished([os.path.join(TOP, "kishu"), *words])
            self.assertEqual((again.returncode, again.stdout, again.stderr), (2, "", "usage: kishu STORE COMMAND\n"))

    def test_cells_that_both_languages_have(self) -> None:
        """What the rules of the language show runs, so nothing of it is told to be left out."""
        with open(os.path.join(TOP, "docs", "LANGUAGE.md"), encoding="utf-8") as file:
            blocks = re.findall(r"```python\n(.*?)```\n```text\n(.*?)```", file.read(), re.DOTALL)
        error = {"ename": "SyntaxError", "evalue": "invalid syntax, line 1"}
        for cell, given in blocks:
            if "SyntaxError" not in given:
                self.assertIn("tells what the language of cells has", kishu_shell.hint(cell, error), cell)

    def test_what_was_done_all_the_same(self) -> None:
        """Where Ctrl-C comes behind the record of a request and before its answer, that is told."""
        for records in (4, 3):
            store = unittest.mock.Mock(records=3, branch="main", commit=2)
            store.again.side_effect = lambda: setattr(store, "records", records)
            store.ask.side_effect = [KeyboardInterrupt, {"path": []}]
            with contextlib.redirect_stdout(io.StringIO()) as shown:
                kishu_shell.Shell(store).try_to_take(":branch try")
            self.assertEqual("was done all the same" in shown.getvalue(), records == 4)

    def test_answers_that_are_none(self) -> None:
        tells = {"echo no": "a broken line", "printf '{\"an'; exit 8": "The memory ran out"}
        for does, wanted in {**tells, "kill $$": "signal 15"}.items():
            self.write("script", f"#!/bin/sh\nread line\n{does}\n".encode())
            os.chmod(self.path("script"), 0o755)
            done = self.finished([sys.executable, SHELL, "--program", "./script", "s"])
            self.assertIn(wanted, done.stderr)
            self.assertEqual(done.stdout, "")

    @unittest.skipUnless(shutil.which("git"), "git isn't installed")
    def test_graphs_are_those_of_git(self) -> None:
        trees = [[0, 0], [0, 0, 1, 1], [0, 0, 1, 1, 1, 2], [0, 0, 1, 2, 1, 4, 4, 6, 3], [0, 0, 0, 0, 3, 3]]
        for place, parents in enumerate(trees):
            self.folder = self.path(f"tree{place}")
            os.mkdir(self.folder)
            rows = kishu_shell.graph_lines([kishu_shell.Commit(parent, ["x"]) for parent in parents], {})
            self.assertEqual([re.sub(r"(\d+) .*", r"\1", row) for row in rows], self.graph_of_git(parents))

    def test_branches_with_names_like_the_head(self) -> None:
        commits = [kishu_shell.Commit(0, []), kishu_shell.Commit(0, ["\tx\xa0y\x07"])]
        refs = {0: [("branch", "HEAD"), ("branch", "HEADS")], 1: [("head", "HEAD -> main")]}
        drawn = kishu_shell.svg_of(commits, refs)
        self.assertEqual(re.findall('cy="(.*?)" r="(.)"', drawn), [("20", "7"), ("48", "5")])
        self.assertEqual(kishu_shell.first_line(commits[1]), "    x y\ufffd")

    def graph_of_git(self, parents: list[int]) -> list[str]:
        """The graph that git draws of commits with these parents, each of them a branch."""
        self.git("init", "-q")
        tree, made = self.git("mktree"), []
        for number, parent in enumerate(parents):
            behind = ["-p", made[parent]] if number else []
            made.append(self.git("commit-tree", tree, "-m", str(number), *behind, second=number))
            self.git("update-ref", f"refs/heads/b{number}", made[-1])
        drawn = self.git("log", "--graph", "--format=%s", "--branches")
        return [line.rstrip() for line in drawn.split("\n")]

    def git(self, *words: str, second: int = 0) -> str:
        dates = {f"GIT_{who}_DATE": f"{1_700_000_000 + second} +0000" for who in ("AUTHOR", "COMMITTER")}
        given = {**os.environ, **GIT, **dates}
        words = ["git", *words]
        return subprocess.run(
            words, cwd=self.folder, env=given, input="", capture_output=True, text=True, check=True
        ).stdout.strip()

    def test_where_cells_go_on(self) -> None:
        blocks = ["if x:", "for i in [1]: print(i)", "def f():\n    return 1", "@x"]
        for text in [*blocks, "x = [1,", "f(\n", "'''a\n\nb", "x = 1 + \\", "[1, # c \\"]:
            self.assertTrue(kishu_shell.goes_on(text), text)
        blocks = ["if x:\n", "if x:\n    y\n", "iffy = 1", "form"]
        comments = ["# c \\", "x = 1 # c \\"]
        for text in [*blocks, *comments, "x = 1", "", "x = [1,\n2]", "'abc", "x = )", "x = ) + (", ":log ("]:
            self.assertFalse(kishu_shell.goes_on(text), text)

    def test_groups_and_values(self) -> None:
        nodes = [["list", "#0", "1"], ["object", "x", "#2"], ["exception", "ValueError", "'no'"], ["tuple"]]
        nodes += [["function", "1", "def f(a=[]): return a", "#5"], ["list"], ["tuple", "#3"]]
        nodes += [["dict", "(1, 2)", "#5"], ["tuple", "#8"]]
        values = {
            "#0": "[[...], 1]", "#1": "namespace(x=ValueError('no'))", "#2": "ValueError('no')",
            "#4": "<function f>", "#6": "((),)", "#7": "{(1, 2): []}", "7": "7", "#8": "((...),)",
        }
        bound = kishu_shell.Bound({"names": dict(zip("abcdefgh", values)), "nodes": nodes})
        self.assertEqual(bound.groups(), [("a",), ("b", "c"), ("d", "f"), ("e",), ("g",), ("h",)])
        self.assertEqual({value: bound.text(value) for value in values}, values)

    def test_broken_stores(self) -> None:
        record = bytes.fromhex("a50000000000000026 00000022 01 00000000 01 00000001 0000000c")
        whole = b"KISHU-JOURNAL-1\n" + record + b"print(1 + 2)" + bytes(9)
        for data, commits in (whole, 2), (whole + b"more", 2), (whole[:17], 1), (b"", 1):
            self.write("s", data)
            self.assertEqual(len(kishu_shell.read_store(self.path("s"))[0]), commits)
        large = whole[:17] + (2**30 + 1).to_bytes(8, "big") + whole[25:]
        for data in large, whole[:-1], whole[:40], b"x" * 18, whole[:-1] + b"\xa5":
            self.write("s", data)
            self.assertRaises((ValueError, struct.error), kishu_shell.read_store, self.path("s"))


if __name__ == "__main__":
    if not IS_BUILT:
        print(f"{PROGRAM} isn't built, so the tests that run it are skipped", file=sys.stderr)
    unittest.main()
