"""Steps of a session for play.py, and what the model wants of the program at each; README.md, docs/LINES.md,
docs/NOTEBOOKS.md and docs/STORE.md say which runs there are and how they end.

A step is a tuple. Steps of the run that is open: ("line", LINE) asks one request, ("compare",) looks at the file,
("second",) starts another run beside it, ("end",) and ("kill",) end it, and the next line opens the store again.

Runs of their own: ("words", WORDS, INPUT), where the word `STORE` stands for the store's path; ("muted", WORDS, INPUT)
with an output that takes nothing, ("deaf", WORDS) with an input that gives nothing, ("nowhere", WORDS, INPUT) on a path
at which there can be no file; ("harmed", BYTES, LINES, TOLD, ERROR) is a session over another file, which is damaged.

What is done to the file: ("junk", BYTES) puts bytes behind the closed gate; ("shut", COUNT, BYTE) closes the gate behind
so many records; ("cut", BYTES) leaves at most 17 bytes; ("full", COUNT) begins with so many records. What stands before
("given",) is never seen by the program, which gets the file that the model wrote, and ("rewritten", KIND, TEXTS) gives
it one that no run makes now.
"""
import re

from machine import LONGEST_CELL, Model
from notebooks import LONGEST, NotRun, read_notebook

DONE = (0, b"")
USAGE = (2, b"usage: kishu STORE COMMAND\n")
REFUSED = 4
DISK = (5, b"disk fault\n")
INPUT = (6, b"input fault\n")
OUTPUT = (7, b"output fault\n")
LONG = (9, b"input too long\n")
LONGEST_LINE = 16_777_216
COUNTS = {
    "session": (0,), "cell": (0,), "run": (0,), "log": (0,), "status": (0,), "inspect": (0,), "checkout": (1,), "branch": (1, 2),
    "gen": (2,),
}
READERS = ("session", "cell", "run")


def form_of(words):
    """The command, its arguments and whether `--together` is said, or None where the words have no form."""
    plain = [word for word in words if word != "--together"]
    together = len(words) - len(plain)
    if len(plain) < 2 or any(not word or word.startswith("-") for word in plain):
        return None
    command, arguments = plain[1], plain[2:]
    if len(arguments) not in COUNTS.get(command, ()) or together > (command == "run"):
        return None
    if command == "gen":
        limits = (2**31 - 1, 100_000)
        if not all(re.fullmatch("0|[1-9][0-9]{0,9}", word) and int(word) <= limit for word, limit in zip(arguments, limits)):
            return None
    return command, arguments, together > 0


def lines_of(data):
    """The lines of an input; behind the last line feed one stands where it isn't empty."""
    lines = data.split(b"\n")
    return lines if lines[-1] else lines[:-1]


class Script:
    """A model that takes steps, and what it wants of the program at each."""

    def __init__(self, begun):
        self.begun, self.model = begun, Model(begun)
        self.steps, self.wanted = [], []
        self.opened = False

    def open(self):
        if not self.opened:
            self.model.open()
            self.opened = True

    def take(self, step):
        self.steps.append(step)
        self.wanted.append(getattr(self, "take_" + step[0])(*step[1:]))
        return self.wanted[-1]

    # Steps of the open run.

    def take_line(self, line):
        self.open()
        return self.model.answer(line)

    def take_compare(self):
        return bytes(self.model.file.data)

    def take_second(self):
        return DISK, self.take_compare()

    def take_end(self):
        self.opened = False
        return self.take_compare()

    take_kill = take_given = take_end

    # What is done to the file.

    def take_rewritten(self, kind, texts):
        self.model.rewrite(kind, texts)
        return self.take_end()

    def take_full(self, count):
        self.model.file.fill(count)
        return self.take_end()

    def take_shut(self, count, byte):
        self.model.shut(count, byte)
        return self.take_end()

    def take_cut(self, data):
        self.model = Model(data)
        return self.take_end()

    def take_junk(self, junk):
        self.model.file.leave(junk)
        return self.take_compare()

    # Runs of their own: the output, the status with its text, and the file.

    def take_harmed(self, *_):
        return self.take_compare()

    def take_words(self, words, data):
        told, end = self.run(words, data)
        return told, end, self.take_compare()

    def take_muted(self, words, data):
        """The first answer that goes out ends the run, but for what stands before it."""
        form = form_of(words)
        if form and form[0] == "session":
            data = b"".join(line + b"\n" for line in lines_of(data)[:1])
        told, end = self.run(words, data)
        return b"", OUTPUT if told else end, self.take_compare()

    def take_deaf(self, words):
        form = form_of(words)
        if not form or form[0] not in READERS:
            return self.take_words(words, b"")
        if form[0] == "session":
            self.run(words, b"")
        return b"", INPUT, self.take_compare()

    def take_nowhere(self, words, data):
        return b"", self.unfit(words, data) or DISK, self.take_compare()

    def unfit(self, words, data):
        """How a run ends that doesn't come to its store, or None."""
        form = form_of(words)
        if not form:
            return USAGE
        if form[0] == "cell" and len(data) > LONGEST_CELL or form[0] == "run" and len(data) >= LONGEST:
            return LONG
        if form[0] == "run":
            try:
                read_notebook(data)
            except NotRun as fault:
                return REFUSED, f"notebook refused: {fault}\n".encode()
        return None

    def run(self, words, data):
        """The output of a run, and its status with its text."""
        end = self.unfit(words, data)
        if end:
            return b"", end
        self.open()
        self.opened = False
        command, arguments, together = form_of(words)
        model = self.model
        if command == "session":
            return self.session(data)
        if command == "run":
            return model.run_notebook(read_notebook(data), together), DONE
        if command == "cell":
            return model.cell_of_input(data), DONE
        if command == "gen":
            return model.generate(*map(int, arguments)), DONE
        if command == "branch":
            return model.ask(dict(zip(("op", "name", "at"), [command] + arguments))), DONE
        return model.ask(dict(zip(("op", "to"), [command] + arguments))), DONE

    def session(self, data):
        told = b""
        for line in lines_of(data):
            if len(line) >= LONGEST_LINE:
                return told, LONG
            told += self.model.answer(line)
        return told, DONE


def again(begun, steps):
    """The script of given steps."""
    script = Script(begun)
    for step in steps:
        script.take(step)
    return script


def fits(steps):
    """Whether no run is open where a step wants none, and the last step ends one."""
    opened = False
    for step in steps:
        if step[0] in ("line", "compare", "second"):
            if step[0] == "second" and not opened:
                return False
            opened = opened or step[0] == "line"
        elif step[0] in ("end", "kill", "given", "rewritten"):
            opened = False
        elif opened:
            return False
    return not opened
