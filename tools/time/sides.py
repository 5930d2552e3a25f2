"""Processes that answer lines, side by side: sessions of the program, and Python processes that keep the same names."""
import json
import subprocess
import sys
import time

from store_runs import memory_of  # which also leads to the modules of compare
from reads import bytes_read

# A cell makes so many nodes at most, well within its steps.
NODES_OF_A_CELL = 100_000


def making(name, nodes):
    """The cells that make a group of so many nodes: lists in a list."""
    yield f"{name} = []"
    for start in range(1, nodes, NODES_OF_A_CELL):
        yield f"for i in range({start}, {min(nodes, start + NODES_OF_A_CELL)}):\n    {name}.append([i])"


class Side:
    """A process that gets lines, and answers each by one."""

    def __init__(self, words):
        self.child = subprocess.Popen(words, stdin=subprocess.PIPE, stdout=subprocess.PIPE)

    def took(self, lines):
        """The time until all of some lines are answered, by the clock in seconds, and the last answer."""
        given = b"".join(json.dumps(line).encode() + b"\n" for line in lines)
        begun = time.perf_counter()
        self.child.stdin.write(given)
        self.child.stdin.flush()
        for _ in lines:
            answer = self.child.stdout.readline()
        spent = time.perf_counter() - begun
        if not answer.endswith(b"\n"):
            sys.exit(f"a process ended with {self.child.wait()} before all was answered")
        return spent, json.loads(answer)

    def ran(self, text):
        """The time of a cell, which has to end well."""
        spent, answer = self.took([{"op": "cell", "text": text}])
        if answer.get("outcome") != "ok":
            sys.exit(f"{text!r} is answered {answer}")
        return spent

    def moved(self, to):
        """The time of a checkout, and the bytes that it read besides its line."""
        line = {"op": "checkout", "to": str(to)}
        before = bytes_read(self.child)
        spent, answer = self.took([line])
        if answer.get("commit") != to:
            sys.exit(f"{line} is answered {answer}")
        return spent, bytes_read(self.child) - before - len(json.dumps(line)) - 1

    def memory(self):
        """The most memory that the process had so far, in MB."""
        return memory_of(self.child)

    def ended(self):
        self.child.stdin.close()
        if self.child.wait() != 0:
            sys.exit(f"a process ended with {self.child.returncode}")
