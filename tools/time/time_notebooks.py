#!/usr/bin/env python3
"""Times the reading, setting and writing of notebooks of 2.5 MB and of 10 MB, and tells the memory.

Usage: tools/time/time_notebooks.py

No form of the program's words takes a notebook, so a program that isn't part of Kishu does it (notebook_driver.py of `compare`): it
reads the notebook, tells the texts of its code cells, and writes it. Each kind comes twice: nothing is set, and a result is set in
each code cell, which is that it printed its own source. Notebooks are as Jupyter writes them: a space a level, and texts as lists
of lines.

Time is that of the processor, and the least of five runs counts, less that of a notebook without cells. Where it grows linearly
the larger notebook takes four times as long. Where it takes more than five times as long, there are up to twenty runs more, so that
a busy machine weighs little. The memory is the most that the run has when it begins to write (VmHWM in /proc/PID/status, so this
needs Linux), less that of a run which waits for its notebook. Beside it stands the size of what is written, which has the results.

Where a ratio stays above five, or the memory is more than eight times the notebook's size, the script ends with status 1. But of the
last kinds only the ratio counts: they are all small cells and small values, and show what an object costs.
"""
import base64
import json
import math
import random
import select
import subprocess
import sys
import tempfile
import time

from store_runs import memory_of, run

from notebook_driver import driver

SMALL, LARGE = 2_500_000, 10_000_000
RUNS, MORE_RUNS = 5, 20
# The ratio for four times as much that is still taken for linear, and how much memory a notebook may take.
WORST, MOST_MEMORY = 5, 8
# What is set in the code cells: nothing, or what each printed, its own source.
PLANS = {"": "k", "set": "p"}


def code_cell(number, source, outputs):
    return {"cell_type": "code", "execution_count": number, "id": f"c{number}", "metadata": {}, "outputs": outputs, "source": source}


def lines(text):
    return text.splitlines(keepends=True)


def stream(text):
    return {"name": "stdout", "output_type": "stream", "text": lines(text)}


def picture(number, size):
    content = base64.b64encode(random.Random(number).randbytes(size * 3 // 4)).decode()
    data = {"image/png": content, "text/plain": ["<Figure size 640x480 with 1 Axes>"]}
    return {"data": data, "metadata": {"needs_background": "light"}, "output_type": "display_data"}


def table(number):
    rows = "".join(f"    <tr>\n      <th>{i}</th>\n      <td>{number * i % 997}</td>\n    </tr>\n" for i in range(20))
    data = {"text/html": lines(f"<table>\n{rows}</table>"), "text/plain": lines("   a\n0  1\n1  2")}
    return {"data": data, "execution_count": number, "metadata": {}, "output_type": "execute_result"}


def markdown_cell(number):
    text = f"## Part {number}\n\nWhat *follows* is the same again.\n"
    return {"cell_type": "markdown", "id": f"m{number}", "metadata": {}, "source": lines(text)}


SOURCE = "for row in rows:\n    total = total + row[1] * 2\n    print(row, total)\n\ntotal"


def mixed(number):
    """A cell of a notebook that has some of each."""
    kind = number % 6
    if kind == 0:
        return markdown_cell(number)
    outputs = [[], [stream("a line of output\n" * 30)], [picture(number, 30_000)], [table(number)], [stream("done\n")]][kind - 1]
    return code_cell(number, lines(SOURCE), outputs)


def notebook(cells, metadata):
    value = {"cells": cells, "metadata": metadata, "nbformat": 4, "nbformat_minor": 5}
    return (json.dumps(value, indent=1, ensure_ascii=False) + "\n").encode()


def of_cells(cell):
    """A kind of notebook: so many cells as make a size."""

    def made(size):
        some = len(notebook([cell(number) for number in range(600)], {})) / 600
        return notebook([cell(number) for number in range(int(size / some))], {})

    return made


def of_metadata(metadata, a_piece):
    """A kind of notebook: metadata of so many pieces as make a size."""
    return lambda size: notebook([], metadata(int(size / a_piece)))


AS_JUPYTER = {
    "some of each": of_cells(mixed),
    "pictures of 100 KB": of_cells(lambda number: code_cell(number, lines("plot(rows)"), [picture(number, 100_000)])),
    "printed lines": of_cells(lambda number: code_cell(number, lines(SOURCE), [stream("row 17 of 40: (3, 'abc', None)\n" * 400)])),
    "tables": of_cells(lambda number: code_cell(number, lines("rows"), [table(number)])),
    "one cell of one text": lambda size: notebook([code_cell(1, "x = 1\n" * (size // 7), [])], {}),
}
SMALL_VALUES = {
    "markdown of 3 lines": of_cells(markdown_cell),
    "code of 5 lines": of_cells(lambda number: code_cell(number, lines(SOURCE), [])),
    "cells of one name": of_cells(lambda number: code_cell(number, ["x"], [])),
    "metadata of numbers": of_metadata(lambda count: {"a": [7] * count}, 6),
    "metadata of keys": of_metadata(lambda count: {f"k{i}": None for i in range(count)}, 16.8),
    "metadata of brackets": of_metadata(lambda count: {"a": [[]] * count}, 7),
}


def wait_memory(program):
    """The most memory of a run that waits for its notebook, in MB."""
    child = subprocess.Popen([program], stdin=subprocess.PIPE, stdout=subprocess.DEVNULL)
    time.sleep(0.5)
    memory = memory_of(child)
    child.kill()
    child.wait()
    return memory


def write_memory(words, given):
    """The most memory of a run until it writes the notebook, in MB, and the size of that.

    Where it doesn't fit into a pipe, the run waits there; where it does, the run may have ended before its memory is asked for.
    """
    with tempfile.TemporaryFile() as entered:
        entered.write(given)
        entered.seek(0)
        child = subprocess.Popen(words, stdin=entered, stdout=subprocess.PIPE)
        select.select([child.stdout], [], [])
        try:
            memory = memory_of(child)
        except StopIteration:
            memory = None
        written = len(child.stdout.read())
        if child.wait() != 0:
            sys.exit(f"the run ended with {child.returncode}")
        return memory, written / 10**6


def least(words, texts, empty):
    """The least time of each text, in seconds, less that of an empty run. Their runs take turns."""
    times = [math.inf] * len(texts)
    for turn in range(RUNS + MORE_RUNS):
        if turn >= RUNS and times[1] - empty <= WORST * (times[0] - empty):
            break
        for place, given in enumerate(texts):
            times[place] = min(times[place], run(words, given)[1])
    return [found - empty for found in times]


def report(program, kind, texts, empty, waiting):
    """Prints the rows of a kind. The ratios, and how much memory a byte of the notebook takes."""
    found = []
    for name, plan in PLANS.items():
        small, large = least([program, plan], texts, empty)
        sizes = [len(given) / 10**6 for given in texts]
        # The sizes are near to what was asked for.
        ratio = large / small * (LARGE / SMALL) / (sizes[1] / sizes[0])
        memory, written = write_memory([program, plan], texts[1])
        memory = (memory - waiting) / sizes[1] if memory else math.nan
        found.append((ratio, memory))
        times = f"{sizes[0]:>5.2f} MB {small * 1000:>6.1f} ms   {sizes[1]:>5.2f} MB {large * 1000:>6.1f} ms   ratio {ratio:.2f}"
        print(f"{kind:<22} {name:<4} {times}   written {written:>5.2f} MB   memory {memory:>5.2f} times", flush=True)
    return found


def main():
    with tempfile.TemporaryDirectory() as folder:
        program = driver(folder)
        nothing = notebook([], {})
        empty = min(run([program], nothing)[1] for _ in range(RUNS))
        waiting = wait_memory(program)
        print(f"a run without cells: {empty * 1000:.1f} ms; a run that waits: {waiting:.1f} MB", flush=True)
        ratios, memories = [], []
        for kind, made in {**AS_JUPYTER, **SMALL_VALUES}.items():
            for ratio, memory in report(program, kind, (made(SMALL), made(LARGE)), empty, waiting):
                ratios.append(ratio)
                memories += [memory] if kind in AS_JUPYTER and not math.isnan(memory) else []
    sys.exit(0 if max(ratios) <= WORST and max(memories) <= MOST_MEMORY else 1)


if __name__ == "__main__":
    main()
