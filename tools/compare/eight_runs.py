#!/usr/bin/env python3
"""Runs Kishu eight times at once on one store, and looks whether an acknowledged cell is lost.

Usage: tools/compare/eight_runs.py PROGRAM [RUNNERS CELLS]      (8 and 40 where no numbers are given)

PROGRAM is the built program, crates/kishu_cli/out/kishu_cli. The store is on a real file, and new. The runners
begin at once, and each gives the program its cells, one after another, a run each. One run at a time may be at
the store, so a run either commits its cell and answers, or ends with status 5 and `disk fault`, and no answer.

Then one more run, by itself, tells which cells the store holds: those that were answered, each once, in the order
of their commits, and no others. So no answer is lost, no cell of a run that ended with status 5 is there, and the
store is good.
"""
import json
import subprocess
import sys
import tempfile
import threading

HELD = 5
TEXT_OF_HELD = b"disk fault\n"
SECONDS = 120


def cell_of(mark):
    """A cell that adds its mark to those of the cells before it."""
    return f"try: seen.append({mark})\nexcept NameError: seen = [{mark}]"


def run(program, store, text):
    return subprocess.run([program, store, "cell"], input=text.encode(), capture_output=True, timeout=SECONDS)


def told(done):
    """Whether a run ended in another way than by an answer or by status 5, and how."""
    if done.returncode == 0 and done.stdout.endswith(b"\n"):
        answer = json.loads(done.stdout)
        if answer["answer"] == "cell" and answer["outcome"] == "ok" and answer["outputs"] == []:
            return None
    if done.returncode == HELD and done.stdout == b"" and done.stderr == TEXT_OF_HELD:
        return None
    return f"status {done.returncode}, {done.stdout!r}, {done.stderr!r}"


class Runner(threading.Thread):
    """Gives the program its cells. What its runs answered stands in `answers`, each commit with its mark."""

    def __init__(self, number, program, store, cells, start):
        super().__init__()
        self.marks = [number * cells + i for i in range(cells)]
        self.program = program
        self.store = store
        self.start_of_all = start
        self.answers = []
        self.held = 0
        self.fault = None

    def run(self):
        self.start_of_all.wait()
        for mark in self.marks:
            try:
                done = run(self.program, self.store, cell_of(mark))
                self.fault = told(done)
            except (OSError, subprocess.TimeoutExpired, ValueError, LookupError, TypeError) as error:
                self.fault = repr(error)
            if self.fault is not None:
                self.fault = f"the run of cell {mark} ended otherwise: {self.fault}"
                return
            if done.returncode == HELD:
                self.held += 1
            else:
                self.answers.append((json.loads(done.stdout)["commit"], mark))


def seen_by_one_more(program, store):
    """The number of the commit of one more cell, and the marks that it sees."""
    done = run(program, store, "print(seen)")
    if done.returncode != 0:
        sys.exit(f"the store isn't good: one more run ended with {done.returncode}: {done.stderr.decode()}")
    answer = json.loads(done.stdout)
    if answer["outcome"] != "ok" or answer["commit"] != answer["count"]:
        sys.exit(f"one more run answered {done.stdout.decode()}")
    return answer["commit"], json.loads(answer["outputs"][0]["text"])


def main():
    if len(sys.argv) not in (2, 4):
        sys.exit("usage: tools/compare/eight_runs.py PROGRAM [RUNNERS CELLS]")
    program = sys.argv[1]
    count, cells = (int(word) for word in sys.argv[2:]) if len(sys.argv) == 4 else (8, 40)
    with tempfile.TemporaryDirectory() as folder:
        store = f"{folder}/store.kishu"
        start = threading.Barrier(count)
        runners = [Runner(i, program, store, cells, start) for i in range(count)]
        for runner in runners:
            runner.start()
        for runner in runners:
            runner.join()
        answers = sorted(answer for runner in runners for answer in runner.answers)
        held = sum(runner.held for runner in runners)
        faults = [runner.fault for runner in runners if runner.fault is not None]
        if faults:
            sys.exit("\n".join(faults))
        if [commit for commit, mark in answers] != list(range(1, len(answers) + 1)):
            sys.exit(f"the commits that were answered aren't 1, 2, ..: {[commit for commit, mark in answers]}")
        if not answers:
            sys.exit("no run answered")
        commit, seen = seen_by_one_more(program, store)
        if commit != len(answers) + 1 or seen != [mark for commit_of, mark in answers]:
            sys.exit(f"{len(answers)} cells were answered, and the store held {commit - 1}: {seen}, not {answers}")
    if held == 0:
        sys.exit("no run found the store held by another, so nothing was tried: take more cells")
    print(
        f"{count} runners at once, {cells} cells each: {len(answers)} cells answered, and all in the store; "
        f"{held} runs found it held and ended with status {HELD}"
    )


if __name__ == "__main__":
    main()
