#!/usr/bin/env python3
"""Has Kishu read, set and write notebooks that nbformat makes, and compares what it wrote with a reading of its own of the rules.

Usage: /usr/bin/python3 tools/compare/notebooks.py [COUNT [SEED]] [--program PROGRAM]
                                                                       (200 notebooks of seed 1 where no numbers are given)

The Python that runs it needs nbformat, as Debian's has it after `apt-get install python3-nbformat`; without it the script says so
and ends with status 0. It needs `rt`, too, for the driver (notebook_driver.py). Notebooks come from notebook_cases.py: cells of each
kind, with attachments, pictures, HTML, tracebacks in colour, state of widgets and nested metadata, in files as Jupyter writes them
and in others. In most, results are set in code cells, with the cell's own source in them.

Compared is every byte that comes out, with what Python's json writes of the notebook after a reading of the rules; then nbformat's
validator looks at it. After each notebook comes one that is to be refused, made of it: by a number that isn't whole, by NaN, by an
older version, by an id that is repeated or missing, or by a cell without metadata. Its reason is compared.

With PROGRAM, the built program, each notebook is also run, by `run` and by `run --together`, on a new store: as it is, and with cells
that have a meaning. Every byte that is written is compared with what notebook_rules.py makes of it, by CPython where it is known
that both languages mean the cells alike, and else by what a session of the same program answers to the same cells; nbformat's
validator looks at it, and `log` has to tell just the commits of the cells that ran. A notebook that is to be refused is run, too:
then the reason is compared, and no store is made. Where `jupyter nbconvert`
is there, it makes pages of twenty of them, as they were and as they came out: where nothing was set the pages are the same. The
script ends with status 1 at the first notebook that differs, whose files it leaves behind.
"""
import argparse
import collections
import copy
import json
import pathlib
import shutil
import subprocess
import sys
import tempfile

try:
    import nbformat
except ImportError:
    print("skipped: this Python has no nbformat (apt-get install python3-nbformat, and run by /usr/bin/python3)")
    sys.exit(0)

import notebook_cases
import notebook_rules
import python_cells
import session_rules
from notebook_driver import REFUSED, driver

SECONDS = 60
# So many are opened by nbconvert.
OPENED = 20


def differs(why, **files):
    """Ends the script, and keeps the files of the case."""
    folder = pathlib.Path(tempfile.mkdtemp(prefix="notebooks-"))
    for name, content in files.items():
        (folder / name).write_bytes(content)
    sys.exit(f"{why}: {folder}")


def run(program, plan, given):
    return subprocess.run([program, plan], input=given, capture_output=True, timeout=SECONDS)


def validate(given, got):
    """Has nbformat look at what was written."""
    try:
        found = json.loads(got)
        found.pop("more", None)
        nbformat.validate(found)
    except nbformat.ValidationError as error:
        differs(f"nbformat complains: {error}", given=given, got=got)


def written(program, made, maker, counts):
    """Compares what comes out of a notebook. Its file."""
    given, plan = maker.bytes_of(made), maker.plan()
    wanted, changed = notebook_cases.with_results(json.loads(given), plan)
    done = run(program, plan, given)
    if done.returncode != 0 or done.stdout != notebook_cases.pretty(wanted):
        differs(f"status {done.returncode}, plan {plan}", given=given, wanted=notebook_cases.pretty(wanted), got=done.stdout)
    validate(given, done.stdout)
    counts["cells"] += len(made["cells"])
    counts["results"] += changed
    counts["bytes"] += len(given)
    return given


def compare_refused(program, made, maker, which, counts):
    """What is told of a notebook that is to be refused."""
    made, reason = notebook_cases.refused(made, maker, which)
    given = json.dumps(made, ensure_ascii=False, indent=1).encode()
    done = run(program, maker.plan(), given)
    if (done.returncode, done.stdout) != (REFUSED, reason.encode() + b"\n"):
        differs(f"status {done.returncode}, {done.stdout[:100]!r}, not {reason}", given=given)
    counts[f"refused: {which}"] += 1
    return given, reason


# Runs.

CELLS = [
    "x = 7", "x = 7", "print(x)", "total = 0\nfor i in range(3):\n    total += i\ntotal", "[x, total]", "# a note", "", "y = {'k': [1]}\ny",
    "print('\u00e9 \u4e2d', end='')", "y['k'].append(x)\nprint(y)", "def f(n):\n    return n + total\nf(2)", "x += 1\nx",
]
FAILING = ["1 // 0", "missing", "raise ValueError('no')", "x = = 1", "n = 0\nwhile True: n += 1"]


def with_cells(made, maker):
    """The notebook with code cells that have a meaning; now and then one isn't ok."""
    made = copy.deepcopy(made)
    for cell in made["cells"]:
        if cell["cell_type"] == "code":
            cell["source"] = maker.random.choice(FAILING if maker.random.random() < 0.05 else CELLS)
    return made


class Told:
    """What the program answers to requests: each in a session with those before it."""

    def __init__(self, program, store):
        self.program, self.store = program, store

    def __call__(self, request):
        return self.lines([request])[0]

    def lines(self, requests):
        data = b"".join(json.dumps(request).encode() + b"\n" for request in requests)
        done = subprocess.run([self.program, self.store, "session"], input=data, capture_output=True, timeout=SECONDS)
        return [json.loads(line) for line in done.stdout.splitlines()]


def wanted_of(program, folder, value, together):
    """The notebook behind a run, and the numbers of cells of the commits that the run makes, the last one first."""
    sizes = []
    for alike in (True, False):
        told = session_rules.Session(None).told if alike else Told(program, folder / "asked")

        def noted(request, told=told):
            answer = told(request)
            sizes.insert(0, len(answer["results"]) if "results" in answer else 1)
            return answer

        try:
            sizes.clear()
            return notebook_rules.run(value, together, noted), sizes, alike
        except python_cells.Unlike:
            pass


def compare_run(program, folder, given, together, counts):
    """Runs a notebook on a new store, and compares what is written and which commits are there then."""
    value, words = notebook_rules.read(given), ["run", "--together"] if together else ["run"]
    wanted, sizes, alike = wanted_of(program, folder, value, together)
    store = folder / "ran"
    done = subprocess.run([program, store, *words], input=given, capture_output=True, timeout=SECONDS)
    if done.returncode != 0 or done.stdout != notebook_rules.pretty(wanted):
        differs(f"status {done.returncode}, {words}", given=given, wanted=notebook_rules.pretty(wanted), got=done.stdout)
    validate(given, done.stdout)
    log = Told(program, store)({"op": "log"})
    if [row["cells"] for row in log["path"]] != sizes:
        differs(f"log tells {log}, and the run of {words} makes commits of {sizes} cells", given=given)
    for name in ("ran", "asked"):
        (folder / name).unlink(missing_ok=True)
    counts["runs"] += 1
    counts["cells run"] += sum(sizes)
    counts["runs by CPython's word"] += alike


def compare_runs(program, folder, made, given, maker, counts):
    for content in (given, maker.bytes_of(with_cells(made, maker))):
        for together in (False, True):
            compare_run(program, folder, content, together, counts)


def compare_refused_run(program, folder, given, reason, counts):
    """A notebook that is refused: its reason is told, and there is no store."""
    store = folder / "none"
    done = subprocess.run([program, store, "run"], input=given, capture_output=True, timeout=SECONDS)
    if (done.returncode, done.stdout, done.stderr) != (4, b"", b"notebook refused: %s\n" % reason.encode()) or store.exists():
        differs(f"status {done.returncode}, {done.stderr!r}, not {reason}", given=given, got=done.stdout)
    counts["runs refused"] += 1


def opened(folder, content):
    """A notebook as nbconvert makes a page of it; None where it can't."""
    file = folder / "made.ipynb"
    file.write_bytes(content)
    done = subprocess.run(["jupyter", "nbconvert", "--to", "html", "--stdout", file], capture_output=True, timeout=10 * SECONDS)
    return done.stdout if done.returncode == 0 else None


def compare_opened(folder, program, given, counts):
    """Has nbconvert open a notebook that it can: as it was, with its keys in order; behind Kishu, which is the same page; with results."""
    page = opened(folder, notebook_cases.pretty(json.loads(given)))
    if page is None:
        counts["not opened, nor before"] += 1
        return
    kept, results = (run(program, plan, given).stdout for plan in ("k", "b"))
    if opened(folder, kept) != page:
        differs("nbconvert makes another page", given=given, got=kept)
    if opened(folder, results) is None:
        differs("nbconvert doesn't open it", given=given, got=results)
    counts["opened"] += 1


def read_words():
    words = argparse.ArgumentParser(usage=__doc__)
    words.add_argument("count", type=int, nargs="?", default=200)
    words.add_argument("seed", type=int, nargs="?", default=1)
    words.add_argument("--program", type=pathlib.Path)
    return words.parse_args()


def main():
    told = read_words()
    maker, counts = notebook_cases.Maker(told.seed), collections.Counter()
    runs_of = notebook_cases.Maker(-told.seed)
    program = told.program and told.program.resolve()
    with tempfile.TemporaryDirectory() as name:
        folder = pathlib.Path(name)
        setter = driver(folder)
        for k in range(told.count):
            made = maker.notebook()
            given = written(setter, made, maker, counts)
            counts["notebooks"] += 1
            if program:
                compare_runs(program, folder, made, given, runs_of, counts)
            which = notebook_cases.REFUSED[k % len(notebook_cases.REFUSED)]
            if which in ("float", "NaN", "oldest") or len(made["cells"]) > 1:
                refused = compare_refused(setter, made, maker, which, counts)
                if program:
                    compare_refused_run(program, folder, *refused, counts)
            if k % max(1, told.count // OPENED) == 0 and shutil.which("jupyter"):
                compare_opened(folder, setter, given, counts)
        if "opened" not in counts:
            print("nothing was opened: jupyter nbconvert isn't there")
    print(", ".join(f"{what} {many}" for what, many in counts.items()))


if __name__ == "__main__":
    main()
