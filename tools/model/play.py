"""Random sessions on stores, played by the program and by a plain model beside it, with every answer line and every
byte of the store's file compared.

The model is a reading of docs/LANGUAGE.md, docs/LINES.md, docs/NOTEBOOKS.md, docs/STORE.md, docs/PICTURES.md and the
statuses of README.md. It takes nothing from the other tools. It has CPython run the cells (cells.py; reading.py,
calls.py, methods.py and values.py for what the language says of its own), keeps a copy of the whole state for each
commit and finds groups and changes from scratch (states.py), writes pictures and records byte by byte (store_bytes.py),
and answers requests and notebooks on these (machine.py, lines.py, notebooks.py). steps.py says which steps there are,
runs.py makes sessions of them; cell_forms.py, cell_texts.py, expressions.py, line_forms.py and notebook_forms.py make
cells, lines and notebooks.

    python3 tools/model/play.py --program PROGRAM [--cases COUNT] [--seed SEED] [--jobs JOBS]

A session is a store from its beginning, over some runs of the program: each run ends at the end of its input, or is
killed behind an answer, and the next one opens the store again; between them stand runs by other words, and harm done
to the file. The file is compared behind each run, now and then between two answers, and in every tenth session behind
each answer. Where something differs, the session is made shorter as long as something still does, and shown with its
steps; the status is 1 then. `--only SEED` plays one session again. spoilt.py looks that differences are seen.
"""
import argparse
import collections
import json
import multiprocessing
import os
import re
import subprocess
import sys
import tempfile
import threading
import traceback

from runs import make_script
from steps import again, fits

STACK = 512 << 20
BATCH = 30_000  # how many bytes of requests and answers may be under way
SLOWEST = 900  # how many seconds a run may take


class Differs(Exception):
    """An answer or a file that isn't the model's."""


class Player:
    """The program on one store, and what was counted."""

    def __init__(self, program, path, begun):
        self.program, self.path = program, path
        self.counts = collections.Counter()
        self.process, self.watch, self.waiting, self.size = None, None, [], 0
        if begun:
            self.put_file(begun)

    def put_file(self, data):
        if os.path.exists(self.path):
            os.unlink(self.path)
        with open(self.path, "wb") as file:
            file.write(data)

    def line(self, wanted, line):
        """Ask for an answer; many may be under way."""
        if not self.process:
            self.start()
        self.process.stdin.write(line + b"\n")
        self.waiting.append((line, wanted))
        self.size += len(line) + len(wanted)
        if self.size > BATCH:
            self.read()

    def start(self):
        words = [*self.program, self.path, "session"]
        self.process = subprocess.Popen(words, stdin=subprocess.PIPE, stdout=subprocess.PIPE, stderr=subprocess.PIPE)
        self.watch = threading.Timer(SLOWEST, self.process.kill)
        self.watch.start()

    def read(self):
        """Take all answers that are under way."""
        if self.process:
            self.process.stdin.flush()
        for line, wanted in self.waiting:
            got = self.next_answer()
            self.counts["bytes of answers"] += len(got)
            if got != wanted:
                raise Differs(f"answer to {line[:1000]!r}\n  program {got[:2000]!r}\n  model   {wanted[:2000]!r}")
        self.waiting, self.size = [], 0

    def next_answer(self):
        return self.process.stdout.readline()

    def file_bytes(self):
        if not os.path.exists(self.path):
            return b""
        with open(self.path, "rb") as file:
            return file.read()

    def compare(self, wanted):
        self.read()
        data = self.file_bytes()
        self.counts["files"] += 1
        self.counts["bytes of files"] += len(data)
        if data != wanted:
            place = next((i for i, (a, b) in enumerate(zip(data, wanted)) if a != b), min(len(data), len(wanted)))
            shown = slice(max(0, place - 40), place + 60)
            told = f"file at {place} of {len(data)} bytes, and {len(wanted)} of the model"
            raise Differs(f"{told}\n  program {data[shown]!r}\n  model   {wanted[shown]!r}")

    def end(self, wanted, killed=False):
        self.read()
        if self.process:
            if killed:
                self.process.kill()
            rest, told = self.process.communicate()
            self.watch.cancel()
            if not killed and (rest or told or self.process.returncode):
                raise Differs(f"end of a run: {rest!r} {told!r} status {self.process.returncode}")
            self.process = None
            self.counts["runs"] += 1
            self.compare(wanted)

    def kill(self, wanted):
        self.counts["kills"] += bool(self.process)
        self.end(wanted, True)

    def put(self, wanted, *_):
        """What was done to the file by hand between two runs."""
        self.put_file(wanted)

    given = rewritten = full = shut = junk = cut = put

    def harmed(self, wanted, data, lines, told, error):
        self.put_file(data)
        self.words((told, (3, error), data), ["STORE", "session"], lines)
        self.put_file(wanted)

    def second(self, wanted):
        self.read()
        end, file = wanted
        self.words((b"", end, file), ["STORE", "status"], b"")

    def words(self, wanted, words, data, path=None, **streams):
        """A run of its own: its output, its status with its text, and the file behind it."""
        told, end, file = wanted
        words = [(path or self.path) if word == "STORE" else word for word in words]
        streams = streams or {"input": data, "stdout": subprocess.PIPE}
        done = subprocess.run([*self.program, *words], stderr=subprocess.PIPE, check=False, timeout=SLOWEST, **streams)
        got = done.stdout or b"", (done.returncode, done.stderr)
        self.counts["runs"] += 1
        self.counts["bytes of answers"] += len(got[0])
        if got != (told, end):
            shown = "\n".join(f"  {name} {one[0][:5000]!r} {one[1]!r}" for name, one in (("program", got), ("model  ", (told, end))))
            raise Differs(f"run {words!r} over {data[:3000]!r}\n{shown}")
        self.compare(file)

    def muted(self, wanted, words, data):
        with open("/dev/full", "wb") as full:
            self.words(wanted, words, data, input=data, stdout=full)

    def deaf(self, wanted, words):
        folder = os.open(os.path.dirname(self.path), os.O_RDONLY)
        try:
            self.words(wanted, words, b"", stdin=folder, stdout=subprocess.PIPE)
        finally:
            os.close(folder)

    def nowhere(self, wanted, words, data):
        self.words(wanted, words, data, path=os.path.join(os.path.dirname(self.path), "missing", "store"))

    def stop(self):
        if self.process:
            self.watch.cancel()
            self.process.kill()
            self.process.communicate()


def play(program, folder, script):
    """Play a session; what was counted, and what differs or None."""
    path = os.path.join(folder, "store")
    if os.path.exists(path):
        os.unlink(path)
    player = Player(program, path, script.begun)
    count_script(player.counts, script)
    pairs = list(zip(script.steps, script.wanted))
    for place, step in enumerate(script.steps):
        if step[0] in ("given", "rewritten"):
            pairs = pairs[place:]
    try:
        for step, wanted in pairs:
            getattr(player, step[0])(wanted, *step[1:])
        return player.counts, None
    except Differs as difference:
        return player.counts, str(difference)
    except BrokenPipeError:
        return player.counts, "the program ended"
    except subprocess.TimeoutExpired as late:
        return player.counts, f"no end of {late.cmd!r}"
    finally:
        player.stop()


def count_script(counts, script):
    """Count what a session asks, and which ends, outcomes and refusals it has."""
    counts["sessions"] += 1
    for step, wanted in zip(script.steps, script.wanted):
        counts["steps: " + step[0]] += 1
        if step[0] == "line":
            count_answer(counts, wanted)
        elif step[0] in ("words", "muted", "deaf", "nowhere"):
            told, (_, error), _ = wanted
            counts["ends: " + (error.decode().split(":")[0].strip() or "done")] += 1
            for line in told.splitlines() if told.startswith(b'{"answer"') else []:
                count_answer(counts, line)


def count_answer(counts, line):
    answer = json.loads(line)
    counts["answers"] += 1
    counts["answers: " + answer["answer"]] += 1
    if answer["answer"] == "refused":
        counts["refusals: " + answer["reason"]] += 1
    for outcome in re.findall(rb'"outcome":"([a-z]+)"', line):
        counts["cells: " + outcome.decode()] += 1


def shorter(program, folder, script):
    """A session of fewer steps in which something differs still."""
    size = max(1, len(script.steps) // 2)
    while size:
        place = 0
        while place < len(script.steps):
            steps = script.steps[:place] + script.steps[place + size :]
            tried = again(script.begun, steps) if fits(steps) else None
            if tried and play(program, folder, tried)[1]:
                script = tried
            else:
                place += size
        size //= 2
    return script


def one_case(job):
    """Play one session: its counts, and the report of a difference or None."""
    program, seed, shrink = job
    result = []

    def body():
        try:
            with tempfile.TemporaryDirectory(dir="/dev/shm" if os.path.isdir("/dev/shm") else None) as folder:
                script = make_script(seed)
                counts, told = play(program, folder, script)
                if told and shrink:
                    script = shorter(program, folder, script)
                    told = play(program, folder, script)[1]
                if told:
                    shown = "".join("\n    " + " ".join(repr(part)[:1500] for part in step) for step in script.steps)
                    told = f"seed {seed}, file {script.begun!r}: {told}{shown}"
                result.append((counts, told))
        except BaseException as error:  # a fault of the model is told as a difference
            told = f"seed {seed}: the model failed: {error!r}\n{traceback.format_exc()[-1500:]}"
            result.append((collections.Counter(sessions=1), told))

    thread = threading.Thread(target=body)
    thread.start()
    thread.join()
    return result[0]


def prepare():
    """What a process needs for deep cells."""
    sys.setrecursionlimit(1_000_000)
    threading.stack_size(STACK)


def play_all(program, seeds, jobs):
    """Play sessions; what was counted, and how many differ."""
    total, differences = collections.Counter(), 0
    with multiprocessing.Pool(jobs, prepare) as pool:
        for counts, told in pool.imap_unordered(one_case, [(program, seed, True) for seed in seeds], chunksize=4):
            total.update(counts)
            if told:
                differences += 1
                print(told, flush=True)
            if total["sessions"] % 1000 == 0:
                print(f"{total['sessions']:,} sessions, {differences} differences", file=sys.stderr, flush=True)
    return total, differences


def report(total, differences):
    names = ["sessions", "runs", "answers", "bytes of answers", "files", "bytes of files", "kills"]
    print(", ".join(f"{total[name]:,} {name}" for name in names))
    for part in ("steps", "answers", "cells", "refusals", "ends"):
        rows = sorted((name[len(part) + 2 :], count) for name, count in total.items() if name.startswith(part + ": "))
        print(f"{part}: " + ", ".join(f"{count:,} {name}" for name, count in rows))
    print(f"{differences} differences")


def main():
    parser = argparse.ArgumentParser(description=__doc__.split("\n", maxsplit=1)[0])
    parser.add_argument("--program", required=True)
    parser.add_argument("--cases", type=int, default=200)
    parser.add_argument("--seed", default="1")
    parser.add_argument("--jobs", type=int, default=2)
    parser.add_argument("--only", help="the seed of one session, as a difference tells it")
    options = parser.parse_args()
    seeds = [options.only] if options.only else [f"{options.seed}.{number}" for number in range(options.cases)]
    total, differences = play_all([options.program], seeds, options.jobs)
    report(total, differences)
    return 1 if differences else 0


if __name__ == "__main__":
    sys.exit(main())
