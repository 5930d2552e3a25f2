#!/usr/bin/env python3
"""Hands Kishu bytes that are hardly stores, request lines, notebooks or pictures, and compares what it answers with a reading of its own.

Usage: tools/fuzz/fuzz.py [--long] [--seed SEED] [--jobs JOBS] [--only KIND] [--drivers FOLDER] [--keep FOLDER]
       tools/fuzz/fuzz.py --program PROGRAM ..         the same by the built program, which runs over files; it loads no pictures by themselves
       tools/fuzz/fuzz.py --show KIND K [--seed SEED]  shows the inputs of portion K, whole

Without --drivers the drivers are made, proved and built by `rt`, which is quick where the program is built (fuzz_driver.py); --keep puts
them there. The short form has some 16,000 inputs, the long one 1,000,000. What portion K of a kind has depends on the
seed and on these two alone, whatever the number of jobs.

- pictures: good pictures of which fields are changed, with the lengths before them mended, or left out, doubled and moved, and any other
  change of bytes, are loaded. The place of the fault, or the number of nodes.
- stores: good stores and older ones, of which a record is changed, a picture among these, and its lengths mended; records and gates that
  are left out, doubled, moved, put in, opened and closed; markers; cut ends; any change of bytes. Each is opened and asked: where it
  stands, what is bound, plans, checkouts, a cell. Status, text, output and every byte of the file.
- lines: 240 lines a session, good requests and ones with changed bytes, keys, values, escapes, brackets. Each answer, and the records of
  the file. What a cell of changed text gives is taken as it is answered.
- notebooks: good notebooks with changed values, keys, depth and bytes. The reason of a refusal, or the notebook that is written.

Each answer has to come within a second of the processor, from a process that gets 1 GiB of addresses. What isn't known to be meant alike
is handed over too, and counted as left out. The exit is 1 where something differs, a process ends, or an answer comes late.
"""
import argparse
import collections
import multiprocessing
import os
import random
import sys
import tempfile
import time

import paths  # noqa: F401
import fuzz_driver
import line_inputs
import notebook_inputs
import picture_inputs
import python_cells
import store_inputs
from program_runs import Program

# The portions of the two forms, and how many inputs each has.
KINDS = {"pictures": (10, 900, 500), "stores": (10, 750, 200), "lines": (10, 500, 600), "notebooks": (10, 500, 200)}
WRONG, MOST_SHOWN = "WRONG", 5


def driver_of(kind):
    """The driver that the inputs of a kind are handed to."""
    return "load_driver" if kind == "pictures" else "run_driver"


def portion_of(seed, kind, number):
    return random.Random(f"{seed} {kind} {number}")


def told(error):
    return " ".join(repr(part)[:300] for part in error.args)


def picture_case(rng, driver):
    """The input, and how it ended."""
    data = picture_inputs.picture_input(rng)
    found = driver.loaded(data)
    try:
        wanted = picture_inputs.expected(data)
    except python_cells.Unlike:
        return data, "left out", 1
    line_inputs.expect("a load", found, wanted)
    return data, "a picture" if found[0] == 0 else "no picture", 1


def store_case(rng, driver):
    data = store_inputs.store_input(rng)
    words, lines = store_inputs.asked(rng, data)
    found = driver.ran(words, lines, data)
    try:
        wanted = store_inputs.expected(words, lines, data)
    except python_cells.Unlike:
        return (data, words, lines), "left out", 1
    if not line_inputs.is_shown_alike(found[2]):
        return (data, words, lines), "left out", 1
    line_inputs.expect(f"a store asked {words} {lines!r}", found, wanted)
    return (data, words, lines), {0: "a store", 3: found[1].decode().rstrip("0123456789 \n")}.get(found[0], str(found[0])), 1


def line_case(rng, driver):
    data = line_inputs.lines_input(rng)
    status, text, out, file = driver.ran(["S", "session"], data, b"")
    line_inputs.expect("a session's status", (status, text), (0, b""))
    counts = line_inputs.follow(data, out, file)
    return data, counts, sum(counts.values())


def notebook_case(rng, driver):
    data = notebook_inputs.notebook_input(rng)
    words = rng.choice([["S", "run"], ["S", "run", "--together"]])
    return (data, words), notebook_inputs.check(words, data, driver.ran(words, data, b"")), 1


CASES = {"pictures": picture_case, "stores": store_case, "lines": line_case, "notebooks": notebook_case}


def remembered(case, rng, driver):
    """A case, with the state of the chances before it, so that its input can be made anew where it fails."""
    before = rng.getstate()
    try:
        return case(rng, driver), None
    except (line_inputs.Differs, fuzz_driver.Stopped) as fault:
        again = random.Random()
        again.setstate(before)
        return None, (fault, again)


def portion(work):
    """One portion: what came of its inputs, the times, and what was wrong."""
    seed, kind, number, most, program, real = work
    driver = Program(program) if real else fuzz_driver.Driver(os.path.join(program, driver_of(kind)))
    rng, counts, wrong = portion_of(seed, kind, number), collections.Counter(), []
    while sum(counts.values()) < most:
        ended, fault = remembered(CASES[kind], rng, driver)
        if fault is None:
            counts.update(ended[1] if isinstance(ended[1], dict) else {ended[1]: ended[2]})
            continue
        counts[WRONG] += 1
        wrong.append(f"{kind} of seed {seed}, portion {number}, after {sum(counts.values()) - 1} inputs: {type(fault[0]).__name__} {told(fault[0])}\n  {made_again(kind, fault[1])[:2000]}")
    driver.end()
    return kind, counts, wrong, driver.slowest, driver.slow, driver.peak


class Silent:
    """In place of a driver, where only the input is wanted."""

    def loaded(self, data):
        raise Made(data)

    def ran(self, words, data, file):
        raise Made(words, data, file)


class Made(Exception):
    """The input that was made is the arguments."""


def made_again(kind, rng):
    """The input that comes of this state of the chances."""
    try:
        return CASES[kind](rng, Silent())[0]
    except Made as made:
        return " ".join(part.hex() if isinstance(part, bytes) else repr(part) for part in made.args)


def show(kind, number, seed):
    rng = portion_of(seed, kind, number)
    for _ in range(KINDS[kind][2]):
        print(made_again(kind, rng))


def options():
    parser = argparse.ArgumentParser(description=__doc__, formatter_class=argparse.RawDescriptionHelpFormatter)
    parser.add_argument("--long", action="store_true")
    parser.add_argument("--seed", type=int, default=1)
    parser.add_argument("--jobs", type=int, default=2)
    parser.add_argument("--only", choices=KINDS)
    parser.add_argument("--drivers")
    parser.add_argument("--program")
    parser.add_argument("--keep")
    parser.add_argument("--show", nargs=2)
    return parser.parse_args()


def kinds_of(given):
    """The kinds that are wanted. The program loads no pictures by themselves."""
    return [kind for kind in KINDS if given.only in (None, kind) and not (given.program and kind == "pictures")]


def run(given, program):
    """Hands over all portions, and tells what came of them. Whether all was right."""
    kinds, began = kinds_of(given), time.monotonic()
    works = [
        (given.seed, kind, number, KINDS[kind][2], program, bool(given.program))
        for kind in kinds for number in range(KINDS[kind][given.long])
    ]
    counts, shown, slowest, peak, slow = collections.defaultdict(collections.Counter), collections.Counter(), collections.Counter(), collections.Counter(), 0
    with multiprocessing.Pool(given.jobs) as pool:
        for kind, found, wrong, took, late, most in pool.imap_unordered(portion, works):
            counts[kind].update(found)
            slowest[kind], peak[kind], slow = max(slowest[kind], took), max(peak[kind], most), slow + late
            for text in wrong[: MOST_SHOWN - shown[kind]]:
                print(text, flush=True)
            shown[kind] += len(wrong)
    for kind in kinds:
        each = ", ".join(f"{count} {what}" for what, count in counts[kind].most_common())
        print(f"{kind} of seed {given.seed}: {sum(counts[kind].values())} inputs ({each}), the slowest {slowest[kind]:.3f} s, at most {peak[kind] / 1024:.0f} MiB")
    times = os.times()
    spent = times.user + times.system + times.children_user + times.children_system
    print(f"{sum(map(sum, (found.values() for found in counts.values())))} inputs, {sum(shown.values())} differ, {slow} late, {time.monotonic() - began:.0f} s, {spent:.0f} s of processors")
    return not slow and not any(shown.values())


def main():
    given = options()
    if given.show:
        return show(given.show[0], int(given.show[1]), given.seed)
    with tempfile.TemporaryDirectory() as folder:
        program = given.program or given.drivers or given.keep or folder
        if not given.program and not given.drivers:
            for name in dict.fromkeys(map(driver_of, kinds_of(given))):
                fuzz_driver.make(name, program)
        sys.exit(not run(given, os.path.abspath(program)))


if __name__ == "__main__":
    main()
