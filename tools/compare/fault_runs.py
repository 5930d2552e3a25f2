#!/usr/bin/env python3
"""Has each system call of a session fail once, and kills a session once at each, and looks whether anything that was acknowledged is lost.

Usage: tools/compare/fault_runs.py PROGRAM

PROGRAM is the built program, crates/kishu_cli/out/kishu_cli. `strace` (Debian's package of that name) gives the faults: for the name of
each system call that a session makes, and for n from 1 on, the n-th call of that name isn't made and fails with EIO, and then the run is
killed as it enters that call, until a run ends without one. So it goes for all calls from the program's first to its last, those by which
it is loaded and gets memory too; only `execve` and `exit_group`, which begin and end it, are left alone. There are two sessions, of which
both move between commits and branches: one on no file, and one that goes on with a store.

After each run the output has to be a prefix of the answers, and the store, read by store_rules.py, has to hold the records of the answered
requests in order, and at most that of the next request besides; `log` and `status` by runs without a fault tell just these. The status
is 5 where the call was made at the store or its folder, 6 at the input and 7 at the output; a `close` of these that fails changes nothing.
Where it was another call, the session may end in any way, and with status 0 just where all is answered.
"""
import argparse
import os
import re
import signal
import subprocess
import sys
import tempfile

from kill_runs import Plan, content, look_at, look_at_told
from store_rules import Damaged

NOT_TRIED = ("execve", "exit_group")
STATUS_AT = {"store": 5, "input": 6, "output": 7, "close": 0}
NEW = [
    {"op": "cell", "text": "a = [1]; b = a; c = [a, 2]; d = [4]"},
    {"op": "branch", "name": "try"},
    {"op": "cell", "text": "b.append(3); e = [b]"},
    {"op": "checkout", "to": "1"},
    {"op": "cells", "texts": ["c[0] = 0", "print(a, c)", "a // 0"]},
    {"op": "checkout", "to": "main"},
    {"op": "plan", "to": "try"},
    {"op": "branch", "name": "try"},
    {"op": "checkout", "to": "try"},
    {"op": "cell", "text": "d[0] = 4"},
    {"op": "stored", "of": "try"},
    {"op": "status"},
]
MORE = [
    {"op": "checkout", "to": "main"},
    {"op": "cell", "text": "print(e[0] is a)"},
    {"op": "branch", "name": "way", "at": "0"},
    {"op": "checkout", "to": "way"},
    {"op": "fly"},
    {"op": "cell", "text": "f = [[], []]"},
    {"op": "checkout", "to": "try"},
    {"op": "cell", "text": "del d; a.append(c)"},
    {"op": "log"},
]


class Fault:
    """A fault at the n-th call of a name: its failure, or the end of the process."""

    def __init__(self, name, number, kills):
        self.name, self.number, self.kills = name, number, kills

    def words(self):
        return ["-e", f"inject={self.name}:{'signal=KILL' if self.kills else 'error=EIO'}:when={self.number}"]

    def __str__(self):
        return f"{self.name} {self.number} {'killed' if self.kills else 'failed'}"


class Run:
    """A run under `strace`: its status, what it put out, and its calls."""

    def __init__(self, words, given, folder, fault=None):
        log = os.path.join(folder, "calls")
        traced = ["strace", "-y", "-s", "0", "-o", log, *(fault.words() if fault else []), *words]
        with tempfile.TemporaryFile() as entered, tempfile.TemporaryFile() as shown:
            entered.write(given)
            entered.seek(0)
            self.status = subprocess.run(traced, stdin=entered, stdout=shown, stderr=subprocess.DEVNULL).returncode
            shown.seek(0)
            self.out = shown.read()
        with open(log, encoding="utf-8", errors="replace") as lines:
            self.calls = [line for line in lines if re.match(r"\w+\(", line)]

    def names(self):
        return sorted({call.partition("(")[0] for call in self.calls} - set(NOT_TRIED))

    def failed_at(self, store):
        """What the call was made at that failed. None: none failed."""
        failed = [call for call in self.calls if "(INJECTED)" in call]
        return place_of(failed[0], store) if failed else None


def place_of(call, store):
    """What a call is made at: the store or its folder, which may also be closed, a stream, or anything else."""
    name, _, rest = call.partition("(")
    opened, named = re.match(r"(\d+)<(.*?)>", rest), re.search(r'"(.*?)"', rest)
    at = opened[2] if opened else named[1] if named and name == "openat" else None
    if at in (store, os.path.dirname(store)):
        return "close" if name == "close" else "store"
    return {("read", "0"): "input", ("write", "1"): "output"}.get((name, opened[1] if opened else None), "other")


def look_at_end(run, place, is_whole):
    """ValueError: a session doesn't end so after a fault at this place."""
    wanted = STATUS_AT.get(place)
    if wanted is not None and run.status != wanted or run.status == 0 and not is_whole:
        raise ValueError(f"the status is {run.status} after a fault at the place '{place}', and {'all' if is_whole else 'not all'} is answered")


def try_fault(program, folder, before, plan, fault):
    """A session with a fault, on a store of its own: the place of the fault. None: there was none."""
    store = os.path.join(folder, "store")
    put_back(store, before)
    run = Run([program, store, "session"], plan.input(), folder, fault)
    place = ("killed" if run.status == -signal.SIGKILL else None) if fault.kills else run.failed_at(store)
    if place is not None:
        answered, _ = look_at(plan, run.out, content(store))
        look_at_end(run, place, answered == len(plan.lines))
        look_at_told(program, store)
    return place


def put_back(store, before):
    """Has the file hold these bytes, or takes it away."""
    if os.path.exists(store):
        os.remove(store)
    if before is not None:
        with open(store, "wb") as file:
            file.write(before)


def try_session(program, folder, before, requests):
    """Tries each call of a session. How many faults there were at each place, and the file that the session leaves."""
    plan = Plan(before, [lambda graph, request=request: request for request in requests])
    store = os.path.join(folder, "store")
    put_back(store, before)
    whole = Run([program, store, "session"], plan.input(), folder)
    if whole.status != 0 or whole.out != b"".join(plan.answers):
        sys.exit(f"a session without a fault ended with {whole.status} and answered {whole.out.decode()}")
    after, tried = content(store), {}
    for name in whole.names():
        for kills in (False, True):
            count = try_name(program, folder, before, plan, name, kills, tried)
            if count < sum(call.startswith(name + "(") for call in whole.calls):
                sys.exit(f"only {count} calls of {name} were tried")
    return tried, after


def try_name(program, folder, before, plan, name, kills, tried):
    """Tries all calls of a name, and counts what the faults were at. How many there were."""
    number = 1
    while True:
        fault = Fault(name, number, kills)
        try:
            place = try_fault(program, folder, before, plan, fault)
        except ValueError as wrong:
            sys.exit(f"{fault}: {wrong}")
        except Damaged as damage:
            sys.exit(f"{fault}: the store is damaged at {damage}")
        if place is None:
            return number - 1
        tried[place] = tried.get(place, 0) + 1
        number += 1


def main():
    words = argparse.ArgumentParser(usage=__doc__)
    words.add_argument("program")
    program = os.path.abspath(words.parse_args().program)
    with tempfile.TemporaryDirectory() as folder:
        folder, file = os.path.realpath(folder), None
        for requests in (NEW, MORE):
            tried, file = try_session(program, folder, file, requests)
            told = ", ".join(f"{count} {place}" for place, count in sorted(tried.items()))
            print(f"a session of {len(requests)} requests with each of its calls failing, and killed at each: {told}; nothing acknowledged was lost")


if __name__ == "__main__":
    main()
