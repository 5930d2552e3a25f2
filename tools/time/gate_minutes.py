#!/usr/bin/env python3
"""Tells the processor minutes that a run of `rt ci` takes, by crate: proofs, tests and edits.

Runs beside the gate: `python3 tools/time/gate_minutes.py FOLDER` looks once a second at the processes of the
toolchain that work in the checkout FOLDER, and at those that try edits, until it is stopped (Ctrl-C or
SIGTERM) or no such process was there for two minutes. Then it prints a table. A process that begins and
ends between two looks isn't seen. It reads /proc, so it needs Linux.
"""
import os
import signal
import sys
import time

TICK = os.sysconf("SC_CLK_TCK")


def words_of(pid):
    """The words of a process, and the folder that it works in."""
    with open(f"/proc/{pid}/cmdline", "rb") as it:
        words = it.read().decode(errors="replace").split("\0")
    return words, os.readlink(f"/proc/{pid}/cwd")


def ticks_of(pid):
    """The processor time of a process so far, in clock ticks."""
    with open(f"/proc/{pid}/stat", "rb") as it:
        fields = it.read().rpartition(b")")[2].split()
    return int(fields[11]) + int(fields[12])


def task_of(pid, root):
    """Whether the process is one of the gate's: its crate, and what it does for it."""
    words, at = words_of(pid)
    if not os.path.basename(words[0]).startswith("rattle") or "--crate-name" not in words:
        return None
    crate = words[words.index("--crate-name") + 1]
    if "/rt-edit" in at:
        return crate, "edits"
    if at.startswith(root + "/"):
        return crate, "tests" if "--test" in words else "proof"
    return None


def look(root, seen):
    """Notes the time of each process that is there now, and tells how many there are."""
    found = 0
    for pid in filter(str.isdigit, os.listdir("/proc")):
        try:
            task = task_of(pid, root)
            if task:
                found += 1
                seen[pid, task] = ticks_of(pid)
        except (OSError, ValueError, IndexError):
            continue
    return found


def table(seen):
    """The minutes of each crate, the dearest first."""
    sums = {}
    for (_, (crate, kind)), ticks in seen.items():
        sums.setdefault(crate, {"proof": 0, "tests": 0, "edits": 0})[kind] += ticks / TICK / 60
    rows = sorted(sums.items(), key=lambda row: -sum(row[1].values()))
    rows.append(("all", {kind: sum(row[kind] for row in sums.values()) for kind in ("proof", "tests", "edits")}))
    yield f"{'crate':24}{'proof':>8}{'tests':>8}{'edits':>8}{'all':>8}"
    for crate, row in rows:
        yield f"{crate:24}{row['proof']:8.1f}{row['tests']:8.1f}{row['edits']:8.1f}{sum(row.values()):8.1f}"


def main():
    if len(sys.argv) != 2:
        sys.exit("usage: gate_minutes.py FOLDER")
    root, seen, begun, idle = os.path.realpath(sys.argv[1]), {}, time.time(), 0
    signal.signal(signal.SIGTERM, signal.default_int_handler)
    try:
        while idle < 120 or not seen:
            idle = 0 if look(root, seen) else idle + 1
            time.sleep(1)
    except KeyboardInterrupt:
        pass
    print("\n".join(table(seen)))
    print(f"{(time.time() - begun - idle) / 60:.0f} minutes beside it")


main()
