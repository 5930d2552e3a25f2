#!/usr/bin/env python3
"""Times runs of requests that are made from a number, beside the syncs of their appends.

Usage: tools/time/time_gen.py PROGRAM [START]      (7 where no number is given)

PROGRAM is the built program, crates/kishu_cli/out/kishu_cli. `STORE gen START N` is run for N of 200, 500, 1,000 and 2,000, each on a
store of its own: in memory, where the system has such a folder, so that syncs take no time, and there the least of five runs counts,
less the least of a run without requests; and once on the disk. Beside the latter the same bytes are written to another file on that
disk by this script, each record by two writes with a sync behind each, as the program appends: what is left of the run's time is the
program's. The groups of names grow with the requests, and a commit stores each one that changed whole, so a later request has more bytes
to picture and to write than an earlier one: the file's bytes are told beside the times. The script ends with status 1 where a request of
2,000 takes more than twice as many times as long as one of 200 as it has bytes in the file.
"""
import os
import subprocess
import sys
import tempfile
import time

from store_runs import memory_folder

NUMBERS = (200, 500, 1000, 2000)
RUNS = 5
HEADER = 16
# So much faster than its bytes a request's time may grow.
WORST = 2.0


def records(data):
    """The places of the records' gates, and the bytes from each to the next one."""
    at = HEADER
    while at + 9 <= len(data) and data[at] == 0xA5:
        end = at + 9 + int.from_bytes(data[at + 1 : at + 9], "big")
        yield at, data[at + 1 : end]
        at = end


def run(program, path, start, number):
    """The seconds of a run on a new store."""
    if os.path.exists(path):
        os.remove(path)
    begin = time.perf_counter()
    subprocess.run([program, path, "gen", str(start), str(number)], check=True, stdout=subprocess.DEVNULL)
    return time.perf_counter() - begin


def append_time(path, data):
    """The seconds that the writes and syncs of a store's records take, one record after another."""
    with open(path, "wb", buffering=0) as file:
        file.write(data[:HEADER] + b"\0")
        os.fsync(file.fileno())
        begin = time.perf_counter()
        for at, body in records(data):
            os.pwrite(file.fileno(), body + b"\0", at + 1)
            os.fsync(file.fileno())
            os.pwrite(file.fileno(), b"\xa5", at)
            os.fsync(file.fileno())
        took = time.perf_counter() - begin
    with open(path, "rb") as file:
        if file.read() != data:
            sys.exit("the records aren't those of the file")
    return took


def row(program, start, number, fast, slow):
    """Prints the times of so many requests, and gives the microseconds of one in memory and the bytes of one."""
    empty = min(run(program, fast, start, 0) for _ in range(RUNS))
    work = min(run(program, fast, start, number) for _ in range(RUNS)) - empty
    whole = run(program, slow, start, number)
    with open(slow, "rb") as file:
        data = file.read()
    syncs = append_time(slow + ".again", data)
    found = len(list(records(data)))
    print(
        f"{number:>9,}{found:>9,}{len(data):>12,}{len(data) / number:>9.0f}{work * 1000:>12.1f} ms{work / number * 10**6:>9.1f} us"
        f"{whole * 1000:>12.1f} ms{syncs * 1000:>12.1f} ms{(whole - syncs) * 1000:>10.1f} ms",
        flush=True,
    )
    return work / number * 10**6, len(data) / number


def main():
    if len(sys.argv) not in (2, 3):
        sys.exit("usage: tools/time/time_gen.py PROGRAM [START]")
    program = os.path.abspath(sys.argv[1])
    start = int(sys.argv[2]) if len(sys.argv) == 3 else 7
    print(
        f"{'requests':>9}{'records':>9}{'its bytes':>12}{'each':>9}{'in memory':>15}{'each':>12}{'on the disk':>15}{'its syncs':>15}{'the rest':>13}"
    )
    with memory_folder() as folder, tempfile.TemporaryDirectory() as disk:
        found = [row(program, start, number, os.path.join(folder, "store"), os.path.join(disk, "store")) for number in NUMBERS]
    (few, few_bytes), (many, many_bytes) = found[0], found[-1]
    longer, larger = many / few, many_bytes / few_bytes
    print(f"a request of {NUMBERS[-1]:,} takes {longer:.2f} times as long as one of {NUMBERS[0]:,}, and has {larger:.2f} times as many bytes")
    sys.exit(1 if longer > WORST * larger else 0)


if __name__ == "__main__":
    main()
