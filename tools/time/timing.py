"""Times a call that reads a text, on 256 KiB and on 1 MiB of the same kind of text.

The program that is timed is made, proved and built in a folder of its own, over copies of the
crates that it stands on. Each run is a process of its own that reads its text as often as makes
16 MiB, and the least user time of five runs counts, so that a busy machine, fresh pages and the
start of a process weigh little. The time grows linearly with the text, so the ratio of two readings
is about 4. Where it is above 5 there are twenty runs more, and where it stays so the script ends
with status 1.
"""
import dataclasses
import math
import os
import pathlib
import shutil
import subprocess
import sys
import tempfile

TOP = pathlib.Path(__file__).resolve().parents[2]
PROGRAM = r'''//! Reads the text on standard input with `@CALL@`, as often as makes 16 MiB, and prints how many parts
//! it has.
#![tactic(auto)]

use @CRATE@::@CALL@;
use kishu_language::Profile;
use std::alloc::Global;
use std::io;

const TOTAL: usize = 16_777_216;

fn count(alloc: Global, text: &str) -> usize {
    if text.len() > 1_048_576 {
        return 0;
    }
    match @CALL@(alloc, Profile::One, text) {
        Ok(found) => @PARTS@.len(),
        Err(_) => 0,
    }
}

fn main(rt: HostRuntime) -> io::Result<()> {
    let text = io::read_to_string(rt.alloc(), rt.stdin())?;
    let turns = TOTAL.checked_div(text.len()).unwrap_or(0);
    let mut found = 0;
    for _turn in 0..turns {
        found = count(rt.alloc(), text.as_str());
    }
    println!(rt; "{found}")
}
'''

SMALL, LARGE, TOTAL = 262_144, 1_048_576, 16_777_216
# The ratio that is still taken for linear.
WORST = 5


def copy_crates(folder, names):
    """Copies crates and all that they stand on, and lists them."""
    with open(os.path.join(TOP, "crates.txt")) as listed:
        lines = {line.split(":")[0]: line for line in listed if line[0] != "#"}
    copied = list(names)
    for name in copied:
        copied += [below for below in lines[name].split(":")[1].split() if below in lines and below not in copied]
        shutil.copytree(os.path.join(TOP, "crates", name), os.path.join(folder, "crates", name), ignore=shutil.ignore_patterns("out"))
    with open(os.path.join(folder, "crates.txt"), "w") as listed:
        listed.writelines(line for name, line in lines.items() if name in copied)


def built(folder, name, below, text, proofs=None, given=None):
    """A program that is a crate of its own, over crates that were copied; `rt` proves and builds it, and runs it on what is given."""
    crate = os.path.join(folder, "crates", name)
    for file, content in {"src/main.rt": text, **(proofs or {})}.items():
        os.makedirs(os.path.dirname(os.path.join(crate, file)), exist_ok=True)
        with open(os.path.join(crate, file), "w") as source:
            source.write(content)
    with open(os.path.join(folder, "crates.txt"), "a") as listed:
        listed.write(f"{name}: {' '.join(below)}\n")
    subprocess.run(["rt", "run"], cwd=crate, check=True, input=given or b"", stdout=subprocess.DEVNULL)
    return os.path.join(crate, "out", name)


@dataclasses.dataclass
class Reading:
    """A call of a crate that reads a text."""

    crate: str
    call: str
    # what of the value `found` that it answers is a list
    parts: str

    def build(self, folder):
        """The program that reads a text with it."""
        name = "time_" + self.call
        below = (self.crate, "kishu_language")
        copy_crates(folder, below)
        return built(folder, name, below, PROGRAM.replace("@CRATE@", self.crate).replace("@CALL@", self.call).replace("@PARTS@", self.parts))


def repeated(piece, before="", after=""):
    """A kind of text: the piece again and again, between what stands once."""

    def text(size):
        room = size - len(before.encode()) - len(after.encode())
        return (before + piece * (room // len(piece.encode())) + after).encode()

    return text


def run(program, text):
    """The user time of one run, in seconds, and how many parts it found."""
    with tempfile.TemporaryFile() as given, tempfile.TemporaryFile() as told:
        given.write(text)
        given.seek(0)
        child = subprocess.Popen([program], stdin=given, stdout=told)
        _, status, usage = os.wait4(child.pid, 0)
        child.returncode = os.waitstatus_to_exitcode(status)
        told.seek(0)
        found = told.read()
    if child.returncode != 0:
        sys.exit(f"{program} ended with {child.returncode}")
    return usage.ru_utime, int(found)


def times_of(program, texts):
    """The least time of one reading of each text, in seconds. The runs of the texts take turns."""
    times, found = [math.inf, math.inf], [0, 0]
    for turn in range(25):
        if turn >= 5 and times[1] <= WORST * times[0]:
            break
        for k, text in enumerate(texts):
            time, found[k] = run(program, text)
            times[k] = min(times[k], time / (TOTAL // len(text)))
    return times, found


def report(reading, kinds):
    """Prints the times of each kind of text, and ends with status 1 where one isn't linear."""
    worst = 0.0
    with tempfile.TemporaryDirectory() as folder:
        program = reading.build(folder)
        for name, text in kinds.items():
            (small, large), found = times_of(program, (text(SMALL), text(LARGE)))
            worst = max(worst, large / small)
            row = f"{name:<28} 256 KiB {small * 1000:>7.1f} ms   1 MiB {large * 1000:>7.1f} ms   ratio {large / small:.2f}   parts {found[0]}, {found[1]}"
            print(row, flush=True)
    sys.exit(1 if worst > WORST else 0)
