#!/usr/bin/env python3
"""Proves and builds Kishu where that isn't done, crates side by side, and then runs or installs the program.

usage: first_build.py run SEEN WORD..    runs the program with these words; SEEN is kept as the state that its sources were seen in
       first_build.py install FOLDER     copies the program to FOLDER/kishu

The scripts `kishu` and `install` call it. The proofs are made by `rt ci`, which has as many crates in work at once as processors and
memory allow, and keeps what it proved beside the toolchain, so that the next build takes it over. It runs in a room: a folder with a copy of
the sources of the program's crates, of one moment, without the edits that must be refused, and nothing else.
"""
import fcntl
import hashlib
import os
import re
import shutil
import signal
import subprocess
import sys
import tempfile
import time

HOME = os.path.dirname(os.path.dirname(os.path.dirname(os.path.realpath(__file__))))
TOP = "kishu_cli"
OUT = f"{HOME}/crates/{TOP}/out"
PROGRAM, STAMP, SEEN, LOG = f"{OUT}/{TOP}", f"{OUT}/sources.sha256", f"{OUT}/sources.seen", f"{OUT}/build.log"
GB = 1 << 30
# What must be free on the disk.
DISK_LEAST = 1 * GB
# The signals that end a build, less those that whoever started it has it ignore.
STOPS = [it for it in (signal.SIGINT, signal.SIGTERM, signal.SIGHUP) if signal.getsignal(it) != signal.SIG_IGN]
# What `rt` says of a crate that is proved, and of one that isn't.
PROVED = re.compile(r"^rt: (\w+) (?:proved$|is kept: )", re.M)
NOT_PROVED = re.compile(r"^rt: (\w+)(?:: its tests are)? NOT PROVED", re.M)
# How often the progress is told when nothing ended, and how often is looked for what ended, in seconds.
TELLS_EACH, LOOKS_EACH = 60, 0.5


class Fault(Exception):
    """What went wrong and what to do, in one line."""


class Stopped(BaseException):
    """A signal asked for the end."""


def say(text):
    print(f"kishu: {text}", file=sys.stderr, flush=True)


# The sources


def lines_of(root):
    """Returns the lines of crates.txt, each under its crate's name."""
    with open(f"{root}/crates.txt", encoding="utf-8") as file:
        return {found[1]: line for line in file for found in [re.match(r"\s*(\w+)", line)] if found}


def crates_of(root):
    """Returns the crates that the program stands on, and its own, each with those of the repository right below it, lowest first."""
    listed = {it: re.split(r"[\s,]+", line.partition("#")[0].partition(":")[2]) for it, line in lines_of(root).items()}
    found = {}

    def add(name, above):
        if name in above:
            raise Fault(f"crates.txt has {name} depend on itself: mend its line")
        for it in listed[name]:
            if it in listed and it not in found:
                add(it, [*above, name])
        found[name] = [it for it in listed[name] if it in listed]

    if TOP not in listed:
        raise Fault(f"crates.txt has no line for {TOP}: restore it")
    add(TOP, [])
    return found


def files_of(root, name):
    """Returns the paths of a crate's sources below the root."""
    for at, folders, files in os.walk(f"{root}/crates/{name}"):
        folders[:] = [it for it in folders if it not in ("out", "data", "must-fail")]
        yield from (os.path.relpath(f"{at}/{it}", root) for it in files if it.endswith((".rt", ".antt")))


def sum_of(root):
    """Returns one checksum of all that the program is made of."""
    crates, lines = crates_of(root), lines_of(root)
    every = [file for name in crates for file in files_of(root, name)] + ["HANDLES"] * os.path.isfile(f"{root}/HANDLES")
    # (of crates.txt the lines of these crates alone)
    total = hashlib.sha256("".join(lines[it] for it in sorted(crates)).encode())
    for file in sorted(every, key=os.fsencode):
        with open(f"{root}/{file}", "rb") as it:
            total.update(hashlib.sha256(it.read()).hexdigest().encode() + b"  " + os.fsencode(file) + b"\n")
    return f"{total.hexdigest()}\n"


def stands():
    """Returns whether the program was built of the sources as they are now."""
    try:
        with open(STAMP, encoding="utf-8") as it:
            return os.access(PROGRAM, os.X_OK) and it.read() == sum_of(HOME)
    except OSError:
        return False


def toolchain():
    """Returns the path of `rt`."""
    found = shutil.which("rt") or shutil.which("/opt/rattle/bin/rt")
    if not found:
        raise Fault("the program isn't built, and there is no Rattle toolchain to prove and build it: install it and put `rt` on the PATH")
    return found


# The room


def room_of():
    """Returns the folder of the room: beside the checkout, or else among the temporary files. Inside the checkout `rt ci` and `rt all` would
    take its crates for some of the repository."""
    beside, name = os.path.split(HOME)
    if os.access(beside, os.W_OK):
        return f"{beside}/.{name}-build"
    return f"{tempfile.gettempdir()}/kishu-build-{hashlib.sha256(HOME.encode()).hexdigest()[:16]}"


def copy_sources(to):
    """Copies the program's crates, with their lines of crates.txt, and HANDLES."""
    crates, lines = crates_of(HOME), lines_of(HOME)
    os.mkdir(to, 0o700)
    # (so that the room is the top of a repository, wherever it lies)
    os.mkdir(f"{to}/.git")
    with open(f"{to}/crates.txt", "w", encoding="utf-8") as it:
        it.writelines(lines[name] for name in crates)
    if os.path.isfile(f"{HOME}/HANDLES"):
        shutil.copy2(f"{HOME}/HANDLES", f"{to}/HANDLES")
    for name in crates:
        shutil.copytree(f"{HOME}/crates/{name}", f"{to}/crates/{name}", ignore=shutil.ignore_patterns("out", "data", "must-fail"))


class Build:
    """One build: a run of `rt ci` in a room."""

    def __init__(self, rt, locks):
        self.began, self.told, self.asked, self.done = time.monotonic(), 0, None, set()
        self.room = room_of()
        self.tidy()
        copy_sources(self.room)
        self.sum, self.crates = sum_of(self.room), crates_of(self.room)
        with open(LOG, "w", encoding="utf-8") as log:
            # (its own session, so that Ctrl-C comes here alone; it holds the locks while it lives, even if this process is killed)
            self.process = subprocess.Popen(
                [rt, "ci"], cwd=self.room, stdin=subprocess.DEVNULL, stdout=log, stderr=log, start_new_session=True, pass_fds=locks
            )

    def tidy(self):
        shutil.rmtree(self.room, ignore_errors=True)

    def in_work(self):
        """Returns the crates in whose folders of the room a process works."""
        found, top = set(), f"{os.path.realpath(self.room)}/crates/"
        for pid in filter(str.isdigit, os.listdir("/proc")):
            try:
                at = os.readlink(f"/proc/{pid}/cwd")
            except OSError:
                continue
            if at.startswith(top):
                found.add(at[len(top) :].partition("/")[0])
        return sorted(found)

    def tell(self):
        self.told = time.monotonic()
        work = [it for it in self.in_work() if it not in self.done]
        say(f"{len(self.done)} of {len(self.crates)} crates proved in {int(self.told - self.began) // 60} min" + "; in work: " * bool(work) + ", ".join(work))

    def look(self):
        """Reads what the run has said, and returns whether a further crate is proved."""
        with open(LOG, encoding="utf-8", errors="replace") as it:
            said = it.read()
        lost = NOT_PROVED.search(said)
        if lost:
            need_disk()
            raise Fault(f"the crate {lost[1]} is not proved, so the program is not built: see {LOG}")
        before, self.done = len(self.done), set(PROVED.findall(said))
        return len(self.done) > before

    def run(self):
        """Waits until the run ends, and takes the program over."""
        while self.process.poll() is None:
            if self.look() or time.monotonic() - self.told >= TELLS_EACH:
                self.tell()
            time.sleep(LOOKS_EACH)
            if self.asked:
                raise Stopped(self.asked)
        self.look()
        if self.process.returncode:
            need_disk()
            raise Fault(f"the program is not built: see the end of {LOG}")
        shutil.move(f"{self.room}/crates/{TOP}/out/{TOP}", PROGRAM)
        with open(STAMP, "w", encoding="utf-8") as it:
            it.write(self.sum)

    def ask_to_stop(self, number, _frame):
        """Heeds a signal, between two looks."""
        self.asked = number

    def stop(self):
        """Stops what is in work, and removes the room."""
        # `rt` ends what it started when it ends.
        self.process.terminate()
        self.process.wait()
        self.tidy()


# The whole


def disk_fault():
    """Returns what to say where the disk is short, or None."""
    left = shutil.disk_usage(HOME).free
    return f"the disk of {HOME} is short ({left / GB:.1f} GB are free): free 3 GB or more and start again" if left < DISK_LEAST else None


def need_disk():
    if disk_fault():
        raise Fault(disk_fault())


def locked():
    """Waits until neither another build nor an `rt` works in the program's crate, and returns what keeps them out: `rt` locks the same folder."""
    held = os.open(f"{HOME}/crates/{TOP}", os.O_RDONLY)
    try:
        fcntl.flock(held, fcntl.LOCK_EX | fcntl.LOCK_NB)
    except BlockingIOError:
        say("another start builds the program, or an rt works in this checkout: waiting until it ends")
        fcntl.flock(held, fcntl.LOCK_EX)
    return held


def build():
    """Builds the program where it doesn't stand."""
    if stands():
        return
    rt, lock = toolchain(), locked()
    if stands():
        # (another start has built it meanwhile)
        return
    need_disk()
    say("proving and building the program, since it isn't built or its sources have changed")
    os.makedirs(OUT, exist_ok=True)
    for it in (PROGRAM, STAMP, SEEN):
        if os.path.lexists(it):
            os.remove(it)
    made = Build(rt, [lock])
    say(f"from nothing every crate below the program is proved, later only what changed; the log is {LOG}")
    heed(made.ask_to_stop)
    try:
        made.run()
    finally:
        heed(signal.SIG_IGN)
        made.stop()
    say(f"built in {(time.monotonic() - made.began) / 60:.0f} min")
    os.close(lock)


def run(seen, words):
    # A file that changes twice within one tick of the clock looks the same after both: once the tick is over, the sources are read.
    time.sleep(0.05)
    build()
    try:
        with open(SEEN, "w", encoding="utf-8") as it:
            it.write(f"{seen}\n")
    except OSError:
        pass
    # The program is to find the signals as its caller left them; Python ignores the last two.
    heed(signal.SIG_DFL, *STOPS, signal.SIGPIPE, signal.SIGXFSZ)
    os.execv(PROGRAM, [PROGRAM, *words])


def install(folder):
    os.makedirs(folder, exist_ok=True)
    if os.path.samefile(folder, HOME):
        raise Fault(f"{folder} is the checkout, whose own script is called kishu: give another folder")
    if os.path.isdir(f"{folder}/kishu"):
        raise Fault(f"{folder}/kishu is a folder, so the program can't be put there: give another folder")
    build()
    # (in two steps, so that a program that runs there stays as it is)
    with tempfile.NamedTemporaryFile(dir=folder, prefix=".kishu-", delete=False) as it:
        with open(PROGRAM, "rb") as program:
            shutil.copyfileobj(program, it)
    os.chmod(it.name, 0o755)
    os.replace(it.name, f"{folder}/kishu")
    print(f"installed {os.path.abspath(folder)}/kishu")


def stop_on(number, _frame):
    raise Stopped(number)


def heed(how, *signals):
    for it in signals or STOPS:
        signal.signal(it, how)


def main(words):
    if words[:1] == ["install"] and (len(words) != 2 or words[1].startswith("-")):
        print("usage: install FOLDER    puts the proved program there as FOLDER/kishu, and proves and builds it first where that isn't done", file=sys.stderr)
        return 2
    heed(stop_on)
    try:
        if words[:1] == ["install"]:
            install(words[1])
        else:
            run(words[1], words[2:])
        return 0
    except Fault as fault:
        say(fault)
        return 1
    except OSError as error:
        say(disk_fault() or f"{error.filename or HOME}: {error.strerror or error}")
        return 1
    except Stopped as stopped:
        say("stopped; the crates that were proved are kept, and the next start goes on there")
        return 128 + stopped.args[0]


if __name__ == "__main__":
    sys.exit(main(sys.argv[1:]))
