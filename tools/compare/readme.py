#!/usr/bin/env python3
"""Runs what the README shows, and compares what is printed with what stands there.

Usage: tools/compare/readme.py PROGRAM

PROGRAM is the built program. Each line of the README's blocks that begins with `$ ` is run in a folder of its own, in which `./kishu`
is PROGRAM and `docs` is this repository's; the lines behind it, up to the next one, are what is to be printed. Each section has a
folder of its own. A notebook that is written has to be one by notebook_rules.py, with the cells of the one that was read. The script
ends with status 1 at the first line that differs.
"""
import pathlib
import re
import subprocess
import sys
import tempfile

import notebook_rules

TOP = pathlib.Path(__file__).resolve().parents[2]
SECONDS = 60


def sections():
    """The lines of the README's blocks, section by section, where they show what is typed."""
    for section in re.split(r"^## ", (TOP / "README.md").read_text(), flags=re.MULTILINE)[1:]:
        lines = "".join(re.findall(r"^```\n(.*?)^```$", section, re.DOTALL | re.MULTILINE)).splitlines()
        if any(line.startswith("$ ") for line in lines):
            yield section.splitlines()[0], lines


def steps(lines):
    """Each line that is typed, with what is printed then."""
    found = []
    for line in lines:
        if line.startswith("$ "):
            found.append((line[2:], []))
        elif found:
            found[-1][1].append(line)
    return found


def look_at_notebooks(folder, typed):
    """What a line wrote of a notebook has to be one, with the same sources."""
    read, written = re.findall(r"[<>] (\S+\.ipynb)", typed)
    values = [notebook_rules.read((folder / name).read_bytes()) for name in (read, written)]
    before, after = ([notebook_rules.joined(cell["source"]) for cell in value["cells"]] for value in values)
    if before != after:
        sys.exit(f"other cells are written: {typed}")


def main():
    if len(sys.argv) != 2:
        sys.exit(__doc__)
    program, count = pathlib.Path(sys.argv[1]).resolve(), 0
    for title, lines in sections():
        with tempfile.TemporaryDirectory() as name:
            folder = pathlib.Path(name)
            (folder / "kishu").symlink_to(program)
            (folder / "docs").symlink_to(TOP / "docs")
            for typed, wanted in steps(lines):
                done = subprocess.run(["bash", "-c", typed], cwd=folder, capture_output=True, timeout=SECONDS)
                printed = (done.stdout + done.stderr).decode().splitlines()
                if printed != wanted:
                    sys.exit(f"{title}: {typed}\n  printed {printed}\n  README  {wanted}")
                if ".ipynb >" in typed:
                    look_at_notebooks(folder, typed)
                count += 1
    print(f"{count} lines of the README were run; none differs")


if __name__ == "__main__":
    main()
