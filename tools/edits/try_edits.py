#!/usr/bin/env python3
"""Tries the edits that the gate leaves out.

    python3 tools/edits/try_edits.py [CRATE ..]

Each folder beside this script holds the edits of one crate, as they would stand in its `must-fail/`. They are
put there, tried by `rt must-fail`, which must refuse each, and taken away again. With no crate named those of
all are tried, which takes some four hours of a processor. The status is 0 where each was refused.
"""
import pathlib
import shutil
import subprocess
import sys

HERE = pathlib.Path(__file__).resolve().parent
ROOT = HERE.parents[1]


def edits_by_crate(names):
    """The edits of the crates with these names, or of all, by crate."""
    known = sorted(it.name for it in HERE.iterdir() if list(it.glob("*.edit")))
    for name in names:
        if name not in known:
            sys.exit(f"{name}: no edits lie in {HERE.relative_to(ROOT)}, which has those of {', '.join(known)}")
    return {name: sorted((HERE / name).glob("*.edit")) for name in names or known}


def put(edit, name):
    """Puts an edit of a crate where `rt must-fail` looks for it, and tells where."""
    to = ROOT / "crates" / name / "must-fail" / edit.name
    to.parent.mkdir(exist_ok=True)
    if to.exists():
        sys.exit(f"{to.relative_to(ROOT)} is there already: take it away first")
    shutil.copyfile(edit, to)
    return to


def take_away(placed):
    """Takes the edits away again, and the folders that hold no other."""
    for it in placed:
        it.unlink()
    for folder in {it.parent for it in placed}:
        if not any(folder.iterdir()):
            folder.rmdir()


def main():
    crates = edits_by_crate(sys.argv[1:])
    placed = []
    try:
        for name, edits in crates.items():
            for edit in edits:
                placed.append(put(edit, name))
        return subprocess.run(["rt", "must-fail", *crates], cwd=ROOT).returncode
    finally:
        take_away(placed)


sys.exit(main())
