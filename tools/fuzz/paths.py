"""Puts the modules of `compare` and `time`, which the scripts here share, where they are found."""
import pathlib
import sys

for folder in ("compare", "time"):
    sys.path.append(str(pathlib.Path(__file__).resolve().parents[1] / folder))
