#!/usr/bin/env python3
"""Brings this repository's own definitions and lemmas to today's spelling: tools/port/rename.py, once, after
/opt/rattle/port/port.py, at the top of the checkout.

names.tsv has a row for each name that port.py leaves as it was: the old name, a tab, the new one. Words become snake
case; a lemma that would have its function's name gets `_lem`. The kit's own script turns whole words, in antt, in
clauses and in code spans.
"""
import pathlib
import subprocess
import sys

HERE = pathlib.Path(__file__).resolve().parent
TOP = HERE.parent.parent
SNAKE = "/opt/rattle/port/notes/2026-11-18-names-are-in-snake-case/snake.py"

if __name__ == "__main__":
    crates = sorted(path for path in (TOP / "crates").iterdir() if path.is_dir())
    folders = [str(crate / part) for crate in crates for part in ("src", "specs", "proofs") if (crate / part).is_dir()]
    table = ["--table", str(HERE / "names.tsv")]
    status = subprocess.run([sys.executable, SNAKE, *table, "--only", "antt,rt", *folders], check=False).returncode
    pages = [str(page) for page in (TOP / "docs", TOP / "README.md", TOP / "CONTRIBUTING.md")]
    status |= subprocess.run([sys.executable, SNAKE, *table, "--only", "md", *pages], check=False).returncode
    sys.exit(status)
