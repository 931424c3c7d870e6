#!/usr/bin/env python3
"""Runs mistakes that somebody wrote down who hadn't seen the program, and looks whether each is told where it is, in one line.

    tests/mistakes.py            with the program that `make` leaves
    tests/mistakes.py PROGRAM    with another build of formd

`tests/data/mistakes/in_declarations.jsonl` has declarations, which `formd explain` has to refuse by one line or to take with a warning;
`in_lines.jsonl` has lines, some behind others, under `declarations.json`, of which `formd rehearse` has to tell the last in one line;
`in_three_forms.jsonl` has 200 more under declarations of their own, written from the description of the refusals alone.
Of each `told` is the part of the answer that names the place.
"""

import json
import subprocess
import sys
import tempfile
from pathlib import Path

from looks import ROOT, end, look, named_program

PROGRAM = named_program()
DATA = ROOT / "tests" / "data" / "mistakes"


def rows(name):
    return [json.loads(line) for line in (DATA / name).read_text().splitlines()]


def explained(row, folder):
    """The line that tells of a mistake in declarations."""
    file = folder / "declarations.json"
    file.write_text(row["text"])
    ran = subprocess.run([PROGRAM, "explain", file], capture_output=True, text=True)
    lines = ran.stdout.splitlines()
    if ran.returncode == 3:
        return lines[0] if len(lines) == 1 else None
    return next((line for line in lines if line.startswith("warning: ") and row["told"] in line), None)


def rehearsed(row):
    """The line that tells of a mistake in the last of some lines."""
    lines = [*row.get("before", []), row["text"]]
    words = [PROGRAM, "rehearse", "--declarations", DATA / row.get("declarations", "declarations.json"), "--now", "0"]
    ran = subprocess.run(words, input="".join(line + "\n" for line in lines), capture_output=True, text=True)
    told = [words for words in ran.stderr.splitlines() if words.startswith(f"line {len(lines)}: ")]
    return told[0] if len(told) == 1 else None


def main():
    with tempfile.TemporaryDirectory() as name:
        answers = [(row, explained(row, Path(name))) for row in rows("in_declarations.jsonl")]
    for name in ("in_lines.jsonl", "in_three_forms.jsonl"):
        answers += [(row, rehearsed(row)) for row in rows(name)]
    for row, answer in answers:
        is_told = answer is not None and row["told"] in answer
        look(row["what"], row["told"] if is_told else answer, row["told"])
    return end("{count} mistakes, {failed} not told where they are")


if __name__ == "__main__":
    sys.exit(main())
