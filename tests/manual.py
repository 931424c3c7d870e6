#!/usr/bin/env python3
"""Runs the examples of docs/MANUAL.md and compares what they print with what the manual shows.

    tests/manual.py            with the program that `make` leaves
    tests/manual.py PROGRAM    with another build of formd

A block that begins with three backticks and `json NAME` or `python NAME` is the file NAME. In a block of `sh` each line
that begins with `$ ` is a command, and the lines behind it are what it prints, on both streams. All
run in one new folder, in order. Needs `sqlite3`, `jq` and `python3`.
"""

import os
import re
import subprocess
import sys
import tempfile
from pathlib import Path

from looks import ROOT, end, look, named_program

PROGRAM = named_program()
BLOCK = re.compile(r"^```(\w+)(?: (\S+))?\n(.*?)^```$", re.MULTILINE | re.DOTALL)


def examples(block):
    """The commands of a block, each with the text that it is to print."""
    found = []
    for line in block.splitlines(keepends=True):
        if line.startswith("$ "):
            found.append([line[2:].rstrip("\n"), ""])
        elif found and found[-1][0].endswith("\\"):
            found[-1][0] = found[-1][0] + "\n" + line.rstrip("\n")
        else:
            found[-1][1] += line
    return found


def main():
    with tempfile.TemporaryDirectory() as folder:
        (Path(folder) / "bin").mkdir()
        (Path(folder) / "bin" / "formd").symlink_to(PROGRAM)
        room = Path(folder) / "room"
        room.mkdir()
        environment = {**os.environ, "PATH": f"{folder}/bin:{os.environ['PATH']}", "LC_ALL": "C.UTF-8"}
        status = 0
        for language, name, text in BLOCK.findall((ROOT / "docs" / "MANUAL.md").read_text()):
            if name:
                (room / name).write_text(text)
                continue
            if language != "sh":
                continue
            for command, wanted in examples(text):
                ran = subprocess.run(
                    ["bash", "-c", f"(exit {status}); {command}"], cwd=room, env=environment, stdout=subprocess.PIPE, stderr=subprocess.STDOUT, text=True, timeout=60
                )
                status = ran.returncode
                look(f"$ {command}", ran.stdout, wanted)
    return end("{count} commands of docs/MANUAL.md, {failed} differ")


if __name__ == "__main__":
    sys.exit(main())
