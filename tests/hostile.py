#!/usr/bin/env python3
"""Runs the scripts that treat formd as an enemy or a bad machine would, and prints their figures together at the end.

    tests/hostile.py                      the program that `make` leaves, and refused_calls, which `make hostile` makes beside it
    tests/hostile.py PROGRAM              another build of formd
    tests/hostile.py PROGRAM SCRIPT ..    only the scripts of these names

Each request for memory refused, files and streams stopped at each call, words that aren't UTF-8, files that can't be served, pages of ids amid changes, hostile
patterns, kills amid commands and amid a migration, bytes that aren't what was written, the worst inputs within the limits. A
script that fails doesn't keep the others from being run; the exit status is 1 then.
"""

import subprocess
import sys
import time

from looks import ROOT, named_program

PROGRAM = named_program()
SCRIPTS = ["refused_allocations", "stops", "words_not_utf8", "statuses", "pages", "matchers", "kills", "migration", "bytes", "worst"]


def main():
    figures, failed = [], 0
    for name in sys.argv[2:] or SCRIPTS:
        begun = time.monotonic()
        print(f"tests/{name}.py", flush=True)
        run = subprocess.Popen([sys.executable, "-u", ROOT / "tests" / f"{name}.py", PROGRAM], stdout=subprocess.PIPE, text=True)
        lines = []
        for line in run.stdout:
            print(f"    {line}", end="", flush=True)
            lines.append(line.rstrip("\n"))
        ended = run.wait()
        failed += ended != 0
        figures.append(f"tests/{name}.py, {time.monotonic() - begun:.0f} s{f', which failed with status {ended}' if ended else ''}")
        # (what is indented or a row of a table says more of the figures above or below it)
        figures += [f"    {line}" for line in lines if line[:1] not in ("", " ", "|")]
    print("\n".join(["", "Figures", *figures, f"{failed} of the scripts have failed"]))
    return 1 if failed else 0


if __name__ == "__main__":
    sys.exit(main())
