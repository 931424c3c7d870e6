#!/usr/bin/env python3
"""Runs the rental application of tests/rental over a program, and compares its replies with those written by hand from docs/FORMATS.md.

    tests/rental.py            with the program that `make` leaves
    tests/rental.py PROGRAM    with another build of formd

tests/rental/lines.txt has the commands (`>`), the replies (`<`) and the moments (`@`), at each of which another process goes on over the same file.
"""

import subprocess
import sys
import tempfile

from looks import ROOT, end, look, named_program

RENTAL = ROOT / "tests" / "rental"
PROGRAM = named_program()


def runs():
    """Each moment with its pairs of a command and the reply that is wanted."""
    found = []
    for line in (RENTAL / "lines.txt").read_text().splitlines():
        sign, text = line[:2], line[2:]
        if sign == "@ ":
            found.append((text, []))
        elif sign == "> ":
            found[-1][1].append([text])
        elif sign == "< ":
            found[-1][1][-1].append(text)
    return found


def serve(database, moment, commands):
    words = [PROGRAM, "serve", "--declarations", RENTAL / "declarations.json", "--database", database, "--now", moment]
    ran = subprocess.run(words, input="".join(f"{command}\n" for command in commands), capture_output=True, text=True, timeout=60)
    if ran.returncode or ran.stderr:
        raise SystemExit(f"status {ran.returncode}: {ran.stderr.strip()}")
    return ran.stdout.splitlines()


def main():
    with tempfile.TemporaryDirectory() as folder:
        for moment, pairs in runs():
            replies = serve(f"{folder}/rental.db", moment, [command for command, _ in pairs])
            replies += ["no reply"] * (len(pairs) - len(replies))
            for (command, wanted), reply in zip(pairs, replies):
                look(command, reply, wanted)
    return end("{count} lines of tests/rental, {failed} replies differ")


if __name__ == "__main__":
    sys.exit(main())
