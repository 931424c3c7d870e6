#!/usr/bin/env python3
"""Runs formd with words that aren't UTF-8: each run must end with status 2, as for any words that
aren't understood, with nothing on standard output and the text below on standard error.

    tests/words_not_utf8.py            with the program that `make` leaves
    tests/words_not_utf8.py PROGRAM    with another build of formd

No test in Rattle reaches this: a program's words there are UTF-8.
"""

import subprocess
import sys

from looks import named_program

PROGRAM = named_program()
TEXT = b"""error: invalid UTF-8 was detected in one or more arguments

Usage: formd [COMMAND]

For more information, try '--help'.
"""
# A byte that no UTF-8 has, a byte that only goes on, a character cut short, half a surrogate pair,
# a slash written too long.
BYTES = [b"\xff", b"\x80", b"\xe2\x82", b"\xed\xa0\x80", b"\xc0\xaf"]


def main():
    for bad in BYTES:
        for words in [bad], [b"a" + bad], [b"declarations", bad], [bad, b"--help"]:
            run = subprocess.run([PROGRAM, *words], input=b"", capture_output=True, timeout=60)
            if (run.returncode, run.stdout, run.stderr) != (2, b"", TEXT):
                sys.exit(f"{words}: status {run.returncode}, {run.stdout!r}, {run.stderr!r}")
    print(f"{4 * len(BYTES)} runs with words that aren't UTF-8: each ended with status 2 and its text")


if __name__ == "__main__":
    main()
