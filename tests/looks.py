"""What the scripts of this folder share: the program that they run, a folder for its files, JSON as it writes it, and looks, which are counted.

A script hands each comparison to `look`: a name, what was found and what is wanted, which are printed where they differ. What else is wrong it hands to `tell`. `end` prints the last line, with
how many looks there were and how many things were wrong, and gives the exit status: 1 where something was wrong or nothing was looked at.
"""

import json
import os
import sys
from pathlib import Path

ROOT = Path(__file__).resolve().parent.parent
# (how long a disk takes doesn't matter to these scripts, so their files are in memory where the system has such a folder)
ROOM = "/dev/shm" if os.access("/dev/shm", os.W_OK) else None
SHOWN = 600
count = failed = 0


def named_program():
    """The program that a script's first word names, else the one that `make` leaves; where it isn't there the script ends."""
    program = Path(sys.argv[1] if len(sys.argv) > 1 else ROOT / "crates" / "formd" / "out" / "formd").resolve()
    if not program.is_file():
        sys.exit(f"{program} isn't there: make it by `make`")
    return program


def compact(value):
    return json.dumps(value, ensure_ascii=False, separators=(",", ":"), sort_keys=True)


def look(name, found, wanted):
    """Compares, and prints both from a little before the place where they differ."""
    global count, failed
    count += 1
    if found != wanted:
        failed += 1
        texts = repr(wanted), repr(found)
        at = max(len(os.path.commonprefix(texts)) - SHOWN // 2, 0)
        wanted, found = (text[at : at + SHOWN] for text in texts)
        print(f"{name:.300}:\n  wanted {wanted}\n  found  {found}", flush=True)


def tell(text):
    """Counts something that is wrong, and prints it if it is one of the first twenty."""
    global failed
    failed += 1
    if failed <= 20:
        print(text, flush=True)


def end(text="{count} looks, {failed} wrong"):
    print(text.format(count=count, failed=failed))
    return 1 if failed or not count else 0
