#!/usr/bin/env python3
"""Prints the gate's table by crate, in markdown: depth, lines, functions, edits, and processor seconds where a log has them.

    tests/gatetable.py [LOG] [--into FILE]     the log of `tests/gatecost.py make test`, or of `rt ci`

A crate stands behind those that it stands on. `kept` stands where the log says that an earlier run had
proved the crate. With --into the table takes the place of the one in the file, between its two marks.
"""
import re
import sys
from collections import defaultdict

sys.dont_write_bytecode = True
import house  # noqa: E402

COST = re.compile(r"^(proof|tests|edit|compile) +(\w+) +\d+ +(\d+) ", re.M)
KEPT = re.compile(r"^rt: (\w+) is kept: ", re.M)
KINDS = {"proof": "proof", "tests": "tests", "edit": "edits", "compile": "builds"}
BEGIN, END = "<!-- the table begins: tests/gatetable.py LOG --into FILE -->", "<!-- the table ends -->"


def seconds_in(log):
    """The seconds by crate and kind that a log has, as texts."""
    found = {(crate, "proof"): "kept" for crate in KEPT.findall(log)}
    found.update(((crate, kind), seconds) for kind, crate, seconds in COST.findall(log) if crate != "ALL" and seconds != "0")
    return found


def row(cells):
    return "| " + " | ".join(f"{cell:,}" if isinstance(cell, int) else cell for cell in cells) + " |"


def table(log):
    """The table's lines."""
    seconds, below = seconds_in(log), house.crates()
    depth = house.depths(below)
    kinds = [kind for kind in KINDS if any(its == kind for _, its in seconds)]
    yield row(["crate", "depth", "lines", "functions", "edits"] + [f"{KINDS[kind]}, s" for kind in kinds])
    yield row(["---"] * (5 + len(kinds)))
    sums = defaultdict(int)
    for crate in sorted(below, key=lambda it: (depth[it], it)):
        counts = [house.lines_of(crate), house.functions_of(crate), house.edits_of(crate)]
        spent = [seconds.get((crate, kind), "") for kind in kinds]
        for at, cell in enumerate(counts + spent):
            sums[at] += int(cell) if str(cell).isdigit() else 0
        yield row([crate, depth[crate]] + [cell or "" for cell in counts] + [int(cell) if cell.isdigit() else cell for cell in spent])
    yield row(["all", max(depth.values())] + [sums[at] for at in range(3 + len(kinds))])


def main():
    words = sys.argv[1:]
    into = words.pop(words.index("--into") + 1) if "--into" in words else None
    logs = [word for word in words if word != "--into"]
    log = ""
    for name in logs:
        with open(name, encoding="utf-8", errors="replace") as file:
            log += file.read()
    lines = "\n".join(table(log))
    if not into:
        print(lines)
        return
    with open(into, encoding="utf-8") as file:
        before, _, rest = file.read().partition(BEGIN)
    if END not in rest:
        sys.exit(f"{into} has no place for the table")
    with open(into, "w", encoding="utf-8") as file:
        file.write(f"{before}{BEGIN}\n{lines}\n{END}{rest.partition(END)[2]}")


main()
