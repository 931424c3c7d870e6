#!/usr/bin/env python3
"""Compares `formd judge` with a service that has no record, line by line, and looks at its peak memory and at four of them beside one.

    tests/judge.py                  with the program that `make` leaves
    tests/judge.py PROGRAM          with another build of formd
    tests/judge.py PROGRAM short    each 40th line, a fifth as many lines for the peak, and no seconds

The lines are those of tests/data/rows that go to a service: puts, batches, checks of values and others, each with the declarations and the moment of its table. All lines of a
table go to one judge; each that is compared goes to `formd serve` over a file that isn't there before. A million lines have to be answered at the peak memory of ten thousand, but for a mebibyte,
and on four processors four judges, who take the lines in turn, have to be done with the same lines 2.5 times as fast as one (what
was seen stands in bench/README.md).
"""

import itertools
import json
import os
import re
import subprocess
import sys
import tempfile
import threading
import time
from concurrent.futures import ThreadPoolExecutor
from pathlib import Path

import rows
from looks import ROOM, ROOT, end, look

sys.path.append(str(ROOT / "bench"))
from shapes import SHAPES, compact

PROGRAM, SHORT = rows.PROGRAM, "short" in sys.argv[2:]
EACH = 40 if SHORT else 1
COMMANDS = {"put", "set", "remove", "batch", "get", "list", "check", "checkfield", "checkvalue", "redeclare"}
LEAST = 100 if SHORT else 4000
MANY = 200_000 if SHORT else 1_000_000
FEW = 10_000
# KiB: the system counts pages for each processor by itself, so runs of the same lines differ by some hundred; the least that a line could leave, 16 bytes, is three times as much in the end
ALLOWED = 1024
LEAST_GAIN = 2.5
# how many lines one judge and four are given, and how often: a processor of a virtual machine is half as fast again, or as slow, from one second to the next
LINES = 480_000
ROUNDS = 5


def asked():
    """What the tables of rows ask of services: declarations, lines, a moment."""
    found = []

    class Listening(rows.Service):
        def ask(self, lines, now=0):
            found.append((self.declarations.read_bytes(), [line.encode() for line in lines], now))
            return ["{}"] * len(lines)

    rows.Service = Listening
    for file in sorted(rows.DATA.glob("*.rows")):
        for table in rows.tables(file):
            if file.name != "wrong.rows" and table.kind in ("bundles", "judged", "lines", "values"):
                with tempfile.TemporaryDirectory(dir=ROOM) as folder:
                    list(rows.KINDS[table.kind](table, folder))
    return found


def answered(words, lines):
    ran = subprocess.run([PROGRAM, *words], input=b"".join(line + b"\n" for line in lines), capture_output=True, timeout=300)
    return (ran.returncode, ran.stderr, ran.stdout.split(b"\n"))


def compared(declarations, lines, now, chosen):
    """What a judge answers to chosen lines among all of these, and what a service without a record answers to each by itself."""
    with tempfile.TemporaryDirectory(dir=ROOM) as folder:
        file, base = Path(folder) / "declarations.json", Path(folder) / "records.db"
        file.write_bytes(declarations)
        status, error, replies = answered(["judge", "--declarations", file, f"--now={now}"], lines)
        if (status, error, len(replies)) != (0, b"", len(lines) + 1):
            return [(lines[0], (status, error, len(replies)), (0, b"", len(lines) + 1))]
        found = []
        for at in chosen:
            for left in Path(folder).glob("records.db*"):
                left.unlink()
            wanted = answered(["serve", "--declarations", file, "--database", base, f"--now={now}"], [lines[at]])
            found.append((lines[at], (0, b"", [replies[at], b""]), wanted))
        return found


def command_of(line):
    """The command that a line asks for, if it is one."""
    try:
        asked_for = json.loads(line)["do"]
    except (ValueError, KeyError, TypeError):
        return None
    return asked_for if isinstance(asked_for, str) else None


def compare_all():
    """Each line that the rows ask, or each `EACH`th, and the first line of each command."""
    number, work, commands = 0, [], set()
    for declarations, lines, now in asked():
        chosen = []
        for at, line in enumerate(lines):
            if (number + at) % EACH == 0 or command_of(line) not in commands:
                chosen.append(at)
                commands.add(command_of(line))
        number += len(lines)
        if chosen:
            work.append((declarations, lines, now, chosen))
    with ThreadPoolExecutor(os.cpu_count()) as pool:
        found = [line for lines in pool.map(lambda task: compared(*task), work) for line in lines]
    for line, told, wanted in found:
        look(line.decode(errors="replace"), told, wanted)
    print(f"{number} lines to judges, {len(found)} compared with a service that has no record")
    look("commands without a line", COMMANDS - commands, set())
    look(f"{len(found)} lines compared, of at least {LEAST}", len(found) >= LEAST, True)


def puts(shape, number):
    """Lines that put bundles of a shape, each tenth of them refused for its form's name."""
    _, form, bundle, _ = SHAPES[shape]
    for at in range(number):
        yield compact({"do": "put", "id": f"r{at}", "form": form if at % 10 else "nobody", "bundle": bundle(at)}).encode() + b"\n"


def peak(declarations, number):
    """The peak memory of a judge that has answered so many lines, in KiB, as the system tells it of the process alone."""
    words = [PROGRAM, "judge", "--declarations", declarations, "--now=0"]
    with subprocess.Popen(words, stdin=subprocess.PIPE, stdout=subprocess.PIPE) as run:

        def give():
            for line in puts("demonstration", number):
                run.stdin.write(line)
            run.stdin.flush()

        giver = threading.Thread(target=give)
        giver.start()
        taken = sum(reply == b'{"ok":"put"}\n' for reply in itertools.islice(run.stdout, number))
        giver.join()
        used = re.search(r"VmHWM:\s*(\d+) kB", Path(f"/proc/{run.pid}/status").read_text())
        run.stdin.close()
        look(f"a judge of {number} lines", (taken, run.stdout.read(), run.wait()), (number - number // 10, b"", 0))
    return int(used[1])


def look_at_peaks(folder):
    declarations = folder / "declarations.json"
    declarations.write_text(compact(SHAPES["demonstration"].declarations))
    few, many = peak(declarations, FEW), peak(declarations, MANY)
    look(f"peak memory: {few} KiB of {FEW} lines, {many} KiB of {MANY}", many - few <= ALLOWED, True)
    print(f"peak memory: {few} KiB of {FEW:,} lines, {many} KiB of {MANY:,}")


def seconds_for(declarations, parts):
    """How long as many judges as there are parts take, side by side, until the last has answered each line of its part."""
    with tempfile.TemporaryDirectory(dir=ROOM) as folder:
        replies = [Path(folder) / part.name for part in parts]
        begun, runs = time.monotonic(), []
        for part, reply in zip(parts, replies):
            with open(part, "rb") as lines, open(reply, "wb") as out:
                runs.append(subprocess.Popen([PROGRAM, "judge", "--declarations", declarations, "--now=0"], stdin=lines, stdout=out))
        statuses = [run.wait() for run in runs]
        seconds = time.monotonic() - begun
        look("judges' statuses", statuses, [0] * len(parts))
        look("lines answered", sum(reply.read_bytes().count(b"\n") for reply in replies), LINES)
        return seconds


def look_at_four(folder):
    """The order's lines by one judge, and by four who take them in turn, one after the other `ROUNDS` times."""
    declarations = folder / "declarations.json"
    declarations.write_text(compact(SHAPES["order"].declarations))
    lines = list(puts("order", LINES))
    whole, *quarters = (folder / name for name in ("all", "first", "second", "third", "fourth"))
    whole.write_bytes(b"".join(lines))
    for at, quarter in enumerate(quarters):
        quarter.write_bytes(b"".join(lines[at::4]))
    rounds = [(seconds_for(declarations, [whole]), seconds_for(declarations, quarters)) for _ in range(ROUNDS)]
    gain = sum(one for one, _ in rounds) / sum(four for _, four in rounds)
    told = ", ".join(f"{one:.2f} s and {four:.2f} s" for one, four in rounds)
    print(f"four judges answer {LINES:,} lines {gain:.2f} times as fast as one, on {os.cpu_count()} processors ({told})")
    if os.cpu_count() >= 4:
        look("four judges beside one", gain >= LEAST_GAIN, True)


def main():
    compare_all()
    with tempfile.TemporaryDirectory(dir=ROOM) as folder:
        look_at_peaks(Path(folder))
        if not SHORT:
            look_at_four(Path(folder))
    return end()


if __name__ == "__main__":
    sys.exit(main())
