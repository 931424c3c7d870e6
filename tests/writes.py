#!/usr/bin/env python3
"""Notes what each line changes in the files of formd's database: nothing where it changes no record and no declarations, and else one transaction, in the log alone.

    tests/writes.py            with the program that `make` leaves
    tests/writes.py PROGRAM    with another build of formd

A transaction in the log: frames, a sync, one byte behind which they count, and a sync. Whatever a line asks, the database's own file isn't touched before the service ends. The
lines, each over the same two records, are those of refused_allocations.py: of each command some that are taken and some for each refusal; and further refusals below.
"""

import json
import os
import shutil
import subprocess
import sys
import tempfile
from pathlib import Path

sys.dont_write_bytecode = True
from looks import ROOM, ROOT, compact, end, look
from refused_allocations import FIRST, LINES, ODD, PROGRAM, Model, change, declarations, item, put, redeclare, served

# further refusals: of what the line says by itself, behind a record that is found, and when all parts of a batch are made
MORE = [
    ("put", "C5", put("r2", "a", a=item(name="a", next="zz"))),
    ("set", "C6", change("r9", "a", "name", "a")),
    ("batch", "C6", {"do": "batch", "parts": [put("r9", "a", a=item(name="x")), {"do": "remove", "id": "r1"}, {"do": "remove", "id": "r1"}]}),
    ("batch", "C10", {"do": "batch", "parts": [{"do": "remove", "id": "r1"}, put("r9", "a", a=item())]}),
    ("redeclare", "C13", redeclare("{")),
    ("checkvalue", "C5", {"do": "checkvalue", "type": "Item", "field": "count", "value": "x"}),
    ("list", "C4", {"do": "list", "form": "other"}),
]
CHANGES = ("put", "set", "remove", "batch", "redeclare")


class Noted:
    """A run of the program whose changes of its files are noted."""

    def __init__(self, folder, library):
        self.log = folder / "noted"
        self.log.write_bytes(b"")
        environment = {**os.environ, "LD_PRELOAD": str(library), "WRITES_LOG": str(self.log)}
        words = [PROGRAM, *served(folder / "d.json", folder / "g.db")]
        self.run = subprocess.Popen(words, stdin=subprocess.PIPE, stdout=subprocess.PIPE, env=environment)

    def ask(self, line):
        """The reply to a line, and what was changed before it: of each change the file, what, where and how many bytes."""
        before = self.log.stat().st_size
        self.run.stdin.write(line.encode() + b"\n")
        self.run.stdin.flush()
        reply = self.run.stdout.readline().decode().rstrip("\n")
        with open(self.log, encoding="ascii") as file:
            file.seek(before)
            return reply, [tuple(noted.split()) for noted in file]

    def end(self):
        self.run.stdin.close()
        look("a run to its end", self.run.wait(), 0)


def is_transaction(noted):
    """Whether changes are frames, a sync, one byte that stands before them, and a sync, in the log alone."""
    kinds = "".join(what for _, what, _, _ in noted)
    syncs = kinds.count("s")
    if {file for file, _, _, _ in noted} != {"l"} or syncs != 2 or not kinds.endswith("sws") or kinds.startswith("s"):
        return False
    frames, (_, _, at, length) = noted[:-3], noted[-2]
    return length == "1" and all(what in "wt" for _, what, _, _ in frames) and any(what == "w" for _, what, _, _ in frames)


def main():
    with tempfile.TemporaryDirectory(dir=ROOM) as name:
        folder, library = Path(name), Path(name) / "writes.so"
        subprocess.run(["gcc", "-O1", "-shared", "-fPIC", "-o", library, ROOT / "tests" / "writes.c"], check=True)
        (folder / "d.json").write_text(declarations())
        filled = "".join(compact(line) + "\n" for line in FIRST)
        run = subprocess.run([PROGRAM, *served(folder / "d.json", folder / "kept.db")], input=filled, capture_output=True, text=True)
        look("the first records", run.stdout, '{"ok":"put"}\n' * len(FIRST))
        for do, code, line in LINES + MORE + ODD:
            line = line if isinstance(line, str) else compact(line)
            for left in folder.glob("g.db*"):
                left.unlink()
            for kept in folder.glob("kept.db*"):
                shutil.copy(kept, folder / kept.name.replace("kept", "g"))
            model = Model(json.loads(declarations()), {})
            for first in FIRST:
                model.answer(compact(first))
            wanted = compact(model.answer(line))
            noted = Noted(folder, library)
            noted.ask('{"do":"get","id":"r1"}')
            reply, changed = noted.ask(line)
            noted.end()
            look(f"the reply to {line}", reply, wanted)
            if code == "ok" and do in CHANGES:
                look(f"one transaction by {line}: {changed}", is_transaction(changed), True)
            else:
                look(f"what {line} changes", changed, [])
    return end()


if __name__ == "__main__":
    sys.exit(main())
