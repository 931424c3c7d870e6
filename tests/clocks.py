#!/usr/bin/env python3
"""Runs formd by a clock that says what this script wants, fails, stands before 1970 or past the last moment.

    tests/clocks.py            with the program that `make` leaves
    tests/clocks.py PROGRAM    with another build of formd

Each line is judged at the clock's moment, which is asked once a line. Where the clock fails, or stands before 1970, its last answer counts, 0 at first; past the last moment,
9999-12-30T00:00:00Z, that one does. Which moment a line was judged at is told by two checks of an instant: it is past or present, and isn't past.
"""

import json
import mmap
import os
import struct
import subprocess
import sys
import tempfile
from pathlib import Path

from looks import ROOM, ROOT, end, look, named_program

PROGRAM = named_program()
LAST = 253_402_128_000
DAY = 86_400
FAILS = None
PAST = {"types": {"T": {"fields": {name: {"type": "instant", "constraints": [{"constraint": name}]} for name in ("Past", "PastOrPresent")}}}, "forms": {}}
EVENT = {"types": {"Event": {"fields": {"when": {"type": "date", "constraints": [{"constraint": "Future"}]}, "note": {"type": "text"}}}}, "forms": {"f": {"root": "Event"}}}


class Service:
    """A run of the program under declarations, by a clock of our own: one that serves, or one that judges."""

    def __init__(self, folder, library, declarations, word="serve"):
        page, file = folder / "page", folder / "d.json"
        page.write_bytes(bytes(24))
        file.write_text(json.dumps(declarations))
        with open(page, "r+b") as shared:
            self.numbers = mmap.mmap(shared.fileno(), 24)
        environment = {**os.environ, "LD_PRELOAD": str(library), "CLOCK_PAGE": str(page)}
        for left in folder.glob("c.db*"):
            left.unlink()
        words = [PROGRAM, word, "--declarations", file, *(["--database", folder / "c.db"] if word == "serve" else [])]
        self.run = subprocess.Popen(words, stdin=subprocess.PIPE, stdout=subprocess.PIPE, env=environment)

    def ask(self, says, line):
        """The reply to a line while the clock says so many seconds, or fails; it is asked once."""
        self.numbers[:] = struct.pack("qqq", says is FAILS, says or 0, 0)
        self.run.stdin.write(json.dumps(line).encode() + b"\n")
        self.run.stdin.flush()
        reply = json.loads(self.run.stdout.readline())
        look(f"how often the clock is asked for {line}", struct.unpack("qqq", self.numbers[:])[2], 1)
        return reply

    def end(self):
        self.run.stdin.close()
        look("a run to its end", self.run.wait(), 0)


def holds(service, says, constraint, moment):
    """Whether an instant meets a constraint while the clock says so."""
    reply = service.ask(says, {"do": "checkvalue", "type": "T", "field": constraint, "value": moment})
    look("a check of an instant", reply.get("ok"), "checkvalue")
    return reply.get("violations") == []


def moments(folder, library, word):
    """What the clock says, and the moment that counts: its own, its last, or the last of all."""
    service = Service(folder, library, PAST, word)
    for says, counts in (
        (FAILS, 0), (1, 1), (FAILS, 1), (LAST, LAST), (LAST + 1, LAST), (2, 2), (2**62, LAST), (FAILS, LAST), (7, 7), (-1, 7), (-(2**40), 7), (DAY, DAY),
    ):
        look(f"{word}: a clock that says {says}, judged at {counts}", [holds(service, says, constraint, counts) for constraint in ("PastOrPresent", "Past")], [True, False])
    service.end()


def put(**fields):
    return {"do": "put", "id": "r1", "form": "f", "bundle": {"root": "a", "objects": {"a": {"type": "Event", "fields": fields}}}}


def shown(**fields):
    return {"bundle": {"objects": {"a": {"fields": fields, "type": "Event"}}, "root": "a"}, "form": "f", "id": "r1", "ok": "get"}


def events(folder, library):
    """Each line is judged at its own moment; a record that was taken stays when its time has come."""
    day, get = "1970-01-02", {"do": "get", "id": "r1"}
    late = {
        "error": "C10",
        "name": "Violations",
        "records": [{"id": "r1", "violations": [{"constraint": "Future", "message": "must be a future date", "occurrence": 0, "path": "when", "value": day}]}],
    }
    service = Service(folder, library, EVENT)
    for says, line, reply in (
        (0, put(when=day), {"ok": "put"}),
        (DAY, put(note="x", when=day), late),
        (LAST, get, shown(when=day)),
        (DAY - 1, put(note="x", when=day), {"ok": "put"}),
        (5 * DAY, get, shown(note="x", when=day)),
    ):
        look(f"at {says}, {line}", service.ask(says, line), reply)
    anew = {"do": "redeclare", "text": json.dumps(EVENT)}
    for says, reply in ((DAY - 1, {"ok": "redeclare"}), (DAY, late), (LAST, late), (0, {"ok": "redeclare"})):
        look(f"a redeclare at {says}", service.ask(says, anew), reply)
    service.end()


def main():
    with tempfile.TemporaryDirectory(dir=ROOM) as name:
        folder, library = Path(name), Path(name) / "clock.so"
        subprocess.run(["gcc", "-O1", "-shared", "-fPIC", "-o", library, ROOT / "tests" / "clock.c"], check=True)
        for word in "serve", "judge":
            moments(folder, library, word)
        events(folder, library)
    return end()


if __name__ == "__main__":
    sys.exit(main())
