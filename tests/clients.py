#!/usr/bin/env python3
"""Runs the clients of `clients/`, in Python and in Node, over a program that is killed, slow, wrong or stopped, and compares what each caller is told.

    tests/clients.py                  with the program that `make` leaves
    tests/clients.py PROGRAM          with another build of formd
    tests/clients.py PROGRAM short    fewer puts and kills, and nothing that waits for a deadline

tests/clients_driver.py and tests/clients_driver.js are the callers. They put records while the processes are killed at random: no caller may get another's
reply, and the files, read by SQLite, have to hold each put that was answered. A stub in the program's place holds lines back, ends, or says what isn't asked.
Needs `node`; where it isn't there that is said, and the client in Node left out.
"""

import hashlib
import json
import shutil
import sqlite3
import subprocess
import sys
import tempfile
import time
from pathlib import Path

from looks import ROOT, end, look, named_program

PROGRAM = named_program()
SHORT = sys.argv[2:] == ["short"]
PUTS, KILLS = (1600, 20) if SHORT else (10_000, 200)
FIELDS = '"text":{"type":"text","constraints":[{"constraint":"Size","with":{"max":60}}]},"texts":{"type":{"list":{"type":"text"}}},"number":{"type":"integer"}'
DECLARATIONS = f'{{"types":{{"T":{{"fields":{{{FIELDS}}}}}}},"forms":{{"f":{{"root":"T"}}}}}}'
OTHERS = f'{{"types":{{"T":{{"fields":{{{FIELDS},"more":{{"type":"date"}}}}}}}},"forms":{{"f":{{"root":"T"}}}}}}'
NUMBERS = ["9223372036854775807", "-9223372036854775808", "9007199254740993", "-9007199254740993", "9007199254740992", "9007199254740991", "1234567890123456", "0"]
# SHA-256 of "abc" begins with these bytes (FIPS 180-4).
ABC = 0xBA7816BF
STUB = """
import json, os, sys, time
database = sys.argv[sys.argv.index("--database") + 1]

def tell(word):
    open(f"{database}.{word}", "w").close()

def wait(word):
    while not os.path.exists(f"{database}.{word}"):
        time.sleep(0.01)

print(time.monotonic(), file=open(database + ".starts", "a"))
if database.endswith("-dead-0.db"):
    sys.exit(4)
if database.endswith("-mute-0.db"):
    time.sleep(60)
for line in sys.stdin:
    id = json.loads(line).get("id")
    reply = json.dumps({"ok": "get", "id": id, "form": str(os.getpid())})
    if id == "end":
        sys.exit(4)
    elif id in ("never", "slow"):
        tell(id)
        time.sleep(60 if id == "never" else 1)
    elif id == "junk":
        reply = "{"
    elif id == "two":
        reply += "\\n" + reply
    elif id == "other":
        reply = reply.replace("other", "another")
    elif id == "large":
        reply = reply.replace("get", "x" * 5000)
    elif id == "hold":
        tell("held")
        wait("go")
    print(reply if id else '{"error":"C3","name":"Shape"}', flush=True)
    if id == "more":
        wait("said")
        print(reply, flush=True)
        tell("more")
"""
DRIVERS = {"Python": [sys.executable, ROOT / "tests" / "clients_driver.py"], "Node": ["node", ROOT / "tests" / "clients_driver.js"]}


class Play:
    """What the callers of one client are told, in a folder of its own."""

    def __init__(self, language, name, files=1, folder="", stub=False, **config):
        self.what, self.room = f"{language}, {name}", tempfile.TemporaryDirectory()
        room = Path(self.room.name)
        (room / "declarations.json").write_text(DECLARATIONS)
        (room / "stub.py").write_text(STUB)
        self.databases = [str(room / folder / f"{name}-{n}.db") for n in range(files)]
        self.program = [sys.executable, str(room / "stub.py")] if stub else [str(PROGRAM)]
        given = {"program": self.program, "declarations": str(room / "declarations.json"), "databases": self.databases, "seed": 1, "callers": 32, **config}
        begun = time.monotonic()
        try:
            errors = subprocess.DEVNULL if folder else None
            ran = subprocess.run([*DRIVERS[language], name.split("-")[0], json.dumps(given)], stdout=subprocess.PIPE, stderr=errors, text=True, timeout=300)
            self.found = json.loads(ran.stdout) if ran.returncode == 0 else f"status {ran.returncode}"
        except subprocess.TimeoutExpired:
            self.found = "callers hang"
        self.seconds = time.monotonic() - begun

    def has_run(self):
        """Whether there is something to compare; a run that failed is told."""
        if isinstance(self.found, str):
            look(self.what, self.found, "a report")
        return not isinstance(self.found, str)

    def look(self, what, found, wanted):
        look(f"{self.what}: {what}", found, wanted)

    def is_told(self, wanted):
        if self.has_run():
            look(self.what, self.found, wanted)

    def kept(self):
        """The texts of the records in each file by itself, without its log: their processes have ended in order."""
        texts = []
        with tempfile.TemporaryDirectory() as room:
            for database in self.databases:
                shutil.copy(database, f"{room}/copy.db")
                base = sqlite3.connect(f"{room}/copy.db")
                texts.append({key: json.loads(fields)["text"] for key, fields in base.execute("SELECT rec, fields FROM object")})
                base.close()
        return texts

    def compare_kept(self, answered):
        """Each file has the answered puts whose ids belong to it, and nothing else."""
        wanted = [{} for _ in self.databases]
        for key, text in answered.items():
            wanted[int(hashlib.sha256(key.encode()).hexdigest()[:8], 16) % len(wanted)][key] = text
        found = self.kept()
        lost = [key for file, texts in zip(found, wanted) for key in texts if file.get(key) != texts[key]]
        more = [key for file, texts in zip(found, wanted) for key in file if key not in texts]
        self.look("answered puts that are lost", lost, [])
        self.look("records that nobody was told of", more, [])


def kills(language):
    play = Play(language, "kills", files=3, puts=PUTS, kills=KILLS)
    if not play.has_run():
        return
    found = play.found
    play.look("replies to another's line", found["crossed"], [])
    play.look("answered puts", len(found["answered"]), PUTS)
    play.look("statuses", found["statuses"], [0, 0, 0])
    play.look("whether lines were under way when their process was killed", found["unknown"] > 0, True)
    play.compare_kept(found["answered"])
    print(
        f"{language}: {PUTS} puts by 32 callers over 3 files, {KILLS} kills in {play.seconds:.1f} s: {found['unknown']} lines made or not, {found['not_sent']} not sent, "
        f"{len(found['crossed'])} replies to another's line, the longest call {found['slowest']:.2f} s",
        flush=True,
    )


def stop(language):
    play = Play(language, "stop", files=3, puts=PUTS // 8)
    if play.has_run():
        play.look("lines made or not", play.found["unknown"], [])
        play.look("statuses", play.found["statuses"], [0, 0, 0])
        play.look("a line behind the stop", play.found["behind"], "NotSent")
        play.compare_kept(play.found["answered"])


def create(language):
    ids = [f"c{n}" for n in range(10)]
    play = Play(language, "create", files=2, ids=ids)
    for key, found in play.found.items() if play.has_run() else ():
        made = [caller for caller, reply in found["told"] if reply == {"ok": "put"}]
        play.look(f"callers who have made {key}", len(made), 1)
        play.look(f"what the others are told of {key}", [reply for caller, reply in found["told"] if caller not in made], ["Exists"] * 31)
        play.look(f"what is kept as {key}", found["kept"], str(made[0]) if made else None)


def lines(language):
    shape, ids = {"error": "C3", "name": "Shape"}, sorted(f"r{n}" for n in range(30))
    play = Play(language, "lines", files=3, text=OTHERS)
    if play.has_run():
        found = play.found
        play.look("a batch changes what it names", (found.pop("its parts"), any(found["alike"]), all(found["alike"])), (found.pop("alike"), True, False))
    play.is_told(
        {
            "pages": [ids[at : at + 7] for at in range(0, 30, 7)],
            "no limit": shape,
            "any value": {"ok": "checkvalue", "violations": []},
            "a batch": {"ok": "batch"},
            "a batch of two files": "ValueError" if language == "Python" else "RangeError",
            "no parts": shape,
            "no id": shape,
            "an id that is no text": shape,
            "no command": shape,
            "a line too long": {"error": "C1", "name": "LineTooLong"},
            "half a character": {"error": "C2", "name": "NotJson"},
            "a redeclare": [{"ok": "redeclare"}] * 3,
            "one that is refused": [{"error": "C13", "fault": "F1", "name": "Declarations"}],
            "one by ask": "ValueError" if language == "Python" else "RangeError",
            "the last": "r1",
            "abc": [ABC % files for files in range(1, 8)],
        }
    )


def interrupted():
    play = Play("Python", "interrupted", asks=100 if SHORT else 1000)
    if play.has_run():
        play.look("replies to another's line", play.found["crossed"], [])
        play.look("statuses", play.found["statuses"], [0])
        play.look("whether some asks are interrupted", play.found["interrupted"] > 0, True)


def by_stub(language):
    """What doesn't wait for a deadline."""
    # each with the id of the next reply, and whether it comes from the same process
    ended = [["OutcomeUnknown", f"behind-{key}", False] for key in ("end", "junk", "two", "other", "large")]
    Play(language, "wrong", stub=True, limits={"largest": 1000}).is_told([["fine", "behind-fine", True], *ended, ["more", "behind-more", False]])
    Play(language, "full", stub=True, limits={"queue": 4}).is_told([["hold", "r0", "r1", "r2", "r3"], "NotSent", "behind"])


def by_the_clock(language):
    play = Play(language, "deadline", stub=True, limits={"deadline": 0.5})
    if play.has_run():
        play.look("seconds of a line that isn't answered", 0.5 <= play.found.pop("seconds") < 5, True)
        play.is_told({"never": "OutcomeUnknown", "ids": ["r0", "r1", "r2"], "others": True})
    Play(language, "patience", stub=True, limits={"patience": 0.3, "queue": 1}).is_told(["NotSent", True, "slow"])
    play = Play(language, "cut", stub=True)
    if play.has_run():
        play.look("a stop while a line isn't answered", (play.found[0], 0.5 <= play.found[1] < 5), ("OutcomeUnknown", True))
    play = Play(language, "opening-mute", stub=True, limits={"opening": 0.5})
    if play.has_run():
        play.look("an opening that isn't done", (play.found[0], 0.5 <= play.found[1] < 5), ("NotSent", True))
    play = Play(language, "pauses-dead", stub=True)
    play.is_told(["NotSent"] * 5)
    starts = [float(line) for line in Path(play.databases[0] + ".starts").read_text().split()]
    between = [later - earlier for earlier, later in zip(starts, starts[1:])]
    play.look("pauses that are as long as they should be", [found >= wanted for found, wanted in zip(between, (0.05, 0.1, 0.2, 0.4))], [True] * 4)
    if language == "Node":
        Play(language, "busy", stub=True, limits={"deadline": 0.5}).is_told(["quick"])


def main():
    languages = [language for language in DRIVERS if language == "Python" or shutil.which("node")]
    if len(languages) == 1:
        print("node isn't installed: its client is left out")
    for language in languages:
        kills(language)
        stop(language)
        create(language)
        lines(language)
        Play(language, "numbers", files=2, numbers=NUMBERS).is_told([[digits, digits] for digits in NUMBERS])
        Play(language, "large").is_told([True] * 24)
        Play(language, "begin", folder="none").is_told(["NotSent", {"error": "C6", "name": "NoRecord"}])
        Play(language, "deploy", folder=".").is_told(["NotSent", {"text": "1"}])
        by_stub(language)
        if not SHORT:
            by_the_clock(language)
    interrupted()
    return end(f"clients in {' and '.join(languages)}: {{failed}} of {{count}} comparisons differ")


if __name__ == "__main__":
    sys.exit(main())
