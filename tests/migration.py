#!/usr/bin/env python3
"""Opens files of version 1 with formd, which migrates them, and looks at what they then hold.

    tests/migration.py                          the program that `make` leaves
    tests/migration.py PROGRAM                  another build of formd
    tests/migration.py PROGRAM RECORDS          with another number of records than 100,000 where it is killed
    tests/migration.py PROGRAM RECORDS KILLS    and another number of kills than twenty, an even one

A file that the program of version 1 made, with data of every kind (tests/data/version1): its tables, its
declarations and each reply are looked at behind one opening and behind the next. Files that aren't taken: one of
another version, rows that spell no bundle, other tables; each stays as it was. And twenty kills (SIGKILL) of an
opening that migrates 100,000 records, at moments from its beginning to its end and twice behind it: SQLite finds a
copy of the file and its log sound, of version 1 or of version 2 with the same records, and the program opens it.
Prints the seed of its random numbers.
"""

import json
import os
import random
import select
import shutil
import sqlite3
import subprocess
import sys
import tempfile
import time
from pathlib import Path

from looks import ROOT, compact, end, look, named_program

DATA = ROOT / "tests" / "data" / "version1"
PROGRAM = named_program()
RECORDS = int(sys.argv[2]) if len(sys.argv) > 2 else 100_000
KILLS = int(sys.argv[3]) if len(sys.argv) > 3 else 20
SEED = 1
ABOUT = "CREATE TABLE about (one INTEGER PRIMARY KEY CHECK (one = 1), version INTEGER NOT NULL, declarations BLOB NOT NULL)"
FIRST_RECORD = "CREATE TABLE record (id TEXT NOT NULL PRIMARY KEY, form TEXT NOT NULL, bundle TEXT NOT NULL)"
RECORD = "CREATE TABLE record (id TEXT NOT NULL PRIMARY KEY, form TEXT NOT NULL, root TEXT NOT NULL)"
OBJECT = (
    "CREATE TABLE object (rec TEXT NOT NULL REFERENCES record (id) ON DELETE CASCADE, name TEXT NOT NULL, kind TEXT NOT NULL, fields TEXT NOT NULL,"
    " PRIMARY KEY (rec, name))"
)
DECLARATIONS = '{"types":{"Item":{"fields":{"count":{"type":"integer"},"name":{"type":"text"},"to":{"type":{"ref":"Item"}}}}},"forms":{"item":{"root":"Item"}}}'
NO_DECLARATIONS = '{"types":{},"forms":{}}'


def served(declarations, database):
    return [PROGRAM, "serve", "--declarations", declarations, "--database", database, "--now", "0"]


def serve(declarations, database, lines=b""):
    return subprocess.run(served(declarations, database), input=lines, capture_output=True)


def ended(name, ran, status, error):
    look(name, (ran.returncode, ran.stderr.decode()), (status, error))


def made(file, sql, journal="DELETE"):
    """Makes a database of these statements, with a journal of that mode, and leaves it closed."""
    base = sqlite3.connect(file, isolation_level=None)
    base.execute(f"PRAGMA journal_mode = {journal}")
    base.executescript(sql)
    base.close()


class Held:
    """What SQLite finds in a copy of a file and its log, which it has to hold sound."""

    def __init__(self, file, is_dumped=True):
        with tempfile.TemporaryDirectory() as room:
            for name in (file.name, f"{file.name}-wal"):
                if (file.parent / name).exists():
                    shutil.copy(file.parent / name, Path(room) / name)
            base = sqlite3.connect(Path(room) / file.name)
            look(f"{file.name}, integrity_check", base.execute("PRAGMA integrity_check").fetchall(), [("ok",)])
            look(f"{file.name}, foreign_key_check", base.execute("PRAGMA foreign_key_check").fetchall(), [])
            self.tables = [text for (text,) in base.execute("SELECT sql FROM sqlite_schema WHERE sql IS NOT NULL ORDER BY name")]
            self.about = base.execute("SELECT * FROM about").fetchall() if ABOUT in self.tables else []
            self.version = self.about[0][1] if self.about else None
            self.dump = list(base.iterdump()) if is_dumped else None
            self.records = records_in(base, self.tables)
            base.close()


def records_in(base, tables):
    """The records that the rows of either version spell: by the id, the form and the bundle's text."""
    if FIRST_RECORD in tables:
        return {key: (form, bundle) for key, form, bundle in base.execute("SELECT id, form, bundle FROM record")}
    if OBJECT not in tables:
        return {}
    objects = {}
    for key, name, kind, fields in base.execute("SELECT rec, name, kind, fields FROM object ORDER BY rec, name"):
        objects.setdefault(key, []).append(f'"{name}":{{"fields":{fields},"type":"{kind}"}}')
    return {key: (form, f'{{"objects":{{{",".join(objects.get(key, ()))}}},"root":"{root}"}}') for key, form, root in base.execute("SELECT id, form, root FROM record")}


def is_migrated(name, file, declarations, records, is_dumped=True):
    """A file has the tables of version 2, the declarations and the records."""
    held = Held(file, is_dumped)
    look(f"{name}, tables", held.tables, [ABOUT, OBJECT, RECORD])
    look(f"{name}, about", held.about, [(1, 2, declarations)])
    look(f"{name}, the records are the same", held.records == records, True)
    return held


def made_by_the_first_program(folder):
    """The file of the program of version 1 shows the same records, whatever declarations are handed in."""
    file, same, others = folder / "first.db", DATA / "declarations.json", folder / "none.json"
    others.write_text(NO_DECLARATIONS)
    questions, replies = (DATA / "questions.jsonl").read_bytes(), (DATA / "replies.jsonl").read_bytes()
    for journal, first, second in (("DELETE", same, others), ("WAL", others, same)):
        name = f"the first program's file, {journal}"
        file.unlink(missing_ok=True)
        made(file, (DATA / "database.sql").read_text(encoding="utf-8"), journal)
        before = Held(file)
        look(f"{name}, tables before", before.tables, [ABOUT, FIRST_RECORD])
        look(f"{name}, about before", before.about, [(1, 1, same.read_bytes())])
        look(f"{name}, there are records", len(before.records) > 30, True)
        ran = serve(first, file, questions)
        ended(name, ran, 0, "")
        look(f"{name}, replies", ran.stdout.splitlines(), replies.splitlines())
        after = is_migrated(name, file, same.read_bytes(), before.records)
        ran = serve(second, file, questions)
        ended(f"{name}, again", ran, 0, "")
        look(f"{name}, replies again", ran.stdout.splitlines(), replies.splitlines())
        look(f"{name}, nothing has changed", Held(file).dump, after.dump)
        changed_further(name, file, second, before.records)


def changed_further(name, file, declarations, records):
    """A migrated file takes changes: of a record that was there, a new one, and one that goes."""
    lines = [
        {"do": "set", "id": "plain-1", "object": "i", "field": "count", "value": 2},
        {"do": "put", "id": "new", "form": "empty", "bundle": {"root": "e", "objects": {"e": {"type": "Empty"}}}},
        {"do": "remove", "id": "many-1"},
    ]
    ran = serve(declarations, file, "".join(compact(line) + "\n" for line in lines).encode())
    ended(f"{name}, changed", ran, 0, "")
    look(f"{name}, changes", ran.stdout.decode().splitlines(), ['{"ok":"set"}', '{"ok":"put"}', '{"ok":"remove"}'])
    form, text = records["plain-1"]
    wanted = {**records, "plain-1": (form, text.replace('"count":1', '"count":2')), "new": ("empty", '{"objects":{"e":{"fields":{},"type":"Empty"}},"root":"e"}')}
    del wanted["many-1"]
    look(f"{name}, changed records", Held(file).records, wanted)


def in_the_log(folder):
    """A file whose program was killed has its last changes in its log alone."""
    file, good = folder / "killed.db", folder / "d.json"
    good.write_text(DECLARATIONS)
    base = sqlite3.connect(folder / "open.db", isolation_level=None)
    base.execute("PRAGMA journal_mode = WAL")
    base.execute("PRAGMA wal_autocheckpoint = 0")
    base.executescript(first_tables())
    base.execute("INSERT INTO record VALUES ('r1', 'item', ?)", (bundle_text(1),))
    shutil.copy(folder / "open.db", file)
    shutil.copy(folder / "open.db-wal", f"{file}-wal")
    base.close()
    ran = serve(good, file, b'{"do":"get","id":"r1"}\n')
    ended("a log", ran, 0, "")
    look("a log, reply", ran.stdout.decode(), f'{{"bundle":{bundle_text(1)},"form":"item","id":"r1","ok":"get"}}\n')
    is_migrated("a log", file, DECLARATIONS.encode(), {"r1": ("item", bundle_text(1))})


def quoted(text):
    return "'" + text.replace("'", "''") + "'"


def first_tables(declarations=DECLARATIONS, version=1):
    return f"{ABOUT};\n{FIRST_RECORD};\nINSERT INTO about VALUES (1, {version}, x'{declarations.encode().hex()}');\n"


def bundle_text(number):
    """The bundle of a record of version 1, of one object to three that refer to one another."""
    names = "abc"[: number % 3 + 1]
    objects = {name: {"fields": {"count": number, "name": f"\u00e9 {number}", "to": names[-1]}, "type": "Item"} for name in names}
    return json.dumps({"objects": objects, "root": "a"}, separators=(",", ":"), ensure_ascii=False)


# Texts of rows that spell no bundle, by what is wrong with them.
DAMAGED = {
    "no JSON": "{",
    "no text": "",
    "a number": "7",
    "no root": '{"objects":{"a":{"fields":{},"type":"Item"}}}',
    "a root that is no text": '{"objects":{"a":{"fields":{},"type":"Item"}},"root":1}',
    "no objects": '{"root":"a"}',
    "a list of objects": '{"objects":[{"fields":{},"type":"Item"}],"root":"a"}',
    "no fields": '{"objects":{"a":{"fields":{},"type":"Item"},"b":{"type":"Item"}},"root":"a"}',
    "null for fields": '{"objects":{"a":{"fields":null,"type":"Item"}},"root":"a"}',
    "no type": '{"objects":{"a":{"fields":{}}},"root":"a"}',
    "a further member": '{"objects":{"a":{"fields":{},"type":"Item"}},"root":"a","version":1}',
    "a number that isn't whole": '{"objects":{"a":{"fields":{"count":1.5},"type":"Item"}},"root":"a"}',
    "a number that isn't whole, deep inside": '{"objects":{"a":{"fields":{"x":[{"k":[0,0.5]}]},"type":"Item"}},"root":"a"}',
    "a number out of range": '{"objects":{"a":{"fields":{"count":1e400},"type":"Item"}},"root":"a"}',
    "a number with an exponent": '{"objects":{"a":{"fields":{"count":1e2},"type":"Item"}},"root":"a"}',
}
# Other tables than those of version 1, or more, under a row of `about` that says so.
OTHER_TABLES = {
    "tables of version 2": f"DROP TABLE record; {RECORD}; {OBJECT}; INSERT INTO record VALUES ('r1', 'item', 'a')",
    "no record": "DROP TABLE record",
    "another record": "DROP TABLE record; CREATE TABLE record (id TEXT)",
    "an object": "CREATE TABLE object (x)",
    "a further table": "CREATE TABLE note (text TEXT)",
    "an index": "CREATE INDEX by_form ON record (form)",
    "a view": "CREATE VIEW ids AS SELECT id FROM record",
    "what ANALYZE leaves": "ANALYZE",
}


def refused(name, folder, sql, error="formd: store: Store\n"):
    """A file that these statements make isn't taken, and stays as it was."""
    good, file = folder / "d.json", folder / "refused.db"
    good.write_text(DECLARATIONS)
    for left in folder.glob("refused.db*"):
        left.unlink()
    made(file, sql)
    before = Held(file)
    for again in ("", ", again"):
        ran = serve(good, file, b'{"do":"get","id":"r1"}\n')
        ended(f"{name}{again}", ran, 4, error)
        look(f"{name}{again}, replies", ran.stdout, b"")
        look(f"{name}{again}, the file stays", Held(file).dump, before.dump)


def row(key, text):
    return f"INSERT INTO record VALUES ({quoted(key)}, 'item', {quoted(text)});\n"


def not_taken(folder):
    rows = "".join(row(f"r{number}", bundle_text(number)) for number in range(5))
    for version in (0, -1, 3, 2**32 + 1):
        refused(f"version {version}", folder, first_tables(version=version) + rows, "formd: store: OtherVersion\n")
    for name, text in DAMAGED.items():
        refused(name, folder, first_tables() + rows + row("r5", text) + row("r6", bundle_text(6)))
    refused("a blob", folder, first_tables() + rows + "UPDATE record SET bundle = CAST(bundle AS BLOB) WHERE id = 'r3'")
    refused("no row of about", folder, first_tables() + rows + "DELETE FROM about")
    for name, change in OTHER_TABLES.items():
        refused(name, folder, first_tables() + rows + change)


def empty(folder):
    """A file without records gets two empty tables."""
    good, file = folder / "d.json", folder / "empty.db"
    good.write_text(NO_DECLARATIONS)
    made(file, first_tables())
    ran = serve(good, file, b'{"do":"list","form":"item"}\n')
    ended("no records", ran, 0, "")
    look("no records, reply", ran.stdout, b'{"ids":[],"ok":"list"}\n')
    is_migrated("no records", file, DECLARATIONS.encode(), {})


def questions(keys):
    return "".join(f'{{"do":"get","id":"{key}"}}\n' for key in keys).encode()


def replies(keys, records):
    return "".join(f'{{"bundle":{records[key][1]},"form":"{records[key][0]}","id":"{key}","ok":"get"}}\n' for key in keys).encode()


def pages(keys):
    """Lines that list all ids, a thousand at once, and the replies."""
    lines, wanted = [], []
    for at in range(0, len(keys), 1000):
        after = {"after": keys[at - 1]} if at else {}
        lines.append(compact({"do": "list", "form": "item", "limit": 1000, **after}) + "\n")
        wanted.append(compact({"ids": keys[at : at + 1000], "ok": "list"}) + "\n")
    return "".join(lines).encode(), "".join(wanted).encode()


def copied(folder):
    """A folder's copy of the large file of version 1, without a log."""
    for left in folder.glob("g.db*"):
        left.unlink()
    shutil.copy(folder / "large.db", folder / "g.db")
    return folder / "g.db"


class Opening:
    """A run of the program that opens a file and is asked for a record."""

    def __init__(self, declarations, file, key):
        self.log = Path(f"{file}-wal")
        self.program = subprocess.Popen(served(declarations, file), stdin=subprocess.PIPE, stdout=subprocess.PIPE)
        self.program.stdin.write(questions([key]))
        self.program.stdin.flush()

    def has_replied(self):
        return bool(select.select([self.program.stdout], [], [], 0)[0])

    def processor_seconds(self):
        """What it has spent so far: other work on the machine doesn't count."""
        fields = Path(f"/proc/{self.program.pid}/stat").read_text().rpartition(")")[2].split()
        return (int(fields[11]) + int(fields[12])) / os.sysconf("SC_CLK_TCK")

    def log_size(self):
        return self.log.stat().st_size if self.log.exists() else 0

    def kill(self):
        self.program.kill()
        self.program.communicate()


def whole_opening(declarations, file, key, records):
    """Seconds of an opening that isn't killed, those of the processor, and how long its log is then."""
    begun = time.monotonic()
    opening = Opening(declarations, file, key)
    reply = opening.program.stdout.readline()
    took, spent, size = time.monotonic() - begun, opening.processor_seconds(), opening.log_size()
    look("an opening that isn't killed, reply", reply, replies([key], records))
    opening.program.stdin.close()
    look("an opening that isn't killed, status", opening.program.wait(), 0)
    return took, spent, size


def kills(folder):
    """Half of the kills come behind a share of the processor's seconds, half behind a share of the log; the last of each once all is written."""
    chance = random.Random(SEED)
    good, large = folder / "d.json", folder / "large.db"
    good.write_text(NO_DECLARATIONS)
    made(large, first_tables())
    base = sqlite3.connect(large)
    base.executemany("INSERT INTO record VALUES (?, 'item', ?)", ((f"r{number * 7919 % 1000003:07}", bundle_text(number)) for number in range(RECORDS)))
    base.commit()
    base.close()
    records = Held(large, is_dumped=False).records
    keys = sorted(records)
    look("kills, records", len(keys), RECORDS)
    took, whole, whole_log = whole_opening(good, copied(folder), keys[0], records)
    found, amid = {1: 0, 2: 0}, 0
    for kill in range(KILLS):
        name, file, share = f"kill {kill}", copied(folder), (kill // 2 + chance.random()) / (KILLS // 2 - 1)
        opening = Opening(good, file, keys[0])
        while not opening.has_replied() and (opening.log_size() / whole_log if kill % 2 else opening.processor_seconds() / whole) < share:
            time.sleep(0.0005)
        opening.kill()
        is_written = opening.log_size() > 4096
        held = Held(file, is_dumped=False)
        look(f"{name}, version", held.version in found, True)
        found[held.version] = found.get(held.version, 0) + 1
        amid += held.version == 1 and is_written
        look(f"{name}, tables", held.tables, [ABOUT, FIRST_RECORD] if held.version == 1 else [ABOUT, OBJECT, RECORD])
        look(f"{name}, about", held.about, [(1, held.version, DECLARATIONS.encode())])
        look(f"{name}, the records are the same", held.records == records, True)
        lines, wanted = pages(keys)
        some = chance.sample(keys, min(500, len(keys)))
        ran = serve(good, file, lines + questions(some))
        ended(f"{name}, opened", ran, 0, "")
        look(f"{name}, opened, replies", ran.stdout == wanted + replies(some, records), True)
        is_migrated(f"{name}, opened", file, DECLARATIONS.encode(), records, is_dumped=False)
    look("kills, both versions are met", all(found.values()), True)
    print(
        f"seed {SEED}: {KILLS} kills amid a migration of {RECORDS:,} records, which takes {took:.1f} s: version 1 behind {found[1]} of them, for {amid} of which the log was being written,"
        f" version 2 behind {found[2]}"
    )


def main():
    with tempfile.TemporaryDirectory() as name:
        folder = Path(name)
        made_by_the_first_program(folder)
        in_the_log(folder)
        empty(folder)
        not_taken(folder)
        kills(folder)
    return end("{count} looked at, {failed} differ")


if __name__ == "__main__":
    sys.exit(main())
