#!/usr/bin/env python3
"""Runs formd over files that it can't serve, and looks at its exit status and its line on standard error.

    tests/statuses.py            with the program that `make` leaves
    tests/statuses.py PROGRAM    with another build of formd

A start that is refused leaves no file that wasn't there. A folder, a missing file, garbage, a file in use, one that may not be written, a disk that is full when
the database is made or in the middle of puts, a pipe that nobody reads, tables of a later version, and a file
whose own declarations aren't taken. Behind a full disk every put that was answered has to be in the file.
And what SQLite finds in the file of a run that ended in order: the tables of docs/FORMATS.md, their rows
behind each kind of change, the declarations behind a redeclare, and no fault.
"""

import json
import os
import resource
import shutil
import signal
import sqlite3
import subprocess
import sys
import tempfile
from pathlib import Path

from looks import end, look, named_program

PROGRAM = named_program()
DECLARATIONS = '{"types":{"T":{"fields":{"t":{"type":"text"}}}},"forms":{"f":{"root":"T"}}}'
ABOUT = "CREATE TABLE about (one INTEGER PRIMARY KEY CHECK (one = 1), version INTEGER NOT NULL, declarations BLOB NOT NULL)"
OBJECT = (
    "CREATE TABLE object (rec TEXT NOT NULL REFERENCES record (id) ON DELETE CASCADE, name TEXT NOT NULL, kind TEXT NOT NULL, fields TEXT NOT NULL,"
    " PRIMARY KEY (rec, name))"
)
RECORD = "CREATE TABLE record (id TEXT NOT NULL PRIMARY KEY, form TEXT NOT NULL, root TEXT NOT NULL)"
# An order refers to a note and to a chain of lines, which may be null.
ORDERS = """{"types":{
    "Order":{"fields":{"number":{"type":"integer"},"buyer":{"type":"text"},"first":{"type":{"ref":"Line"}},"note":{"type":{"ref":"Note"}}}},
    "Line":{"fields":{"price":{"type":"decimal"},"what":{"type":"text"},"next":{"type":{"ref":"Line"}}}},
    "Note":{"fields":{"words":{"type":{"list":{"type":"text"}}}}}
    },"forms":{"order":{"root":"Order"},"line":{"root":"Line"}}}"""
NOBODY = 65534


def put(number, length=0):
    return json.dumps({"do": "put", "id": f"r{number}", "form": "f", "bundle": {"root": "a", "objects": {"a": {"type": "T", "fields": {"t": "x" * length}}}}})


def around(database):
    """The names of the files beside a database."""
    folder = Path(database).parent
    return sorted(file.name for file in folder.iterdir()) if folder.is_dir() else []


def serve(declarations, database, lines="", program=PROGRAM, **how):
    """Serves. A start that is refused leaves no file that wasn't there."""
    words = [program, "serve", "--declarations", declarations, "--database", database]
    before = around(database)
    ran = subprocess.run(words, input=lines, capture_output=True, text=True, **how)
    if ran.returncode in (3, 4) and ran.stderr not in ("formd: read\n", "formd: write\n"):
        look(f"files behind {ran.stderr.strip()}", around(database), before)
    return ran


def limited(size):
    """Lets the program write no file past a size, and tells it so by a failed write."""

    def limit():
        signal.signal(signal.SIGXFSZ, signal.SIG_IGN)
        resource.setrlimit(resource.RLIMIT_FSIZE, (size, size))

    return limit


def ended(name, ran, status, error):
    look(name, (ran.returncode, ran.stderr), (status, error))


def selected(file, query):
    """What a query shows of a file that SQLite holds sound."""
    base = sqlite3.connect(file)
    look("integrity_check", base.execute("PRAGMA integrity_check").fetchall(), [("ok",)])
    look("foreign_key_check", base.execute("PRAGMA foreign_key_check").fetchall(), [])
    found = base.execute(query).fetchall()
    base.close()
    return found


def tables(file):
    return [text for (text,) in selected(file, "SELECT sql FROM sqlite_schema WHERE sql IS NOT NULL ORDER BY name")]


def rows(file, table):
    return selected(file, f"SELECT * FROM {table} ORDER BY 1, 2")


def files(folder):
    good = folder / "d.json"
    good.write_text(DECLARATIONS)
    cannot_read, cannot_open = "formd: cannot read declarations\n", "formd: cannot open database\n"
    ended("declarations in a folder", serve(folder, folder / "a.db"), 4, cannot_read)
    ended("no declarations", serve(folder / "none.json", folder / "a.db"), 4, cannot_read)
    ended("a database in a folder", serve(good, folder), 4, cannot_open)
    ended("a database in no folder", serve(good, folder / "none" / "a.db"), 4, cannot_open)
    (folder / "garbage.db").write_bytes(bytes(range(256)) * 64)
    ended("garbage", serve(good, folder / "garbage.db"), 4, cannot_open)
    look("garbage stays", (folder / "garbage.db").read_bytes(), bytes(range(256)) * 64)
    (folder / "bad.json").write_text("{")
    ended("no JSON", serve(folder / "bad.json", folder / "a.db"), 3, "formd: declarations refused: F1 NotJson\n")
    (folder / "journal.db-journal").write_bytes(b"left by another program")
    ended("a journal and no database", serve(good, folder / "journal.db"), 4, cannot_open)
    (folder / "odd.db-wal").mkdir()
    ended("a folder in the log's place", serve(good, folder / "odd.db"), 4, cannot_open)
    (folder / "nowhere.db").symlink_to(folder / "none.db")
    ended("a link to nothing", serve(good, folder / "nowhere.db"), 4, cannot_open)
    (folder / "nowhere.db").unlink()
    ended("an empty input", serve(good, folder / "b.db"), 0, "")
    (folder / "linked.db").symlink_to(folder / "b.db")
    (folder / "b.db-wal").unlink(missing_ok=True)
    ended("no JSON, by a link to a database", serve(folder / "bad.json", folder / "linked.db"), 3, "formd: declarations refused: F1 NotJson\n")
    words = [PROGRAM, "serve", "--declarations", good, "--database", folder / "b.db"]
    with subprocess.Popen(words, stdin=subprocess.PIPE, stdout=subprocess.PIPE, text=True) as first:
        first.stdin.write(put(1) + "\n")
        first.stdin.flush()
        look("the first", first.stdout.readline(), '{"ok":"put"}\n')
        ended("in use", serve(good, folder / "b.db"), 4, cannot_open)
        look("the first, again", first.communicate(put(2) + "\n")[0], '{"ok":"put"}\n')
    look("tables", tables(folder / "b.db"), [ABOUT, OBJECT, RECORD])
    look("about", rows(folder / "b.db", "about"), [(1, 2, DECLARATIONS.encode())])
    look("record", rows(folder / "b.db", "record"), [("r1", "f", "a"), ("r2", "f", "a")])
    look("object", rows(folder / "b.db", "object"), [("r1", "a", "T", '{"t":""}'), ("r2", "a", "T", '{"t":""}')])
    if os.getuid() == 0:
        for file in folder.iterdir():
            file.chmod(0o444)
        # (where the program lies nobody may not get to it)
        copied = shutil.copy(PROGRAM, folder / "formd")
        folder.chmod(0o555)
        ended("read-only", serve(good, folder / "b.db", program=copied, user=NOBODY, group=NOBODY, extra_groups=[]), 4, cannot_open)
        folder.chmod(0o755)


def made(kind, **fields):
    return {"type": kind, "fields": fields}


def put_of(key, form, root, **objects):
    return {"do": "put", "id": key, "form": form, "bundle": {"root": root, "objects": objects}}


def set_of(key, name, field, value):
    return {"do": "set", "id": key, "object": name, "field": field, "value": value}


def changes(folder):
    """The rows of both tables behind each kind of change: each is a run of its own over what the one before it left."""
    good, file = folder / "orders.json", folder / "orders.db"
    good.write_text(ORDERS)

    def behind(name, commands, records, objects):
        ran = serve(good, file, "".join(json.dumps(command) + "\n" for command in commands))
        ended(name, ran, 0, "")
        look(f"{name}, replies", [json.loads(reply) for reply in ran.stdout.splitlines()], [{"ok": command["do"]} for command in commands])
        look(f"{name}, record", rows(file, "record"), records)
        look(f"{name}, object", rows(file, "object"), objects)

    order = made("Order", number=7, buyer='\u00fc "B"\n', first="l1", note=None)
    loop = made("Line", next="l1")
    behind(
        "a put",
        [
            put_of("b", "order", "o", o=order, l1=made("Line", what="Mug", price="1.50", next="l2"), l2=made("Line"), n=made("Note", words=["x", None, ""])),
            put_of("a", "line", "l1", l1=loop),
        ],
        [("a", "line", "l1"), ("b", "order", "o")],
        [
            ("a", "l1", "Line", '{"next":"l1"}'),
            ("b", "l1", "Line", '{"next":"l2","price":"1.50","what":"Mug"}'),
            ("b", "l2", "Line", "{}"),
            ("b", "n", "Note", '{"words":["x",null,""]}'),
            ("b", "o", "Order", '{"buyer":"\u00fc \\"B\\"\\n","first":"l1","number":7}'),
        ],
    )
    behind(
        "a put with fewer objects",
        [put_of("b", "order", "o", o=made("Order", first="l2"), l2=made("Line"))],
        [("a", "line", "l1"), ("b", "order", "o")],
        [("a", "l1", "Line", '{"next":"l1"}'), ("b", "l2", "Line", "{}"), ("b", "o", "Order", '{"first":"l2"}')],
    )
    behind(
        "a put with other objects",
        [put_of("b", "line", "l3", l3=made("Line"), n=made("Note"), o=made("Line", what="Cup"))],
        [("a", "line", "l1"), ("b", "line", "l3")],
        [("a", "l1", "Line", '{"next":"l1"}'), ("b", "l3", "Line", "{}"), ("b", "n", "Note", "{}"), ("b", "o", "Line", '{"what":"Cup"}')],
    )
    behind(
        "a set",
        [set_of("b", "l3", "next", "o"), set_of("b", "o", "price", "0.10"), set_of("b", "o", "what", None)],
        [("a", "line", "l1"), ("b", "line", "l3")],
        [("a", "l1", "Line", '{"next":"l1"}'), ("b", "l3", "Line", '{"next":"o"}'), ("b", "n", "Note", "{}"), ("b", "o", "Line", '{"price":"0.10"}')],
    )
    behind(
        "a remove",
        [{"do": "remove", "id": "b"}],
        [("a", "line", "l1")],
        [("a", "l1", "Line", '{"next":"l1"}')],
    )
    parts = [
        put_of("c", "order", "o", o=made("Order"), n=made("Note")),
        set_of("a", "l1", "what", "Pot"),
        put_of("d", "line", "m", m=made("Line")),
        set_of("c", "o", "note", "n"),
        {"do": "remove", "id": "d"},
        put_of("a", "line", "l2", l2=made("Line", next="l1"), l1=made("Line", what="Jug")),
        set_of("a", "l2", "price", "3"),
    ]
    records = [("a", "line", "l2"), ("c", "order", "o")]
    objects = [
        ("a", "l1", "Line", '{"what":"Jug"}'),
        ("a", "l2", "Line", '{"next":"l1","price":"3"}'),
        ("c", "n", "Note", "{}"),
        ("c", "o", "Order", '{"note":"n"}'),
    ]
    behind("a batch", [{"do": "batch", "parts": parts}], records, objects)
    refused = {"do": "batch", "parts": [{"do": "remove", "id": "a"}, set_of("c", "o", "number", 1), {"do": "remove", "id": "d"}]}
    ran = serve(good, file, json.dumps(refused) + "\n")
    look("a batch that isn't made", ran.stdout, '{"error":"C6","name":"NoRecord","part":2}\n')
    look("a batch that isn't made, record", rows(file, "record"), records)
    look("a batch that isn't made, object", rows(file, "object"), objects)


def later_version(folder):
    """Tables of a version that the program doesn't know are refused and stay as they are."""
    good, file = folder / "later.json", folder / "later.db"
    good.write_text(DECLARATIONS)
    base = sqlite3.connect(file)
    for table in (ABOUT, RECORD, OBJECT):
        base.execute(table)
    base.execute("INSERT INTO about VALUES (1, 3, ?)", (DECLARATIONS.encode(),))
    records = [(f"r{number}", "f", "a") for number in range(3)]
    objects = [(f"r{number}", "a", "T", '{"t":"x"}') for number in range(3)]
    base.executemany("INSERT INTO record VALUES (?, ?, ?)", records)
    base.executemany("INSERT INTO object VALUES (?, ?, ?, ?)", objects)
    base.commit()
    base.close()
    for name in ("version 3", "version 3, again"):
        ran = serve(good, file, put(1) + "\n")
        ended(name, ran, 4, "formd: store: OtherVersion\n")
        look(f"{name}, replies", ran.stdout, "")
        look(f"{name}, tables", tables(file), [ABOUT, OBJECT, RECORD])
        look(f"{name}, about", rows(file, "about"), [(1, 3, DECLARATIONS.encode())])
        look(f"{name}, record", rows(file, "record"), records)
        look(f"{name}, object", rows(file, "object"), objects)
    good.write_text(DECLARATIONS + "\n")
    ended("version 3 under other declarations", serve(good, file), 4, "formd: store: OtherVersion\n")
    for beside in ("CREATE TABLE more (text TEXT)", "CREATE VIEW ids AS SELECT id FROM record"):
        base = sqlite3.connect(file)
        base.execute(beside)
        base.close()
        ran = serve(good, file, put(1) + "\n")
        ended(f"version 3 behind {beside}", ran, 4, "formd: store: OtherVersion\n")
        look(f"version 3 behind {beside}, replies", ran.stdout, "")
        look(f"version 3 behind {beside}, record", rows(file, "record"), records)

    def about(version, declarations):
        base = sqlite3.connect(file)
        base.execute("UPDATE about SET version = ?, declarations = ?", (version, declarations))
        base.commit()
        base.close()

    about(3, "kept in another way")
    ended("version 3 whose declarations are text", serve(good, file), 4, "formd: store: OtherVersion\n")
    about(2, DECLARATIONS)
    ended("version 2 whose declarations are text", serve(good, file), 4, "formd: store: Store\n")
    about(2, DECLARATIONS.encode())
    ran = serve(good, file, '{"do":"get","id":"r0"}\n')
    ended("version 2 with a table and a view more", ran, 0, "")
    shown = '{"bundle":{"objects":{"a":{"fields":{"t":"x"},"type":"T"}},"root":"a"},"form":"f","id":"r0","ok":"get"}\n'
    look("version 2 with a table and a view more, replies", ran.stdout, shown)


def redeclare(text):
    return json.dumps({"do": "redeclare", "text": text})


def declared(folder):
    """The declarations that a file keeps are in force, whatever is handed in, until a line changes them."""
    good, other, file = folder / "kept.json", folder / "other.json", folder / "kept.db"
    good.write_text(DECLARATIONS)
    other.write_text('{"types":{},"forms":{}}')
    records, objects = [("r1", "f", "a"), ("r2", "f", "a")], [("r1", "a", "T", '{"t":"x"}'), ("r2", "a", "T", '{"t":""}')]
    get = '{"do":"get","id":"r1"}'
    shown = '{"bundle":{"objects":{"a":{"fields":{"t":"x"},"type":"T"}},"root":"a"},"form":"f","id":"r1","ok":"get"}'

    def behind(name, given, lines, replies, text):
        ran = serve(given, file, "".join(line + "\n" for line in lines))
        ended(name, ran, 0, "")
        look(f"{name}, replies", ran.stdout.splitlines(), replies)
        look(f"{name}, tables", tables(file), [ABOUT, OBJECT, RECORD])
        look(f"{name}, about", rows(file, "about"), [(1, 2, text.encode())])
        look(f"{name}, record", rows(file, "record"), records)
        look(f"{name}, object", rows(file, "object"), objects)

    behind("declarations of the first run", good, [put(1, 1), put(2)], ['{"ok":"put"}'] * 2, DECLARATIONS)
    behind("others handed in", other, [get], [shown], DECLARATIONS)
    more = '{"types":{"T":{"fields":{"n":{"type":"integer"},"t":{"type":"text"}}},"U":{"fields":{}}},"forms":{"f":{"root":"T"}}}'
    behind("a redeclare", other, [redeclare(more + " "), get], ['{"ok":"redeclare"}', shown], more + " ")
    behind("the first handed in again", good, [get], [shown], more + " ")
    refused = {
        "{": '{"error":"C13","fault":"F1","name":"Declarations"}',
        '{"types":{},"forms":{}}': '{"error":"C14","fault":"C4","id":"r1","name":"Unfit"}',
        '{"types":{"T":{"fields":{}}},"forms":{"f":{"root":"T"}}}': '{"error":"C14","fault":"B4","id":"r1","name":"Unfit"}',
        '{"types":{"T":{"fields":{"t":{"type":"text","constraints":[{"constraint":"NotEmpty"}]}}}},"forms":{"f":{"root":"T"}}}': '{"error":"C10","name":"Violations","records":[{"id":"r2",'
        '"violations":[{"constraint":"NotEmpty","message":"must not be empty","occurrence":0,"path":"t","value":""}]}]}',
    }
    behind("refused redeclares", good, [redeclare(text) for text in refused], list(refused.values()), more + " ")
    behind("redeclares in turn", good, [redeclare(text) for text in (DECLARATIONS, more, more, DECLARATIONS)], ['{"ok":"redeclare"}'] * 4, DECLARATIONS)
    base = sqlite3.connect(file)
    base.execute("UPDATE about SET declarations = ?", (b"{",))
    base.commit()
    base.close()
    for name in ("no JSON of its own", "no JSON of its own, again"):
        ended(name, serve(good, file, get + "\n"), 3, "formd: declarations refused: F1 NotJson\n")
        look(f"{name}, about", rows(file, "about"), [(1, 2, b"{")])
        look(f"{name}, record", rows(file, "record"), records)
        look(f"{name}, object", rows(file, "object"), objects)
    (folder / "list.json").write_text("[]")
    ended("no declarations handed in", serve(folder / "list.json", file, get + "\n"), 3, "formd: declarations refused: F2 Shape\n")


def pipes(folder):
    (folder / "p.json").write_text(DECLARATIONS)
    for word, rest in ("serve", ["--database", folder / "p.db"]), ("judge", []):
        words = [PROGRAM, word, "--declarations", folder / "p.json", *rest]
        with subprocess.Popen(words, stdin=subprocess.PIPE, stdout=subprocess.PIPE, stderr=subprocess.PIPE, text=True, restore_signals=False) as program:
            program.stdout.close()
            program.stdin.write(put(1) + "\n")
            program.stdin.close()
            look(f"nobody reads what {word} writes", (program.stderr.read(), program.wait()), ("formd: write\n", 4))
        # a folder can be opened, and not read
        unread = os.open(folder, os.O_RDONLY)
        ended(f"{word}: input that isn't read", subprocess.run(words, stdin=unread, capture_output=True, text=True), 4, "formd: read\n")
        os.close(unread)


def full(folder):
    good = folder / "full.json"
    good.write_text(DECLARATIONS)
    ended("full at first", serve(good, folder / "none.db", preexec_fn=limited(1000)), 4, "formd: cannot open database\n")
    lines = "".join(put(number, 3000) + "\n" for number in range(400)) + '{"do":"get","id":"r0"}\n'
    ran = serve(good, folder / "full.db", lines, preexec_fn=limited(600000))
    replies = ran.stdout.splitlines()
    taken = replies.count('{"ok":"put"}')
    look("full later, statuses", (ran.returncode, ran.stderr), (0, ""))
    look("full later, some are taken", 0 < taken < 400, True)
    look("full later, the others are told", replies[taken:400], ['{"error":"C11","name":"Store"}'] * (400 - taken))
    again = serve(good, folder / "full.db", "".join(f'{{"do":"get","id":"r{number}"}}\n' for number in range(400)))
    kept = [reply.startswith('{"bundle":') for reply in again.stdout.splitlines()]
    look("full later, what was taken is there", kept, [number < taken for number in range(400)])


def main():
    with tempfile.TemporaryDirectory() as name:
        # the files beside a database are looked at, also where it is the folder itself: so nobody else's stand beside that
        folder = Path(name) / "databases"
        folder.mkdir()
        Path(name).chmod(0o755)
        files(folder)
        changes(folder)
        later_version(folder)
        declared(folder)
        pipes(folder)
        full(folder)
    return end("{count} looked at, {failed} differ")


if __name__ == "__main__":
    sys.exit(main())
