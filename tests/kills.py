#!/usr/bin/env python3
"""Kills formd 100 times amid puts and removes, and 100 times amid redeclares, and looks at what its file then holds.

    tests/kills.py                       the program that `make` leaves
    tests/kills.py PROGRAM               another build of formd
    tests/kills.py PROGRAM SEED          with other random numbers
    tests/kills.py PROGRAM SEED KILLS    with another number of kills of each kind

Each run of the program is sent puts, of some objects each, and a few removes, some at a time, and
killed (SIGKILL) after some microseconds or once a number of them is answered. Then the file has to
hold what a front of the commands leaves that has all answered ones: no answered change may be missing,
and nothing else may be there. SQLite looks at a copy of the file and its log, with its checks of
integrity and of keys; the next run of the program looks again, by gets. Redeclares go between two
declarations that fit all records, each with another number of spaces behind it: the file has to hold those
of a front of the redeclares that has all answered ones, and all records. Prints the seed of its random
numbers.
"""

import json
import random
import shutil
import sqlite3
import subprocess
import sys
import tempfile
import time
from pathlib import Path

from looks import compact, named_program

PROGRAM = named_program()
SEED = int(sys.argv[2]) if len(sys.argv) > 2 else 1
KILLS = int(sys.argv[3]) if len(sys.argv) > 3 else 100
IDS = 40
DECLARATIONS = '{"types":{"Item":{"fields":{"count":{"type":"integer","constraints":[{"constraint":"Min","with":{"value":1}}]},"text":{"type":"text"}}}},"forms":{"item":{"root":"Item"}}}'
OTHERS = '{"types":{"Item":{"fields":{"count":{"type":"integer"},"more":{"type":"date"},"text":{"type":"text"}}}},"forms":{"item":{"root":"Item"},"other":{"root":"Item"}}}'


def bundle(chance, number, lengths=(0, 10, 3000, 20000)):
    """One object to four, the root with a text of one of these lengths."""
    objects = {name: {"type": "Item", "fields": {"count": number}} for name in ["a", *chance.sample("bcdef", chance.randrange(4))]}
    objects["a"]["fields"]["text"] = "x" * chance.choice(lengths)
    return {"root": "a", "objects": objects}


def served(folder):
    words = ["serve", "--declarations", folder / "d.json", "--database", folder / "g.db", "--now", "0"]
    return subprocess.Popen([PROGRAM, *words], stdin=subprocess.PIPE, stdout=subprocess.PIPE)


def ask(program, line):
    program.stdin.write(line.encode() + b"\n")
    program.stdin.flush()
    return program.stdout.readline().decode()


def records_in(base):
    """The records that the rows of both tables spell, each with the text that a get shows."""
    objects = {}
    for key, name, kind, fields in base.execute("SELECT rec, name, kind, fields FROM object ORDER BY rec, name"):
        objects.setdefault(key, []).append(f'"{name}":{{"fields":{fields},"type":"{kind}"}}')
    return {key: (form, f'{{"objects":{{{",".join(objects.get(key, ()))}}},"root":"{root}"}}') for key, form, root in base.execute("SELECT id, form, root FROM record")}


def found_by_sqlite(folder):
    """The records and the declarations in a copy of the files, which SQLite holds sound."""
    with tempfile.TemporaryDirectory() as room:
        for name in ("g.db", "g.db-wal"):
            if (folder / name).exists():
                shutil.copy(folder / name, Path(room) / name)
        base = sqlite3.connect(Path(room) / "g.db")
        (verdict,) = base.execute("PRAGMA integrity_check").fetchone()
        if verdict != "ok":
            raise SystemExit(f"integrity_check: {verdict}")
        if base.execute("PRAGMA foreign_key_check").fetchone():
            raise SystemExit("foreign_key_check: an object has no record")
        tables = base.execute("SELECT sql FROM sqlite_schema WHERE type = 'table'").fetchall()
        records = records_in(base) if tables else {}
        declared = base.execute("SELECT declarations FROM about").fetchall() if tables else []
        base.close()
        return records, [text.decode() for (text,) in declared]


def found_by_formd(folder):
    """The records, and whether a type has the field that the other declarations have."""
    program = served(folder)
    records = {}
    for number in range(IDS):
        reply = json.loads(ask(program, compact({"do": "get", "id": f"r{number}"})))
        if "ok" in reply:
            records[reply["id"]] = (reply["form"], compact(reply["bundle"]))
        elif reply != {"error": "C6", "name": "NoRecord"}:
            raise SystemExit(f"a get is answered {reply}")
    more = ask(program, '{"do":"checkvalue","type":"Item","field":"more","value":null}')
    if more not in ('{"error":"C8","name":"NoSuchField"}\n', '{"ok":"checkvalue","violations":[]}\n'):
        raise SystemExit(f"a checkvalue is answered {more}")
    program.stdin.close()
    if program.wait() != 0:
        raise SystemExit("a run ended with a failure")
    return records, "ok" in json.loads(more)


def line_of(key, record):
    """The command that makes this the record of an id, or takes it out."""
    if record is None:
        return f'{{"do":"remove","id":"{key}"}}\n'
    form, text = record
    return f'{{"do":"put","id":"{key}","form":"{form}","bundle":{text}}}\n'


def reply_of(record):
    return b'{"ok":"remove"}\n' if record is None else b'{"ok":"put"}\n'


def changes(chance, number, there):
    """Some puts, the first of this number, and removes of ids that are there; `there` is then what is there behind them."""
    batch = []
    for at in range(chance.randrange(1, 8)):
        key = f"r{chance.randrange(IDS)}"
        if key in there and chance.randrange(6) == 0:
            batch.append((key, None))
            there.remove(key)
        else:
            batch.append((key, ("item", compact(bundle(chance, number + at)))))
            there.add(key)
    return batch


def begun(folder):
    """A run of the program that has answered a line, so that its file is open."""
    program = served(folder)
    if ask(program, '{"do":"get","id":"none"}') != '{"error":"C6","name":"NoRecord"}\n':
        raise SystemExit("the first get isn't answered")
    return program


def killed(program, chance):
    """Kills the program in a moment: the whole lines that it had still written."""
    time.sleep(chance.choice((0, chance.random() / 2000, chance.random() / 200)))
    program.kill()
    rest = program.stdout.read().splitlines(keepends=True)
    if rest and not rest[-1].endswith(b"\n"):
        rest.pop()
    program.wait()
    program.stdin.close()
    return rest


def killed_run(folder, chance, number, there):
    """Sends commands and kills the program: the changes that were sent, and how many were answered."""
    program = begun(folder)
    sent, answered = [], 0
    for _ in range(chance.randrange(1, 6)):
        batch = changes(chance, number + len(sent) + 1, there)
        sent += batch
        program.stdin.write("".join(line_of(*change) for change in batch).encode())
        program.stdin.flush()
        for _ in range(chance.randrange(0, len(batch) + 1)):
            if program.stdout.readline() != reply_of(sent[answered][1]):
                raise SystemExit("a change isn't made")
            answered += 1
    rest = killed(program, chance)
    if rest != [reply_of(record) for _, record in sent[answered : answered + len(rest)]]:
        raise SystemExit(f"the replies are {rest}")
    return sent, answered + len(rest)


def declared(number):
    """The declarations of a number, in turn without the field `more` and with it: no two have the same bytes."""
    return (DECLARATIONS, OTHERS)[number % 2] + " " * number


def killed_redeclares(folder, chance, number):
    """Sends redeclares, the first of this number, and kills the program: how many were sent, and how many answered."""
    program = begun(folder)
    sent = chance.randrange(5, 20)
    lines = "".join(compact({"do": "redeclare", "text": declared(number + at)}) + "\n" for at in range(sent))
    program.stdin.write(lines.encode())
    program.stdin.flush()
    replies = [program.stdout.readline() for _ in range(chance.randrange(0, sent + 1))]
    replies += killed(program, chance)
    if replies != [b'{"ok":"redeclare"}\n'] * len(replies):
        raise SystemExit(f"the replies are {replies}")
    return sent, len(replies)


def redeclares(chance):
    """Kills amid redeclares: behind each the file holds all records and the declarations of one of them, whole."""
    during = sent_in_all = 0
    number, held = 1, DECLARATIONS
    with tempfile.TemporaryDirectory() as name:
        folder = Path(name)
        (folder / "d.json").write_text(DECLARATIONS)
        records = {f"r{key}": ("item", compact(bundle(chance, key + 1, (0, 10)))) for key in range(IDS)}
        program = begun(folder)
        for record in records.items():
            if ask(program, line_of(*record).strip()) != '{"ok":"put"}\n':
                raise SystemExit("a put isn't made")
        program.stdin.close()
        program.wait()
        for kill in range(KILLS):
            sent, answered = killed_redeclares(folder, chance, number)
            may_be = [declared(number + at - 1) for at in range(max(answered, 1), sent + 1)]
            if answered == 0:
                may_be.append(held)
            during += answered < sent
            sent_in_all += sent
            number += sent
            found, texts = found_by_sqlite(folder)
            if found != records:
                raise SystemExit(f"redeclare, kill {kill}: the file doesn't hold all records")
            if len(texts) != 1 or texts[0] not in may_be:
                raise SystemExit(f"redeclare, kill {kill}: the file doesn't hold the declarations that were answered")
            held = texts[0]
            if found_by_formd(folder) != (records, held.startswith(OTHERS)):
                raise SystemExit(f"redeclare, kill {kill}: formd finds something else than SQLite")
    print(f"seed {SEED}: {KILLS} kills, {during} of them with commands unanswered, {sent_in_all} redeclares over {IDS} records: the declarations of one of them were there, and all records")


def main():
    chance = random.Random(SEED)
    number = during = 0
    with tempfile.TemporaryDirectory() as name:
        folder = Path(name)
        (folder / "d.json").write_text(DECLARATIONS)
        records = {}
        for kill in range(KILLS):
            sent, answered = killed_run(folder, chance, number, set(records))
            number += len(sent)
            during += answered < len(sent)
            may_be = []
            for count in range(len(sent) + 1):
                if count >= answered:
                    may_be.append(dict(records))
                if count < len(sent):
                    key, record = sent[count]
                    if record is None:
                        del records[key]
                    else:
                        records[key] = record
            found, texts = found_by_sqlite(folder)
            if found not in may_be or texts not in ([], [DECLARATIONS]):
                raise SystemExit(f"kill {kill}: the file doesn't hold what was answered")
            if found_by_formd(folder) != (found, False):
                raise SystemExit(f"kill {kill}: formd finds other records than SQLite")
            records = found
        print(f"seed {SEED}: {KILLS} kills, {during} of them with commands unanswered, {number} puts and removes: every answered change was there, and no other")
    redeclares(chance)
    return 0


if __name__ == "__main__":
    sys.exit(main())
