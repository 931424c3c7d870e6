#!/usr/bin/env python3
"""Exports databases by the program that `make` leaves, and reads what is written back.

    tests/export.py                     the program that `make` leaves
    tests/export.py PROGRAM             another build of formd
    tests/export.py PROGRAM RECORDS     with another number of records than 100,000 where its memory is looked at

Records of every kind of data, among them ids in another order than their bytes and a line of more than 100,000 bytes, are exported: the lines are
reckoned here of what was put. A service over a new file takes each of them and gives the same export. A file of version 1 gives the lines that its
migrated copy gives. A file that grew by sets and removes is smaller when it is made so. What is exported is not changed: the files, and what is
served from them. Many records, more than a page, are exported line by line at the peak memory of an opening of the same file, but for some mebibytes.
And what can't be exported, with its status: no file, an empty one, a folder, garbage, one in use, tables of another program, a pipe that nobody reads, a
full disk.
"""

import itertools
import json
import re
import shutil
import sqlite3
import subprocess
import sys
import tempfile
import time
from pathlib import Path

sys.dont_write_bytecode = True
from looks import compact, end, look, named_program
from migration import first_tables, made, quoted

PROGRAM = named_program()
MANY = int(sys.argv[2]) if len(sys.argv) > 2 else 100_000
FEW = 1_000
# KiB
ALLOWED = 4096
NOTHING = '{"types":{},"forms":{}}'
DECLARATIONS = """{"types":{"Item":{"fields":{
    "count":{"type":"integer"},"price":{"type":"decimal"},"name":{"type":"text"},"good":{"type":"boolean"},"day":{"type":"date"},"at":{"type":"instant"},
    "to":{"type":{"ref":"Item"}},"tags":{"type":{"list":{"type":"text"}}},"sizes":{"type":{"map":{"type":"integer"}}},"maybe":{"type":{"optional":{"type":"text"}}}}}},
    "forms":{"item":{"root":"Item"},"thing":{"root":"Item"}}}"""
UNREAD = "formd: cannot open database\n"


def bundle(fields):
    return {"root": "a", "objects": {"a": {"type": "Item", "fields": fields}, "b": {"type": "Item", "fields": {"to": "a"}}}}


def put(key, form, fields):
    return {"do": "put", "id": key, "form": form, "bundle": bundle(fields)}


def serve(declarations, database, lines):
    words = [PROGRAM, "serve", "--declarations", declarations, "--database", database, "--now", "0"]
    ran = subprocess.run(words, input="".join(compact(line) + "\n" for line in lines), capture_output=True, text=True)
    look("a service", (ran.returncode, ran.stderr), (0, ""))
    return [json.loads(line) for line in ran.stdout.splitlines()]


def export(database, **how):
    return subprocess.run([PROGRAM, "export", "--database", database], capture_output=True, **how)


def exported(database):
    ran = export(database)
    look(f"an export of {database.name}", (ran.returncode, ran.stderr), (0, b""))
    return ran.stdout


def around(folder):
    return {file.name: file.read_bytes() for file in folder.iterdir() if file.is_file()}


def records():
    """Records by their ids, with every kind of data."""
    kinds = [
        {"count": -9223372036854775808},
        {"count": 9223372036854775807, "price": "-0.000000001"},
        {"name": "\"\\/\u0001\n ü 日本 \U0001f600", "good": False},
        {"day": "0001-01-01", "at": 1709208000, "maybe": ["x"]},
        {"tags": ["b", "a", ""], "sizes": {"z": 1, "a": 2}, "to": "b"},
        {},
    ]
    keys = ["a", "Z", "-", "_", "0", "aa", "a-", "a_", "B9"] + [f"r{number}" for number in range(30)]
    there = {key: put(key, "thing" if at % 4 == 1 else "item", kinds[at % len(kinds)]) for at, key in enumerate(keys)}
    return there | {"long": put("long", "item", {"name": "ü" * 30_000, "tags": ["x" * 60_000]})}


def lines_of(puts):
    """The lines of an export, by what was put of each record: nothing of it is null, so all is written."""
    return [compact({"do": "redeclare", "text": DECLARATIONS})] + [compact(line) for line in sorted(puts, key=lambda line: line["id"].encode())]


def shown(database, declarations, keys):
    return serve(declarations, database, [{"do": "get", "id": key} for key in keys])


def read_back(folder):
    """An export, its lines, what a new file gives that took it, and that nothing was changed."""
    declarations, database, again = folder / "d.json", folder / "a.db", folder / "b.db"
    declarations.write_text(DECLARATIONS)
    there = records()
    look("puts", serve(declarations, database, there.values()), [{"ok": "put"}] * len(there))
    shows = shown(database, declarations, there)
    names, kept = sorted(around(folder)), database.read_bytes()
    text = exported(database)
    look("the files behind an export", (sorted(around(folder)), database.read_bytes()), (names, kept))
    look("the same export", exported(database), text)
    lines = text.decode().split("\n")
    look("the lines", lines, [*lines_of(there.values()), ""])
    look("a long line", max(map(len, text.splitlines())) > 100_000, True)
    nothing = folder / "nothing.json"
    nothing.write_text(NOTHING)
    ran = subprocess.run([PROGRAM, "serve", "--declarations", nothing, "--database", again, "--now", "0"], input=text, capture_output=True)
    replies = [b'{"ok":"redeclare"}'] + [b'{"ok":"put"}'] * len(there)
    look("an export read back", (ran.returncode, ran.stderr, ran.stdout.splitlines()), (0, b"", replies))
    look("the export of what was read back", exported(again), text)
    look("what is read back", shown(again, declarations, there), shows)
    explained = subprocess.run([PROGRAM, "explain", "--database", database, "--text"], capture_output=True)
    look("the declarations in force", (explained.returncode, explained.stdout), (0, DECLARATIONS.encode()))
    log = Path(f"{database}-wal")
    if log.exists():
        log.unlink()
    look("an export without a log", exported(database), text)
    look("no log is left", log.exists(), False)


def of_version_1(folder):
    """A file of version 1 is exported as what it is migrated to."""
    declarations, first, second = folder / "d.json", folder / "first.db", folder / "second.db"
    declarations.write_text(DECLARATIONS)
    there = records().values()
    rows = "".join(f"INSERT INTO record VALUES ({quoted(line['id'])}, {quoted(line['form'])}, {quoted(compact(line['bundle']))});\n" for line in there)
    made(first, first_tables(DECLARATIONS) + rows)
    shutil.copy(first, second)
    serve(declarations, second, [])
    text = exported(first)
    look("the lines of a file of version 1", text.decode().split("\n"), [*lines_of(there), ""])
    look("the export of its migrated copy", exported(second), text)


def empty_records(folder):
    """A database without records: one line."""
    declarations, database = folder / "d.json", folder / "none.db"
    declarations.write_text(DECLARATIONS)
    serve(declarations, database, [])
    look("no records", exported(database).decode(), compact({"do": "redeclare", "text": DECLARATIONS}) + "\n")


def size(database):
    return database.stat().st_size


def smaller(folder):
    """A file that grew by sets and removes."""
    declarations, nothing, database, again = folder / "d.json", folder / "nothing.json", folder / "grown.db", folder / "small.db"
    declarations.write_text(DECLARATIONS)
    nothing.write_text(NOTHING)
    lines = [put(f"r{number}", "item", {"name": "x" * 900}) for number in range(2000)]
    lines += [{"do": "set", "id": f"r{number}", "object": "a", "field": "name", "value": "y" * 50} for number in range(2000)]
    lines += [{"do": "remove", "id": f"r{number}"} for number in range(0, 2000, 2)]
    serve(declarations, database, lines)
    text = exported(database)
    ran = subprocess.run([PROGRAM, "serve", "--declarations", nothing, "--database", again, "--now", "0"], input=text, capture_output=True)
    look("a service of the export", (ran.returncode, ran.stdout.count(b'{"ok":"put"}\n')), (0, 1000))
    look("the same records", exported(again), text)
    look(f"the new file, {size(again)} bytes, beside {size(database)}", 2 * size(again) < size(database), True)
    print(f"a file that grew by sets and removes: {size(database):,} bytes, made again {size(again):,}")


def one_of_many(at):
    return put(f"r{at}", "item", {"count": at, "name": "x" * (at % 100)})


def filled(folder, number):
    """A database of so many records."""
    declarations, database = folder / "d.json", folder / f"many{number}.db"
    declarations.write_text(DECLARATIONS)
    with subprocess.Popen([PROGRAM, "serve", "--declarations", declarations, "--database", database, "--now", "0"], stdin=subprocess.PIPE, stdout=subprocess.DEVNULL, text=True) as run:
        for first in range(0, number, 50):
            run.stdin.write(compact({"do": "batch", "parts": [one_of_many(at) for at in range(first, first + 50)]}) + "\n")
    return database


def peak(run):
    """The peak memory of a process so far, in KiB, as the system tells it of the process alone."""
    told = re.search(r"VmHWM:\s*(\d+) kB", Path(f"/proc/{run.pid}/status").read_text())
    return int(told[1]) if told else 0


def peak_of_opening(database):
    """That of a service that has opened a database and answers its first line."""
    words = [PROGRAM, "serve", "--declarations", database.with_name("d.json"), "--database", database]
    with subprocess.Popen(words, stdin=subprocess.PIPE, stdout=subprocess.PIPE, text=True) as run:
        run.stdin.write('{"do":"get","id":"none"}\n')
        run.stdin.flush()
        run.stdout.readline()
        return peak(run)


def peak_of_export(database, number):
    """That of an export, looked at some lines before the end, more than the pipe holds: so long the process is there."""
    begun = time.monotonic()
    with subprocess.Popen([PROGRAM, "export", "--database", database], stdout=subprocess.PIPE) as run:
        lines, used = [], 0
        for line in run.stdout:
            lines.append(line)
            if len(lines) == number - 900:
                used = peak(run)
        look(f"an export of {number} records", (len(lines), run.wait()), (number + 1, 0))
    print(f"{number:,} records exported in {time.monotonic() - begun:.1f} s")
    wanted = [line.encode() + b"\n" for line in lines_of(map(one_of_many, range(number)))]
    look(f"the first line of {number} records that differs", [pair for pair in itertools.zip_longest(lines, wanted) if pair[0] != pair[1]][:1], [])
    return used


def look_at_peaks(folder):
    for number in FEW, MANY:
        database = filled(folder, number)
        opened, exported = peak_of_opening(database), peak_of_export(database, number)
        look(f"peak memory of {number} records: {exported} KiB, of the opening {opened}", 0 < opened and 0 < exported <= opened + ALLOWED, True)
        print(f"peak memory of {number:,} records: {exported:,} KiB, of a service that has opened them {opened:,}")
    broken_pipe(folder / f"many{FEW}.db")


def broken_pipe(database):
    """A pipe that nobody reads, and a disk that is full."""
    with subprocess.Popen([PROGRAM, "export", "--database", database], stdout=subprocess.PIPE, stderr=subprocess.PIPE) as run:
        run.stdout.read(10)
        run.stdout.close()
        look("a pipe that nobody reads", (run.wait(), run.stderr.read()), (4, b"formd: write\n"))
    with open("/dev/full", "wb") as full:
        ran = subprocess.run([PROGRAM, "export", "--database", database], stdout=full, stderr=subprocess.PIPE)
    look("a full disk", (ran.returncode, ran.stderr), (4, b"formd: write\n"))
    look("it can be exported behind them", len(exported(database).splitlines()), FEW + 1)


def refused(folder):
    """What can't be exported or explained, each with its status; no file is made or changed."""
    absent, blank, garbage, other, used = (folder / name for name in ("absent.db", "blank.db", "garbage.db", "other.db", "used.db"))
    blank.write_bytes(b"")
    garbage.write_bytes(b"garbage" * 1000)
    with sqlite3.connect(other) as made:
        made.execute("CREATE TABLE t (a)")
    made.close()
    declarations = folder / "d.json"
    declarations.write_text(DECLARATIONS)
    serve(declarations, used, [])
    before = around(folder)
    for words in (["export", "--database"], ["explain", "--text", "--database"]):
        for path, told in ((absent, UNREAD), (blank, UNREAD), (garbage, UNREAD), (folder, UNREAD), (folder / "no" / "where.db", UNREAD), (other, "formd: store: Store\n")):
            ran = subprocess.run([PROGRAM, *words, path], capture_output=True, text=True)
            look(f"{words[0]} of {path.name}", (ran.returncode, ran.stdout, ran.stderr), (4, "", told))
            look(f"the files behind {words[0]} of {path.name}", around(folder), before)
    ran = subprocess.run([PROGRAM, "export"], capture_output=True, text=True)
    look("no database named", (ran.returncode, ran.stdout), (2, ""))
    words = [PROGRAM, "serve", "--declarations", declarations, "--database", used, "--now", "0"]
    with subprocess.Popen(words, stdin=subprocess.PIPE, stdout=subprocess.PIPE, text=True) as run:
        run.stdin.write('{"do":"list","form":"item"}\n')
        run.stdin.flush()
        run.stdout.readline()
        ran = export(used)
        look("one in use", (ran.returncode, ran.stdout, ran.stderr), (4, b"", UNREAD.encode()))


def main():
    for part in (read_back, of_version_1, empty_records, smaller, refused, look_at_peaks):
        with tempfile.TemporaryDirectory() as folder:
            part(Path(folder))
    return end()


if __name__ == "__main__":
    sys.exit(main())
