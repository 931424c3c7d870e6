#!/usr/bin/env python3
"""Times the first opening of a file of version 1, which migrates it, beside the next opening.

    migration.py                   seconds, peak memory and sizes, for 1,000 to 100,000 records of one object and of eleven
    migration.py --program FILE    with another build of formd than the one that `make` leaves
    migration.py --counts 1000,10000    with other numbers of records
    migration.py --where FOLDER    with the files there, and not in memory (/dev/shm)

The files are made by Python's SQLite, by the tables of version 1, of the demonstration's records (one object) and of orders (eleven) of `shapes.py`. An
opening ends with the reply to the first get; what Linux tells of the process then are the processor's seconds and the peak (VmHWM), and the log is as long as
it becomes. Behind the second opening each record is asked for, and the tables have to hold as many rows as there are records and objects (`tables.py`).
"""

import argparse
import os
import sqlite3
import subprocess
import sys
import tempfile
import time
from pathlib import Path

import tables
from bench import FORMD
from shapes import SHAPES, compact

TABLES = (
    "CREATE TABLE about (one INTEGER PRIMARY KEY CHECK (one = 1), version INTEGER NOT NULL, declarations BLOB NOT NULL)",
    "CREATE TABLE record (id TEXT NOT NULL PRIMARY KEY, form TEXT NOT NULL, bundle TEXT NOT NULL)",
)


def records(shape, count):
    """Ids in no order, each with its form and its bundle."""
    _, form, make, _ = SHAPES[shape]
    return ((f"r{number * 7919 % 1000003:06}", form, make(number)) for number in range(count))


def made(file, shape, count):
    """Makes a file of version 1."""
    base = sqlite3.connect(file)
    for table in TABLES:
        base.execute(table)
    base.execute("INSERT INTO about VALUES (1, 1, ?)", (compact(SHAPES[shape].declarations).encode(),))
    base.executemany("INSERT INTO record VALUES (?, ?, ?)", ((key, form, compact(bundle)) for key, form, bundle in records(shape, count)))
    base.commit()
    base.close()


def spent(process):
    """The processor's seconds of a process so far."""
    fields = Path(f"/proc/{process}/stat").read_text().rpartition(")")[2].split()
    return (int(fields[11]) + int(fields[12])) / os.sysconf("SC_CLK_TCK")


def opened(words, file, key):
    """Opens the file and asks for a record: seconds, those of the processor, peak memory and the log's size in MB, and the reply."""
    begun = time.monotonic()
    program = subprocess.Popen(words, stdin=subprocess.PIPE, stdout=subprocess.PIPE)
    program.stdin.write(f'{{"do":"get","id":"{key}"}}\n'.encode())
    program.stdin.flush()
    reply = program.stdout.readline()
    took, busy = time.monotonic() - begun, spent(program.pid)
    status = dict(line.split(":", 1) for line in Path(f"/proc/{program.pid}/status").read_text().splitlines())
    log = Path(f"{file}-wal").stat().st_size / 1e6
    program.stdin.close()
    if program.wait() != 0:
        raise SystemExit("formd has failed")
    return took, busy, int(status["VmHWM"].split()[0]) * 1024 / 1e6, log, reply


def checked(words, shape, count):
    """Each record is found as it was."""
    gets = "".join(compact({"do": "get", "id": key}) + "\n" for key, _, _ in records(shape, count)).encode()
    wanted = "".join(compact({"bundle": bundle, "form": form, "id": key, "ok": "get"}) + "\n" for key, form, bundle in records(shape, count)).encode()
    if subprocess.run(words, input=gets, capture_output=True, check=True).stdout != wanted:
        raise SystemExit("the replies differ")


def rows_wanted(shape, count):
    return sum(1 + len(bundle["objects"]) for _, _, bundle in records(shape, count))


def measure(program, counts, where):
    print("shape          records   file MB  then MB   log MB   first s  processor s  us a record   next s   peak MB: first  next   of the file")
    for shape in ("demonstration", "order"):
        for count in counts:
            with tempfile.TemporaryDirectory(dir=where) as name:
                folder = Path(name)
                file = folder / "g.db"
                (folder / "d.json").write_text(compact(SHAPES[shape].declarations))
                words = [program, "serve", "--declarations", folder / "d.json", "--database", file, "--now", "0"]
                made(file, shape, count)
                before = file.stat().st_size / 1e6
                key, form, bundle = next(records(shape, count))
                first, busy, peak, log, shown = opened(words, file, key)
                after = file.stat().st_size / 1e6
                second, _, least, _, again = opened(words, file, key)
                if not shown == again == (compact({"bundle": bundle, "form": form, "id": key, "ok": "get"}) + "\n").encode():
                    raise SystemExit(f"not shown: {shown[:200]}")
                checked(words, shape, count)
                if tables.rows_in(file)[0] != rows_wanted(shape, count):
                    raise SystemExit("the rows differ")
            print(
                f"{shape:<13}{count:>9,}{before:>10.1f}{after:>9.1f}{log:>9.1f}{first:>10.2f}{busy:>13.2f}{busy / count * 1e6:>13.0f}{second:>9.2f}{peak:>17.0f}{least:>6.0f}{peak / before:>14.1f}",
                flush=True,
            )


def main():
    words = argparse.ArgumentParser()
    words.add_argument("--program", type=Path, default=FORMD)
    words.add_argument("--counts", default="1000,3000,10000,30000,100000")
    words.add_argument("--where", type=Path, default=Path("/dev/shm"))
    given = words.parse_args()
    measure(given.program.resolve(), [int(count) for count in given.counts.split(",")], given.where)


if __name__ == "__main__":
    sys.exit(main())
