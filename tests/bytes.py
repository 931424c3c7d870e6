#!/usr/bin/env python3
"""Opens database files with formd of which one byte isn't what was written, or which are cut off.

    tests/bytes.py                   the program that `make` leaves
    tests/bytes.py PROGRAM           another build of formd
    tests/bytes.py PROGRAM SEED      with other random numbers
    tests/bytes.py PROGRAM SEED MOST only so many bytes of each file, taken at random

Files of version 2 and of version 1, of small pages, with some records of several objects: one whose log is
empty, and one whose last changes are in its log alone; and a file of pages as the program makes them, behind a kill. Each byte
of the small files and of their logs is changed to its complement, one at a time, and some of the large ones; and each file is
cut off at some lengths. No premise covers such a file: what was written isn't what is read. So what is asked here is only that the
program answers each line in some way, or refuses the file with its status and line; that no run is ended by a
signal, takes longer than ten seconds or needs more than a gigabyte; and that the database of a file that isn't opened has the bytes
that it had, those of its log's whole transactions among them, but where one of version 1 is migrated before the declarations that it
keeps are refused. What the program may write on standard error is taken from the specification of its statuses.
"""

import json
import random
import resource
import sqlite3
import struct
import subprocess
import sys
import tempfile
import time
from collections import Counter
from pathlib import Path

import looks
from looks import ROOM, compact, named_program, tell

PROGRAM = named_program()
SEED = int(sys.argv[2]) if len(sys.argv) > 2 else 1
SECONDS, GIGABYTE = 10, 1 << 30
MOST = int(sys.argv[3]) if len(sys.argv) > 3 else None
SAMPLE, CUTS = MOST or 1500, (MOST or 1500) // 10
DECLARATIONS = '{"types":{"T":{"fields":{"n":{"type":"integer"},"t":{"type":"text"},"to":{"type":{"ref":"T"}}}}},"forms":{"f":{"root":"T"}}}'
ABOUT = "CREATE TABLE about (one INTEGER PRIMARY KEY CHECK (one = 1), version INTEGER NOT NULL, declarations BLOB NOT NULL)"
OBJECT = (
    "CREATE TABLE object (rec TEXT NOT NULL REFERENCES record (id) ON DELETE CASCADE, name TEXT NOT NULL, kind TEXT NOT NULL, fields TEXT NOT NULL,"
    " PRIMARY KEY (rec, name))"
)
RECORD = "CREATE TABLE record (id TEXT NOT NULL PRIMARY KEY, form TEXT NOT NULL, root TEXT NOT NULL)"
FIRST_RECORD = "CREATE TABLE record (id TEXT NOT NULL PRIMARY KEY, form TEXT NOT NULL, bundle TEXT NOT NULL)"
KEYS = [f"r{number}" for number in range(5)]
STATUS_4 = {b"formd: cannot open database\n", b"formd: store: OtherVersion\n", b"formd: store: Store\n", b"formd: memory\n"}


def bundle(number):
    """One object to three that refer to one another, with a text that one page can't hold in one of them."""
    names = "abc"[: number % 3 + 1]
    objects = {name: {"fields": {"n": number, "t": "x" * (600 if number == 3 else 9), "to": names[-1]}, "type": "T"} for name in names}
    return {"objects": objects, "root": "a"}


def put(number):
    return {"do": "put", "id": KEYS[number], "form": "f", "bundle": bundle(number)}


LINES = "".join(compact(line) + "\n" for line in [*({"do": "get", "id": key} for key in KEYS), {"do": "list", "form": "f"}, put(1), {"do": "remove", "id": "r2"}, {"do": "get", "id": "r1"}]).encode()


def write_record(base, version, number):
    key, made = KEYS[number], bundle(number)
    if version == 1:
        base.execute("INSERT INTO record VALUES (?, 'f', ?)", (key, compact(made)))
        return
    base.execute("INSERT INTO record VALUES (?, 'f', ?)", (key, made["root"]))
    base.executemany("INSERT INTO object VALUES (?, ?, ?, ?)", ((key, name, it["type"], compact(it["fields"])) for name, it in made["objects"].items()))


def small(folder, version, has_log):
    """A file of pages of 512 bytes, and its log: of its five records two are in the log alone, where it isn't empty."""
    file = folder / "small.db"
    for left in folder.glob("small.db*"):
        left.unlink()
    base = sqlite3.connect(file, isolation_level=None)
    base.execute("PRAGMA page_size = 512")
    base.execute("PRAGMA journal_mode = WAL")
    for table in (ABOUT, RECORD, OBJECT) if version == 2 else (ABOUT, FIRST_RECORD):
        base.execute(table)
    base.execute("INSERT INTO about VALUES (1, ?, ?)", (version, DECLARATIONS.encode()))
    for number in range(5):
        if number == 3 and has_log:
            base.execute("PRAGMA wal_checkpoint(TRUNCATE)")
            base.execute("PRAGMA wal_autocheckpoint = 0")
        base.execute("BEGIN")
        write_record(base, version, number)
        base.execute("COMMIT")
    if not has_log:
        base.execute("PRAGMA wal_checkpoint(TRUNCATE)")
    found = [Path(f"{file}{ending}").read_bytes() for ending in ("", "-wal")]
    base.close()
    return found


def words(folder):
    return [PROGRAM, "serve", "--declarations", folder / "d.json", "--database", folder / "g.db", "--now", "0"]


def large(folder):
    """A file that the program has made, and was killed over in its next run: its log holds changes."""
    for numbers in (0, 1, 2), (3, 4):
        program = subprocess.Popen(words(folder), stdin=subprocess.PIPE, stdout=subprocess.PIPE)
        for number in numbers:
            program.stdin.write(compact(put(number)).encode() + b"\n")
            program.stdin.flush()
            if program.stdout.readline() != b'{"ok":"put"}\n':
                sys.exit("a put isn't made")
        if 4 in numbers:
            program.kill()
        program.communicate()
    found = [(folder / name).read_bytes() for name in ("g.db", "g.db-wal")]
    for left in folder.glob("g.db*"):
        left.unlink()
    return found


def sums(order, data, first=0, second=0):
    """The two running sums of SQLite's log over some bytes."""
    for one, other in struct.iter_unpack(order + "II", data):
        first = (first + one + second) & 0xFFFFFFFF
        second = (second + other + first) & 0xFFFFFFFF
    return first, second


def image(file, log):
    """The bytes of a database: those of its file with the pages of its log put in, by SQLite's description of that format, up to the last whole transaction."""
    if len(log) < 32:
        return file
    magic, _, size, _, salts, *sum_of_heading = struct.unpack(">4I8sII", log[:32])
    order, size = ">" if magic & 1 else "<", 65536 if size == 1 else size
    found = sums(order, log[:24])
    if magic & ~1 != 0x377F0682 or size < 512 or size & (size - 1) or found != tuple(sum_of_heading):
        return file
    pages, whole, count = {}, {}, None
    for at in range(32, len(log) - size - 23, size + 24):
        number, commits, salts_here, *sum_of_frame = struct.unpack(">II8sII", log[at : at + 24])
        found = sums(order, log[at + 24 : at + 24 + size], *sums(order, log[at : at + 8], *found))
        if number == 0 or salts_here != salts or found != tuple(sum_of_frame):
            break
        pages[number] = log[at + 24 : at + 24 + size]
        if commits:
            whole, count = dict(pages), commits
    if count is None:
        return file
    return b"".join(whole.get(number + 1, file[number * size : (number + 1) * size].ljust(size, b"\0")) for number in range(count))


def limit():
    """No run may take more memory, nor leave what it had in memory behind."""
    resource.setrlimit(resource.RLIMIT_AS, (GIGABYTE, GIGABYTE))
    resource.setrlimit(resource.RLIMIT_CORE, (0, 0))


class Opened:
    """Runs over damaged files: how they ended."""

    def __init__(self, folder):
        self.folder, self.ends, self.longest = folder, Counter(), 0.0

    def written(self):
        return [(self.folder / name).read_bytes() if (self.folder / name).exists() else b"" for name in ("g.db", "g.db-wal")]

    def run(self, name, files, is_first_version):
        for left in self.folder.glob("g.db*"):
            left.unlink()
        for end, data in zip(("g.db", "g.db-wal"), files):
            if data or end == "g.db":
                (self.folder / end).write_bytes(data)
        begun = time.monotonic()
        try:
            run = subprocess.run(words(self.folder), input=LINES, capture_output=True, timeout=SECONDS)
        except subprocess.TimeoutExpired:
            self.ends["longer than ten seconds"] += 1
            return tell(f"{name}: longer than {SECONDS} s")
        self.longest = max(self.longest, time.monotonic() - begun)
        if run.returncode == 0:
            return self.answered(name, run)
        self.ends[f"status {run.returncode}, {run.stderr.decode(errors='replace').strip()}" if run.returncode in (3, 4) else f"ended by {run.returncode}"] += 1
        is_told = run.stderr in STATUS_4 if run.returncode == 4 else run.returncode == 3 and run.stderr.startswith(b"formd: declarations refused: F")
        if not is_told or run.stdout:
            tell(f"{name}: status {run.returncode}, {run.stdout!r:.200}, {run.stderr!r:.200}")
        if image(*self.written()) != image(*files) and not (run.returncode == 3 and is_first_version):
            tell(f"{name}: status {run.returncode}, {run.stderr!r:.200}, and the database has changed: {list(map(len, files))} bytes before, {list(map(len, self.written()))} behind it")

    def answered(self, name, run):
        replies = run.stdout.split(b"\n")
        errors = Counter()
        try:
            for reply in replies[:-1]:
                said = json.loads(reply)
                if not ({"ok", "error"} & set(said)):
                    raise ValueError
                errors[said.get("error", "ok")] += 1
        except ValueError:
            tell(f"{name}: a reply that is none: {run.stdout!r:.300}")
        if len(replies) != LINES.count(b"\n") + 1 or replies[-1] or run.stderr:
            tell(f"{name}: status 0, {len(replies)} replies, {run.stderr!r:.200}")
        self.ends["all lines answered, some C11" if errors["C11"] else "all lines answered, some C12" if errors["C12"] else "all lines answered"] += 1


def changed(data, at):
    return data[:at] + bytes([data[at] ^ 0xFF]) + data[at + 1 :]


def lengths(chance, size, unit):
    """Lengths at which a file is cut off: at ends of its pages and beside them, and some at random."""
    ends = [end + beside for end in range(0, size, unit) for beside in (-1, 0, 1) if 0 <= end + beside < size]
    return sorted({*chance.sample(ends, min(CUTS, len(ends))), *(chance.randrange(size) for _ in range(CUTS))}) if size else []


def main():
    limit()
    chance = random.Random(SEED)
    complemented = cut = 0
    with tempfile.TemporaryDirectory(dir=ROOM) as name:
        folder = Path(name)
        (folder / "d.json").write_text(DECLARATIONS)
        subjects = [(f"version {version}, {'with a log' if has_log else 'no log'}", version, MOST, small(folder, version, has_log)) for version in (2, 1) for has_log in (False, True)]
        subjects.append(("as the program makes them", 2, SAMPLE, large(folder)))
        for subject, version, sample, files in subjects:
            opened = Opened(folder)
            opened.run(f"{subject}, whole", files, version == 1)
            if opened.ends != Counter({"all lines answered": 1}):
                sys.exit(f"{subject}: {opened.ends}")
            opened.ends.clear()
            bytes_here = cuts_here = 0
            for which, data in enumerate(files):
                part = ("file", "log")[which]
                places = range(len(data)) if sample is None or len(data) <= sample else sorted(chance.sample(range(len(data)), sample))
                for at in places:
                    opened.run(f"{subject}, byte {at} of its {part}", [changed(data, at) if number == which else it for number, it in enumerate(files)], version == 1)
                    bytes_here += 1
                for length in lengths(chance, len(data), 4096 if subject.startswith("as") else 512):
                    opened.run(f"{subject}, its {part} cut off at {length}", [data[:length] if number == which else it for number, it in enumerate(files)], version == 1)
                    cuts_here += 1
            complemented += bytes_here
            cut += cuts_here
            print(f"{subject}: a file of {len(files[0])} bytes and a log of {len(files[1])}: {bytes_here} bytes complemented, {cuts_here} times cut off; the longest run {opened.longest:.2f} s", flush=True)
            for end, times in opened.ends.most_common():
                print(f"    {times:6} {end}")
    print(f"seed {SEED}: {complemented} bytes complemented, {cut} files cut off: {looks.failed} crashes, long runs, odd answers or changed files")
    return 1 if looks.failed else 0


if __name__ == "__main__":
    sys.exit(main())
