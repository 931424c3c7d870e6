"""The two tables of records, as formd makes and writes them, by Python's SQLite, and what the loops in C are given of them; and the one row a record that a service might
keep instead."""

import hashlib
import json
import sqlite3

from shapes import compact

TABLES = (
    "CREATE TABLE record (id TEXT NOT NULL PRIMARY KEY, form TEXT NOT NULL, root TEXT NOT NULL)",
    "CREATE TABLE object (rec TEXT NOT NULL REFERENCES record (id) ON DELETE CASCADE, name TEXT NOT NULL, kind TEXT NOT NULL, fields TEXT NOT NULL,"
    " PRIMARY KEY (rec, name))",
)
ONE_TABLE = ("CREATE TABLE record (id TEXT NOT NULL PRIMARY KEY, form TEXT NOT NULL, bundle TEXT NOT NULL)",)
PUT_ROW = "INSERT INTO record (id, form, bundle) VALUES (?1, ?2, ?3) ON CONFLICT (id) DO UPDATE SET form = excluded.form, bundle = excluded.bundle"
UPDATE_RECORD = "UPDATE record SET form = ?2, root = ?3 WHERE id = ?1"
INSERT_RECORD = "INSERT INTO record (id, form, root) VALUES (?1, ?2, ?3)"
FIND_RECORD = "SELECT form, root FROM record WHERE id = ?1"
FIND_PARTS = "SELECT name, kind, fields FROM object WHERE rec = ?1"
FIND_OBJECTS = "SELECT name, kind, fields FROM object WHERE rec = ?1 ORDER BY name"
DELETE_OBJECT = "DELETE FROM object WHERE rec = ?1 AND name = ?2"
UPDATE_OBJECT = "UPDATE object SET kind = ?3, fields = ?4 WHERE rec = ?1 AND name = ?2"
INSERT_OBJECT = "INSERT INTO object (rec, name, kind, fields) VALUES (?1, ?2, ?3, ?4)"


def object_row(name, made):
    """What the row of an object keeps beside its record's id. Fields that are null aren't written."""
    fields = {field: datum for field, datum in made.get("fields", {}).items() if datum is not None}
    return name, made["type"], compact(fields)


def object_rows(bundle):
    return [object_row(name, made) for name, made in sorted(bundle["objects"].items())]


def line(key, form, bundle):
    """A record as the loops in C read it, without the line's end."""
    return "\t".join([key, form, bundle["root"], *(text for row in object_rows(bundle) for text in row)])


def opened(file, tables=TABLES):
    """A new database with the tables."""
    base = sqlite3.connect(file, isolation_level=None)
    base.execute("PRAGMA journal_mode = WAL")
    base.execute("PRAGMA synchronous = FULL")
    base.execute("PRAGMA foreign_keys = ON")
    for table in tables:
        base.execute(table)
    return base


def put(base, key, form, bundle):
    """Writes a record in place of the one that is there, inside a transaction: the rows that differ."""
    head, objects = (form, bundle["root"]), object_rows(bundle)
    there = base.execute(FIND_RECORD, (key,)).fetchone()
    if there is None:
        base.execute(INSERT_RECORD, (key, *head))
        base.executemany(INSERT_OBJECT, [(key, *row) for row in objects])
        return
    if there != head:
        base.execute(UPDATE_RECORD, (key, *head))
    parts = set(base.execute(FIND_PARTS, (key,)))
    for name, _, _ in parts:
        if name not in bundle["objects"]:
            base.execute(DELETE_OBJECT, (key, name))
    for row in objects:
        if row not in parts and base.execute(UPDATE_OBJECT, (key, *row)).rowcount == 0:
            base.execute(INSERT_OBJECT, (key, *row))


def put_row(base, key, form, bundle):
    """Writes a record as one row in place of the one that is there, inside a transaction."""
    base.execute(PUT_ROW, (key, form, compact(bundle)))


def set_object(base, key, name, made):
    """Writes an object of a record, which is there, inside a transaction."""
    base.execute(UPDATE_OBJECT, (key, *object_row(name, made)))


def get(base, key):
    """The form and the bundle of a record that is there."""
    form, root = base.execute(FIND_RECORD, (key,)).fetchone()
    objects = {name: {"type": kind, "fields": json.loads(fields)} for name, kind, fields in base.execute(FIND_OBJECTS, (key,))}
    return form, {"root": root, "objects": objects}


def counted(rows):
    """How many rows these are, and a digest of them."""
    digest, count = hashlib.sha256(), 0
    for row in rows:
        digest.update((compact(row) + "\n").encode())
        count += 1
    return count, digest.hexdigest()


def selected(file, *queries):
    base = sqlite3.connect(file)
    told = counted(row for query in queries for row in base.execute(query))
    base.close()
    return told


def bundles_of(put):
    """What a file of one table has to hold behind these puts."""
    return counted(sorted({key: (key, form, compact(bundle)) for key, form, bundle in put}.values()))


def bundles_in(file):
    return selected(file, "SELECT id, form, bundle FROM record ORDER BY id")


def rows_in(file):
    """How many rows both tables of a file have, and a digest of them."""
    return selected(file, "SELECT 'record', id, form, root FROM record ORDER BY id", "SELECT 'object', rec, name, kind, fields FROM object ORDER BY rec, name")
