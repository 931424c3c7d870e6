#!/usr/bin/env python3
"""Times a mix of commands by formd over a file, beside Python over SQLite and beside a bare loop of the same SQL in C.

    mix.py                   seconds of 20,000 commands of each shape, and peak memory
    mix.py --pages           instructions of a list of 100 among 1,000 and among 100,000 ids, by callgrind (needs valgrind)
    mix.py --long            peak memory of a million commands beside that of ten thousand
    mix.py --redeclares      seconds of a redeclare over 1,000 and 10,000 records of each shape, and peak memory
    mix.py --program FILE    with another build of formd than the one that `make` leaves

In a hundred commands 60 are puts, 12 sets, 12 gets, 8 checks, 3 lists of 100 ids, and 5 batches of ten puts, of the shapes of `shapes.py`. Each set
and put has other data than the one before it of its id. All three commit each change by itself, durably (WAL, synchronous FULL). Python parses
each line, checks the same constraints (by pydantic where it is installed) and makes the texts; its replies have to be those of formd. The loop in C
(`mix.c`, needs gcc and SQLite's header) gets the statements' values ready-made and runs the same SQL. All three have to leave the same rows (`tables.py`).
"""

import argparse
import json
import subprocess
import sys
import tempfile
from pathlib import Path

import tables
from bench import FORMD, HERE, spent, timed, total
from shapes import SHAPES, checks, compact, item


def kinds():
    """The kinds of a hundred commands, spread evenly."""
    counts = {"put": 60, "set": 12, "get": 12, "check": 8, "list": 3, "batch": 5}
    places = sorted(((at + 0.5) * 100 / count, kind) for kind, count in counts.items() for at in range(count))
    return [kind for _, kind in places]


def commands(shape, count):
    """The ids are a fifth as many as commands, and put before they are asked for."""
    _, form, make, (target, field, datum) = SHAPES[shape]
    ids = max(count // 5, 1)
    hundred = kinds()
    stored = []

    def key(number):
        return f"r{number % ids * 7919 % 1000003:06}"

    def put(number):
        stored.append(key(number))
        return {"do": "put", "id": key(number), "form": form, "bundle": make(number)}

    next_put = 0
    for number in range(count):
        kind = hundred[number % 100]
        if kind == "put" or not stored:
            yield put(next_put)
            next_put += 1
        elif kind == "batch":
            yield {"do": "batch", "parts": [put(next_put + at) for at in range(10)]}
            next_put += 10
        else:
            there = stored[number * 31 % len(stored)]
            if kind == "set":
                yield {"do": "set", "id": there, "object": target, "field": field, "value": datum(number)}
            elif kind == "list":
                yield {"do": "list", "form": form, "after": there}
            else:
                yield {"do": kind, "id": there}
        del stored[:-4096]


def lines_of(shape, count):
    return "".join(compact(command) + "\n" for command in commands(shape, count)).encode()


LIST = "SELECT id FROM record WHERE form = ?1 AND id > ?2 ORDER BY id LIMIT ?3"


def baseline(file, shape, lines):
    """The same in Python, as a service would: it runs in a process of its own."""
    base = tables.opened(file)
    holds = checks(shape)

    def judge(bundle):
        if not holds(bundle):
            raise SystemExit("the lines are meant to be taken")

    def keep(puts):
        base.execute("BEGIN IMMEDIATE")
        for put in puts:
            judge(put["bundle"])
            tables.put(base, put["id"], put["form"], put["bundle"])
        base.execute("COMMIT")

    def change(bundle, key, name, field, value):
        made = bundle["objects"][name]
        made["fields"][field] = value
        judge(bundle)
        base.execute("BEGIN IMMEDIATE")
        tables.set_object(base, key, name, made)
        base.execute("COMMIT")

    for line in lines:
        command = json.loads(line)
        what = command["do"]
        reply = {"ok": what}
        if what == "put":
            keep([command])
        elif what == "batch":
            keep(command["parts"])
        elif what == "list":
            reply["ids"] = [key for (key,) in base.execute(LIST, (command["form"], command["after"], 100))]
        else:
            form, bundle = tables.get(base, command["id"])
            if what == "set":
                change(bundle, command["id"], command["object"], command["field"], command["value"])
            elif what == "get":
                reply = {"bundle": bundle, "form": form, "id": command["id"], "ok": "get"}
            elif holds(bundle):
                reply["violations"] = []
        sys.stdout.write(compact(reply) + "\n")
        sys.stdout.flush()
    base.close()


def statements(shape, count):
    """What the loop in C is given: a line of the kind and its values, and before the parts of a batch their number."""
    _, form, _, _ = SHAPES[shape]
    kept = {}
    for command in commands(shape, count):
        what = command["do"]
        if what == "list":
            yield f"L\t{form}\t{command['after']}\n"
            continue
        if what in ("get", "check"):
            yield f"G\t{command['id']}\n"
            continue
        parts = command["parts"] if what == "batch" else [command]
        yield f"B\t{len(parts)}\n"
        for part in parts:
            if part["do"] == "set":
                made = kept[part["id"]]["objects"][part["object"]]
                made["fields"][part["field"]] = part["value"]
                yield f"G\t{part['id']}\n"
                yield "\t".join(["S", part["id"], *tables.object_row(part["object"], made)]) + "\n"
            else:
                kept[part["id"]] = part["bundle"]
                yield f"P\t{tables.line(part['id'], form, part['bundle'])}\n"


def words_of(program, folder, shape):
    (folder / "d.json").write_text(compact(SHAPES[shape].declarations))
    return [program, "serve", "--declarations", folder / "d.json", "--database", folder / "g.db", "--now", "0"]


def seconds(program, count):
    print("shape          commands   place   formd s  Python s  loop s   of Python  of loop   peak MB: formd  Python  loop")
    with tempfile.TemporaryDirectory() as built:
        loop = Path(built) / "loop"
        subprocess.run(["gcc", "-O2", "-o", loop, HERE / "mix.c", "-lsqlite3"], check=True)
        for shape in SHAPES:
            lines, rows = lines_of(shape, count), "".join(statements(shape, count)).encode()
            for place, where in (("disk", HERE), ("memory", Path("/dev/shm"))):
                found = []
                for at in range(3):
                    with tempfile.TemporaryDirectory(dir=where) as name:
                        folder = Path(name)
                        words = (words_of(program, folder, shape), [sys.executable, __file__, "--shape", shape, "--baseline", folder / "g.db"], [loop, folder / "g.db"])[at]
                        found.append((*timed(words, rows if at == 2 else lines), tables.rows_in(folder / "g.db")))
                (ours, our_peak, output, held), (python, python_peak, wanted, their), (bare, bare_peak, _, given) = found
                if output != wanted:
                    raise SystemExit("the outputs differ")
                if not held == their == given:
                    raise SystemExit(f"the rows differ: {held}, {their}, {given}")
                print(
                    f"{shape:<13}{count:>10,}  {place:<7}{ours:>8.2f}{python:>10.2f}{bare:>8.2f}{python / ours:>11.2f}{bare / ours:>9.2f}{our_peak:>17.0f}{python_peak:>8.0f}{bare_peak:>6.0f}",
                    flush=True,
                )


def pages(program):
    """A list of 100 ids, from the middle on, among few ids and among many."""
    print("ids        instructions a list")
    for count in (1000, 100000):
        with tempfile.TemporaryDirectory(dir="/dev/shm") as name:
            folder = Path(name)
            words = words_of(program, folder, "demonstration")
            parts = [{"do": "put", "id": f"r{number * 7919 % 1000003:06}", "form": "item", "bundle": item(number)} for number in range(count)]
            batches = "".join(compact({"do": "batch", "parts": parts[at : at + 50]}) + "\n" for at in range(0, count, 50)).encode()
            subprocess.run(words, input=batches, capture_output=True, check=True)
            middle = sorted(part["id"] for part in parts)[count // 2]
            asked = (compact({"do": "list", "form": "item", "after": middle}) + "\n").encode()
            none, some = (spent(total(words, asked * times), "PROGRAM TOTALS") for times in (0, 100))
        print(f"{count:>7,}{(some - none) / 100:>17,.0f}", flush=True)


def long(program):
    print("commands    peak MB")
    for count in (10000, 1000000):
        with tempfile.TemporaryDirectory(dir="/dev/shm") as name:
            folder = Path(name)
            words = words_of(program, folder, "demonstration")
            hundred = lines_of("demonstration", 10000)
            _, peak, _ = timed(words, hundred * (count // 10000))
        print(f"{count:>9,}{peak:>11.1f}", flush=True)


def redeclares(program):
    """The declarations that are in force, written once more: each record is read and judged."""
    print("shape          records   seconds a redeclare   peak MB  without a redeclare")
    for shape in SHAPES:
        declarations, form, make, _ = SHAPES[shape]
        again = (compact({"do": "redeclare", "text": compact(declarations)}) + "\n").encode()
        for count in (1000, 10000):
            with tempfile.TemporaryDirectory(dir="/dev/shm") as name:
                words = words_of(program, Path(name), shape)
                parts = [{"do": "put", "id": f"r{number:06}", "form": form, "bundle": make(number)} for number in range(count)]
                batches = "".join(compact({"do": "batch", "parts": parts[at : at + 50]}) + "\n" for at in range(0, count, 50)).encode()
                subprocess.run(words, input=batches, capture_output=True, check=True)
                nothing, least, _ = timed(words, b"")
                some, peak, output = timed(words, again * 10)
            if output != b'{"ok":"redeclare"}\n' * 10:
                raise SystemExit(f"not taken: {output[:200]}")
            print(f"{shape:<13}{count:>9,}{(some - nothing) / 10:>22.4f}{peak:>10.1f}{least:>22.1f}", flush=True)


def main():
    words = argparse.ArgumentParser()
    words.add_argument("--pages", action="store_true")
    words.add_argument("--long", action="store_true")
    words.add_argument("--redeclares", action="store_true")
    words.add_argument("--count", type=int, default=20000)
    words.add_argument("--program", type=Path, default=FORMD)
    words.add_argument("--baseline")
    words.add_argument("--shape", choices=SHAPES)
    given = words.parse_args()
    if given.baseline:
        baseline(given.baseline, given.shape, sys.stdin)
    elif given.pages:
        pages(given.program.resolve())
    elif given.long:
        long(given.program.resolve())
    elif given.redeclares:
        redeclares(given.program.resolve())
    else:
        seconds(given.program.resolve(), given.count)


if __name__ == "__main__":
    main()
