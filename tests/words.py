#!/usr/bin/env python3
"""Runs formd with the words that it takes and that it doesn't, and looks at its exit status and at every byte that it writes.

    tests/words.py            with the program that `make` leaves
    tests/words.py PROGRAM    with another build of formd

The runs stand in tests/data/words.rows, whose head says how they are written. Those whose files are made by a rule stand here: declarations of too many forms, of as many bytes as are
read and of one more, of 100 KB, which a database keeps whole; hundreds of records that one run stores and shows; a database that another process serves; and streams that fail
at once: an input that is a folder, an output that is a full disk.
"""

import os
import re
import shlex
import sqlite3
import subprocess
import sys
import tempfile
from pathlib import Path

from looks import ROOT, end, look, named_program

ROWS = ROOT / "tests" / "data" / "words.rows"
PROGRAM = named_program()
GET = '{"do":"get","id":"r1"}'
# What a rehearsal says of it on standard error.
TOLD = 'line 1: C6 NoRecord: id: there is no record "r1"\n'
MARKS = "><!?"
DECLARATIONS = '{"types":{"Item":{"fields":{"count":{"type":"integer"}}}},"forms":{"item":{"root":"Item"}}}'
MOST_BYTES = 16_777_216
# Words that make no file and take none away.
ONLY_READ = ("explain", "export", "judge", "rehearse")


def text_of(lines):
    return "".join(line + "\n" for line in lines)


def run(folder, words, lines, wanted):
    """A run of these words over these lines ends so: its status and both texts."""
    ran = subprocess.run([PROGRAM, *words], input=text_of(lines).encode(), capture_output=True, cwd=folder, timeout=120)
    status, output, error = wanted
    look(f"formd {shlex.join(words)}", (ran.returncode, ran.stdout, ran.stderr), (status, output.encode(), error.encode()))


def declare(folder, declarations, fault=None):
    """`declarations` takes these bytes, or refuses them by a fault."""
    (folder / "declared.json").write_bytes(declarations)
    run(folder, ["declarations", "declared.json"], [GET], (3, "", f"formd: declarations refused: {fault}\n") if fault else (0, "ok\n", ""))


def selected(file, statement):
    """What SQLite finds by a statement, a row a line; what it changes is written."""
    base = sqlite3.connect(file)
    found = ["|".join(map(str, row)) for row in base.execute(statement)]
    base.commit()
    base.close()
    return found


class Row:
    """A row of the file: its kind, its text, and the lines below it by their marks."""

    def __init__(self, line):
        self.kind, _, self.text = line.partition(" ")
        self.below = {mark: [] for mark in MARKS}

    def look(self, folder):
        """Does what the row says in a folder."""
        name, _, rest = self.text.partition(" ")
        fault, _, declarations = self.text.partition(": ")
        match self.kind:
            case "$":
                status, files = int(*self.below["?"] or "0"), sorted(folder.iterdir())
                run(folder, shlex.split(self.text), self.below[">"] or [GET], (status, text_of(self.below["<"]), text_of(self.below["!"])))
                if name in ONLY_READ:
                    look(f"the files behind {self.text}", sorted(folder.iterdir()), files)
            case "file":
                (folder / name).write_text(rest)
            case "sql":
                selected(folder / name, rest)
            case "ask":
                look(self.text, selected(folder / name, rest), self.below["<"])
            case "gone":
                (folder / name).unlink()
            case "none":
                look(self.text, (folder / name).exists(), False)
            case "taken":
                declare(folder, self.text.encode())
            case "refused":
                declare(folder, declarations.encode(), fault)
            case "garbled":
                declare(folder, declarations.encode().decode("unicode_escape").encode("latin-1"), fault)
            case kind:
                raise SystemExit(f"{ROWS}: no row is of the kind {kind!r}")


def sections():
    """The rows of each section, with the texts for the names in brackets."""
    texts, found = {}, []
    for line in (line for line in ROWS.read_text().split("\n") if line and line[0] != "#"):
        line = re.sub("⟦(\\w+)⟧", lambda name: texts[name[1]], line)
        name, sign, text = line.partition(" := ")
        if sign and re.fullmatch(r"\w+", name):
            texts[name] = text
        elif line.startswith("== "):
            found.append([])
        elif line[0] in MARKS:
            found[-1][-1].below[line[0]].append(line[2:])
        else:
            found[-1].append(Row(line))
    return found


def in_a_folder(look_at):
    with tempfile.TemporaryDirectory() as name:
        look_at(Path(name))


def sizes(folder):
    """As many forms and bytes as there may be, and one more."""
    for number, fault in (256, None), (257, "F14 TooLarge"):
        forms = ",".join(f'"f{at}":{{"root":"T"}}' for at in range(number))
        declare(folder, f'{{"types":{{"T":{{"fields":{{}}}}}},"forms":{{{forms}}}}}'.encode(), fault)
    declare(folder, b" " * MOST_BYTES, "F1 NotJson")
    declare(folder, DECLARATIONS.encode().ljust(MOST_BYTES))
    (folder / "more.json").write_bytes(DECLARATIONS.encode().ljust(MOST_BYTES + 1))
    run(folder, ["declarations", "more.json"], [GET], (4, "", "formd: cannot read declarations\n"))


def put(number):
    return f'{{"do":"put","id":"r{number}","form":"item","bundle":{{"root":"a","objects":{{"a":{{"type":"Item","fields":{{"count":{number}}}}}}}}}}}'


def get(number):
    return f'{{"do":"get","id":"r{number}"}}'


def shown(number):
    return f'{{"bundle":{{"objects":{{"a":{{"fields":{{"count":{number}}},"type":"Item"}}}},"root":"a"}},"form":"item","id":"r{number}","ok":"get"}}'


def serve(folder, declarations, lines, replies):
    run(folder, ["serve", "--declarations", declarations, "--database", "g.db"], lines, (0, text_of(replies), ""))


def long_declarations(folder):
    """A database keeps long declarations whole, also where longer ones are handed in."""
    kept = DECLARATIONS + " " * 100_000
    (folder / "long.json").write_text(kept)
    (folder / "longer.json").write_text(kept + " ")
    serve(folder, "long.json", [put(1)], ['{"ok":"put"}'])
    for declarations in "longer.json", "long.json":
        serve(folder, declarations, [get(1)], [shown(1)])
        look("declarations of 100 KB are kept", selected(folder / "g.db", "SELECT CAST(declarations AS TEXT) FROM about"), [kept])
    for words in ["--database", "g.db"], ["long.json"]:
        run(folder, ["explain", *words, "--text"], [], (0, kept, ""))


def many_records(folder):
    """Hundreds of records, shown from the last to the first by the run that puts them and by the next one."""
    (folder / "d.json").write_text(DECLARATIONS)
    numbers = range(500)
    gets, replies = list(map(get, reversed(numbers))), list(map(shown, reversed(numbers)))
    serve(folder, "d.json", [*map(put, numbers), *gets], ['{"ok":"put"}'] * len(numbers) + replies)
    serve(folder, "d.json", gets, replies)


def in_use(folder):
    """A database that another process serves is neither exported nor explained."""
    (folder / "d.json").write_text(DECLARATIONS)
    words = ["serve", "--declarations", "d.json", "--database", "g.db"]
    with subprocess.Popen([PROGRAM, *words], stdin=subprocess.PIPE, stdout=subprocess.PIPE, cwd=folder, text=True) as service:
        service.stdin.write(GET + "\n")
        service.stdin.flush()
        service.stdout.readline()
        database = ["--database", "g.db"]
        for words in ["export", *database], ["explain", *database], ["explain", *database, "--text"], ["explain", "d.json", "--over-database", "g.db"]:
            run(folder, words, [], (4, "", "formd: cannot open database\n"))


def failing_streams(folder):
    """A read that fails, and a write, end each word that reads or writes with status 4."""
    (folder / "d.json").write_text(DECLARATIONS)
    served = ["serve", "--declarations", "d.json", "--database", "g.db"]

    def ended(words, status, error, **streams):
        ran = subprocess.run([PROGRAM, *words], stderr=subprocess.PIPE, cwd=folder, timeout=120, **streams)
        look(f"formd {shlex.join(words)}", (ran.returncode, ran.stderr), (status, error))

    judged = ["judge", "--declarations", "d.json"]
    for words in [], served, judged, ["rehearse", "--declarations", "d.json"]:
        no_file = os.open(folder, os.O_RDONLY)
        ended(words, 4, b"formd: read\n", stdin=no_file, stdout=subprocess.DEVNULL)
        os.close(no_file)
    explained = [["explain", "d.json", *words] for words in ([], ["--text"], ["--schema", "item"], ["--over", "d.json"])]
    explained += [["explain", "--database", "g.db"], ["explain", "d.json", "--over-database", "g.db"]]
    for words in [], served, judged, ["rehearse", "--declarations", "d.json"], ["declarations", "d.json"], *explained, ["export", "--database", "g.db"], ["version"]:
        with open("/dev/full", "wb") as full:
            told = TOLD if "rehearse" in words else ""
            ended(words, 4, f"{told}formd: write\n".encode(), input=GET.encode(), stdout=full)


def main():
    for section in sections():
        in_a_folder(lambda folder: [row.look(folder) for row in section])
    for looks in sizes, long_declarations, many_records, in_use, failing_streams:
        in_a_folder(looks)
    return end("{count} looked at, {failed} differ")


if __name__ == "__main__":
    sys.exit(main())
