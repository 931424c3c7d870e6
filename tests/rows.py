#!/usr/bin/env python3
"""Compares thousands of rows of examples with what the program answers: declarations taken or refused, values, bundles, whole commands.

    tests/rows.py                    with the program that `make` leaves
    tests/rows.py PROGRAM            with another build of formd
    tests/rows.py PROGRAM FILE ..    these files in place of those of tests/data/rows

A file begins with lines `NAME := TEXT`, then come tables, each of which begins with a line `## KIND HEAD`; lines that begin with "# " are
comments. `wrong.rows` has rows of each kind that don't hold: each has to be told as one that differs.

Words between brackets stand for longer texts: `⟦3: "f#":1⟧` for the items `"f0":1`, `"f1":1` and `"f2":1` with commas between,
`⟦7..9: "f#":#+1⟧` for `"f7":8` and `"f8":9`, `⟦200× [⟧` for 200 times `[`, `⟦3 others "f#": "f#":[@]⟧` for the items
`"f0":["f1","f2"]`, `"f1":["f0","f2"]` and `"f2":["f0","f1"]`, `⟦char a0⟧` for the character of that hexadecimal number, `⟦end⟧` for the end of a line, and `⟦NAME⟧` for what
the file says of the name.
"""

import json
import os
import re
import subprocess
import sys
import tempfile
from concurrent.futures import ThreadPoolExecutor
from pathlib import Path

from looks import ROOM, ROOT, named_program

DATA = ROOT / "tests" / "data" / "rows"
PROGRAM = named_program()
GET = '{"do":"get","id":"r1"}'
SHOWN = 400


# Texts with words in brackets


def numbered(item, number):
    return item.replace("#+1", str(number + 1)).replace("#", str(number))


def items(span, item):
    first, last = span.split("..") if ".." in span else ("0", span)
    return ",".join(numbered(item, number) for number in range(int(first), int(last)))


def with_others(count, other, item):
    listed = [",".join(numbered(other, number) for number in range(count) if number != this) for this in range(count)]
    return ",".join(numbered(item, this).replace("@", others) for this, others in enumerate(listed))


def meant(names, word):
    """What a word between brackets stands for."""
    count, times, text = word.partition("× ")
    if times:
        return text * int(count)
    count, others, text = word.partition(" others ")
    if others:
        return with_others(int(count), *text.split(": ", 1))
    span, colon, item = word.partition(": ")
    if colon:
        return items(span, item)
    if word == "end":
        return "\n"
    if word.startswith("char "):
        return chr(int(word[5:], 16))
    return names[word]


def expanded(names, text):
    return re.sub("⟦(.*?)⟧", lambda found: meant(names, found[1]), text)


# The program


def compact(value):
    return json.dumps(value, separators=(",", ":"), ensure_ascii=False)


class Unanswered(Exception):
    """A run of the program that doesn't answer each line."""


class Service:
    """A file of records, served by one run of the program for all lines of one moment."""

    def __init__(self, folder, declarations):
        self.declarations, self.file = Path(folder) / "declarations.json", Path(folder) / "records.db"
        self.hand_in(declarations)

    def hand_in(self, declarations):
        self.declarations.write_bytes(declarations.encode())

    def ask(self, lines, now=0):
        """The replies to some lines at a moment."""
        words = [PROGRAM, "serve", "--declarations", self.declarations, "--database", self.file, f"--now={now}"]
        ran = subprocess.run(words, input="".join(line + "\n" for line in lines).encode(), capture_output=True)
        replies = ran.stdout.decode().split("\n")
        if ran.returncode or ran.stderr or len(replies) != len(lines) + 1:
            raise Unanswered(f"{len(replies) - 1} replies to {len(lines)} lines, status {ran.returncode}: {ran.stderr.decode().strip()}")
        return replies[:-1]


def judged(folder, text):
    """The code and the name of the fault of declarations, or `taken`."""
    file = Path(folder) / "judged.json"
    file.write_bytes(text.encode())
    ran = subprocess.run([PROGRAM, "declarations", file], capture_output=True, text=True)
    if (ran.returncode, ran.stdout, ran.stderr) == (0, "ok\n", ""):
        return "taken"
    return ran.stderr.removeprefix("formd: declarations refused: ").removesuffix("\n") if ran.returncode == 3 else f"status {ran.returncode}: {ran.stderr}"


def put_of(bundle):
    return f'{{"do":"put","id":"r1","form":"f","bundle":{bundle}}}'


def short(reply):
    """What a reply to a put or a get of the record `r1` under the form `f` says: `taken`, the fault of a bundle, the list of violations, or the bundle."""
    if reply == '{"ok":"put"}':
        return "taken"
    around = (
        ('{"error":"C5","fault":"', '","name":"Bundle"}'),
        ('{"error":"C10","name":"Violations","records":[{"id":"r1","violations":', "}]}"),
        ('{"bundle":', ',"form":"f","id":"r1","ok":"get"}'),
    )
    for front, end in around:
        if reply.startswith(front) and reply.endswith(end):
            return reply.removeprefix(front).removesuffix(end)
    return reply


# Tables: each gives, for each of its rows, the row, what it wants and what was found


class Table:
    SETTINGS = ("at ", "use ", "constraints ", "bundle ", "line ")

    def __init__(self, names, text):
        title, *lines = text.split("\n")
        self.names, (self.kind, _, self.head) = names, title.partition(" ")
        self.rows = [line for line in lines if line and not line.startswith("# ")]

    def expanded(self, text):
        return expanded(self.names, text)

    def filled(self, around, piece):
        return self.expanded(around).replace("@", self.expanded(piece))

    def setting(self, word, default=None):
        said = [row.removeprefix(word) for row in self.rows if row.startswith(word)]
        return said[-1] if said else default

    def now(self):
        return int(self.setting("at ", "0"))

    def pieces(self):
        """The rows that are no settings: each with what it wants, and its piece."""
        for row in self.rows:
            if not row.startswith(self.SETTINGS):
                yield row, *row.split(": ", 1)


def declarations(table, folder):
    """Rows `WANTED: PIECE`. Each piece stands for the `@` of the head, and the whole is taken or refused by a code, or by a code and its name."""
    for row in table.rows:
        wanted, piece = row.split(": ", 1)
        found = judged(folder, table.filled(table.head, piece))
        yield row, wanted, found if " " in wanted else found.split(" ")[0]


def pairs(table, folder):
    """Rows `around BEFORE@BETWEEN@BEHIND`, `first CODE: PIECE`, `second CODE: PIECE`, `both CODE: PIECE`. Each first piece stands before each
    second one: the code that comes first in the order of the faults is answered."""

    def those(word):
        return [row.split(" ", 1)[1].split(": ", 1) for row in table.rows if row.startswith((word + " ", "both "))]

    def rank(code):
        return int(code[1:]) if code.startswith("F") else 99

    for around in (row.removeprefix("around ") for row in table.rows if row.startswith("around ")):
        before, behind = around.split("@", 1)
        for code, first in those("first"):
            for other, second in those("second"):
                text = table.filled(before + table.expanded(first) + behind, second)
                yield text, min(code, other, key=rank), judged(folder, text).split(" ")[0]


def explained(table, folder):
    """What is told of the head's declarations, by lines."""
    file = Path(folder) / "explained.json"
    file.write_bytes(table.expanded(table.head).encode())
    ran = subprocess.run([PROGRAM, "explain", "--json", file], capture_output=True, text=True)
    return [json.loads(line) for line in ran.stdout.splitlines()]


def place_of(told):
    """The type and the place of a use, as a row has them: the field's name and a word for each step, or `-` for the type."""
    _, kind, *ways = told["place"].split(".")
    if ways[0].startswith("constraints["):
        return f"{kind} -"
    steps = {"list": ".element", "optional": ".content", "map": ".value", "keys": ".key"}
    words = [re.sub(r"\[\d+\]$", "", way) for way in ways[2:]]
    return f"{kind} {ways[1]}" + "".join(steps[word] for word in words if word in steps)


def uses(table, folder):
    """Rows `NUMBER TYPE PLACE CONSTRAINT MESSAGE`: the uses of the head's declarations, each behind it with what it is composed of, by their numbers,
    each with what its message becomes."""
    lines = explained(table, folder)
    told = {line["number"]: line for line in lines if line["line"] == "constraint"}
    told |= {line["number"]: told[line["use"]] | line for line in lines if line["line"] == "part"}
    for row in table.rows:
        number = row.split(" ", 1)[0]
        line = told.pop(int(number), None)
        if line is None:
            yield row, row, "no such number"
            continue
        shown = re.sub(r"\{(\w+)\}", lambda name: text_of(line["attributes"].get(name[1], name[0])), line["message"])
        yield row, row, f"{line['number']} {place_of(line)} {line['constraint']} {shown}"
    for line in told.values():
        yield table.head, "no more", compact(line)


def text_of(value):
    return str(value).lower() if isinstance(value, bool) else str(value)


def told_blocks(table):
    """Each row `> TEXT` or `json> TEXT`, with the words that it asks for, the text, and the lines behind it; a row `NAME := TEXT` names a text."""
    asked = []
    for row in table.rows:
        begun = re.fullmatch(r"(json)?> ?(.*)", row)
        named = re.fullmatch(r"(\w+) := (.*)", row)
        if begun:
            asked.append((row, ["--json"] if begun[1] else [], table.expanded(begun[2]), []))
        elif named:
            table.names[named[1]] = table.expanded(named[2])
        else:
            asked[-1][3].append(table.expanded(row))
    return asked


def lines_told(words, wanted):
    """What `formd explain` writes, and behind it how it ends, where that isn't as the lines that are wanted say."""
    ran = subprocess.run([PROGRAM, "explain", *words], capture_output=True, text=True)
    refused = ran.stderr.removeprefix("formd: declarations refused: ").strip()
    is_told = refused in ran.stdout or all(f'"{part}"' in ran.stdout for part in refused.split(" "))
    is_fault = any(re.search(r': F\d+ \w+: |^\{"line":"fault"', line) for line in wanted)
    return ran.stdout.splitlines() + ([] if is_told and ran.returncode == (3 if is_fault else 0) else [f"status {ran.returncode}: {ran.stderr}"])


def told(table, folder):
    """Rows `> DECLARATIONS`, or `json> DECLARATIONS`, and behind it the lines that `formd explain` writes of them; `¿` is a byte that no UTF-8 has. A
    row `NAME := TEXT` names a text. Declarations with a fault are refused by the one that their line tells."""
    file = Path(folder) / "told.json"
    for row, words, text, wanted in told_blocks(table):
        file.write_bytes(text.encode().replace("¿".encode(), b"\xff"))
        yield row, "\n".join(wanted), "\n".join(lines_told([*words, file], wanted))


def over(table, folder):
    """Rows `> NEW over OLD`, or `json> NEW over OLD`, and behind it the lines that `formd explain NEW --over OLD` writes."""
    new, old = Path(folder) / "new.json", Path(folder) / "old.json"
    for row, words, text, wanted in told_blocks(table):
        for file, declarations in zip((new, old), text.split(" over ")):
            file.write_text(declarations)
        yield row, "\n".join(wanted), "\n".join(lines_told([*words, new, "--over", old], wanted))


def forms(table, folder):
    """Rows `ROOT: FORM`: the type of a form's root, or `none`."""
    roots = {line["name"]: line["root"] for line in explained(table, folder) if line["line"] == "form"}
    for row in table.rows:
        root, form = row.split(": ", 1)
        yield row, root, roots.get(form, "none")


def use_of(row):
    """Of a row `use NAME WITH | MESSAGE` the three."""
    used, message = row.removeprefix("use ").split(" | ", 1)
    return *used.split(" ", 1), message


def values(table, folder):
    """Rows `WANTED: VALUE`: puts of an object whose field `v`, of the head's kind, has the value, under the constraints of the rows
    `use NAME WITH | MESSAGE`, at the moment of a row `at MOMENT`. Wanted is `taken`, a fault as `B5`, or the names of the constraints that list
    the value. A value may be listed in another spelling than it was given: `VALUE shown VALUE`."""
    given = [use_of(row) for row in table.rows if row.startswith("use ")]
    listed = ",".join(f'{{"constraint":"{name}","with":{attributes}}}' for name, attributes, _ in given)
    field = f'{{"type":{table.head},"constraints":[{listed}]}}'
    text = f'{{"types":{{"T":{{"fields":{{"v":{field}}}}}}},"forms":{{"f":{{"root":"T"}}}},"constraints":{table.setting("constraints ", "{}")}}}'
    numbers = {name: (number, message) for number, (name, _, message) in reversed(list(enumerate(given)))}

    def violation(name, value):
        number, message = numbers[name]
        return f'{{"constraint":"{name}","message":"{message}","occurrence":{number},"path":"v","value":{value}}}'

    rows, lines = [], []
    for row, wanted, value in table.pieces():
        value, _, shown = value.partition(" shown ")
        value = table.expanded(value)
        shown = table.expanded(shown) or value
        lines.append(put_of(f'{{"root":"a","objects":{{"a":{{"type":"T","fields":{{"v":{value}}}}}}}}}'))
        is_said = wanted == "taken" or wanted.startswith("B")
        rows.append((row, wanted if is_said else "[" + ",".join(violation(name, shown) for name in wanted.split(" ")) + "]"))
    replies = Service(folder, table.expanded(text)).ask(lines, table.now())
    for (row, wanted), reply in zip(rows, replies):
        yield row, wanted, short(reply)


def uses_judged(table, folder):
    """Rows `WANTED: PIECE`: each piece stands for the `@` of the head, which are declarations, and the bundle of the row `bundle BUNDLE` is put
    under them. Wanted is `taken`, `listed`, or the list of violations."""
    for row, wanted, piece in table.pieces():
        with tempfile.TemporaryDirectory(dir=folder) as room:
            found = short(Service(room, table.filled(table.head, piece)).ask([put_of(table.setting("bundle "))], table.now())[0])
        yield row, wanted, "listed" if wanted == "listed" and found.startswith("[") else found


def bundles(table, folder):
    """Rows `WANTED: PIECE`: each piece stands for the `@` of the row `bundle BUNDLE`, and that bundle is put under the head's declarations, at the
    moment of a row `at MOMENT`, and then shown. Wanted is `taken` where the same bytes are shown, a fault as `B5`, a list of violations, or the
    piece that is shown. A refused put changes nothing."""
    before, behind = table.expanded(table.setting("bundle ", "@")).split("@", 1)
    rows = [(row, table.expanded(wanted), before + table.expanded(piece) + behind) for row, wanted, piece in table.pieces()]
    lines = [GET] + [line for _, _, bundle in rows for line in (put_of(bundle), GET)]
    stored, *replies = map(short, Service(folder, table.expanded(table.head)).ask(lines, table.now()))
    for (row, wanted, bundle), said, shown in zip(rows, replies[::2], replies[1::2]):
        if said != "taken":
            yield row, wanted, said if shown == stored else shown
            continue
        stored = shown
        is_around = shown.startswith(before) and shown.endswith(behind)
        yield row, wanted, "taken" if shown == bundle else shown[len(before) : len(shown) - len(behind)] if is_around else shown


def lines(table, folder):
    """Lines to one service, of the head's declarations: a row `> LINE` and behind it its reply, a row `redeclare TEXT` and behind it the reply to
    a redeclare of the text, or a row `fronts LINE` and behind it the reply to each proper front of the line. A row `at MOMENT` tells the moment from
    there on; before the first it is 0. At a row `reopen TEXT` the service ends, and another begins over its file, with these declarations handed in."""
    service, now, asked = Service(folder, table.expanded(table.head)), 0, []

    def answered():
        replies = service.ask([line for _, line, _ in asked], now)
        yield from ((row, wanted, reply) for (row, _, wanted), reply in zip(asked, replies))
        asked.clear()

    rows = iter(table.rows)
    for row in rows:
        word, _, given = row.partition(" ")
        if word in ("at", "reopen"):
            yield from answered()
        if word == "at":
            now = int(given)
        elif word == "reopen":
            service.hand_in(table.expanded(given))
        else:
            text, wanted = table.expanded(given), table.expanded(next(rows))
            if word == "fronts":
                asked += [(text[:end], text[:end], wanted) for end in range(len(text))]
            elif word == "redeclare":
                asked.append((given, f'{{"do":"redeclare","text":{compact(text)}}}', wanted))
            elif word == ">":
                asked.append((given, text, wanted))
            else:
                raise SystemExit(f"no line: {row}")
    yield from answered()


KINDS = {
    "bundles": bundles,
    "declarations": declarations,
    "forms": forms,
    "judged": uses_judged,
    "lines": lines,
    "pairs": pairs,
    "over": over,
    "told": told,
    "uses": uses,
    "values": values,
}


def tables(file):
    """The tables of a file."""
    front, *parts = file.read_text(encoding="utf-8").split("\n## ")
    names = {}
    for line in front.split("\n"):
        if line and not line.startswith("# "):
            name, text = line.split(" := ", 1)
            names[name] = expanded(names, text)
    return [Table(names, part) for part in parts]


def compared(table):
    with tempfile.TemporaryDirectory(dir=ROOM) as folder:
        try:
            return list(KINDS[table.kind](table, folder))
        except Unanswered as run:
            return [(table.head, "an answer to each line", str(run))]


def judge(file, pool):
    """Prints the rows of a file that differ, and gives how many there are and how many are wrong."""
    found = list(pool.map(compared, tables(file)))
    rows = [row for table in found for row in table]
    differ = [row for row in rows if row[1] != row[2]]
    if file.name == "wrong.rows":
        are_told = len(differ) == len(rows) and all(found) and {table.kind for table in tables(file)} == set(KINDS)
        print(f"{file.name}: {len(rows)} rows of {len(found)} tables, {len(differ)} differ, as they have to")
        return len(rows), 0 if are_told else 1
    for row, wanted, told in differ:
        print(f"  row    {row[:SHOWN]}\n  wanted {wanted[:SHOWN]}\n  found  {told[:SHOWN]}")
    print(f"{file.name}: {len(rows)} rows, {len(differ)} differ", flush=True)
    return len(rows), len(differ)


def main():
    with ThreadPoolExecutor(os.cpu_count()) as pool:
        counts = [judge(file, pool) for file in map(Path, sys.argv[2:] or sorted(DATA.glob("*.rows")))]
    total, wrong = map(sum, zip(*counts))
    print(f"{total} rows, {wrong} wrong")
    return 1 if wrong or not total else 0


if __name__ == "__main__":
    sys.exit(main())
