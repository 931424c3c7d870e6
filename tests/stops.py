#!/usr/bin/env python3
"""Stops formd's files, its standard input and its standard output at each of its calls in turn, and looks at what then stands.

    tests/stops.py                  the program that `make` leaves
    tests/stops.py PROGRAM          another build of formd
    tests/stops.py PROGRAM short    stops only one of both files under each command, the log and the database's in turn

Of the database file and of its log each call fails from the first one on, then from the second, and so on until a run
meets none; and the same with half of the bytes of the first write that fails. So over an opening of empty files, a put, a set, a
batch of a put and a remove, a remove, a redeclare, and an opening that migrates. The command is answered as it calls for, or C11 or
C12, or the opening is refused with status 4; then a run that isn't disturbed finds the records and declarations from before the
command or from behind it, and from behind it where it was taken. In the long form also over an export and what is
explained of a database, which end as ever or with status 4 behind some of their lines, and change no record.

Standard input and output take 37 bytes a call and fail at each call in turn, over a list of all commands, and one byte or seven over a put and two gets, the last without its
end: what is written is the replies to the whole lines that were read, or the front of the replies that was taken; and the records are those behind the
commands answered, or behind one more. A write that takes nothing is a failed one. Lines at the limit, beyond it, of no JSON and without an end, by one byte a read and by as many as are
asked for, are answered as ever, by more than 2^22 reads too.

The file of the declarations fails at each call, by an error of the disk, as a folder, and for want of memory.
"""

import errno
import itertools
import json
import mmap
import os
import shutil
import struct
import subprocess
import sys
import tempfile
from collections import Counter
from pathlib import Path

sys.dont_write_bytecode = True
import looks
from looks import ROOM, ROOT, compact, tell
from refused_allocations import FIRST, FIRST_BUNDLES, IDS, LINES, NO_DECLARATIONS, PROGRAM, Model, declarations, first_file, redeclare, served, version_of

DATABASE, LOG, INPUT, OUTPUT, DECLARATIONS = range(5)
FILES = itertools.cycle([(LOG,), (DATABASE,)] if "short" in sys.argv[2:] else [(DATABASE, LOG)])
NAMES = ("the database file", "the log", "standard input", "standard output")
REFUSALS = ('{"error":"C11","name":"Store"}', '{"error":"C12","name":"Memory"}')
NOT_OPENED = (b"formd: cannot open database\n", b"formd: store: Store\n", b"formd: memory\n")
MORE = {"do": "checkvalue", "type": "Item", "field": "more", "value": None}
QUESTIONS = [compact({"do": "get", "id": key}) for key in IDS] + [compact({"do": "list", "form": "item"}), compact(MORE)]


class Page:
    """The four numbers that the library and this script share."""

    def __init__(self, folder):
        self.file, library = folder / "page", folder / "stop.so"
        self.file.write_bytes(bytes(32))
        with open(self.file, "r+b") as file:
            self.numbers = mmap.mmap(file.fileno(), 32)
        subprocess.run(["gcc", "-O1", "-shared", "-fPIC", "-o", library, ROOT / "tests" / "stop.c"], check=True)
        self.environment = {**os.environ, "LD_PRELOAD": str(library), "STOP_PAGE": str(self.file)}

    def run(self, words, lines, which, first, width=0):
        """A run whose calls of one file fail from the first of these on, and how many there were."""
        self.numbers[:] = struct.pack("qqqq", which, first, width, 0)
        run = subprocess.run([PROGRAM, *words], input=lines, capture_output=True, env=self.environment, timeout=60)
        return run, struct.unpack("qqqq", self.numbers[:])[3]


def shown(model):
    return [compact(model.answer(line)) for line in QUESTIONS]


def found(words):
    """What a run that isn't disturbed answers to the questions."""
    run = subprocess.run([PROGRAM, *words], input="".join(line + "\n" for line in QUESTIONS), capture_output=True, text=True, timeout=60)
    return run.stdout.splitlines() if run.returncode == 0 else [f"status {run.returncode}, {run.stderr!r}"]


def stored():
    model = Model(json.loads(declarations()), {})
    for line in FIRST:
        model.answer(compact(line))
    return model


def replaced(folder, source):
    """The files of the database become those of another, or none."""
    for left in folder.glob("g.db*"):
        left.unlink()
    for it in folder.glob(f"{source}.db*") if source else ():
        shutil.copy(it, folder / it.name.replace(source, "g"))


def disk(folder, page, name, source, line, before, after, is_first_version=False):
    """A command over both files, each stopped at each call."""
    words, lines = served(folder / "d.json", folder / "g.db"), b"" if line is None else line.encode() + b"\n"
    undisturbed = None if line is None else compact(Model(before.declared, before.records).answer(line))
    for which in next(FILES):
        for sign in (1, -1):
            ends, number, bad = Counter(), 0, looks.failed
            while True:
                number += 1
                replaced(folder, source)
                run, calls = page.run(words, lines, which, sign * number)
                at = f"{name}, {NAMES[which]} stopped at call {number}"
                replies = run.stdout.decode().splitlines()
                if run.returncode == 4 and not replies and run.stderr in NOT_OPENED:
                    end = "not opened"
                elif run.returncode != 0 or run.stderr or len(replies) != (line is not None) or line is not None and replies[0] not in (undisturbed, *REFUSALS):
                    end = "odd"
                    tell(f"{at}: status {run.returncode}, {run.stderr!r:.200}, {replies}")
                else:
                    end = "served" if line is None else "taken" if replies[0] == undisturbed else "refused"
                if calls < number:
                    if end not in ("taken", "served"):
                        tell(f"{name}, undisturbed: {end}, {replies}")
                    break
                ends[end] += 1
                left = version_of(folder / "g.db") if is_first_version else 2
                held = found(words)
                may_be = [model for model, others in ((before, "taken"), (after, "not opened")) if end != others]
                if held not in [shown(model) for model in may_be]:
                    tell(f"{at}, which was {end}: {held}")
                if is_first_version and left == 1 and end == "served":
                    tell(f"{at}: served over version 1")
            if number == 1:
                tell(f"{name}: {NAMES[which]} is never stopped")
            figures = ", ".join(f"{times} {end}" for end, times in sorted(ends.items()))
            print(f"{name}: {NAMES[which]} stopped at each of {number - 1} calls{', half of the bytes of the first write written' if sign < 0 else ''}: {figures}; {looks.failed - bad} lost", flush=True)


def reads(folder, page, words):
    """Words that read a database, with both files stopped at each call: they end as undisturbed, or with status 4 behind a front of what they write. The records stay."""
    replaced(folder, "kept")
    whole = subprocess.run([PROGRAM, *words], capture_output=True, timeout=60).stdout
    for which in DATABASE, LOG:
        number, refused, bad = 0, 0, looks.failed
        while True:
            number += 1
            replaced(folder, "kept")
            run, calls = page.run(words, b"", which, number)
            is_refused = run.returncode == 4 and run.stderr in NOT_OPENED and whole.startswith(run.stdout)
            if calls < number and is_refused or not is_refused and (run.returncode, run.stdout, run.stderr) != (0, whole, b""):
                tell(f"{words[0]}, {NAMES[which]} stopped at call {number} of {calls}: {run}")
            if calls < number:
                break
            refused += is_refused
            if found(served(folder / "d.json", folder / "g.db")) != shown(stored()):
                tell(f"{words[0]}, {NAMES[which]} stopped at call {number}: other records are there")
        print(f"{words[0]} of a database: {NAMES[which]} stopped at each of {number - 1} calls, {refused} ended with status 4; {looks.failed - bad} lost", flush=True)


def disks(folder, page):
    (folder / "d.json").write_text(declarations())
    before = stored()
    run = subprocess.run([PROGRAM, *served(folder / "d.json", folder / "kept.db")], input="".join(compact(line) + "\n" for line in FIRST), capture_output=True, text=True)
    if run.stdout != '{"ok":"put"}\n' * len(FIRST):
        sys.exit(f"the first records aren't made: {run}")
    empty = Model(json.loads(declarations()), {})
    disk(folder, page, "an opening of empty files", None, None, empty, empty)
    batch = {"do": "batch", "parts": [{**FIRST[0], "id": "r2"}, {"do": "remove", "id": "r3"}]}
    commands = {"a put": {**FIRST[0], "id": "r2"}, "a put over a record": {**FIRST[0], "id": "r3"}, "a set": {"do": "set", "id": "r3", "object": "b", "field": "name", "value": "b"}}
    commands |= {"a batch of a put and a remove": batch, "a remove": {"do": "remove", "id": "r3"}, "a redeclare": redeclare(declarations(4, more=True))}
    for name, command in commands.items():
        after = stored()
        if after.answer(compact(command)) != {"ok": command["do"]}:
            sys.exit(f"{name} isn't taken")
        disk(folder, page, name, "kept", compact(command), before, after)
    if "short" not in sys.argv[2:]:
        for words in ["export", "--database", folder / "g.db"], ["explain", "--database", folder / "g.db"], ["explain", folder / "d.json", "--over-database", folder / "g.db"]:
            reads(folder, page, words)
    first_file(folder / "first.db")
    (folder / "d.json").write_text(NO_DECLARATIONS)
    old = Model(json.loads(declarations()), {key: ("item", json.loads(bundle)) for key, bundle in FIRST_BUNDLES.items()})
    disk(folder, page, "an opening that migrates", "first", None, old, old, True)


def stream(folder, page, name, lines, which, width, is_ended=True):
    """Lines by a stream of so many bytes a call, which fails at each call in turn."""
    error = b"formd: read\n" if which == INPUT else b"formd: write\n"
    words = served(folder / "d.json", folder / "g.db")
    models, replies = [Model(json.loads(declarations()), {})], []
    for line in lines:
        model = Model(models[-1].declared, models[-1].records)
        replies.append(compact(model.answer(line)) + "\n")
        models.append(model)
    text, wanted = "".join(line + "\n" for line in lines).encode(), "".join(replies).encode()
    text = text if is_ended else text[:-1]
    ends = [len("".join(line + "\n" for line in lines[:count]).encode()) for count in range(len(lines) + 1)]
    number, bad = 0, looks.failed
    while True:
        number += 1
        replaced(folder, None)
        run, calls = page.run(words, text, which, number, width)
        if calls < number:
            if (run.returncode, run.stdout, run.stderr) != (0, wanted, b""):
                tell(f"{NAMES[which]}, undisturbed: {run}")
            break
        at = f"{NAMES[which]} of {width} bytes a call stopped at call {number}"
        if (run.returncode, run.stderr) != (4, error):
            tell(f"{at}: status {run.returncode}, {run.stderr!r:.200}")
        if which == INPUT:
            whole = max(count for count, end in enumerate(ends) if end <= min((number - 1) * width, len(text)))
            if run.stdout != "".join(replies[:whole]).encode():
                tell(f"{at}: {whole} lines read, and {run.stdout!r:.300}")
            may_be = models[whole : whole + 1]
        else:
            if not wanted.startswith(run.stdout):
                tell(f"{at}: {run.stdout!r:.300} is no front of the replies")
            answered = run.stdout.count(b"\n")
            may_be = models[answered : answered + 2]
        held = found(words)
        if held not in [shown(model) for model in may_be]:
            tell(f"{at}: {held}")
    if number == 1:
        tell(f"{NAMES[which]} is never stopped")
    print(f"{name}: {NAMES[which]} of {width} bytes a call stopped at each of {number - 1} calls; {looks.failed - bad} lost", flush=True)


def streams(folder, page):
    """All commands, taken and refused, and a few lines by narrower streams; and writes that take nothing."""
    (folder / "d.json").write_text(declarations())
    lines = [compact(line) for line in FIRST] + [compact(line) for _, _, line in LINES]
    few = [compact(FIRST[0]), QUESTIONS[0], QUESTIONS[0]]
    for which in INPUT, OUTPUT:
        stream(folder, page, f"{len(lines)} lines of all commands", lines, which, 37)
        for width in 1, 7:
            stream(folder, page, "a put and two gets", few, which, width, False)
    replaced(folder, None)
    run, _ = page.run(served(folder / "d.json", folder / "g.db"), few[0].encode() + b"\n", OUTPUT, 0, -1)
    if (run.returncode, run.stdout, run.stderr) != (4, b"", b"formd: write\n"):
        tell(f"writes that take nothing: {run}")


def odd_lines(folder, page):
    """Lines at the limit and beyond it, of no JSON and without an end, by narrow reads and by wide ones."""
    put, get = compact(FIRST[0]).encode(), QUESTIONS[0].encode()
    too_long, no_json = b'{"error":"C1","name":"LineTooLong"}\n', b'{"error":"C2","name":"NotJson"}\n'
    model = Model(json.loads(declarations()), {})
    none = compact(model.answer(QUESTIONS[0])).encode() + b"\n"
    taken = compact(model.answer(put.decode())).encode() + b"\n"
    there = compact(model.answer(QUESTIONS[0])).encode() + b"\n"
    at_limit = put + b" " * (1_048_576 - len(put))
    for name, text, wanted in (
        ("a line at the limit, one beyond it, no UTF-8 and no bytes", b"\n".join([at_limit, at_limit + b" ", b"\xff", b"", get]), taken + too_long + no_json + no_json + there),
        ("three mebibytes without an end", b"x" * 3_145_728, too_long),
        ("more than 2^22 reads", b"x" * 4_194_304 + b"\n" + get, too_long + none),
    ):
        for width in 1, 4_096, 0:
            replaced(folder, None)
            run, calls = page.run(served(folder / "d.json", folder / "g.db"), text, INPUT, 0, width)
            if (run.returncode, run.stdout, run.stderr) != (0, wanted, b""):
                tell(f"{name}, {width} bytes a read: status {run.returncode}, {run.stdout!r:.300}, {run.stderr!r:.200}")
            print(f"{name}, {width or 'any number of'} bytes a read: {calls} reads", flush=True)


def unread(folder, page):
    """The file of the declarations fails at each call, in three ways."""
    (folder / "d.json").write_text(declarations())
    for error, wanted in (errno.EIO, b"formd: cannot read declarations\n"), (errno.EISDIR, b"formd: cannot read declarations\n"), (errno.ENOMEM, b"formd: memory\n"):
        number = 0
        while True:
            number += 1
            replaced(folder, None)
            run, calls = page.run(served(folder / "d.json", folder / "g.db"), b"", DECLARATIONS, number, error)
            if calls < number:
                break
            if (run.returncode, run.stdout, run.stderr) not in ((4, b"", wanted), (0, b"", b"")):
                tell(f"declarations stopped at call {number} by {errno.errorcode[error]}: {run}")
            if number == 1 and run.returncode == 0:
                tell(f"declarations that can't be opened by {errno.errorcode[error]} are read")
        if number == 1:
            tell("the file of the declarations is never stopped")
        print(f"the file of the declarations stopped at each of {number - 1} calls by {errno.errorcode[error]}", flush=True)


def main():
    with tempfile.TemporaryDirectory(dir=ROOM) as name:
        folder = Path(name)
        page = Page(folder)
        disks(folder, page)
        streams(folder, page)
        odd_lines(folder, page)
        unread(folder, page)
    print(f"files and streams stopped: {looks.failed} lost")
    return 1 if looks.failed else 0


if __name__ == "__main__":
    sys.exit(main())
