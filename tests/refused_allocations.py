#!/usr/bin/env python3
"""Refuses each of formd's requests for memory in turn: those of each command, taken and refused, of its start, and of an opening that migrates;
and those of openings whose database is opened again by the same process.

    tests/refused_allocations.py                       the programs that `make` and `rt run` in crates/refused_calls leave
    tests/refused_allocations.py PROGRAM               another build of formd
    tests/refused_allocations.py PROGRAM CALLS         and of refused_calls
    tests/refused_allocations.py PROGRAM CALLS EACH    of the requests only the first, and of the others one in so many

A line is sent with one of its requests refused: the first, the second, and so on, until it asks for less. Its
reply has to be the one that it calls for, or the refusal for want of memory (C12), which changes nothing. Then
the same line is sent again, with nothing refused, and has to be answered as it calls for; and a get of every id
and a list have to show the records. The same where all requests from that one on are refused, until the reply is
there. What each line calls for is worked out here, by the declarations in force and a map from ids to records. So
over a database in memory, and over one in a file.

A run whose start has one request refused serves its lines, or ends with status 4 and `formd: memory`; the next
run, undisturbed, answers as ever. Where each request is refused, an export and what is explained of a database end so
too, behind some of their lines. The same over a file of version 1: behind each run it is of version 1 or of
version 2, with the same records, and a run that isn't disturbed finds them.

An opening by itself answers what it does undisturbed, or that memory was refused; then the same opening of the database that came back, with nothing refused, answers as ever,
and so does one by declarations that are taken.
"""

import itertools
import json
import mmap
import os
import select
import shutil
import sqlite3
import struct
import subprocess
import sys
import tempfile
from pathlib import Path

import looks
from looks import ROOM, ROOT, compact, named_program, tell

PROGRAM = named_program()
CALLS = Path(sys.argv[2] if len(sys.argv) > 2 else ROOT / "crates" / "refused_calls" / "out" / "refused_calls").resolve()
EACH = int(sys.argv[3]) if len(sys.argv) > 3 else 1
TURNS = itertools.count()
MEMORY = {"error": "C12", "name": "Memory"}
NO_DECLARATIONS = '{"types":{},"forms":{}}'
IDS = ("r1", "r2", "r3", "r9")


# Declarations and what they call for

TAG = "{{jakarta.validation.constraints.Null.message}} {nobody} must not be null"


def declarations(most=3, more=False, count=True, form="item"):
    """The demonstration's declarations with a message of parameters, groups, a sequence and a reference; a greatest size; a field more, and one less."""
    fields = {
        "name": {"type": "text", "constraints": [{"constraint": "NotNull"}, {"constraint": "Size", "with": {"min": 1, "max": most}}]},
        "next": {"type": {"ref": "Item"}, "valid": True},
        "tag": {"type": "text", "constraints": [{"constraint": "Tagged", "with": {"note": "{jakarta.validation.constraints.Null.message}"}, "groups": ["Tags"]}]},
    }
    if count:
        fields["count"] = {"type": "integer", "constraints": [{"constraint": "Min", "with": {"value": 1}}]}
    if more:
        fields["more"] = {"type": "text"}
    return json.dumps(
        {
            "types": {"Item": {"fields": fields}},
            "forms": {form: {"root": "Item"}},
            "groups": {"Tags": {}, "Both": {"sequence": ["Default", "Tags"]}},
            "constraints": {"Tagged": {"attributes": {"note": {"kind": "text"}}, "compose": [{"constraint": "NotNull"}], "single": True, "message": "{app.tag}"}},
            "messages": {"app.tag": "\\{{note}\\} {nobody} {jakarta.validation.constraints.NotNull.message}"},
        }
    )


def violation(constraint, message, occurrence, path, value):
    return {"constraint": constraint, "message": message, "occurrence": occurrence, "path": path, "value": value}


def field_violations(declared, field, value, group, before=""):
    """What a value violates in a field of an Item, in a group."""
    places, path = declared["types"]["Item"]["fields"], before + field
    first = 1 if "count" in places else 0
    found = []
    if group == "Default" and field == "count" and value is not None and value < 1:
        found.append(violation("Min", "must be greater than or equal to 1", 0, path, value))
    if group == "Default" and field == "name":
        most = places["name"]["constraints"][1]["with"]["max"]
        if value is None:
            found.append(violation("NotNull", "must not be null", first, path, None))
        elif not 1 <= len(value.encode("utf-16-le")) // 2 <= most:
            found.append(violation("Size", f"size must be between 1 and {most}", first + 1, path, value))
    if group == "Tags" and field == "tag" and value is None:
        found.append(violation("Tagged", TAG, first + 2, path, None))
    return found


def graph_violations(declared, objects, name, group, before="", way=()):
    """What the object of this name and those that it leads to violate in a group; none twice on one way."""
    fields, found = objects[name]["fields"], []
    for field in declared["types"]["Item"]["fields"]:
        found += field_violations(declared, field, fields.get(field), group, before)
    after = fields.get("next")
    if after is not None and after not in (*way, name):
        found += graph_violations(declared, objects, after, group, before + "next.", (*way, name))
    return found


def in_groups(groups, of_group):
    """What a request of these groups finds, each violation once, by path and number; of the sequence Both only what its first failing group finds."""
    found = []
    for group in groups or ["Default"]:
        if group == "Both":
            found += of_group("Default") or of_group("Tags")
        else:
            found += of_group(group)
    once = {(it["path"], it["occurrence"]): it for it in found}
    return [once[key] for key in sorted(once, key=lambda key: (key[0].encode(), key[1]))]


def record_violations(declared, record, groups=()):
    _, bundle = record
    return in_groups(groups, lambda group: graph_violations(declared, bundle["objects"], bundle["root"], group))


def listed(declared, records, keys):
    """Those of these records that have violations, by their ids."""
    found = [{"id": key, "violations": record_violations(declared, records[key])} for key in sorted(keys)]
    return [it for it in found if it["violations"]]


# What each line calls for

NO_RECORD = {"error": "C6", "name": "NoRecord"}


def is_wrong_kind(field, value):
    return value is not None and type(value) is not (int if field == "count" else str)


def bundle_fault(declared, bundle):
    """The first fault of a bundle whose objects are Items, if it has one: a field that isn't declared, a datum of another kind, a reference to nothing."""
    given = [(field, value) for made in bundle["objects"].values() for field, value in made["fields"].items()]
    if any(field not in declared["types"]["Item"]["fields"] for field, _ in given):
        return "B4"
    if any(is_wrong_kind(field, value) for field, value in given):
        return "B5"
    if any(field == "next" and value is not None and value not in bundle["objects"] for field, value in given):
        return "B6"
    return None


def refusal_of_part(declared, records, part):
    """The refusal of a put, a set or a remove before anything is judged, or the records behind it."""
    key = part["id"]
    if part["do"] == "put":
        if part["form"] not in declared["forms"]:
            return {"error": "C4", "name": "UnknownForm"}, records
        fault = bundle_fault(declared, part["bundle"])
        if fault:
            return {"error": "C5", "fault": fault, "name": "Bundle"}, records
        return None, {**records, key: (part["form"], part["bundle"])}
    if key not in records:
        return NO_RECORD, records
    if part["do"] == "remove":
        return None, {other: record for other, record in records.items() if other != key}
    form, bundle = records[key]
    if part["object"] not in bundle["objects"]:
        return {"error": "C5", "fault": "B10", "name": "Bundle"}, records
    made = bundle["objects"][part["object"]]
    made = {**made, "fields": {**made["fields"], part["field"]: part["value"]}}
    bundle = {**bundle, "objects": {**bundle["objects"], part["object"]: made}}
    fault = bundle_fault(declared, bundle)
    if fault:
        return {"error": "C5", "fault": fault, "name": "Bundle"}, records
    return None, {**records, key: (form, bundle)}


def changed(declared, records, command):
    """The reply to a put, a set, a remove or a batch, and the records behind it."""
    after = records
    for number, part in enumerate(command.get("parts", [command])):
        refusal, after = refusal_of_part(declared, after, part)
        if refusal:
            return ({**refusal, "part": number} if "parts" in command else refusal), records
    touched = {part["id"] for part in command.get("parts", [command])} & set(after)
    found = listed(declared, after, touched)
    if found:
        return {"error": "C10", "name": "Violations", "records": found}, records
    return {"ok": command["do"]}, after


def redeclared(declared, records, text):
    """The reply that a redeclare calls for, and the declarations in force behind it."""
    try:
        given = json.loads(text)
    except ValueError:
        return {"error": "C13", "fault": "F1", "name": "Declarations"}, declared
    if not isinstance(given, dict):
        return {"error": "C13", "fault": "F2", "name": "Declarations"}, declared
    for key in sorted(records):
        form, bundle = records[key]
        fault = "C4" if form not in given["forms"] else bundle_fault(given, bundle)
        if fault:
            return {"error": "C14", "fault": fault, "id": key, "name": "Unfit"}, declared
    found = listed(given, records, records)
    if found:
        return {"error": "C10", "name": "Violations", "records": found}, declared
    return {"ok": "redeclare"}, given


def without_nulls(bundle):
    objects = {name: {**made, "fields": {field: value for field, value in made["fields"].items() if value is not None}} for name, made in bundle["objects"].items()}
    return {**bundle, "objects": objects}


def asked(declared, records, command):
    """The reply to a command that changes nothing."""
    do, groups = command["do"], command.get("groups", ())
    known = {"Default", *declared["groups"]}
    if do == "list":
        if command["form"] not in declared["forms"]:
            return {"error": "C4", "name": "UnknownForm"}
        after, limit = command.get("after", ""), command.get("limit", 100)
        return {"ids": [key for key in sorted(records) if records[key][0] == command["form"] and key > after][:limit], "ok": "list"}
    if do == "checkvalue":
        is_there = command["type"] == "Item" and command["field"] in declared["types"]["Item"]["fields"]
        if is_there and is_wrong_kind(command["field"], command["value"]):
            return {"error": "C5", "fault": "B5", "name": "Bundle"}
    elif command["id"] not in records:
        return NO_RECORD
    if do == "get":
        form, bundle = records[command["id"]]
        return {"bundle": without_nulls(bundle), "form": form, "id": command["id"], "ok": "get"}
    if not set(groups) <= known:
        return {"error": "C7", "name": "UnknownGroup"}
    if do == "check":
        return {"ok": do, "violations": record_violations(declared, records[command["id"]], groups)}
    if do == "checkfield":
        made = records[command["id"]][1]["objects"].get(command["object"])
        is_there = made is not None and command["field"] in declared["types"]["Item"]["fields"]
    if not is_there:
        return {"error": "C8", "name": "NoSuchField"}
    value = command["value"] if do == "checkvalue" else made["fields"].get(command["field"])
    return {"ok": do, "violations": in_groups(groups, lambda group: field_violations(declared, command["field"], value, group))}


class Model:
    """The declarations in force and the records."""

    def __init__(self, declared, records):
        self.declared, self.records = declared, records

    def answer(self, line):
        """The reply that a line calls for; what it changes is changed."""
        if len(line) > 1048576:
            return {"error": "C1", "name": "LineTooLong"}
        try:
            command = json.loads(line)
        except ValueError:
            return {"error": "C2", "name": "NotJson"}
        do = command.get("do") if isinstance(command, dict) else None
        if do in ("put", "set", "remove", "batch"):
            reply, self.records = changed(self.declared, self.records, command)
            return reply
        if do == "redeclare":
            reply, self.declared = redeclared(self.declared, self.records, command["text"])
            return reply
        if do in ("get", "list", "check", "checkfield", "checkvalue"):
            return asked(self.declared, self.records, command)
        return {"error": "C3", "name": "Shape"}


# The lines

def item(**fields):
    return {"type": "Item", "fields": fields}


def put(key, root, form="item", **objects):
    return {"do": "put", "id": key, "form": form, "bundle": {"root": root, "objects": objects}}


def change(key, name, field, value):
    return {"do": "set", "id": key, "object": name, "field": field, "value": value}


def redeclare(text):
    return {"do": "redeclare", "text": text}


# What is stored before each line: a record of one object, and one of three that refer to one another.
FIRST = [put("r1", "a", a=item(count=1, name="abc")), put("r3", "b", a=item(name="x", next="b"), b=item(count=7, name="\u00e9", next="c"), c=item(name="c", tag="t", next="a"))]
# Lines of each command that are taken, and lines that are refused, with what they are answered: `ok` or a code.
LINES = [
    ("put", "ok", put("r2", "a", a=item(count=2, name="ab", next="b"), b=item(name="z"))),
    ("put", "ok", put("r3", "c", a=item(count=3, name="a"), c=item(count=1, name="c", next="a"))),
    ("put", "C10", put("r1", "a", a=item(count=0, name="\U0001f600bc", next="b"), b=item())),
    ("put", "C5", put("r2", "a", a=item(count=1.5, name="a"))),
    ("put", "C4", put("r2", "a", "other", a=item(name="a"))),
    ("set", "ok", change("r3", "b", "name", "b")),
    ("set", "C10", change("r3", "a", "name", "abcd")),
    ("set", "C5", change("r3", "z", "name", "a")),
    ("set", "C6", change("r9", "a", "name", "a")),
    ("remove", "ok", {"do": "remove", "id": "r3"}),
    ("remove", "C6", {"do": "remove", "id": "r9"}),
    ("batch", "ok", {"do": "batch", "parts": [put("r2", "a", a=item(name="abcd")), change("r2", "a", "name", "abc"), {"do": "remove", "id": "r3"}]}),
    ("batch", "C6", {"do": "batch", "parts": [put("r2", "a", a=item(name="abcd")), change("r2", "a", "name", "abc"), {"do": "remove", "id": "r9"}]}),
    ("batch", "C10", {"do": "batch", "parts": [put("r2", "a", a=item(name="abcd")), change("r1", "a", "count", 0)]}),
    ("get", "ok", {"do": "get", "id": "r3"}),
    ("get", "C6", {"do": "get", "id": "r9"}),
    ("list", "ok", {"do": "list", "form": "item"}),
    ("list", "C4", {"do": "list", "form": "other"}),
    ("check", "ok", {"do": "check", "id": "r3", "groups": ["Default", "Tags"]}),
    ("check", "ok", {"do": "check", "id": "r3", "groups": ["Both"]}),
    ("check", "C7", {"do": "check", "id": "r3", "groups": ["Nobody"]}),
    ("checkfield", "ok", {"do": "checkfield", "id": "r1", "object": "a", "field": "tag", "groups": ["Tags"]}),
    ("checkfield", "C8", {"do": "checkfield", "id": "r1", "object": "a", "field": "zz"}),
    ("checkvalue", "ok", {"do": "checkvalue", "type": "Item", "field": "tag", "value": None, "groups": ["Both"]}),
    ("checkvalue", "C5", {"do": "checkvalue", "type": "Item", "field": "count", "value": "1"}),
    ("redeclare", "ok", redeclare(declarations(4, more=True))),
    ("redeclare", "C13", redeclare("[]")),
    ("redeclare", "C14", redeclare(declarations(count=False))),
    ("redeclare", "C14", redeclare(declarations(form="thing"))),
    ("redeclare", "C10", redeclare(declarations(2))),
]
# Lines that are no command's.
ODD = [("no command", "C1", " " * 1048577), ("no command", "C2", "{"), ("no command", "C3", '{"do":"none"}')]


def numbers():
    """The numbers of the requests that are refused, one a run: each, or the first and then one in so many, from another one on each time."""
    yield 1
    yield from itertools.count(2 + 7 * next(TURNS) % EACH, EACH)


class Page:
    """The four numbers that the library and this script share."""

    def __init__(self, folder):
        self.file, self.library = folder / "page", folder / "refuse.so"
        self.file.write_bytes(bytes(32))
        with open(self.file, "r+b") as file:
            self.numbers = mmap.mmap(file.fileno(), 32)
        subprocess.run(["gcc", "-O1", "-shared", "-fPIC", "-o", self.library, ROOT / "tests" / "refuse.c"], check=True)
        self.environment = {**os.environ, "LD_PRELOAD": str(self.library), "REFUSE_PAGE": str(self.file)}

    def refuse(self, number, is_last=True):
        """Of the requests from now on that of this number is refused, none where it is 0, and where it isn't the last one all behind it."""
        self.numbers[:] = struct.pack("QQQQ", number, number if is_last else 2**63, 0, 0)

    def was_refused(self):
        return struct.unpack("QQQQ", self.numbers[:])[3] > 0


class Service:
    """A run of the program, asked a line at a time."""

    def __init__(self, page, words):
        self.page = page
        page.refuse(0)
        self.formd = subprocess.Popen([PROGRAM, *words], stdin=subprocess.PIPE, stdout=subprocess.PIPE, env=page.environment)

    def ask(self, line, refused=0, is_last=True):
        """The reply to a line, of which one request for memory is refused, or all from one on, and whether one was."""
        self.page.refuse(refused, is_last)
        self.formd.stdin.write(line.encode() + b"\n")
        self.formd.stdin.flush()
        if not select.select([self.formd.stdout], [], [], 60)[0]:
            sys.exit(f"{line:.200}, request {refused}: no reply in a minute")
        reply = self.formd.stdout.readline().decode()
        was = self.page.was_refused()
        self.page.refuse(0)
        if not reply.endswith("\n"):
            sys.exit(f"{line:.200}, request {refused}: no reply, and status {self.formd.wait()}")
        return reply[:-1], was

    def end(self):
        self.formd.stdin.close()
        if self.formd.wait() != 0:
            sys.exit("formd has failed")


def agree(service, model, line, name):
    """A line that isn't disturbed is answered as it calls for."""
    reply, _ = service.ask(line)
    wanted = compact(model.answer(line))
    if reply != wanted:
        tell(f"{name}: {line:.300}: {reply:.300} and not {wanted:.300}")
    return reply == wanted


def one_line(service, model, name, line, is_last):
    """Refuses each request of a line in turn, or all from it on: how many there were, and how many of the replies were C12."""
    declared, records = model.declared, model.records
    questions = [compact({"do": "get", "id": key}) for key in IDS] + [compact({"do": "list", "form": form}) for form in ("item", "thing")]
    refused = wants = 0
    for number in numbers():
        reply, was = service.ask(line, number, is_last)
        at = f"{name}, request {number}"
        if was and reply == compact(MEMORY):
            wants += 1
        else:
            wanted = compact(model.answer(line))
            if reply != wanted:
                tell(f"{at}: {line:.300}: {reply:.300} and not {wanted:.300}")
        for each in [line, *questions]:
            agree(service, model, each, at)
        if model.declared != declared:
            agree(service, model, compact(redeclare(json.dumps(declared))), at)
        parts = [{"do": "remove", "id": key} for key in model.records if key not in records]
        parts += [{"do": "put", "id": key, "form": form, "bundle": bundle} for key, (form, bundle) in records.items() if model.records.get(key) != (form, bundle)]
        if parts:
            agree(service, model, compact({"do": "batch", "parts": parts}), at)
        if (model.declared, model.records) != (declared, records):
            sys.exit(f"{at}: what was there before isn't there again")
        if not was:
            return refused, wants
        refused += 1


def commands(folder, page):
    """Each line over a database in memory and over one in a file: figures for each command."""
    (folder / "d.json").write_text(declarations())
    for store, words in ("in memory", []), ("in a file", served(folder / "d.json", folder / "g.db")):
        service, model, figures = Service(page, words), Model(json.loads(declarations()), {}), {}
        agree(service, Model(model.declared, {}), compact(redeclare(declarations())), "the first declarations")
        for line in FIRST:
            agree(service, model, compact(line), "the first records")
        for name, code, line in LINES + ODD:
            text = line if isinstance(line, str) else compact(line)
            wanted = Model(model.declared, model.records).answer(text)
            if code != wanted.get("error", "ok"):
                sys.exit(f"{name}: {wanted} isn't {code}")
            for is_last in True, False:
                before = looks.failed
                found = one_line(service, model, f"{name} {code}, {store}", text, is_last)
                figures.setdefault((name, is_last), []).append((*found, looks.failed - before))
        service.end()
        for (name, is_last), found in figures.items():
            refused, wants, bad = map(sum, zip(*found))
            if not refused and name != "no command":
                tell(f"{name}, {store}: no request was refused")
            how = "each refused in its turn" if is_last else "each with all behind it"
            print(f"{name}, {store}: {refused} requests for memory, {how}, {wants} of them answered C12; {bad} lost", flush=True)


# The start

def served(declared, file):
    return ["serve", "--declarations", declared, "--database", file, "--now", "0"]


def runs(page, words, lines, before=lambda: None):
    """Runs with one request refused, the first, the second and so on, up to one that asks for less: the number of each, and the run."""
    for number in numbers():
        before()
        page.refuse(number)
        run = subprocess.run([PROGRAM, *words], input=lines, capture_output=True, env=page.environment, timeout=60)
        was = page.was_refused()
        yield number, run
        if not was:
            break


def read(page, name, words, wanted):
    """Words that only read, with each request refused: the run ends as it does undisturbed, or for want of memory, behind some of its lines."""
    early = last = bad = 0
    for number, run in runs(page, words, b""):
        if (run.returncode, run.stderr) == (4, b"formd: memory\n") and is_front(run.stdout, wanted[1]):
            early += 1
        elif (run.returncode, run.stdout, run.stderr) != wanted:
            bad += 1
            tell(f"{name}, request {number}: {run}")
        last += 1
    if last == 1:
        tell(f"{name}: no request was refused")
    print(f"{name}, read: {last - 1} requests for memory, each refused in its turn, {early} ended with status 4; {bad} lost", flush=True)


def is_front(text, whole):
    """Whether a text is lines with which another begins, not all of them."""
    return not text or text.endswith(b"\n") and text != whole and whole.startswith(text)


def databases(folder, page, kept):
    """What is in force in a database, that over which other declarations are told, and its export, each with a request refused."""
    lines = [redeclare(declarations()), *FIRST]
    exported = "".join(compact(line) + "\n" for line in lines).encode()
    read(page, "an export", ["export", "--database", kept], (0, exported, b""))
    for words in ["--database", kept, "--text"], [folder / "d.json", "--over-database", kept]:
        whole = subprocess.run([PROGRAM, "explain", *words], capture_output=True, timeout=60).stdout
        read(page, f"explain {' '.join(map(str, words)).replace(f'{folder}/', '')}", ["explain", *words], (0, whole, b""))


def found_in(run, wanted):
    """Whether a run ended for want of memory before its first line, how many of its replies are C12, and whether all others, but for one, are as wanted."""
    if (run.returncode, run.stdout, run.stderr) == (4, b"", b"formd: memory\n"):
        return True, 0, True
    replies = run.stdout.decode().splitlines()
    wants = replies.count(compact(MEMORY))
    right = (run.returncode, run.stderr, len(replies)) == (0, b"", len(wanted)) and wants < 2 and all(reply in (it, compact(MEMORY)) for reply, it in zip(replies, wanted))
    return False, wants, right


def starts(folder, page):
    """Declarations that are read, an empty file that is made a database, and one that is opened, each with a request refused."""
    given, none, kept, file = folder / "d.json", folder / "none.json", folder / "kept.db", folder / "g2.db"
    given.write_text(declarations())
    none.write_text(NO_DECLARATIONS)
    read(page, f"declarations of {given.name}", ["declarations", given], (0, b"ok\n", b""))
    ring = folder / "ring.json"
    ring.write_text(json.dumps({**json.loads(declarations()), "messages": {"p": "{q}", "q": "{p}"}}))
    read(page, f"declarations of {ring.name}", ["declarations", ring], (3, b"", b"formd: declarations refused: F20 MessageCycle\n"))
    model = Model(json.loads(declarations()), {})
    made = [compact(line) for line in FIRST]
    filled = "".join(compact(model.answer(line)) + "\n" for line in made)
    lines = [compact({"do": "get", "id": key}) for key in IDS] + [compact({"do": "list", "form": "item"})]
    shown = [compact(model.answer(line)) for line in lines]
    run = subprocess.run([PROGRAM, *served(given, kept)], input="".join(line + "\n" for line in made), capture_output=True, text=True)
    if (run.returncode, run.stdout) != (0, filled):
        sys.exit(f"the first records aren't made: {run}")
    if EACH == 1:
        databases(folder, page, kept)

    def over(name, declared, questions, wanted, source):
        def before():
            for left in folder.glob("g2.db*"):
                left.unlink()
            if source:
                for it in folder.glob("kept.db*"):
                    shutil.copy(it, folder / it.name.replace("kept", "g2"))

        words, text = served(declared, file), "".join(line + "\n" for line in questions).encode()
        early = shown = last = bad = 0
        for number, run in runs(page, words, text, before):
            last += 1
            never, wants, right = found_in(run, wanted)
            early, shown = early + never, shown + wants
            if not right:
                bad += 1
                tell(f"{name}, request {number}: {run}")
            again = subprocess.run([PROGRAM, *words], input=text, capture_output=True, timeout=60)
            if (again.returncode, again.stderr, again.stdout.decode().splitlines()) != (0, b"", wanted):
                bad += 1
                tell(f"{name}, request {number}, once more: {again}")
        if last == 1:
            tell(f"{name}: no request was refused")
        print(f"{name}: {last - 1} requests for memory, each refused in its turn, {early} ended with status 4, {shown} had one reply C12; {bad} lost")

    over("an empty file, opened", given, [compact({"do": "list", "form": "item"})], [compact({"ids": [], "ok": "list"})], False)
    over("a file with records, opened", none, lines, shown, True)


def judged(folder, page):
    """A line of each command, and lines that are none, judged without a record, with each request refused: one line is C12, or the judge never begins; then undisturbed."""
    (folder / "d.json").write_text(declarations())
    texts = [line if isinstance(line, str) else compact(line) for line in {name: line for name, _, line in reversed(LINES)}.values()] + [text for *_, text in ODD]
    wanted = [compact(Model(json.loads(declarations()), {}).answer(text)) for text in texts]
    words, lines = ["judge", "--declarations", folder / "d.json", "--now", "0"], "".join(text + "\n" for text in texts).encode()
    early = shown = last = bad = 0
    for number, run in runs(page, words, lines):
        last += 1
        never, wants, right = found_in(run, wanted)
        early, shown = early + never, shown + wants
        if not right:
            bad += 1
            tell(f"a judge, request {number}: {run}")
    again = subprocess.run([PROGRAM, *words], input=lines, capture_output=True, timeout=60)
    if found_in(again, wanted) != (False, 0, True) or not early or not shown:
        bad += 1
        tell(f"a judge: {early} ended with status 4, {shown} had one reply C12; undisturbed: {again}")
    print(f"{len(texts)} lines judged: {last - 1} requests for memory, each refused in its turn, {early} ended with status 4, {shown} had one reply C12; {bad} lost")


def rehearsed(folder, page):
    """A redeclare of declarations with a fault, rehearsed with each request refused: want of memory is told by no words, the fault by the words of its place, if there is memory for them."""
    (folder / "d.json").write_text(declarations())
    line = compact(redeclare(json.dumps({"types": {}, "forms": {"f": {"root": "T"}}}))).encode() + b"\n"
    fault = b'{"error":"C13","fault":"F4","name":"Declarations"}\n'
    words = b'line 1: C13 Declarations F4: text: forms.f.root: type "T" isn\'t declared\n'
    last = wants = told = bad = 0
    for number, run in runs(page, ["rehearse", "--declarations", folder / "d.json", "--now", "0"], line):
        found = (run.returncode, run.stdout, run.stderr)
        wants += run.stdout == compact(MEMORY).encode() + b"\n"
        told += run.stderr == words
        may_be = [(0, fault, words), (0, fault, b""), (0, compact(MEMORY).encode() + b"\n", b""), (4, b"", b"formd: memory\n")]
        if found not in may_be:
            bad += 1
            tell(f"a rehearsal, request {number}: {run}")
        last += 1
    # (so few requests are behind the reading that one in so many may be none of them)
    if not told or EACH == 1 and not wants:
        tell(f"a rehearsal: {told} told in words, {wants} refused for want of memory")
    print(f"a redeclare rehearsed: {last - 1} requests for memory, each refused in its turn, {wants} replies C12 without a word, {told} told in words; {bad} lost")


# A file of version 1

# The tables of version 1, with records of one object and of more.
FIRST_TABLES = """
CREATE TABLE about (one INTEGER PRIMARY KEY CHECK (one = 1), version INTEGER NOT NULL, declarations BLOB NOT NULL);
CREATE TABLE record (id TEXT NOT NULL PRIMARY KEY, form TEXT NOT NULL, bundle TEXT NOT NULL);
"""
FIRST_BUNDLES = {
    "r1": '{"objects":{"a":{"fields":{"count":1,"name":"abc"},"type":"Item"}},"root":"a"}',
    "r2": '{"objects":{"a":{"fields":{"name":"\u00e9"},"type":"Item"},"b":{"fields":{},"type":"Item"},"c":{"fields":{"count":-1},"type":"Item"}},"root":"b"}',
    "r3": '{"objects":{"a":{"fields":{"name":"' + "x" * 6000 + '"},"type":"Item"}},"root":"a"}',
}
ROWS = {
    1: "SELECT id, form, bundle FROM record ORDER BY id",
    2: "SELECT id, form, root, name, kind, fields FROM record LEFT JOIN object ON rec = id ORDER BY id, name",
}


def first_file(file):
    """Makes a file of version 1, in the place of one that is there."""
    for left in file.parent.glob(f"{file.name}*"):
        left.unlink()
    base = sqlite3.connect(file)
    base.executescript(FIRST_TABLES)
    base.execute("INSERT INTO about VALUES (1, 1, ?)", (declarations(3).encode(),))
    base.executemany("INSERT INTO record VALUES (?, 'item', ?)", FIRST_BUNDLES.items())
    base.commit()
    base.close()


def version_of(file):
    """The version of a file, whose rows have to be those of the records: SQLite looks at a copy of it and its log."""
    with tempfile.TemporaryDirectory() as room:
        for name in (file.name, f"{file.name}-wal"):
            if (file.parent / name).exists():
                shutil.copy(file.parent / name, Path(room) / name)
        base = sqlite3.connect(Path(room) / file.name)
        ((version, text),) = base.execute("SELECT version, declarations FROM about")
        found = base.execute(ROWS[version]).fetchall()
        base.close()
    made = {key: json.loads(bundle) for key, bundle in FIRST_BUNDLES.items()}
    first = [(key, "item", bundle) for key, bundle in FIRST_BUNDLES.items()]
    second = [
        (key, "item", bundle["root"], name, thing["type"], json.dumps(thing["fields"], separators=(",", ":"), ensure_ascii=False))
        for key, bundle in made.items()
        for name, thing in bundle["objects"].items()
    ]
    if text != declarations(3).encode() or found != (first if version == 1 else second):
        sys.exit(f"version {version}: {found}")
    return version


def migration(folder, page):
    """An opening that migrates, and a get of each record behind it."""
    file = folder / "first.db"
    (folder / "d.json").write_text(NO_DECLARATIONS)
    words = served(folder / "d.json", file)
    lines = "".join(f'{{"do":"get","id":"{key}"}}\n' for key in FIRST_BUNDLES).encode()
    wanted = [{"ok": "get", "id": key, "form": "item", "bundle": json.loads(bundle)} for key, bundle in FIRST_BUNDLES.items()]
    last, versions, early, shown = 0, {1: 0, 2: 0}, 0, 0
    for number, run in runs(page, words, lines, lambda: first_file(file)):
        if run.returncode == 4 and (run.stdout, run.stderr) == (b"", b"formd: memory\n"):
            early += 1
        else:
            replies = [json.loads(line) for line in run.stdout.decode().splitlines()]
            wants = [reply == MEMORY for reply in replies]
            if run.returncode != 0 or sum(wants) > 1 or any(not want and reply != right for want, reply, right in zip(wants, replies, wanted, strict=True)):
                sys.exit(f"request {number} of a migration: status {run.returncode} with {run.stderr!r}, {replies}")
            shown += sum(wants)
        version = version_of(file)
        if version == 1 and run.returncode == 0:
            sys.exit(f"request {number} of a migration: replies over version 1")
        versions[version] += 1
        again = subprocess.run([PROGRAM, *words], input=lines, capture_output=True, timeout=60)
        if again.returncode != 0 or [json.loads(line) for line in again.stdout.decode().splitlines()] != wanted or version_of(file) != 2:
            sys.exit(f"request {number} of a migration: opened again, status {again.returncode} with {again.stderr!r}, {again.stdout!r}")
        last += 1
    if last == 1:
        tell("a migration: no request was refused")
    print(f"{last - 1} requests for memory under a migration, each refused in its turn: {early} runs ended with status 4, {shown} had one reply C12; "
          f"version 1 behind {versions[1]}, version 2 behind {versions[2] - 1}, and each opened to the same records")


# Openings by themselves

def shown(model):
    """A get of each record, a list, and a checkvalue of a field that only some declarations have, on one line."""
    questions = [{"do": "get", "id": key} for key in ("r1", "r2", "r3")] + [{"do": "list", "form": "item"}, {"do": "checkvalue", "type": "Item", "field": "more", "value": None}]
    return " ".join(compact(model.answer(compact(line))) for line in questions)


def openings():
    """What each opening answers by itself: what tells it, also when it is made again, what an opening behind both tells, and what tells instead that memory was refused."""
    stored = Model(json.loads(declarations()), {})
    stored.answer(compact(FIRST[0]))
    stored.answer(compact(put("r3", "a", **FIRST[1]["bundle"]["objects"])))
    empty, before = (f"opened {shown(model)}" for model in (Model(stored.declared, {}), stored))
    # (the tables that a refused opening leaves)
    first, second = "about record", "about object record"
    return [
        ("an empty database", empty, empty, ["Memory"]),
        ("one with records", before, before, [f"Memory {second}"]),
        ("one of version 1", before, before, [f"Memory {first}", f"Memory {second}"]),
        ("one of version 3", f"Store {first}", f"Store {first}", [f"Memory {first}"]),
        ("one with records, for declarations that are refused", f"Declarations {second}", before, [f"Memory {second}"]),
        ("one of version 1, for declarations that are refused", f"Declarations {first}", before, [f"Memory {first}"]),
    ]


class Calls:
    """A run of the program of the openings."""

    def __init__(self, page):
        self.page = page
        page.refuse(0)
        self.run = subprocess.Popen([CALLS], stdin=subprocess.PIPE, stdout=subprocess.PIPE, env=page.environment)

    def say(self, line, count):
        """Gives it a line, and takes so many."""
        self.run.stdin.write(line.encode() + b"\n")
        self.run.stdin.flush()
        if not select.select([self.run.stdout], [], [], 60)[0]:
            sys.exit(f"{line!r}: no answer in a minute")
        return [self.run.stdout.readline().decode().rstrip("\n") for _ in range(count)]

    def make(self, name, count, refused):
        """The lines that tell the answers, where one request of the opening is refused, and whether one was."""
        if self.say(name, 1) != ["ready"]:
            sys.exit(f"{name}, request {refused}: not ready")
        self.page.refuse(refused)
        if self.say("", 1) != ["made"]:
            sys.exit(f"{name}, request {refused}: not made, and status {self.run.wait()}")
        was = self.page.was_refused()
        self.page.refuse(0)
        return self.say("", count), was

    def end(self):
        self.run.stdin.close()
        if self.run.wait() != 0:
            sys.exit(f"{CALLS} has failed")


def by_themselves(page):
    """Each opening with each of its requests refused in turn."""
    program = Calls(page)
    for which, (name, wanted, behind, memory) in enumerate(openings()):
        refused, wants, before = 0, 0, looks.failed
        for number in numbers():
            (first, *rest), was = program.make(str(which), 3, number)
            if rest != [wanted, behind] or first not in ([wanted, *memory] if was else [wanted]):
                tell(f"{name}, request {number}: {first:.300} and then {rest!r:.600}, not {wanted:.300}")
            wants += first in memory
            if not was:
                break
            refused += 1
        if not refused:
            tell(f"{name}: none of its requests was refused")
        print(f"{name}, opened by itself: {refused} requests for memory, each refused in its turn, {wants} of them answered so; {looks.failed - before} lost", flush=True)
    program.end()


def main():
    if not CALLS.is_file():
        sys.exit(f"{CALLS} isn't there: make it by `rt run` in crates/refused_calls")
    with tempfile.TemporaryDirectory(dir=ROOM) as name:
        folder = Path(name)
        page = Page(folder)
        by_themselves(page)
        commands(folder, page)
        starts(folder, page)
        judged(folder, page)
        rehearsed(folder, page)
        migration(folder, page)
    print(f"requests for memory refused: {looks.failed} lost")
    return 1 if looks.failed else 0


if __name__ == "__main__":
    sys.exit(main())
