#!/usr/bin/env python3
"""Makes the mistakes in command lines that a person makes, and looks where `formd rehearse` says that they are.

    tests/rehearsal.py            with the program that `make` leaves
    tests/rehearsal.py PROGRAM    with another build of formd

Each mistake is a line, the code of its reply, and the words that stand on standard error for it, written by hand. A line without a mistake
stands between them and has no words. The replies have to be those of `formd serve` over an empty database, byte for byte.
"""

import json
import subprocess
import sys
import tempfile
from pathlib import Path

from looks import end, look, named_program

PROGRAM = named_program()


def field(kind, **more):
    return {"type": kind, **more}


VISIT = {
    "age": field("integer"),
    "at": field("instant"),
    "day": field("date"),
    "guests": field({"list": {"type": {"ref": "Person"}, "valid": True}}),
    "host": field({"ref": "Person"}),
    "name": field("text"),
    "note": field({"optional": {"type": "text"}}),
    "ok": field("boolean"),
    "rent": field("decimal"),
    "rooms": field({"map": {"type": "integer"}}),
    "tags": field({"list": {"type": "text"}}),
}
PERSON = {"knows": field({"list": {"type": {"ref": "Person"}, "valid": True}}), "name": field("text")}
TYPES = {"Visit": {"fields": VISIT}, "Person": {"fields": PERSON}}
FORMS = {"visit": {"root": "Visit"}, "person": {"root": "Person"}}
DECLARATIONS = {"types": TYPES, "forms": FORMS}
FIELDS = "age, at, day, guests, host, name, note, ok, rent, rooms, tags"
DECIMAL = 'a decimal in quotes, as "-12.50", with 18 digits before the point and 9 behind it at most, no plus sign and no leading zeros'
WHOLE = "a whole number of 64 bits, without quotes"
ID = "id: an id is a text of 1 to 64 ASCII letters, digits, _ and -"
SET = {"do": "set", "id": "v1", "object": "v"}
COMMANDS = "put, set, remove, batch, check, checkfield, checkvalue, get, list and redeclare"


def line_of(**members):
    return json.dumps(members, separators=(",", ":"), ensure_ascii=False)


def put(objects, root="v", form="visit", key="v1"):
    return line_of(do="put", id=key, form=form, bundle={"root": root, "objects": objects})


def visit(**fields):
    return put({"v": {"type": "Visit", "fields": fields}})


def written(name, text):
    """A put whose field is written by hand."""
    return '{"do":"put","id":"v1","form":"visit","bundle":{"root":"v","objects":{"v":{"type":"Visit","fields":{"%s":%s}}}}}' % (name, text)


def redeclare(**declarations):
    return line_of(do="redeclare", text=json.dumps(declarations))


def circle(count):
    names = [f"p{number}" for number in range(count)]
    return {name: {"type": "Person", "fields": {"knows": [other for other in names if other != name]}} for name in names}


def odd(name, text, wanted, shown=None):
    return written(name, text), "C5", f'C5 Bundle B5: object "v", field "{name}": {shown or text} should be {wanted}'


BROKEN = '{"do":"get","id":"v1",}'
BARE = '{"do":"get","id":v1}'
LONG = "x" * 65537
# A line, the code of its reply (or ok), and its words behind "line N: ", if it has any.
MISTAKES = [
    (visit(name="Ada", tags=["a", "b"]), "ok", None),
    # No JSON.
    ("", "C2", "C2 NotJson: an empty line"),
    ('{"do":"put","id":"v1",', "C2", "C2 NotJson: the line ends before its JSON does"),
    ("{'do':'get'}", "C2", "C2 NotJson: no JSON can go on at column 2"),
    (BROKEN, "C2", f"C2 NotJson: no JSON can go on at column {len(BROKEN)}"),
    (BARE, "C2", f"C2 NotJson: no JSON can go on at column {BARE.index('v1') + 1}"),
    # A byte that no UTF-8 has; what stands before it is no JSON, too.
    ('{"do":"get","id":v\udcff', "C2", "C2 NotJson: no UTF-8 at column 19"),
    # No command.
    ("[]", "C3", "C3 Shape: a command is an object"),
    (line_of(id="v1"), "C3", 'C3 Shape: the member "do" is missing'),
    (line_of(do="delete", id="v1"), "C3", f'C3 Shape: do: no command "delete"; there are {COMMANDS}'),
    (line_of(do="get"), "C3", 'C3 Shape: the member "id" of get is missing'),
    (line_of(do="get", id="visit 1"), "C3", f"C3 Shape: {ID}"),
    (line_of(do="get", id=7), "C3", f"C3 Shape: {ID}"),
    (line_of(do="put", id="v1", from_="visit", bundle={}).replace("from_", "from"), "C3", 'C3 Shape: from: unknown member "from"; put has id, form, bundle'),
    (line_of(do="put", id="v1", form="visit", bundle={"objects": {}}), "C3", 'C3 Shape: bundle: the member "root" is missing'),
    (line_of(do="put", id="v1", form="visit", bundle={"name": "Ada"}), "C3", 'C3 Shape: bundle.name: unknown member "name"; a bundle has root and objects'),
    (put({"v": {"fields": {}}}), "C3", 'C3 Shape: bundle.objects, object "v": the member "type" is missing'),
    (put({"v": {"type": "Visit", "name": "Ada"}}), "C3", 'C3 Shape: bundle.objects, object "v": name: unknown member "name"; an object has type and fields'),
    (line_of(do="set", id="v1", object="v", field="name"), "C3", 'C3 Shape: the member "value" of set is missing'),
    (line_of(do="list", form="visit", limit=0), "C3", "C3 Shape: limit: not a whole number from 1 to 1000"),
    (line_of(do="check", id="v1", groups="Default"), "C3", "C3 Shape: groups: not an array of texts"),
    (line_of(do="check", id="v1", groups=["Default", 5]), "C3", "C3 Shape: groups[1]: not a text"),
    (line_of(do="check", id="v1", groups=["Default"] * 33), "C3", "C3 Shape: groups: more than 32 groups"),
    # What has no business there is told first, whatever `do` says; beside a `do` that knows no command, that is what no command has.
    (line_of(do="delete", record="v1"), "C3", f'C3 Shape: record: unknown member "record"; the commands, by their member "do", are {COMMANDS}'),
    (line_of(do="get", id=7, form="visit"), "C3", 'C3 Shape: form: unknown member "form"; get has id'),
    (line_of(do="put", id="v1", form="visit", bundle={"root": 7, "objects": []}), "C3", "C3 Shape: bundle.root: not a text; it is the name of an object"),
    (line_of(do="put", id="v1", form="visit", bundle={"root": "v", "objects": []}), "C3", "C3 Shape: bundle.objects: not an object; it has each object by its name"),
    (put({"v": {"type": "Visit", "fields": []}}), "C3", 'C3 Shape: bundle.objects, object "v": the member "fields" is no object'),
    (line_of(do="batch", parts=[]), "C3", "C3 Shape: parts: a batch has 1 to 64 parts"),
    (line_of(do="batch", parts=[{"do": "remove", "id": "v1"}, {"do": "get", "id": "v1"}]), "C3", "C3 Shape: parts[1]: do: a part is a put, a set or a remove"),
    (line_of(do="batch", parts=[{"do": "remove", "id": "v1"}, {"do": "remove", "ID": "v1"}]), "C3", 'C3 Shape: parts[1]: ID: unknown member "ID"; remove has id'),
    (line_of(do="batch", parts=[{"do": "remove"}]), "C3", 'C3 Shape: parts[0]: the member "id" of remove is missing'),
    # No such form, record or group.
    (put({"v": {"type": "Visit"}}, form="vist"), "C4", 'C4 UnknownForm: form: no form "vist" is declared; there are person, visit'),
    (line_of(do="list", form="visits"), "C4", 'C4 UnknownForm: form: no form "visits" is declared; there are person, visit'),
    (
        line_of(do="batch", parts=[{"do": "remove", "id": "v1"}, json.loads(put({"v": {"type": "Visit"}}, form="Visit"))]),
        "C4",
        'C4 UnknownForm, parts[1]: form: no form "Visit" is declared; there are person, visit',
    ),
    (line_of(do="get", id="v9"), "C6", 'C6 NoRecord: id: there is no record "v9"'),
    (line_of(do="checkfield", id="v9", object="v", field="name"), "C6", 'C6 NoRecord: id: there is no record "v9"'),
    (line_of(do="batch", parts=[{"do": "remove", "id": "v1"}, {"do": "remove", "id": "v1"}]), "C6", 'C6 NoRecord, parts[1]: id: there is no record "v1"'),
    (line_of(do="check", id="v1", groups=["Default", "Quick", "Slow"]), "C7", 'C7 UnknownGroup: groups[1]: no group "Quick" is declared; there are Default'),
    (line_of(do="checkvalue", type="Visit", field="name", value="x", groups=["default"]), "C7", 'C7 UnknownGroup: groups[0]: no group "default" is declared; there are Default'),
    # Data of another kind.
    odd("rent", "1450.00", DECIMAL, "1450.0"),
    odd("rent", '"1.450,00"', DECIMAL),
    odd("age", '"41"', WHOLE),
    odd("day", '"01.05.2024"', 'a day of the calendar in quotes, as "2024-05-01"'),
    odd("at", '"2024-05-01T10:00:00Z"', "a whole number of seconds since 1970, from year 1 to 9999, without quotes"),
    odd("ok", '"yes"', "true or false"),
    odd("name", "5", "a text"),
    odd("tags", '"a"', "an array"),
    odd("note", '"soon"', "[] or an array of one datum that isn't null"),
    odd("note", "[null]", "[] or an array of one datum that isn't null"),
    odd("host", "7", "the name of an object of the type Person, in quotes"),
    (written("tags", '["a", 5]'), "C5", 'C5 Bundle B5: object "v", field "tags"[1]: 5 should be a text'),
    (written("rooms", '{"K\\u00fcche": 1.5}'), "C5", f'C5 Bundle B5: object "v", field "rooms"["K\u00fcche"]: 1.5 should be {WHOLE}'),
    (written("rooms", '{"a\\"b": true}'), "C5", f'C5 Bundle B5: object "v", field "rooms"["a\\"b"]: true should be {WHOLE}'),
    (written("rooms", '{"hall": 1, "attic": "2"}'), "C5", f'C5 Bundle B5: object "v", field "rooms"["attic"]: "2" should be {WHOLE}'),
    # Names.
    (visit(nmae="Ada"), "C5", f'C5 Bundle B4: object "v", field "nmae": the type Visit has no field "nmae"; it has {FIELDS}'),
    (visit(host="ada"), "C5", 'C5 Bundle B6: object "v", field "host": "ada" names no object of the record'),
    (visit(guests=["v"]), "C5", 'C5 Bundle B7: object "v", field "guests"[0]: "v" is of the type Visit and should be of the type Person'),
    (put({"v": {"type": "Vist"}}), "C5", 'C5 Bundle B3: object "v": no type "Vist" is declared; there are Person, Visit'),
    (put({"v": {"type": "Visit"}}, root="visit"), "C5", 'C5 Bundle B2: the root "visit" names no object; there are v'),
    (put({"p": {"type": "Person"}}, root="p"), "C5", 'C5 Bundle B9: the root "p" is of the type Person and should be of the type Visit'),
    (put({"my visit": {"type": "Visit"}}, root="my visit"), "C5", 'C5 Bundle B1: object "my visit": its name should be a letter or _, then letters, digits and _, 64 in all at most'),
    # Sizes.
    (visit(name=LONG), "C5", f'C5 Bundle B8: object "v", field "name": "{LONG[:59]}.. is over 65536 bytes or entries'),
    (put({"v": {"type": "Visit"}, **{f"p{number}": {"type": "Person"} for number in range(256)}}), "C5", "C5 Bundle B8: there are more than 256 objects"),
    # A record that is there.
    (line_of(do="set", id="v1", object="visit", field="name", value="x"), "C5", 'C5 Bundle B10: the record has no object "visit"; it has v'),
    (line_of(do="set", id="v1", object="v", field="nmae", value="x"), "C5", f'C5 Bundle B4: object "v", field "nmae": the type Visit has no field "nmae"; it has {FIELDS}'),
    (line_of(do="set", id="v1", object="v", field="tags", value=["x", None, 7]), "C5", 'C5 Bundle B5: object "v", field "tags"[2]: 7 should be a text'),
    (line_of(do="set", id="v1", object="v", field="host", value="v"), "C5", 'C5 Bundle B7: object "v", field "host": "v" is of the type Visit and should be of the type Person'),
    (
        line_of(do="batch", parts=[json.loads(put({"p": {"type": "Person"}}, root="p", form="person", key="p1")), {"do": "set", "id": "p1", "object": "p", "field": "age", "value": 5}]),
        "C5",
        'C5 Bundle B4, parts[1]: object "p", field "age": the type Person has no field "age"; it has knows, name',
    ),
    # A set of a batch is told by what the parts before it leave: of the record that is stored, of one that is put, of the last that is put.
    (
        line_of(do="batch", parts=[SET | {"field": "name", "value": "x"}, SET | {"field": "host", "value": "ada"}]),
        "C5",
        'C5 Bundle B6, parts[1]: object "v", field "host": "ada" names no object of the record',
    ),
    (
        line_of(do="batch", parts=[json.loads(put({"v": {"type": "Visit"}, "ada": {"type": "Person"}})), SET | {"field": "host", "value": "ada"}, SET | {"field": "host", "value": "v"}]),
        "C5",
        'C5 Bundle B7, parts[2]: object "v", field "host": "v" is of the type Visit and should be of the type Person',
    ),
    (
        line_of(do="batch", parts=[json.loads(put({"w": {"type": "Visit"}}, root="w")), SET | {"field": "name", "value": "x"}]),
        "C5",
        'C5 Bundle B10, parts[1]: the record has no object "v"; it has w',
    ),
    (
        line_of(do="batch", parts=[json.loads(put({name: {"type": "Person"}}, root=name, form="person", key="p1")) for name in ("p", "q")] + [SET | {"id": "p1", "object": "p", "field": "name", "value": "x"}]),
        "C5",
        'C5 Bundle B10, parts[2]: the record has no object "p"; it has q',
    ),
    (line_of(do="checkfield", id="v1", object="v", field="nmae"), "C8", f'C8 NoSuchField: object "v", field "nmae": the type Visit has no field "nmae"; it has {FIELDS}'),
    (line_of(do="checkfield", id="v1", object="w", field="name"), "C8", 'C8 NoSuchField: the record has no object "w"; it has v'),
    (line_of(do="checkvalue", type="Vist", field="name", value="x"), "C8", 'C8 NoSuchField: no type "Vist" is declared; there are Person, Visit'),
    (line_of(do="checkvalue", type="Visit", field="nmae", value="x"), "C8", f'C8 NoSuchField: the type Visit has no field "nmae"; it has {FIELDS}'),
    (line_of(do="checkvalue", type="Visit", field="rent", value=1450), "C5", f'C5 Bundle B5: type "Visit", field "rent": 1450 should be {DECIMAL}'),
    # Eight persons who list one another: 1 + 7 + 42 + 210 + 840 + 2,520 + 5,040 + 5,040 visits; the form asks for no group, so for Default.
    (put(circle(8), root="p0", form="person", key="p8"), "C9", 'C9 TooManyVisits: record "p8": more than 4096 visits with the group Default of the form person'),
    # The first record is small in the end; only the other is too wide.
    (
        line_of(do="batch", parts=[json.loads(put(circle(count), root="p0", form="person", key=key)) for count, key in ((8, "p"), (2, "p"), (8, "q"))]),
        "C9",
        'C9 TooManyVisits: parts[2], record "q": more than 4096 visits with the group Default of the form person',
    ),
    # The person of the root lists nobody, and then all others.
    (put({**circle(8), "p0": {"type": "Person"}}, root="p0", form="person", key="p8"), "ok", None),
    (
        line_of(do="set", id="p8", object="p0", field="knows", value=[f"p{number}" for number in range(1, 8)]),
        "C9",
        'C9 TooManyVisits: record "p8": more than 4096 visits with the group Default of the form person',
    ),
    (line_of(do="remove", id="p8"), "ok", None),
    # Other declarations, and a record that doesn't fit them.
    (redeclare(types={"Visit": {"fields": {"host": field({"ref": "Guest"})}}}, forms={}), "C13", 'C13 Declarations F4: text: types.Visit.fields.host.type.ref: type "Guest" isn\'t declared'),
    (redeclare(types={}, form={}), "C13", 'C13 Declarations F2: text: form: unknown member "form"; expected types, forms, groups, constraints, messages'),
    (
        redeclare(types={"Visit": {"fields": {name: value for name, value in VISIT.items() if name != "tags"}}, "Person": {"fields": PERSON}}, forms=FORMS),
        "C14",
        f'C14 Unfit B4: record "v1": object "v", field "tags": the type Visit has no field "tags"; it has {FIELDS.removesuffix(", tags")}',
    ),
    (redeclare(types=TYPES, forms={"person": {"root": "Person"}}), "C14", 'C14 Unfit C4: record "v1": form: no form "visit" is declared; there are person'),
    (line_of(do="get", id="v1"), "ok", None),
]


def nodes(convert):
    """Declarations of nodes that lead to nodes. Many stands for 30 plain groups; each of T0 to T31 for 130."""
    plain = [f"G{number}" for number in range(130)]
    halves = {f"H{number}": {"sequence": plain[32 * number : 32 * number + 32]} for number in range(5)}
    groups = {name: {} for name in [*plain, "Wide"]} | halves
    groups |= {"Many": {"sequence": plain[:30]}} | {name: {"sequence": list(halves)} for name in LONG_GROUPS}
    to = field({"list": {"type": {"ref": "Node"}, "valid": True, "convert": {convert: "Many"}}})
    return {"types": {"Node": {"fields": {"to": to}}}, "forms": {"node": {"root": "Node"}, "crowd": {"root": "Node", "groups": ["Default", "Wide"]}}, "groups": groups}


LEAVES = [f"n{number}" for number in range(143)]
LONG_GROUPS = [f"T{number}" for number in range(32)]
STAR = put({"root": {"type": "Node", "fields": {"to": LEAVES}}, **{name: {"type": "Node"} for name in LEAVES}}, root="root", form="node", key="star")
OVER = 'record "star": more than 4096 visits with the group'
# Lines under `nodes("Wide")`.
CROWDED = [
    # For Default 1 + 143 visits.
    (STAR, "ok", None),
    # For Wide 1 + 143 * 30, however often it is asked for.
    (line_of(do="check", id="star", groups=["Wide"]), "C9", f"C9 TooManyVisits: {OVER} Wide"),
    (line_of(do="check", id="star", groups=["Wide", "Wide"]), "C9", f"C9 TooManyVisits: {OVER} Wide"),
    (line_of(do="check", id="star", groups=["Default", "G0", "Wide", "G1"]), "C9", f"C9 TooManyVisits: {OVER} Wide"),
    # For each of G0 to G28 as for Default, which is 28 * 144 = 4,032 in front of G28 and 4,176 with it.
    (line_of(do="check", id="star", groups=[f"G{number}" for number in range(28)]), "ok", None),
    (line_of(do="check", id="star", groups=[f"G{number}" for number in range(32)]), "C9", f"C9 TooManyVisits: {OVER} G28"),
    # A form that asks for Default and Wide: 144 and 4,291.
    (STAR.replace('"form":"node"', '"form":"crowd"'), "C9", f"C9 TooManyVisits: {OVER} Wide of the form crowd"),
    (line_of(do="batch", parts=[json.loads(STAR.replace('"form":"node"', '"form":"crowd"'))]), "C9", f"C9 TooManyVisits: parts[0], {OVER} Wide of the form crowd"),
    # A field by itself, for 32 sequences of 130 plain groups.
    (line_of(do="checkfield", id="star", object="root", field="to", groups=LONG_GROUPS), "C9", "C9 TooManyVisits: groups: more than 4096 visits, one for each plain group of a sequence"),
    (line_of(do="checkvalue", type="Node", field="to", value=[], groups=LONG_GROUPS), "C9", "C9 TooManyVisits: groups: more than 4096 visits, one for each plain group of a sequence"),
    (line_of(do="checkvalue", type="Node", field="to", value=[], groups=LONG_GROUPS[:31]), "ok", None),
    # Under these the record has 4,291 for Default.
    (redeclare(**nodes("Default")), "C9", "C9 TooManyVisits: text: a stored record has more than 4096 visits by these declarations"),
]


def run(*words, lines):
    return subprocess.run([PROGRAM, *words], input="".join(line + "\n" for line in lines), capture_output=True, text=True, errors="surrogateescape")


def rehearse(declarations, mistakes):
    """Looks at what these lines are answered and what is told of them."""
    lines = [line for line, _, _ in mistakes]
    with tempfile.TemporaryDirectory() as folder:
        file = Path(folder) / "declarations.json"
        file.write_text(json.dumps(declarations))
        rehearsed = run("rehearse", "--declarations", file, "--now", "0", lines=lines)
        served = run("serve", "--declarations", file, "--database", Path(folder) / "served.db", "--now", "0", lines=lines)
    look("status 0, and the replies of serve", (rehearsed.returncode, rehearsed.stdout), (0, served.stdout))
    replies = [json.loads(reply) for reply in rehearsed.stdout.splitlines()]
    told = {}
    for words in rehearsed.stderr.splitlines():
        number, _, rest = words.removeprefix("line ").partition(": ")
        told.setdefault(int(number), []).append(rest)
    for number, ((line, code, words), reply) in enumerate(zip(mistakes, replies, strict=True), 1):
        look(f"line {number}: {line}", (reply.get("error", "ok"), told.get(number, [])), (code, [words] if words else []))


def main():
    rehearse(DECLARATIONS, MISTAKES)
    rehearse(nodes("Wide"), CROWDED)
    mistakes = sum(words is not None for _, _, words in MISTAKES + CROWDED)
    return end(f"{mistakes} mistakes in lines, {{failed}} told otherwise than wanted")


if __name__ == "__main__":
    sys.exit(main())
