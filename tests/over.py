#!/usr/bin/env python3
"""Makes pairs of random small declarations with random records of the first, compares what `formd explain` says of the second over the first with what is
reckoned here, line by line, and looks whether a redeclare of the second is C14 where it says that it never is.

    tests/over.py                    1,000 pairs, with the program that `make` leaves
    tests/over.py PROGRAM            with another build of formd
    tests/over.py PROGRAM PAIRS SEED as many pairs, from another seed

The second declarations are the first with some changes: fields, types and forms that are added and taken away, other type uses, and other constraints of a
group for which no form asks. The records have every
field of each type, most of them other than null. It prints how many pairs are said never to be C14, of which none may be, and of the others how many are:
the rest have a place that is narrowed, and no record that shows it, or one whose JSON is taken for the other type use too.
"""

import json
import os
import random
import subprocess
import sys
import tempfile
from concurrent.futures import ThreadPoolExecutor
from itertools import zip_longest
from pathlib import Path

from looks import named_program

PROGRAM = named_program()
PAIRS = int(sys.argv[2]) if len(sys.argv) > 2 else 1_000
SEED = int(sys.argv[3]) if len(sys.argv) > 3 else 1
PLAIN = ["text", "integer", "decimal", "boolean", "date", "instant"]
# How many members lead to a place at most.
DEEPEST = 5
ALL_FIT = "every record of the old declarations is well-typed under these: a redeclare is never C14; no comparison tells violations (C10)"
MAY_NOT_FIT = "a record of the old declarations may not be well-typed under these: a redeclare may be C14 at the places above"
OTHER = "B5 WrongKind: it holds something else: a record may not fit in which it isn't null"
BECOMES = "B5 WrongKind: a text becomes a reference: a record may not fit in which it isn't null, also as B6 DanglingRef or B7 RefType"
STRAY = "B7 RefType: references lead to another type: a record may not fit in which one isn't null"
SPELLED = {"text": ["", "a", "2024-02-29", "1.5", "t1_0"], "integer": [0, -7, 2**62], "decimal": ["0", "1.5"], "boolean": [True, False], "date": ["2024-02-29"], "instant": [0, 1709208000]}


def a_use(dice, types, deep=2):
    """A random type use."""
    kind = dice.choice([*PLAIN, "ref", *(["list", "map", "optional"] if deep else [])])
    if kind == "ref":
        return {"ref": dice.choice(types)}
    return kind if kind in PLAIN else {kind: {"type": a_use(dice, types, deep - 1)}}


def a_field(dice, types):
    return {"type": a_use(dice, types), **some_constraints(dice)}


def some_constraints(dice):
    """No member, or a list of constraints of a group for which no form asks: of few sorts, so that the same stand in front and at the end."""
    constraints = [{"constraint": dice.choice(["NotNull", "Null"]), "groups": ["Aside"]} for _ in range(dice.randint(0, 4))]
    return {"constraints": constraints} if dice.random() < 0.7 else {}


def declarations(dice):
    """Random declarations: one to three types, each with up to three fields, and one or two forms."""
    types = [f"T{number}" for number in range(dice.randint(1, 3))]
    fields = {name: {"fields": {f"f{number}": a_field(dice, types) for number in range(dice.randint(0, 3))}} for name in types}
    return {"types": fields, "forms": {f"form{number}": {"root": dice.choice(types)} for number in range(dice.randint(1, 2))}, "groups": {"Aside": {}}}


def other_inside(dice, use, types):
    """A type use with another in its innermost container, or another."""
    if isinstance(use, dict) and "ref" not in use and dice.random() < 0.7:
        (kind, held), = use.items()
        return {kind: {"type": other_inside(dice, held["type"], types)}}
    return a_use(dice, types, 1)


def referred(use):
    """The types that a type use refers to."""
    if isinstance(use, str):
        return set()
    return {use["ref"]} if "ref" in use else referred(next(iter(use.values()))["type"])


def change(dice, new):
    """Makes one change."""
    types = sorted(new["types"])
    fields = new["types"][dice.choice(types)]["fields"]
    kind = dice.choice(["field", "field", "type", "form", "other", "other", "constraints", "less", "form less", "root", "type less"])
    if kind == "field":
        fields[f"g{dice.randint(0, 9)}"] = a_field(dice, types)
    elif kind == "type":
        new["types"][f"U{dice.randint(0, 9)}"] = {"fields": {"f0": a_field(dice, types)}}
    elif kind == "form":
        new["forms"][f"more{dice.randint(0, 9)}"] = {"root": dice.choice(types)}
    elif kind == "other" and fields:
        field = dice.choice(sorted(fields))
        fields[field] = {"type": other_inside(dice, fields[field]["type"], types)}
    elif kind == "constraints" and fields:
        field = dice.choice(sorted(fields))
        fields[field] = {"type": fields[field]["type"], **some_constraints(dice)}
    elif kind == "less" and fields:
        del fields[dice.choice(sorted(fields))]
    elif kind == "form less":
        del new["forms"][dice.choice(sorted(new["forms"]))]
        new["forms"] = new["forms"] or {"another": {"root": dice.choice(types)}}
    elif kind == "root":
        new["forms"][dice.choice(sorted(new["forms"]))] = {"root": dice.choice(types)}
    elif kind == "type less":
        free = set(types) - {form["root"] for form in new["forms"].values()}
        free -= set().union(*(referred(field["type"]) for of in new["types"].values() for field in of["fields"].values()))
        if free:
            del new["types"][dice.choice(sorted(free))]


def a_datum(dice, use, objects, outer=True):
    """A random datum of a type use; null now and then, but in an optional."""
    if outer and dice.random() < 0.15:
        return None
    if isinstance(use, str):
        return dice.choice(SPELLED[use])
    (kind, held), = use.items()
    if kind == "ref":
        return dice.choice(objects[held])
    if kind == "optional":
        return [a_datum(dice, held["type"], objects, False) for _ in range(dice.randint(0, 1))]
    data = [a_datum(dice, held["type"], objects) for _ in range(dice.randint(0, 2))]
    return data if kind == "list" else {f"k{number}": datum for number, datum in enumerate(data)}


def a_put(dice, old, form, id):
    """A put of a random record of a form, with an object or two of each type."""
    names = {name: [f"{name.lower()}_{number}" for number in range(dice.randint(1, 2))] for name in old["types"]}
    objects = {
        name: {"type": type, "fields": {field: a_datum(dice, use["type"], names) for field, use in old["types"][type]["fields"].items()}}
        for type, several in names.items()
        for name in several
    }
    return {"do": "put", "id": id, "form": form, "bundle": {"root": names[old["forms"][form]["root"]][0], "objects": objects}}


def changes(old, new, place="", deep=0):
    """The places at which JSON differs, each with what became of it: objects by their members, down to those of a field, arrays by their items, between those
    that are the same in front and at the end, all else as a whole."""
    if old == new:
        return {}
    found = {}
    if isinstance(old, dict) and isinstance(new, dict) and deep < DEEPEST:
        for name in old.keys() | new.keys():
            inside = f"{place}.{name}" if place else name
            found |= changes(old[name], new[name], inside, deep + 1) if name in old and name in new else {inside: "added" if name in new else "removed"}
    elif isinstance(old, list) and isinstance(new, list):
        shorter, longer = sorted([len(old), len(new)])
        front = next((at for at in range(shorter) if old[at] != new[at]), shorter)
        back = next((at for at in range(shorter - front) if old[-1 - at] != new[-1 - at]), shorter - front)
        for at in range(front, longer - back):
            found[f"{place}[{at}]"] = "removed" if at >= len(new) - back else "added" if at >= len(old) - back else "changed"
    else:
        found[place] = "changed"
    return found


def held_by(use):
    """The kind of a type use, and what stands in it: a type use, the name of a type, or nothing."""
    if isinstance(use, str):
        return use, None
    (kind, held), = use.items()
    return kind, held if kind == "ref" else held["type"]


def use_fault(own, other):
    """The fault that is told of a field that holds something else."""
    (kind, held), (other_kind, other_held) = held_by(own), held_by(other)
    if other_kind == "ref" and kind in ("ref", "text"):
        return STRAY if kind == "ref" else BECOMES
    return use_fault(held, other_held) if kind == other_kind and kind not in PLAIN else OTHER


def may_refer(own, other):
    """Whether JSON of a type use may be read as references where another stands: of texts and references, a list of at most one as an optional."""
    (kind, held), (other_kind, other_held) = held_by(own), held_by(other)
    if other_kind == "ref" or other_kind in PLAIN:
        return other_kind == "ref" and kind in ("ref", "text")
    return (kind == other_kind or {kind, other_kind} == {"list", "optional"}) and may_refer(held, other_held)


def narrowings(old, new):
    """The places at which a record may not fit any more: the fault that is told of each, by its code, its name and its words."""
    for name, type in sorted(old["types"].items()):
        if name not in new["types"]:
            yield f"types.{name}", "B3 UnknownType: the type isn't there: no record fits with an object of it"
            continue
        for field, place in sorted(type["fields"].items()):
            there = new["types"][name]["fields"].get(field)
            if there is None:
                yield f"types.{name}.fields.{field}", "B4 UnknownField: the field isn't there: no record fits in which it isn't null"
            elif there["type"] != place["type"]:
                yield f"types.{name}.fields.{field}.type", use_fault(place["type"], there["type"])
    for form, place in sorted(old["forms"].items()):
        if form not in new["forms"]:
            yield f"forms.{form}", "C4 UnknownForm: the form isn't there: no record of it fits"
        elif new["forms"][form] != place:
            yield f"forms.{form}.root", "B9 RootType: its root is of another type: no record of it fits"


def reckoned(old, new):
    """The lines that `formd explain` has to say."""
    lines = [{"line": change, "place": place} for place, change in sorted(changes(old, new).items(), key=lambda it: it[0].encode())]
    narrowed = list(narrowings(old, new))
    for place, told in narrowed:
        fault, _, text = told.partition(": ")
        lines.append({"line": "narrowed", "place": place, "fault": fault.split()[0], "name": fault.split()[1], "text": text})
    return [*lines, {"line": "records", "fit": not narrowed, "text": MAY_NOT_FIT if narrowed else ALL_FIT}]


def told(file, over):
    """The lines that it says."""
    ran = subprocess.run([PROGRAM, "explain", "--json", file, "--over", over], capture_output=True, text=True, check=True)
    return [json.loads(line) for line in ran.stdout.splitlines()]


def tried(seed):
    """Whether a pair is said never to be C14, whether a redeclare is, and whether something is wrong."""
    dice = random.Random(seed)
    old = declarations(dice)
    new = json.loads(json.dumps(old))
    for _ in range(dice.randint(0, 3)):
        change(dice, new)
    with tempfile.TemporaryDirectory() as folder:
        files = [Path(folder) / name for name in ("new.json", "old.json")]
        for file, text in zip(files, (new, old)):
            file.write_text(json.dumps(text))
        found, wanted = told(*files), reckoned(old, new)
        fit, wrong = found[-1]["fit"], found != wanted
        if wrong:
            differing = [line for pair in zip_longest(found, wanted) if pair[0] != pair[1] for line in pair]
            print(f"seed {seed}: found and wanted where they differ: {differing}\n  {json.dumps(old)}\n  {json.dumps(new)}")
        puts = [a_put(dice, old, form, f"{form}-{number}") for form in old["forms"] for number in range(3)]
        lines = [*puts, {"do": "redeclare", "text": json.dumps(new)}]
        words = [PROGRAM, "serve", "--declarations", files[1], "--database", Path(folder) / "records.db", "--now=0"]
        ran = subprocess.run(words, input="".join(json.dumps(line) + "\n" for line in lines), capture_output=True, text=True, check=True)
        *put, reply = map(json.loads, ran.stdout.splitlines())
        if len(put) != len(puts) or any(answer != {"ok": "put"} for answer in put):
            raise SystemExit(f"seed {seed}: a put isn't taken: {ran.stdout}")
        if reply != {"ok": "redeclare"} and reply.get("error") != "C14":
            raise SystemExit(f"seed {seed}: neither taken nor C14: {reply}")
        if reply != {"ok": "redeclare"} and fit:
            print(f"seed {seed}: said never to be C14: {reply}\n  {json.dumps(old)}\n  {json.dumps(new)}")
        if not fit and reply.get("error") == "C14" and reply["fault"] not in may_be(old, new):
            print(f"seed {seed}: {reply['fault']} isn't told of any place\n  {json.dumps(old)}\n  {json.dumps(new)}")
            wrong = True
        return fit, reply != {"ok": "redeclare"}, wrong or fit and reply != {"ok": "redeclare"}


def may_be(old, new):
    """The faults that a redeclare may have: those that are told, and, where what is read for a reference was none or was one to another type, B6 and B7."""
    faults = {told.split()[0] for _, told in narrowings(old, new)}
    uses = [(place["type"], new["types"][name]["fields"][field]["type"]) for name in old["types"].keys() & new["types"].keys()
            for field, place in old["types"][name]["fields"].items() if field in new["types"][name]["fields"]]
    return faults | ({"B6", "B7"} if any(own != other and may_refer(own, other) for own, other in uses) else set())


def main():
    with ThreadPoolExecutor(os.cpu_count()) as pool:
        found = list(pool.map(tried, range(SEED * 1_000_000, SEED * 1_000_000 + PAIRS)))
    fit = sum(each[0] for each in found)
    unfit = [each for each in found if not each[0]]
    wrong = sum(each[2] for each in found)
    print(f"{len(found)} pairs: {fit} are never C14; of the other {len(unfit)}, {sum(each[1] for each in unfit)} are C14 for their records; {wrong} wrong")
    sys.exit(1 if wrong or not fit or not any(each[1] for each in unfit) else 0)


if __name__ == "__main__":
    main()
