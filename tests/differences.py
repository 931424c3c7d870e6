#!/usr/bin/env python3
"""Runs what docs/BEAN-VALIDATION.md says of this program: each row under "Where answers differ" and "What is left out", and the example's declarations.

    tests/differences.py            with the program that `make` leaves
    tests/differences.py PROGRAM    with another build of formd

A row is found by the words of its first cell, so a row of the page that isn't run, and a run that has no row, are told.
What Hibernate Validator answers isn't run here.
"""

import json
import re
import subprocess
import sys
import tempfile
from pathlib import Path

from looks import ROOT, end, look, named_program

PAGE = ROOT / "docs" / "BEAN-VALIDATION.md"
PROGRAM = named_program()


def use(constraint, *groups, message=None, **attributes):
    made = {"constraint": constraint}
    if attributes:
        made["with"] = attributes
    if groups:
        made["groups"] = list(groups)
    if message is not None:
        made["message"] = message
    return made


def field(kind, *uses, **more):
    return {"type": kind, "constraints": list(uses), **more}


def link(to, **convert):
    return {"type": {"ref": to}, "valid": True} | ({"convert": convert} if convert else {})


def missing(*groups):
    return field("text", use("NotNull", *groups))


def one(fields, groups=None, **more):
    """Declarations of one type T whose form asks for no group in which a constraint stands."""
    kinds = {"T": {"fields": fields, **more.pop("of_type", {})}, **more.pop("types", {})}
    return {"types": kinds, "forms": {"f": {"root": "T", "groups": ["Unused"]}}, "groups": {"Unused": {}, **(groups or {})}, **more}


def record(**objects):
    """Objects given by their fields; the first is the root. A type other than T stands in `of`."""
    made = {name: {"type": fields.pop("of", "T"), "fields": fields} for name, fields in objects.items()}
    return {"root": next(iter(objects)), "objects": made}


class Service:
    """The program over a new database, one run for a row."""

    def __init__(self, folder):
        self.folder = Path(folder)
        self.runs = 0

    def declare(self, declarations):
        """The code of the fault, or ok."""
        path = self.folder / "d.json"
        path.write_text(json.dumps(declarations))
        ran = subprocess.run([PROGRAM, "declarations", path], capture_output=True, text=True, timeout=60)
        return ran.stdout.strip() or ran.stderr.split()[3]

    def replies(self, declarations, *lines, now=0):
        self.runs += 1
        (self.folder / "d.json").write_text(json.dumps(declarations))
        words = ["serve", "--declarations", self.folder / "d.json", "--database", self.folder / f"{self.runs}.db", f"--now={now}"]
        ran = subprocess.run([PROGRAM, *words], input="".join(json.dumps(line) + "\n" for line in lines), capture_output=True, text=True, timeout=60)
        if ran.returncode:
            raise SystemExit(ran.stderr)
        return [json.loads(line) for line in ran.stdout.splitlines()]

    def check(self, declarations, bundle, *groups):
        """The paths that a check of a stored bundle tells, or the code of what is refused."""
        put, found = self.replies(declarations, {"do": "put", "id": "r", "form": "f", "bundle": bundle}, {"do": "check", "id": "r", "groups": list(groups)})
        if "error" in put:
            return put["error"]
        return [one["path"] for one in found["violations"]] if "ok" in found else found["error"]

    def value(self, kind, constraint, datum, now=0, **more):
        """The violations of one value under one use."""
        declarations = one({"t": field(kind, constraint)}, **more)
        (reply,) = self.replies(declarations, {"do": "checkvalue", "type": "T", "field": "t", "value": datum}, now=now)
        return reply.get("violations", reply)

    def passes(self, *arguments, **more):
        return not self.value(*arguments, **more)


def rows(at):
    """Pairs of the first words of a row and whether the program does as the row says."""
    plain = {"A": {}, "B": {}, "C": {}, "S": {"sequence": ["A", "B"]}, "S2": {"sequence": ["A", "C"]}}
    abc = one({"a": missing("A"), "b": missing("B"), "c": missing("C")}, plain)
    yield "the sequence S = [A, B] and A are asked for", at.check(abc, record(r={}), "A", "S") == at.check(abc, record(r={}), "S", "A") == ["a"]
    yield "S and the sequence [A, C] are asked for", at.check(abc, record(r={}), "S", "S2") == ["a"]
    both = one({"a": missing("A"), "d": missing()}, plain)
    yield "A and `Default` are asked for", at.check(both, record(r={}), "A", "Default") == at.check(both, record(r={}), "Default", "A") == ["a", "d"]
    back = one({"a": missing("A"), "d": missing(), "self": link("T", Default="A")}, plain)
    yield "the root refers to itself by `self` and converts", at.check(back, record(r={"self": "r"}), "Default") == ["d"]
    ways = one({"x": missing(), "left": link("T"), "right": link("T")})

    def ladder(steps):
        return record(**{f"n{n}": {"x": "x"} | ({"left": f"n{n + 1}", "right": f"n{n + 1}"} if n < steps else {}) for n in range(steps + 1)})

    yield "an object that many ways lead to", at.check(ways, ladder(11), "Default") == [] and at.check(ways, ladder(12), "Default") == "C9"
    heir = {"HD": {"inherits": ["Default"]}, "Other": {}}
    kid = {"Kid": {"fields": {"d": missing(), "o": missing("Other")}}}
    goes_on = one({"c": link("Kid", Default="Other")}, heir, types=kid)
    yield "a group that inherits `Default`, at a conversion", at.check(goes_on, record(r={"c": "k"}, k={"of": "Kid"}), "HD") == ["c.d"]
    shares = one({"a": missing("A"), "b": missing("B"), "d": missing()}, plain, of_type={"sequence": ["T", "A"]})
    yield "a sequence that shares a group with the type's own", at.check(shares, record(r={"d": "x"}), "S") == ["a"] and at.check(shares, record(r={"d": "x", "a": "x"}), "S") == ["b"]
    inherited = one({"a": missing("A")}, plain | {"G": {"inherits": ["S"]}})
    yield "a sequence that is inherited", at.declare(inherited) == at.declare(one({"a": missing("S")}, plain)) == "F8"
    yield "`Default` inside what a type's sequence inherits", at.declare(one({"a": missing()}, heir, of_type={"sequence": ["T", "HD"]})) == "F10"
    twice = one({"a": missing("A"), "b": missing("B")}, plain | {"Twice": {"sequence": ["B", "A", "B"]}})
    yield "a group that stands twice in a sequence", at.check(twice, record(r={}), "Twice") == ["b"] and at.check(twice, record(r={"b": "x"}), "Twice") == ["a"]

    same = one({"t": field("text", use("Size", max=3), use("Size", max=3))})
    (reply,) = at.replies(same, {"do": "checkvalue", "type": "T", "field": "t", "value": "four"})
    yield "the same constraint twice at one place", [told["occurrence"] for told in reply["violations"]] == [0, 1]
    yield "a constraint at a kind that no validator takes", at.declare(one({"t": field("integer", use("Size"))})) == "F17"
    yield "a constraint that is composed of itself", at.declare(one({}, constraints={"X": {"compose": [{"constraint": "X"}]}})) == "F12"
    yield "NotBlank", [at.passes("text", use("NotBlank"), text) for text in ("\u00a0", "\u3000", "\u001f")] == [False, False, True]
    digits = at.passes("decimal", use("Digits", integer=2, fraction=1), "12.50") and at.passes("integer", use("Digits", integer=0, fraction=0), 0)
    yield "Digits with 2 and 1 of", digits

    def matches(pattern, text):
        return at.passes("text", use("Pattern", regexp=pattern), text)

    taken = [(r"\d+", "١٢٣٤٥"), (r"\w+", "größe"), (".", "\r"), ("(?i)k", "\u212a"), ("a++a", "aa"), ("(?i)abc", "ABC")]
    refused = [r"(?=a)a", r"(a)\1", r"\Qa\E"]
    yield "Pattern", all(matches(*pair) for pair in taken) and all(at.declare(one({"t": field("text", use("Pattern", regexp=pattern))})) == "F18" for pattern in refused)
    evening = 1709249400
    of_dates = at.passes("date", use("PastOrPresent"), "2024-02-29", now=evening) and not at.passes("date", use("PastOrPresent"), "2024-03-01", now=evening)
    yield "Past, Future and their kin, of dates", of_dates and at.passes("date", use("PastOrPresent"), "2024-03-01", now=evening + 1800)

    def worded(text):
        return at.declare(one({"t": field("text", use("NotNull", message=text))}))

    yield "`a {b` or `{}` as a message", worded("a {b") == worded("{}") == "F19"
    yield "messages that lead back to themselves", at.declare(one({}, messages={"p": "{q}", "q": "{p}"})) == "F20"
    label = "a\\{b\\}c \\\\ d"
    labelled = {"L": {"attributes": {"label": {"kind": "text"}}, "compose": [{"constraint": "NotNull"}], "single": True, "message": "[{label}]"}}
    yield "a backslash in what an attribute puts in", at.value("text", use("L", label=label), None, constraints=labelled)[0]["message"] == f"[{label}]"
    wordings = [("decimal", use("DecimalMin", value="0.5"), "0.4"), ("decimal", use("DecimalMax", value="0.5", inclusive=False), "0.5")]
    told = [at.value(*three)[0]["message"] for three in wordings]
    yield "DecimalMin, DecimalMax without a message", told == ["must not be below 0.5 (inclusive: true)", "must not be above 0.5 (inclusive: false)"]
    keyed = at.value({"map": field("text", use("NotNull"))}, use("NotNull"), {"k": None})
    yield "an entry of a map, in a path", [one["path"] for one in keyed] == ['t["k"].<map value>']

    shared = one({"p": link("K"), "q": link("K")}, plain, types={"K": {"fields": {"b": missing("B")}}})
    twins = record(r={"p": "k", "q": "k"}, k={"of": "K"})
    yield "one object at `p` and at `q` fails in B", at.check(shared, twins, "A", "B") == at.check(shared, twins, "S") == ["p.b", "q.b"]
    own = one({"x": missing(), "y": missing("Strict"), "sub": link("T")}, {"Strict": {}}, of_type={"sequence": ["T", "Strict"]})
    selfish = at.check(own, record(r={"x": "x", "sub": "r"}), "Default") == ["y"] and at.check(own, record(r={"sub": "s"}, s={"y": "y"}), "Default") == ["sub.x", "x"]
    yield "a type with its own sequence refers to itself", selfish
    circle = one({"a": missing("A"), "b": missing("B"), "next": link("T", Default="S")}, plain)
    yield "a place that converts to a sequence leads back", at.check(circle, record(r={"next": "s"}, s={"a": "x", "next": "r"}), "Default") == ["next.b"]
    ranks = one({"g": missing("G"), "h": missing("H")}, {"H": {}, "G": {"inherits": ["H"]}}, of_type={"sequence": ["T", "G"]})
    yield "a group of a type's sequence inherits another", at.check(ranks, record(r={}), "Default") == ["g", "h"]
    heirs = one({"c": link("Kid", Default="HD")}, heir, types=kid)
    yield "a place converts `Default` to a group that inherits", at.check(heirs, record(r={"c": "k"}, k={"of": "Kid"}), "HD") == ["c.d"]

    left = [("Email", "text", use("Email")), ("Length", "text", use("Length", max=3)), ("Range", "integer", use("Range", min=1)), ("URL", "text", use("URL"))]
    for name, kind, constraint in left:
        yield f"`{name}`", at.declare(one({"t": field(kind, constraint)})) == "F4"
    yield "`UniqueElements`", at.declare(one({"t": field({"list": {"type": "text"}}, use("UniqueElements"))})) == "F4"
    luhn = {"Card": {"rule": {"field": 1}}}
    named = at.declare(one({"t": field("text", use("CreditCardNumber"))}))
    yield "`CreditCardNumber`", named == "F4" and at.passes("text", use("Card"), "79927398713", constraints=luhn) and not at.passes("text", use("Card"), "79927398710", constraints=luhn)
    yield "`flags` of Pattern", at.declare(one({"t": field("text", use("Pattern", regexp="a", flags=["CASE_INSENSITIVE"]))})) == "F16"
    numbers = [use("Digits", integer=1, fraction=1), use("DecimalMin", value="1"), use("DecimalMax", value="1")]
    yield "Digits, DecimalMin and DecimalMax on texts", all(at.declare(one({"t": field("text", number)})) == "F17" for number in numbers)
    yield "`@Valid` at a container itself", at.declare(one({"t": {"type": {"list": {"type": {"ref": "T"}}}, "valid": True}})) == "F11"
    yield "`${..}`, the expression language", worded("${validatedValue}") == "F19"
    yield "`payload`", at.declare(one({"t": field("text", use("NotNull") | {"payload": []})})) == "F2"
    yield "an attribute named `message` or `groups` as a parameter", at.value("text", use("NotNull", message="{message} {groups}"), None)[0]["message"] == "{message} {groups}"


def cells():
    """The first cell of each row under "Where answers differ" and "What is left out"."""
    page = PAGE.read_text()
    part = page[page.index("## Where answers differ") :]
    first = [line.split(" | ")[0] for line in part.splitlines() if " | " in line]
    return [cell for cell in first if cell not in ("case", "left out")]


def main():
    wanted = cells()
    with tempfile.TemporaryDirectory() as folder:
        at = Service(folder)
        example = json.loads(re.search(r"```json\n(.*?)```", PAGE.read_text(), re.DOTALL)[1])
        look("the example's declarations", at.declare(example), "ok")
        for words, holds in rows(at):
            found = [cell for cell in wanted if cell.startswith(words)]
            look(f"how many rows of the page begin with: {words}", len(found), 1)
            for cell in found:
                wanted.remove(cell)
            look(f"whether it is as the page says: {words}", holds, True)
    look("rows of the page that aren't run", wanted, [])
    return end("docs/BEAN-VALIDATION.md, {failed} rows wrong")


if __name__ == "__main__":
    sys.exit(main())
