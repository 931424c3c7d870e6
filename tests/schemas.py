#!/usr/bin/env python3
"""Compares the JSON Schemas that `formd explain FILE --schema FORM` writes with what `formd judge` takes: what formd takes each schema takes.

    tests/schemas.py                  with the program that `make` leaves
    tests/schemas.py PROGRAM          with another build of formd
    tests/schemas.py PROGRAM short    a tenth of the declarations

Five hundred declarations are made at random, of all types, of all built-in constraints, of composed ones, of rules, groups, sequences and cascades; for each forty bundles of which no two are
alike, half of them so that what the declarations ask holds as far as this script knows it, half with one thing broken. Before them comes each built-in constraint by itself, over values near its
bounds, and what is as large as it may be. Each bundle is put to `formd judge` and to the schema: by `jsonschema` (Debian: python3-jsonschema) as 2020-12, and as draft-07 with formats looked at,
and by Ajv (node-ajv), whose patterns are read with the flag `u` and without it; where they are installed.

A reader is wrong where it refuses what formd takes. So that this isn't shown by schemas that say nothing, they are wrong too where none refuses what they say: members and kinds that aren't
declared, and a violation at a root that they speak of, unless a comment there names the constraint. The figures tell how much of what formd refuses each reader refuses.
"""

import json
import os
import random
import re
import shutil
import subprocess
import sys
import tempfile
import time
from collections import Counter
from concurrent.futures import ProcessPoolExecutor
from decimal import Decimal
from pathlib import Path
from typing import NamedTuple

try:
    import jsonschema
except ImportError:
    jsonschema = None

from looks import named_program

PROGRAM = named_program()
SHORT = sys.argv[2:] == ["short"]
DECLARATIONS, BUNDLES = (50, 40) if SHORT else (500, 40)
NOW, TODAY = 1_700_000_000, "2023-11-14"
NODE = {**os.environ, "NODE_PATH": "/usr/share/nodejs"}
# The least shares, in percent, of the bundles made at random that formd takes, and of those that it refuses which a reader refuses.
TAKEN, CAUGHT = 50, 80
AJV = """
const Ajv = require('ajv'), flag = process.argv[1], Plain = RegExp;
globalThis.RegExp = function (pattern, flags = flag) { return new Plain(pattern, flags); };
if (new (Ajv.default ?? Ajv)({ unicodeRegExp: flag === 'u' }).compile({ pattern: '^.$' })('😀') !== (flag === 'u')) throw 'the flag of patterns is another';
for (const line of require('fs').readFileSync(0, 'utf8').split('\\n')) {
  if (!line) continue;
  const [{ $schema, ...schema }, bundles] = JSON.parse(line);
  const judge = new (Ajv.default ?? Ajv)({ schemaId: 'auto', logger: false, unicodeRegExp: flag === 'u' }).compile(schema);
  console.log(JSON.stringify(bundles.map(bundle => judge(bundle))));
}
"""

PLAIN = ["text", "integer", "decimal", "boolean", "date", "instant"]
# Patterns, each with texts that match it.
PATTERNS = [
    ("[A-Z]{2}-[0-9]{4}", ["AB-1234", "ZZ-0000"]),
    ("[^@ ]+@[^@ ]+", ["a@b", "ä@😀", "x.y@z"]),
    ("\\d{4}", ["2024", "٣٤٥٦", "𝟘𝟙𝟚𝟛"]),
    ("(?:a|b+)?c", ["c", "ac", "bbc"]),
    (".{0,3}", ["", "abc", "😀😀😀", "\r"]),
    ("(?i)straße", ["STRASSE", "straße", "STRAẞE", "Straße"]),
    ("a|b", ["a", "b"]),
    ("\\w[\\w.-]*", ["a", "ä.b-c", "_", "a.b"]),
    ("\\S+\\s\\S+", ["a b", "ä\u2003ö", "😀 😀"]),
    ("(?s).*", ["", "a\nb", "😀"]),
    ("[\\p{Greek}]+", ["αβγ"]),
    ("\\p{Lu}\\p{Ll}+(?: \\p{Lu}\\p{Ll}+)*", ["Ada Lovelace", "Ärzte"]),
    ("[^\\x00-\\x1f]{1,5}", ["hello", "😀😀😀😀😀"]),
    ("\\bfoo\\b.*", ["foo", "foo bar"]),
    ("(?x) a b # c\n", ["ab"]),
    ("x{2}{3}", ["xxxxxx"]),
    ("(?:ab)*", ["", "abab"]),
    ("[\\]\\[^\\\\-]+", ["]", "[^\\-", "-"]),
    ("a{2,}/\\{\\}\\$\\.", ["aa/{}$."]),
    ("^a$", ["a"]),
    ("(?m)^a$", ["a"]),
    ("(?:|a)+", ["", "aa"]),
    ("[äöü]+", ["äö"]),
    ("a)|(?:b", ["a", "ax", "xb"]),
    ("\\u{1F600}+", ["😀", "😀😀"]),
    ("[[a-z]&&[^aeiou]]+", ["bcd"]),
    ("(?U)a+?b", ["aab"]),
    ("(?R)a", ["a"]),
    ("\\t\\x7f?", ["\t", "\t\x7f"]),
    ("(?m)a$\\s^b|c", ["a\nb", "c"]),
    ("\\b{start}\\w+\\b{end} ?", ["foo", "foo "]),
    ("[a&&b]|c", ["c"]),
    ("(?-u:\\bx\\B)\\w", ["xx", "xa"]),
    ("\\B|x+", ["", "x"]),
]
TEXTS = ["", " ", "ä", "ab c", "a", "ab", "abc", "abcd", "Abc", "AB-12345", "äöü", "😀bc", "😀", "\u00a0", "\u0085", "\ufeff", "12", "2024", "a b", "a@", "\n", "a\n", "AB-1234\n", "x" * 40, "\t ", "😀" * 20, "k😀", "__proto__", "constructor"]
INTEGERS = [0, 1, -1, 2, 7, -7, 10, 99, 100, -100, 1 << 31, (1 << 53) + 1, (1 << 63) - 1, -(1 << 63), (1 << 63) - 2, 10**18, -(10**18)]
DECIMALS = ["0", "-0", "-0.0", "0.5", "-0.5", "0.50", "1", "1.0", "12.5", "12.05", "-12.5", "99", "99.99", "100", "100.000000001", "0.000000001", "-0.000000001", "999999999999999999.999999999", "-999999999999999999.999999999", "5.000000000", "0.049", "0.05", "0.051", "10", "9.999999999"]
DATES = ["0001-01-01", "9999-12-31", "2024-02-29", "2023-11-14", "2023-11-13", "2023-11-15", "1970-01-01", "2000-02-29"]
INSTANTS = [-62135596800, 253402128000, 0, NOW, NOW - 1, NOW + 1]
NO_DAY = "2023-02-30"
WRONG = [None, True, 0, 1.5, 1.0, -0.0, 1e2, NO_DAY, 1 << 63, -(1 << 63) - 1, "", "x", "01", "1.", "+1", "1.0000000001", "1234567890123456789", "2023-02-29x", "0000-01-01", "2023-13-01", "2023-1-1", "a b", "x" * 65, [], [None], [1, 2], {}, {"a": None}, [[]]]
MOST = 65_536
# Names of what each object of JavaScript inherits.
INHERITED = ["toString", "__proto__", "constructor", "hasOwnProperty"]
NUMBERS = ["Min", "Max", "DecimalMin", "DecimalMax", "Positive", "PositiveOrZero", "Negative", "NegativeOrZero", "Digits"]
TIMES = ["Past", "PastOrPresent", "Future", "FutureOrPresent"]
ON = {
    "text": ["Size", "NotEmpty", "NotBlank", "Pattern", "Pattern", "Luhn", "OneOf"],
    "integer": NUMBERS,
    "decimal": NUMBERS,
    "boolean": ["AssertTrue", "AssertFalse"],
    "date": TIMES,
    "instant": TIMES,
    "ref": [],
    "list": ["Size", "NotEmpty"],
    "map": ["Size", "NotEmpty"],
    "optional": [],
}
BUILT_IN = sorted({name for names in ON.values() for name in names} - {"Luhn", "OneOf"} | {"NotNull", "Null"})
LIST, MAP = {"list": {"type": "integer"}}, {"map": {"type": "integer"}}


# What is declared


def attributes(chance, name):
    """Attributes for a built-in constraint, or for one of the rules that each declaration has."""
    if name in ("Min", "Max"):
        return {"value": chance.choice(INTEGERS)}
    if name in ("DecimalMin", "DecimalMax"):
        return {"value": chance.choice(DECIMALS)} | ({"inclusive": chance.random() < 0.5} if chance.random() < 0.6 else {})
    if name == "Digits":
        return {"integer": chance.choice([0, 1, 2, 3, 18, 19, 40]), "fraction": chance.choice([0, 1, 2, 9, 12])}
    if name == "Size":
        least = chance.choice([0, 0, 1, 2, 3])
        return chance.choice([{"min": least}, {"max": chance.choice([0, 1, 3, 10, 70_000])}, {"min": least, "max": least + chance.choice([0, 1, 5])}])
    if name == "Pattern":
        return {"regexp": chance.choice(PATTERNS)[0]}
    if name == "OneOf":
        return {"words": ["a", "abc", "AB-1234"]}
    return {}


def use_of(chance, kind, composed, groups):
    names = ON[kind] + [chance.choice(["NotNull", "NotNull", "Null"])] + composed.get(kind, [])
    name = chance.choice(names)
    given = attributes(chance, name)
    if name.startswith("Composed") and chance.random() < 0.5:
        given = {"limit": chance.choice([1, 3, 5])}
    use = {"constraint": name} | ({"with": given} if given else {})
    return use | ({"groups": chance.sample(groups, chance.choice([1, 1, 2]))} if chance.random() < 0.35 else {})


def uses_of(chance, kind, composed, groups):
    return [use_of(chance, kind, composed, groups) for _ in range(chance.choice([0, 0, 1, 1, 1, 2]))]


def place_of(chance, types, composed, groups, depth=0):
    kind = chance.choice(PLAIN + ["text", "ref"] + ([] if depth == 4 else ["list", "map", "optional"]))
    place = {"type": kind}
    if kind == "ref":
        place["type"] = {"ref": chance.choice(types)}
        if chance.random() < 0.6:
            place["valid"] = True
            if chance.random() < 0.3:
                place["convert"] = {"Default": chance.choice(["G", "S", "Full"])}
    elif kind in ("list", "map", "optional"):
        place["type"] = {kind: place_of(chance, types, composed, groups, depth + 1)}
        if kind == "map" and chance.random() < 0.5:
            place["type"]["keys"] = uses_of(chance, "text", composed, groups)
    uses = uses_of(chance, kind, composed, groups)
    return place | ({"constraints": uses} if uses else {})


def definitions_of(chance):
    """Constraints of rules and composed ones, the names of the latter by the kinds that they are on."""
    part = lambda name: {"constraint": name} | ({"with": attributes(chance, name)} if attributes(chance, name) else {})
    limit = {"attributes": {"limit": {"kind": "integer", "default": 3}}}
    made = {
        "Luhn": {"rule": {"field": 1}},
        "OneOf": {"attributes": {"words": {"kind": "texts"}}, "rule": {"field": 2}},
        "InOrder": {"attributes": {"start": {"kind": "text", "default": "d0"}, "end": {"kind": "text", "default": "d1"}}, "rule": {"object": 3}},
        "ComposedText": limit | {"compose": [{"constraint": "Size", "override": {"max": "limit"}}, part(chance.choice(["NotNull", "NotBlank", "NotEmpty"]))], "single": chance.random() < 0.5},
        "ComposedDeep": limit | {"compose": [{"constraint": "ComposedText", "override": {"limit": "limit"}}, part("Pattern")]} | ({"rule": {"field": 1}} if chance.random() < 0.3 else {}),
        "ComposedNumber": limit | {"compose": [{"constraint": "Max", "override": {"value": "limit"}}, part(chance.choice(NUMBERS))], "single": chance.random() < 0.5},
        "ComposedFlag": limit | {"compose": [part("AssertTrue"), part("NotNull")]},
        "ComposedTime": limit | {"compose": [part(chance.choice(TIMES)), part("NotNull")]},
    }
    kinds = {"text": ["ComposedText", "ComposedDeep"], "integer": ["ComposedNumber"], "decimal": ["ComposedNumber"], "boolean": ["ComposedFlag"], "date": ["ComposedTime"], "instant": ["ComposedTime"]}
    return made, kinds


def declarations_of(chance):
    types = chance.sample(["T", "Item", "Line", "Node", "root", "constructor", "__proto__"], chance.choice([1, 2, 2, 3]))
    definitions, composed = definitions_of(chance)
    plain = ["Default", "G", "H", "Full"]
    made = {}
    for name in types:
        fields = {f"f{at}": place_of(chance, types, composed, plain) for at in range(chance.choice([1, 2, 3, 5]))}
        fields |= {"d0": {"type": "date"}, "d1": {"type": "date"}} if chance.random() < 0.2 else {}
        fields |= {chance.choice(INHERITED + ["type", "fields"]): place_of(chance, types, composed, plain)} if chance.random() < 0.3 else {}
        made[name] = {"fields": fields}
        if chance.random() < 0.2:
            made[name]["constraints"] = [{"constraint": "InOrder"}]
        if chance.random() < 0.2:
            made[name]["sequence"] = chance.choice([[name, "G"], ["G", name], [name], [name, "G", "H"]])
    groups = {"G": {}, "H": {"inherits": ["G"]}, "Full": {"inherits": ["Default"]}, "S": {"sequence": ["Default", "G"]}}
    asked = chance.choice([[], [], [], ["Default"], ["G"], ["S"], ["Full"], ["H", "Default"], ["G", "S"]])
    form = {"root": chance.choice(types)} | ({"groups": asked} if asked else {})
    return {"types": made, "forms": {chance.choice(["form", "form", "root", "constructor"]): form}, "groups": groups, "constraints": definitions}


# What is put


def flat(declared, use, given=None):
    """The built-in constraints and rules that a use is made of, each with its attributes."""
    name, attrs = use["constraint"], use.get("with", {}) if given is None else given
    definition = declared["constraints"].get(name)
    if definition is None or name in ("Luhn", "OneOf", "InOrder"):
        return [(name, attrs)]
    limit = attrs.get("limit", 3)
    found = [("Luhn", {})] if "rule" in definition else []
    for part in definition["compose"]:
        found += flat(declared, part, part.get("with", {}) | {attr: limit for attr in part.get("override", {})})
    return found


def units(text):
    return len(text.encode("utf-16-le")) // 2


def passes(name, attrs, value):
    """Whether a constraint holds, as far as this script knows it; a date is compared with today."""
    if name in ("NotNull", "Null"):
        return (value is None) == (name == "Null")
    if value is None:
        return name not in ("NotEmpty", "NotBlank")
    if name in ("AssertTrue", "AssertFalse"):
        return value == (name == "AssertTrue")
    if name in ("Size", "NotEmpty"):
        size = units(value) if isinstance(value, str) else len(value)
        return size > 0 if name == "NotEmpty" else attrs.get("min", 0) <= size <= attrs.get("max", 1 << 31)
    if name == "NotBlank":
        return value.strip() != ""
    if name == "Pattern":
        return value in dict(PATTERNS)[attrs["regexp"]]
    if name == "OneOf":
        return value in attrs["words"]
    if name == "Luhn":
        return value in ("0", "18", "79927398713")
    if name in TIMES:
        now = TODAY if isinstance(value, str) else NOW
        return {"Past": value < now, "PastOrPresent": value <= now, "Future": value > now, "FutureOrPresent": value >= now}[name]
    return passes_number(name, attrs, Decimal(value))


def passes_number(name, attrs, number):
    if name == "Digits":
        whole, _, part = format(abs(number), "f").partition(".")
        return len(whole.lstrip("0")) <= attrs["integer"] and len(part.rstrip("0")) <= attrs["fraction"]
    bound = Decimal(attrs.get("value", 0))
    if number == bound:
        return name.endswith("OrZero") or (name in ("Min", "Max", "DecimalMin", "DecimalMax") and attrs.get("inclusive", True))
    return (number > bound) == (name in ("Min", "DecimalMin", "Positive", "PositiveOrZero"))


def near(value):
    """Numbers near a bound."""
    if isinstance(value, int):
        return [value, value - 1, value + 1, str(value)] if abs(value) < 10**18 else [value]
    return [format(Decimal(value) + step, "f") for step in (Decimal(0), Decimal("0.000000001"), Decimal("-0.000000001"), Decimal(1))]


def candidates(kind, asked):
    if kind == "text":
        texts = [text for name, attrs in asked if name == "Pattern" for text in dict(PATTERNS)[attrs["regexp"]]]
        return texts * 3 + TEXTS + ["79927398713", "18"]
    if kind in ("integer", "decimal"):
        bounds = [number for _, attrs in asked if "value" in attrs for number in near(attrs["value"])]
        if kind == "integer":
            return [number for number in bounds if isinstance(number, int)] * 2 + INTEGERS
        fits = re.compile(r"-?(?:0|[1-9][0-9]{0,17})(?:\.[0-9]{1,9})?").fullmatch
        return [number for number in bounds if isinstance(number, str) and fits(number)] * 2 + DECIMALS
    return {"boolean": [True, False], "date": DATES, "instant": INSTANTS}[kind]


class Bundles:
    """Bundles of declarations."""

    def __init__(self, chance, declared):
        self.chance, self.declared = chance, declared
        self.types = declared["types"]
        [self.form], [form] = declared["forms"], declared["forms"].values()
        self.root = form["root"]

    def datum(self, place, objects, careful):
        """A datum for a place: one for which all constraints hold, if a few tries find it."""
        asked = [part for use in place.get("constraints", []) for part in flat(self.declared, use)] if careful else []
        for _ in range(25):
            value = None if self.chance.random() < 0.15 else self.some(place["type"], asked, objects, careful)
            if all(passes(name, attrs, value) for name, attrs in asked):
                return value
        return value

    def some(self, declared, asked, objects, careful):
        if isinstance(declared, str):
            return self.chance.choice(candidates(declared, asked))
        if "ref" in declared:
            return self.chance.choice([name for name, kind in objects.items() if kind == declared["ref"]] or [None])
        if "list" in declared:
            return [self.datum(declared["list"], objects, careful) for _ in range(self.chance.choice([0, 1, 2, 3]))]
        if "optional" in declared:
            content = self.datum(declared["optional"], objects, careful)
            return [] if content is None else [content]
        keys = {"type": "text", "constraints": declared.get("keys", [])}
        return {key: self.datum(declared["map"], objects, careful) for key in (self.datum(keys, objects, careful) for _ in range(self.chance.choice([0, 1, 2]))) if key is not None}

    def fields(self, kind, objects, careful):
        made = {name: self.datum(place, objects, careful) for name, place in self.types[kind]["fields"].items()}
        return {name: value for name, value in made.items() if value is not None or self.chance.random() < 0.2}

    def bundle(self, careful=True):
        names = self.chance.sample(sorted({"root", self.form, "a", "b", "c", "constructor", "__proto__", "_1"}), self.chance.choice([1, 1, 2, 3, 4]))
        objects = {name: self.chance.choice(list(self.types)) for name in names}
        objects[names[0]] = self.root
        made = {name: {"type": kind, "fields": self.fields(kind, objects, careful if name == names[0] or self.chance.random() < 0.8 else False)} for name, kind in objects.items()}
        for thing in made.values():
            if not thing["fields"] and self.chance.random() < 0.5:
                del thing["fields"]
        return {"root": names[0], "objects": made}

    def broken(self):
        """A bundle with one thing broken."""
        bundle, chance = self.bundle(), self.chance
        name = chance.choice([bundle["root"], chance.choice(list(bundle["objects"]))])
        thing = bundle["objects"][name]
        fields, known = thing.setdefault("fields", {}), list(self.types[thing["type"]]["fields"])
        field = chance.choice(known)
        way = chance.randrange(16)
        if way < 5:
            fields[field] = self.datum({"type": self.types[thing["type"]]["fields"][field]["type"]}, {other: held["type"] for other, held in bundle["objects"].items()}, False)
        elif way < 8:
            fields[field] = chance.choice(WRONG)
        elif way < 10:
            fields.pop(chance.choice(list(fields) or [field]), None)
        elif way == 10:
            fields[chance.choice(["zz", "F0", "type"])] = chance.choice([None, 1])
        elif way == 11:
            thing[chance.choice(["fields", "type", "more"])] = chance.choice([None, "Nope", {}])
        elif way == 12:
            bundle["objects"][chance.choice(["1a", "a b", "", "x" * 65])] = thing
        elif way == 13:
            bundle[chance.choice(["root", "more"])] = chance.choice(["nobody", None, name, list(bundle["objects"])[-1]])
        elif way == 14:
            bundle["objects"].pop(name)
        else:
            thing["type"] = chance.choice(list(self.types) + ["Nope"])
        return bundle


class Case(NamedTuple):
    """Declarations, and bundles of their form; where it isn't made at random, the constraint that stands there by itself, or what is tried."""

    declared: dict
    bundles: list
    edge: str = ""


def edge(kind, name, attrs, values):
    """One constraint at a field, or none, and a bundle for each of these values."""
    uses = [{"constraint": name} | ({"with": attrs} if attrs else {})] if name else []
    declared = {"types": {"T": {"fields": {"f": {"type": kind, "constraints": uses}}}}, "forms": {"form": {"root": "T"}}}
    values = {json.dumps(value): value for value in values}.values()
    return Case(declared, [{"root": "root", "objects": {"root": {"type": "T", "fields": {"f": value}}}} for value in values], name or "limits")


def edges_of_texts():
    texts = TEXTS + [text + more for _, matching in PATTERNS for text in matching for more in ("", "x", "\n", "😀")] + [None]
    for regexp, _ in PATTERNS:
        yield edge("text", "Pattern", {"regexp": regexp}, texts)
    for bounds in ({"min": 1}, {"min": 2}, {"min": 3, "max": 3}, {"max": 2}, {"min": 5}):
        yield edge("text", "Size", bounds, texts)
    for name in ("NotBlank", "NotEmpty", "NotNull", "Null"):
        yield edge("text", name, {}, texts)


def edges_of_numbers():
    """Bounds over the numbers near them."""
    for kind, values in (("integer", INTEGERS), ("decimal", DECIMALS)):
        for name in NUMBERS[4:8] + ["NotNull", "Null"]:
            yield edge(kind, name, {}, [*values, None])
        for integer, fraction in ((0, 0), (0, 3), (1, 1), (2, 9), (18, 2), (40, 40)):
            yield edge(kind, "Digits", {"integer": integer, "fraction": fraction}, values)
        for bound in INTEGERS:
            near_it = candidates(kind, [("", {"value": bound}), ("", {"value": str(bound)})])
            yield edge(kind, "Min", {"value": bound}, near_it)
            yield edge(kind, "Max", {"value": bound}, near_it)
        for bound in ("0", "-0.5", "0.05", "1", "9.999999999", "10", "-12.05", "100", "999999999999999999.999999999"):
            near_it = candidates(kind, [("", {"value": bound}), ("", {"value": int(Decimal(bound))})])
            for name in ("DecimalMin", "DecimalMax"):
                for inclusive in (True, False):
                    yield edge(kind, name, {"value": bound, "inclusive": inclusive}, near_it)


def edges_of_others():
    lists, maps = [[1, None, 2, 3, 3][:size] for size in range(6)], [dict.fromkeys("abcde"[:size], 1) for size in range(6)]
    for kind, values in ((LIST, lists), (MAP, maps)):
        for bounds in ({"min": 1}, {"min": 2, "max": 3}, {"max": 0}):
            yield edge(kind, "Size", bounds, [*values, None])
        yield edge(kind, "NotEmpty", {}, [*values, None])
    for kind, values in (("date", DATES), ("instant", INSTANTS)):
        for name in TIMES:
            yield edge(kind, name, {}, [*values, None])
    for name in ON["boolean"]:
        yield edge("boolean", name, {}, [True, False, None])


def limits():
    """What is as large as it may be, and larger by one."""
    yield edge("text", None, {}, ["x" * MOST, "x" * (MOST + 1), "ä" * (MOST // 2), "ä" * (MOST // 2 + 1), "😀" * (MOST // 4), "😀" * (MOST // 4 + 1)])
    yield edge(LIST, None, {}, [[0] * MOST, [0] * (MOST + 1)])
    yield edge(MAP, None, {}, [{f"{key:x}": 0 for key in range(size)} for size in (MOST, MOST + 1)])
    yield edge("instant", None, {}, [INSTANTS[0] - 1, *INSTANTS, INSTANTS[1] + 1])
    yield edge("integer", None, {}, [-(1 << 64), *INTEGERS, 1 << 64])
    yield edge("decimal", None, {}, [*DECIMALS, "1" * 18 + "." + "1" * 9, "1" * 19, "0." + "1" * 10])
    for count, length in ((256, 64), (257, 64), (1, 65)):
        names = [f"{number:03}".rjust(length, "_") for number in range(count)]
        declared = {"types": {"T": {"fields": {}}}, "forms": {"form": {"root": "T"}}}
        yield Case(declared, [{"root": names[0], "objects": {name: {"type": "T"} for name in names}}], "limits")


EDGES = [*edges_of_texts(), *edges_of_numbers(), *edges_of_others(), *limits()]


# What is said of it


def run(words, given=""):
    return subprocess.run([PROGRAM, *words], input=given.encode(), capture_output=True, timeout=300)


def code_of(reply):
    return "taken" if "ok" in reply else reply.get("fault", reply["error"])


class Told(NamedTuple):
    """A case, the schema that formd writes of the form, and what it replies to each bundle."""

    case: Case
    form: str
    schema: dict
    replies: list

    def judged(self):
        return zip(self.case.bundles, self.replies, strict=True)


def by_chance(number):
    """Declarations of a number that are made at random, and bundles."""
    chance = random.Random(number)
    declared = declarations_of(chance)
    made, bundles = Bundles(chance, declared), {}
    while len(bundles) < BUNDLES:
        bundle = made.bundle() if len(bundles) % 2 else made.broken()
        bundles[json.dumps(bundle)] = bundle
    return Case(declared, list(bundles.values()))


def told(number):
    """What formd says of the case of a number."""
    case = EDGES[number] if number < len(EDGES) else by_chance(number)
    [form] = case.declared["forms"]
    with tempfile.TemporaryDirectory() as folder:
        file = Path(folder) / "declarations.json"
        file.write_text(json.dumps(case.declared))
        explained = run(["explain", file, "--schema", form])
        lines = [json.dumps({"do": "put", "id": "r", "form": form, "bundle": bundle}, ensure_ascii=False) for bundle in case.bundles]
        judged = run(["judge", "--declarations", file, f"--now={NOW}"], "".join(line + "\n" for line in lines))
    replies = [json.loads(reply) for reply in judged.stdout.splitlines()]
    if explained.returncode or judged.returncode or len(replies) != len(lines):
        raise SystemExit(f"{json.dumps(case.declared)}\n{explained.stdout.decode()}{explained.stderr.decode()}{judged.stderr.decode()}{len(replies)} replies to {len(lines)} lines")
    return Told(case, form, json.loads(explained.stdout), replies)


def by_jsonschema(kind, told, formats=None):
    kind.check_schema(told.schema)
    judge = kind(told.schema, format_checker=formats)
    return [judge.is_valid(bundle) for bundle in told.case.bundles]


def by_2020(told):
    return by_jsonschema(jsonschema.Draft202012Validator, told)


def by_07(told):
    return by_jsonschema(jsonschema.Draft7Validator, told, jsonschema.Draft7Validator.FORMAT_CHECKER)


def by_ajv(all_told, flag):
    given = "".join(json.dumps([told.schema, told.case.bundles]) + "\n" for told in all_told)
    ran = subprocess.run(["node", "-e", AJV, flag], input=given, capture_output=True, text=True, env=NODE)
    if ran.returncode:
        raise SystemExit(ran.stderr)
    return [json.loads(line) for line in ran.stdout.splitlines()]


def has_ajv():
    return bool(shutil.which("node")) and subprocess.run(["node", "-e", "require('ajv')"], capture_output=True, env=NODE).returncode == 0


# What is looked for


# A whole number that isn't written as one.
WITH_A_POINT = re.compile(r"[ \[]-?[0-9]+\.0[,}\]]")
# A path that stays in one object: its field, or nothing where the whole object is meant.
OWN_PATH = re.compile(r'(\w*)(?:\[(?:[0-9]+|"(?:[^"\\]|\\.)*")\]|\.<(?:list element|map key|map value)>)*')


def parts(declared, name):
    """The names of the constraints that one is made of, its own among them."""
    made_of = declared.get("constraints", {}).get(name, {}).get("compose", [])
    return {name}.union(*(parts(declared, part["constraint"]) for part in made_of))


def comments(schema):
    """The words of all comments in a schema."""
    if isinstance(schema, list):
        return set().union(*map(comments, schema))
    if isinstance(schema, dict):
        return set(schema.get("$comment", "").split()).union(*map(comments, schema.values()))
    return set()


def is_said_of_root(told, bundle, violation):
    """Whether a violation is one of the root's own, and no comment at its place names the constraint. What is asked of a whole object has the path of the reference to it."""
    own = OWN_PATH.fullmatch(violation["path"])
    is_of_whole = "object" in told.case.declared.get("constraints", {}).get(violation["constraint"], {}).get("rule", {})
    if own is None or is_of_whole and own[1]:
        return False
    validated = told.schema["$defs"][bundle["objects"][bundle["root"]]["type"] + ".validated"]
    fields = validated["properties"]["fields"]
    places = {"": {"$comment": validated.get("$comment", "")}} | fields["properties"] | {pattern[1:-1]: place for pattern, place in fields.get("patternProperties", {}).items()}
    return not parts(told.case.declared, violation["constraint"]) & comments(places[own[1]])


def is_said(told, bundle, reply):
    """Whether a schema says why formd refuses a bundle."""
    code = code_of(reply)
    if code == "B5":
        return not WITH_A_POINT.search(json.dumps(bundle))
    if code not in ("B2", "B9", "C10"):
        return code in ("C3", "B1", "B3", "B4")
    is_named = bundle["root"] in ("root", told.form)
    if code == "B2" or not is_named and len(bundle["objects"]) > 1:
        return is_named
    return code == "B9" or any(is_said_of_root(told, bundle, violation) for violation in reply["records"][0]["violations"])


def show(why, told, bundle):
    print(f"{why}: {json.dumps(bundle, ensure_ascii=False):.2000}\n  {json.dumps(told.case.declared, ensure_ascii=False)}\n  {json.dumps(told.schema, ensure_ascii=False)}")


def tell(name, pairs):
    """Prints how much of what formd refuses a reader refuses."""
    refused, count = Counter(), Counter()
    for told, found in pairs:
        for (_, reply), is_taken in zip(told.judged(), found, strict=True):
            count[code_of(reply)] += 1
            refused[code_of(reply)] += not is_taken
    both, either = refused.total() - refused["taken"], count.total() - count["taken"]
    by_code = ", ".join(f"{code} {refused[code]}/{count[code]}" for code in sorted(count, key=lambda code: (len(code), code)) if code != "taken")
    print(f"{name}: of {count.total()} bundles formd takes {count['taken']}, of which {refused['taken']} are refused; of {either} others {both} are, {100 * both / either:.1f} %: {by_code}", flush=True)


def compare(name, all_told, answers):
    """Prints what a reader says of the bundles. Gives how often it is wrong."""
    pairs = list(zip(all_told, answers, strict=True))
    tell(f"{name}, at random", [(told, found) for told, found in pairs if not told.case.edge])
    tell(f"{name}, near bounds", [(told, found) for told, found in pairs if told.case.edge])
    wrong = [(told, bundle) for told, found in pairs for (bundle, reply), is_taken in zip(told.judged(), found, strict=True) if "ok" in reply and not is_taken]
    for told, bundle in wrong[:5]:
        show(f"{name} refuses what formd takes", told, bundle)
    return len(wrong)


def unsaid(all_told, readers):
    """How many bundles each reader takes though the schema says why formd refuses them. One reader may be lenient, by numbers of 53 bits, or by a `$` in front of a line's end."""
    said = wrong = 0
    for told, *found in zip(all_told, *readers, strict=True):
        for (bundle, reply), *taken in zip(told.judged(), *found, strict=True):
            if "ok" not in reply and is_said(told, bundle, reply):
                said += 1
                wrong += all(taken)
                if all(taken) and wrong <= 5:
                    show(f"taken by each reader, though the schema says why not ({json.dumps(reply, ensure_ascii=False):.500})", told, bundle)
    print(f"of {said} bundles of which the schemas say why formd refuses them, {wrong} are taken by each reader", flush=True)
    return wrong


def dull(all_told, readers):
    """Where the comparison shows little, and how often: hardly a bundle that formd takes, or that it refuses as a reader does; a constraint by itself that always holds, or never, or that no schema says."""
    taken, refused, seen = Counter(), Counter(), Counter()
    for told, *found in zip(all_told, *readers, strict=True):
        for (_, reply), *answers in zip(told.judged(), *found, strict=True):
            (taken if "ok" in reply else refused)[told.case.edge] += 1
            seen[told.case.edge] += "ok" not in reply and not all(answers)
    made = taken[""] + refused[""]
    found = [name for name in BUILT_IN if not taken[name] or not refused[name] or not seen[name] and name not in TIMES]
    if 100 * taken[""] < TAKEN * made or 100 * seen[""] < CAUGHT * refused[""]:
        found.append("")
    for name in found:
        print(f"says little, by {name or 'chance'}: formd takes {taken[name]} bundles and refuses {refused[name]}, of which the readers refuse {seen[name]}")
    return len(found)


def answered(all_told):
    """What each reader says that is installed: whether it takes the bundles of each case."""
    if jsonschema:
        with ProcessPoolExecutor(os.cpu_count()) as pool:
            yield "jsonschema 2020-12", list(pool.map(by_2020, all_told))
            yield "jsonschema draft-07 with formats", list(pool.map(by_07, all_told))
    if has_ajv():
        for flag in ("u", ""):
            yield f"Ajv, patterns with the flag {flag or 'none'}", by_ajv(all_told, flag)


def main():
    begun, wrong, readers = time.monotonic(), 0, []
    with ProcessPoolExecutor(os.cpu_count()) as pool:
        all_told = list(pool.map(told, range(len(EDGES) + DECLARATIONS)))
    for name, answers in answered(all_told):
        wrong += compare(name, all_told, answers)
        readers.append(answers)
    if not readers:
        raise SystemExit("neither jsonschema nor Ajv is installed")
    amiss = dull(all_told, readers)
    if len(readers) == 4:
        amiss += unsaid(all_told, readers)
    else:
        print("skipped, as not both jsonschema and Ajv are installed: what schemas say and each reader takes")
    put = sum(len(told.case.bundles) for told in all_told)
    print(f"{len(all_told)} declarations, {put} bundles, {len(readers)} readers, {time.monotonic() - begun:.0f} s: {wrong} times a schema refuses what formd takes")
    return 1 if wrong or amiss else 0


if __name__ == "__main__":
    sys.exit(main())
