#!/usr/bin/env python3
"""Compares docs/declarations.schema.json with what the program takes: what formd takes the schema takes, and what is F2 it refuses as far as a schema can.

    tests/schema.py                  with the program that `make` leaves
    tests/schema.py PROGRAM          with another build of formd
    tests/schema.py PROGRAM short    a part of the texts

The texts are all declarations of tests/data/rows, of tests/data/mistakes and of the examples, and others that are made of those that are taken by random changes.
Each is judged by formd and by the schema: by `jsonschema` (Debian: python3-jsonschema) as 2020-12 and as draft-07, and by Ajv (node-ajv) where it is installed.
"""

import contextlib
import json
import os
import random
import shutil
import subprocess
import sys
import tempfile
import threading
from collections import Counter, defaultdict
from pathlib import Path
from types import SimpleNamespace

import jsonschema

sys.dont_write_bytecode = True
import rows  # noqa: E402

SCHEMA = json.loads((rows.ROOT / "docs" / "declarations.schema.json").read_text())
MISTAKES = rows.ROOT / "tests" / "data" / "mistakes"
SHORT = sys.argv[2:] == ["short"]
# one text of how many, of what length at most, and how many are made
SHARE, LONGEST, MADE = (6, 3000, 400) if SHORT else (1, 1 << 30, 10_000)
LINE = 1_000_000
AJV = """
const Ajv = require('ajv');
const { $schema, ...schema } = JSON.parse(require('fs').readFileSync(process.argv[1]));
const judge = new (Ajv.default ?? Ajv)({ strict: false, allErrors: process.argv[2] === 'places', jsonPointers: true }).compile(schema);
for (const line of require('fs').readFileSync(0, 'utf8').split('\\n')) {
  if (!line) continue;
  const isTaken = judge(JSON.parse(JSON.parse(line)));
  if (process.argv[2] === 'places') console.log(JSON.stringify((judge.errors ?? []).map((error) => error.instancePath ?? error.dataPath)));
  else console.log(isTaken ? 'taken' : 'refused');
}
"""
# Others than what is to be expected there.
ODD = [None, True, False, 0, 7, -1, 1.5, 1 << 63, 1 << 32, "", "x", "T", "text", "Default", "Size", "Min", "{", "a b", [], ["x"], [7], {}, {"x": 7}, {"ref": "T"}, {"type": "text"}]
NAMES = ["types", "fields", "type", "constraints", "constraint", "with", "groups", "message", "valid", "convert", "keys", "root", "inherits", "sequence", "rule", "single", "min", "x"]
# Mistakes, each with the place in the declarations at which an editor shows it.
SHOWN = [
    ('{"types":{"T":{"feilds":{}}},"forms":{}}', ["types", "T"]),
    ('{"types":{"T":{"fields":{"f":{"type":"string"}}}},"forms":{}}', ["types", "T", "fields", "f", "type"]),
    ('{"types":{"T":{"fields":{"f":{"type":"integer","constraints":[{"constraint":"Size"}]}}}},"forms":{}}', ["types", "T", "fields", "f", "constraints", 0, "constraint"]),
    ('{"types":{"T":{"fields":{"f":{"type":"text","constraints":[{"constraint":"Size","with":{"maximum":3}}]}}}},"forms":{}}', ["types", "T", "fields", "f", "constraints", 0, "with"]),
    ('{"types":{},"forms":{},"messages":{"k":"{"}}', ["messages", "k"]),
]


def texts_of_rows():
    """What tests/rows.py gives to the program as declarations: it is run with a stand-in for the program, which keeps them."""
    texts = {}

    def run(words, input=None, **_):
        file = words[words.index("--declarations") + 1] if "--declarations" in words else words[-1]
        texts[file.read_bytes().decode(errors="replace")] = None
        if input is None:
            return SimpleNamespace(returncode=0, stdout="", stderr="")
        for line in input.decode().split("\n"):
            if line.startswith('{"do":"redeclare","text":"'):
                with contextlib.suppress(ValueError):
                    texts[str(json.loads(line)["text"])] = None
        return SimpleNamespace(returncode=0, stdout=b"\n" * input.count(b"\n"), stderr=b"")

    kept, rows.subprocess = rows.subprocess, SimpleNamespace(run=run)
    with tempfile.TemporaryDirectory() as folder:
        for file in sorted(rows.DATA.glob("*.rows")):
            for table in rows.tables(file):
                for _ in rows.KINDS[table.kind](table, folder):
                    pass
    rows.subprocess = kept
    return list(texts)


def mistakes():
    """Declarations with mistakes that somebody wrote down who hadn't seen the program."""
    return [json.loads(line)["text"] for line in (MISTAKES / "in_declarations.jsonl").read_text().splitlines()]


def texts_of_files():
    folders = rows.ROOT / "examples", rows.ROOT / "tests" / "rental", MISTAKES
    return [file.read_text() for folder in folders for file in sorted(folder.glob("*.json"))]


def held_in(value, name=""):
    """All that a value has in it, itself among them, each with the name of the member under which it stands, of an element that of its list."""
    yield name, value
    if isinstance(value, (list, dict)):
        for key, held in value.items() if isinstance(value, dict) else ((name, held) for held in value):
            yield from held_in(held, key)


def changed(chance, text, by_name):
    """Declarations with one to three random changes: half of them put something in a place that stands under that name in others."""
    value = json.loads(text)
    for _ in range(chance.randrange(1, 4)):
        name, one = chance.choice([(name, held) for name, held in held_in(value) if isinstance(held, (list, dict))])
        odd = json.loads(json.dumps(chance.choice(ODD)))
        keys = list(one) if isinstance(one, dict) else list(range(len(one)))
        if keys and chance.random() < 0.5:
            key = chance.choice(keys)
            one[key] = json.loads(chance.choice(by_name[key if isinstance(one, dict) else name] or ["7"]))
        elif keys and chance.random() < 0.3:
            one[chance.choice(keys)] = odd
        elif keys and chance.random() < 0.5:
            key = chance.choice(keys)
            held = one.pop(key)
            if isinstance(one, dict) and chance.random() < 0.6:
                one[chance.choice(NAMES)] = held
        elif isinstance(one, dict):
            one[chance.choice(NAMES)] = odd
        else:
            one.append(odd)
    return json.dumps(value, ensure_ascii=False)


def code_of(reply):
    return "taken" if "ok" in reply else reply.get("fault", reply["error"])


def judged(texts):
    """The code of the fault of each text, or `taken`: by redeclares of one run of the program, but for those that are too long for a line."""
    lines = [json.dumps({"do": "redeclare", "text": text}, ensure_ascii=False) for text in texts]
    with tempfile.TemporaryDirectory() as folder:
        file = Path(folder) / "first.json"
        file.write_text('{"types":{},"forms":{}}')
        given = "".join(line + "\n" for line in lines if len(line.encode()) < LINE)
        ran = subprocess.run([rows.PROGRAM, "rehearse", "--declarations", file], input=given.encode(), stdout=subprocess.PIPE, stderr=subprocess.DEVNULL)
        replies = iter([json.loads(line) for line in ran.stdout.splitlines()])
        return [code_of(next(replies)) if len(line.encode()) < LINE else rows.judged(folder, text).split(" ")[0] for text, line in zip(texts, lines)]


def by_jsonschema(validator, texts):
    made = validator(SCHEMA)
    return ["taken" if made.is_valid(json.loads(text)) else "refused" for text in texts]


def by_ajv(texts, what="answers"):
    """What Ajv says of each text, or the places of all that it finds wrong; None where it isn't installed."""
    if not shutil.which("node"):
        return None
    words = ["node", "-e", AJV, rows.ROOT / "docs" / "declarations.schema.json", what]
    given = "".join(json.dumps(text) + "\n" for text in texts)
    ran = subprocess.run(words, input=given, capture_output=True, text=True, env={**os.environ, "NODE_PATH": "/usr/share/nodejs"})
    if "Cannot find module 'ajv'" in ran.stderr:
        return None
    if ran.returncode:
        raise SystemExit(ran.stderr)
    return ran.stdout.splitlines()


def is_beyond(text, as_double):
    """Whether there is a number that a schema can't tell from a whole one of 64 bits, as formd can by its text; as a double also one that is rounded to such."""
    found = []
    whole, other = lambda digits: found.append(digits == "-0" or as_double and abs(int(digits)) >= 1 << 63), lambda digits: found.append(float(digits).is_integer())
    json.loads(text, parse_int=whole, parse_float=other)
    return any(found)


def compare(name, texts, codes, answers):
    """Prints how many of each fault the schema refuses: how many texts it judges wrongly."""
    refused, all_of, wrong = Counter(), Counter(codes), 0
    for text, code, answer in zip(texts, codes, answers):
        refused[code] += answer == "refused"
        if (code == "taken" and answer == "refused") or (code == "F2" and answer == "taken" and not is_beyond(text, name == "Ajv")):
            wrong += 1
            print(f"{name}: {code} for formd, {answer} by the schema: {text[:400]}")
    told = ", ".join(f"{code} {refused[code]}/{all_of[code]}" for code in sorted(all_of, key=lambda code: (code != "taken", len(code), code)))
    print(f"{name} refuses {refused.total() - refused['taken']} of {len(texts) - all_of['taken']} that formd refuses: {told}", flush=True)
    return wrong


def shown():
    """How many mistakes aren't shown at their places."""
    wrong, by_name = 0, {}
    for validator in jsonschema.Draft202012Validator, jsonschema.Draft7Validator:
        by_name[validator.__name__] = [["".join(f"/{step}" for step in error.absolute_path) for error in validator(SCHEMA).iter_errors(json.loads(text))] for text, _ in SHOWN]
    by_name["Ajv"] = [json.loads(line) for line in by_ajv([text for text, _ in SHOWN], "places") or []]
    for name, shown_at in by_name.items():
        for (text, place), places in zip(SHOWN, shown_at):
            if "".join(f"/{step}" for step in place) not in places:
                wrong += 1
                print(f"{name}: {text}: wanted at {place}, shown at {places}")
    return wrong


def main():
    for validator in jsonschema.Draft202012Validator, jsonschema.Draft7Validator:
        validator.check_schema(SCHEMA)
    chance = random.Random(1)
    texts = [text for text in dict.fromkeys(texts_of_rows() + texts_of_files()) if len(text) <= LONGEST]
    texts = chance.sample(texts, len(texts) // SHARE)
    codes = judged(texts)
    taken = [text for text, code in zip(texts, codes) if code == "taken" and len(text) < 4000]
    by_name = defaultdict(list)
    for text in taken:
        for name, held in held_in(json.loads(text)):
            by_name[name].append(json.dumps(held))
    made = [changed(chance, chance.choice(taken), by_name) for _ in range(MADE)]
    both = [(text, code) for text, code in zip(texts + made, codes + judged(made)) if code != "F1"]
    texts, codes = [text for text, _ in both], [code for _, code in both]
    wrong = shown()
    for name, validator in (("2020-12", jsonschema.Draft202012Validator), ("draft-07", jsonschema.Draft7Validator)):
        wrong += compare(name, texts, codes, by_jsonschema(validator, texts))
    answers = by_ajv(texts)
    if answers is None:
        print("Ajv isn't installed: left out")
    else:
        wrong += compare("Ajv", texts, codes, answers)
    print(f"{len(both)} declarations, {MADE} of them made by changes, {len(SHOWN)} mistakes at their places: {wrong} judged wrongly")
    written = [text for text, code in zip(mistakes(), judged(mistakes())) if code not in ("taken", "F1")]
    answers = by_jsonschema(jsonschema.Draft202012Validator, written)
    print(f"of {len(written)} mistakes in declarations that somebody wrote down the schema refuses {answers.count('refused')}")
    print("F2 that no schema can tell: a whole number that is written as 1.0, 1e0 or -0; by a reader that knows doubles alone also one that is rounded to 64 bits")
    return 1 if wrong else 0


if __name__ == "__main__":
    # declarations may nest 127 deep, and jsonschema takes many calls for each level
    threading.stack_size(1 << 29)
    sys.setrecursionlimit(100_000)
    ended = []
    thread = threading.Thread(target=lambda: ended.append(main()))
    thread.start()
    thread.join()
    sys.exit(ended[0] if ended else 1)
