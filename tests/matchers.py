#!/usr/bin/env python3
"""Puts 1,000 texts under patterns that fill a matcher's tables, by the program that `make` leaves: each is judged as Python's `re` does.

    tests/matchers.py [PROGRAM]

Two fields share one pattern, and so its matcher. Texts of some thousand bytes, after which a matcher is dropped, stand among short ones.
"""
import json
import random
import re
import subprocess
import tempfile
from pathlib import Path

from looks import named_program

PROGRAM = named_program()
HOSTILE = "(?:[ab]*a[ab]{40}|[ab]*b[ab]{35}c)"
PLAIN = "[ab]{1,60}"
LENGTHS = (1, 41, 42, 60, 61, 200, 1500, 6000)


def field(pattern):
    return {"type": "text", "constraints": [{"constraint": "Pattern", "with": {"regexp": pattern}}]}


def main():
    chosen = random.Random(7)
    texts = ["".join(chosen.choice("ab") for _ in range(chosen.choice(LENGTHS))) + chosen.choice(("", "", "c")) for _ in range(1000)]
    patterns = {"one": HOSTILE, "other": HOSTILE, "plain": PLAIN}
    declarations = {"types": {"T": {"fields": {name: field(pattern) for name, pattern in patterns.items()}}}, "forms": {"f": {"root": "T"}}}
    objects = [{"a": {"type": "T", "fields": {"one": text, "other": text[1:], "plain": text}}} for text in texts]
    puts = [{"do": "put", "id": "r", "form": "f", "bundle": {"root": "a", "objects": it}} for it in objects]
    with tempfile.TemporaryDirectory() as name:
        folder = Path(name)
        (folder / "d.json").write_text(json.dumps(declarations))
        words = [PROGRAM, "serve", "--declarations", folder / "d.json", "--database", folder / "g.db", "--now", "0"]
        lines = "".join(json.dumps(put) + "\n" for put in puts)
        replies = subprocess.run(words, input=lines, capture_output=True, text=True, check=True).stdout.splitlines()
    if len(replies) != len(puts):
        raise SystemExit(f"{len(replies)} replies to {len(puts)} puts")
    for it, reply in zip(objects, map(json.loads, replies)):
        given = it["a"]["fields"]
        wanted = sorted(key for key, text in given.items() if not re.fullmatch(patterns[key], text))
        told = sorted(violation["path"] for record in reply.get("records", ()) for violation in record["violations"])
        if told != wanted:
            raise SystemExit(f"{told} in place of {wanted}: {given}")
    print(f"matchers: {len(puts)} puts, each judged as by re")


main()
