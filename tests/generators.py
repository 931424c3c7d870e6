#!/usr/bin/env python3
"""Hands the schemas that `formd explain --schema` writes of the forms in examples/ to two tools that others have made: warlock makes classes of them, json-editor a browser's form.

    tests/generators.py              with the program that `make` leaves
    tests/generators.py PROGRAM      with another build of formd

A class takes the fields of an object that `formd judge` takes, and refuses a change that it refuses. So does the form of the contact, in jsdom: it has an input for each field, and tells
the fault at the field. Of the order json-editor makes no form: it gives no input to a field that may be null. Needs warlock, and Node with jsdom and json-editor (Debian: python3-warlock,
for /usr/bin/python3; node-jsdom, libjs-json-editor); what isn't there is said and left out.
"""

import json
import os
import shutil
import subprocess
import sys
import tempfile
from pathlib import Path

from looks import ROOT, end, look, named_program

PROGRAM = named_program()
PYTHON = "/usr/bin/python3"
EDITOR = Path("/usr/share/javascript/json-editor/jsoneditor.min.js")
NODE = {**os.environ, "NODE_PATH": "/usr/share/nodejs"}
ORDER = {"number": "AB-1001", "email": "ada@example.org", "placed": "2024-02-28", "deliver_by": "2024-03-04", "pieces": 3, "total": "74.97", "payment": "card", "first_line": "l1"}
LINE = {"article": "Mug", "quantity": 2, "price": "24.99"}
# a form, a type, fields that are taken, and a change that is refused
CASES = [
    ("contact", "Contact", {"name": "Ada", "email": "ada@example.org", "topic": "order"}, {"email": "nobody"}),
    ("order", "Order", ORDER, {"number": "AB-1"}),
    ("order", "Line", LINE, {"quantity": "two"}),
]
CLASSES = """
import json, sys, warlock
schema, fields, change = json.load(sys.stdin)
made = warlock.model_factory(schema)(**fields)
try:
    made.update(change)
    print("taken")
except warlock.InvalidOperation:
    print("refused")
"""
FORM = """
const { JSDOM } = require('jsdom'), fs = require('fs');
const [schema, fields, change] = JSON.parse(fs.readFileSync(0, 'utf8'));
const { window } = new JSDOM('<div id="form"></div>', { runScripts: 'outside-only' });
window.eval(fs.readFileSync(process.argv[2], 'utf8'));
const form = new window.JSONEditor(window.document.getElementById('form'), { schema });
const told = {};
form.on('ready', () => {
  told.inputs = [...window.document.querySelectorAll('input, select, textarea')].map((input) => input.name).filter((name) => name);
  let turn = 0;
  form.on('change', () => {
    const faults = form.validate().map((fault) => fault.path);
    if (turn === 1) told.taken = faults;
    if (turn === 2) { told.refused = faults; console.log(JSON.stringify(told)); process.exit(0); }
    turn += 1;
    form.setValue(turn === 1 ? fields : { ...fields, ...change });
  });
});
"""


def judged(declarations, form, kind, fields):
    """Whether a record is taken whose objects are of a type with these fields, by all of which an order reaches its line."""
    objects = {"l1": {"type": "Line", "fields": fields if kind == "Line" else LINE}} if form == "order" else {}
    root = {"type": "Order", "fields": ORDER if kind == "Line" else fields} if form == "order" else {"type": kind, "fields": fields}
    put = {"do": "put", "id": "r", "form": form, "bundle": {"root": "o", "objects": {"o": root, **objects}}}
    run = subprocess.run([PROGRAM, "judge", "--declarations", declarations], input=json.dumps(put) + "\n", capture_output=True, text=True, check=True)
    return run.stdout == '{"ok":"put"}\n'


def schema_of(declarations, form, kind):
    """The schema of the fields of a type that is judged, with what it refers to."""
    told = json.loads(subprocess.run([PROGRAM, "explain", declarations, "--schema", form], capture_output=True, check=True).stdout)
    return {**told["$defs"][f"{kind}.validated"]["properties"]["fields"], "name": kind, "$defs": told["$defs"]}


def has(words, env=None):
    return shutil.which(words[0]) is not None and subprocess.run(words, capture_output=True, env=env).returncode == 0


def main():
    has_warlock = has([PYTHON, "-c", "import warlock"])
    has_editor = EDITOR.exists() and has(["node", "-e", "require('jsdom')"], NODE)
    for name, there in (("warlock", has_warlock), ("json-editor or jsdom", has_editor)):
        if not there:
            print(f"{name}: not here, left out")
    for form, kind, fields, change in CASES:
        declarations = ROOT / "examples" / f"{form}.json"
        look(f"{kind}: judged", [judged(declarations, form, kind, one) for one in (fields, {**fields, **change})], [True, False])
        given = json.dumps([schema_of(declarations, form, kind), fields, change])
        if has_warlock:
            look(f"{kind}: class", subprocess.run([PYTHON, "-c", CLASSES], input=given, capture_output=True, text=True).stdout, "refused\n")
        if has_editor and form == "contact":
            with tempfile.TemporaryDirectory() as folder:
                (Path(folder) / "form.js").write_text(FORM)
                run = subprocess.run(["node", Path(folder) / "form.js", EDITOR], input=given, capture_output=True, text=True, env=NODE, timeout=60)
            told = json.loads(run.stdout or "{}")
            look(f"{kind}: inputs", sorted(told.get("inputs", [])), sorted(f"root[{field}]" for field in json.loads(given)[0]["properties"]))
            look(f"{kind}: form", [told.get("taken"), set(told.get("refused", []))], [[], {f"root.{field}" for field in change}])
    return end("generators: {count} looked at, {failed} wrong")


if __name__ == "__main__":
    sys.exit(main())
