#!/usr/bin/env python3
"""Measures puts that `formd judge` answers, beside puts that `formd serve` answers over a file in memory, and beside the same checks in Python and by Ajv without a store.

    judged.py                  instructions (needs valgrind) and seconds
    judged.py --program FILE   with another build of formd than the one that `make` leaves

Instructions are those of so many puts behind the first, by vectors (see `BY_VECTORS` in bench.py), so that reading the declarations isn't among them; of `serve` each put changes all
objects of a record that is there. Seconds are of runs in turn, of which the middle one counts: the lines come from a file, and the replies go to none. Python reads each line by its json,
checks it by pydantic where that is installed, else by hand, and writes its reply, as formd does. So does Node where it and Ajv are installed (Debian's `node-ajv`): by the JSON Schema that
`formd explain --schema` writes of the form, in which each object has to hold what its type is judged by. `shapes.py` has the shapes.
"""

import argparse
import json
import os
import shutil
import subprocess
import sys
import tempfile
import time
from pathlib import Path

from bench import BY_VECTORS, FORMD, HERE, THERE, commands_over, lines_of, spent, total
from shapes import SHAPES, checks, compact

FEW, MANY = 200, 600
LINES, TURNS = 40_000, 5
ROOM = "/dev/shm"
NODE = {**os.environ, "NODE_PATH": "/usr/share/nodejs"}


def baseline(shape):
    """The same in Python: a process of its own (see `seconds`)."""
    holds = checks(shape)
    for line in sys.stdin:
        command = json.loads(line)
        if not holds(command["bundle"]):
            raise SystemExit("the lines are meant to be taken")
        sys.stdout.write(compact({"ok": command["do"]}) + "\n")
        sys.stdout.flush()


def puts(shape, count):
    _, form, make, _ = SHAPES[shape]
    return [(f"r{number % THERE:06}", form, make(number)) for number in range(count)]


def judging(program, folder):
    return [program, "judge", "--declarations", folder / "d.json", "--now", "0"]


def instructions(program):
    print("shape          a judged put   a put served   of it")
    for shape in SHAPES:
        with tempfile.TemporaryDirectory(dir=ROOM) as name:
            folder = Path(name)
            (folder / "d.json").write_text(compact(SHAPES[shape].declarations))
            judged = [total(judging(program, folder), lines_of(puts(shape, count)), env=BY_VECTORS) for count in (FEW, MANY)]
            first, change = lines_of(puts(shape, THERE)), commands_over(shape)["put, all objects changed"]
            served = []
            for count in (FEW, MANY):
                for left in folder.glob("g.db*"):
                    left.unlink()
                words = [program, "serve", "--declarations", folder / "d.json", "--database", folder / "g.db", "--now", "0"]
                subprocess.run(words, input=first, capture_output=True, check=True)
                lines = "".join(compact(change(THERE + number)) + "\n" for number in range(count)).encode()
                served.append(total(words, lines, env=BY_VECTORS))
        one, other = ((spent(runs[1], "PROGRAM TOTALS") - spent(runs[0], "PROGRAM TOTALS")) / (MANY - FEW) for runs in (judged, served))
        print(f"{shape:<13}{one:>14,.0f}{other:>15,.0f}{one / other:>8.0%}", flush=True)


def took(words, lines, env=None):
    with open(lines, "rb") as given:
        begun = time.monotonic()
        subprocess.run(words, stdin=given, stdout=subprocess.DEVNULL, check=True, env=env)
        return time.monotonic() - begun


def look_at_replies(words, lines):
    """Each line is taken; Python and Node end at one that isn't."""
    if subprocess.run(words, input=lines.read_bytes(), capture_output=True, check=True).stdout != b'{"ok":"put"}\n' * LINES:
        raise SystemExit("the lines are meant to be taken")


def has_ajv():
    return shutil.which("node") is not None and subprocess.run(["node", "-e", 'require("ajv")'], env=NODE, capture_output=True).returncode == 0


def schema(program, folder, shape):
    """The JSON Schema of a shape's form, in which each object has to hold what its type is judged by."""
    told = subprocess.run([program, "explain", folder / "d.json", "--schema", SHAPES[shape].form], capture_output=True, check=True).stdout
    made = json.loads(told)
    del made["$schema"]
    made["properties"]["objects"]["additionalProperties"] = {"anyOf": [{"$ref": f"#/$defs/{kind}.validated"} for kind in SHAPES[shape].declarations["types"]]}
    return made


def seconds(program):
    others = {"Python": lambda folder, shape: ([sys.executable, __file__, "--baseline", shape], None)}
    if has_ajv():
        others["Ajv"] = lambda folder, shape: (["node", HERE / "judged.js", folder / "schema.json"], NODE)
    print(f"\n{LINES:,} puts judged\nshape          formd, s" + "".join(f"{other + ', s':>12}{other + ' / formd':>18}" for other in others) + "   puts a second by formd")
    for shape in SHAPES:
        with tempfile.TemporaryDirectory(dir=ROOM) as name:
            folder = Path(name)
            (folder / "d.json").write_text(compact(SHAPES[shape].declarations))
            (folder / "lines").write_bytes(lines_of(puts(shape, LINES)))
            if "Ajv" in others:
                (folder / "schema.json").write_text(compact(schema(program, folder, shape)))
            look_at_replies(judging(program, folder), folder / "lines")
            words = [(judging(program, folder), None)] + [other(folder, shape) for other in others.values()]
            runs = [[took(given, folder / "lines", env) for given, env in words] for _ in range(TURNS)]
        ours, *theirs = (sorted(turns)[TURNS // 2] for turns in zip(*runs))
        print(f"{shape:<13}{ours:>10.2f}" + "".join(f"{other:>12.2f}{other / ours:>18.2f}" for other in theirs) + f"{LINES / ours:>25,.0f}", flush=True)


def main():
    words = argparse.ArgumentParser(description=__doc__.split("\n")[0])
    words.add_argument("--program", type=Path, default=FORMD)
    words.add_argument("--baseline", choices=list(SHAPES))
    given = words.parse_args()
    if given.baseline:
        return baseline(given.baseline)
    instructions(given.program.resolve())
    return seconds(given.program.resolve())


if __name__ == "__main__":
    main()
