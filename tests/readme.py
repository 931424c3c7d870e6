#!/usr/bin/env python3
"""Runs the commands and the lines that README.md shows, and compares what they answer with what it shows.

    tests/readme.py            with the program that `make` leaves
    tests/readme.py PROGRAM    with another build of formd

Indented lines that begin with `formd` or `jq` are commands: they run in a new folder that has `order.json` of `examples/`, the same once more as
`new.json`, and the lines of `examples/order.jsonl`, and have to end with status 0. The form is the indented text that begins with `{"types"`;
an indented command line is followed by its reply, and the last reply is that of the put before it with the name that the text says.
The version and the kit that it names are those of `formd version`; of `rt version` too, where `rt` is on the path.
"""

import itertools
import json
import os
import re
import shutil
import subprocess
import sys
import tempfile
from pathlib import Path

from looks import ROOT, end, look, named_program

PROGRAM = named_program()


def versions(text):
    """What README.md says of the version and the kit, and what the programs say."""
    told = subprocess.run([PROGRAM, "version"], capture_output=True, text=True).stdout
    shown, toolchain = re.search(r"\*\*Version\*\* (\S+)", text)[1], re.search(r"`rt version`: `([^`]+)`", text)[1]
    found = re.fullmatch(r"formd (\S+), files of version \d+, (\S+)\n", told)
    yield (shown, toolchain.split()[0]), found and found.groups()
    if shutil.which("rt"):
        yield toolchain, subprocess.run(["rt", "version"], capture_output=True, text=True).stdout.strip()


def main():
    text = (ROOT / "README.md").read_text()
    blocks = ["".join(line[4:] for line in block.splitlines(keepends=True)) for block in re.findall(r"(?:^    .*\n)+", text, re.MULTILINE)]
    for shown, told in versions(text):
        look("what README.md says of a version", shown, told)
    with tempfile.TemporaryDirectory() as name:
        room = Path(name)
        (room / "bin").mkdir()
        (room / "bin" / "formd").symlink_to(PROGRAM)
        environment = {**os.environ, "PATH": f"{room}/bin:{os.environ['PATH']}", "LC_ALL": "C.UTF-8"}
        form = room / "form.json"
        form.write_text(next(block for block in blocks if block.startswith('{"types"')))
        lines, replies = [], []
        for line in "".join(block for block in blocks if block.startswith('{"do"')).splitlines():
            (lines if line.startswith('{"do"') else replies).append(line)
        (refusal,) = [block.strip() for block in blocks if block.startswith('{"error"')]
        long = json.loads(refusal)["records"][0]["violations"][0]["value"]
        lines.append(lines[0].replace('"abc"', json.dumps(long, ensure_ascii=False)))
        ran = subprocess.run(["formd", "rehearse", "--declarations", form, "--now", "0"], input="\n".join(lines), capture_output=True, text=True, env=environment)
        for line, reply, wanted in itertools.zip_longest(lines, ran.stdout.splitlines(), [*replies, refusal]):
            look(f"the reply to {line}", reply, wanted)
        order = (ROOT / "examples" / "order.json").read_text()
        for file in "order.json", "new.json":
            (room / file).write_text(order)
        (room / "lines").write_text((ROOT / "examples" / "order.jsonl").read_text())
        commands = [line for block in blocks for line in block.splitlines() if line.startswith(("formd ", "jq "))]
        if not commands:
            sys.exit("README.md shows no commands")
        for command in commands:
            ran = subprocess.run(["bash", "-c", command.replace("[--now SECONDS]", "< /dev/null")], cwd=room, env=environment, capture_output=True, text=True, timeout=60)
            look(f"$ {command}", ran.returncode and f"status {ran.returncode}: {ran.stdout}{ran.stderr}", 0)
    return end("{count} lines, commands and versions of README.md, {failed} differ")


if __name__ == "__main__":
    sys.exit(main())
