#!/usr/bin/env python3
"""Shows what formd answers: each command line, its reply, and where the line is wrong if it is.

    tests/demonstrate.py DECLARATIONS LINES            by `rt try`, which compiles the program and proves nothing
    tests/demonstrate.py DECLARATIONS LINES PROGRAM    with a build of formd

The lines are answered by `formd rehearse` over a database in memory, at 2024-02-29T12:00:00Z.
"""

import subprocess
import sys
from pathlib import Path

ROOT = Path(__file__).resolve().parent.parent
NOW = "1709208000"


def main():
    declarations, lines = Path(sys.argv[1]).resolve(), Path(sys.argv[2]).read_text()
    program = [str(Path(sys.argv[3]).resolve())] if len(sys.argv) > 3 else ["rt", "try", "--"]
    words = [*program, "rehearse", "--declarations", str(declarations), "--now", NOW]
    ran = subprocess.run(words, input=lines, capture_output=True, text=True, cwd=ROOT / "crates" / "formd")
    replies = [reply for reply in ran.stdout.splitlines() if reply.startswith("{")]
    if len(replies) != len(lines.splitlines()):
        sys.exit(f"{ran.stdout}{ran.stderr}")
    told = [words for words in ran.stderr.splitlines() if words.startswith("line ")]
    for number, (line, reply) in enumerate(zip(lines.splitlines(), replies), 1):
        print(f"> {line}\n{reply}")
        for words in told:
            if words.startswith(f"line {number}: "):
                print(f"  {words}")
    print(f"{len(replies)} lines answered over a database in memory; nothing was kept.")


if __name__ == "__main__":
    main()
