#!/usr/bin/env python3
"""Times the next opening of files, which reads every row: behind an orderly end, and behind a kill.

    openings.py                   seconds and peak memory, of 1,000 to 1,000,000 records of one object and of eleven
    openings.py --program FILE    with another build of formd than the one that `make` leaves
    openings.py --counts 1000,10000    with other numbers of records
    openings.py --where FOLDER    with the files there, and not beside this script

formd makes the files, by batches of 64 puts of the demonstration's records (one object) and of orders (eleven) of `shapes.py`. An opening ends with the reply to the first get;
what Linux tells of the process then are the processor's seconds and the peak (VmHWM). The kill (SIGKILL) is behind 500 further puts, which the log alone holds. The system has the
file in its memory.
"""

import argparse
import subprocess
import sys
import tempfile
from pathlib import Path

from bench import BATCH, FORMD
from migration import opened
from shapes import SHAPES, compact

RUNS = 3
BEHIND = 500


def puts(shape, numbers):
    _, form, make, _ = SHAPES[shape]
    return ({"do": "put", "id": f"r{number * 7919 % 10000019:07}", "form": form, "bundle": make(number)} for number in numbers)


def fill(words, shape, count):
    """Makes a file of so many records, and ends in order."""
    program = subprocess.Popen(words, stdin=subprocess.PIPE, stdout=subprocess.PIPE)
    for begin in range(0, count, BATCH):
        batch = {"do": "batch", "parts": list(puts(shape, range(begin, min(begin + BATCH, count))))}
        program.stdin.write((compact(batch) + "\n").encode())
        program.stdin.flush()
        if program.stdout.readline() != b'{"ok":"batch"}\n':
            raise SystemExit("a batch isn't taken")
    program.stdin.close()
    if program.wait() != 0:
        raise SystemExit("formd has failed")


def kill(words, shape, count):
    """Puts further records and kills the program."""
    program = subprocess.Popen(words, stdin=subprocess.PIPE, stdout=subprocess.PIPE)
    for put in puts(shape, range(count, count + BEHIND)):
        program.stdin.write((compact(put) + "\n").encode())
        program.stdin.flush()
        if program.stdout.readline() != b'{"ok":"put"}\n':
            raise SystemExit("a put isn't taken")
    program.kill()
    program.wait()


def shown(reply, put):
    return reply == (compact({"bundle": put["bundle"], "form": put["form"], "id": put["id"], "ok": "get"}) + "\n").encode()


def measure(program, counts, where):
    print(f"{'shape':<14}{'records':>9}{'file MB':>9}{'seconds':>9}{'processor s':>13}{'us a record':>13}{'peak MB':>9}{'KB a record':>13}{'behind a kill s':>17}{'log MB':>8}{'peak MB':>9}")
    for shape in ("demonstration", "order"):
        for count in counts:
            with tempfile.TemporaryDirectory(dir=where) as name:
                folder = Path(name)
                file = folder / "g.db"
                (folder / "d.json").write_text(compact(SHAPES[shape].declarations))
                words = [program, "serve", "--declarations", folder / "d.json", "--database", file, "--now", "0"]
                fill(words, shape, count)
                size = file.stat().st_size / 1e6
                (last,) = puts(shape, [count - 1])
                runs = sorted(opened(words, file, last["id"]) for _ in range(RUNS))
                kill(words, shape, count)
                (newest,) = puts(shape, [count + BEHIND - 1])
                log = Path(f"{file}-wal").stat().st_size / 1e6
                killed = opened(words, file, newest["id"])
                if not all(shown(run[-1], last) for run in runs) or not shown(killed[-1], newest):
                    raise SystemExit("a record isn't shown")
            took, busy, peak, _, _ = runs[RUNS // 2]
            print(
                f"{shape:<14}{count:>9,}{size:>9.1f}{took:>9.2f}{busy:>13.2f}{busy / count * 1e6:>13.1f}{peak:>9.1f}{peak * 1000 / count:>13.2f}{killed[0]:>17.2f}{log:>8.1f}{killed[2]:>9.1f}",
                flush=True,
            )


def main():
    words = argparse.ArgumentParser()
    words.add_argument("--program", type=Path, default=FORMD)
    words.add_argument("--counts", default="1000,10000,100000,1000000")
    words.add_argument("--where", type=Path, default=Path(__file__).resolve().parent)
    given = words.parse_args()
    measure(given.program.resolve(), [int(count) for count in given.counts.split(",")], given.where)


if __name__ == "__main__":
    sys.exit(main())
