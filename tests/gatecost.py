#!/usr/bin/env python3
"""Runs the gate and prints its processor seconds by kind of task and by crate.

    tests/gatecost.py [COMMAND ..]      (make test, where no command is named)

It looks twice a second at the toolchain's processes below the command, so the last half second of
each is lost; it changes nothing. The kinds: `proof` a crate's proof, `tests` the proof and the build
of a crate's tests, `edit` the wrong bodies of a crate (the first of them pays the crate's proof once
more), `compile` the builds of a program.
"""
import os
import subprocess
import sys
import time
from collections import defaultdict

TICK = os.sysconf("SC_CLK_TCK")
KINDS = ("proof", "tests", "edit", "compile")


def stat_of(pid):
    """The fields of a process's stat behind its name."""
    with open(f"/proc/{pid}/stat", encoding="utf-8", errors="replace") as file:
        return file.read().rpartition(")")[2].split()


def is_below(pid, top):
    """Whether a process is the command or stands below it."""
    while pid > 1:
        if pid == top:
            return True
        pid = int(stat_of(pid)[1])
    return False


def kind_of(words):
    """The kind of task and the crate that a process's words name, if it is the toolchain's."""
    if len(words) < 2 or not words[0].endswith("/rattle") or words[1] not in ("check", "build"):
        return None
    crate = words[words.index("--crate-name") + 1] if "--crate-name" in words else "?"
    kept = words[words.index("--incremental") + 1] if "--incremental" in words else ""
    if "--crate-checked" in words:
        return "compile", crate
    if "--test" in words:
        return "tests", crate
    return ("edit" if "rt-edits-" in kept else "proof"), crate


class Task:
    """A process of the gate: what it is, its processor seconds and its largest memory in MB."""

    def __init__(self, kind, crate):
        self.kind, self.crate, self.seconds, self.memory = kind, crate, 0.0, 0

    def look(self, stat):
        # Forked copies stand in /proc themselves; what a build starts is in its children's time.
        own = int(stat[11]) + int(stat[12])
        children = int(stat[13]) + int(stat[14]) if self.kind in ("compile", "tests") else 0
        self.seconds = (own + children) / TICK
        self.memory = max(self.memory, int(stat[21]) * 4096 >> 20)


def look(top, tasks):
    """Takes the time of each process below the command once more."""
    for pid in filter(str.isdigit, os.listdir("/proc")):
        try:
            stat = stat_of(pid)
            key = pid, stat[19]
            if key not in tasks:
                with open(f"/proc/{pid}/cmdline", encoding="utf-8", errors="replace") as file:
                    found = kind_of(file.read().split("\0"))
                if not found or not is_below(int(pid), top):
                    continue
                tasks[key] = Task(*found)
                if found[0] == "proof" and "/rt-edit" in os.readlink(f"/proc/{pid}/cwd"):
                    tasks[key].kind = "edit"
            tasks[key].look(stat)
        except (OSError, IndexError, ValueError):
            pass


def report(tasks, elapsed):
    """Prints the table by kind and crate."""
    rows = defaultdict(lambda: [0, 0.0, 0])
    for task in tasks.values():
        row = rows[task.kind, task.crate]
        row[:] = row[0] + 1, row[1] + task.seconds, max(row[2], task.memory)
    total = sum(row[1] for row in rows.values()) or 1.0
    print(f"{'kind':8} {'crate':20} {'runs':>4} {'cpu s':>7} {'each':>6} {'share':>5} {'MB':>5}")
    for kind in KINDS:
        of_kind = {crate: row for (its, crate), row in rows.items() if its == kind}
        for crate, (runs, seconds, memory) in sorted(of_kind.items(), key=lambda it: -it[1][1]):
            share = 100 * seconds / total
            print(f"{kind:8} {crate:20} {runs:4} {seconds:7.0f} {seconds / runs:6.1f} {share:4.0f}% {memory:5}")
        runs, seconds = sum(row[0] for row in of_kind.values()), sum(row[1] for row in of_kind.values())
        print(f"{kind:8} {'ALL':20} {runs:4} {seconds:7.0f} {'':6} {100 * seconds / total:4.0f}%")
    print(f"total {total:.0f} processor seconds, {elapsed:.0f} s by the clock")


def main():
    began, tasks = time.time(), {}
    gate = subprocess.Popen(sys.argv[1:] or ["make", "test"])
    while gate.poll() is None:
        look(gate.pid, tasks)
        time.sleep(0.5)
    report(tasks, time.time() - began)
    sys.exit(gate.returncode)


main()
