#!/usr/bin/env python3
"""The merge gate: the house's limits and the paths in documents, `rt ci`, and then the scripts over the programs that it built.

    tests/gate.py              a proof a processor where there are 5 GB of memory for each; else as many as `rt ci` reckons
    RT_JOBS=2 tests/gate.py    two proofs side by side, whatever the memory, a processor each

Where a limit or a path is wrong nothing else is run. The scripts run side by side, one a processor, each in a form of a few minutes at most; `make served` and `make hostile`
run the long forms. A script whose needs aren't on the machine is left out by name and counts as skipped. The last line counts all: `rt ci`'s own figures, and one for each script.
"""

import importlib.util
import os
import re
import shutil
import signal
import subprocess
import sys
import tempfile
import time
from collections import Counter
from pathlib import Path
from typing import NamedTuple

HERE = Path(__file__).resolve().parent
ROOT = HERE.parent
FORMD, CALLS = (ROOT / "crates" / name / "out" / name for name in ("formd", "refused_calls"))
MODULES = ("flask", "jsonschema")
SECONDS = 480
# of memory for each processor
GIGABYTES = 5


class Script(NamedTuple):
    """A script: its words behind the program, what it needs of the machine, and which build of the program it runs."""

    name: str
    words: tuple = ()
    needs: tuple = ()
    program: Path = FORMD

    def __str__(self):
        build = [] if self.program == FORMD else [self.program.name]
        return " ".join([f"tests/{self.name}.py", *build, *(str(word) for word in self.words if word != CALLS)])

    def lacking(self):
        return [need for need in self.needs if not (importlib.util.find_spec(need) if need in MODULES else shutil.which(need))]


# The longest first.
SCRIPTS = [
    Script("rows"),
    Script("rows", program=FORMD.with_name("formd.by-rattle")),
    Script("stops", ("short",), ("gcc",)),
    Script("refused_allocations", (CALLS, 40), ("gcc",)),
    Script("migration", (5000, 8)),
    Script("judge", ("short",)),
    Script("kills", (1, 20)),
    Script("clients", ("short",), ("node",)),
    Script("schema", ("short",), ("jsonschema",)),
    Script("schemas", ("short",), ("jsonschema",)),
    Script("export", (5000,)),
    Script("over", (100,)),
    Script("manual", (), ("bash", "jq", "sqlite3")),
    Script("writes", (), ("gcc",)),
    Script("clocks", (), ("gcc",)),
    Script("pages"),
    Script("statuses"),
    Script("matchers"),
    Script("examples", ("flask",), ("flask", "sqlite3")),
    Script("examples", ("node",), ("node", "sqlite3")),
    Script("words"),
    Script("dist"),
    Script("differences"),
    Script("mistakes"),
    Script("readme", (), ("bash", "jq")),
    Script("words_not_utf8"),
    Script("rental"),
    Script("rehearsal"),
]


class Run:
    """A script at work, which writes into a file."""

    def __init__(self, script):
        words = [sys.executable, "-u", HERE / f"{script.name}.py", script.program, *map(str, script.words)]
        self.output, self.begun, self.seconds, self.why = tempfile.TemporaryFile("w+", errors="replace"), time.monotonic(), 0, ""
        how = {"stdin": subprocess.DEVNULL, "stdout": self.output, "stderr": subprocess.STDOUT, "env": {**os.environ, "PYTHONUTF8": "1"}}
        self.process = subprocess.Popen(words, start_new_session=True, **how)

    def has_ended(self):
        """Whether it has, also where its time is over."""
        ended, self.seconds = self.process.poll(), time.monotonic() - self.begun
        if ended is None and self.seconds > SECONDS:
            self.kill()
            self.why = f"not done within {SECONDS} s"
        elif ended:
            self.why = f"status {ended}"
        return ended is not None or self.why != ""

    def kill(self):
        """Ends it with all that it has started."""
        os.killpg(self.process.pid, signal.SIGKILL)
        self.process.wait()

    def said(self):
        self.output.seek(0)
        return "".join(f"    {line}\n" for line in self.output.read().splitlines())


def ran(scripts):
    """Runs scripts side by side, and gives each with its run in their order, once those before it have ended."""
    waiting, running, ended = list(scripts), {}, {}
    try:
        for script in scripts:
            while script not in ended:
                while waiting and len(running) < len(os.sched_getaffinity(0)):
                    begun = waiting.pop(0)
                    running[begun] = Run(begun)
                time.sleep(0.05)
                for other in [other for other, run in running.items() if run.has_ended()]:
                    ended[other] = running.pop(other)
            yield script, ended[script]
    finally:
        for run in running.values():
            run.kill()


def lanes():
    """The environment of `rt ci`, in which it runs a proof a processor where memory holds them: the largest take 3 to 6 GB, and it reckons with more."""
    processors = len(os.sched_getaffinity(0))
    available = re.search(r"MemAvailable: +(\d+) kB", Path("/proc/meminfo").read_text())
    has_room = available and int(available[1]) >= GIGABYTES * processors << 20
    return {"RT_JOBS": str(processors), **os.environ} if has_room else os.environ


def prove():
    """Runs `rt ci`, whose output passes through: how many passed there, and how many failed. An edit that doesn't reach the prover says nothing of a
    contract, and `rt ci` only notes it: it has failed here."""
    last, bad = "", 0
    with subprocess.Popen(["rt", "ci"], cwd=ROOT, env=lanes(), stdin=subprocess.DEVNULL, stdout=subprocess.PIPE, text=True, errors="replace") as run:
        for line in run.stdout:
            print(line, end="", flush=True)
            bad += ".edit: BAD EDIT" in line
            last = line.strip() or last
    counted = re.fullmatch(r"(\d+) passed, (\d+) failed", last)
    passed, failed = map(int, counted.groups()) if counted else (0, 1)
    return passed, max(failed + bad, int(run.returncode != 0))


class Tally:
    """What has passed, has failed and was skipped, and what to say of it at the end."""

    def __init__(self):
        self.counts, self.told = Counter(), []

    def add(self, name, why=""):
        self.counts["failed" if why else "passed"] += 1
        if why:
            self.told.append(f"FAILED: {name}: {why}")

    def end(self):
        """Prints the last lines, and gives the exit status."""
        skipped = f", {self.counts['skipped']} skipped" if self.counts["skipped"] else ""
        print("\n".join([*self.told, f"{self.counts['passed']} passed, {self.counts['failed']} failed{skipped}"]))
        return 1 if self.counts["failed"] else 0


def run_first(tally):
    """What takes seconds and needs no program."""
    for name in "house", "links":
        ended = subprocess.run([sys.executable, HERE / f"{name}.py"], stdin=subprocess.DEVNULL).returncode
        tally.add(f"tests/{name}.py", f"status {ended}" if ended else "")


def run_scripts(tally):
    lacking = {script: script.lacking() for script in SCRIPTS}
    for script, run in ran([script for script in SCRIPTS if not lacking[script]]):
        print(f"{script}: {run.why or 'passed'}, {run.seconds:.0f} s\n{run.said()}", end="", flush=True)
        tally.add(script, run.why)
    for script, needs in lacking.items():
        if needs:
            tally.counts["skipped"] += 1
            tally.told.append(f"skipped: {script}: {' and '.join(needs)} isn't on this machine")


def main():
    tally = Tally()
    run_first(tally)
    if tally.counts["failed"]:
        return tally.end()
    begun = time.monotonic()
    passed, failed = prove()
    tally.counts.update(passed=passed, failed=failed)
    if failed:
        tally.told.append(f"FAILED: rt ci: {failed}")
    middle = time.monotonic()
    if FORMD.is_file():
        run_scripts(tally)
    else:
        tally.add("the scripts", f"{FORMD.relative_to(ROOT)} isn't there")
    print(f"rt ci {middle - begun:.0f} s, the scripts {time.monotonic() - middle:.0f} s")
    return tally.end()


if __name__ == "__main__":
    sys.exit(main())
