#!/usr/bin/env python3
"""Gives formd the worst declarations and lines within the limits, and measures what each costs: processor seconds and memory.

    tests/worst.py                   the program that `make` leaves
    tests/worst.py PROGRAM           another build of formd
    tests/worst.py PROGRAM WORD ..   only the inputs whose names have one of these words

Each run may take up two gigabytes of memory and thirty seconds of a processor. An input is answered as the specification
says, in at most ten seconds and two gigabytes; but those that are marked here and named in bench/README.md ("What the worst
inputs cost") need more, and so are answered C12 (or status 4, `formd: memory`), after which the next line is answered as
ever, or are ended by the limit of seconds. Prints a table.
"""

import json
import os
import random
import resource
import signal
import subprocess
import sys
import tempfile
from pathlib import Path

from looks import ROOM, end, look, named_program

PROGRAM = named_program()
WORDS = sys.argv[2:]
GIGABYTES, SECONDS, MOST_SECONDS = 2, 10, 30
LINE = 1048576
EASY = {"types": {"T": {"fields": {"t": {"type": "text"}}}}, "forms": {"f": {"root": "T"}}}
NN = {"constraint": "NotNull"}
ENDLESS = " " * (3 * LINE)
ODD = "\\u0001" * 65536


def compact(value):
    return json.dumps(value, separators=(",", ":"), ensure_ascii=False)


def of_fields(fields, more=None, **members):
    return {"types": {"T": {"fields": fields}, **(more or {})}, "forms": {"f": {"root": "T"}}, **members}


def put(root, objects, key="r", form="f"):
    return compact({"do": "put", "id": key, "form": form, "bundle": {"root": root, "objects": objects}})


def value(text, kind="T", field="v"):
    """A checkvalue of a value that is given as JSON."""
    return f'{{"do":"checkvalue","type":"{kind}","field":"{field}","value":{text}}}'


def texts_of(pattern, number):
    return {"type": "text", "constraints": [{"constraint": "Pattern", "with": {"regexp": pattern % number}}]}


def patterns(pattern):
    """1,024 patterns, each another: four fields of each of 256 types."""
    types = {f"T{kind}": {"fields": {f"f{field}": texts_of(pattern, 4 * kind + field) for field in range(4)}} for kind in range(256)}
    return {"types": types, "forms": {"f": {"root": "T0"}}}


def largest():
    """As many of everything as there may be, by names of 64 bytes: 65,536 fields, 255 groups that inherit 32 each, 256 constraints, forms and types, 1,024 uses."""

    def name(letter, number):
        return f"{letter}{number:063}"

    groups = {name("g", number): {"inherits": [name("g", other) for other in range(number + 1, min(number + 33, 255))]} for number in range(255)}
    constraints = {name("c", number): {"attributes": {name("a", at): {"kind": "integer", "default": at} for at in range(8)}, "rule": {"field": 1}} for number in range(256)}
    types = {}
    for kind in range(256):
        fields = {name("f", field): {"type": "text"} for field in range(256)}
        for field in range(4):
            fields[name("f", field)]["constraints"] = [{"constraint": name("c", kind), "groups": [name("g", number) for number in range(0, 255, 8)]}]
        types[name("t", kind)] = {"fields": fields}
    return {"types": types, "forms": {name("o", number): {"root": name("t", number), "groups": [name("g", 0)]} for number in range(256)}, "groups": groups, "constraints": constraints}


def sequences(members):
    """S0 to S199, each of the next one so many times over, the last of one group: what S0 expands to is that group alone."""
    groups = {f"S{number}": {"sequence": [f"S{number + 1}"] * members} for number in range(199)}
    return of_fields({"v": {"type": "text", "constraints": [{**NN, "groups": ["P"]}]}}, groups={"P": {}, **groups, "S199": {"sequence": ["P"]}})


def keys():
    """1,024 keys, of which each but the first becomes 65,536 bytes."""
    return of_fields({"v": {"type": "text"}}, messages={"k0": "x" * 4096, **{f"k{number}": "{k0}" * 16 for number in range(1, 1024)}})


def parameters(uses, length):
    """Uses of a constraint whose message is a key of 21,840 parameters, each an attribute of so many bytes."""
    tagged = {"attributes": {"a": {"kind": "text"}}, "compose": [NN], "single": True, "message": "{all}"}
    use = {"constraint": "Tagged", "with": {"a": "x" * length}}
    return of_fields({"v": {"type": "text", "constraints": [use] * uses}}, constraints={"Tagged": tagged}, messages={"some": "{a}" * 1365, "all": "{some}" * 16})


def trees():
    """U8, a tree of 1,023 constraints, below a chain of others."""
    made = {"U0": {"compose": [NN, NN]}, **{f"U{number}": {"compose": [{"constraint": f"U{number - 1}"}] * 2} for number in range(1, 9)}}
    return of_fields({"v": {"type": "text", "constraints": [{"constraint": "U8"}, NN]}}, constraints=made)


def words(count):
    """A text of the rules' that is one of so many words."""
    rule = {"attributes": {"words": {"kind": "texts"}}, "rule": {"field": 2}}
    return of_fields({"v": {"type": "text", "constraints": [{"constraint": "Word", "with": {"words": [""] * count}}]}}, constraints={"Word": rule})


CROWD = of_fields({"to": {"type": {"list": {"type": {"ref": "T"}, "valid": True}}}})
CHAIN = of_fields(
    {"next": {"type": {"ref": "T"}, "valid": True, "convert": {"Default": "S", "A": "S", "B": "S"}}}, groups={"A": {}, "B": {}, "S": {"sequence": ["A", "B"]}}
)
SHORT = {"constraint": "Size", "with": {"max": 1}}


def many_ways(element, item, count=65536):
    """A list of references, 4,095 of them to one object, whose list has 65,536 elements."""
    declared = of_fields({"to": {"type": {"list": {"type": {"ref": "K"}, "valid": True}}}}, {"K": {"fields": {"l": {"type": {"list": element}}}}})
    return declared, [put("a", {"a": {"type": "T", "fields": {"to": ["k"] * 4095}}, "k": {"type": "K", "fields": {"l": [item] * count}}})]


def chain(length):
    return put("o0", {f"o{number}": {"type": "T", "fields": {"next": f"o{number + 1}"} if number + 1 < length else {}} for number in range(length)})


def batch():
    """64 puts of records whose texts are too long for 16 constraints each."""
    parts = [json.loads(put("a", {"a": {"type": "T", "fields": {"v": "x" * 16000}}}, f"r{number}")) for number in range(64)]
    return compact({"do": "batch", "parts": parts})


def redeclare(declared):
    return compact({"do": "redeclare", "text": compact(declared)})


def grown(sets):
    """A record that sets make as many times a line's size: a list of small texts for each of its fields."""
    declared = of_fields({f"f{number}": {"type": {"list": {"type": "text"}}} for number in range(sets)})
    text = compact(["x" * 14] * 60000)
    lines = [f'{{"do":"set","id":"r","object":"a","field":"f{number}","value":{text}}}' for number in range(sets)]
    return declared, [put("a", {"a": {"type": "T"}}), *lines]


def busy_batch():
    """Twenty puts in one line, each with 4,095 references to an object with 4,096 texts under a pattern."""
    declared, (line,) = many_ways(texts_of("[a-z]+%.0s", 0), "a", 4096)
    parts = [{**json.loads(line), "id": f"r{number}"} for number in range(20)]
    return declared, [compact({"do": "batch", "parts": parts})]


def padded(line, length=LINE):
    return line + " " * (length - len(line.encode()))


ELEMENTS = "[" + ",".join(["null"] * 65536) + "]"
HELD = of_fields({"v": {"type": {"list": {"type": "integer"}}}})
HOSTILE = "(?:[ab]*a[ab]{40}|[ab]*b[ab]{35}c)%d?"
AB = "".join(random.Random(7).choice("ab") for _ in range(65536))
MEMORY, TIME = "memory", "time"
# Each: its name, the declarations, the lines, what the last of them is answered (a code, or ok), and what it needs more of than the bounds, if so.
INPUTS = [
    ("declarations: 1,024 patterns of ten characters", patterns("[a-z]{3}%d"), [], "ok", None),
    ("declarations: 1,024 patterns of forty letters of any language", patterns("\\pL{40}%d"), [], "ok", None),
    ("declarations: 1,024 patterns of 250 letters of any language", patterns("\\pL{250}%d"), [], "ok", MEMORY),
    ("declarations: all types, fields, groups, constraints, forms and uses that there may be", largest(), [], "ok", None),
    ("declarations: sequences S0 to S199, each of the next one twice, asked for", sequences(2), ['{"do":"checkvalue","type":"T","field":"v","value":null,"groups":["S0"]}'], "ok", None),
    ("declarations: the same, each of the next one 32 times, asked for", sequences(32), ['{"do":"checkvalue","type":"T","field":"v","value":null,"groups":["S0"]}'], "ok", None),
    ("declarations: 1,024 messages, each of 65,536 bytes in the end", keys(), [], "ok", None),
    ("declarations: a tree of 1,023 constraints, asked for", trees(), [value("null")], "ok", None),
    ("declarations: 16 MB, a list of 5,500,000 words, asked for", words(5_500_000), [value('"x"')], "ok", None),
    ("3 MiB without a line's end", EASY, [ENDLESS], "C1", None),
    ("a put of 1 MiB, padded", EASY, [padded(put("a", {"a": {"type": "T"}}))], "ok", None),
    ("a line of 1 MiB of small objects", EASY, ["[" + '{"":0},' * 149794 + "0]"], "C3", None),
    ("a line of 1 MiB of empty lists", EASY, ["[" + "[]," * 349524 + "0]"], "C3", None),
    ("a list of 65,536 integers, stored and shown", HELD, [put("a", {"a": {"type": "T", "fields": {"v": [-(10**12)] * 65536}}}), '{"do":"get","id":"r"}'], "ok", None),
    ("a map of 65,536 entries, stored and shown", of_fields({"v": {"type": {"map": {"type": "integer"}}}}), [put("a", {"a": {"type": "T", "fields": {"v": {f"{at:06}": 7 for at in range(65536)}}}}), '{"do":"get","id":"r"}'], "ok", None),
    ("256 objects, each with a list of the 255 others", CROWD, [put("n0", {f"n{at}": {"type": "T", "fields": {"to": [f"n{to}" for to in range(256) if to != at]}} for at in range(256)})], "C9", None),
    ("a chain of 12 objects with 4,095 visits", CHAIN, [chain(12)], "ok", None),
    ("a chain of 256 objects with too many visits", CHAIN, [chain(256)], "C9", None),
    ("a batch of 64 puts with 1,024 violations of 16,000 bytes", of_fields({"v": {"type": "text", "constraints": [SHORT] * 16}}), [batch()], "C10", None),
    ("1,024 violations of one text of 65,536 bytes", of_fields({"v": {"type": "text", "constraints": [SHORT] * 1024}}), [value('"' + "x" * 65536 + '"')], "ok", None),
    ("1,024 violations of one text of 65,536 control characters", of_fields({"v": {"type": "text", "constraints": [SHORT] * 1024}}), [value(f'"{ODD}"')], "ok", None),
    ("1,024 violations of one key of 65,536 control characters", of_fields({"v": {"type": {"map": {"type": "text"}, "keys": [SHORT] * 1024}}}), [value(f'{{"{ODD}":null}}')], "ok", MEMORY),
    ("65,536 elements that violate 8 constraints each", of_fields({"v": {"type": {"list": {"type": "text", "constraints": [NN] * 8}}}}), [value(ELEMENTS)], "ok", None),
    ("65,536 elements that violate 1,024 constraints each", of_fields({"v": {"type": {"list": {"type": "text", "constraints": [NN] * 1024}}}}), [value(ELEMENTS)], "ok", MEMORY),
    ("65,536 elements under 1,024 constraints that hold", of_fields({"v": {"type": {"list": {"type": "text", "constraints": [{"constraint": "Null"}] * 1024}}}}), [value(ELEMENTS)], "ok", None),
    ("a message of 21,840 parameters of one byte", parameters(1, 1), [value("null")], "ok", None),
    ("512 messages of 21,840 parameters of one byte", parameters(512, 1), [value("null")], "ok", None),
    ("a message of 21,840 parameters of 1,000 bytes", parameters(1, 1000), [value("null")], "ok", None),
    ("512 messages of 21,840 parameters of 1,000 bytes", parameters(512, 1000), [value("null")], "ok", MEMORY),
    ("4,095 references to an object with 16 elements under a constraint that holds", *many_ways({"type": "integer", "constraints": [{"constraint": "Min", "with": {"value": 1}}]}, 7, 16), "ok", None),
    ("4,095 references to an object with 65,536 elements under a constraint that holds", *many_ways({"type": "integer", "constraints": [{"constraint": "Min", "with": {"value": 1}}]}, 7), "ok", None),
    ("4,095 references to an object with 4,096 elements under a pattern", *many_ways(texts_of("[a-z]+%.0s", 0), "abc", 4096), "ok", None),
    ("4,095 references to an object with 65,536 elements under a pattern", *many_ways(texts_of("[a-z]+%.0s", 0), "abc"), "ok", TIME),
    ("4,095 references to an object with 65,536 elements under 16 constraints that hold", *many_ways({"type": "integer", "constraints": [{"constraint": "Min", "with": {"value": 1}}] * 16}, 7), "ok", TIME),
    ("a batch of 20 puts, each with 4,095 references to an object with 4,096 elements under a pattern", *busy_batch(), "ok", TIME),
    ("a record of 20 MB, shown", grown(20)[0], ['{"do":"get","id":"r"}'], "ok", None),
    ("a record of 20 MB, a field set", grown(20)[0], ['{"do":"set","id":"r","object":"a","field":"f0","value":null}'], "ok", None),
    ("a redeclare to 1,024 patterns of twenty letters, others of twenty in force", patterns("\\pL{20}%d"), [redeclare(patterns("\\pL{20}a%d"))], "ok", None),
    ("a redeclare to 1,024 patterns of forty letters, others of forty in force", patterns("\\pL{40}%d"), [redeclare(patterns("\\pL{40}a%d"))], "ok", MEMORY),
    ("an opening with 1,024 patterns of forty letters, of a file with others of forty", patterns("\\pL{40}a%d"), [], "ok", MEMORY),
    ("a text of 65,536 bytes under a pattern that fills the matcher's tables", of_fields({"v": texts_of(HOSTILE, 0)}), [value(f'"{AB}"')], "ok", None),
    ("a text of 65,536 bytes under 256 patterns that fill the matcher's tables", of_fields({"v": {"type": "text", "constraints": [texts_of(HOSTILE, at)["constraints"][0] for at in range(256)]}}), [value(f'"{AB}"')], "ok", None),
    ("a text of 65,536 bytes under 1,024 patterns that fill the matcher's tables", of_fields({"v": {"type": "text", "constraints": [texts_of(HOSTILE, at)["constraints"][0] for at in range(1024)]}}), [value(f'"{AB}"')], "ok", None),
]

# What stands in the file before, where it isn't empty: the declarations it was made with, and the lines that were answered.
BEFORE = {
    "a record of 20 MB, shown": grown(20),
    "a record of 20 MB, a field set": grown(20),
    "an opening with 1,024 patterns of forty letters, of a file with others of forty": (patterns("\\pL{40}%d"), []),
}


def served(folder):
    return [PROGRAM, "serve", "--declarations", folder / "d.json", "--database", folder / "g.db", "--now", "0"]


def made(folder, declared, lines):
    """Makes the file that an input finds."""
    (folder / "d.json").write_text(compact(declared), encoding="utf-8")
    run = subprocess.run(served(folder), input="".join(line + "\n" for line in lines).encode(), capture_output=True)
    if run.returncode != 0 or run.stderr or run.stdout.count(b'{"ok":') != len(lines):
        sys.exit(f"a file isn't made: {run}")


def limited():
    resource.setrlimit(resource.RLIMIT_AS, (GIGABYTES << 30, GIGABYTES << 30))
    resource.setrlimit(resource.RLIMIT_CPU, (MOST_SECONDS, MOST_SECONDS + 1))
    resource.setrlimit(resource.RLIMIT_CORE, (0, 0))
    # (where the machine's own memory ends, this is what the system ends first)
    Path("/proc/self/oom_score_adj").write_text("1000")


class Cost:
    """A run over an empty file, or one that stands: what its lines and one more were answered, and the seconds and megabytes that it has taken."""

    def __init__(self, folder, declared, lines, before):
        for left in folder.iterdir():
            left.unlink()
        if before:
            made(folder, *before)
        (folder / "d.json").write_text(compact(declared), encoding="utf-8")
        self.codes, self.megabytes, self.longest = [], 0, 0
        self.formd = subprocess.Popen(served(folder), stdin=subprocess.PIPE, stdout=subprocess.PIPE, stderr=subprocess.PIPE, preexec_fn=limited)
        try:
            for line in lines:
                self.ask(line)
            if ENDLESS not in lines:
                self.ask('{"do":"list","form":"none"}')
            self.formd.stdin.close()
        except BrokenPipeError:
            pass
        self.error = self.formd.stderr.read()
        _, status, usage = os.wait4(self.formd.pid, 0)
        self.status = self.formd.returncode = os.waitstatus_to_exitcode(status)
        self.seconds = usage.ru_utime + usage.ru_stime
        self.megabytes = self.megabytes or usage.ru_maxrss * 1024 // 1_000_000

    def ask(self, line):
        """Sends a line and reads its reply, and how much memory there was at most."""
        self.formd.stdin.write(line.encode())
        if line is ENDLESS:
            self.formd.stdin.close()
        else:
            self.formd.stdin.write(b"\n")
            self.formd.stdin.flush()
        first, size, part = b"", 0, b""
        while not part.endswith(b"\n"):
            part = self.formd.stdout.readline(1 << 20)
            if not part:
                return
            first, size = first or part[:80], size + len(part)
        self.longest = max(self.longest, size)
        start = first.decode(errors="replace")
        self.codes.append(start[10 : start.index('"', 10)] if start.startswith('{"error":"') else "ok")
        status = Path(f"/proc/{self.formd.pid}/status").read_text()
        for it in status.splitlines():
            if it.startswith("VmHWM:"):
                self.megabytes = int(it.split()[1]) * 1024 // 1_000_000


def judged(cost, lines, code, needs):
    """What is wrong with a run, if anything is."""
    if needs == TIME and cost.status == -signal.SIGXCPU:
        return None
    if needs == MEMORY and not cost.codes and (cost.status, cost.error) == (4, b"formd: memory\n"):
        return None
    after = [] if ENDLESS in lines else ["C4"]
    wanted = [["ok"] * (len(lines) - 1) + [answer] * bool(lines) + after for answer in (code, "C12")[: 1 + (needs == MEMORY)]]
    if cost.status != 0 or cost.error or cost.codes not in wanted:
        return f"status {cost.status}, {cost.error!r:.200}, {cost.codes}, where {code} is wanted"
    if needs is None and (cost.seconds > SECONDS or cost.megabytes > 1000 * GIGABYTES):
        return f"{cost.seconds:.1f} s and {cost.megabytes} MB"
    return None


def main():
    over = 0
    print("| input | answer | seconds | MB | longest reply, bytes |\n|---|---|---|---|---|", flush=True)
    with tempfile.TemporaryDirectory(dir=ROOM) as name:
        for what, declared, lines, code, needs in INPUTS:
            if WORDS and not any(word in what for word in WORDS):
                continue
            cost = Cost(Path(name), declared, lines, BEFORE.get(what))
            over += needs is not None
            answer = " ".join(cost.codes[: len(lines)] or ["taken"]) if cost.status == 0 else cost.error.decode().strip() or "ended by the limit"
            print(f"| {what} | {answer} | {cost.seconds:.1f} | {cost.megabytes:,} | {cost.longest:,} |", flush=True)
            look(what, judged(cost, lines, code, needs), None)
    return end(f"{{count}} inputs, {over} of them past {SECONDS} s or {GIGABYTES} GB as bench/README.md says; {{failed}} others are, or are answered otherwise")


if __name__ == "__main__":
    sys.exit(main())
