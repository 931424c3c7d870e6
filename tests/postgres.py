#!/usr/bin/env python3
"""Runs the intake of examples/postgres over a PostgreSQL of its own, kills its judges and the server amid puts, and compares what is there with what was answered.

    tests/postgres.py                    with the program that `make` leaves
    tests/postgres.py PROGRAM            with another build of formd
    tests/postgres.py PROGRAM short      fewer kills, and no seconds
    tests/postgres.py PROGRAM seconds    the seconds alone

The server has a folder of its own and a socket there, no network, and PostgreSQL's settings as they come; where root runs this it is another user's. Replies are compared with those of `formd serve`.
Then callers put records, some of which are refused, while judges are killed (100) and the server (20, at once, by SIGKILL): each put that was answered has to be there and none that was refused, and
every record has to be taken when it is judged again. Others put while the declarations are changed to and fro: none may be there that those in force refuse. At the end puts a second are
printed of 1, 2 and 4 judges, each with a process of Python and a connection of its own, beside one `formd serve` over a file, beside pydantic, and beside nobody who judges.

Needs PostgreSQL and psycopg, for the Python that runs this (Debian: postgresql; python3-psycopg, for /usr/bin/python3); where one isn't there that is said, and nothing is run. Where pydantic isn't there
Python checks by hand.
"""

import contextlib
import glob
import importlib.util
import itertools
import json
import multiprocessing
import os
import pwd
import random
import shutil
import signal
import statistics
import subprocess
import sys
import tempfile
import threading
import time
from concurrent.futures import ThreadPoolExecutor
from pathlib import Path

sys.dont_write_bytecode = True
from looks import ROOT, end, look, named_program  # noqa: E402

# the folder of PostgreSQL's programs: that of the path, else the latest
PROGRAMS = [Path(found).resolve().parent for found in [shutil.which("postgres")] if found] or sorted(map(Path, glob.glob("/usr/lib/postgresql/*/bin")), key=lambda folder: float(folder.parent.name))
LACKING = [name for name, found in (("PostgreSQL", PROGRAMS), ("psycopg", importlib.util.find_spec("psycopg"))) if not found]
if LACKING:
    print(f"skipped: tests/postgres.py: {' and '.join(LACKING)} isn't there for {sys.executable}")
    sys.exit()
sys.path += [str(ROOT / folder) for folder in ("bench", "examples/postgres", "clients/python")]
import intake  # noqa: E402
import psycopg  # noqa: E402
from formd_client import Pool  # noqa: E402
from shapes import SHAPES, checks, compact  # noqa: E402

PROGRAM = named_program()
SHORT, SECONDS = sys.argv[2:] == ["short"], sys.argv[2:] == ["seconds"]
# of judges and of the server, each over 1, 2 and 4 judges
JUDGES_KILLED, SERVERS_KILLED = ((4, 3, 3), (1, 0, 1)) if SHORT else ((34, 33, 33), (7, 7, 6))
CALLERS = 8
INTERRUPTED = 1000
# turns of a caller between two kills, of all together
TURNS = 20 if SHORT else 40
CHANGES = 3 if SHORT else 12
# puts of one measurement, one by one and in batches
PUTS, BATCHED, BATCH, ROUNDS = 4000, 16384, 64, 3
FIELDS = '"text":{{"type":"text","constraints":[{{"constraint":"NotBlank"}},{{"constraint":"Size","with":{{"max":{most}}}}}]}},"texts":{{"type":{{"list":{{"type":"text"}}}}}},"number":{{"type":"integer"}}'
DECLARATIONS, STRICTER = ('{"types":{"T":{"fields":{' + FIELDS.format(most=most) + '}}},"forms":{"f":{"root":"T"}}}' for most in (60, 30))
NUMBERS = [9223372036854775807, -9223372036854775808, 9007199254740993, -9007199254740993, 9007199254740992, 0]


def cpu(process):
    """The processor's seconds of a process, and of those of its children that have ended; of one that has ended itself none."""
    try:
        fields = Path(f"/proc/{process}/stat").read_text().rpartition(")")[2].split()
    except (FileNotFoundError, ProcessLookupError):
        return 0
    return sum(map(int, fields[11:15])) / os.sysconf("SC_CLK_TCK")


class Server:
    """A server in a folder of its own."""

    def __init__(self, folder):
        self.folder, self.process, self.how = folder, None, {}
        if os.getuid() == 0:
            names = {entry.pw_name for entry in pwd.getpwall()}
            user = pwd.getpwnam("postgres" if "postgres" in names else "nobody")
            os.chown(folder, user.pw_uid, user.pw_gid)
            self.how = {"user": user.pw_uid, "group": user.pw_gid, "extra_groups": []}
        self.log = open(f"{folder}/log", "ab")
        self.words = f"host={folder} user=intake dbname=postgres"
        initdb = [PROGRAMS[-1] / "initdb", "-D", f"{folder}/data", "-U", "intake", "--auth=trust", "--encoding=UTF8", "--no-locale", "--no-sync"]
        subprocess.run(initdb, cwd=folder, stdout=subprocess.DEVNULL, check=True, **self.how)
        self.start()
        self.run((ROOT / "examples" / "postgres" / "schema.sql").read_text())

    def start(self):
        """Starts it, again where the last one's processes are still there, until it answers."""
        until = time.monotonic() + 60
        words = [PROGRAMS[-1] / "postgres", "-D", f"{self.folder}/data", "-c", f"unix_socket_directories={self.folder}", "-c", "listen_addresses="]
        while True:
            if self.process is None or self.process.poll() is not None:
                self.process = subprocess.Popen(words, cwd=self.folder, stdin=subprocess.DEVNULL, stdout=self.log, stderr=self.log, **self.how)
            try:
                psycopg.connect(self.words).close()
                return
            except psycopg.OperationalError:
                if time.monotonic() > until:
                    raise SystemExit(f"the server doesn't start: {Path(self.folder, 'log').read_text()[-1000:]}")
                time.sleep(0.02)

    def kill(self):
        self.process.kill()
        self.process.wait()
        self.start()

    def stop(self):
        self.process.send_signal(2)  # SIGINT: it ends without waiting for connections
        self.process.wait()
        self.log.close()

    def run(self, statements, given=None):
        """The rows of the last statement, if it has some."""
        with psycopg.connect(self.words, autocommit=True) as connection:
            ran = connection.execute(statements, given)
            return ran.fetchall() if ran.description is not None else None

    def cpu(self):
        """The processor's seconds of the server with all that belongs to it."""
        children = (int(line) for line in Path(f"/proc/{self.process.pid}/task/{self.process.pid}/children").read_text().split())
        return cpu(self.process.pid) + sum(map(cpu, children))


def bundle(**fields):
    return {"root": "a", "objects": {"a": {"type": "T", "fields": fields}}}


def put(id, **fields):
    return {"do": "put", "id": id, "form": "f", "bundle": bundle(**fields)}


# Lines that formd refuses.
ODD = [
    *(b"", b"{", b"{}", b"[]", b"null", b"7", b"NaN", b"\xff", b"\xef\xbb\xbf{}", b"[" * 200 + b"]" * 200, b"[" * 99999, b" " * (1 << 20) + b"{}", b"1" * 5000),
    *(b'{"do":"get","id":%s}' % id for id in (b"7", b"null", b'""', b'"a b"', b'"\\u0000"', b'"\\ud800"', b"NaN", b"1e400", b'"a","more":1')),
    *(b'{"do":"list","form":"f","limit":%s}' % limit for limit in (b"-1", b"0", b"1001", b"1.0", b"-0", b"true", b'"5"', b"1e400", b"9" * 400)),
    *(b'{"do":"list","form":"f","after":%s}' % after for after in (b"7", b"null", b'"a b"')),
    *({"do": do, "form": "nobody"} for do in ("list", "put", "get", "lists", ["list"], None)),
    *({"do": "batch", "parts": parts} for parts in (None, 7, [7], [None], [{}], [put("a", text="x"), 7], [{"do": "batch", "parts": []}])),
    *(put("r9", number=number) for number in (1.5, 1.0, 1 << 64)),
    json.dumps(put("r9", number=5)).replace("5", "-0").encode(),
    {**put("r9", text="x"), "more": 1},
]
# Lines of the intake's own, or that it has no use for.
OWN = {
    b'{"do":"remove","id":"r1"}': {"error": "Request"},
    b'{"do":"set","id":"r1","object":"a","field":"text","value":"x"}': {"error": "Request"},
    b'{"do":"redeclare","text":"{\\"types\\":{},\\"forms\\":{}}"}': {"error": "Request"},
    b'{"do":"batch","parts":[{"do":"remove","id":"r1"}]}': {"error": "Request"},
    json.dumps({**put("r9", text="x"), "expected": 7}).encode(): {"error": "Request"},
    json.dumps({**put("r9", text="x"), "expected": "\0"}).encode(): {"error": "Request"},
    json.dumps({**put("r9", text="x"), "expected": "soon"}).encode(): {"error": "InvalidDatetimeFormat"},
    json.dumps(put("r9", text="\0")).encode(): {"error": "CheckViolation"},
    b'{"do":"search","form":"f","field":"text","value":"two"}': {"ids": ["r2"], "ok": "search"},
    b'{"do":"search","form":"f","field":"text","value":"\\u0000"}': {"error": "UntranslatableCharacter"},
    b'{"do":"search","form":"f","field":7,"value":"two"}': {"error": "C3", "name": "Shape"},
    b'{"do":"search","form":"f","field":"text"}': {"error": "C3", "name": "Shape"},
    b'{"do":"search","form":"f","field":"text","value":"two","limit":0}': {"error": "C3", "name": "Shape"},
    b'{"do":"search","form":"g","field":"text","value":"two"}': {"error": "C4", "name": "UnknownForm"},
    b'{"do":"search","form":"f","field":"text","value":NaN}': {"error": "C2", "name": "NotJson"},
}


def over(server, judges, declarations=DECLARATIONS):
    """An intake over empty tables with these declarations in force."""
    server.run("TRUNCATE record, declaration")
    made = intake.Intake(str(PROGRAM), server.words, judges)
    look("declarations over no record", made.redeclare(declarations), [])
    return made


def is_refused_by_database(ask):
    try:
        ask()
    except psycopg.Error as why:
        return why.sqlstate
    return None


def raised(ask):
    try:
        return ask()
    except (intake.Failure, ValueError) as why:
        return type(why).__name__


def replies(server, folder):
    """The replies are those of a service, but for the moment at which a record was taken."""
    (folder / "d.json").write_text(DECLARATIONS)
    lines = [
        put("r2", text="two"),
        put("r1", text="one", number=1),
        put("r3", text="", number=3),
        put("r3", text="x" * 61),
        {**put("r3", text="x"), "form": "nobody"},
        put("r3", colour="red"),
        put("r 3", text="x"),
        put("r3", text="\ud800"),
        put("r3", text="x", texts=["x" * 60000] * 18),
        {"do": "batch", "parts": [put("r5", text="five"), put("r4", text="four"), put("r5", text="again")]},
        {"do": "batch", "parts": [put("r6", text="six"), put("r7", text=""), put("r8", text="x" * 61)]},
        {"do": "batch", "parts": [put("r6", text="six"), put("r7", number="x")]},
        {"do": "batch", "parts": []},
        *ODD,
        put("r1", text="once more", texts=['"', "\\", "\n\t", "\u2028 \U0001f600", "%s", "\\n"]),
        *({"do": "get", "id": f"r{number}"} for number in range(9)),
        {"do": "list", "form": "f"},
        {"do": "list", "form": "f", "limit": 2, "after": "r2"},
    ]
    lines = [line if isinstance(line, bytes) else json.dumps(line, ensure_ascii=False).encode("utf-8", "surrogatepass") for line in lines]
    served = subprocess.run([PROGRAM, "serve", "--declarations", folder / "d.json", "--database", folder / "g.db"], input=b"\n".join([*lines, b""]), stdout=subprocess.PIPE, check=True)
    wanted = [json.loads(reply) for reply in served.stdout.splitlines()]
    made = over(server, 2)
    for line, reply in [*zip(lines, wanted), *OWN.items()]:
        found = intake.answered(made, line)
        found.pop("taken_at", None)
        look(f"the reply to {line[:200]}", found, reply)
    made.stop()
    words = [sys.executable, "-B", ROOT / "examples" / "postgres" / "intake.py", PROGRAM, server.words, "1", folder / "d.json"]
    for n in range(2):
        ran = subprocess.run(words, input=b"\xff\n" + lines[0], stdout=subprocess.PIPE)
        look("the program by itself", (ran.returncode, ran.stdout), (0, b'{"error":"C2","name":"NotJson"}\n{"ok":"put"}\n'))
    look("it has declared nothing anew", server.run("SELECT count(*) FROM declaration"), [(1,)])


def apart(server, folder):
    """What is raised in the midst of a call reaches its caller, and nothing of the call the next one. A process that was forked has no part in the intake."""
    made, chance, told = over(server, 2), random.Random(1), {"answered": 0, "rung": 0, "interrupted": 0, "wrong": []}

    class Soft(Exception):
        pass

    def ring(*_):
        told["rung"] += 1
        raise Soft

    before, sys.unraisablehook = signal.signal(signal.SIGALRM, ring), lambda _: None  # what psycopg says of objects that were interrupted as they were made
    made.put("first", "f", bundle(text="first"))
    for n in range(INTERRUPTED):
        try:
            signal.setitimer(signal.ITIMER_REAL, chance.random() / 500 + 1e-6)
            reply = made.put(f"s{n}", "f", bundle(text=("x" * 61, "x")[n % 2]))
            signal.setitimer(signal.ITIMER_REAL, 0)
            time.sleep(0)  # a signal that has come by then is told here
            told["answered"] += 1
            if (reply == {"ok": "put"}) != (n % 2 == 1) or n % 2 == 0 and reply["records"][0]["id"] != f"s{n}":
                told["wrong"].append((n, reply))
        except Soft:
            told["interrupted"] += 1
    signal.signal(signal.SIGALRM, before)
    sys.unraisablehook = sys.__unraisablehook__
    look("replies to another's line", told["wrong"], [])
    # but for what is raised in a __del__
    look("whether callers are answered, and what interrupts them reaches them", (told["answered"] > 0, told["interrupted"] > 0.9 * told["rung"] > 0), (True, True))
    with contextlib.suppress(Soft), made.connection() as connection:
        connection.pgconn.send_query(b"SELECT pg_sleep(9)")
        raise Soft
    look("a connection amid a query isn't given to others", made.get("none"), {"error": "C6", "name": "NoRecord"})

    def child():
        sys.exit([raised(lambda: made.put("x", "f", bundle(text="x"))), raised(lambda: made.get("x"))] != ["NotSent"] * 2)

    forked = multiprocessing.get_context("fork").Process(target=child)
    forked.start()
    forked.join()
    look("a process that was forked", forked.exitcode, 0)
    look("the one that forked it", made.put("x", "f", bundle(text="x")), {"ok": "put"})
    server.run("UPDATE record SET bundle = replace(bundle, ',', E',\r\n') WHERE id = 'x'")
    look("a bundle that another writer keeps in lines", made.redeclare(DECLARATIONS), [])
    (folder / "slow").write_text('#!/bin/sh\n[ "$1" = declarations ] || exec sleep 60\n')
    (folder / "slow").chmod(0o755)
    intake.JUDGING, bound, begun = 0.3, intake.JUDGING, time.monotonic()
    slow = raised(lambda: intake.Intake(str(folder / "slow"), server.words).redeclare(STRICTER))
    look("a judge that never ends", (slow, time.monotonic() - begun < 30), ("NotSent", True))
    intake.JUDGING = bound
    keep = "SELECT keep('y', 'f', '{}', NULL, 'x')"
    look("a write under REPEATABLE READ", is_refused_by_database(lambda: server.run(f"BEGIN ISOLATION LEVEL REPEATABLE READ; {keep}")), "JD003")
    server.run("CREATE ROLE taker; GRANT SELECT ON record, declaration TO taker; GRANT EXECUTE ON FUNCTION keep TO taker; CREATE ROLE other")
    for role, statement, state in ("taker", keep, "JD001"), ("taker", "DELETE FROM record", "42501"), ("other", keep, "42501"):
        look(f"a write by {role}", is_refused_by_database(lambda: server.run(f"SET ROLE {role}; {statement}")), state)
    made.stop()


def expectations(server):
    """What a put expects to be there, and what it is told where that isn't so."""
    made = over(server, 2)

    def text_of(id):
        return made.get(id)["bundle"]["objects"]["a"]["fields"]["text"]

    def is_kept(what, id, text, expected, reply):
        look(what, raised(lambda: made.put(id, "f", bundle(text=text), expected)), reply)

    is_kept("a new record", "n", "1", intake.NOTHING, {"ok": "put"})
    is_kept("one that is there", "n", "2", intake.NOTHING, "Changed")
    look("it is as it was", text_of("n"), "1")
    first = made.get("n")["taken_at"]
    look("one that is refused", made.put("n", "f", bundle(text=""), first).get("error"), "C10")
    is_kept("one that is as it was", "n", "3", first, {"ok": "put"})
    is_kept("one that isn't any more", "n", "4", first, "Changed")
    look("it is as it was left", text_of("n"), "3")
    is_kept("one that isn't there", "m", "1", first, "Changed")
    second = made.get("n")["taken_at"]
    is_kept("anything", "n", "3", intake.ANYTHING, {"ok": "put"})
    is_kept("the same text, taken once more", "n", "5", second, "Changed")
    parts = [{**put("a", text="a"), "expected": intake.NOTHING}, {**put("n", text="6"), "expected": second}, put("b", text="b")]
    look("a batch of which one part isn't as expected", raised(lambda: made.batch(parts)), "Changed")
    look("none of it is there", made.ids("f")["ids"], ["n"])
    parts[1]["expected"] = made.get("n")["taken_at"]
    look("a batch", made.batch(parts), {"ok": "batch"})
    look("all of it is there", [text_of(id) for id in made.ids("f")["ids"]], ["a", "b", "6"])
    with ThreadPoolExecutor(CALLERS) as callers:
        told = list(callers.map(lambda n: raised(lambda: made.put("one", "f", bundle(text=str(n)), intake.NOTHING)), range(CALLERS)))
    look("of callers who make one record one does", sorted(map(str, told)), ["Changed"] * (CALLERS - 1) + ["{'ok': 'put'}"])
    look("it is his", told[int(text_of("one"))], {"ok": "put"})
    made.stop()


def contents(server):
    """Whole numbers, large records and searches; what no jsonb can hold."""
    made = over(server, 1)
    for at, number in enumerate(NUMBERS):
        look("a put of a number", made.put(f"n{at}", "f", bundle(text="n", number=number)), {"ok": "put"})
        shown = made.get(f"n{at}")["bundle"]
        look("it is shown", shown["objects"]["a"]["fields"]["number"], number)
        look("it is put as it was shown", made.put(f"m{at}", "f", shown), {"ok": "put"})
        look("both are found, and no others", made.search("f", "number", number)["ids"], [f"m{at}", f"n{at}"])
    look("SQL sees the numbers", server.run("SELECT DISTINCT (bundle::jsonb #> '{objects,a,fields,number}')::numeric::text FROM record ORDER BY 1"), sorted((str(number),) for number in NUMBERS))
    look("the first behind an id", made.search("f", "number", 0, "m5", 1)["ids"], ["n5"])
    look("a number is no text", made.search("f", "number", "0")["ids"], [])
    look("a text with U+0000 is refused by the server", is_refused_by_database(lambda: made.put("zero", "f", bundle(text="a\0b"))), "23514")
    look("it isn't there", made.get("zero"), {"error": "C6", "name": "NoRecord"})
    texts = ["x" * 17] * 50000
    longest = bundle(text="x", texts=texts)
    texts[0] += "x" * ((1 << 20) - len(intake.put_line("long", "f", intake.compact(longest))))
    look("the longest line", made.put("long", "f", longest), {"ok": "put"})
    look("it is judged again", made.redeclare(DECLARATIONS), [])
    texts[0] += "x"
    look("one byte more", made.put("long", "f", longest), {"error": "C1", "name": "LineTooLong"})
    made.stop()


def redeclared(server):
    """A change of the declarations is told which records it would refuse, or is in force for all intakes."""
    one, other = over(server, 2), intake.Intake(str(PROGRAM), server.words, 2)
    for n, length in enumerate((20, 50, 30, 40)):
        look("a put", (one, other)[n % 2].put(f"r{n}", "f", bundle(text="x" * length)), {"ok": "put"})
    refused = one.redeclare(STRICTER)
    look("the records that aren't taken", [(id, reply["error"], reply["records"][0]["id"], len(reply["records"][0]["violations"])) for id, reply in refused], [("r1", "C10", "r1", 1), ("r3", "C10", "r3", 1)])
    look("the form has another name", [(id, reply["error"]) for id, reply in one.redeclare(DECLARATIONS.replace('"f":{"root"', '"g":{"root"'))], [(f"r{n}", "C4") for n in range(4)])
    look("the field isn't there", [(id, reply["fault"]) for id, reply in one.redeclare(DECLARATIONS.replace('"text":{', '"word":{'))], [(f"r{n}", "B4") for n in range(4)])
    look("no declarations", raised(lambda: one.redeclare("{")), "ValueError")
    look("the declarations stay", other.put("r4", "f", bundle(text="x" * 60)), {"ok": "put"})
    for id in ("r1", "r3", "r4"):
        look("a shorter text", one.put(id, "f", bundle(text=id)), {"ok": "put"})
    look("all are taken", one.redeclare(STRICTER), [])
    look("the other one judges by them", other.put("r5", "f", bundle(text="x" * 31)).get("error"), "C10")
    look("so does a batch", other.batch([put("r5", text="x" * 31), put("r6", text="x")]).get("error"), "C10")
    look("and back", other.redeclare(DECLARATIONS), [])
    look("the first one judges by those", one.put("r5", "f", bundle(text="x" * 31)), {"ok": "put"})
    look("each is of declarations that were in force", server.run("SELECT DISTINCT digest IS NULL FROM record LEFT JOIN declaration ON declared = digest"), [(False,)])
    with psycopg.connect(server.words) as changing, ThreadPoolExecutor(1) as caller:
        changing.execute("LOCK TABLE record IN SHARE ROW EXCLUSIVE MODE")
        changing.execute("INSERT INTO declaration (digest, text) VALUES (%s, %s)", (intake.digest_of(STRICTER), STRICTER))
        told = caller.submit(one.put, "late", "f", bundle(text="x" * 31))
        while not told.done() and not server.run("SELECT FROM pg_locks WHERE NOT granted"):
            time.sleep(0.001)
        changing.commit()
        look("a put that has waited for a change is judged by what is in force then", told.result().get("error"), "C10")
    one.stop()
    other.stop()


class Callers:
    """Threads that put records until they are ended, and ask again until they are answered; what they were told."""

    def __init__(self, taker):
        self.taker, self.turns, self.lock, self.ended = taker, itertools.count(), threading.Lock(), threading.Event()
        self.allowed, self.refused, self.wrong = {}, set(), []
        self.done = self.unknown = self.not_sent = 0
        self.threads = ThreadPoolExecutor(CALLERS)
        self.calls = [self.threads.submit(self.call) for _ in range(CALLERS)]

    def until_answered(self, make):
        """The reply to the first attempt that is answered, `Changed` among them, with its number and the numbers of those whose outcome isn't known."""
        unknown = []
        for attempt in itertools.count():
            try:
                return make(attempt), attempt, unknown
            except intake.Changed:
                return "Changed", attempt, unknown
            except intake.OutcomeUnknown:
                unknown.append(attempt)
            except intake.NotSent:
                with self.lock:
                    self.not_sent += 1
                time.sleep(0.01)

    def tell(self, records, wrong, unknown):
        with self.lock:
            self.allowed.update(records)
            self.unknown += len(unknown)
            self.wrong += [wrong] if wrong else []
            self.done += 1

    def refuse(self, ids, reply, unknown):
        with self.lock:
            self.refused.update(ids)
        self.tell({}, None if isinstance(reply, dict) and reply.get("error") == "C10" else f"{ids}: {reply}", unknown)

    def turn(self, n):
        """One of five: a put that is refused, a batch, a batch that is refused, a record that is to be new, one that is put and replaced."""
        ids = [f"w{n}-{at}" for at in range(3)]
        texts = lambda id, attempts: {f"{id} {attempt}" for attempt in attempts}  # noqa: E731
        if n % 5 == 0:
            self.refuse(ids[:1], *self.until_answered(lambda attempt: self.taker.put(ids[0], "f", bundle(text="x" * 61)))[::2])
        elif n % 5 == 1:
            reply, attempt, unknown = self.until_answered(lambda attempt: self.taker.batch([put(id, text=f"{id} {attempt}") for id in ids]))
            self.tell({id: texts(id, [attempt]) for id in ids}, None if reply == {"ok": "batch"} else f"{ids}: {reply}", unknown)
        elif n % 5 == 2:
            self.refuse(ids, *self.until_answered(lambda attempt: self.taker.batch([put(id, text=id * (1 if id != ids[1] else 30)) for id in ids]))[::2])
        elif n % 5 == 3:
            reply, attempt, unknown = self.until_answered(lambda attempt: self.taker.put(ids[0], "f", bundle(text=f"{ids[0]} {attempt}"), intake.NOTHING))
            made = reply == {"ok": "put"}
            self.tell({ids[0]: texts(ids[0], [attempt] if made else unknown)}, None if made or reply == "Changed" and unknown else f"{ids}: {reply}", unknown)
        else:
            self.until_answered(lambda attempt: self.taker.put(ids[0], "f", bundle(text="first")))
            seen = self.until_answered(lambda attempt: self.taker.get(ids[0]))[0]["taken_at"]
            reply, attempt, unknown = self.until_answered(lambda attempt: self.taker.put(ids[0], "f", bundle(text=f"{ids[0]} {attempt}"), seen))
            made = reply == {"ok": "put"}
            self.tell({ids[0]: texts(ids[0], [attempt] if made else unknown)}, None if made or reply == "Changed" and unknown else f"{ids}: {reply}", unknown)

    def call(self):
        while not self.ended.is_set():
            with self.lock:
                number = next(self.turns)
            self.turn(number)

    def wait(self, turns):
        """Waits until so many further turns are done, or a call has failed."""
        until = self.done + turns
        while self.done < until and not any(call.done() for call in self.calls):
            time.sleep(0.0005)

    def end(self):
        """Waits until all turns that are begun are done. What a call raises is raised."""
        self.ended.set()
        for call in self.calls:
            call.result()
        self.threads.shutdown()


class Counted(intake.Judge):
    """A judge, where it is counted how often one ended before its reply."""

    lost = 0

    def ask(self, command, line):
        try:
            return super().ask(command, line)
        except intake.OutcomeUnknown:
            Counted.lost += 1
            raise


def killed(server, judges, kills, kill, chance):
    """Callers put while something is killed so many times."""
    made = over(server, judges)
    made.put("first", "f", bundle(text="first"))
    callers = Callers(made)
    for _ in range(kills):
        callers.wait(TURNS)
        time.sleep(chance.random() / 500)
        kill(made)
    callers.wait(TURNS)
    callers.end()
    look("no answer is another's", callers.wrong, [])
    rows = dict(server.run("SELECT id, bundle::jsonb #>> '{objects,a,fields,text}' FROM record WHERE id <> 'first'"))
    look("answered puts that aren't there", sorted(id for id, allowed in callers.allowed.items() if rows.get(id) not in allowed), [])
    look("records that nobody was answered", sorted(rows.keys() - callers.allowed.keys()), [])
    look("records that were refused", sorted(rows.keys() & callers.refused), [])
    look("records that are refused when they are judged again", made.redeclare(DECLARATIONS), [])
    look("records that weren't judged by declarations that were in force", server.run("SELECT id FROM record WHERE declared NOT IN (SELECT digest FROM declaration)"), [])
    made.stop()
    return callers, len(rows)


def kills(server):
    chance = random.Random(1)
    intake.Judge = Counted

    def kill_judge(made):
        while (child := chance.choice(made.judges.all).child) is None or child.poll() is not None:
            time.sleep(0.001)
        child.kill()

    for what, numbers, kill in (("judges", JUDGES_KILLED, kill_judge), ("the server", SERVERS_KILLED, lambda _: server.kill())):
        done = records = refused = unknown = not_sent = 0
        Counted.lost = 0
        begun = time.monotonic()
        for judges, number in zip((1, 2, 4), numbers):
            if number:
                callers, found = killed(server, judges, number, kill, chance)
                done, records, refused = done + callers.done, records + found, refused + len(callers.refused)
                unknown, not_sent = unknown + callers.unknown, not_sent + callers.not_sent
        print(
            f"{sum(numbers)} kills of {what}, {done} turns of {CALLERS} callers in {time.monotonic() - begun:.1f} s: {records:,} records answered and there, {refused:,} refused and not there;"
            f" {Counted.lost} lines whose judge ended, {unknown} outcomes unknown, {not_sent} not sent",
            flush=True,
        )


def changes(server):
    """Callers put short texts and long ones while the declarations are changed to such as refuse the long ones, and back."""
    taker, changer = over(server, 2), intake.Intake(str(PROGRAM), server.words, 1)
    ended, told, lock = threading.Event(), {"taken": 0, "refused": 0, "wrong": []}, threading.Lock()

    def call(caller):
        chance = random.Random(caller)
        while not ended.is_set():
            reply = taker.put(f"c{chance.randrange(40)}", "f", bundle(text="x" * (50 if chance.random() < 0.01 else 20)))
            with lock:
                told["taken"] += "ok" in reply
                told["refused"] += "error" in reply
                if reply.get("error", "C10") != "C10":
                    told["wrong"].append(reply)

    tries = 0
    with ThreadPoolExecutor(CALLERS) as threads:
        calls = [threads.submit(call, caller) for caller in range(CALLERS)]
        try:
            for _ in range(CHANGES):
                tries += 1
                while refused := changer.redeclare(STRICTER):
                    tries += 1
                    server.run("DELETE FROM record WHERE id = ANY(%s)", ([id for id, _ in refused],))
                for _ in range(5):
                    look("long texts under declarations that refuse them", server.run("SELECT id FROM record WHERE length(bundle::jsonb #>> '{objects,a,fields,text}') > 30"), [])
                    time.sleep(0.02)
                look("back", changer.redeclare(DECLARATIONS), [])
                before = told["taken"]
                while told["taken"] < before + 10:
                    time.sleep(0.001)
        finally:
            ended.set()
        for one in calls:
            one.result()
    look("replies of another sort", told["wrong"], [])
    look("puts taken and refused", (told["taken"] > 0, told["refused"] > 0), (True, True))
    print(f"{2 * CHANGES} changes of the declarations, {tries - CHANGES} refused, amid {told['taken']} puts taken and {told['refused']} refused: nothing was there that those in force refuse", flush=True)
    taker.stop()
    changer.stop()


def putting(kind, shape, words, folder, threads):
    """How parts are put one by one and by batches, the processes that judge, and how it is ended."""
    if kind == "serve":
        (folder / "d.json").write_text(compact(SHAPES[shape].declarations))
        pool = Pool(str(PROGRAM), str(folder / "d.json"), [str(folder / "g.db")])
        return lambda part: pool.ask({"do": "put", **part}), lambda parts: pool.ask({"do": "batch", "parts": [{"do": "put", **part} for part in parts]}), lambda: [pool.shards[0].child.pid], pool.stop
    made = intake.Intake(str(PROGRAM), words, threads)
    if kind == "judge":
        return lambda part: made.put(**part), made.batch, lambda: [judge.child.pid for judge in made.judges.all if judge.child], made.stop
    holds, digest = checks(shape) if kind == "pydantic" else lambda _: True, intake.digest_of(compact(SHAPES[shape].declarations))

    def keep(parts):
        taken = all(holds(part["bundle"]) for part in parts)
        rows = [(part["id"], part["form"], intake.compact(part["bundle"]), None) for part in parts]
        return {"ok": taken and made.keep(rows, digest)}

    return lambda part: keep([part]), keep, lambda: [], made.stop


def work(kind, shape, words, folder, threads, number, parts, together, gate, told):
    """A process that puts its parts once all are ready."""
    one, many, judging, stop = putting(kind, shape, words, Path(folder), threads)
    turns = parts if together == 1 else [parts[at : at + together] for at in range(0, len(parts), together)]
    ask = one if together == 1 else many

    def puts(turns):
        for turn in turns:
            if not ask(turn).get("ok"):
                raise SystemExit("a put isn't taken")

    ready = max(len(turns) // 20, threads)
    with ThreadPoolExecutor(threads) as pool:
        list(pool.map(puts, [turns[at:ready:threads] for at in range(threads)]))
        gate.wait()
        used = time.process_time(), sum(map(cpu, judging()))
        gate.wait()
        list(pool.map(puts, [turns[ready + at :: threads] for at in range(threads)]))
        gate.wait()
        told.put((time.process_time() - used[0], sum(map(cpu, judging())) - used[1], sum(1 if together == 1 else len(turn) for turn in turns[ready:])))
        gate.wait()
    stop()


def measured(server, kind, shape, processes, threads, together, room):
    """Puts a second, and the microseconds of a processor a put: of Python, of those that judge, of the server; bytes of the tables, and of the log, a record."""
    over(server, 1, compact(SHAPES[shape].declarations)).stop()
    server.run("VACUUM record")
    server.run("CHECKPOINT")
    total = PUTS if together == 1 else BATCHED
    _, form, make, _ = SHAPES[shape]
    parts = [{"id": f"r{n * 7919 % 1000003:06}", "form": form, "bundle": make(n)} for n in range(total)]
    fork = multiprocessing.get_context("fork")
    gate, told = fork.Barrier(processes + 1, timeout=300), fork.SimpleQueue()
    with tempfile.TemporaryDirectory(dir=room) as folder:
        workers = [fork.Process(target=work, args=(kind, shape, server.words, folder, threads, at, parts[at::processes], together, gate, told)) for at in range(processes)]
        for worker in workers:
            worker.start()
        gate.wait()
        log, before = server.run("SELECT pg_current_wal_lsn()"), server.cpu()
        gate.wait()
        begun = time.monotonic()
        gate.wait()
        took, used = time.monotonic() - begun, server.cpu() - before
        (wal,) = server.run("SELECT pg_wal_lsn_diff(pg_current_wal_lsn(), %s)::bigint", log[0])[0]
        found = [told.get() for _ in workers]
        gate.wait()
        for worker in workers:
            worker.join()
            look("a process of puts", worker.exitcode, 0)
    puts = sum(number for _, _, number in found)
    ((rows, size),) = server.run("SELECT count(*), pg_total_relation_size('record') FROM record")
    look("records", rows, 0 if kind == "serve" else total)
    python, judges = (sum(part[at] for part in found) / puts * 1e6 for at in (0, 1))
    return puts / took, python, judges, used / puts * 1e6, size / max(rows, 1), wal / puts


WAYS = [("serve", 1, 1), *(("judge", processes, 1) for processes in (1, 2, 4)), ("judge", 1, 4), *((kind, processes, 1) for kind in ("pydantic", "nobody") for processes in (1, 2, 4))]


def seconds(server, room):
    by = "pydantic" if importlib.util.find_spec("pydantic") else "Python by hand"
    print(f"{os.cpu_count()} processors, PostgreSQL {server.run('SHOW server_version')[0][0]}, psycopg {psycopg.__version__} ({psycopg.pq.__impl__}); {by}; medians of {ROUNDS}", flush=True)
    print(f"{'shape':<14}{'at once':>8}  {'judged by':<12}{'processes':>10}{'threads':>8}{'puts/s':>9}   µs of a processor a put: Python  judges  server   bytes a record   of log", flush=True)
    for shape in ("demonstration", "order", "survey"):
        for together in (1, BATCH):
            found = {way: [] for way in WAYS}
            for _ in range(ROUNDS):
                for way in WAYS:
                    found[way].append(measured(server, way[0], shape, way[1], way[2], together, room))
            rates = {}
            for way, runs in found.items():
                rate, python, judges, used, size, wal = map(statistics.median, zip(*runs))
                rates[way] = rate
                name = {"serve": "formd serve", "judge": "formd judge", "pydantic": by}.get(way[0], way[0])
                stored = f"{size:>17,.0f}{wal:>9,.0f}" if way[0] != "serve" else ""
                print(f"{shape:<14}{together:>8}  {name:<12.12}{way[1]:>10}{way[2]:>8}{rate:>9,.0f}{python:>35.0f}{judges:>8.0f}{used if stored else 0:>8.0f}{stored}", flush=True)
            print(
                f"{shape}, {together} at once: four judges beside one {rates['judge', 4, 1] / rates['judge', 1, 1]:.2f}, four beside {by} by four {rates['judge', 4, 1] / rates['pydantic', 4, 1]:.2f},"
                f" one beside one {rates['judge', 1, 1] / rates['pydantic', 1, 1]:.2f}, beside a file {rates['judge', 4, 1] / rates['serve', 1, 1]:.2f}",
                flush=True,
            )


def redeclares(server):
    """Seconds of a redeclare over records of each shape: of reading, judging and all."""
    print("shape          records   redeclare s   records/s")
    for shape in ("demonstration", "order", "survey"):
        made, (declarations, form, make, _) = over(server, 4, compact(SHAPES[shape].declarations)), SHAPES[shape]
        for at in range(0, BATCHED, BATCH):
            made.batch([{"id": f"r{n}", "form": form, "bundle": make(n)} for n in range(at, at + BATCH)])
        begun = time.monotonic()
        look("a redeclare", made.redeclare(compact(declarations)), [])
        took = time.monotonic() - begun
        print(f"{shape:<14}{BATCHED:>8,}{took:>14.2f}{BATCHED / took:>12,.0f}", flush=True)
        made.stop()


def main():
    with tempfile.TemporaryDirectory() as room:
        folder = Path(room) / "server"
        folder.mkdir(mode=0o700)
        os.chmod(room, 0o711)
        server = Server(folder)
        try:
            if not SECONDS:
                replies(server, Path(room))
                apart(server, Path(room))
                expectations(server)
                contents(server)
                redeclared(server)
                changes(server)
                kills(server)
            if not SHORT:
                seconds(server, room)
                redeclares(server)
        finally:
            server.stop()
    return end("the intake over PostgreSQL: {failed} of {count} comparisons differ")


if __name__ == "__main__":
    sys.exit(main())
