"""An intake over PostgreSQL: `formd judge` judges records, in any number of processes, and what it takes is written by one statement.

    createdb intake; psql -d intake -f examples/postgres/schema.sql
    python3 examples/postgres/intake.py formd dbname=intake 4 order.json < lines

The words are the program, the server, the number of judges and declarations, which are put in force where they aren't yet. Lines are puts, batches of puts, gets and
lists of formd, with formd's replies, a get's with `taken_at`; `{"do":"search","form":NAME,"field":NAME,"value":DATUM}` lists the records in which an object has that value. A
put may tell what it expects to be there: `"expected":"-infinity"` that there is none, `"expected":MOMENT` the record that a get has shown with this `taken_at`. Whatever formd
refuses as a line (C1 to C3) is refused so; `{"error":"Request"}` is another command, `Changed`, `NotSent` and `OutcomeUnknown` what these classes say, and any other
error the name that psycopg has for what PostgreSQL refuses. Nothing bounds a statement but what the server is told: `options='-c statement_timeout=10s'`.

Needs psycopg (Debian: python3-psycopg). `docs/SCALE.md` says what is promised, and how fast it is.
"""

from __future__ import annotations

import contextlib
import functools
import hashlib
import json
import os
import subprocess
import sys
import tempfile
import threading
from pathlib import Path
from typing import Any, Iterable, Iterator

import psycopg

ROOT = Path(__file__).resolve().parent.parent.parent
sys.path.insert(0, str(ROOT / "clients" / "python"))
from formd_client import Failure, Limits, NotSent, OutcomeUnknown, Reply, Shard  # noqa: E402

ANYTHING, NOTHING = None, "-infinity"
LIMITS = Limits()
# Seconds: of the judge of a redeclare, for which puts wait (an hour is some 100,000,000 orders), and until a server takes a connection that isn't told otherwise.
JUDGING, CONNECTING = 3600.0, 10
LONGEST = 1 << 20
KEEP = "SELECT keep(%s, %s, %s, %s, %s)"
KEEP_ALL = """
SELECT keep(part.id, part.form, part.bundle, part.expected::timestamptz, %b)
FROM unnest(%b::text[], %b::text[], %b::text[], %b::text[]) AS part (id, form, bundle, expected)
"""
SEARCH = """
SELECT id FROM record WHERE form = %s AND id > %s AND EXISTS (
    SELECT FROM jsonb_each(bundle::jsonb -> 'objects') AS object WHERE object.value -> 'fields' -> %s = %s::jsonb
) ORDER BY id LIMIT %s
"""
# Each record as the line by which it was judged. No text of JSON has the characters that quote and delimit here, and ends of lines are blanks of it, so nothing is quoted.
COPY = r"""
COPY (SELECT format('{"do":"put","id":%s,"form":%s,"bundle":%s}', to_json(id), to_json(form), translate(bundle, E'\r\n', '  ')) FROM record ORDER BY id)
TO STDOUT (FORMAT csv, QUOTE E'\x01', DELIMITER E'\x02')
"""
NUMBERED = "SELECT id FROM (SELECT id, row_number() OVER (ORDER BY id) AS number FROM record) AS numbered WHERE number = ANY(%s) ORDER BY number"
compact = functools.partial(json.dumps, ensure_ascii=False, allow_nan=False, separators=(",", ":"))


class Changed(Failure):
    """What is there isn't what was expected: nothing was written."""


class Request(Failure):
    """A line that no intake takes: nothing was written."""


def digest_of(text: str) -> str:
    return hashlib.sha256(text.encode()).hexdigest()


def file_of(text: str) -> Any:
    """Declarations in a file, which is there until it is closed."""
    file = tempfile.NamedTemporaryFile("w", encoding="utf-8", newline="", suffix=".json")
    file.write(text)
    file.flush()
    return file


def encoded(text: str) -> bytes:
    """A text in UTF-8; one with a lone surrogate in bytes that formd refuses."""
    return text.encode("utf-8", "surrogatepass")


def put_line(id: Any, form: Any, bundle: str) -> bytes:
    return encoded(f'{{"do":"put","id":{compact(id)},"form":{compact(form)},"bundle":{bundle}}}')


class Judge(Shard):
    """A process of `formd judge`, with the thread, deadlines and restarts of a client's."""

    def ask(self, command: dict, line: bytes) -> Reply:
        return self.submit(lambda exchange: exchange(command, line, self.limits.deadline)).told(self.limits.patience)


class Judges:
    """Processes by the same declarations. Each has one line at a time; where one ends its line is asked once more."""

    def __init__(self, program: str, declarations: str, count: int):
        self.digest, self.file = digest_of(declarations), file_of(declarations)
        self.all = [Judge([program, "judge", "--declarations", self.file.name], LIMITS) for _ in range(count)]

    def ask(self, command: dict, line: bytes) -> Reply:
        """The reply to a line, by the judge that has the fewest. NotSent where there is none: nothing has changed."""
        for _ in range(2):
            try:
                return min(self.all, key=Judge.count).ask(command, line)
            except OutcomeUnknown as why:
                lost = why
        raise NotSent(f"no judge has answered: {lost}")

    def stop(self) -> None:
        """Ends the processes behind the lines that they have. Lines that come later aren't sent."""
        for judge in self.all:
            judge.begin_stop(LIMITS.deadline)
        for judge in self.all:
            judge.end_stop()
        self.file.close()


class Intake:
    """Takes records, by any number of threads. A server that forks makes it behind the fork. OutcomeUnknown means of a put that it was written, whole, or not;
    what PostgreSQL refuses otherwise is psycopg's Error, and nothing was written."""

    def __init__(self, program: str, server: str, judges: int = 4):
        self.program, self.server, self.count = program, server, judges
        self.judges: Judges | None = None
        self.lock, self.owner = threading.Lock(), os.getpid()
        self.idle: list[psycopg.Connection] = []  # no queue, whose lock stays closed where something is raised in the midst of it

    def put(self, id: str, form: str, bundle: dict, expected: str | None = ANYTHING) -> Reply:
        """The judge's reply; where it is `ok` the record is written. Changed where that isn't there which was expected."""
        text = compact(bundle)
        return self.take({"do": "put", "id": id}, put_line(id, form, text), [(id, form, text, expected)])

    def batch(self, parts: Iterable[dict]) -> Reply:
        """The same of up to 64 puts, each with `id`, `form`, `bundle` and perhaps `expected`: all are written, or none."""
        rows = [(part["id"], part["form"], compact(part["bundle"]), part.get("expected", ANYTHING)) for part in parts]
        return self.take({"do": "batch"}, b'{"do":"batch","parts":[' + b",".join(put_line(*row[:3]) for row in rows) + b"]}", rows)

    def get(self, id: str) -> dict:
        """A record, and the moment at which it was taken; C6 where there is none."""
        with self.connection() as connection:
            row = connection.execute("SELECT form, bundle, taken_at::text FROM record WHERE id = %s", (id,)).fetchone()
        if row is None:
            return {"error": "C6", "name": "NoRecord"}
        return {"bundle": json.loads(row[1]), "form": row[0], "id": id, "ok": "get", "taken_at": row[2]}

    def ids(self, form: str, after: str = "", limit: int = 100) -> dict:
        """Ids of a form, ascending by their bytes, those above `after`."""
        return self._found("list", "SELECT id FROM record WHERE form = %s AND id > %s ORDER BY id LIMIT %s", (form, after, limit))

    def search(self, form: str, field: str, value: Any, after: str = "", limit: int = 100) -> dict:
        """The same of records in which some object has this value in that field. It reads all records of the form: an index for it is an expression of one's own."""
        return self._found("search", SEARCH, (form, after, field, compact(value), limit))

    def redeclare(self, declarations: str) -> list[tuple[str, Reply]]:
        """Puts declarations in force where every record is taken by them; else the ids of those that aren't, with what the judge says of them. ValueError of
        declarations that aren't taken themselves. Puts wait meanwhile, and are judged by what is in force then; gets, lists and searches don't wait."""
        with file_of(declarations) as file, self.connection() as connection, connection.transaction():
            checked = subprocess.run([self.program, "declarations", file.name], stdout=subprocess.DEVNULL, stderr=subprocess.PIPE, text=True)
            if checked.returncode != 0:
                raise ValueError(checked.stderr.strip())
            connection.execute("LOCK TABLE record IN SHARE ROW EXCLUSIVE MODE")
            refused = self._judge_all(connection, file.name)
            if not refused:
                connection.execute("INSERT INTO declaration (digest, text) VALUES (%s, %s)", (digest_of(declarations), declarations))
            return refused

    def in_force(self) -> str | None:
        """The declarations in force, if there are some."""
        with self.connection() as connection:
            row = connection.execute("SELECT text FROM declaration ORDER BY number DESC LIMIT 1").fetchone()
        return row[0] if row else None

    def take(self, command: dict, line: bytes, rows: list[tuple]) -> Reply:
        """Judges a line, and writes what it puts. Where its judges turn out to be of declarations that are no longer in force, it is judged by others."""
        stale = None
        while True:
            judges = self._judges(stale)
            try:
                reply = judges.ask(command, line + b"\n")
            except NotSent:
                if judges is self.judges:
                    raise
                continue  # another thread has found them to be stale, and ends them
            if "error" in reply or not rows or self.keep(rows, judges.digest):
                return reply
            stale = judges

    def keep(self, rows: list[tuple], digest: str) -> bool:
        """Writes records that were judged by the declarations of this digest, in one transaction: ids, forms, the texts that were judged, what is expected. False,
        and nothing is written, where other declarations are in force."""
        rows = sorted(rows, key=lambda row: row[0])  # so that of two batches one waits, and never each for the other
        with self.connection() as connection:
            try:
                if len(rows) == 1:
                    connection.execute(KEEP, (*rows[0], digest))
                else:
                    connection.execute(KEEP_ALL, (digest, *map(list, zip(*rows))))
            except psycopg.DatabaseError as why:
                if why.sqlstate == "JD002":
                    raise Changed(str(why)) from why
                if why.sqlstate != "JD001":
                    raise
                return False
        return True

    @contextlib.contextmanager
    def connection(self) -> Iterator[psycopg.Connection]:
        """A connection that nobody else has meanwhile. One that isn't through with its query is closed."""
        self._look_at_owner()
        try:
            connection = self.idle.pop()
        except IndexError:
            connection = self._connect()
        try:
            yield connection
        except psycopg.OperationalError as why:
            raise OutcomeUnknown(str(why)) from why
        finally:
            if connection.pgconn.transaction_status == psycopg.pq.TransactionStatus.IDLE:
                self.idle.append(connection)
            else:
                connection.close()

    def stop(self) -> None:
        """Ends the judges and closes the connections, once nobody puts any more."""
        if self.judges is not None:
            self.judges.stop()
        while self.idle:
            self.idle.pop().close()

    def _judges(self, stale: Judges | None) -> Judges:
        """Judges by the declarations in force: others than those that are stale."""
        self._look_at_owner()
        with self.lock:
            if self.judges is stale:
                text = self.in_force()
                if text is None:
                    raise NotSent("no declarations are in force")
                self.judges = Judges(self.program, text, self.count)
                if stale is not None:
                    threading.Thread(target=stale.stop).start()
            return self.judges

    def _look_at_owner(self) -> None:
        if self.owner != os.getpid():
            raise NotSent("the intake is that of the process from which this one was forked: make it behind the fork")

    def _judge_all(self, connection: psycopg.Connection, file: str) -> list[tuple[str, Reply]]:
        """The ids of the records that aren't taken by declarations, with the judge's replies."""
        words = [self.program, "judge", "--declarations", file]
        with tempfile.TemporaryFile() as told, subprocess.Popen(words, stdin=subprocess.PIPE, stdout=told) as judge, connection.cursor() as cursor:
            bound = threading.Timer(JUDGING, judge.kill)
            bound.start()
            try:
                with contextlib.suppress(BrokenPipeError), judge.stdin, cursor.copy(COPY) as lines:
                    for part in lines:
                        judge.stdin.write(part)
                status = judge.wait()
            finally:
                bound.cancel()
                judge.kill()
            told.seek(0)
            replies = told.readlines()
            if (status, len(replies)) != (0, cursor.rowcount):
                raise NotSent(f"the judge has ended with {status} behind {len(replies)} of {cursor.rowcount} records")
        refused = {number: json.loads(reply) for number, reply in enumerate(replies, 1) if not reply.startswith(b'{"ok"')}
        ids = connection.execute(NUMBERED, (list(refused),)).fetchall() if refused else []
        return [(id, reply) for (id,), reply in zip(ids, refused.values())]

    def _found(self, do: str, query: str, given: tuple) -> dict:
        with self.connection() as connection:
            return {"ids": [id for (id,) in connection.execute(query, given)], "ok": do}

    def _connect(self) -> psycopg.Connection:
        try:
            connection = psycopg.connect(**{"connect_timeout": CONNECTING, **psycopg.conninfo.conninfo_to_dict(self.server)}, autocommit=True)
            connection.execute("SET default_transaction_isolation = 'read committed'")  # as `keep` needs it
            return connection
        except psycopg.OperationalError as why:
            raise NotSent(str(why)) from why


def as_judged(command: Any) -> Any:
    """A command as formd knows it: without what it expects, and a search as a list of its form."""
    if not isinstance(command, dict):
        return command
    do = command.get("do")
    if do == "batch" and isinstance(command.get("parts"), list):
        return {**command, "parts": [as_judged(part) for part in command["parts"]]}
    if do == "search" and isinstance(command.get("field"), str) and "value" in command:
        return {**{member: held for member, held in command.items() if member not in ("field", "value")}, "do": "list"}
    return {member: held for member, held in command.items() if do != "put" or member != "expected"}


def row_of(part: dict) -> tuple:
    """What is kept of a put that is taken."""
    expected = part.get("expected", ANYTHING)
    if expected is not ANYTHING and not (isinstance(expected, str) and expected.isprintable()):
        raise Request("what is expected is a text")
    return part.get("id"), part.get("form"), compact(part.get("bundle")), expected


def answered(intake: Intake, line: bytes) -> dict:
    """The reply to a line. A judge looks at each, so that formd itself refuses what is no command."""
    calls = {"get": intake.get, "list": intake.ids, "search": intake.search}
    try:
        try:
            command = json.loads(line.decode(), parse_int=lambda digits: -0.0 if digits == "-0" else int(digits))
            compact(command).encode()
            judged = as_judged(command)
        except (ValueError, RecursionError):
            judged = None
        if judged is None or len(line) > LONGEST:
            return intake.take({}, line[: LONGEST + 1], [])
        do = command.get("do") if isinstance(command, dict) else None
        parts = [command] if do == "put" else command.get("parts") if do == "batch" else None
        if parts and isinstance(parts, list) and all(isinstance(part, dict) and part.get("do") == "put" for part in parts):
            return intake.take(judged, encoded(compact(judged)), [row_of(part) for part in parts])
        reply = intake.take(judged, encoded(compact(judged)), [])
        if reply.get("error") in ("C1", "C2", "C3"):
            return reply
        if not isinstance(do, str) or do not in calls:
            raise Request("a command of another sort")
        return reply if reply.get("error", "C6") != "C6" else calls[do](**{member: held for member, held in command.items() if member != "do"})
    except (Failure, psycopg.Error) as why:
        return {"error": type(why).__name__}


def main() -> None:
    program, server, judges, *declarations = sys.argv[1:]
    intake = Intake(program, server, int(judges))
    for file in declarations:
        text = Path(file).read_text(encoding="utf-8")
        for id, reply in intake.redeclare(text) if text != intake.in_force() else []:
            sys.exit(f"{file} isn't put in force: {id}: {compact(reply)}")
    for line in sys.stdin.buffer:
        print(compact(answered(intake, line.removesuffix(b"\n"))), flush=True)
    intake.stop()


if __name__ == "__main__":
    main()
