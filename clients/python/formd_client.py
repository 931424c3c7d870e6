"""A client of `formd`: a process for each database file, and the ids spread over the files. The standard library alone.

    with Pool("formd", "order.json", ["a.db", "b.db"]) as pool:
        reply = pool.ask({"do": "get", "id": "order-1"})

`clients/README.md` says what a caller may rely on, and which file a line goes to.
"""

from __future__ import annotations

import _thread
import hashlib
import heapq
import itertools
import json
import os
import queue
import select
import subprocess
import threading
import time
from dataclasses import dataclass
from typing import Any, Callable, Iterable, TypedDict


class Violation(TypedDict):
    """A constraint that doesn't hold: where it stands and what it has refused."""

    constraint: str
    message: str
    occurrence: int
    path: str
    value: Any


class Refused(TypedDict):
    """A record with all its violations."""

    id: str
    violations: list[Violation]


class Reply(TypedDict, total=False):
    """A reply: `ok` and what the command gives, or `error` with its name and what belongs to it."""

    ok: str
    bundle: dict[str, Any]
    form: str
    id: str
    ids: list[str]
    violations: list[Violation]
    error: str
    name: str
    fault: str
    part: int
    records: list[Refused]


class Failure(Exception):
    """There is no reply."""


class NotSent(Failure):
    """The line never went to formd: it has changed nothing."""


class OutcomeUnknown(Failure):
    """The line went to formd and its reply didn't come: it was made, whole, or it wasn't."""


class Exists(Failure):
    """The id of a `create` has a record: nothing was put."""


@dataclass(frozen=True)
class Limits:
    """All are seconds, but for the queue, which counts lines, and the largest, which counts bytes."""

    deadline: float = 10.0
    """From the first byte of a line that is sent to the last of its reply."""
    opening: float = 60.0
    """Until a process that is started has opened its file and answers."""
    patience: float = 10.0
    """Until a line's turn comes."""
    queue: int = 64
    """Lines that wait for their turn at one file."""
    largest: int = 1 << 28
    """Bytes of a reply; a process that says more is ended."""
    pause: float = 0.05
    """Before a process is started anew; it doubles with each that ends without an answer."""
    longest_pause: float = 5.0


Exchange = Callable[[dict, bytes, float], Reply]
# Seconds after which a wait looks whether a stop has begun.
LOOK = 0.25


class Job:
    """Steps that wait for their turn, and what came of them."""

    def __init__(self, steps: Callable[[Exchange], Reply]):
        self.steps = steps
        self.taken, self.done = threading.Lock(), threading.Lock()
        self.done.acquire()
        self.reply: Reply | None = None
        self.failure: BaseException | None = None

    def make(self, exchange: Exchange) -> None:
        if self.taken.acquire(blocking=False):
            try:
                self.reply = self.steps(exchange)
            except BaseException as why:
                self.failure = why
            self.done.release()

    def told(self, patience: float) -> Reply:
        """The reply. NotSent where its turn doesn't come. Steps that nobody waits for any more aren't made, unless they are under way."""
        try:
            is_done = self.done.acquire(timeout=patience)
        except BaseException:
            self.taken.acquire(blocking=False)
            raise
        if not is_done:
            if self.taken.acquire(blocking=False):
                raise NotSent(f"its turn didn't come within {patience} s")
            self.done.acquire()
        if self.failure is not None:
            raise self.failure
        return self.reply


def as_line(command: dict) -> bytes:
    """A command as a line. What JSON doesn't have is a ValueError or a TypeError, a lone surrogate a line that formd refuses."""
    text = json.dumps(command, ensure_ascii=False, allow_nan=False, separators=(",", ":"))
    return text.encode("utf-8", "surrogatepass") + b"\n"


def belongs(reply: Reply, command: dict) -> bool:
    """Whether a reply can be that of the command, as far as it shows."""
    if "error" in reply:
        return True
    return reply["ok"] == command.get("do") and reply.get("id", command.get("id")) == command.get("id")


class Shard:
    """One process over one file, and a thread that gives it one line at a time. What happens to a caller meanwhile doesn't reach the pipe: callers hold no lock
    that the thread waits for, since an exception that a signal's handler raises may come before any instruction, and leave it closed."""

    def __init__(self, words: list[str], limits: Limits):
        self.words, self.limits = words, limits
        self.jobs: queue.SimpleQueue[Job | None] = queue.SimpleQueue()
        self.waiting: set[Job] = set()
        self.is_busy = False
        self.at_work = threading.Lock()
        self.stop_by: float | None = None
        self.child: subprocess.Popen | None = None
        self.before: subprocess.Popen | None = None
        self.failures, self.rest_until = 0, 0.0
        self.status: int | None = None
        self.owner = os.getpid()
        self.at_work.acquire()
        _thread.start_new_thread(self._work, ())

    def submit(self, steps: Callable[[Exchange], Reply]) -> Job:
        """Gives steps their turn: no other line comes between theirs."""
        if self.owner != os.getpid():
            raise NotSent("the pool is that of the process from which this one was forked: make it behind the fork")
        if self.stop_by is not None:
            raise NotSent("the pool is stopped")
        if self.count() - self.is_busy >= self.limits.queue:
            raise NotSent(f"{self.limits.queue} lines wait already")
        job = Job(steps)
        self.jobs.put(job)
        self.waiting.add(job)
        return job

    def count(self) -> int:
        """How many lines wait or are under way, without those that nobody waits for any more."""
        for job in list(self.waiting):
            if job.taken.locked():
                self.waiting.discard(job)
        return len(self.waiting) + self.is_busy

    def begin_stop(self, seconds: float) -> None:
        """Takes no more lines. Those that wait are answered, as far as the seconds go."""
        self.stop_by = time.monotonic() + seconds

    def end_stop(self) -> int | None:
        """Waits until the process has ended: its status, none where none was running."""
        self.jobs.put(None)
        with self.at_work:
            return self.status

    def _work(self) -> None:
        while (job := self.jobs.get()) is not None or not self.jobs.empty():
            if job is not None:
                self.is_busy = True
                job.make(self._exchange)
                self.is_busy = False
        self._close()
        self.at_work.release()

    def _exchange(self, command: dict, line: bytes, deadline: float) -> Reply:
        """A line in, a line out. Whatever else happens between the two ends the process."""
        self._make_ready()
        try:
            reply = json.loads(self._talk(line, deadline))
            if not belongs(reply, command):
                raise ValueError("the reply to another line")
        except BaseException as why:
            raise OutcomeUnknown(f"{why!r}: {self._drop()}") from why
        self.failures = 0
        return reply

    def _talk(self, line: bytes, seconds: float) -> bytearray:
        until, rest, reply = time.monotonic() + seconds, memoryview(line), bytearray()
        into, out = self.child.stdin, self.child.stdout
        while rest:
            self._wait(into, select.POLLOUT, until)
            rest = rest[os.write(into.fileno(), rest) :]
        while not reply.endswith(b"\n"):
            self._wait(out, select.POLLIN, until)
            part = os.read(out.fileno(), 1 << 16)
            if not part:
                raise EOFError("formd has ended")
            reply += part
            if len(reply) > self.limits.largest:
                raise ValueError(f"a reply of more than {self.limits.largest} bytes")
        return reply

    def _wait(self, file: Any, event: int, until: float) -> None:
        """Waits until a pipe takes bytes or has some. What is there already is seen after the deadline too."""
        poll = select.poll()
        poll.register(file, event)
        while not poll.poll(min(LOOK, max(0.0, self._left(until))) * 1000):
            if self._left(until) <= 0:
                raise TimeoutError("no reply within its deadline")

    def _left(self, until: float) -> float:
        """Seconds until a moment, or until the end of a stop, if that is earlier: a stop may begin meanwhile."""
        return (until if self.stop_by is None else min(until, self.stop_by)) - time.monotonic()

    def _make_ready(self) -> None:
        """Has a process that answers, one that is started anew where need be."""
        if self.stop_by is not None and time.monotonic() > self.stop_by:
            raise NotSent("the pool is stopped")
        if self.child is not None and self._has_spoken():
            self._drop()
        if self.child is not None:
            return
        while self.stop_by is None and self._left(self.rest_until) > 0:
            time.sleep(min(LOOK, max(0.0, self._left(self.rest_until))))
        until = time.monotonic() + self.limits.opening
        try:
            while self.before is not None and self.before.poll() is None:
                if self._left(until) <= 0:
                    raise TimeoutError("the process before it doesn't end")
                time.sleep(0.01)
            # a session of its own: what a terminal sends to the group of processes is for its parent alone
            self.child = subprocess.Popen(self.words, stdin=subprocess.PIPE, stdout=subprocess.PIPE, bufsize=0, start_new_session=True)
            os.set_blocking(self.child.stdin.fileno(), False)
            self._talk(b"{}\n", self.limits.opening)
        except BaseException as why:
            raise NotSent(f"{why!r}: {self._drop()}") from why

    def _has_spoken(self) -> bool:
        """Whether the process has ended, or says what nobody has asked."""
        poll = select.poll()
        poll.register(self.child.stdout, select.POLLIN)
        return bool(poll.poll(0))

    def _drop(self) -> str:
        """Kills the process, and says how it has ended. The next one has to wait, longer each time that none has answered in between."""
        child, self.child = self.child, None
        self.rest_until = time.monotonic() + min(self.limits.pause * 2 ** min(self.failures, 20), self.limits.longest_pause)
        self.failures += 1
        if child is None:
            return "no process"
        self.before = child
        child.kill()
        child.stdin.close()
        child.stdout.close()
        try:
            return f"its status is {child.wait(1)}"
        except subprocess.TimeoutExpired:
            return "it is killed"

    def _close(self) -> None:
        """Closes the input, so that the process ends in order."""
        if self.child is None:
            return
        self.child.stdin.close()
        try:
            self.status = self.child.wait(max(1.0, self.stop_by - time.monotonic()))
        except subprocess.TimeoutExpired:
            self.child.kill()
        self.child.stdout.close()


class Pool:
    """Shards over files. Their order and number are part of the data: never change them over files that have records."""

    def __init__(self, program: str | Iterable[str], declarations: str, databases: Iterable[str], words: Iterable[str] = (), **limits: Any):
        """The program is a path, or words such as `["prlimit", "--as=2147483648", "formd"]`; `words` go behind those of `serve`; `limits` are those of `Limits`."""
        first = [program] if isinstance(program, str) else list(program)
        self.limits = Limits(**limits)
        self.shards = [Shard([*first, "serve", "--declarations", declarations, "--database", database, *words], self.limits) for database in databases]

    def shard_of(self, id: Any) -> int:
        """The number of the file of an id: the first four bytes of its SHA-256, as a number, modulo the number of files. What is no text goes to the first one."""
        if not isinstance(id, str):
            return 0
        return int.from_bytes(hashlib.sha256(id.encode("utf-8", "surrogatepass")).digest()[:4], "big") % len(self.shards)

    def _shard(self, command: dict) -> Shard:
        """Where a line goes that goes to one file."""
        do = command.get("do")
        if do in ("list", "redeclare"):
            raise ValueError(f"a {do} goes to every file: ask, or redeclare")
        if do == "checkvalue":
            return min(self.shards, key=Shard.count)
        if do != "batch":
            return self.shards[self.shard_of(command.get("id"))]
        parts = command.get("parts")
        named = {self.shard_of(part.get("id")) for part in parts if isinstance(part, dict)} if isinstance(parts, list) else set()
        if len(named) > 1:
            raise ValueError("the parts of a batch belong to more than one file: make a batch for each")
        return self.shards[named.pop() if named else 0]

    def _submit(self, shard: Shard, command: dict, deadline: float | None) -> Job:
        line, seconds = as_line(command), self.limits.deadline if deadline is None else deadline
        return shard.submit(lambda exchange: exchange(command, line, seconds))

    def ask(self, command: dict, deadline: float | None = None) -> Reply:
        """The reply to a command; of a list that of all files, merged. NotSent or OutcomeUnknown where there is none."""
        if command.get("do") != "list":
            return self._submit(self._shard(command), command, deadline).told(self.limits.patience)
        jobs = [self._submit(shard, command, deadline) for shard in self.shards]
        replies = [job.told(self.limits.patience) for job in jobs]
        refused = [reply for reply in replies if "error" in reply]
        if refused:
            return refused[0]
        return {"ids": list(itertools.islice(heapq.merge(*(reply["ids"] for reply in replies)), command.get("limit", 100))), "ok": "list"}

    def create(self, put: dict, deadline: float | None = None) -> Reply:
        """The reply to a put whose id has no record; Exists where it has one. Both are looked at and done in one turn."""
        get, seconds = {"do": "get", "id": put.get("id")}, self.limits.deadline if deadline is None else deadline
        get_line, put_line = as_line(get), as_line(put)

        def steps(exchange: Exchange) -> Reply:
            try:
                found = exchange(get, get_line, seconds)
            except OutcomeUnknown as why:
                raise NotSent(f"the get before it: {why}") from why
            if "ok" in found:
                raise Exists(put["id"])
            return exchange(put, put_line, seconds) if found["error"] == "C6" else found

        return self._shard(put).submit(steps).told(self.limits.patience)

    def redeclare(self, text: str, deadline: float = 600.0) -> list[Reply]:
        """Gives one file after the other other declarations: the replies up to the first refusal. After a Failure it may be asked again."""
        replies: list[Reply] = []
        for shard in self.shards:
            replies.append(self._submit(shard, {"do": "redeclare", "text": text}, deadline).told(self.limits.patience))
            if "error" in replies[-1]:
                break
        return replies

    def stop(self, seconds: float = 30.0) -> list[int | None]:
        """Takes no more lines, has those answered that wait, as far as the seconds go, and ends each process in order: their exit statuses, None where none was running."""
        for shard in self.shards:
            shard.begin_stop(seconds)
        return [shard.end_stop() for shard in self.shards]

    def __enter__(self) -> Pool:
        return self

    def __exit__(self, *_: object) -> None:
        self.stop()
