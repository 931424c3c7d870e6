"""What the callers of the client in Python do and are told, for tests/clients.py: `clients_driver.py PLAY CONFIG` prints it as JSON. clients_driver.js does the same in Node."""

import itertools
import json
import os
import random
import signal
import sys
import threading
import time
from concurrent.futures import ThreadPoolExecutor
from pathlib import Path

sys.dont_write_bytecode = True
THREADS = ThreadPoolExecutor(32)
sys.path.insert(0, str(Path(__file__).resolve().parent.parent / "clients" / "python"))
from formd_client import Exists, Failure, NotSent, OutcomeUnknown, Pool  # noqa: E402


def pool_of(config, databases=None):
    return Pool(config["program"], config["declarations"], databases or config["databases"], **config.get("limits", {}))


def put(id, **fields):
    return {"do": "put", "id": id, "form": "f", "bundle": {"root": "a", "objects": {"a": {"type": "T", "fields": fields}}}}


def get(id):
    return {"do": "get", "id": id}


def fields_of(reply):
    return reply["bundle"]["objects"]["a"]["fields"]


def told(ask):
    """The reply, or the name of what is raised in its place."""
    try:
        return ask()
    except (Failure, ValueError) as why:
        return type(why).__name__


def later(pool, id):
    """A get in a thread of its own."""
    return THREADS.submit(pool.ask, get(id))


def tell(config, word):
    """Tells the stub."""
    Path(f"{config['databases'][0]}.{word}").touch()


def wait(config, word):
    """Waits until the stub tells."""
    while not os.path.exists(f"{config['databases'][0]}.{word}"):
        time.sleep(0.01)


def side_by_side(callers, call):
    threads = [threading.Thread(target=call, args=(number,)) for number in range(callers)]
    for thread in threads:
        thread.start()
    for thread in threads:
        thread.join()


class Asker:
    """Asks until there is a reply, and counts what is told meanwhile."""

    def __init__(self, pool):
        self.pool, self.lock = pool, threading.Lock()
        self.found = {"answered": {}, "done": 0, "unknown": 0, "not_sent": 0, "crossed": [], "slowest": 0}

    def until_answered(self, make):
        """The reply to the first of the commands that is answered, with its number."""
        for attempt in itertools.count():
            begun, why = time.monotonic(), None
            try:
                return attempt, self.pool.ask(make(attempt))
            except Failure as failure:
                why = failure
                time.sleep(0.01 if isinstance(why, NotSent) else 0)
            finally:
                with self.lock:
                    self.found["slowest"] = max(self.found["slowest"], time.monotonic() - begun)
                    self.found["unknown"] += isinstance(why, OutcomeUnknown)
                    self.found["not_sent"] += isinstance(why, NotSent)
                    if "another line" in str(why):
                        self.found["crossed"].append(str(why))

    def put(self, id):
        """Puts a record of its own, and asks something whose reply names it."""
        attempt, reply = self.until_answered(lambda attempt: put(id, text=f"{id} {attempt}"))
        self.compare(id, reply, {"ok": "put"})
        with self.lock:
            self.found["answered"][id] = f"{id} {attempt}"
            self.found["done"] += 1
            sort = self.found["done"] % 3
        long = id + "x" * 60
        if sort == 0:
            self.compare(id, fields_of(self.until_answered(lambda _: get(id))[1]), {"text": f"{id} {attempt}"})
        elif sort == 1:
            (record,) = self.until_answered(lambda _: put(id, text=long))[1]["records"]
            self.compare(id, (record["id"], record["violations"][0]["value"]), (id, long))
        else:
            asked = {"do": "checkvalue", "type": "T", "field": "text", "value": long}
            self.compare(id, self.until_answered(lambda _: asked)[1]["violations"][0]["value"], long)

    def compare(self, id, found, wanted):
        if found != wanted:
            with self.lock:
                self.found["crossed"].append(f"{id}: {found}")


def kills(config):
    """Callers put records while the processes are killed."""
    pool, chance = pool_of(config), random.Random(config["seed"])
    asker = Asker(pool)

    def kill():
        for number in range(config["kills"]):
            while asker.found["done"] < (number + 0.5) * config["puts"] / config["kills"]:
                time.sleep(0.0005)
            time.sleep(chance.random() / 500)
            while (child := chance.choice(pool.shards).child) is None or child.poll() is not None:
                time.sleep(0.001)
            child.kill()

    killer = threading.Thread(target=kill)
    killer.start()
    side_by_side(config["callers"], lambda caller: [asker.put(f"w{n}") for n in range(caller, config["puts"], config["callers"])])
    killer.join()
    asker.until_answered(lambda _: {"do": "list", "form": "f"})  # so that each file has a process that ends in order
    return {**asker.found, "statuses": pool.stop()}


def stop(config):
    """The pool is stopped while callers put records."""
    pool, answered, unknown = pool_of(config), {}, []

    def call(caller):
        for n in itertools.count():
            try:
                pool.ask(put(f"w{caller}-{n}", text=str(n)))
                answered[f"w{caller}-{n}"] = str(n)
            except NotSent:
                return
            except OutcomeUnknown as why:
                unknown.append(str(why))

    callers = threading.Thread(target=side_by_side, args=(config["callers"], call))
    callers.start()
    while len(answered) < config["puts"]:
        time.sleep(0.001)
    statuses = pool.stop()
    callers.join()
    return {"answered": answered, "unknown": unknown, "statuses": statuses, "behind": told(lambda: pool.ask(get("w0-0")))}


def numbers(config):
    """Each number is put, shown, put as it was shown under another id, and shown."""
    with pool_of(config) as pool:
        shown = []
        for at, digits in enumerate(config["numbers"]):
            pool.ask(put(f"n{at}", number=int(digits), text=digits))
            first = pool.ask(get(f"n{at}"))
            pool.ask({"do": "put", "id": f"m{at}", "form": "f", "bundle": first["bundle"]})
            fields = fields_of(pool.ask(get(f"m{at}")))
            shown.append([str(fields["number"]), fields["text"]])
        return shown


def create(config):
    """Callers create the same ids."""
    with pool_of(config) as pool:
        told_to = {id: [] for id in config["ids"]}

        def call(caller):
            for id in config["ids"]:
                try:
                    told_to[id].append([caller, pool.create(put(id, text=str(caller)))])
                except Exists:
                    told_to[id].append([caller, "Exists"])

        side_by_side(config["callers"], call)
        return {id: {"told": told_to[id], "kept": fields_of(pool.ask(get(id)))["text"]} for id in config["ids"]}


def lines(config):
    """Lines of every sort over several files."""
    with pool_of(config) as pool:
        ids = [f"r{n}" for n in range(30)]
        for id in ids:
            pool.ask(put(id, text=id))
        pages, after = [], {}
        while page := pool.ask({"do": "list", "form": "f", "limit": 7, **after})["ids"]:
            pages.append(page)
            after = {"after": page[-1]}
        alike = [id for id in ids if pool.shard_of(id) == pool.shard_of("r0")]
        parts = [{"do": "set", "id": id, "object": "a", "field": "number", "value": 5} for id in ids]
        found = {
            "pages": pages,
            "no limit": pool.ask({"do": "list", "form": "f", "limit": 0}),
            "any value": pool.ask({"do": "checkvalue", "type": "T", "field": "text", "value": "x"}),
            "a batch": pool.ask({"do": "batch", "parts": [part for part in parts if part["id"] in alike]}),
            "its parts": [fields_of(pool.ask(get(id))).get("number", 0) == 5 for id in ids],
            "alike": [id in alike for id in ids],
            "a batch of two files": told(lambda: pool.ask({"do": "batch", "parts": parts})),
            "no parts": pool.ask({"do": "batch", "parts": []}),
            "no id": pool.ask({"do": "get"}),
            "an id that is no text": pool.ask({"do": "get", "id": 7}),
            "no command": pool.ask({}),
            "a line too long": pool.ask(put("long", text="x" * 1048576)),
            "half a character": pool.ask(put("half", text="\ud800")),
            "a redeclare": pool.redeclare(config["text"]),
            "one that is refused": pool.redeclare("{"),
            "one by ask": told(lambda: pool.ask({"do": "redeclare", "text": "{}"})),
            "the last": pool.ask(get("r1"))["id"],
        }
    return {**found, "abc": [pool_of(config, config["databases"][:1] * count).shard_of("abc") for count in range(1, 8)]}


def large(config):
    """Callers put and show records of nearly a mebibyte."""
    texts = [(str(n) * 60000)[:60000] for n in range(15)]
    with pool_of(config) as pool:
        same = []

        def call(caller):
            for n in range(3):
                id = f"l{caller}-{n}"
                reply = pool.ask(put(id, text=id, texts=texts))
                same.append(reply == {"ok": "put"} and fields_of(pool.ask(get(id))) == {"text": id, "texts": texts})

        side_by_side(8, call)
        return same


def begin(config):
    """The folder of the file isn't there at first."""
    with pool_of(config) as pool:
        first = told(lambda: pool.ask(get("a")))
        os.mkdir(os.path.dirname(config["databases"][0]))
        return [first, pool.ask(get("a"))]


def deploy(config):
    """A second pool over the same file, whose lines aren't sent until the first one is stopped."""
    with pool_of(config) as new:
        with pool_of(config) as old:
            old.ask(put("a", text="1"))
            before = told(lambda: new.ask(get("a")))
        while (reply := told(lambda: new.ask(get("a")))) == "NotSent":
            pass
        return [before, fields_of(reply)]


def wrong(config):
    """A process that ends, says no JSON, twice as much, or something else; behind each one the next line."""
    with pool_of(config) as pool:
        found, before = [], pool.ask(get("first"))["form"]
        for id in ("fine", "end", "junk", "two", "other", "large", "more"):
            reply = told(lambda: pool.ask(get(id)))
            if id == "more":
                tell(config, "said")
                wait(config, "more")
            behind = pool.ask(get(f"behind-{id}"))
            found.append([reply if isinstance(reply, str) else reply["id"], behind["id"], behind["form"] == before])
            before = behind["form"]
        return found


def full(config):
    """One line is held back, and more are asked than may wait."""
    with pool_of(config) as pool:
        futures = [later(pool, "hold")]
        wait(config, "held")
        for n in range(config["limits"]["queue"]):
            futures.append(later(pool, f"r{n}"))
            while pool.shards[0].jobs.qsize() <= n:
                time.sleep(0.001)
        more = told(lambda: pool.ask(get("more")))
        tell(config, "go")
        return [[future.result()["id"] for future in futures], more, pool.ask(get("behind"))["id"]]


def interrupted(config):
    """A signal's handler raises in the midst of asks, as a web server's soft time-out does."""
    pool, chance, found = pool_of(config), random.Random(config["seed"]), {"interrupted": 0, "answered": 0, "crossed": []}

    class Soft(Exception):
        pass

    def ring(*_):
        raise Soft

    pool.ask(get("i"))
    signal.signal(signal.SIGALRM, ring)
    for n in range(config["asks"]):
        try:
            signal.setitimer(signal.ITIMER_REAL, chance.random() / 1000 + 1e-6)
            reply = pool.ask(put(f"i{n}", text="x" * 61))
            signal.setitimer(signal.ITIMER_REAL, 0)
            time.sleep(0)  # a signal that has come by then is told here
            found["answered"] += 1
            if reply["records"][0]["id"] != f"i{n}":
                found["crossed"].append(reply)
        except Soft:
            found["interrupted"] += 1
        except NotSent:
            time.sleep(0.01)  # lines that nobody waits for any more fill the queue
    signal.signal(signal.SIGALRM, signal.SIG_IGN)
    return {**found, "statuses": pool.stop()}


def deadline(config):
    """One line is never answered, and others wait behind it."""
    with pool_of(config) as pool:
        first = pool.ask(get("fine"))["form"]
        begun, seconds = time.monotonic(), []
        never = later(pool, "never")
        never.add_done_callback(lambda _: seconds.append(time.monotonic() - begun))
        wait(config, "never")
        others = [later(pool, f"r{n}") for n in range(3)]
        replies = [future.result() for future in others]
        return {"never": told(never.result), "seconds": seconds[0], "ids": [reply["id"] for reply in replies], "others": first not in [reply["form"] for reply in replies]}


def patience(config):
    """A line waits behind a slow one for longer than it may, again and again: none of them stands in the way of the next."""
    with pool_of(config) as pool:
        slow = later(pool, "slow")
        wait(config, "slow")
        replies = list(itertools.takewhile(lambda reply: reply == "NotSent", (told(lambda: pool.ask(get("waits"))) for _ in range(20))))
        return [replies[0], len(replies) < 20, slow.result()["id"]]


def cut(config):
    """The pool is stopped while a line is under way that is never answered."""
    pool = pool_of(config)
    never = later(pool, "never")
    wait(config, "never")
    begun = time.monotonic()
    pool.stop(0.5)
    return [told(never.result), time.monotonic() - begun]


def opening(config):
    """A process that doesn't begin to answer."""
    with pool_of(config) as pool:
        begun = time.monotonic()
        return [told(lambda: pool.ask(get("a"))), time.monotonic() - begun]


def pauses(config):
    """A process that ends at once, again and again."""
    with pool_of(config) as pool:
        return [told(lambda: pool.ask(get("a"))) for _ in range(5)]


PLAYS = (kills, stop, numbers, create, lines, large, begin, deploy, wrong, full, interrupted, deadline, patience, cut, opening, pauses)

if __name__ == "__main__":
    print(json.dumps({play.__name__: play for play in PLAYS}[sys.argv[1]](json.loads(sys.argv[2]))))
