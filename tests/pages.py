#!/usr/bin/env python3
"""Lists 10,000 ids page by page, by the program that `make` leaves, while some are removed and put: each page gives what it should.

    tests/pages.py [PROGRAM]

What is wanted is reckoned here: the ids of the form that are there, sorted by their bytes, those above the last one of the page before.
"""
import json
import random
import subprocess
import tempfile
from pathlib import Path

from looks import named_program

PROGRAM = named_program()
DECLARATIONS = {"types": {"T": {"fields": {}}}, "forms": {"f": {"root": "T"}, "g": {"root": "T"}}}
LETTERS = "ABCXYZabcxyz0123456789_-"


def put(key, form):
    return {"do": "put", "id": key, "form": form, "bundle": {"root": "a", "objects": {"a": {"type": "T"}}}}


class Service:
    def __init__(self, folder):
        (folder / "d.json").write_text(json.dumps(DECLARATIONS))
        words = [PROGRAM, "serve", "--declarations", folder / "d.json", "--database", folder / "g.db", "--now", "0"]
        self.formd = subprocess.Popen(words, stdin=subprocess.PIPE, stdout=subprocess.PIPE, text=True)

    def ask(self, command):
        self.formd.stdin.write(json.dumps(command) + "\n")
        self.formd.stdin.flush()
        return json.loads(self.formd.stdout.readline())

    def done(self, command):
        reply = self.ask(command)
        if reply != {"ok": command["do"]}:
            raise SystemExit(f"not taken: {reply}")

    def end(self):
        self.formd.stdin.close()
        if self.formd.wait() != 0:
            raise SystemExit("formd has failed")


def pages(service, form, limit, change):
    """The ids of all pages; `change` is called between them."""
    after, found = None, []
    while True:
        command = {"do": "list", "form": form, "limit": limit}
        if after is not None:
            command["after"] = after
        page = service.ask(command)["ids"]
        found += page
        if len(page) < limit:
            return found
        after = page[-1]
        change(after)


def main():
    chosen = random.Random(20261126)
    ids = set()
    while len(ids) < 10400:
        ids.add("".join(chosen.choice(LETTERS) for _ in range(chosen.randint(1, 12))))
    ids = sorted(ids)
    chosen.shuffle(ids)
    ids, spare = ids[:10000], ids[10000:]
    forms = {key: chosen.choice("ffffg") for key in ids}
    with tempfile.TemporaryDirectory() as name:
        service = Service(Path(name))
        for at in range(0, len(ids), 50):
            service.done({"do": "batch", "parts": [put(key, forms[key]) for key in ids[at : at + 50]]})
        for form in "fg":
            wanted = sorted(key for key in ids if forms[key] == form)
            for limit in (1000, 999, 100, 37):
                if pages(service, form, limit, lambda after: None) != wanted:
                    raise SystemExit(f"pages of {limit} of {form} differ")
        # between pages the last id is removed, and one that is behind it is put: no other is given twice or left out
        removed, added = [], []

        def change(after):
            service.done({"do": "remove", "id": after})
            removed.append(after)
            if spare:
                key = spare.pop()
                service.done(put(key, "f"))
                if key > after:
                    added.append(key)

        wanted = {key for key in ids if forms[key] == "f"}
        found = pages(service, "f", 50, change)
        if found != sorted(wanted | set(added)):
            raise SystemExit("pages between changes differ")
        left = sorted((wanted | set(added)) - set(removed))
        again = [key for key in pages(service, "f", 1000, lambda after: None) if key in set(left)]
        if again != left:
            raise SystemExit("what is left differs")
        service.end()
    print(f"{len(ids)} ids: each page gives what it should")


if __name__ == "__main__":
    main()
