#!/usr/bin/env python3
"""Runs the forms of `examples/`, in Flask and in Node, over a program, as a browser would, and compares what they answer.

    tests/examples.py                 with the program that `make` leaves
    tests/examples.py PROGRAM         with another build of formd
    tests/examples.py PROGRAM NAME    flask alone, or node

Each is then run over a stub in the program's place, which refuses as a full disk makes formd refuse, or holds a put back until the server has been told to end:
that put has to be answered. Needs `flask` (Debian: python3-flask) and `node`; what isn't there is said and left out, and nothing to run is a failure.
"""

import hmac
import importlib.util
import json
import os
import re
import shutil
import signal
import socket
import subprocess
import sys
import tempfile
import threading
import time
import urllib.error
import urllib.parse
import urllib.request
from contextlib import contextmanager
from pathlib import Path

from looks import ROOT, end, look, named_program

PROGRAM = named_program()
GOOD = {"name": "Ada", "email": "ada@example.org", "topic": "order"}
KEY = {"Authorization": "Bearer of-the-office"}
SERVERS = {"flask": [sys.executable, ROOT / "examples" / "flask" / "app.py"], "node": ["node", ROOT / "examples" / "node" / "server.js"]}
# Answers each line by what REPLIES has for its command, a put once there is the file HOLD, if one is named. Before it waits it makes HOLD.put. A put of the name
# "end" ends it.
STUB = f"""#!{sys.executable}
import json, os, sys, time
replies, hold = json.loads(os.environ["REPLIES"]), os.environ.get("HOLD")
for line in sys.stdin:
    if '"name":"end"' in line:
        sys.exit(4)
    do = json.loads(line).get("do")
    if do == "put" and hold:
        open(hold + ".put", "w").close()
        while not os.path.exists(hold):
            time.sleep(0.01)
    print(json.dumps(replies.get(do, {{"error": "C3", "name": "Shape"}})), flush=True)
"""


class Unfollowed(urllib.request.HTTPRedirectHandler):
    def redirect_request(self, *_):
        return None


class Site:
    """A server at work."""

    def __init__(self, name, process, port):
        self.name, self.process, self.port, self.is_ended = name, process, port, False

    def end(self):
        """Tells the server to end, once: a second signal may meet it when it has no more to do, and handles none."""
        if not self.is_ended:
            self.process.send_signal(signal.SIGTERM)
        self.is_ended = True

    def ask(self, path="/", form=None, headers={}, follow=True, method=None, has_length=True):
        """The status and the text, behind a redirect those of where it leads."""
        data = None if form is None else urllib.parse.urlencode(form).encode()
        request = urllib.request.Request(f"http://127.0.0.1:{self.port}{path}", data if has_length else iter([data]), headers, method=method)
        opener = urllib.request.build_opener(*([] if follow else [Unfollowed]))
        try:
            with opener.open(request, timeout=20) as reply:
                return reply.status, reply.read().decode()
        except urllib.error.HTTPError as error:
            return error.code, error.read().decode()

    def token(self):
        """That of a new form."""
        return re.search('name="token" value="([^"]+)"', self.ask()[1])[1]

    def look(self, what, found, wanted):
        look(f"{self.name}: {what}", found, wanted)


def free_port():
    with socket.socket() as one:
        one.bind(("127.0.0.1", 0))
        return one.getsockname()[1]


@contextmanager
def served(name, program, folder, **environment):
    """A server over a program, that is ended in order behind what is asked of it."""
    port = free_port()
    files = " ".join(f"{folder}/contacts-{n}.db" for n in range(2))
    given = {"FORMD": str(program), "FILES": files, "PORT": str(port), "KEY": "of-the-office", "PYTHONDONTWRITEBYTECODE": "1", **environment}
    process = subprocess.Popen(SERVERS[name], env={**os.environ, **given}, stdout=subprocess.DEVNULL, stderr=subprocess.DEVNULL)
    site = Site(name, process, port)
    try:
        for _ in range(200):
            try:
                site.ask()
                break
            except OSError:
                time.sleep(0.1)
        else:
            raise SystemExit(f"{name}: the server doesn't come up")
        yield site
    finally:
        site.end()
        site.look("its status behind SIGTERM", process.wait(timeout=30), 0)


def plain(text):
    return re.sub(r"\s", "", text)


def compare(site):
    """The requests, each with what is wanted."""
    status, text = site.ask()
    site.look("the blank form", (status, len(re.findall("<input", text)), "<b>" in text), (200, 4, False))
    tokens = [site.token() for _ in range(7)]
    status, text = site.ask("/", {"token": tokens[0], "name": " ", "email": "ada", "topic": "lunch"})
    told = [re.findall(r"<b>(.*?)</b>", row) for row in re.findall(r"<p>.*?</p>", text)]
    site.look("a form that isn't taken", (status, told), (422, [["must not be blank"], ["an address has an @ and no blanks"], ["one of [order, return, other]"]]))
    site.look("nothing of it is stored", site.ask(f"/contact/{tokens[0]}"), (404, "C6 NoRecord"))
    kept = (200, '{"email":"ada@example.org","name":"Ada","topic":"order"}')
    for token in tokens:
        status, text = site.ask("/", {"token": token, **GOOD})
        site.look("a form that is taken", (status, plain(text)), kept)
    status, text = site.ask("/", {"token": tokens[3], **GOOD})
    site.look("the same form once more", (status, plain(text)), kept)
    site.look("other fields for it", site.ask("/", {"token": tokens[3], **GOOD, "name": "Bob"})[0], 409)
    status, text = site.ask(f"/contact/{tokens[3]}")
    site.look("what was stored first stays", (status, plain(text)), kept)
    ids = sorted(token.split(".")[0] for token in tokens)
    forged = tokens[0].split(".")[0] + "." + tokens[3].split(".")[1]
    for odd in forged, ids[0], "c-1", "":
        site.look(f"the token {odd!r}", (site.ask("/", {"token": odd, **GOOD})[0], site.ask(f"/contact/{odd}")[0]), (403, 404))
    site.look("the list without its key", site.ask("/contacts")[0], 401)
    first = site.ask("/contacts?limit=4", headers=KEY)[1]
    site.look("the first page of both files", json.loads(first), {"ids": ids[:4], "ok": "list"})
    second = site.ask(f"/contacts?limit=4&after={ids[3]}", headers=KEY)[1]
    site.look("the second page", json.loads(second), {"ids": ids[4:], "ok": "list"})
    for odd in "limit=0", "limit=lots", "limit=1001", "after=no%20id":
        site.look(f"a list with {odd}", site.ask(f"/contacts?{odd}", headers=KEY)[0], 400)
    for has_length in True, False:
        site.look("a body that is too long", site.ask("/", {"token": tokens[0], **GOOD, "name": "x" * 150_000}, has_length=has_length)[0], 413)
    site.look("a body without a length", site.ask("/", {"token": tokens[3], **GOOD}, has_length=False)[0], 200)
    for method, path in ("PUT", "/"), ("DELETE", "/contacts"), ("POST", f"/contact/{tokens[0]}"):
        site.look(f"a {method} of {path[:9]}", site.ask(path, method=method)[0], 405)
    site.look("a page that isn't there", site.ask("/nothing")[0], 404)
    status, text = site.ask("/", {"token": site.token(), **GOOD, "name": "x" * 81})
    site.look("a name that is too long", (status, re.findall(r"<b>(.*?)</b>", text)), (422, ["size must be between 0 and 80"]))


def refusals(name, stub, folder):
    """What becomes of a refusal that isn't the visitor's."""
    for code, refusal, status in (("C11", "Store", 503), ("C12", "Memory", 400)):
        reply = {"error": code, "name": refusal}
        with served(name, stub, folder, REPLIES=json.dumps({"put": reply, "get": {"error": "C6", "name": "NoRecord"}, "list": reply})) as site:
            site.look(f"a put with {code}", site.ask("/", {"token": site.token(), **GOOD}), (status, f"{code} {refusal}"))
            site.look(f"a list with {code}", site.ask("/contacts", headers=KEY), (status, f"{code} {refusal}"))
            text = site.ask("/", {"token": site.token(), **GOOD, "name": "end"})
            site.look("a put behind which the process ends", text, (503, "please send it again in a moment"))
        with served(name, stub, folder, REPLIES=json.dumps({"get": reply})) as site:
            token = site.token()
            site.look(f"a get with {code}", site.ask(f"/contact/{token}"), (status, f"{code} {refusal}"))
            site.look(f"a put with {code} at its get", site.ask("/", {"token": token, **GOOD}), (status, f"{code} {refusal}"))


def without_secrets(name, stub, folder):
    """Settings that are empty are none: nobody lists contacts, or makes a token, by an empty key."""
    with served(name, stub, folder, KEY="", SECRET="", REPLIES=json.dumps({"list": {"ok": "list", "ids": []}})) as site:
        site.look("a list by an empty key", site.ask("/contacts", headers={"Authorization": "Bearer "})[0], 401)
        made = "x." + hmac.new(b"", b"x", "sha256").hexdigest()
        site.look("an id signed by an empty secret", site.ask("/", {"token": made, **GOOD})[0], 403)


def held(name, stub, folder):
    """The server is told to end while a put is under way: it is answered."""
    hold, answers = f"{folder}/hold", []
    with served(name, stub, folder, HOLD=hold, REPLIES=json.dumps({"put": {"ok": "put"}, "get": {"error": "C6", "name": "NoRecord"}})) as site:
        form = {"token": site.token(), **GOOD}

        def send():
            try:
                answers.append(site.ask("/", form, follow=False)[0])
            except OSError as why:
                answers.append(why)

        sender = threading.Thread(target=send)
        sender.start()
        while not os.path.exists(f"{hold}.put"):
            time.sleep(0.01)
        site.end()
        time.sleep(0.7)  # by then both have closed the port
        try:
            site.ask()
            took = "an answer"
        except OSError:
            took = "none"
        site.look("a new request behind SIGTERM", took, "none")
        Path(hold).touch()
        sender.join()
        site.look("a put that was under way at SIGTERM", answers, [303])


def kept(file):
    """How many records a file has, once its process has ended."""
    found = subprocess.run(["sqlite3", file, "SELECT count(*) FROM record"], capture_output=True, text=True)
    return int(found.stdout) if found.returncode == 0 else found.stderr


def main():
    there = {"flask": importlib.util.find_spec("flask"), "node": shutil.which("node")}
    ran = 0
    for name in sys.argv[2:] or SERVERS:
        if not there[name]:
            print(f"{name} isn't installed: its example is left out")
            continue
        ran += 1
        with tempfile.TemporaryDirectory() as folder:
            stub = Path(folder) / "stub"
            stub.write_text(STUB)
            stub.chmod(0o755)
            with served(name, PROGRAM, folder) as site:
                compare(site)
            counts = [kept(f"{folder}/contacts-{n}.db") for n in range(2)]
            look(f"{name}: records in both files", sum(counts) if all(isinstance(n, int) for n in counts) else counts, 7)
            refusals(name, stub, folder)
            without_secrets(name, stub, folder)
            held(name, stub, folder)
    return end(f"{ran} forms run, {{failed}} of {{count}} answers differ")


if __name__ == "__main__":
    sys.exit(main())
