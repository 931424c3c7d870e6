"""A form in Flask over a pool of `formd` processes.

    FORMD=/path/to/formd FILES="a.db b.db" PORT=8000 SECRET=... KEY=... python3 examples/flask/app.py

One process of the web server, many threads: a database file has one `formd`. A second server process needs files of its own. `SECRET` signs the ids of
forms: without it a form that was shown before a restart isn't taken behind it. `KEY` opens the list of all contacts (`Authorization: Bearer KEY`).
SIGTERM ends it in order: no new connections, those that are there answered or after 20 s cut, each file closed.
"""

import contextlib
import hashlib
import hmac
import os
import secrets
import signal
import socket
import sys
import threading
import time
import uuid
from html import escape
from pathlib import Path

from flask import Flask, redirect, request
from werkzeug.serving import WSGIRequestHandler, make_server

ROOT = Path(__file__).resolve().parent.parent.parent
sys.path.insert(0, str(ROOT / "clients" / "python"))
from formd_client import Exists, Failure, Pool  # noqa: E402

FIELDS = ["name", "email", "topic"]
SECRET = (os.environ.get("SECRET") or secrets.token_hex()).encode()
KEY = os.environ.get("KEY") or secrets.token_hex()
# 400 for all others: the same line is refused again. So is one for which formd has no memory (C12).
STATUSES = {"C1": 413, "C6": 404, "C10": 422, "C11": 503}
app = Flask(__name__)
app.config["MAX_CONTENT_LENGTH"] = 100_000
pool = Pool(os.environ.get("FORMD", "formd"), str(ROOT / "examples" / "contact.json"), os.environ.get("FILES", "contacts-0.db contacts-1.db").split())


def same(one, other):
    return hmac.compare_digest(one.encode(), other.encode())


def signed(id):
    """An id with its signature, by which nobody names an id that he wasn't given."""
    return f"{id}.{hmac.new(SECRET, id.encode(), hashlib.sha256).hexdigest()}"


def id_of(token):
    """The id of a token that was signed here, else none."""
    id = token.partition(".")[0]
    return id if same(token, signed(id)) else None


def refused(reply):
    return f"{reply['error']} {reply['name']}", STATUSES.get(reply["error"], 400)


def page(token, given, told):
    """The form with what was given, and under each field what was told of it."""
    rows = "".join(
        f'<p>{name} <input name="{name}" value="{escape(given.get(name, ""))}">' + "".join(f" <b>{escape(text)}</b>" for text in told.get(name, [])) + "</p>" for name in FIELDS
    )
    return f'<form method="post"><input type="hidden" name="token" value="{escape(token)}">{rows}<button>Send</button></form>'


@app.get("/")
def blank():
    return page(signed(uuid.uuid4().hex), {}, {})


@app.post("/")
def send():
    if request.content_length is None and len(request.get_data()) >= app.config["MAX_CONTENT_LENGTH"]:
        return "the body is too long", 413  # without a length Werkzeug cuts it there, and says nothing
    token = request.form.get("token", "")
    id = id_of(token)
    if id is None:
        return "the form isn't one of this server", 403
    # a field that is left empty is null, which NotNull and NotBlank refuse
    fields = {name: request.form[name] for name in FIELDS if request.form.get(name)}
    bundle = {"root": "c", "objects": {"c": {"type": "Contact", "fields": fields}}}
    try:
        reply = pool.create({"do": "put", "id": id, "form": "contact", "bundle": bundle})
    except Exists:
        # sent twice, as behind a 503: the first one stays
        reply = pool.ask({"do": "get", "id": id})
        if reply.get("bundle", bundle) != bundle:
            return "this form was sent already, with other fields", 409
    if "ok" in reply:
        return redirect(f"/contact/{token}", 303)
    if reply["error"] != "C10":
        return refused(reply)
    told = {}
    for violation in reply["records"][0]["violations"]:
        told.setdefault(violation["path"], []).append(violation["message"])
    return page(token, fields, told), 422


@app.get("/contact/<token>")
def show(token):
    id = id_of(token)
    if id is None:
        return "no such page", 404
    reply = pool.ask({"do": "get", "id": id})
    return reply["bundle"]["objects"]["c"]["fields"] if "ok" in reply else refused(reply)


@app.get("/contacts")
def contacts():
    if not same(request.headers.get("Authorization", ""), f"Bearer {KEY}"):
        return "a key is needed", 401
    try:
        limit = int(request.args.get("limit", "100"))
    except ValueError:
        return "limit is no number", 400
    after = {"after": request.args["after"]} if "after" in request.args else {}
    reply = pool.ask({"do": "list", "form": "contact", "limit": limit, **after})
    return reply if "ok" in reply else refused(reply)


@app.errorhandler(Failure)
def failed(why):
    """What was sent may have been made or not. The page has the same id, so sending it again is safe."""
    app.logger.warning("%r", why)
    return "please send it again in a moment", 503, {"Retry-After": "1"}


class OneRequest(WSGIRequestHandler):
    """A connection is one request, and each read of it has ten seconds."""

    protocol_version = "HTTP/1.0"
    timeout = 10
    at_work = set()

    def setup(self):
        super().setup()
        self.at_work.add(self.connection)

    def finish(self):
        self.at_work.discard(self.connection)
        super().finish()


def stop(server):
    """Takes no more connections. Whoever hasn't sent his request after 20 s is cut."""
    server.shutdown()
    time.sleep(20)
    for connection in list(OneRequest.at_work):
        with contextlib.suppress(OSError):
            connection.shutdown(socket.SHUT_RDWR)


def main():
    server = make_server("127.0.0.1", int(os.environ.get("PORT", "8000")), app, threaded=True, request_handler=OneRequest)
    server.daemon_threads = False  # so that the end waits for the requests that are under way
    signal.signal(signal.SIGTERM, lambda *_: threading.Thread(target=stop, args=(server,), daemon=True).start())
    server.serve_forever()
    pool.stop()


if __name__ == "__main__":
    main()
