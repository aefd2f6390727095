#!/usr/bin/env python3
"""A plain store of goods, to measure beside the server of tools/templates/store: http.server with threads, and sqlite3.

    store_peer.py FILE PORT

One connection to the database with a lock, as Python's threads take turns anyway; WAL, and each put is synced.
"""
import hashlib
import http.server
import json
import sqlite3
import sys
import threading
import urllib.parse

CREATE = "CREATE TABLE IF NOT EXISTS entry (key TEXT PRIMARY KEY NOT NULL, body TEXT NOT NULL) STRICT"
HAS = "SELECT 1 FROM entry WHERE key = ?"
GET = "SELECT body FROM entry WHERE key = ?"
PUT = "INSERT INTO entry (key, body) VALUES (?, ?) ON CONFLICT(key) DO UPDATE SET body = excluded.body"


def is_goods(it):
    return (isinstance(it, dict) and isinstance(it.get("name"), str) and type(it.get("count")) is int
            and 0 <= it["count"] < 2**32 and isinstance(it.get("note"), (str, type(None))))


class Handler(http.server.BaseHTTPRequestHandler):
    protocol_version = "HTTP/1.1"
    disable_nagle_algorithm = True
    wbufsize = -1  # one write a response

    def log_message(self, *_):
        pass

    def respond(self, status, body=b"", fields=()):
        self.send_response_only(status)
        for name, value in (*fields, ("content-length", len(body))):
            self.send_header(name, value)
        self.end_headers()
        self.wfile.write(body)

    def key(self):
        path = urllib.parse.urlsplit(self.path).path
        return urllib.parse.unquote(path.removeprefix("/entries/")) if path.startswith("/entries/") else ""

    def do_GET(self):
        with self.server.lock:
            row = self.server.db.execute(GET, (self.key(),)).fetchone()
        if row is None:
            return self.respond(404)
        body = row[0].encode()
        self.respond(200, body, (("content-type", "application/json"), ("etag", f'"{hashlib.sha256(body).hexdigest()}"')))

    def do_PUT(self):
        text = self.rfile.read(int(self.headers["content-length"]))
        key = self.key()
        try:
            it = json.loads(text)
        except ValueError:
            return self.respond(400)
        if not key or not is_goods(it):
            return self.respond(404 if not key else 400)
        goods = {"count": it["count"], "name": it["name"], "note": it.get("note")}
        body = json.dumps(goods, ensure_ascii=False, separators=(",", ":"))
        with self.server.lock:
            had = self.server.db.execute(HAS, (key,)).fetchone()
            self.server.db.execute(PUT, (key, body))
        self.respond(204 if had else 201)


class Server(http.server.ThreadingHTTPServer):
    request_queue_size = 1024

    def __init__(self, path, port):
        super().__init__(("127.0.0.1", port), Handler)
        self.lock = threading.Lock()
        self.db = sqlite3.connect(path, check_same_thread=False, isolation_level=None)
        for statement in ("PRAGMA journal_mode=WAL", "PRAGMA synchronous=FULL", CREATE):
            self.db.execute(statement)

    def handle_error(self, *_):
        """Says nothing: wrk resets its connections at the end of a window."""


if __name__ == "__main__":
    Server(sys.argv[1], int(sys.argv[2])).serve_forever()
