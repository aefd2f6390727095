"""Requests for the entries of a store, made at random, and the responses of a map: what `try_store` and `try_store_net` share.

The map is a dictionary here: what RFC 9110 and the page USES say of each method and condition, not what the program does.
"""
import hashlib
import json
import re
import shutil
import subprocess
import urllib.parse

KEYS = ("nails", "rope/thin", "a b", "%", '"', "é", "€uro", "x" * 200)
METHODS = ("GET", "GET", "HEAD", "PUT", "PUT", "PUT", "DELETE", "POST")
HAS_SQLITE = bool(shutil.which("sqlite3"))
# A page of the list ends with the entry that brings its keys and texts to so many bytes.
PAGE_BYTES = 65_536
# The host that the programs are told to serve, and hosts that they are not.
HOST, OTHER_HOSTS = "store.example", ("evil.example", "store.example.evil", "store", "127.0.0.2", "")
# The same of targets in absolute form. What stands before an `@` is a user, not the host.
AUTHORITIES, OTHER_AUTHORITIES = (HOST, f"{HOST}:81", HOST.upper()), ("evil.example", f"{HOST}.evil", f"{HOST}:80@evil.example")


class Wrong(SystemExit):
    """What is not as expected. It ends the run with its message and status 1, unless it is caught."""


def expect(holds, message):
    if not holds:
        raise Wrong(f"try_store: WRONG: {message}")


def tag(text):
    return f'"{hashlib.sha256(text.encode()).hexdigest()}"'


class Request:
    """A request for the entry of a key. `text` is the canonical text of what a put means, or None if it means nothing."""

    def __init__(self, method, key, text=None, body="", fields=(), host=HOST):
        self.method, self.key, self.text, self.body, self.fields, self.host = method, key, text, body.encode(), tuple(fields), host
        self.authority = ""

    def is_for_another(self):
        """Whether the request is for a host that is not served. A target in absolute form decides alone (RFC 9112, section 3.2.2)."""
        return self.authority in OTHER_AUTHORITIES if self.authority else self.host in OTHER_HOSTS

    def target(self):
        return "/entries/" + urllib.parse.quote(self.key, safe="/")

    def sent(self):
        start = f"http://{self.authority}" if self.authority else ""
        lines = [f"{self.method} {start}{self.target()} HTTP/1.1", f"Host: {self.host}", *(f"{name}: {value}" for name, value in self.fields)]
        if self.body:
            lines.append(f"Content-Length: {len(self.body)}")
        return "\r\n".join([*lines, "", ""]).encode() + self.body


class Listing(Request):
    """A request for the first entries from a key on, with the texts of its parameters, or None for one that is left out."""

    def __init__(self, method, start, limit, fields=()):
        super().__init__(method, start or "", fields=fields)
        self.start, self.limit = start, limit

    def target(self):
        asked = {"from": self.start, "limit": self.limit}
        query = urllib.parse.urlencode({name: text for name, text in asked.items() if text is not None})
        return "/entries" + (f"?{query}" if query else "")


def response_from(stream, method):
    """Returns status, fields and body of the next response of a stream, or None if there is none."""
    head = b""
    while not head.endswith(b"\r\n\r\n"):
        byte = stream.read(1)
        if not byte:
            expect(not head, f"a part of a response: {head!r}")
            return None
        head += byte
    first, *lines = head.decode().rstrip().split("\r\n")
    fields = dict(line.split(": ", 1) for line in lines)
    size = int(fields.pop("content-length", "0"))
    body = b"" if method == "HEAD" else stream.read(size)
    return int(first.split()[1]), fields, body.decode()


def condition(fields, current):
    """Returns what the conditions of a request say of a text, or of none: `met`, `cached` or `failed`."""
    match, none_match = dict(fields).get("If-Match"), dict(fields).get("If-None-Match")
    if match is not None and (current is None or match != "*" and tag(current) not in match.replace(f"W/{tag(current)}", "")):
        return "failed"
    if none_match is not None and current is not None and (none_match == "*" or tag(current) in none_match):
        return "cached"
    return "met"


def wrong_field(goods):
    """Returns the first field of goods that an object has no value for."""
    if not isinstance(goods.get("name"), str):
        return "name"
    count = goods.get("count")
    return "note" if type(count) is int and 0 <= count < 2**32 else "count"


def problem(body):
    """Returns the problem details of a body that means no goods (RFC 9457): compact, without `field` if no field is wrong."""
    told = {"title": "Bad Request", "status": 400}
    try:
        goods = json.loads(body)
    except ValueError:
        told["detail"] = "the body is not valid JSON"
    else:
        if isinstance(goods, dict):
            told["field"] = wrong_field(goods)
        told = {**told, "detail": f"the field {told['field']} is wrong" if "field" in told else "the body is not an object"}
    return json.dumps({name: told[name] for name in ("title", "status", "detail", "field") if name in told}, separators=(",", ":"))


def listed(entries, request):
    """Returns the text of the object of the entries that a request lists, or None if its limit is wrong."""
    limit = "100" if request.limit is None else request.limit
    if not re.fullmatch("[0-9]{1,4}", limit) or not 1 <= int(limit) <= 1000:
        return None
    names, size = [], 0
    for name in sorted((key for key in entries if key.encode() >= request.key.encode()), key=str.encode):
        if len(names) == int(limit) or size >= PAGE_BYTES:
            break
        names.append(name)
        size += len((name + entries[name]).encode())
    return "{" + ",".join(f"{json.dumps(name, ensure_ascii=False)}:{entries[name]}" for name in names) + "}"


def answer(entries, request):
    """Returns the response of a map of entries, as status, fields and body, and the map after it."""
    if request.is_for_another():
        return (421, {}, ""), entries
    if isinstance(request, Listing):
        if request.method not in ("GET", "HEAD"):
            return (405, {"allow": "GET, HEAD"}, ""), entries
        current = listed(entries, request)
        if current is None:
            said = '{"title":"Bad Request","status":400,"detail":"`limit` must be a number from 1 to 1000"}'
            return (400, {"content-type": "application/problem+json"}, "" if request.method == "HEAD" else said), entries
    else:
        current = entries.get(request.key)
    if request.method == "POST":
        return (405, {"allow": "GET, HEAD, PUT, DELETE"}, ""), entries
    if request.method == "PUT":
        if condition(request.fields, current) != "met":
            return (412, {}, ""), entries
        if request.text is None:
            return (400, {"content-type": "application/problem+json"}, problem(request.body)), entries
        return (201 if current is None else 204, {}, ""), {**entries, request.key: request.text}
    if current is None:
        return (404, {}, ""), entries
    said = condition(request.fields, current)
    if request.method == "DELETE":
        return ((204, {}, ""), {key: text for key, text in entries.items() if key != request.key}) if said == "met" else ((412, {}, ""), entries)
    bare = request.method == "HEAD" or dict(request.fields).get("If-None-Match") == "*"
    if said != "met":
        return ((304, {} if bare else {"etag": tag(current)}, "") if said == "cached" else (412, {}, "")), entries
    return (200, {"content-type": "application/json", **({} if bare else {"etag": tag(current)})}, "" if bare else current), entries


def rows(path):
    """Returns the rows that sqlite3 finds in a file, which must be sound."""
    asked = "PRAGMA integrity_check; SELECT json_group_array(json_array(key, body)) FROM (SELECT key, body FROM entry)"
    ran = subprocess.run(["sqlite3", path, asked], capture_output=True, text=True, timeout=60)
    expect(ran.returncode == 0 and ran.stdout.startswith("ok\n"), f"sqlite3: {ran.stdout}{ran.stderr}")
    return dict(json.loads(ran.stdout.split("\n", 1)[1]))


def made_put(made, key, fields=()):
    """Returns a put of goods, spelled in one of many ways, or of what means none."""
    goods = {"count": made.randrange(2**32), "name": made.choice(KEYS), "note": made.choice([None, "fresh", "\n\"\\\u0001"])}
    text = json.dumps(goods, separators=(",", ":"), ensure_ascii=False, sort_keys=True)
    spelled = list(goods.items())
    made.shuffle(spelled)
    if made.random() < 0.2:
        spelled.append(("unknown", [{}]))
    body = json.dumps(dict(spelled), ensure_ascii=made.random() < 0.5, indent=made.choice([None, 1]))
    if made.random() < 0.15:
        wrong = [{}, {**goods, "name": None}, {**goods, "count": -1}, {**goods, "count": 2**32}, {**goods, "note": 7}, [], "nails"]
        return Request("PUT", key, None, made.choice([*map(json.dumps, wrong), "{", "nails", body.replace('"count"', '"counts"')]), fields)
    return Request("PUT", key, text, body, fields)


def made_listing(made, entries):
    method, start = made.choice(("GET", "GET", "HEAD", "PUT")), made.choice((None, "", *KEYS))
    limit = made.choice((None, "1", "2", "3", "007", "1000", "0", "1001", "", "-1", "1.5", "ten"))
    text = listed(entries, Listing(method, start, limit))
    value = made.choice(("*", '"another"', tag(text or "")))
    return Listing(method, start, limit, made.choice(((), (), (("If-Match", value),), (("If-None-Match", value),))))


def made_request(made, entries):
    if made.random() < 0.15:
        return made_listing(made, entries)
    key, method = made.choice(KEYS), made.choice(METHODS)
    known = [tag(text) for text in entries.values()] + ['"another"', "*"]
    value = made.choice(known)
    value = value if value == "*" else made.choice(["", "W/", '"first", ', '"first", W/']) + value
    fields = made.choice([(), (), (("If-Match", value),), (("If-None-Match", value),)])
    request = made_put(made, key, fields) if method == "PUT" else Request(method, key, fields=fields)
    if made.random() < 0.05:
        request.host = made.choice(OTHER_HOSTS)
    if made.random() < 0.1:
        request.authority = made.choice(AUTHORITIES + OTHER_AUTHORITIES)
    return request
