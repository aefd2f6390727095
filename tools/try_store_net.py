"""Tries the server that `./new FOLDER store` makes, over 127.0.0.1, and holds its responses and its files against a map.

    tools/try_store --net [--program PATH] [--only WORD]
    tools/try_store --net --short    a few trials, of the server as `rt try` builds it, with nothing proved: minutes

Without PATH, the server's program, it makes a repository, has `rt run` prove and build the program there, which takes long,
and tries that. WORD is part of the name of a trial. The map is the dictionary of tools/store_requests.py, and files are read
by Debian's sqlite3. curl sends what is asked for its status; what curl cannot send goes over a socket. Each trial prints a
line, and one that fails ends the run with status 1 behind the others.
"""
import argparse
import collections
import contextlib
import io
import os
import pathlib
import random
import re
import resource
import selectors
import shutil
import socket
import subprocess
import tempfile
import threading
import time
from concurrent.futures import ThreadPoolExecutor

from store_net import Client, Server, TriedServer, shown
from store_requests import HAS_SQLITE, HOST, KEYS, Request, Wrong, answer, expect, made_put, made_request, response_from, rows
from try_store_ends import full_disk, killed, terminated
from try_store_limits import idle_cost, large, lists, memory_bound, page_cost, stalled

ROOT = pathlib.Path(__file__).resolve().parent.parent
# What main.rt of the server says.
CONNECTIONS, IDLE, MAX_BODY = 1000, 30, 65_536
# A response to a fast client comes within so many seconds, whatever the slow ones do.
BOUND = 0.5
# Beside clients that send many puts at once: by them each turn may take some hundred syncs of the disk.
FLOOD_BOUND = 2
STATUSES = {200, 201, 204, 304, 400, 404, 405, 412, 413, 414, 421, 431}


def by_curl(port, method, target, body=b"", fields=()):
    """Returns what curl gets: status, fields and body."""
    words = ["curl", "-s", "-i", "-g", "--max-time", "20", "--path-as-is", *(["-I"] if method == "HEAD" else ["-X", method])]
    for name, value in fields:
        words += ["-H", f"{name}: {value}"]
    words += ["--request-target", target, f"http://127.0.0.1:{port}", *(["--data-binary", "@-"] if body else [])]
    out = subprocess.run(words, input=body, capture_output=True, timeout=60).stdout
    came = response_from(stream := io.BytesIO(out), method)
    return response_from(stream, method) if came and came[0] == 100 else came


def each_status(program, folder):
    """Sends requests by curl, at random, and then some that are for no entry or too long."""
    made, entries, met, path = random.Random(17), {}, collections.Counter(), f"{folder}/status.db"
    with Server(program, path) as server:
        for _ in range(200):
            request = made_request(made, entries)
            request.host = request.host or HOST  # curl sends no empty field
            wanted, entries = answer(entries, request)
            target = request.sent().split(b" ")[1].decode()
            came = by_curl(server.port, request.method, target, request.body, [("Host", request.host), *request.fields])
            expect(came == wanted, f"{request.sent()!r}: {came}, and not {wanted}")
            met[came[0]] += 1
        many = [(f"x{number}", "y") for number in range(100)]
        for status, *words in (
            (404, "GET", "/"), (404, "GET", "/entries/"), (404, "PUT", "/entry/nails", b"{}"), (404, "DELETE", "/entries/%ff"),
            (413, "PUT", "/entries/nails", b" " * (MAX_BODY + 1)), (400, "PUT", "/entries/nails", b" " * MAX_BODY),
            (414, "GET", f"/entries/{'a' * 20_000}"), (431, "GET", "/entries/nails", b"", many), (431, "GET", "/entries/nails", b"", [("x", "y" * 20_000)]),
        ):
            came = by_curl(server.port, *words)
            expect(came and came[0] == status, f"{str(words)[:100]}: {came}, and not {status}")
            met[status] += 1
        expect(shown(server.port, KEYS) == entries, "the entries after these")
        server.end()
    expect(not HAS_SQLITE or rows(path) == entries, "the rows are not the entries")
    expect(set(met) == STATUSES, f"not each status came: {met}")
    return "by status: " + " ".join(f"{status}:{count}" for status, count in sorted(met.items()))


def pieces(program, folder):
    """Sends requests one behind another without waiting, cut anywhere."""
    made, entries, requests, wanted = random.Random(23), {}, [], []
    for _ in range(400):
        requests.append(made_request(made, entries))
        right, entries = answer(entries, requests[-1])
        wanted.append(right)
    sent = b"".join(request.sent() for request in requests)
    with Server(program, f"{folder}/pieces.db") as server, Client(server.port) as client:
        def send():
            at = 0
            while at < len(sent):
                size = made.choice((1, 7, 60, 5000))
                client.socket.sendall(sent[at:at + size])
                at += size
        sender = threading.Thread(target=send)
        sender.start()
        for number, (request, right) in enumerate(zip(requests, wanted)):
            came = response_from(client.stream, request.method)
            expect(came == right, f"request {number}, {request.sent()!r}: {came}, and not {right}")
        sender.join()
        expect(shown(server.port, KEYS) == entries, "the entries after the pieces")
    return f"{len(requests)} requests in one stream of {len(sent)} bytes, in pieces"


def at_once(program, folder):
    """Puts and reads by 200 clients that begin together."""
    start = threading.Barrier(200)

    def one(number):
        made, key, entries = random.Random(number), f"k{number}", {}
        with Client(server.port) as client:
            start.wait(60)
            for _ in range(5):
                for request in (made_put(made, key), Request("GET", key)):
                    wanted, entries = answer(entries, request)
                    came = client.ask(request)
                    expect(came == wanted, f"client {number}, {request.sent()!r}: {came}, and not {wanted}")
        return entries

    path = f"{folder}/once.db"
    with Server(program, path) as server, ThreadPoolExecutor(200) as pool:
        begun = time.time()
        entries = {key: text for found in pool.map(one, range(200)) for key, text in found.items()}
        took = time.time() - begun
        server.end()
    expect(not HAS_SQLITE or rows(path) == entries, "the rows after 200 clients")
    return f"200 clients at once, 2,000 requests: {took:.1f} s"


def byte_a_second(port, stop):
    """Sends a byte of a head a second. Returns after how many seconds it is closed, or None if it is stopped before."""
    begun = time.monotonic()
    with socket.create_connection(("127.0.0.1", port), timeout=1) as slow:
        for byte in b"GET /entries/nails HTTP/1.1\r\nhost: a\r\nx: " + b"y" * 200:
            try:
                slow.send(bytes([byte]))
                if slow.recv(100) == b"":
                    return time.monotonic() - begun
            except TimeoutError:
                pass
            except ConnectionError:
                return time.monotonic() - begun
            if stop.is_set():
                return None


def takes_nothing(port, stop):
    """Asks for an entry again and again, and takes no response. Returns whether it is closed before it is stopped."""
    asked, at = Request("GET", "nails").sent() * 1000, 0
    with socket.socket() as greedy:
        greedy.setsockopt(socket.SOL_SOCKET, socket.SO_RCVBUF, 4096)
        greedy.settimeout(0.2)
        greedy.connect(("127.0.0.1", port))
        while not stop.is_set():
            try:
                at = (at + greedy.send(asked[at:])) % len(asked)
            except TimeoutError:
                pass
            except ConnectionError:
                return True
    return False


def slow_clients(program, folder):
    """Has clients of a byte a second, one that sends nothing and one that takes nothing, beside two fast ones."""
    stop, times = threading.Event(), []
    with Server(program, f"{folder}/slow.db") as server, ThreadPoolExecutor(10) as pool:
        put = Request("PUT", "nails", text := '{"count":1,"name":"nails","note":null}', text)
        _, entries = answer({}, put)

        def fast():
            with Client(server.port) as client:
                while not stop.is_set():
                    begun = time.monotonic()
                    came = client.ask(Request("GET", "nails"))
                    times.append(time.monotonic() - begun)
                    expect(came == answer(entries, Request("GET", "nails"))[0], f"beside slow clients: {came}")

        with Client(server.port) as client, Client(server.port) as idle:
            expect(client.ask(put) == (201, {}, ""), "a put before the slow clients")
            slow = [pool.submit(byte_a_second, server.port, stop) for _ in range(6)]
            greedy = pool.submit(takes_nothing, server.port, stop)
            quick = [pool.submit(fast) for _ in range(2)]
            time.sleep(IDLE + 6)
            stop.set()
            closed = [it.result() for it in slow]
            [it.result() for it in quick]
            idle.socket.settimeout(1)
            expect(idle.stream.read(1) == b"", "a client that sent nothing is not closed")
            expect(greedy.result(), "a client that takes nothing is not closed")
        expect(all(it and IDLE - 1 <= it <= IDLE + 3 for it in closed), f"slow clients are closed after {closed}")
    times.sort()
    expect(times[-1] < BOUND, f"a fast client waited {times[-1]:.2f} s")
    return (f"6 clients of a byte a second, closed after {min(closed):.0f} to {max(closed):.0f} s, and one that takes nothing; beside them {len(times)} gets, "
            f"median {times[len(times) // 2] * 1e3:.2f} ms, longest {times[-1] * 1e3:.0f} ms (bound {BOUND * 1e3:.0f})")


def flood(program, folder):
    """Has four clients that send many puts without waiting beside a fast one."""
    text = '{"count":1,"name":"nails","note":null}'
    puts = b"".join(Request("PUT", f"k{number % 50}", text, text).sent() for number in range(1500))
    times = []

    def send():
        with Client(server.port) as client:
            sender = threading.Thread(target=client.socket.sendall, args=(puts,))
            sender.start()
            statuses = collections.Counter(response_from(client.stream, "PUT")[0] for _ in range(1500))
            sender.join()
        return statuses

    with Server(program, f"{folder}/flood.db") as server, ThreadPoolExecutor(4) as pool, Client(server.port) as client:
        begun = time.monotonic()
        floods = [pool.submit(send) for _ in range(4)]
        while not times or not all(it.done() for it in floods):
            asked = time.monotonic()
            came = client.ask(Request("GET", "k0"))
            times.append(time.monotonic() - asked)
            expect(came in (answer({}, Request("GET", "k0"))[0], answer({"k0": text}, Request("GET", "k0"))[0]), f"beside a flood: {came}")
        took = time.monotonic() - begun
        statuses = sum((it.result() for it in floods), collections.Counter())
    expect(statuses == {201: 50, 204: 5950}, f"the statuses of a flood: {statuses}")
    expect(max(times) < FLOOD_BOUND, f"beside a flood a client waited {max(times):.2f} s")
    return (f"6,000 puts by 4 clients that do not wait: {took:.1f} s; beside them {len(times)} gets, longest {max(times) * 1e3:.0f} ms "
            f"(bound {FLOOD_BOUND * 1e3:.0f})")


def too_many(program, folder):
    """Has more connections than the limit: the last ones are answered once others are closed."""
    beyond = 100
    most = resource.getrlimit(resource.RLIMIT_NOFILE)[1]
    resource.setrlimit(resource.RLIMIT_NOFILE, (min(most, 4096), most))
    usual = {"preexec_fn": lambda: resource.setrlimit(resource.RLIMIT_NOFILE, (1024, most))}
    sent = Request("GET", "nails").sent()

    def answered(some, count):
        """Returns those that get a response, until so many have and for a second more."""
        found, until = [], time.monotonic() + IDLE - 5
        with selectors.DefaultSelector() as ready:
            for it in some:
                ready.register(it, selectors.EVENT_READ)
            while (left := until - time.monotonic()) > 0:
                for it in [key.fileobj for key, _ in ready.select(left)]:
                    expect(it.recv(1000).startswith(b"HTTP/1.1 404 "), "another response than 404")
                    ready.unregister(it)
                    found.append(it)
                    if len(found) == count:
                        until = time.monotonic() + 1
        return found

    with Server(program, f"{folder}/many.db", **usual) as server, contextlib.ExitStack() as stack:
        clients = []
        for _ in range(CONNECTIONS + beyond):
            clients.append(stack.enter_context(socket.create_connection(("127.0.0.1", server.port), timeout=20)))
            clients[-1].sendall(sent)
        first = answered(clients, CONNECTIONS)
        expect(len(first) == CONNECTIONS, f"{len(first)} connections of {len(clients)} are answered")
        for it in first[:beyond]:
            it.close()
        then = answered([it for it in clients if it not in first], beyond)
        expect(len(then) == beyond, f"{len(then)} connections of {beyond} are answered once others are closed")
        memory = server.stat("VmRSS")
        server.end()
    return f"{len(clients)} connections: {len(first)} answered, and {len(then)} more once as many were closed; {memory / 1000:.0f} MB"


def shown_on_page(program, folder):
    """Runs the commands of docs/USES.md, each of which prints what stands below it there."""
    block = re.search(r"<!-- curl -->\n\n```text\n(.*?)```", (ROOT / "docs/USES.md").read_text(), re.S)[1]
    steps = [step.partition("\n") for step in block.split("$ curl ")[1:]]
    with Server(program, f"{folder}/page.db") as server:
        words = {**os.environ, "at": f"http://127.0.0.1:{server.port}/entries"}
        for command, _, wanted in steps:
            said = subprocess.run(["bash", "-c", f"curl --max-time 20 {command}"], env=words, capture_output=True, text=True).stdout
            expect(said.strip() == wanted.strip(), f"curl {command}: {said!r}, and docs/USES.md has {wanted!r}")
        server.end()
    return f"{len(steps)} commands of docs/USES.md"


def refused_starts(program, folder):
    """Starts the server where it cannot run: each time it says why, and no file changes."""
    def start(*words, **how):
        ran = subprocess.run([program, *words], stdout=how.pop("stdout", subprocess.PIPE), stderr=subprocess.PIPE, timeout=20, **how)
        return ran.returncode, (ran.stdout or b"").decode(), os.fsdecode(ran.stderr)
    path, other = f"{folder}/two.db", f"{folder}/other.db"
    with Server(program, path) as server:
        expect(start(path, "127.0.0.1:0") == (1, "", f"{path} cannot be opened: database is locked\n"), "a second server on a file")
        address = f"127.0.0.1:{server.port}"
        status, said, errors = start(f"{folder}/three.db", address)
        expect((status, said) == (3, "") and errors.startswith(f"cannot listen on {address}: "), f"a second server on a port: {errors}")
        expect(shown(server.port, KEYS) == {}, "the first server")
        server.end()
    for words in ((), (path, "nowhere"), (path, "127.0.0.1"), (path, "127.0.0.1:0", "--tls"), (path, "--port", "80"), ("--help",)):
        status, said, errors = start(*words)
        expect((status, said) == (2, "") and errors.startswith("usage: "), f"the words {words}: {status}, {errors}")
    status, said, errors = start(b"\xff.db", "127.0.0.1:0", cwd=folder)
    expect((status, said) == (3, "") and errors.startswith("server: "), f"a path that is not UTF-8: {errors}")
    with open("/dev/full", "wb") as full:
        status, _, errors = start(path, "127.0.0.1:0", stdout=full)
    expect(status == 3 and errors.startswith("server: "), f"an output that takes nothing: {status}, {errors}")
    status, said, errors = start(f"{folder}/none/a.db")
    expect((status, said) == (1, "") and errors.startswith(f"{folder}/none/a.db cannot be opened: "), f"a folder that is not there: {errors}")
    os.link(path, f"{folder}/second-name.db")
    status, said, errors = start(path, "127.0.0.1:0")
    expect((status, said) == (1, "") and errors.startswith(f"{path} cannot be opened: "), f"a file with a second name: {errors}")
    if HAS_SQLITE:
        subprocess.run(["sqlite3", other, "CREATE TABLE entry (key TEXT, body TEXT)"], check=True)
        before = pathlib.Path(other).read_bytes()
        expect(start(other, "127.0.0.1:0") == (1, "", f"{other} has other tables\n"), "a file with another table")
        expect(pathlib.Path(other).read_bytes() == before, "a file with another table is changed")
    return "a second server on a file, one on a port, wrong words, a path that is not UTF-8, a full output, no folder, a second name, another table: refused"


TRIALS = (
    shown_on_page, each_status, pieces, large, page_cost, at_once, slow_clients, idle_cost, flood, stalled, too_many, memory_bound, killed, terminated, full_disk,
    refused_starts,
)


def made_program(folder):
    """Makes a repository with a server in a folder, proves it, and returns its program."""
    subprocess.run([ROOT / "new", f"{folder}/made", "store"], stdout=subprocess.DEVNULL, check=True)
    crate = pathlib.Path(folder, "made/crates/server")
    ran = subprocess.run(["rt", "run"], cwd=crate, stdout=subprocess.PIPE, stderr=subprocess.STDOUT, text=True)
    expect("usage: server FILE" in ran.stdout and (crate / "out/server").is_file(), f"`rt run` says {ran.stdout[-2000:]}")
    return crate / "out/server"


def short():
    """Tries the server as `rt try` builds it: lists of 100 and 101 entries, and one of 120 kB. Returns what it tried."""
    with tempfile.TemporaryDirectory(prefix="store-") as folder:
        subprocess.run([ROOT / "new", f"{folder}/made", "store"], stdout=subprocess.DEVNULL, check=True)
        with TriedServer(f"{folder}/made/crates/server", f"{folder}/short.db") as server:
            return f"a list of {lists(server)} bytes over a socket"


def main(words):
    if words == ["--short"]:
        print(short())
        return 0
    read = argparse.ArgumentParser(description=__doc__, formatter_class=argparse.RawDescriptionHelpFormatter)
    read.add_argument("--program", type=os.path.abspath)
    read.add_argument("--only", default="")
    given = read.parse_args(words)
    expect(shutil.which("curl"), "curl is not on PATH")
    failed = 0
    with tempfile.TemporaryDirectory(prefix="store-") as folder:
        program = given.program or made_program(folder)
        for trial in TRIALS:
            if given.only in trial.__name__:
                try:
                    print(trial(program, folder), flush=True)
                except (Wrong, OSError, subprocess.SubprocessError) as wrong:
                    print(f"{trial.__name__}: {wrong}", flush=True)
                    failed += 1
    print(f"try_store --net: {f'{failed} failed' if failed else 'all as expected'}" + ("" if HAS_SQLITE else "; NOT RUN: sqlite3, which is not on PATH"))
    return 1 if failed else 0
