"""Trials of a server over 127.0.0.1 at its limits: `tools/try_store --net` runs them."""
import contextlib
import resource
import selectors
import signal
import socket
import time

from store_net import Client, Server, shown
from store_requests import Listing, Request, answer, expect, response_from

# What main.rt of the server says, and how much more memory it may take than the bytes that wait: for one response while it is
# made, for blocks that grow by doubling, and for the connections.
IDLE, MAX_WAITING, BESIDE = 30, 64 * 1024 * 1024, 160 * 1024 * 1024
# Half of what the page USES reckons for so many clients.
AT_MOST = 500_000_000


def goods(size):
    """Returns the text of goods of about this many bytes."""
    return '{"count":1,"name":"%s","note":null}' % ("x" * size)


def put_all(server, entries):
    """Puts entries, which are new, one request behind another."""
    with Client(server.port) as client:
        for key, text in entries.items():
            came = client.ask(Request("PUT", key, text, text))
            expect(came == (201, {}, ""), f"a put of {len(text)} bytes: {came}")


def asking(server, request, room=4096):
    """Returns a socket that takes few bytes at once, behind a request."""
    made = socket.socket()
    made.setsockopt(socket.SOL_SOCKET, socket.SO_RCVBUF, room)
    made.settimeout(60)
    made.connect(("127.0.0.1", server.port))
    made.sendall(request.sent())
    return made


def lists(server, count=101, size=550):
    """Puts more entries than a page has by default, and three that fill pages, and lists them to a client that takes little at once. Returns the length of the last list."""
    entries = {f"k{number:03}": goods(size) for number in range(count)} | {f"large{number}": goods(60_000) for number in range(3)}
    put_all(server, entries)
    for start, limit in ((None, None), (None, str(count)), ("large0", "3")):
        request = Listing("GET", start, limit)
        wanted, _ = answer(entries, request)
        with asking(server, request) as client, client.makefile("rb") as stream:
            came = response_from(stream, "GET")
        expect(came == wanted, f"a list of {limit or 100}: {came and (came[0], len(came[2]))}, and not {wanted[0], len(wanted[2])}")
    return len(wanted[2])


def large(program, folder):
    """Lists more entries than a page has by default, and some of 120 kB."""
    with Server(program, f"{folder}/large.db") as server:
        size = lists(server)
        server.end()
    return f"lists of 100 and 101 entries, and one of {size} bytes, to a client that takes little at once"


def page_cost(program, folder, small=74, large=512):
    """Lists small entries before many large ones: the page ends in the first of these, and no more rows are read."""
    entries = {f"a{number:02}": goods(0) for number in range(small)} | {f"b{number:03}": goods(65_000) for number in range(large)}
    request = Listing("GET", None, "1000")
    wanted, _ = answer(entries, request)
    with Server(program, f"{folder}/page.db") as server:
        put_all(server, entries)
        with Client(server.port) as client:
            before = 1024 * server.stat("VmHWM")
            began = time.monotonic()
            came = client.ask(request)
            took = time.monotonic() - began
        grew = 1024 * server.stat("VmHWM") - before
        server.end()
    expect(came == wanted, f"a list of {len(wanted[2])} bytes: {came and (came[0], len(came[2]))}")
    expect(grew < 4_000_000, f"a list of {len(wanted[2])} bytes took {grew / 1e6:.1f} MB more")
    return f"a list of {len(wanted[2])} bytes before {large} large entries: {1000 * took:.0f} ms, and {grew / 1e6:.1f} MB more"


def idle_cost(program, folder, seconds=5):
    """Measures the processor time beside a client that sends requests and takes nothing, and one that is silent."""
    entries = {"nails": goods(60_000)}
    with Server(program, f"{folder}/cost.db") as server:
        put_all(server, entries)
        sent = Request("GET", "nails").sent() * 200
        with socket.socket() as greedy, Client(server.port):
            greedy.setsockopt(socket.SOL_SOCKET, socket.SO_RCVBUF, 4096)
            greedy.connect(("127.0.0.1", server.port))
            greedy.sendall(sent)
            # First it fills the buffers of the system.
            for _ in range(90):
                before = server.processor_time()
                time.sleep(1)
                if server.processor_time() - before < 0.05:
                    break
            before = server.processor_time()
            time.sleep(seconds)
            took = server.processor_time() - before
            expect(shown(server.port, ["nails"]) == entries, "beside a client that takes nothing")
        server.end()
    expect(took < seconds / 20, f"beside a client that takes nothing: {took:.2f} s of processor time in {seconds} s")
    return f"a client that takes nothing: {took:.2f} s of processor time in {seconds} s"


def stalled(program, folder, count=600):
    """Stops the server for longer than a connection may be idle, while clients send requests: each gets its response."""
    request = Request("GET", "nails")
    wanted, _ = answer({}, request)
    with Server(program, f"{folder}/stalled.db") as server, contextlib.ExitStack() as stack:
        clients = [stack.enter_context(Client(server.port)) for _ in range(count)]
        for client in clients:
            expect(client.ask(request) == wanted, "before the server is stopped")
        server.run.send_signal(signal.SIGSTOP)
        for client in clients[::2]:
            client.socket.sendall(request.sent())
        time.sleep(IDLE + 1)
        for client in clients[1::2]:
            client.socket.sendall(request.sent())
        server.run.send_signal(signal.SIGCONT)
        closed = 0
        for client in clients:
            try:
                came = response_from(client.stream, "GET")
            except ConnectionError:
                came = None
            closed += came is None
            expect(came in (wanted, None), f"after the server was stopped: {came}")
        server.end()
    expect(not closed, f"after the server was stopped for {IDLE + 1} s, {closed} of {count} clients were closed")
    return f"stopped for {IDLE + 1} s: {count} clients that sent a request meanwhile got their responses"


def memory_bound(program, folder, count=990, size=60_000, limit=16):
    """Has clients ask for the longest list each, and take nothing: the memory stays bounded, and then each gets its list."""
    entries = {f"k{number:02}": goods(size) for number in range(limit)}
    request = Listing("GET", None, str(limit))
    wanted, _ = answer(entries, request)
    most = resource.getrlimit(resource.RLIMIT_NOFILE)[1]
    resource.setrlimit(resource.RLIMIT_NOFILE, (min(most, 4096), most))
    with Server(program, f"{folder}/memory.db") as server, contextlib.ExitStack() as stack, selectors.DefaultSelector() as ready:
        put_all(server, entries)
        clients = [stack.enter_context(asking(server, request)) for _ in range(count)]
        time.sleep(3)
        peak = 1024 * server.stat("VmHWM")
        for client in clients:
            ready.register(client, selectors.EVENT_READ, bytearray())
        until, whole = time.monotonic() + IDLE, 0
        while whole < count and time.monotonic() < until:
            for key, _ in ready.select(1):
                key.data.extend(part := key.fileobj.recv(1 << 20))
                if not part or key.data.endswith(wanted[2][-100:].encode()) and len(key.data) > len(wanted[2]):
                    ready.unregister(key.fileobj)
                    whole += bool(part)
                    if not part:
                        break
        last = 1024 * server.stat("VmHWM")
        server.end()
    expect(last < AT_MOST, f"{count} clients that took lists of {len(wanted[2])} bytes each: {last / 1e6:.0f} MB")
    expect(peak < MAX_WAITING + BESIDE, f"{count} clients that ask for {len(wanted[2])} bytes each: {peak / 1e6:.0f} MB")
    expect(whole > 0, f"none of {count} clients that took nothing for a while got its list")
    return f"{count} clients that ask for a list of {len(wanted[2])} bytes each and take nothing: {peak / 1e6:.0f} MB; {whole} of them got it in {IDLE} s, with {last / 1e6:.0f} MB"
