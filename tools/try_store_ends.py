"""Trials of a server over 127.0.0.1 whose process ends during puts, or whose disk is full: `tools/try_store --net` runs them."""
import contextlib
import pathlib
import random
import resource
import shutil
import signal
import subprocess
import threading
import time

from store_net import Client, Server, shown
from store_requests import HAS_SQLITE, Request, answer, expect, made_put, rows


# What the server says of rounds that are not committed.
LOST = r"(a round of \d+ connections is not committed, and they are closed\n)*"


class Writer(threading.Thread):
    """A client that puts under keys of its own until its connection ends. `known` are their entries before."""

    def __init__(self, port, number, seed, known):
        super().__init__()
        self.port, self.number, self.made = port, number, random.Random(seed)
        self.entries, self.last, self.puts, self.wrong = known, None, 0, None

    def run(self):
        with Client(self.port) as client:
            while True:
                request = made_put(self.made, f"k{self.number}/{self.made.randrange(7)}")
                wanted, after = answer(self.entries, request)
                self.last = request.key, after.get(request.key)
                came = client.ask(request)
                if came is None:
                    return
                if came != wanted:
                    self.wrong = f"{request.sent()!r}: {came}, and not {wanted}"
                    return
                self.entries, self.puts = after, self.puts + 1


def ended(program, folder, number, turns, name):
    """Ends the server by a signal during puts by eight clients, some times, on one file. Returns how many puts were answered."""
    path, found, puts = f"{folder}/{name}.db", {}, 0
    keys = [f"k{writer}/{key}" for writer in range(8) for key in range(7)]
    for turn in range(turns):
        with Server(program, path) as server:
            expect(shown(server.port, keys) == found, f"{name}, turn {turn}: what is shown is not what was found")
            known = [{key: text for key, text in found.items() if key.startswith(f"k{writer}/")} for writer in range(8)]
            writers = [Writer(server.port, writer, 100 * turn + writer, known[writer]) for writer in range(8)]
            for it in writers:
                it.start()
            time.sleep(random.Random(turn).uniform(0.3, 1))
            server.end(number)
            for it in writers:
                it.join()
        expect(not any(it.wrong for it in writers), f"{name}: {[it.wrong for it in writers if it.wrong]}")
        if HAS_SQLITE and turn % 2:
            found = rows(path)
        else:
            with Server(program, path) as server:
                found = shown(server.port, keys)
        for it in writers:
            own = {key: text for key, text in found.items() if key.startswith(f"k{it.number}/")}
            key, text = it.last
            expect(own in (it.entries, {**it.entries, key: text}), f"{name}, turn {turn}: {own}, and not {it.entries} or {it.last}")
        puts += sum(it.puts for it in writers)
    expect(not HAS_SQLITE or rows(path) == found, f"the rows after {name}")
    return puts


def killed(program, folder):
    return f"10 times `kill -9` during puts by 8 clients, {ended(program, folder, signal.SIGKILL, 10, 'killed')} puts answered, none lost"


def terminated(program, folder):
    return f"4 times SIGTERM during puts by 8 clients, {ended(program, folder, signal.SIGTERM, 4, 'terminated')} puts answered, none lost"


@contextlib.contextmanager
def small_disk(folder):
    """Gives a folder of 700 kB, its name, the server's words, and a call that makes it larger; or of files of at most 1 MB."""
    room = pathlib.Path(folder, "disk")
    room.mkdir()
    if subprocess.run(["mount", "-t", "tmpfs", "-o", "size=700k", "none", room], capture_output=True).returncode:
        def limited():
            signal.signal(signal.SIGXFSZ, signal.SIG_IGN)
            resource.setrlimit(resource.RLIMIT_FSIZE, (1_000_000, 1_000_000))
        yield room, "a file that cannot grow", {"preexec_fn": limited}, None
        return
    try:
        yield room, "a full disk of 700 kB", {}, lambda: subprocess.run(["mount", "-o", "remount,size=8m", room], check=True)
    finally:
        subprocess.run(["umount", room], check=True)


def ask_once(server, request):
    """Returns the response to a request on a connection of its own, or None if that is closed without one."""
    with Client(server.port) as client:
        return client.ask(request)


def full_disk(program, folder):
    """Puts until the disk is full: what was answered by success is there, and nothing of what was not committed."""
    made, entries, refused, lost = random.Random(7), {}, 0, 0
    with small_disk(folder) as (room, name, words, enlarge):
        path = f"{room}/full.db"
        with Server(program, path, **words) as server:
            for number in range(120):
                text = '{"count":%d,"name":"%s","note":null}' % (number, "x" * made.randrange(20_000))
                request = Request("PUT", f"k{number % 90}", text, text)
                came = ask_once(server, request)
                wanted, after = answer(entries, request)
                expect(came in (wanted, (503, {}, ""), None), f"{name}: {came}")
                entries, refused = (after, refused) if came == wanted else (entries, refused + 1)
                lost += came is None
            keys = [f"k{number}" for number in range(90)]
            expect(shown(server.port, keys) == entries, f"what is shown at {name}")
            if enlarge:
                enlarge()
                wanted, entries = answer(entries, request)
                # A round that was lost is followed by rounds that change nothing, at most 64.
                came = (503, {}, "")
                for _ in range(65):
                    came = ask_once(server, request) if came == (503, {}, "") else came
                expect(came == wanted, f"the last put again, after {name} got room: {came}")
            told = server.end(said=LOST).count("\n")
            expect(told == lost, f"{name}: {lost} connections were closed without a response, and {told} rounds told")
        with Server(program, path) as server:
            expect(shown(server.port, keys) == entries, f"what is shown after {name}")
            server.end()
        for file in room.glob("full.db*"):
            shutil.copy(file, folder)
    expect(not HAS_SQLITE or rows(f"{folder}/full.db") == entries, f"the rows after {name}")
    expect(entries and refused > lost, f"{name}: {refused} puts were refused, {lost} of them by the end of the connection")
    return f"{name}: {len(entries)} entries, and {refused} puts answered by 503 or by the end of the connection{', and one put once there was room' if enlarge else ''}"
