"""The server that `./new FOLDER store` makes, on a file, and its clients: what the trials over 127.0.0.1 share."""
import os
import pathlib
import re
import signal
import socket
import subprocess
import time

from store_requests import Request, answer, expect, response_from


class Server:
    """The program on a file, at a port that the system picks."""

    def __init__(self, program, path, **words):
        """Starts it for requests to the host of the trials. `program` is its path, or a list of the words that start it."""
        start = [program] if isinstance(program, (str, pathlib.Path)) else program
        self.run = subprocess.Popen([*start, path, "127.0.0.1:0", "store.example"], stdout=subprocess.PIPE, stderr=subprocess.PIPE, text=True, **words)
        said = self.run.stdout.readline()
        found = re.fullmatch(r"listening on 127\.0\.0\.1:(\d+)\n", said)
        expect(found, f"the server says {said!r} and {'' if said else self.run.stderr.read()!r}")
        self.port = int(found[1])

    def __enter__(self):
        return self

    def __exit__(self, *_):
        self.run.kill()
        self.run.communicate()

    def end(self, number=signal.SIGTERM, said=""):
        """Ends the server by a signal, of which it dies. `said` is a pattern of what it has written to standard error."""
        self.run.send_signal(number)
        rest, errors = self.run.communicate(timeout=20)
        expect((self.run.returncode, rest) == (-number, ""), f"after {number!r}: {self.run.returncode}, {rest!r}")
        expect(re.fullmatch(said, errors), f"after {number!r}: {errors!r}")
        return errors

    def stat(self, name):
        """Returns a number of kB of its status, as `VmHWM`."""
        status = pathlib.Path(f"/proc/{self.run.pid}/status").read_text()
        return int(re.search(rf"{name}:\s+(\d+)", status)[1])

    def processor_time(self):
        """Returns how many seconds of processor time it has taken."""
        fields = pathlib.Path(f"/proc/{self.run.pid}/stat").read_text().rpartition(")")[2].split()
        return (int(fields[11]) + int(fields[12])) / os.sysconf("SC_CLK_TCK")


class TriedServer(Server):
    """The program of a crate as `rt try` builds it, with nothing proved, on a file. What it prints comes at its end."""

    def __init__(self, crate, path):
        with socket.create_server(("127.0.0.1", 0)) as free:
            self.port = free.getsockname()[1]
        words = ["rt", "try", "--seconds", "3600", "--", path, f"127.0.0.1:{self.port}", "store.example"]
        self.run = subprocess.Popen(words, cwd=crate, stdout=subprocess.PIPE, stderr=subprocess.PIPE, text=True)
        while self.run.poll() is None:
            try:
                socket.create_connection(("127.0.0.1", self.port)).close()
                return
            except ConnectionRefusedError:
                time.sleep(0.5)
        expect(False, f"`rt try` says {self.run.communicate()}")

    def __exit__(self, *_):
        self.run.terminate()
        self.run.communicate()


class Client:
    """A connection to a server, which sends one request at a time."""

    def __init__(self, port):
        self.socket = socket.create_connection(("127.0.0.1", port), timeout=60)
        self.stream = self.socket.makefile("rb")

    def __enter__(self):
        return self

    def __exit__(self, *_):
        self.stream.close()
        self.socket.close()

    def ask(self, request):
        """Returns the response, or None if the connection ends."""
        try:
            self.socket.sendall(request.sent())
            return response_from(self.stream, request.method)
        except ConnectionError:
            return None


def shown(port, keys):
    """Returns the entries of these keys, as the server shows them."""
    with Client(port) as client:
        found = {key: client.ask(Request("GET", key)) for key in keys}
    for key, came in found.items():
        expect(came and (came[0] == 404 or came == answer({key: came[2]}, Request("GET", key))[0]), f"{key} is shown by {came}")
    return {key: came[2] for key, came in found.items() if came[0] == 200}
