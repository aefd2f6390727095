"""Runs the shell functions of the pages and the examples on texts that they must refuse.

    ffi/tests/recipes.py PREFIX ROOM    PREFIX is what ./install made, and ROOM has the examples as ffi/test compiled them
"""
import hashlib
import os
import pathlib
import pty
import re
import subprocess
import sys
import tempfile
import textwrap
import tty
import unittest

ROOT = pathlib.Path(__file__).resolve().parents[2]
FILES = {
    "one": b' {"b": "\\u00e9", "a": 1}\n', "two": '{"a":1,"b":"é"}'.encode(), "other": b'{"a":1}', "empty": b"", "invalid": b"[1,", "invalid2": b"[2,",
    "duplicate": b'{"a":1,"a":1}', "duplicate2": b'{"a":1, "a":1}', "not-utf8": b'"\xff"',
}
REFUSED = ("empty", "invalid", "duplicate", "not-utf8", "missing")
DIGEST = hashlib.sha256(FILES["two"]).hexdigest()


def functions_of_page():
    page = (ROOT / "docs/CANON.md").read_text()
    return [textwrap.dedent(it) for it in re.findall(r"(?m)^    \w+\(\) \{\n(?:    .*\n)+", page)]


def functions_of_manual():
    page = (ROOT / "ffi/man/canon.1").read_text()
    return [it for it in re.findall(r"(?s)\.Bd -literal -offset indent\n(.*?)\.Ed\n", page) if re.match(r"\w+\(\) \{", it)]


class Recipes(unittest.TestCase):
    def setUp(self):
        room = tempfile.TemporaryDirectory()
        self.addCleanup(room.cleanup)
        self.room = pathlib.Path(room.name)
        (self.room / "temporary").mkdir()
        for name, content in FILES.items():
            (self.room / name).write_bytes(content)
        there = {"PATH": f"{PREFIX}/bin:{os.environ['PATH']}", "TMPDIR": str(self.room / "temporary")}
        self.there = {**os.environ, **there, "LD_LIBRARY_PATH": f"{PREFIX}/lib"}

    def run_in(self, shell, script):
        """Returns the status and output of a script with the functions of both pages."""
        done = subprocess.run([shell, "-c", "\n".join([*functions_of_page(), script])], cwd=self.room, env=self.there, stdout=subprocess.PIPE, stderr=subprocess.DEVNULL, text=True)
        self.assertEqual(list((self.room / "temporary").iterdir()), [], script)
        return done.returncode, done.stdout

    def test_both_pages_have_the_same_functions(self):
        self.assertEqual([it[: it.index("(")] for it in functions_of_page()], ["same", "digest"])
        self.assertEqual(functions_of_page(), functions_of_manual())

    def test_same(self):
        for shell in ("sh", "bash"):
            self.assertEqual(self.run_in(shell, "same one two"), (0, ""))
            self.assertEqual(self.run_in(shell, "same one other"), (1, ""))
            for refused in REFUSED:
                for pair in (f"{refused} {refused}", f"{refused} one", f"one {refused}"):
                    self.assertNotEqual(self.run_in(shell, f"same {pair}")[0], 0, pair)
                    self.assertEqual(self.run_in(shell, f"if same {pair}; then echo same; fi"), (0, ""), pair)
            for pair in ("invalid invalid2", "duplicate duplicate2"):
                self.assertEqual(self.run_in(shell, f"same {pair} && echo same")[1], "", pair)

    def test_digest(self):
        for shell in ("sh", "bash"):
            for name in ("one", "two"):
                status, output = self.run_in(shell, f"digest {name}")
                self.assertEqual((status, output.split()[0]), (0, DIGEST))
            for refused in REFUSED:
                status, output = self.run_in(shell, f"digest {refused}")
                self.assertNotEqual(status, 0, refused)
                self.assertEqual(output, "", refused)

    def test_the_command_of_the_page(self):
        command = re.search(r"(?m)^    \$ (python3 -m miniserde .*--check) \*\.json$", (ROOT / "docs/CANON.md").read_text())[1]
        self.assertEqual(self.run_in("sh", f"{command} two other"), (0, ""))
        for refused in REFUSED:
            status, output = self.run_in("sh", f"{command} two {refused}")
            self.assertEqual((status, output), (2, "") if refused == "missing" else (1, f"{refused}\n"))

    def example(self, name):
        if not (EXAMPLES / name).exists():
            self.skipTest(f"{name} was not compiled")
        return EXAMPLES / name

    def test_the_example_of_a_digest(self):
        program = self.example("digest")
        self.assertEqual(self.run_in("sh", f"'{program}' <one"), (0, f"{DIGEST}\n"))
        for refused in REFUSED:
            status, output = self.run_in("sh", f"'{program}' <{refused}")
            self.assertNotEqual(status, 0, refused)
            self.assertEqual(output, "", refused)
        self.assertEqual(self.run_in("sh", f"'{program}' <one >/dev/full")[0], 1)

    def test_the_example_of_a_canonical_text(self):
        program = self.example("canonical")
        self.assertEqual(self.run_in("sh", f"'{program}' <one"), (0, FILES["two"].decode()))
        self.assertEqual(self.run_in("sh", f"'{program}' <duplicate"), (0, '{"a":1}'))
        for refused in (it for it in REFUSED if it != "duplicate"):
            status, output = self.run_in("sh", f"'{program}' <{refused}")
            self.assertNotEqual(status, 0, refused)
            self.assertEqual(output, "", refused)
        self.assertEqual(self.run_in("sh", f"'{program}' <one >/dev/full")[0], 5)

    def test_a_read_that_fails_behind_a_part(self):
        # The other side of a terminal gives what was written, and then an error.
        for words, status in ((["canon"], 4), ([sys.executable, "-m", "miniserde", "-"], 2), ([self.example("canonical")], 4), ([self.example("digest")], 1)):
            reading, writing = pty.openpty()
            tty.setraw(writing)
            os.write(writing, b"12")
            os.close(writing)
            done = subprocess.run(words, env=self.there, stdin=reading, stdout=subprocess.PIPE, stderr=subprocess.DEVNULL)
            os.close(reading)
            self.assertEqual((done.returncode, done.stdout), (status, b""), words)


if __name__ == "__main__":
    EXAMPLES, PREFIX = pathlib.Path(sys.argv.pop()), pathlib.Path(sys.argv.pop())
    unittest.main()
