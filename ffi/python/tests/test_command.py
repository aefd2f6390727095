"""Tests of `python3 -m miniserde`: what it writes, what it lists, and its status."""
import os
import pathlib
import subprocess
import sys
import tempfile
import unittest

import miniserde

THERE = {**os.environ, "PYTHONPATH": os.path.dirname(os.path.dirname(os.path.abspath(miniserde.__file__)))}
# Names that are not UTF-8, that have a newline, and that look like an option.
NAMES = (b"\xff\xfe", b"two\nlines", b"plain", b"\xc3\xa9")
# Runs the package with memory for so many bytes more than the interpreter has now.
LITTLE_MEMORY = """import resource, runpy, sys
import miniserde, argparse
room, *words = sys.argv[1:]
size = int(open("/proc/self/statm").read().split()[0]) * 4096
resource.setrlimit(resource.RLIMIT_AS, (size + int(room),) * 2)
sys.argv = ["miniserde", *words]
runpy.run_module("miniserde", run_name="__main__")
"""


class Command(unittest.TestCase):
    def setUp(self):
        room = tempfile.TemporaryDirectory()
        self.addCleanup(room.cleanup)
        self.room = os.fsencode(room.name)

    def write(self, files):
        for name, content in files.items():
            pathlib.Path(os.fsdecode(os.path.join(self.room, os.fsencode(name)))).write_bytes(content)

    def run_on(self, files, *words, text=b"", code=("-m", "miniserde"), **more):
        """Runs the command in a folder with these files. Returns status, output and errors."""
        self.write(files)
        pipes = {"stdout": subprocess.PIPE, "stderr": subprocess.PIPE, **more}
        done = subprocess.run([sys.executable, *code, *words], cwd=self.room, env={**THERE, "PYTHONUTF8": "0"}, input=text, **pipes)
        return done.returncode, done.stdout, (done.stderr or b"").decode()

    def test_it_writes_canonical_texts(self):
        self.assertEqual(self.run_on({"a": b'{"b":1, "a":2}\n'}, "a"), (0, b'{"a":2,"b":1}', ""))
        self.assertEqual(self.run_on({"a": b"[ ]", "b": b" 1"}, "a", "b"), (0, b"[]\n1", ""))
        self.assertEqual(self.run_on({}, "-", text=b" null"), (0, b"null", ""))

    def test_check_lists_files(self):
        files = {"a": b"[]", "b": b"[]\n", "c": b"[", "d": b'{"a":1}'}
        status, output, errors = self.run_on(files, "--check", *files)
        self.assertEqual((status, output), (1, b"b\nc\n"))
        self.assertIn("c: not a JSON text", errors)
        self.assertEqual(self.run_on(files, "--check", "a", "d"), (0, b"", ""))

    def test_what_goes_wrong(self):
        status, output, errors = self.run_on({"a": b"[", "b": b"1"}, "a", "b")
        self.assertEqual((status, output), (1, b"1"))
        self.assertIn("a: not a JSON text", errors)
        self.assertEqual(self.run_on({}, "none")[:2], (2, b""))
        self.assertEqual(self.run_on({})[0], 2)
        self.assertEqual(self.run_on({"a": b'{"a":1,"a":1}'}, "--unique", "a")[:2], (1, b""))
        self.assertEqual(self.run_on({"a": b'{"a":1,"a":1}'}, "a")[:2], (0, b'{"a":1}'))

    def test_every_file_is_looked_at(self):
        status, output, errors = self.run_on({"a": b"[", "b": b"[ ]"}, "none", "a", "b", ".")
        self.assertEqual((status, output), (2, b"[]"))
        self.assertEqual(len(errors.splitlines()), 3, errors)
        self.assertEqual(self.run_on({"c": b"[ ]"}, "--check", "none", "a", ".", "c")[:2], (2, b"a\nc\n"))

    def test_names_of_any_bytes(self):
        files = dict.fromkeys(NAMES, b"[ ]")
        self.assertEqual(self.run_on(files, "--check", *NAMES)[:2], (1, b"".join(it + b"\n" for it in NAMES)))
        for zero in ("-0", "--null"):
            self.assertEqual(self.run_on(files, "--check", zero, *NAMES), (1, b"".join(it + b"\0" for it in NAMES), ""))
        status, output, errors = self.run_on(dict.fromkeys(NAMES, b"["), "--check", "-0", *NAMES)
        self.assertEqual((status, output.split(b"\0")[:-1]), (1, list(NAMES)))
        self.assertEqual(errors.count("not a JSON text"), len(NAMES))
        self.assertEqual(self.run_on(files, "-0", "plain")[:2], (2, b""))

    def test_a_write_that_fails(self):
        for size in (1, 100_000):
            self.write({"a": b'["' + b"x" * size + b'" ]'})
            for words in (["a"], ["--check", "a"], ["--check", "-0", "a"], ["none", "a"]):
                with open("/dev/full", "wb") as full:
                    status, _, errors = self.run_on({}, *words, stdout=full)
                self.assertEqual(status, 5, words)
                self.assertIn("standard output: No space left on device", errors)
                self.assertNotIn("Traceback", errors)
                reading, writing = os.pipe()
                os.close(reading)
                status, _, errors = self.run_on({}, *words, stdout=writing)
                os.close(writing)
                self.assertEqual((status, "Broken pipe" in errors, "Exception" in errors), (5, True, False), errors)

    def test_closed_files(self):
        self.write({"a": b"[ ]"})
        for script, wanted in ((">&-", 5), ("2>&-", 0), (">&- 2>&-", 5), ("<&-", 0)):
            done = subprocess.run(["sh", "-c", f'"$0" -m miniserde a {script}', sys.executable], cwd=self.room, env=THERE, stdout=subprocess.PIPE)
            self.assertEqual((done.returncode, done.stdout), (wanted, b"" if wanted else b"[]"), script)
        done = subprocess.run(["sh", "-c", '"$0" -m miniserde none - a 2>&- <&-', sys.executable], cwd=self.room, env=THERE, stdout=subprocess.PIPE)
        self.assertEqual((done.returncode, done.stdout), (2, b"[]"))

    def test_little_memory(self):
        # The text and the room for its canonical text fit, and what it takes to arrange it does not.
        self.write({"a": b'{"b":1,"a":[' + b"1," * 20_000_000 + b"1]}", "b": b"[ ]", "c": b"["})
        status, output, errors = self.run_on({}, "90000000", "a", "b", "c", code=("-c", LITTLE_MEMORY))
        self.assertEqual((status, output), (3, b"[]"), errors)
        self.assertEqual([it.split(": ")[1:3] for it in errors.splitlines()], [["a", "out of memory"], ["c", "not a JSON text in UTF-8"]])
        self.assertEqual(self.run_on({}, "1000000000", "a", "b", code=("-c", LITTLE_MEMORY))[0], 0)


if __name__ == "__main__":
    unittest.main()
