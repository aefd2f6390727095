"""Tests of the Python package, on the texts of crates/grammar_table, on made texts and on Python's own json.

    PYTHONPATH=ffi/python MINISERDE_LIBRARY=.../libminiserde.so python3 -m unittest discover ffi/python/tests

MADE_TEXTS in the environment says how many texts are made.
"""
import doctest
import json
import os
import pathlib
import random
import re
import subprocess
import sys
import threading
import unittest

import miniserde

ROOT = pathlib.Path(__file__).resolve().parents[3]
sys.path.insert(0, str(ROOT / "tools"))
import made_texts

SEED = 8259
TREES = 400
MADE_TEXTS = int(os.environ.get("MADE_TEXTS", "3000"))


def table():
    """Yields a text and its canonical text, or None if it is refused."""
    for line in (ROOT / "crates/grammar_table/data/table.txt").read_text("ascii").splitlines():
        if line and not line.startswith("#"):
            _, verdict, *fields = line.split("\t")
            texts = [re.sub(rb"%(..)", lambda it: bytes.fromhex(it[1].decode()), it.encode()) for it in fields]
            yield texts[0], texts[1] if verdict == "accept" else None


def made(count, seed):
    """Yields at least so many made texts, each with its canonical text, or None if it is refused."""
    source = random.Random(seed)
    while count > 0:
        tree = made_texts.tree_of(source)
        text, strings = made_texts.spelled(source, tree)
        another = made_texts.spelled(source, made_texts.repeated(source, made_texts.turned(tree)))[0]
        bad = [made_texts.broken(source, text), *made_texts.wrong(source, text, strings, tree)]
        yield from ((it, made_texts.written(tree)) for it in (text, another))
        yield from ((it, made_texts.expected_of(it)) for it in bad)
        count -= 2 + len(bad)


def python_canonical(text):
    """Returns what Python's json makes of a text."""
    return json.dumps(json.loads(text), sort_keys=True, separators=(",", ":"), ensure_ascii=False).encode()


def plain(source, depth=0):
    """Returns an object of Python whose numbers are integers."""
    way = source.randrange(7 if depth < 6 else 5)
    if way < 2:
        return source.choice([None, True, False, source.getrandbits(200) - (1 << 199), source.getrandbits(64) - (1 << 63)])
    if way < 5:
        return made_texts.string(source, 12)
    parts = [plain(source, depth + 1) for _ in range(source.randrange(7))]
    return parts if way == 5 else {made_texts.string(source, 6): part for part in parts}


class Texts(unittest.TestCase):
    def judge(self, text, wanted):
        self.assertEqual(miniserde.is_json(text), wanted is not None, text)
        if wanted is None:
            self.assertRaises(ValueError, miniserde.canonical, text)
            self.assertRaises(ValueError, miniserde.equal, text, "0")
            self.assertRaises(ValueError, miniserde.equal, "0", text)
        else:
            self.assertEqual(miniserde.canonical(text), wanted, text)
            self.assertTrue(miniserde.equal(text, wanted), text)

    def test_the_table_of_the_grammar(self):
        count = 0
        for text, wanted in table():
            self.judge(text, wanted)
            count += 1
        self.assertGreater(count, 2500)

    def test_made_texts(self):
        for text, wanted in made(MADE_TEXTS, SEED):
            self.judge(text, None if wanted is None else wanted.encode())

    def test_what_python_writes(self):
        source = random.Random(SEED)
        for _ in range(TREES):
            value = plain(source)
            for text in (json.dumps(value), json.dumps(value, indent=1, ensure_ascii=False), json.dumps(value, separators=(" ,", ": "))):
                self.assertEqual(miniserde.canonical(text), python_canonical(text), text)
            self.assertEqual(miniserde.dumps(value), python_canonical(json.dumps(value)))

    def test_the_examples_of_the_pages(self):
        for page in ("FROM-ANY-LANGUAGE.md", "CANON.md"):
            there = {"VECTORS": ROOT / "crates/grammar_table/data/table.txt"}
            found = doctest.testfile(str(ROOT / "docs" / page), module_relative=False, globs=there)
            self.assertEqual(found.failed, 0, page)
            self.assertGreater(found.attempted, 0, page)

    def test_the_order_of_names_is_python_s(self):
        # That of code points is that of bytes in UTF-8. UTF-16 has another.
        text = '{"\U00010000":1,"\uffff":2,"é":3,"z":4}'
        self.assertEqual(miniserde.canonical(text), python_canonical(text))

    def test_texts_beside_the_length_of_a_kept_buffer(self):
        for length in (4094, 4095, 4096, 4097, 4098, 100_000):
            text = b'"' + b"x" * (length - 2) + b'"'
            self.assertEqual(miniserde.canonical(text), text)
            self.assertEqual(miniserde.canonical(b" " + text), text)


class Calls(unittest.TestCase):
    def test_what_a_text_may_be(self):
        for text in ("[1, 2]", b"[1, 2]", bytearray(b"[1, 2]"), memoryview(b"[1, 2]"), memoryview(b"x[1, 2]")[1:]):
            self.assertEqual(miniserde.canonical(text), b"[1,2]")
        for other in (1, None, ["[]"]):
            self.assertRaises(TypeError, miniserde.canonical, other)
        for none in ("", b"", bytearray()):
            self.assertRaises(ValueError, miniserde.canonical, none)
        self.assertEqual(miniserde.canonical('"é\0"'.replace("\0", "\\u0000")), '"é\\u0000"'.encode())
        self.assertRaises(ValueError, miniserde.canonical, b"1\0")
        self.assertRaises(ValueError, miniserde.canonical, '"\ud800"')
        self.assertFalse(miniserde.is_json('"\ud800"'))

    def test_duplicates(self):
        self.assertEqual(miniserde.canonical(r'{"a":1,"\u0061":2}'), b'{"a":2}')
        self.assertRaises(ValueError, miniserde.canonical, r'{"a":1,"\u0061":2}', unique=True)
        self.assertEqual(miniserde.canonical('{"b":1,"a":[{"b":1}]}', unique=True), b'{"a":[{"b":1}],"b":1}')

    def test_dumps(self):
        self.assertEqual(miniserde.dumps({"b": (1, 2.5), "a": None, "é": "\n"}), '{"a":null,"b":[1,2.5],"é":"\\n"}'.encode())
        self.assertEqual(miniserde.dumps([0.0, -0.0, 1.0, 1e22]), b"[0.0,-0.0,1.0,1e+22]")
        self.assertEqual(miniserde.dumps({1}, default=sorted), b"[1]")
        for bad in (float("nan"), "\ud800", {1: 0, "1": 0}):
            self.assertRaises(ValueError, miniserde.dumps, bad)
        self.assertRaises(TypeError, miniserde.dumps, {1})

    def test_equal(self):
        self.assertTrue(miniserde.equal("-0", "0 "))
        self.assertFalse(miniserde.equal("1", "1.0"))
        self.assertFalse(miniserde.equal("[]", "{}"))

    def test_no_call_has_the_buffer_of_another(self):
        # A handler that calls at every function's end, between the steps of the call that it interrupts.
        texts = [f'{{"b":{number},"a":"{"x" * number}"}}' for number in range(50)]
        wanted = [f'{{"a":"{"x" * number}","b":{number}}}'.encode() for number in range(50)]
        inside = []

        def interrupt(frame, event, argument):
            if not inside:
                inside.append(True)
                self.assertEqual(miniserde.canonical("[ 1, 2 ]"), b"[1,2]")
                self.assertRaises(ValueError, miniserde.canonical, "[")
                inside.clear()
            return interrupt

        sys.settrace(interrupt)
        try:
            found = [miniserde.canonical(text) for text in texts]
        finally:
            sys.settrace(None)
        self.assertEqual(found, wanted)

    def test_the_docstring(self):
        self.assertEqual(doctest.testmod(miniserde).failed, 0)


class Memory(unittest.TestCase):
    def test_a_million_calls_leak_nothing(self):
        code = ("import miniserde\n"
                "texts = [b'{\"b\":1,\"a\":[1,2]}', '[\"\\\\u00e9\"]', b'[1,', b'\"' + b'x' * 5000 + b'\"']\n"
                "def calls(count):\n"
                "    for number in range(count):\n"
                "        text = texts[number % 4]\n"
                "        try:\n            miniserde.canonical(text, unique=number % 3 == 0)\n        except ValueError:\n            pass\n"
                "        miniserde.is_json(text)\n"
                "        miniserde.equal(texts[number % 2], texts[0])\n"
                "def pages():\n    return int(open('/proc/self/statm').read().split()[1])\n"
                "calls(20_000)\nfirst = pages()\ncalls(340_000)\nprint(pages() - first)\n")
        done = subprocess.run([sys.executable, "-c", code], stdout=subprocess.PIPE, text=True)
        # A byte a call that was lost would be 250 pages.
        self.assertLess(int(done.stdout), 100)


class Threads(unittest.TestCase):
    def test_eight_threads(self):
        texts = list(made(1000, SEED + 1))[:1000]
        faults, done = [], []

        def work(number):
            for text, wanted in texts[number * 125 :] + texts[: number * 125]:
                try:
                    found = miniserde.canonical(text).decode()
                except ValueError:
                    found = None
                if found != wanted or miniserde.is_json(text) != (wanted is not None):
                    faults.append((number, text))
            done.append(number)

        threads = [threading.Thread(target=work, args=(number,)) for number in range(8)]
        for thread in threads:
            thread.start()
        for thread in threads:
            thread.join()
        self.assertEqual((faults, sorted(done)), ([], list(range(8))))

    def test_other_threads_run_during_a_call(self):
        text = b'{"b":1,"a":[' + b"12345," * 3_000_000 + b"1]}"
        begun, ended = threading.Event(), threading.Event()

        def call():
            begun.set()
            miniserde.canonical(text)
            ended.set()

        thread = threading.Thread(target=call)
        thread.start()
        begun.wait()
        turns = 0
        while not ended.is_set():
            turns += 1
        thread.join()
        # A call that kept the interpreter's lock would leave this loop no more than a few turns.
        self.assertGreater(turns, 1000)


if __name__ == "__main__":
    unittest.main()
