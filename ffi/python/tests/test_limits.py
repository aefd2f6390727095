"""Tests of the Python package where memory is short, lengths are large, and arguments lie; and of which library it loads."""
import ctypes
import os
import pathlib
import shutil
import subprocess
import sys
import tempfile
import unittest
from unittest import mock

import miniserde

PACKAGE = pathlib.Path(miniserde.__file__).resolve().parent
# The calls that take memory for a text, with a text for which a small addition to the memory is too little.
OBJECT = "b'{\"b\":1,\"a\":[' + b'1,' * 20_000_000 + b'1]}'"
DEEP = "b'[' * 50_000_000 + b']' * 50_000_000"
SHORT = (
    ("canonical(text)", OBJECT, 60_000_000, "MemoryError"),
    ("canonical(text, unique=True)", OBJECT, 60_000_000, "MemoryError"),
    ("equal(text, text)", OBJECT, 20_000_000, "MemoryError"),
    ("equal(text, b'1')", OBJECT, 20_000_000, "MemoryError"),
    ("equal(b'1', text)", OBJECT, 20_000_000, "MemoryError"),
    ("is_json(text)", DEEP, 2_000_000, "MemoryError"),
    ("is_json(text)", OBJECT, 2_000_000, "True"),
)
CODE = """import miniserde, resource
text = {text}
size = int(open('/proc/self/statm').read().split()[0]) * 4096
resource.setrlimit(resource.RLIMIT_AS, (size + {room},) * 2)
try:
    print(miniserde.{call})
except BaseException as error:
    print(type(error).__name__)
"""
# More than 32 bits of length, of which the lower ones are 5.
LARGE = 2**32 + 5


def prints(code, *flags, **variables):
    """Returns what a program in Python prints, with the package of these tests."""
    begun = f"import sys; sys.path.insert(0, {str(PACKAGE.parent)!r})\n"
    done = subprocess.run([sys.executable, *flags, "-c", begun + code], env={**os.environ, **variables}, stdout=subprocess.PIPE, stderr=subprocess.PIPE, text=True)
    return done.stdout or done.stderr.splitlines()[-1]


class Memory(unittest.TestCase):
    def test_out_of_memory(self):
        for call, text, room, wanted in SHORT:
            self.assertEqual(prints(CODE.format(call=call, text=text, room=room)), wanted + "\n", (call, text[:10]))

    def test_each_status(self):
        errors = {1: ValueError, 2: MemoryError, 3: RuntimeError, 9: RuntimeError}
        for status, error in errors.items():
            with mock.patch.multiple(miniserde, **dict.fromkeys(("_canonical", "_canonical_unique", "_equal", "_is_json"), lambda *_: status)):
                for text in ("1", "1" * 5000):
                    self.assertRaises(error, miniserde.canonical, text)
                    self.assertRaises(error, miniserde.canonical, text, unique=True)
                    self.assertRaises(error, miniserde.equal, text, "1")
                    self.assertRaises(error, miniserde.equal, "1", text)
                    if status == 1:
                        self.assertIs(miniserde.is_json(text), False)
                    else:
                        self.assertRaises(error, miniserde.is_json, text)


class Lengths(unittest.TestCase):
    def test_the_types_of_lengths(self):
        size, at = ctypes.c_size_t, ctypes.c_void_p
        text = [ctypes.c_char_p, size]
        self.assertEqual(ctypes.sizeof(size), 8)
        for call, wanted in ((miniserde._canonical, [*text, at, size, at]), (miniserde._canonical_unique, [*text, at, size, at]),
                             (miniserde._equal, text * 2), (miniserde._is_json, text)):
            self.assertEqual(call.argtypes, wanted)
            self.assertIs(call.restype, ctypes.c_uint32)

    def test_they_are_passed_whole(self):
        # Zeros that no one reads or writes take no memory.
        try:
            text = bytes(LARGE)
        except MemoryError:
            self.skipTest("it takes an address space of 4 GB")
        passed = []
        stand_in = lambda *words: passed.append([it for it in words if isinstance(it, int) and it < 2**33]) or 4
        with mock.patch.multiple(miniserde, _canonical=stand_in, _canonical_unique=stand_in, _equal=stand_in, _is_json=stand_in), \
                mock.patch.object(miniserde, "bytearray", lambda length: passed.append(length) or bytearray(8), create=True):
            for unique in (False, True):
                self.assertRaises(RuntimeError, miniserde.canonical, text, unique=unique)
            self.assertFalse(miniserde.equal(text, b"123"))
            self.assertFalse(miniserde.equal(b"123", text))
            self.assertRaises(RuntimeError, miniserde.is_json, text)
        self.assertEqual(passed, [LARGE, [LARGE, LARGE], LARGE, [LARGE, LARGE], [LARGE, 3], [3, LARGE], [LARGE]])


def lying(kind, length):
    """Returns a subclass whose values say that they have this length, and other content."""
    wrong = {"__len__": lambda self: length, "__bytes__": lambda self: b"[", "__iter__": lambda self: iter([91]), "encode": lambda self, *_: b"["}
    return type("Lying", (kind,), wrong)


class Arguments(unittest.TestCase):
    def test_a_subclass_that_lies(self):
        for kind, text in ((bytes, b"[1, 2]"), (str, "[1, 2]"), (bytearray, b"[1, 2]")):
            for length in (0, 3, 7, 10_000_000):
                value = lying(kind, length)(text)
                self.assertEqual(miniserde.canonical(value), b"[1,2]", kind)
                self.assertEqual(miniserde.canonical(value, unique=True), b"[1,2]", kind)
                self.assertTrue(miniserde.equal(value, "[1,2]") and miniserde.equal("[1,2]", value) and miniserde.is_json(value), kind)


class Library(unittest.TestCase):
    LOADED = "import miniserde\nprint(*sorted({it.split(maxsplit=5)[-1].strip() for it in open('/proc/self/maps') if 'libminiserde' in it}), sep='\\n')"

    def setUp(self):
        room = tempfile.TemporaryDirectory()
        self.addCleanup(room.cleanup)
        self.room = pathlib.Path(room.name).resolve()
        maps = pathlib.Path("/proc/self/maps").read_text()
        self.own = next(it.split(maxsplit=5)[-1] for it in maps.splitlines() if "libminiserde" in it)
        self.named = self.room / "libminiserde-of-another-name.so"
        shutil.copy(self.own, self.named)

    def test_the_variable_names_the_library(self):
        self.assertEqual(prints(self.LOADED, MINISERDE_LIBRARY=str(self.named)), f"{self.named}\n")
        self.assertIn("OSError", prints("import miniserde", MINISERDE_LIBRARY=str(self.room / "none.so")))

    def test_python_may_ignore_the_environment(self):
        # There the package's own library is taken, so it needs one beside it.
        package = self.room / "miniserde"
        shutil.copytree(PACKAGE, package)
        shutil.copy(self.own, package / "libminiserde.so")
        begun = f"sys.path.insert(0, {str(self.room)!r})\n"
        for flag in ("-I", "-E"):
            self.assertEqual(prints(begun + self.LOADED, flag, MINISERDE_LIBRARY=str(self.named)), f"{package / 'libminiserde.so'}\n")

    def test_a_processor_without_sse42(self):
        for flags, is_right in (("fpu sse2 ssse3", False), ("fpu sse4_1 sse4_2", True)):
            file = self.room / "cpuinfo"
            file.write_text(f"processor\t: 0\nflags\t\t: {flags}\n")
            if is_right:
                miniserde._require_sse42(str(file))
            else:
                self.assertRaisesRegex(ImportError, "SSE4.2", miniserde._require_sse42, str(file))
        miniserde._require_sse42(str(self.room / "none"))


if __name__ == "__main__":
    unittest.main()
