"""Canonical texts of JSON documents (RFC 8259), by a library whose code is proved.

>>> import miniserde
>>> miniserde.canonical('{"b": [1, 2.50], "a": "\\u00e9", "b": -0}').decode()
'{"a":"é","b":0}'
>>> miniserde.equal('{"a": 1, "b": 2}', b'{"b":2,"a":1}')
True

The canonical text has no whitespace. Each object has its names in the order of their UTF-8 bytes, which is Python's order
of `str`, and each name once, with its last value. Strings have their shortest spelling. An integer from -2**63 to 2**64-1
is written in decimal, -0 as 0, and any other number keeps its text: 1e2, 100.0 and 100 are three numbers. It is not
RFC 8785.

A text is `bytes`, `bytearray` or `memoryview` in UTF-8, or a `str`. A `str` with half a surrogate pair is no text. Any
threads may call at the same time, and other threads run during a call.

The shared library is the file libminiserde.so beside this one, or else the system's libminiserde.so.0. The environment
variable MINISERDE_LIBRARY names another, unless Python ignores the environment (`python3 -E` and `-I`). The library needs
a processor with SSE4.2; without it the import raises `ImportError`.
"""
import ctypes
import json
import os
import sys
from typing import Any, Callable, List, Optional, Union

__all__ = ["Text", "canonical", "dumps", "equal", "is_json"]
__version__ = "0.1.0"

Text = Union[str, bytes, bytearray, memoryview]

_OK, _INVALID, _MEMORY, _ROOM, _DIFFERENT = range(5)


def _require_sse42(cpuinfo: str = "/proc/cpuinfo") -> None:
    """Raises `ImportError` if the processor lacks SSE4.2, which the library uses without a check. Accepts a processor whose flags it cannot read."""
    try:
        with open(cpuinfo, encoding="ascii", errors="replace") as file:
            flags = next((line.split() for line in file if line.startswith("flags")), ["sse4_2"])
    except OSError:
        return
    if "sse4_2" not in flags:
        raise ImportError("libminiserde needs a processor with SSE4.2 (x86-64-v2)")


def _load() -> ctypes.CDLL:
    _require_sse42()
    beside = os.path.join(os.path.dirname(os.path.abspath(__file__)), "libminiserde.so")
    named = None if sys.flags.ignore_environment else os.environ.get("MINISERDE_LIBRARY")
    path = named or (beside if os.path.exists(beside) else "libminiserde.so.0")
    # `CDLL`, and not `PyDLL`: it releases the interpreter's lock during each call.
    library = ctypes.CDLL(path)
    length, text, address = ctypes.c_size_t, ctypes.c_char_p, ctypes.c_void_p
    for name, takes in {
        "miniserde_canonical": [text, length, address, length, address],
        "miniserde_canonical_unique": [text, length, address, length, address],
        "miniserde_equal": [text, length, text, length],
        "miniserde_is_json": [text, length],
    }.items():
        function = getattr(library, name)
        function.argtypes, function.restype = takes, ctypes.c_uint32
    return library


_library = _load()
_canonical, _canonical_unique = _library.miniserde_canonical, _library.miniserde_canonical_unique
_equal, _is_json = _library.miniserde_equal, _library.miniserde_is_json


# The length of a kept buffer, in bytes: the texts of most documents that are hashed are shorter.
_KEPT = 4096


class _Room:
    """Memory for one call: a buffer, the length that is written, and the addresses of both."""

    __slots__ = ("out", "start", "written", "written_at")

    def __init__(self) -> None:
        self.out, self.written = (ctypes.c_char * _KEPT)(), ctypes.c_size_t()
        self.start, self.written_at = ctypes.addressof(self.out), ctypes.addressof(self.written)


# The rooms that no call has now. A call takes one out and puts it back, each in one step of the interpreter: so a call in
# another thread, a signal handler or a finalizer never has the same room.
_rooms: List[_Room] = []


def _bytes_of(text: Text) -> bytes:
    """Returns bytes that no other thread can change during a call. They are of the type `bytes` itself: a subclass could
    give another length than it has."""
    if type(text) is bytes:
        return text
    if isinstance(text, str):
        return str.encode(text)
    if isinstance(text, (bytes, bytearray, memoryview)):
        return bytes(memoryview(text))
    raise TypeError(f"a JSON text is str, bytes, bytearray or memoryview, not {type(text).__name__}")


def _error(status: int, unique: bool = False) -> Exception:
    if status == _INVALID:
        return ValueError("not a JSON text in UTF-8" + (", or one with a duplicate name" if unique else ""))
    if status == _MEMORY:
        return MemoryError()
    return RuntimeError(f"libminiserde returned the status {status}")


def canonical(text: Text, *, unique: bool = False) -> bytes:
    """Returns the canonical text of a JSON text, in UTF-8. It is never longer than the text in UTF-8.

    Raises `ValueError` if the text is not JSON in UTF-8, or if `unique` is true and some object has a duplicate name, and
    `MemoryError` if an allocation fails.
    """
    data = text if type(text) is bytes else _bytes_of(text)
    length = len(data)
    call = _canonical_unique if unique else _canonical
    if length <= _KEPT:
        try:
            room = _rooms.pop()
        except IndexError:
            room = _Room()
        status = call(data, length, room.start, _KEPT, room.written_at)
        found = room.out[: room.written.value] if status == _OK else b""
        _rooms.append(room)
    else:
        out, written = bytearray(length), ctypes.c_size_t()
        start = ctypes.addressof(ctypes.c_char.from_buffer(out))
        status = call(data, length, start, length, ctypes.addressof(written))
        found = bytes(memoryview(out)[: written.value]) if status == _OK else b""
    if status != _OK:
        raise _error(status, unique)
    return found


def dumps(obj: Any, *, default: Optional[Callable[[Any], Any]] = None) -> bytes:
    """Returns the canonical text of what `json.dumps` writes for an object; `default` is passed on to it.

    A float has the text that `repr` gives it: 1.0 is not written as 1, nor -0.0 as 0.0. Raises `ValueError` for a float
    that is not finite, for a `str` with half a surrogate pair, and for a `dict` of which two keys are one name, as 1 and
    "1"; `TypeError` for what `json.dumps` does not take, `RecursionError` for an object that nests too deep for it, and
    `MemoryError` if an allocation fails.
    """
    return canonical(json.dumps(obj, ensure_ascii=False, allow_nan=False, separators=(",", ":"), default=default), unique=True)


def equal(a: Text, b: Text) -> bool:
    """Returns whether two JSON texts have the same canonical text.

    Raises `ValueError` if one of them is not JSON in UTF-8, and `MemoryError` if an allocation fails.
    """
    one = a if type(a) is bytes else _bytes_of(a)
    other = b if type(b) is bytes else _bytes_of(b)
    status: int = _equal(one, len(one), other, len(other))
    if status != _OK and status != _DIFFERENT:
        raise _error(status)
    return status == _OK


def is_json(text: Text) -> bool:
    """Returns whether the text is JSON in UTF-8. Raises `MemoryError` if an allocation fails."""
    try:
        data = text if type(text) is bytes else _bytes_of(text)
    except UnicodeEncodeError:
        return False
    status: int = _is_json(data, len(data))
    if status != _OK and status != _INVALID:
        raise _error(status)
    return status == _OK
