"""Writes the canonical texts of JSON files, or lists the files that are not canonical.

    python3 -m miniserde [--unique] FILE..                 writes the canonical text of each, with a newline between two
    python3 -m miniserde [--unique] --check [-0] FILE..    lists each file whose bytes are not its canonical text

`-` is standard input. A file that cannot be read or is not JSON does not keep the others from being looked at.

Exit status: 0 if all went well, 5 if a write failed, and otherwise the greatest of these: 1 if a file is not JSON, or with
`--check` not canonical; 2 if the arguments are wrong or a file cannot be read; 3 if an allocation failed.
"""
import argparse
import errno
import os
import sys
from typing import List, Optional, Tuple

from . import canonical


def read(name: str) -> bytes:
    with open(0 if name == "-" else name, "rb", closefd=name != "-") as file:
        return file.read()


def write(data: bytes) -> None:
    """Writes bytes to standard output, and returns when they are written."""
    if sys.stdout is None:
        raise OSError(errno.EBADF, os.strerror(errno.EBADF))
    rest = memoryview(data)
    while rest:
        rest = rest[os.write(1, rest) :]


def say(what: str) -> None:
    """Writes a line to standard error, if there is one."""
    try:
        if sys.stderr is not None:
            print(f"miniserde: {what}", file=sys.stderr)
    except OSError:
        pass


def usage() -> argparse.ArgumentParser:
    made = argparse.ArgumentParser("python3 -m miniserde", description=__doc__, formatter_class=argparse.RawDescriptionHelpFormatter)
    made.add_argument("--check", action="store_true", help="list the files that are not canonical")
    made.add_argument("--unique", action="store_true", help="refuse an object with a duplicate name")
    made.add_argument("-0", "--null", action="store_true", help="with --check, end each name with a zero byte instead of a newline")
    made.add_argument("files", nargs="+", metavar="FILE")
    return made


def look_at(name: str, unique: bool, is_check: bool) -> Tuple[int, Optional[bytes]]:
    """Returns the status of a file and its canonical text, or None if it has none or `--check` should list it."""
    try:
        text = read(name)
        found = canonical(text, unique=unique)
    except ValueError as error:
        say(f"{name}: {error}")
        return 1, None
    except OSError as error:
        say(f"{name}: {error.strerror}")
        return 2, None
    except MemoryError:
        say(f"{name}: out of memory")
        return 3, None
    return (1, None) if is_check and found != text else (0, found)


def main(words: Optional[List[str]] = None) -> int:
    parser = usage()
    given = parser.parse_args(words)
    if given.null and not given.check:
        parser.error("-0 takes --check")
    status, between, end = 0, b"", b"\0" if given.null else b"\n"
    for name in given.files:
        one, found = look_at(name, given.unique, given.check)
        status = max(status, one)
        try:
            if given.check and one == 1:
                write(os.fsencode(name) + end)
            elif not given.check and found is not None:
                write(between + found)
                between = b"\n"
        except OSError as error:
            say(f"standard output: {error.strerror}")
            return 5
    return status


if __name__ == "__main__":
    sys.exit(main())
