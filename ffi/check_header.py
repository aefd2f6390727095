#!/usr/bin/env python3
"""Checks that the C and Python sides declare what crates/miniserde_c exports: nothing proves that.

    ffi/check_header.py               checks the files of this repository
    ffi/check_header.py --selftest    shows that each of CASES, a changed copy of a file, is found

The prototypes of miniserde.h and of its manual page, with the names of parameters, must be those that follow from the
signatures in lib.rt: a `Global` is nothing, a slice a pointer and a length, a `&mut usize` a pointer. The statuses must
have one number in lib.rt, in miniserde.h and in the Python package, the version script must name the exports, and the version be one.
"""
import pathlib
import re
import sys

TOP = pathlib.Path(__file__).resolve().parent.parent
RUST, HEADER, PYTHON = "crates/miniserde_c/src/lib.rt", "ffi/include/miniserde.h", "ffi/python/miniserde/__init__.py"
MAP, PAGE = "ffi/miniserde.map", "ffi/man/miniserde.3"
C_OF = {"Global": [], "&[u8]": ["const char *{}", "size_t {}_len"], "&mut [u8]": ["char *{}", "size_t {}_len"], "&mut usize": ["size_t *{}"]}
CTYPES_OF = {"Global": [], "&[u8]": ["text", "length"], "&mut [u8]": ["address", "length"], "&mut usize": ["address"]}
# A file, a text that stands in it once, and what stands in its place.
CASES = {
    "another order of parameters": (HEADER, "const char *a, size_t a_len, const char *b, size_t b_len", "size_t a_len, const char *a, const char *b, size_t b_len"),
    "two texts swapped": (HEADER, "const char *a, size_t a_len, const char *b, size_t b_len", "const char *b, size_t b_len, const char *a, size_t a_len"),
    "another type of a parameter": (HEADER, "miniserde_status miniserde_is_json(const char *text, size_t text_len)", "miniserde_status miniserde_is_json(const char *text, int text_len)"),
    "another result": (HEADER, "miniserde_status miniserde_is_json(", "int miniserde_is_json("),
    "another status": (HEADER, "MINISERDE_MEMORY = 2", "MINISERDE_MEMORY = 5"),
    "a status less": (HEADER, "MINISERDE_DIFFERENT = 4", ""),
    "a function less": (HEADER, "miniserde_status miniserde_is_json(const char *text, size_t text_len);", ""),
    "a function more": (HEADER, "#undef MINISERDE_CALL", "miniserde_status miniserde_more(const char *text, size_t text_len);"),
    "another export": (RUST, "pub extern \"C\" fn miniserde_is_json(", "pub extern \"C\" fn miniserde_is_text("),
    "another number in the library": (RUST, "const ROOM: u32 = 3;", "const ROOM: u32 = 6;"),
    "another number in Python": (PYTHON, "_OK, _INVALID, _MEMORY, _ROOM, _DIFFERENT = range(5)", "_OK, _MEMORY, _INVALID, _ROOM, _DIFFERENT = range(5)"),
    "a parameter less in Python": (PYTHON, '"miniserde_equal": [text, length, text, length]', '"miniserde_equal": [text, length, text]'),
    "another version in Python": (PYTHON, '__version__ = "0.1.0"', '__version__ = "0.2.0"'),
    "a name less in the map": (MAP, "    miniserde_is_json;\n", ""),
    "a parameter less in the manual": (PAGE, '.Fn miniserde_is_json "const char *text" "size_t text_len"', '.Fn miniserde_is_json "const char *text"'),
}


def exports(rust):
    """Yields each export's name and its parameters: pairs of a name and a type."""
    for name, inside, result in re.findall(r'#\[unsafe\(no_mangle\)\]\npub extern "C" fn (\w+)\(([^)]*)\) -> (\w+)', rust):
        assert result == "u32", name
        yield name, [tuple(it.strip().split(": ", 1)) for it in inside.split(",") if it.strip()]


def declared(texts):
    """Returns by file the parameters of each function that it declares."""
    bare = re.sub(r"\s+", " ", re.sub(r"/\*.*?\*/", " ", texts[HEADER], flags=re.S))
    return {
        HEADER: dict(re.findall(r"miniserde_status (miniserde_\w+)\(([^)]*)\);", bare)),
        PAGE: {name: ", ".join(re.findall(r'"([^"]*)"', rest)) for name, rest in re.findall(r"^\.Ft miniserde_status\n\.Fn (\w+)(.*)$", texts[PAGE], re.M)},
        PYTHON: dict(re.findall(r'"(miniserde_\w+)": \[(.*)\],', texts[PYTHON])),
        MAP: dict.fromkeys(re.findall(r"^ +(miniserde_\w+);", texts[MAP], re.M)),
    }


def statuses(texts):
    """Returns by file the numbers of the statuses that it names."""
    listed = re.search(r"^(.*) = range\(\d+\)$", texts[PYTHON], re.M)
    return {
        RUST: {name: int(number) for name, number in re.findall(r"^const (\w+): u32 = (\d+);", texts[RUST], re.M)},
        HEADER: {name: int(number) for name, number in re.findall(r"^ +MINISERDE_(\w+) = (\d+)", texts[HEADER], re.M)},
        PYTHON: {name.strip(" _"): at for at, name in enumerate(listed[1].split(","))},
    }


def faults(texts):
    """Yields what the files have that does not follow from lib.rt."""
    wanted = dict(exports(texts[RUST]))
    of_c = {name: ", ".join(c.format(it) for it, kind in takes for c in C_OF[kind]) for name, takes in wanted.items()}
    of_ctypes = {name: ", ".join(c for _, kind in takes for c in CTYPES_OF[kind]) for name, takes in wanted.items()}
    for file, has in declared(texts).items():
        if sorted(has) != sorted(wanted):
            yield f"{file} declares {sorted(has)}, and lib.rt {sorted(wanted)}"
        for name in has.keys() & wanted.keys() if file != MAP else ():
            owed = (of_ctypes if file == PYTHON else of_c)[name]
            if has[name] != owed:
                yield f"{file} has {name}({has[name]}), and not ({owed})"
    versions = [re.search(r'#define MINISERDE_VERSION "(.*)"', texts[HEADER])[1], re.search(r'^__version__ = "(.*)"$', texts[PYTHON], re.M)[1]]
    if versions[0] != versions[1]:
        yield f"{HEADER} and {PYTHON} have the versions {versions}"
    numbers = statuses(texts)
    for file in (HEADER, PYTHON):
        if numbers[file] != numbers[RUST]:
            yield f"{file} has the statuses {numbers[file]}, and lib.rt {numbers[RUST]}"


def selftest(texts):
    """Tries each changed copy. Returns the status."""
    passed = []
    for what, (file, old, new) in CASES.items():
        if texts[file].count(old) != 1:
            sys.exit(f"ffi/check_header.py: {what}: {file} does not have {old!r} once")
        if not list(faults({**texts, file: texts[file].replace(old, new)})):
            passed.append(what)
    print(*(f"ffi/check_header.py: not found: {it}" for it in passed), f"check_header --selftest: {len(CASES)} copies, {len(passed)} passed unseen", sep="\n")
    return int(bool(passed))


def main(words):
    texts = {name: (TOP / name).read_text() for name in (RUST, HEADER, PYTHON, MAP, PAGE)}
    if words not in ([], ["--selftest"]):
        print(__doc__)
        return 0 if words in (["-h"], ["--help"]) else 2
    if words:
        return selftest(texts)
    found = list(faults(texts))
    print(*(f"ffi/check_header.py: {it}" for it in found), f"check_header: {len(list(exports(texts[RUST])))} exports, {len(found)} findings", sep="\n")
    return int(bool(found))


if __name__ == "__main__":
    sys.exit(main(sys.argv[1:]))
