"""Attributes of serde: what they say in the words and marks of `./derive`, where they mean the same here."""
import re

from faults import Refused
from refusals import split_at_commas

SERDE = re.compile(r"#\[serde\((.*)\)\s*\]", re.S)
USE = re.compile(r"(?:pub )?use serde(?:_derive)?\b")
# What stands for attributes that are not read.
INSTEAD = {
    "borrow": "a value owns its text, so leave the attribute out",
    "bound": "each impl has the bounds that it needs, so leave the attribute out",
    "deserialize_with": "write a newtype with the word `text`",
    "from": "write a newtype, as `struct Name(u8);`, and convert where it is used",
    "other": "an unknown variant is invalid: write a struct with the kind as a `String`",
    "rename_all_fields": "write `rename` above the fields",
    "serialize_with": "write a newtype with the word `text`",
    "skip": "leave the field out",
    "skip_deserializing": "make the field an `Option`",
    "skip_serializing": "write a struct of its own for what is written, without the field",
    "with": "write a newtype with the word `text`",
}
# What is written where an attribute that is read elsewhere is not.
ELSEWHERE = {
    ("alias", "variant"): ": a variant has one name",
    ("deny_unknown_fields", "enum"): ": write it above each struct that is a variant's",
    ("rename", "enum"): ": in JSON a type has no name, so leave it out",
    ("rename", "struct"): ": in JSON a type has no name, so leave it out",
    ("rename_all", "variant"): ": write `rename` above each of its fields",
    ("transparent", "struct"): ": write a newtype, as `struct Name(Type);`",
    ("tag", "struct"): ": write an enum of one variant",
}
# Where each attribute that is read may stand.
OF = {
    "alias": ("field",),
    "content": ("enum",),
    "default": ("field",),
    "deny_unknown_fields": ("struct",),
    "flatten": ("field",),
    "into": ("newtype",),
    "rename": ("field", "variant"),
    "rename_all": ("struct", "enum"),
    "skip_serializing_if": ("field",),
    "tag": ("enum",),
    "transparent": ("newtype",),
    "try_from": ("newtype",),
    "untagged": ("enum",),
}


def in_words(above, of, inner=""):
    """The words and marks that the attributes above a type, a field or a variant stand for, and the other lines above it.

    Of the lines each has its number in front. `of` is what they stand above, and `inner` the type in a newtype.
    """
    words, others = [], []
    for number, line in above:
        found = SERDE.fullmatch(line)
        if not found:
            others.append((number, line))
        for part in split_at_commas(found[1]) if found else []:
            words.append(word_for(part, of, inner, number))
    words = [word for word in dict.fromkeys(words) if word]
    # An `Option` that may be left out is `None` if it is missing.
    return [word for word in words if word != "default" or "omit" not in words], others


def word_for(part, of, inner, line):
    """The word or mark for one part of an attribute, "" for one that says what holds anyway."""
    name, value = re.match(r"\w*", part).group(), part.partition("=")[2].strip()
    if name not in OF or (name == "default" and of not in ("field", "variant")):
        instead = INSTEAD.get(name) if name not in OF else "write it above each field that may be missing"
        raise Refused(f"line {line}: nothing stands for `{name}` of serde here{f': {instead}' if instead else ''}: {part}")
    if of not in OF[name]:
        what = {"struct": "a struct", "enum": "an enum", "newtype": "a newtype", "field": "a field", "variant": "a variant"}
        instead = ELSEWHERE.get((name, of), "")
        raise Refused(f"line {line}: `{name}` of serde is not read at {what[of]}{instead}: {part}")
    if "(" in part:
        raise Refused(f'line {line}: what is written is what is read: write `{name} = ".."`: {part}')
    if name == "default" and value:
        raise Refused(f"line {line}: no function gives a missing field its value: leave this out, and write `// default VALUE` behind the field, or make it an `Option`: {part}")
    if name == "skip_serializing_if" and value != '"Option::is_none"':
        raise Refused(f"line {line}: a field that is left out is an `Option` that is `None`: make it one, with `Option::is_none`, or leave this out, and the empty value is written: {part}")
    if name in ("into", "try_from") and value.strip('"') != inner:
        raise Refused(f"line {line}: a newtype with a check is read and written as what is in it: write `check FUNCTION` behind it, and {name} = \"{inner}\": {part}")
    return {
        "default": "default",
        "deny_unknown_fields": "closed",
        "flatten": "rest",
        "into": "check",
        "skip_serializing_if": "omit",
        "transparent": "",
        "try_from": "check",
        "untagged": "untagged",
    }.get(name, f"{name} {value}")


def with_words(line, words):
    """The line of a type, a field or a variant with words and marks behind those that it has."""
    return f"{line}{', ' if '//' in line else ' // '}{', '.join(words)}" if words else line
