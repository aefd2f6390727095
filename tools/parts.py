"""The fields and variants that `./derive` reads, with their marks."""
import re
from dataclasses import dataclass, field

from faults import Refused
from lines import attributes_of
from refusals import NAME, check_field_name, check_values, check_variant_name, split_at_commas
from serde import in_words, with_words

PUBLIC = r"(pub(?:\([a-z ]+\))?\s+)?"
VARIANT = re.compile(rf"({NAME})\s*(?:\((.*)\)|\{{(.*)\}}|(\{{))?,?")
MARKS = re.compile(r'//\s*((?:once|default|omit|refused|rest|alias|rename|rename_all)\b.*)$')
MARK = re.compile(r'\s*(?:(once|omit|refused|rest)|default(?:\s+(-?\d[\d_]*|true|false|[A-Z][A-Za-z0-9]*|"[^"\\]*"))?|(rename|alias)\s+"([^"\\]*)")\s*(?:,|$)')
INTEGER = re.compile(r"[ui](8|16|32|64|size)")


@dataclass
class Part:
    """A field or a variant: its name and its name in JSON; and a field's type, the `pub` in front of it and its marks.

    `above` are the lines of comments and attributes above it. `default` is the text of the value of a missing field, ""
    for the empty one and None for no such value, and `default_written` its name in JSON if it is a variant; `omit` says that
    `None` is not written, `rest` that the field keeps the members that no other one takes, `refused` that the field's own fields are looked for, and `aliases` are other names that it is read by. A variant with data has `values`, the types in its round brackets, or named
    `fields`; `of` is the type of its data.
    """

    name: str
    written: str
    line: int
    above: list
    of: str = ""
    public: str = ""
    once: bool = False
    default: str = None
    default_written: str = ""
    omit: bool = False
    refused: bool = False
    rest: bool = False
    aliases: tuple = ()
    values: tuple = ()
    fields: list = field(default_factory=list)


def spellings(kind, name):
    """The name of a field or a variant in each style of `rename_all`, by serde's rules: a field stands in snake_case in Rust,
    and a variant in PascalCase.
    """
    field = kind == "struct"
    snake = name if field else re.sub("(?<!^)(?=[A-Z])", "_", name).lower()
    pascal = "".join(word[:1].upper() + word[1:] for word in name.split("_")) if field else name
    return {
        "lowercase": name if field else name.lower(),
        "UPPERCASE": name.upper(),
        "PascalCase": pascal,
        "camelCase": pascal[:1].lower() + pascal[1:],
        "snake_case": snake,
        "SCREAMING_SNAKE_CASE": snake.upper(),
        "kebab-case": snake.replace("_", "-"),
        "SCREAMING-KEBAB-CASE": snake.upper().replace("_", "-"),
    }


def spelled(kind, name, style):
    """The name of a field or a variant in JSON if it has no `rename`."""
    return spellings(kind, name)[style] if style else name


def marks_of(kind, text, line):
    """The marks behind a field or a variant: its words `once` and `omit`, its default, its name in JSON, and its aliases."""
    words, default, rename, aliases = set(), None, None, ()
    while text:
        found = MARK.match(text)
        if not found:
            raise Refused(f'line {line}: not a mark (`once`, `default VALUE`, `omit`, `refused`, `rest`, `rename "x"`, `alias "x"`): {text.strip()}')
        if found.group(1):
            words.add(found.group(1))
        elif found.group(3) == "rename":
            rename = found.group(4)
        elif found.group(3):
            aliases += (found.group(4),)
        else:
            default = found.group(2) or ""
            default = default if default.startswith('"') else default.replace("_", "")
        text = text[found.end() :]
    if kind == "enum" and (words or default is not None or aliases):
        raise Refused(f"line {line}: a variant has `rename` alone: `once`, `default`, `omit`, `refused`, `rest` and `alias` mark fields")
    return words, default, rename, aliases


def part_of(kind, text, line, above, style):
    """The field or variant of a line. Without `rename` its name in JSON has the style. Each line above it has its number in front."""
    asked, above = in_words(above, "field" if kind == "struct" else "variant")
    # A default that is written stands for serde's, which has no value.
    asked = [word for word in asked if word != "default" or not re.search(r"//.*\bdefault\b", text)]
    text, above = with_words(text, asked), [it for _, it in above]
    marks = MARKS.search(text)
    words, default, rename, aliases = marks_of(kind, marks.group(1) if marks else "", line)
    bare = (text[: marks.start()] if marks else text).strip()
    if "//" in bare:
        raise Refused(f"line {line}: a comment that is no mark stands on a line of its own, above the field: {text}")
    part = field_of(bare, line, above, style) if kind == "struct" else variant_of(bare, line, above, style)
    part.once, part.omit, part.refused, part.default, part.aliases = "once" in words, "omit" in words, "refused" in words, default, aliases
    part.rest = "rest" in words
    part.written = part.written if rename is None else rename
    return part


def field_of(bare, line, above, style):
    """The named field of a line without its marks."""
    found = re.fullmatch(rf"{PUBLIC}((?:r#)?{NAME})\s*:\s*(.+?),?", bare)
    if not found:
        raise Refused(f"line {line}: not a named field `name: Type`, one a line: {bare}")
    public, name, of = found.groups()
    check_field_name(name, spelled("struct", name.removeprefix("r#"), style), line)
    if len(split_at_commas(of)) > 1:
        raise Refused(f"line {line}: more than one field stands on the line: {bare}")
    return Part(name, spelled("struct", name, style), line, above, of, public or "")


def variant_of(bare, line, above, style):
    """The variant of a line without its marks. If its fields are on lines of their own, it has none yet."""
    found = VARIANT.fullmatch(bare)
    if not found:
        raise Refused(f"line {line}: not a variant, one a line, with no number: {bare}")
    name, values, fields, _ = found.groups()
    written = spelled("enum", name, style)
    check_variant_name(name, written, line)
    part = Part(name, written, line, above, values=tuple(split_at_commas(values or "")))
    for it in split_at_commas(fields or ""):
        attributes, it = attributes_of(it)
        part.fields.append(variant_field(it, line, [(line, each) for each in attributes]))
    check_values(part, bare, values if fields is None else fields)
    part.of = part.values[0] if len(part.values) == 1 else f"({', '.join(part.values)})" if part.values else ""
    return part


def variant_field(text, line, above):
    """The field of a variant, on a line."""
    part = part_of("struct", text, line, above, "")
    if part.public:
        raise Refused(f"line {line}: a variant's fields are as public as the enum: leave out `{part.public.strip()}`: {text}")
    return part


def fits_default(of, default, enums):
    """Whether a default is a value of the field's type; `enums` has the names of the variants of each enum without data of the file."""
    if default == "":
        return of in ("bool", "String") or INTEGER.fullmatch(of) or re.match(r"(Vec|VecDeque|BTreeMap|HashMap|Option)<", of)
    if default[0] == '"':
        return of == "String"
    if default in ("true", "false"):
        return of == "bool"
    if default[0].isalpha():
        return default in enums.get(of, ())
    return INTEGER.fullmatch(of) and in_range(of, int(default))


def check_defaults(found):
    """Refuses defaults that are no values of their fields' types."""
    enums = {it.name: [part.name for part in it.parts] for it in found if it.kind == "enum"}
    for it in found:
        for part in it.parts:
            if part.default is not None and not fits_default(part.of, part.default, enums):
                instead = "make the field an `Option`"
                if part.of in enums:
                    instead = f"write one of its variants, as `// default {enums[part.of][0]}`"
                elif fits_default(part.of, "", enums):
                    instead += ", or write the value that it has"
                yield f"line {part.line}: `{f'default {part.default}'.strip()}` gives no value of `{part.of}`: {instead}"


def name_defaults(found):
    """Gives defaults that are variants the names in JSON of these."""
    written = {(it.name, part.name): part.written for it in found if it.kind == "enum" for part in it.parts}
    for it in found:
        for part in it.parts:
            part.default_written = written.get((part.of, part.default), "")


def in_range(of, value):
    """Whether an integer is one of the type."""
    bits = 64 if of.endswith("size") else int(of[1:])
    return 0 <= value < 2**bits if of[0] == "u" else -(2 ** (bits - 1)) <= value < 2 ** (bits - 1)
