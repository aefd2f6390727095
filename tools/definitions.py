"""What `./derive` reads: the types of a file, with their words and marks."""
import re
from dataclasses import dataclass, field, replace

from faults import Faults, Refused
from fields import check_refused, looked_into
from kinds import check_adjacent, check_untagged, mark_kinds
from lines import lines_of
from omitted import check_omitted, mark_never_null
from own import mark, own
from plain import MARKED
from rests import check_rests
from parts import INTEGER, MARK, PUBLIC, Part, check_defaults, name_defaults, part_of, spellings, variant_field
from refusals import (
    NAME, check_cycles, check_derives, check_foreign_marks, check_inside, check_keys, check_lossless, check_newtype, check_param, check_params, check_places, check_stable,
    check_type, check_values, check_written, split_at_commas,
)
from serde import USE as USE_OF_SERDE
from serde import in_words, with_words


@dataclass
class Definition:
    """A struct, a newtype, an enum without data, or a tagged enum, whose variants may have data. A newtype has one part, `0`. `above` are the lines above it, without
    its derives, and `params` the names of its parameters. `style` is the style of its parts' names in JSON, "" for none.
    `tag` is the name of the member that names the variant, None for a struct and for an enum that is externally tagged, and
    `content` that of the member that has the data of a variant, None if its members stand beside the tag.
    `shown` is what messages call it: of the struct that is written for a variant's fields the variant. `never_null` says that
    a field that may be left out needs the law that the type is not written as `null`, and `bounded` are the parameters of which
    it does. `has_laws` says that the type's crate has the crate of the round trip, and `has_stored` that it has the one of stable
    types. `check` is the function that says which values a newtype takes, "" for one that takes all, and `module` its module.
    `looked_into` are the structs of the file whose fields are looked for one by one, and `beside` the enums of the file beside whose tags a struct stands. `may_be_null` says that an untagged enum has the kind of `null`, or may have it. `faulty` says that a line of it was refused.
    """

    kind: str
    name: str
    line: int
    above: list
    derives: list
    public: str
    words: tuple
    params: tuple = ()
    style: str = ""
    tag: str = None
    content: str = None
    may_be_null: bool = False
    parts: list = field(default_factory=list)
    variant: str = ""
    beside: tuple = ()
    never_null: bool = False
    bounded: set = field(default_factory=set)
    has_laws: bool = True
    has_stored: bool = True
    check: str = ""
    module: str = "checks"
    looked_into: set = field(default_factory=set)
    faulty: bool = False

    @property
    def shown(self):
        return self.variant or self.name


USE = re.compile(r"(?:pub )?use [A-Za-z0-9_:{}*, ]+;")
DERIVE = re.compile(r"#\[derive\(([^)]*)\)\]")
WORD = r'(?:once|closed|lossless|stable|events|inside|kinds|untagged|refused|(?:rename_all|tag|content)\b(?:"[^"]*"|[^",])*)'
WORDS = rf"\s*//\s*({WORD}(?:,\s*{WORD})*)"
PARAMS = r"(?:<([^{}]*)>)?"
NO_TYPE = re.compile(r"(?:pub(?:\([a-z ]+\))?\s+)?(impl|fn|const|static|mod|type|trait|extern|unsafe|macro_rules!)(?=\W|$)")
BEGUN = re.compile(rf"{PUBLIC}(struct|enum|union)\s+({NAME})")
HEAD = re.compile(rf"{PUBLIC}(struct|enum)\s+({NAME})\s*{PARAMS}\s*\{{(?:{WORDS})?")
NEWTYPE = re.compile(rf"{PUBLIC}struct\s+({NAME})\s*{PARAMS}\s*\(\s*{PUBLIC}(.+?)\s*,?\s*\);(?:\s*//\s*(.*))?")
NEWTYPE_WORD = re.compile(rf"lossless|stable|key|text|events|kinds|check\s+((?:{NAME}::)?{NAME})")
# A comment that has words or marks alone.
ALONE = re.compile(rf"""//\s*(?:{WORD}|{NEWTYPE_WORD.pattern}|{MARK.pattern.rpartition("(?:,")[0]})(?:,.*)?""")


def style_of(kind, words, line):
    """The style of the names that the words of a type ask for, "" for none."""
    style = ""
    for word in words:
        found = re.fullmatch(r'rename_all\s+"([^"]*)"', word)
        if not found or found.group(1) not in spellings(kind, ""):
            styles = ", ".join(f'"{each}"' for each in spellings(kind, ""))
            raise Refused(f'line {line}: `rename_all` has a style behind it, one of {styles}: write `rename_all "camelCase"`: {word}')
        if style:
            raise Refused(f'line {line}: the names have one style: leave out {word}, or `rename_all "{style}"`')
        style = found.group(1)
    return style


def content_of(tag, words, line):
    """The name of the member beside the tag that the words of a type ask for, None for none."""
    if not words:
        return None
    found = re.fullmatch(r'content\s+"([^"\\]*)"', words[0])
    if not found or len(words) > 1 or tag is None or found.group(1) == tag:
        raise Refused(f'line {line}: beside a tag one member of another name has the data: write `tag "kind", content "data"`: {", ".join(words)}')
    return found.group(1)


def tag_of(kind, words, line):
    """The name of the tag that the words of a type ask for, None for none."""
    if not words:
        return None
    found = re.fullmatch(r'tag\s+"([^"\\]*)"', words[0])
    if not found or len(words) > 1 or kind == "struct":
        raise Refused(f'line {line}: an enum has one tag, and its name stands behind the word: write `tag "kind"`: {", ".join(words)}')
    return found.group(1)


def head_of(bare, line, above):
    """The type that a line begins. Each line above it has its number in front."""
    if re.match(rf"{PUBLIC}(?:struct|enum)\s+{NAME}\s*<[^{{]*(>$|\bwhere\b)", bare):
        raise Refused(f"line {line}: each impl has the bounds that it needs: leave out `where`, and write `{{` on this line: {bare}")
    if HEAD.fullmatch(bare):
        asked, above = in_words(above, HEAD.fullmatch(bare)[2])
        above = [it for _, it in above]
        public, kind, name, params, words = HEAD.fullmatch(with_words(bare, asked)).groups()
        derives = [name for it in above for names in DERIVE.findall(it) for name in re.findall(r"\w+", names)]
        above = [it for it in above if not DERIVE.fullmatch(it)]
        words = [word.strip() for word in re.findall(WORD, words or "")]
        renames = [word for word in words if word.startswith("rename_all")]
        tags = [word for word in words if word.startswith("tag")]
        contents = [word for word in words if word.startswith("content")]
        words = tuple(word for word in words if word not in [*renames, *tags, *contents])
        params, style, tag = params_of(params or "", bare, line), style_of(kind, renames, line), tag_of(kind, tags, line)
        return Definition(kind, name, line, above, derives, public or "", words, params, style, tag, content_of(tag, contents, line))
    if re.match(rf"{PUBLIC}(?:struct|enum)\s+{NAME}\s*{PARAMS}\s*\{{\s*//", bare):
        raise Refused(f'line {line}: behind a type stand words, with commas between: once, closed, lossless, stable, events, inside, kinds, untagged, refused, tag "kind", content "data", rename_all "camelCase": {bare}')
    if re.match(rf"{PUBLIC}struct\s+{NAME}\s*(?:<[^{{(]*>)?\s*\(", bare):
        raise Refused(f"line {line}: a struct of unnamed values has one, and stands on one line: `struct Name(Type);`, as `struct Name((A, B));`: {bare}")
    if re.match(rf"{PUBLIC}struct\s+{NAME}\s*;", bare):
        raise Refused(f"line {line}: a struct has a field: write `()` for the type, which is `null`: {bare}")
    raise Refused(f"line {line}: not the first line of a `struct Name {{` or an `enum Name {{`: {bare}")


def newtype_of(bare, line, above):
    """The newtype that a line defines, None for a line that defines none."""
    found = NEWTYPE.fullmatch(bare)
    if not found or len(split_at_commas(found.group(5))) != 1:
        return None
    public, name, params, shown, of, text = found.groups()
    asked, above = in_words(above, "newtype", of)
    if "check" in asked and not re.search(r"\bcheck\b", text or ""):
        raise Refused(f"line {line}: what `try_from` refuses, a function says: write `// check FUNCTION` behind the newtype, the function into `src/checks.rt`, and its word into `specs/Checks.antt` (docs/YOUR-OWN-TYPES.md): {bare}")
    above = [it for _, it in above]
    derives = [name for it in above for names in DERIVE.findall(it) for name in re.findall(r"\w+", names)]
    words, check = (), ""
    for word in split_at_commas(text or ""):
        fits = NEWTYPE_WORD.fullmatch(word)
        if not fits:
            raise Refused(f"line {line}: behind a newtype stand words, with commas between: lossless, stable, key, check FUNCTION, text, events, kinds: {word}")
        words, check = (*words, word.split()[0]), fits.group(1) or check
    above = [it for it in above if not DERIVE.fullmatch(it)]
    it = Definition("newtype", name, line, above, derives, public or "", words, params_of(params or "", bare, line))
    it.check, it.module = check.split("::")[-1], check.rpartition("::")[0] or "checks"
    it.parts = [Part("0", "", line, [], of, shown or "")]
    check_newtype(it, INTEGER, bare)
    return it


def params_of(text, bare, line):
    """The names of a type's parameters."""
    params = split_at_commas(text)
    for param in params:
        check_param(param, bare, line)
    return tuple(params)


class Reader:
    """What stands in a file: its types, those whose first line is refused, its `use` lines and the faults of its lines.

    `above` are the comments, attributes and blank lines above the next line, with their numbers; `now` is the type that is not
    closed, and `variant` its variant that is not; `is_head` says that its first line goes on, and `is_left_out` that it was refused;
    `open_braces` counts those of an item that is no type.
    """

    def __init__(self, text):
        self.found, self.left_out, self.uses, self.faults = [], [], [], Faults()
        self.above, self.now, self.variant, self.is_head, self.is_left_out, self.open_braces = [], None, None, False, False, 0
        for number, bare in lines_of(text):
            count = len(self.faults)
            self.faults.seen(self.take, bare, number)
            if self.now and len(self.faults) > count:
                self.now.faulty = True
        if self.now:
            self.refuse_open()

    def refuse_open(self):
        if not self.is_left_out:
            self.faults.append(f"line {self.now.line}: `{self.now.name}` is not closed")

    def take(self, bare, number):
        """Takes a line."""
        if self.open_braces:
            self.open_braces += bare.count("{") - bare.count("}")
            return
        if bare.startswith("//!"):
            return
        if bare.startswith("}") and any(line.startswith("#[") for _, line in self.above):
            self.faults.append(f"line {number}: no field or variant stands below the attribute: {bare}")
        if ALONE.fullmatch(bare):
            raise Refused(f"line {number}: words stand behind what they mark, on its line, and not above it: {bare}")
        if not bare or bare.startswith("//") or bare.startswith("#["):
            self.above += [(number, bare)] if bare or self.above or self.now and self.now.parts else []
            return
        above, self.above = self.above, []
        if self.now and BEGUN.match(bare):
            self.refuse_open()
            self.close()
        if self.is_head:
            self.is_head = not bare.endswith("{")
        elif self.variant and bare.startswith("}"):
            variant, self.variant = self.variant, None
            check_values(variant, f"{variant.name} {{ }}", "")
            if bare not in ("}", "},"):
                raise Refused(f"line {number}: a variant's marks stand behind its first line: {bare}")
        elif self.variant:
            self.variant.fields.append(variant_field(bare, number, above))
        elif self.now and bare == "}":
            self.close()
        elif self.now:
            self.take_part(bare, number, above)
        else:
            self.take_outside(bare, number, above)

    def take_part(self, bare, number, above):
        """Takes a field, or a variant or its first line."""
        is_begun = self.now.kind == "enum" and re.fullmatch(rf"{NAME}\s*\{{(\s*//.*)?", bare)
        self.variant = Part("", "", number, []) if is_begun else None
        self.now.parts.append(part_of(self.now.kind, bare, number, above, self.now.style))
        self.variant = self.now.parts[-1] if is_begun else None

    def take_outside(self, bare, number, above):
        """Takes a line outside of types. If the first line of a type is refused, its other lines are still read."""
        if USE.fullmatch(bare):
            self.uses += [it for _, it in above] + ([] if USE_OF_SERDE.match(bare) else [bare])
            return
        if found := NO_TYPE.match(bare):
            self.open_braces = bare.count("{") - bare.count("}")
            instead = "write it into a file of `src`, and leave it out here"
            if re.match(r"impl (?:\w+::)*(?:TryFrom|From)<.*> for ", bare):
                instead = "leave it out: of a newtype that serde makes by `try_from` and `into`, `check FUNCTION` says what is taken"
            raise Refused(f"line {number}: `{found[1]}` is no type: {instead}: {bare}")
        begun = BEGUN.match(bare)
        try:
            newtype = newtype_of(bare, number, above)
            self.found += [newtype] if newtype else []
            self.now = None if newtype else head_of(bare, number, above)
        except Refused:
            derives = [name for _, it in above for names in DERIVE.findall(it) for name in re.findall(r"\w+", names)]
            left_out = Definition("enum" if begun[2] == "enum" else "struct", begun[3], number, [], derives, "", ()) if begun else None
            if begun and re.search(r"\)\s*;", bare):
                self.left_out.append(left_out)
            elif begun:
                self.now, self.is_left_out, self.is_head = left_out, True, not re.search(r"\{\s*(?://.*)?$", bare)
            raise

    def close(self):
        """Ends the type that is not closed."""
        if self.is_left_out:
            self.left_out.append(self.now)
        else:
            self.found.append(self.now)
        self.now, self.variant, self.is_head, self.is_left_out = None, None, False, False


def definitions_of(text):
    """The types of a file in order, its `use` lines, and its faults. Comments and blank lines stay above what they stood above.

    The names of the types and of their parts end in marks (`own.py`).
    """
    reader = Reader(text)
    for number, line in enumerate(text.splitlines(), 1):
        if MARKED.search(line):
            reader.faults.append(f"line {number}: `{MARKED.search(line)[0][:4]}` with a number and `own0` behind it is a mark of `./derive`: write something else")
    mark([*reader.found, *reader.left_out], reader.uses)
    found = [each for it in reader.found for each in with_structs(it)]
    return found, reader.uses, Faults([*reader.faults, *check(found, reader.uses, reader.left_out)])


def with_structs(it):
    """A type, and before it a struct for the fields of each variant that has named fields."""
    structs = []
    for part in it.parts if it.kind == "enum" else []:
        if part.fields:
            params = tuple(name for name in it.params if any(re.search(rf"(?<![\w:]){name}\b", each.of) for each in part.fields))
            words = tuple(word for word in it.words if word in ("lossless", "stable")) + (("inside",) if it.tag is not None and it.content is None else ()) + (("kinds",) if "untagged" in it.words else ())
            made = Definition("struct", it.name + part.name, part.line, [f"/// The fields of `{it.name}::{part.name}`."], [], it.public, words, params)
            made.variant = f"{it.name}::{part.name}"
            made.parts = [replace(each, public=it.public, above=[line for line in each.above if line.startswith("//")]) for each in part.fields]
            part.of = f"{made.name}<{', '.join(params)}>" if params else made.name
            structs.append(made)
    if (it.tag is not None or "untagged" in it.words or any(part.of for part in it.parts)) and it.kind == "enum":
        it.kind = "tagged"
    return [*structs, it]


def mark_inside(found, known):
    """Marks the structs that are the data of an internally tagged enum of the file. Yields the faults of its variants."""
    for it in found:
        for part in it.parts if it.tag is not None and it.content is None else []:
            yield from check_inside(it, part, {each.name: each for each in found}, known)
    tagged = [(name.group(), it.name) for it in found if it.tag is not None and it.content is None for part in it.parts if (name := re.match(NAME, part.of))]
    for it in found:
        it.beside = tuple(dict.fromkeys(enum for name, enum in tagged if name == it.name and it.kind == "struct"))
        if it.beside and "inside" not in it.words:
            it.words += ("inside",)


def names_known(found, uses):
    """The names that a file defines or imports."""
    imported = {name for line in uses if USE.fullmatch(line) for name in re.findall(NAME, line)}
    return {it.name for it in found} | imported | {own(name) for name in imported}


def check(found, uses, left_out):
    """The faults of types that no impl can be written for. Of those that are `left_out` others may have values."""
    faults, named = Faults(), [*found, *left_out]
    known = names_known(named, uses)
    foreign = names_known(named, [line for line in uses if not re.match(r"(?:pub )?use (?:std|core|alloc)::", line)])
    mark_kinds(found)
    faults += [*mark_inside(found, known), *check_untagged(found), *check_adjacent(found)]
    for it in found:
        faults += [*check_foreign_marks(it), *check_written(it), *check_params(it)]
    for it in named:
        faults += check_derives(it, found, uses)
        names = known if "text" in it.words else foreign
        for part in it.parts:
            faults.seen(check_type, part.of, {*names, "char"} if it.kind == "newtype" else names, part.line)
    faults += [*check_defaults(found), *check_cycles(found), *check_omitted(found, uses), *check_places(found, uses)]
    faults += [*check_keys(found), *check_stable(found, uses), *check_lossless(found, uses), *check_refused(found), *check_rests(found)]
    mark_never_null(found)
    name_defaults(found)
    for it in found:
        it.looked_into = looked_into(found)
    return faults
