"""What `./derive` refuses: types and names that no impl can be written for. Each message has the reason, and what to write.

Checks of a line raise `Refused`; those of whole types yield all faults that they find.
"""
import re

from faults import Refused
from plain import plain

NAME = r"[A-Za-z_][A-Za-z0-9_]*"


# What derived code may name.
NAMED = (
    "Aliased BesideTag Cases Checked CheckedLeaf Closed DataCase Deserialize Empty Error Event ExactKey Field Four FourLent FourParts FourSlot Fragment FromJson Given "
    "Global HasAliases HasTag InjectiveKey Inside InsideCases Leaf LeafPlace Lossless MapKey MarkedFour MarkedSlot Members NamePlace NeverNull NoCase NoField NoFields NoSlot "
    "OmitSlot Omitted Once OnceField OnceFour OnceSlot OneOf Parts PlacedRecord Plain Ranged Record RecordPlace Result RoundTrip "
    "Serialize Slot Slots Source Stable Step TextValue Transparent DataEnum UnitCase UnitEnum Variants Visitor WithDefault Writer WrittenCases WrittenFields "
    "aliased_round_trips checked_from_step checked_lossless checked_round_trips checked_stable enum_lossless enum_round_trips enum_stable fields_named read_checked read_enum read_leaf read_record read_tagged read_variant "
    "record_lossless record_round_trips record_stable tag_fits tagged_lossless tagged_round_trips tagged_stable take_four text_value_from_step text_value_round_trips transparent_round_trips variant_lossless "
    "variant_round_trips variant_stable write_data write_fields write_members write_members_in_order write_tagged write_tagged_fields write_text_value"
)
# Those of the laws, by their crate: a crate over `miniserde_core` lists it too.
OF_LAWS = {
    "miniserde_laws": "Lossless NeverNull RoundTrip Transparent aliased_round_trips checked_lossless checked_round_trips enum_lossless enum_round_trips record_lossless record_round_trips "
    "tagged_lossless tagged_round_trips text_value_round_trips transparent_round_trips variant_lossless variant_round_trips",
    "miniserde_stored": "ExactKey Stable checked_stable enum_stable record_stable tagged_stable variant_stable",
}
# Those of the crate `refused`, which code names that is derived of a struct with this word.
OF_REFUSED = {"refused": "FieldByField FieldPath NamesOf NoProbe Probe ProbeInto ProbeIntoOption Probes Way fields_give"}
# Those of places, which `miniserde_core` has not.
OF_PLACED = "CheckedLeaf Deserialize Field Four LeafPlace NamePlace NoField OnceField OnceFour PlacedRecord RecordPlace Visitor checked_from_step"
# Those of `miniserde_more`, by their module, which code names that is derived of a type with one of its words.
OF_MORE = {
    "miniserde_more::adjacent": "Content HasContent",
    "miniserde_more::rest": "AliasesOf NoNames OpenFields TagOf WithRest aliased_rest_round_trips rest_lossless rest_named rest_round_trips rest_stable "
    "write_fields_and_rest write_inside_and_rest write_members_and_rest write_tagged_fields_and_rest",
    "miniserde_more::untagged": "ArrayKind BooleanKind EitherKind HasKinds NullKind NumberKind ObjectKind StringKind UntaggedCases UntaggedEnum WrittenUntagged "
    "read_untagged untagged_lossless untagged_never_null untagged_round_trips untagged_stable",
}
# Types of other modules that fields often have, by their module.
IMPORTED = {
    "std::collections": "BTreeMap HashMap VecDeque",
    "miniserde::json": "Array Document Number Object Unique Value",
}

KEYWORDS = set(
    "as break const continue crate else enum extern false fn for ghost if impl in let loop match mod move mut pub ref return "
    "self static struct super trait true type unsafe use where while async await dyn box yield".split()
)

# Names that no type and no parameter has, each with what it is.
WORDS = {name: "a word of the language" for name in [*KEYWORDS, "Self"]}
WORDS |= {name: "a word of the clauses" for name in ("tt", "TheConstants")}
WORDS |= {f"{sign}{bits}": "a type of Rust" for sign in "ui" for bits in "8 16 32 64 128 size".split()}
WORDS |= {name: "a type of Rust" for name in ("bool", "char", "f32", "f64", "str")}
WORDS |= {name: "a crate" for name in ("alloc", "core", "miniserde", "miniserde_core", "std")}

# Types that are not read, each with what to write.
UNREAD = {
    "f32 f64": "`miniserde::json::Number` keeps a fraction as its text, and has no `Clone` and no `PartialEq`; to reckon, take an integer of a smaller unit",
    "i128 u128": "an integer of 64 bits, or `miniserde::json::Number`, which keeps any number, and has no `Clone` and no `PartialEq`",
    "char str OsString Path PathBuf": "`String`",
    "BTreeSet BinaryHeap HashSet LinkedList": "`Vec`",
    "Arc Cell Mutex Rc RefCell": "the type in it, or a `Box` of that",
    "Cow": "the type that owns it, as `String`",
    "Duration Instant SystemTime": "an integer, or a newtype of one",
    "Result": "a struct of two `Option`s",
    "NonZeroU8 NonZeroU16 NonZeroU32 NonZeroU64 NonZeroUsize NonZeroI8 NonZeroI16 NonZeroI32 NonZeroI64 NonZeroIsize": "a newtype of an integer with `check`",
    "IpAddr Ipv4Addr Ipv6Addr SocketAddr Uuid Url": "a newtype of it with `text`",
    "DateTime NaiveDate NaiveDateTime NaiveTime": "a newtype of the toolchain's `jiff` with `text`, as `Day` (docs/YOUR-OWN-TYPES.md)",
}
INSTEAD = {name: instead for names, instead in UNREAD.items() for name in names.split()}


def split_at_commas(text):
    """The parts of a text between commas that stand in no bracket."""
    parts, depth = [""], 0
    for sign in text:
        depth += (sign in "([<{") - (sign in ")]>}")
        if sign == "," and depth == 0:
            parts.append("")
        else:
            parts[-1] += sign
    return [it.strip() for it in parts if it.strip()]


def widest_tuple(of):
    """Returns the most parts that a tuple in a type has."""
    widest, open_at = 0, []
    for sign in of:
        if sign in "([<{":
            open_at.append([sign, 1])
        elif sign in ")]>}" and open_at:
            bracket, parts = open_at.pop()
            widest = max(widest, parts if bracket == "(" else 0)
        elif sign == "," and open_at:
            open_at[-1][1] += 1
    return widest


def check_type(of, known, line):
    """Refuses a field's type that is not read, unless the file defines or imports its name."""
    if "'" in of or "&" in of:
        raise Refused(f"line {line}: a value owns what it has, with no lifetime and no reference, as `String` for `&str`: {of}")
    if re.search(r"\bdyn\b|\bimpl\b|\bfn\b", of):
        raise Refused(f"line {line}: a field has a type of its own, with no `dyn`, no `impl` and no `fn`: {of}")
    if re.search(r"\[[^;\]]*\]", of):
        raise Refused(f"line {line}: a list has a length, as `[T; 4]`, or is a `Vec<T>`: {of}")
    if widest_tuple(of) > 6:
        raise Refused(f"line {line}: a tuple has six parts at most: write a struct: {of}")
    for name in re.findall(r"(?<![\w:])" + NAME, of):
        if name in INSTEAD and name not in known:
            raise Refused(f"line {line}: `{name}` is not read: {INSTEAD[name]}")
    for library, name in re.findall(rf"\b(std|core|alloc|serde_json|chrono|uuid|url)::(?:\w+::)*({NAME})", of):
        if library == "serde_json":
            raise Refused(f"line {line}: `{name}` of serde_json is not read: `miniserde::json::{'Object' if name == 'Map' else name}`: {of}")
        if name in INSTEAD and name not in known:
            raise Refused(f"line {line}: `{name}` is not read: {INSTEAD[name]}")


def check_param(param, bare, line):
    """Refuses a parameter that is more than the name of a type."""
    if param[0] == "'":
        raise Refused(f"line {line}: a value owns what it has, with no lifetime: leave out `{param}`, and write `String` for `&str`: {bare}")
    if re.match(r"const\b", param):
        raise Refused(f"line {line}: a parameter is a type, and no constant: write the number in the field, as `[u8; 4]`: {bare}")
    name = re.match(r"\w*", param).group()
    if param[len(name) :].strip().startswith("="):
        raise Refused(f"line {line}: a parameter has no default: write `{name}` for `{param}`: {bare}")
    if param != name:
        raise Refused(f"line {line}: each impl has the bounds that it needs: write `{name}` for `{param}`: {bare}")
    if name in WORDS:
        raise Refused(f"line {line}: `{name}` is {WORDS[name]}: give the parameter another name, as `T`: {bare}")


def documents_within(found, documents):
    """The types of the file that have a document in them, each with its name."""
    inner = {}
    for it in found * len(found):
        names = [name for part in it.parts for name in re.findall(rf"(?:(?<![\w:])|(?<=json::)){NAME}", part.of)]
        inner |= {it.name: inner.get(name, name) for name in names[::-1] if name in documents | inner.keys()}
    return inner


def check_derives(it, found, uses):
    """Refuses a `Default`, which nothing derives, and derives around what lacks them, as a `Clone`, since a copy may fail to allocate."""
    documents = {"Array", "Document", "Number", "Object", "Unique", "Value"} - names_beside("miniserde(?:_core)?::json", found, uses)
    lacking = [f"`{each}`" for each in it.derives if each in ("Clone", "Copy", "PartialEq", "Eq", "PartialOrd", "Ord", "Hash")]
    if "Default" in it.derives:
        yield f"line {it.line}: `Default` is not derived: leave it out, and mark the fields that may be missing: {it.shown}"
    for part in it.parts:
        if any(re.fullmatch(r"#\[\s*default\s*\]", above) for above in part.above):
            yield f"line {part.line}: `#[default]` belongs to `Default`, which is not derived: leave it out, and write `// default {part.name}` behind each field that may be missing: {part.name}"
    inner, variants = documents_within(found, documents), {each.name: each.parts for each in found if each.variant}
    for part in [each for part in it.parts for each in variants.get(part.of.split("<")[0], [part])] if lacking else []:
        name = next((each for each in re.findall(rf"(?:(?<![\w:])|(?<=json::)){NAME}", part.of) if each in documents | inner.keys()), None)
        if name:
            within = "" if name in documents else f", with a `{inner[name]}` in it,"
            yield f"line {part.line}: `{name}`{within} has no {' and no '.join(lacking)}: leave {' and '.join(lacking)} out of the derives of `{it.shown}`: {part.of}"


def check_keys(found):
    """Refuses a map whose key is a type of the file without the word `key`, or one that has parts."""
    plain = {it.name: it for it in found if "key" not in it.words}
    for it in found:
        for part in it.parts:
            for key in [given[0] for name, given in applied(part.of) if name in ("BTreeMap", "HashMap")]:
                if key in plain and plain[key].kind == "newtype":
                    yield f"line {part.line}: a map's key is a newtype with the word `key`: mark `{key}` with `// key`: {part.of}"
                elif key in plain or re.match(r"[(\[]|(?:Box|BTreeMap|HashMap|Option|Vec|VecDeque)<", key):
                    yield f"line {part.line}: `{key}` is no key: write `String`, a newtype with `key`, or a key by hand (docs/BY-HAND.md): {part.of}"


def check_params(it):
    """Refuses a parameter that has the name of its type, that no field names, or that is a map's key or in an array."""
    for at, name in enumerate(it.params):
        if plain(name) == plain(it.name):
            yield f"line {it.line}: inside `{it.name}` this name is the parameter's: give the parameter another name, as `T`"
        elif name in it.params[:at]:
            yield f"line {it.line}: `{it.name}` has two parameters `{name}`: call one otherwise"
        elif not any(re.search(rf"(?<![\w:]){name}\b", part.of) for part in it.parts):
            yield f"line {it.line}: no {part_word(it)} of `{it.name}` has a type with `{name}`: leave the parameter out"
        for part in it.parts:
            if re.search(rf"\b(?:BTreeMap|HashMap)<\s*{name}\b", part.of):
                yield f"line {part.line}: a map's key is no parameter, since not every type can be a key: write the key's type, as `String`: {part.of}"
            if re.search(rf"\[[^;\]]*(?<![\w:]){name}\b", part.of):
                yield f"line {part.line}: an array has no parameter in it, since its size must be known: write a `Vec`: {part.of}"


def check_field_name(name, written, line):
    """Refuses the name of a field that Rattle has no way to write. `written` is its name in JSON."""
    if name.startswith("r#") or name in KEYWORDS:
        raise Refused(f'line {line}: `{name}` is a word of the language: write `{name.removeprefix("r#")}_: T, // rename "{written}"`')
    if name in ("Err", "None", "Ok", "Some"):
        raise Refused(f'line {line}: no pattern can bind a field `{name}`, which is a variant of Rust\'s prelude: write `{name.lower()}: T, // rename "{written}"`')


def check_written(it):
    """Refuses two fields or variants of one JSON name, at the second."""
    seen, parts = {}, [part for part in it.parts if not part.rest]
    for part in parts:
        if part.written in seen:
            yield f'line {part.line}: `{part.name}` is "{part.written}" in JSON, and so is `{seen[part.written].name}` on line {seen[part.written].line}'
        seen.setdefault(part.written, part)
    for part in parts:
        for name in part.aliases:
            if name in seen:
                yield f'line {part.line}: "{name}" is a name of `{seen[name].name}` on line {seen[name].line}: leave the alias out'
            seen.setdefault(name, part)


def more_words(it):
    """The words and marks of a type that want the crate `miniserde_more`."""
    words = [word for word in ("untagged", "kinds") if word in it.words]
    return words + (["content"] if it.content is not None else []) + (["rest"] if any(part.rest for part in it.parts) else [])


def check_type_names(found):
    """Refuses types whose name is reserved, and two types of one name."""
    lines = {}
    for it in [each for each in found if not each.variant]:
        name = plain(it.name)
        if name in WORDS:
            yield f"line {it.line}: `{name}` is {WORDS[name]}: give the type another name; its JSON stays the same"
        elif name in lines:
            yield f"line {it.line}: line {lines[name]} has a type `{name}` too"
        lines[name] = it.line


def check_variant_name(name, written, line):
    """Refuses the name of a variant that is reserved. `written` is its name in JSON."""
    if name in KEYWORDS or name in ("Self", "tt"):
        raise Refused(f'line {line}: `{name}` is {WORDS[name]}: write `{name}_`, and `// rename "{written}"` behind it')


def check_cycles(found):
    """Refuses a type that contains itself, by whatever way. Of the types that contain one another the first is told."""
    inner = {it.name: [(part, name) for part in it.parts for name in re.findall(NAME, part.of)] for it in found}

    def reaches(name, aim, seen):
        if name == aim:
            return True
        if name in seen or name not in inner:
            return False
        return any(reaches(of, aim, seen | {name}) for _, of in inner[name])

    told = frozenset()
    for it in found:
        for part, name in inner[it.name]:
            if it.name not in told and reaches(name, it.name, told):
                told |= {it.name}
                yield f"line {part.line}: `{it.shown}` contains itself by `{part.name}`: keep the inner part as a `miniserde::json::Value`"


def part_word(it):
    """What the parts of a type are called."""
    return {"struct": "field", "newtype": "value"}.get(it.kind, "variant")


def check_values(part, bare, inside):
    """Refuses a variant with brackets and nothing in them, or with more values than a tuple; `inside` is the text in the brackets."""
    if inside is not None and not part.values and not part.fields:
        raise Refused(f"line {part.line}: a variant has no empty brackets: write `{part.name}`: {bare}")
    if len(part.values) > 6:
        raise Refused(f"line {part.line}: a variant has six values at most: name its fields, as `{part.name} {{ a: A, b: B, c: C }}`: {bare}")


def check_newtype(it, integer, bare):
    """Refuses a newtype with a check that no impl can be written for, and a key that is none."""
    of, line = it.parts[0].of, it.line
    scalar = integer.fullmatch(of) or of == "String"
    if "text" in it.words and ("key" in it.words or it.check):
        raise Refused(f"line {line}: a newtype that is written as a string is no key and has no check: {bare}")
    if "text" in it.words and it.params:
        raise Refused(f"line {line}: a newtype that is written as a string has no parameters: {bare}")
    if it.check and (it.params or it.parts[0].public):
        raise Refused(f"line {line}: a newtype with a check has no parameters, and its field is private: {bare}")
    if it.check and "events" in it.words and not scalar:
        raise Refused(f"line {line}: a newtype with a check has a place if it has an integer or a `String` in it: leave out `events`: {bare}")
    if "key" in it.words and not scalar and of not in ("bool", "char", *it.params):
        raise Refused(f"line {line}: a newtype that is a key has an integer, a `bool`, a `char`, a `String` or a parameter in it: {bare}")
    if of == "char" and (it.words != ("key",) or it.check):
        raise Refused(f"line {line}: a `char` is read as a key alone, so a newtype of it has the word `key` and no other: {bare}")
    if "key" in it.words and it.check and (of[0] == "i" or not scalar):
        raise Refused(f"line {line}: a key with a check is unsigned or a `String`: {bare}")


def check_inside(it, part, found, known):
    """Refuses a variant whose data cannot stand in one object with the tag: no struct, or one with a field of the tag's name."""
    fields, name = f"`{part.name} {{ name: Type }}`", part.of.split("<")[0]
    if len(part.values) >= 2 or part.of and not re.fullmatch(rf"{NAME}(?:<.*>)?", part.of):
        yield f"line {part.line}: beside a tag stand the members of a struct: write {fields}, or a struct with this field: {part.of}"
    elif name in it.params:
        yield f'line {part.line}: beside a tag stand the members of a struct, and one that stands for `{name}` may have a field "{it.tag}": write the struct itself, or leave out `tag`'
    elif part.of and (name not in known or name in found and found[name].kind != "struct"):
        yield f"line {part.line}: beside a tag stand the members of a struct, and `{name}` is none: write {fields}, or a struct with this field"
    for each in found[name].parts if name in found else []:
        if not each.rest and it.tag in (each.written, *each.aliases):
            yield f'line {each.line}: the tag of `{it.name}` is "{it.tag}" in JSON, and so is the field `{each.name}`: call one otherwise'


def check_foreign_marks(it):
    """Refuses marks that the type or its place does not know."""
    if not it.parts and not it.faulty:
        yield f"line {it.line}: `{it.name}` has no field or variant"
    if it.kind == "tagged" and "events" in it.words:
        yield f"line {it.line}: an enum with data has no place: leave out `events`"
    if it.kind == "tagged" and {"once", "closed"} & set(it.words):
        yield f"line {it.line}: `{it.name}` is no struct: write a struct that is `closed` or `once`, and a variant of it, as `Text(Text)`"
    if it.kind == "enum" and {"once", "closed"} & set(it.words):
        yield f"line {it.line}: `{it.name}` is no struct, and has no members that `once` or `closed` could speak of"
    if it.kind != "struct" and "inside" in it.words:
        yield f"line {it.line}: `{it.name}` is no struct, and cannot stand beside a tag: leave out `inside`"
    if "events" in it.words and it.params:
        yield f"line {it.line}: a place has no parameters: leave out `events`, or write `{it.name}` for the types that it is used with"
    if "events" in it.words and ("closed" in it.words or any(part.once or part.omit or part.default is not None or part.aliases for part in it.parts)):
        yield f"line {it.line}: `{it.name}` has marks that a place does not know: leave out `events`, `closed` or the fields' marks"


def names_beside(module, found, uses):
    """The names that a file defines, or imports from elsewhere than a module."""
    return {name for line in uses if re.match(rf"(pub )?use (?!{module}\b)", line) for name in re.findall(NAME, line)} | {it.name for it in found}


def check_places(found, uses):
    """Refuses a struct with a place around a type without one: a longer tuple, a queue, or a type of the same file."""
    without = {it.name: it for it in found if "events" not in it.words}
    foreign = names_beside("std::collections", found, uses)
    for it in found:
        for part in it.parts if "events" in it.words else []:
            if widest_tuple(part.of) > 2:
                yield f"line {part.line}: `{it.name}` has a place, and a tuple of three and more has none: leave out `events`, or write pairs: {part.of}"
            if "VecDeque" not in foreign and re.search(r"(?:(?<![\w:])|(?<=collections::))VecDeque\b", part.of):
                yield f"line {part.line}: `{it.name}` has a place, and a `VecDeque` has none: leave out `events`, or write a `Vec`: {part.of}"
            inner = sorted(without.keys() & set(re.findall(NAME, part.of)))
            if inner and without[inner[0]].kind == "tagged":
                yield f"line {part.line}: `{it.name}` has a place, and its field `{part.name}` is an enum with data, which has none: leave out `events`"
            elif inner and without[inner[0]].params:
                yield f"line {part.line}: `{it.name}` has a place, and its field `{part.name}` has parameters and so none: leave out `events`"
            elif inner:
                yield f"line {part.line}: `{it.name}` has a place, and its field `{part.name}` has none: mark `{inner[0]}` with `// events` too"


def with_word(found, word):
    """The fields of the types with a word."""
    return [part for it in found if word in it.words for part in it.parts]


def check_word(found, uses, word, reason):
    """Refuses fields of the types with a word that are documents, or of types of the file without the word: of a field the first such name."""
    plain = {it.name for it in found if word not in it.words}
    documents = {"Array", "Number", "Object", "Unique", "Value"} - names_beside("miniserde(?:_core)?::json", found, uses)
    for it in found:
        for part in it.parts if word in it.words else []:
            names = re.findall(rf"(?:(?<![\w:])|(?<=json::)){NAME}", part.of)
            name = next((each for each in names if each in documents | plain), "")
            if name in documents:
                yield f"line {part.line}: `{name}` is not {word}, since it {reason}: {part.of}"
            elif name:
                yield f"line {part.line}: `{it.shown}` is {word}, and its {part_word(it)} `{part.name}` is not: mark `{name}` with `// {word}` too"


def applied(of):
    """The types with parameters in a type: each name with what stands for its parameters."""
    for found in re.finditer(rf"({NAME})<", of):
        at, depth = found.end(), 1
        while depth:
            depth += (of[at] == "<") - (of[at] == ">")
            at += 1
        yield found.group(1), split_at_commas(of[found.end() : at - 1])


def inside_newtypes(of, types):
    """A type, or what a newtype of the file has in it in the end."""
    seen = set()
    while (name := of.split("<")[0]) in types and types[name].kind == "newtype" and name not in seen:
        seen.add(name)
        of = types[name].parts[0].of
    return of


def check_lossless(found, uses):
    """Refuses a `lossless` type with a field that is not, as an `Option` of an `Option`."""
    types = {it.name: it for it in found}
    reason = "tells what its text does not, as `-0` from `0`: write `miniserde::json::Document`, or leave out `lossless`"
    yield from check_word(found, uses, "lossless", reason)
    for part in with_word(found, "lossless"):
        if any(name == "Option" and inside_newtypes(given[0], types).startswith("Option<") for name, given in applied(part.of)):
            yield f"line {part.line}: an `Option` of an `Option` is not lossless, since `Some(None)` is written `null`: leave out `lossless`: {part.of}"


def check_stable(found, uses):
    """Refuses a `stable` type with a field that is not, as one with an alias or a map with integer keys."""
    types = {it.name: it for it in found}
    integer = "[ui](?:8|16|32|64|size)"
    numbers = [integer, *(it.name for it in found if it.kind == "newtype" and re.fullmatch(integer, inside_newtypes(it.name, types)))]
    yield from check_word(found, uses, "stable", "tells `-0` from `0`: write `miniserde::json::Document`")
    for part in with_word(found, "stable"):
        if part.aliases:
            yield f"line {part.line}: a struct with an alias is not stable, since sorting two names of a field changes which is the last: leave out `stable`"
        if re.search(rf"\b(?:BTreeMap|HashMap)<\s*(?:{'|'.join(numbers)})\b", part.of):
            yield f"line {part.line}: a map with integer keys is not stable, since `1` and `01` are one key: write `String` keys: {part.of}"
