"""The kinds of JSON values that a type is read from, as an untagged enum asks for them: what `./derive` refuses, and the impl
that says them."""
import re

from impls import impl_of, quoted, typed
from plain import plain
from refusals import NAME, applied, split_at_commas

# The kinds, in the order of the trees that `by_tree` goes by; a number is one of three trees.
TREES = "null boolean number number number string array object".split()
# The type of each kind.
SETS = {each: f"{each.capitalize()}Kind" for each in TREES}
# The types of std and of documents that are of one kind, and the documents of any.
OF = {
    "number": "u8 u16 u32 u64 usize i8 i16 i32 i64 isize Number",
    "boolean": "bool",
    "string": "String",
    "array": "Vec VecDeque Array",
    "object": "BTreeMap HashMap Object",
}
KIND_OF = {name: kind for kind, names in OF.items() for name in names.split()}
ANY = ("Value", "Unique", "Document")


def kinds_of(of, types):
    """The kinds of a type, `{"any"}` for a document that may be of each, and None for a parameter or a type of another file."""
    name = re.match(r"(?:\w+::)*(\w*)", of)[1]
    if of == "()":
        return {"null"}
    if of[:1] in "([":
        return {"array"}
    if name in types:
        return kinds_of_type(types[name], types)
    if name in ("Option", "Box"):
        inner = kinds_of(next(given[0] for each, given in applied(of) if each == name), types)
        return inner if inner is None or name == "Box" else inner | {"null"}
    if name in ANY:
        return {"any"}
    return {KIND_OF[name]} if name in KIND_OF else None


def kinds_of_type(it, types):
    """The kinds of a type of the file."""
    if it.kind == "struct" or it.tag is not None:
        return {"object"}
    if it.kind == "enum" or it.kind == "newtype" and "text" in it.words:
        return {"string"}
    if it.kind == "newtype":
        return kinds_of(it.parts[0].of, types)
    if "untagged" in it.words:
        each = [kinds_of(part.of or "()", types) for part in it.parts]
        return None if None in each else set().union(*each)
    # Of an externally tagged enum: the name of a variant, or an object of one member. Which names have data is not looked at.
    return {"string", "object"}


def check_adjacent(found):
    """Refuses a variant with named fields of an enum whose data stands in one member beside the tag."""
    for it in found:
        for part in it.parts if it.content is not None else []:
            if part.fields:
                yield f"line {part.line}: the data of `{part.name}` stands in one member beside the tag: write a struct of these fields, and `{part.name}(Struct)`"


def check_untagged(found):
    """Refuses an untagged enum of which two variants may be of one kind, and what it has no use for."""
    types = {it.name: it for it in found}
    for it in found:
        if "kinds" in it.words and it.parts[:1] and it.parts[0].of not in it.params and kinds_of_type(it, types) in (None, {"any"}):
            yield f"line {it.line}: which kinds `{it.name}` is read from cannot be told here: write a struct around it, or leave out `untagged`: {it.parts[0].of}"
        if "untagged" not in it.words:
            continue
        if it.kind == "struct":
            yield f"line {it.line}: `{it.name}` is no enum: leave out `untagged`"
            continue
        if it.tag is not None:
            yield f"line {it.line}: `{it.name}` has a tag, or is untagged: leave out one of the two"
        if it.style:
            yield f"line {it.line}: the variants of `{it.name}` have no names in JSON: leave out `rename_all`"
        seen = {}
        for part in it.parts:
            if part.written != plain(part.name) and not it.style:
                yield f"line {part.line}: a variant of an untagged enum has no name in JSON: leave out `rename`: {part.name}"
            kinds = kinds_of(part.of or "()", types)
            if part.of.split("<")[0] in it.params:
                yield f"line {part.line}: which kind `{part.of}` is cannot be told, so nothing tells it from the other variants: write the type itself, or leave out `untagged`"
            elif kinds == {"any"} and len(it.parts) > 1:
                yield f"line {part.line}: `{part.of}` may be of each kind, so nothing tells it from the other variants: leave out `untagged`, or keep the whole as a `Value`"
            for kind in sorted(kinds or ()):
                if kind in seen:
                    word = {"null": "`null`", "array": "an array", "object": "an object"}.get(kind, f"a {kind}")
                    yield f"line {part.line}: `{part.name}` may be {word}, and so may `{seen[kind].name}` on line {seen[kind].line}: an untagged enum tells its variants apart by the kind: leave out `untagged`, or tell them by a `tag`"
                seen.setdefault(kind, part)


def mark_kinds(found):
    """Marks the types of the file that are data of an untagged enum of the file, and the untagged enums that may be `null`."""
    types = {it.name: it for it in found}
    for it in found:
        each = kinds_of_type(it, types) if "untagged" in it.words else set()
        it.may_be_null = each is None or "null" in each
    for it in found * len(found):
        asked = "untagged" in it.words or it.kind == "newtype" and "kinds" in it.words
        for part in it.parts if asked else []:
            inner = part.of
            while inner.startswith(("Option<", "Box<")):
                inner = inner.partition("<")[2].removesuffix(">")
            name = re.match(r"\w*", inner).group()
            if name in types and "kinds" not in types[name].words:
                types[name].words += ("kinds",)


def set_of(kinds):
    """The type of a set of kinds."""
    names = [SETS[each] for each in dict.fromkeys(TREES) if each in kinds]
    text = names[-1]
    for name in names[-2::-1]:
        text = f"EitherKind<{name}, {text}>"
    return text


def kinds_text(it, types):
    """The impl that says which kinds a type is read from."""
    if "kinds" not in it.words:
        return ""
    of = it.parts[0].of if it.kind == "newtype" else ""
    if of in it.params:
        bound, kinds, only = "HasKinds", f"{of}::Kinds", f"{quoted(of)}.only"
    else:
        found = kinds_of_type(it, types)
        each = ["tt" if kind in found else "refl" for kind in TREES]
        bound, kinds, only = "FromJson", set_of(found), " ".join(["by_tree _ _", each[0], *(f"(λ _. {word})" for word in each[1:])])
    return f"""
{impl_of(it, bound)} HasKinds for {typed(it)} {{
    type Kinds = {kinds};

    ghost only = {{ {only} }};
}}
"""
