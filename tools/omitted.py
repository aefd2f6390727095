"""Fields that are not written if they are `None`: what `./derive` refuses, and which types must not be written as `null`."""
import re

from refusals import NAME, applied, inside_newtypes


def inner_of(part):
    """The type in the `Option` of a field."""
    return part.of.removeprefix("Option<").removesuffix(">")


def unboxed(of):
    """A type without the boxes around it."""
    while of.startswith("Box<"):
        of = of.removeprefix("Box<").removesuffix(">")
    return of


def check_omitted(found, uses):
    """Refuses `omit` where there is no `None`, or where what is not `None` may be written as `null`."""
    own = {name for line in uses if "miniserde::json" not in line for name in re.findall(NAME, line)} | {it.name for it in found}
    types = {it.name: it for it in found}
    for it in found:
        for part in it.parts:
            if not part.omit:
                continue
            if not re.fullmatch(r"Option<.+>", part.of):
                yield f"line {part.line}: `omit` leaves out `None`: mark an `Option`: {part.of}"
            elif part.default is not None:
                yield f"line {part.line}: a field that is left out is read as `None`: leave out `default`: {part.of}"
            inner = unboxed(inside_newtypes(unboxed(inner_of(part)), types)).removeprefix("miniserde::json::")
            if inner == "()" or re.match(r"\w*", inner).group() in {"Option", *({"Document", "Unique", "Value"} - own)}:
                yield f"line {part.line}: `omit` marks an `Option` of what is never `null`, else `Some` of that is read as `None`: leave it out: {part.of}"


def asked_of(part, types):
    """The types of which a field needs that they are never `null`."""
    if part.omit and part.of.startswith("Option<"):
        yield unboxed(inner_of(part))
    for name, given in applied(part.of):
        if name in types:
            yield from (unboxed(of) for param, of in zip(types[name].params, given) if param in types[name].bounded)


def mark(it, of, types):
    """Marks a type that must not be `null`, or a parameter of the type that has it. A newtype is so if its value is."""
    name = re.match(r"\w*", of).group()
    if name in it.params:
        it.bounded.add(name)
    elif name in types:
        types[name].never_null = True
        if types[name].kind == "newtype":
            given = dict(zip(types[name].params, next((given for each, given in applied(of) if each == name), [])))
            mark(it, unboxed(re.sub(NAME, lambda found: given.get(found.group(), found.group()), types[name].parts[0].of)), types)


def mark_never_null(found):
    """Marks the types and parameters that stand in an `Option` that may be left out, also by the types between."""
    types = {it.name: it for it in found}
    for it in found * len(found):
        for part in it.parts:
            for of in asked_of(part, types):
                mark(it, of, types)
