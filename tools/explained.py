"""The tables of `./derive --explain`: what the texts of a type mean, and how its values are written.

They are made from the derived module (`derived_world`), and not from the file of types. So a list, a name or a `means` that is not what
the file of types says shows in a table, or is refused.
"""
import json
import re

from derived_enums import Enum
from derived_newtypes import Newtype
from derived_own import plain
from derived_structs import NO_VALUE, Struct
from derived_text import Type
from derived_world import DOCUMENTS, Named, World
from faults import Refused
from replaced import replace

INVALID = "invalid"
# What each page that is written says of itself.
WRITTEN_BY = "Written by `./derive --explain --write "
FORMS = {
    "unit": "A string: the name of a variant. Any other JSON is invalid.",
    "external": "A string or an object of one member, as the last column says. Any other JSON is invalid.",
    "internal": "An object. Its member {tag} names the variant, and is written first. The other members are those of the variant's data. "
    "If {tag} is duplicated, each must be a string, and the last one counts.",
    "adjacent": "An object. Its member {tag} names the variant, and is written first; its member {content} has the data. Members of other names are "
    "skipped. If {tag} or {content} is duplicated, each must be valid, and the last one counts.",
    "untagged": "The first variant whose data the JSON is valid for. It is written as its data.",
}


def code(text):
    """A text as code in a cell of a table."""
    text = str(text).replace("|", "\\|")
    return f"`` {text} ``" if "`" in text else f"`{text}`"


def named(name):
    """The name of a member as code, between quotes if it has other signs than names in code."""
    return code(name if re.fullmatch(r"\w[\w.-]*", name) else json.dumps(name, ensure_ascii=False))


def valued(value):
    """A default as code."""
    return code("None" if value is None else json.dumps(value, ensure_ascii=False))


def table(head, rows):
    """A table of Markdown."""
    return "\n".join(f"| {' | '.join(row)} |" for row in [head, ["---"] * len(head), *rows]).replace(" --- ", "---").replace("| ---", "|---")


class Words:
    """The cells on one type: which value a missing member and `null` give."""

    def __init__(self, world, path, params):
        self.world, self.path, self.params = world, path, {it: Type(it) for it in params}

    def resolved(self, of):
        """A type of the module with its names resolved."""
        return self.world.resolved(of, self.path, self.params)

    def tag_of(self, of):
        """The name of the member that has the tag of an enum."""
        named_type = self.resolved(of)
        return self.world.model(named_type.module, named_type.name).tag

    def of_named(self, of, word):
        """What a type of a derived module says: `missing` or `null`, as `word`."""
        if not self.world.is_derived(of.module):
            return f"as {code(of)} says, which is written by hand"
        model, given = self.world.given_to(of)
        if isinstance(model, Enum) and model.form == "untagged" and word is self.null:
            return self.untagged(model, of, given)
        if not isinstance(model, Newtype) or model.is_text or word is self.missing and not model.may_be_missing:
            return INVALID
        inner = word(self.world.resolved(model.of, of.module, given))
        if inner != INVALID and model.check:
            return f"{inner}, if the check of {code(of.name)} accepts it"
        return inner

    def untagged(self, model, of, given):
        """The variant of an untagged enum that `null` is."""
        for variant in model.variants:
            data = self.world.resolved(variant.of or Type("()"), of.module, given)
            if self.null(data) != INVALID:
                return code(f"{model.name}::{variant.name}")
        return INVALID

    def missing(self, of):
        """What a missing member of a type gives."""
        if isinstance(of, Named):
            return self.of_named(of, self.missing)
        if of.name in self.params:
            return f"as {code(of)} says"
        return code("None") if of.name == "Option" else INVALID

    def null(self, of):
        """What `null` gives for a type."""
        if isinstance(of, Named):
            return self.of_named(of, self.null)
        if of.name in self.params:
            return f"as {code(of)} says"
        if of.name == "Box":
            return self.null(of.args[0])
        if of.name in DOCUMENTS - {"Number", "Array", "Object"}:
            return code("null")
        return code("None") if of.name == "Option" else code("()") if of == Type("()") else INVALID


def struct_lines(words, it):
    """The lines of a struct."""
    rows = []
    for member in it.members:
        slot, of = member.slot, words.resolved(member.slot.of)
        name = ", or ".join([named(member.name), *map(named, member.aliases)]) + (f" (field {code(member.field)})" if member.field != member.name else "")
        missing = words.missing(of) if slot.given is NO_VALUE else valued(slot.given)
        written = f"as {named(member.written)}, " * (member.written != member.name)
        written += "unless `None`" if slot.omit else "always" + "; `None` as `null`" * (slot.of.name == "Option")
        rows.append([name, code(slot.of), missing, INVALID if slot.once else "the last one counts", words.null(of), written])
    others = "are invalid" if it.closed else "are skipped"
    if it.rest:
        others = f"are kept in the field {code(it.rest[0])}, each a {code(it.rest[1])}, and are written behind the others, in byte order of their names"
        others += "".join(f"; one named {named(words.tag_of(each))}, as the tag of {code(each)}, is skipped" for each in it.left_out)
    lines = [f"An object. Members of other names {others}. Each duplicate of a member must be valid. The members are written in the order of the rows."]
    if it.looked_into is not None:
        into = ", ".join(map(code, it.looked_into))
        lines.append(f"`wrong_field` looks for each field{f', and leads into {into}' if into else ''}.")
    return [*lines, table(["member", "type", "missing", "duplicate", "`null`", "written"], rows)]


def enum_lines(words, it):
    """The lines of an enum."""
    tag = named(it.tag) if it.tag is not None else ""
    content = named(it.content) if it.content is not None else ""
    heads = {
        "unit": ["variant", "JSON"],
        "external": ["variant", "data", "JSON"],
        "internal": ["variant", tag, "other members"],
        "adjacent": ["variant", tag, content],
        "untagged": ["variant", "data"],
    }
    rows = [[code(each.name), *cells_of(words, it, each)] for each in it.variants]
    return [FORMS[it.form].format(tag=tag, content=content), table(heads[it.form], rows)]


def cells_of(words, it, variant):
    """The cells of a variant behind its name."""
    name = json.dumps(variant.written, ensure_ascii=False) if variant.written is not None else ""
    data = code(variant.of) if variant.of else "none"
    if it.form == "unit":
        return [code(name)]
    if it.form == "external":
        return [data, code(f"{{{name}: {variant.of}}}" if variant.of else name)]
    if it.form == "internal":
        return [code(name), f"those of {data}" if variant.of else "any; they are skipped"]
    if it.form == "untagged":
        return [data if variant.of else "`null`"]
    missing = words.missing(words.resolved(variant.of)) if variant.of else ""
    return [code(name), f"{data}; missing: {missing}; `null`: {words.null(words.resolved(variant.of))}" if variant.of else "any; it is skipped, and not written"]


def newtype_lines(words, it):
    """The lines of a newtype."""
    if not it.is_value:
        return [f"A map's key, read and written as a {code(it.of)}. It is not read as a value."]
    if it.is_text:
        return ["A string, which its `TextValue` parses and writes. A text that it does not parse is invalid, and so are a missing member and `null`."]
    of = words.resolved(it.of)
    missing = words.missing(of) if it.may_be_missing else INVALID
    key = "read and written as its value" if it.is_key else "none"
    row = [code(it.of), f"the values that {' of '.join(map(code, it.check.split(' of ')))} accepts" if it.check else "all values", missing, words.null(of), key]
    return ["Read and written as its value.", table(["value", "accepted", "missing", "`null`", "as a map's key"], [row])]


def section(world, path, name):
    """The section of a page on one type."""
    it = world.model(path, name)
    words = Words(world, path, it.params)
    lines = {Struct: struct_lines, Enum: enum_lines, Newtype: newtype_lines}[type(it)](words, it)
    if isinstance(it, Enum) and it.form == "internal":
        check_tag(world, path, it)
    return plain("\n\n".join([f"## {code(f'{name}<' + ', '.join(it.params) + '>' if it.params else name)}", *lines]))


def check_tag(world, path, it):
    """Refuses an enum with a variant whose struct has a member of the tag's name, which would never be read."""
    for variant in it.variants:
        named_type = variant.of and world.resolved(variant.of, path, {each: Type(each) for each in it.params})
        data = world.given_to(named_type)[0] if isinstance(named_type, Named) and world.is_derived(named_type.module) else None
        if isinstance(data, Struct) and it.tag in [name for member in data.members for name in (member.name, *member.aliases)]:
            world.module(path).refuse(0, f"`{data.name}` has a member of the name of the tag, `{it.tag}`")
        if data is not None and not isinstance(data, Struct):
            world.module(path).refuse(0, f"the data of `{it.name}::{variant.name}` are not a struct")


def page(world, path):
    """The page of a module."""
    head = f"# The types of `{'::'.join(path)}`\n\n{WRITTEN_BY}{path[0]}` from `{world.module(path).name}`."
    return "\n\n".join([head, *(section(world, path, name) for name in world.types_in(path))]) + "\n"


def explained(root, crate, name=None):
    """The tables of a crate's types, or of the types of one name."""
    world = World(root)
    paths = world.paths_of(crate)
    if name is None:
        return "\n".join(page(world, path) for path in paths)
    found = [section(world, path, name) for path in paths if name in world.types_in(path)]
    if not found:
        raise Refused(f"crates/{crate} has no derived type `{name}`: it has {', '.join(it for path in paths for it in world.types_in(path))}")
    return "\n\n".join(found) + "\n"


def is_written(file):
    """Returns whether a page is one of those that are written here, by its third line."""
    return "".join(file.read_text(errors="replace").splitlines()[2:3]).startswith(WRITTEN_BY)


def write_pages(root, crate):
    """Writes the page of each file of types of a crate beside it. Returns the files that it wrote."""
    world = World(root)
    pages = {world.root / "crates" / crate / "types" / f"{path[-1]}.md": page(world, path) for path in world.paths_of(crate)}
    for file in pages:
        if file.is_symlink() or file.exists() and not is_written(file):
            raise Refused(f"{file.relative_to(world.root)} is a link, or was not written by `./derive --explain --write`: rename it")
    return [replace(file, text.encode()) for file, text in pages.items()]


def stale_pages(root):
    """Yields a fault for each page beside a file of types that differs from what the derived module says."""
    world = World(root)
    for file in sorted(world.root.glob("crates/*/types/*.md")):
        path, shown = (file.parent.parent.name, file.stem), file.relative_to(world.root)
        if not is_written(file):
            continue
        if not file.with_suffix(".rs").exists():
            yield f"{shown}: there is no {file.stem}.rs beside it: delete it"
            continue
        wanted, lines = page(world, path), file.read_text()
        if wanted != lines:
            new, old = ([*set(one.splitlines()) - set(other.splitlines())] for one, other in ((wanted, lines), (lines, wanted)))
            yield "\n".join([f"{shown} is not what {world.module(path).name} says: `./derive --explain --write {path[0]}` writes it again",
                             *(f"  page:    {it}" for it in sorted(old)), *(f"  derived: {it}" for it in sorted(new))])
