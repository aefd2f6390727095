"""The sources of the crates: their modules, items and impls, read by the layout of `rt fmt`."""

import re
from dataclasses import dataclass, field

import rattle
from rattle import ROOT

# The crate whose paths users know.
USER = "miniserde"


class Refused(Exception):
    """A page or a source that can't be taken."""


@dataclass
class Piece:
    """An item or a member: its lines, and the comments and attributes right above it."""

    above: list
    lines: list


@dataclass(eq=False)
class Module:
    """A module: its names, each with whether it is public, and the words that its clauses bring in."""

    path: list
    parent: "Module"
    names: dict = field(default_factory=dict)
    imports: list = field(default_factory=list)


@dataclass(eq=False)
class Item:
    """A function, a type or a trait; the impls for a type; and its paths for a user."""

    kind: str
    name: str
    public: bool
    piece: Piece
    module: Module
    order: int
    impls: list = field(default_factory=list)
    paths: list = field(default_factory=list)

    def origin(self):
        return "::".join([*self.module.path, self.name])

    def path(self):
        """The path that it is listed by: at the root where it has one there, and else its longest."""
        return min(self.paths, key=lambda path: ("derived" in path, len(path) > 2, -len(path), path))


@dataclass(eq=False)
class Impl:
    """An impl: its generics, its trait (none: inherent), and its type with what stands behind that."""

    generics: str
    trait: str
    target: str
    piece: Piece
    module: Module


# ---- reading a file

STARTS = re.compile(r"(pub|fn|impl|trait|struct|enum|type|mod|use|ghost|const|static|final)\b")
NAMED = re.compile(r"(pub(?:\([a-z ]+\))? )?(?:final )?(?:unsafe )?(fn|trait|struct|enum|type|mod|const|static) (\w+)")
USED = re.compile(r"(pub(?:\([a-z ]+\))? )?use (.*);$")
SPECS_USED = re.compile(r"(?:pub |ghost )?use Rattle\.(\w+)\.specs\.([\w.]+?)(?:\.\{(.*)\}| as (\w+))?;?$")
STRING = re.compile(r'"(?:[^"\\]|\\.)*"')


def pieces_of(lines):
    """The items or members at the left edge of these lines."""
    found, above, now = [], [], None
    for line in lines:
        if line.startswith(("//", "#")):
            above, now = [*above, line], None
        elif STARTS.match(line):
            now = Piece(above, [line])
            found, above = [*found, now], []
        elif now:
            now.lines.append(line)
        elif not line:
            above = []
    for piece in found:
        while not piece.lines[-1]:
            piece.lines.pop()
    return found


def dedented(lines):
    return [line.removeprefix("    ") for line in lines]


def block_of(piece):
    """The head of an impl, a trait or a type in one line, and its members."""
    at = next((at for at, line in enumerate(piece.lines) if line.endswith(("{", "{}"))), None)
    if at is None:
        return " ".join(piece.lines), []
    head = " ".join(line.strip() for line in piece.lines[: at + 1])
    return head.removesuffix("}").removesuffix("{").strip(), dedented(piece.lines[at + 1 : -1])


def head_of(lines):
    """A function without its body: its signature and its clauses."""
    found, depth = [], 0
    for line in lines:
        bare = STRING.sub("", line.split("//")[0])
        if line in ("{", "{}"):
            return found
        if not line.startswith(" ") and bare.endswith((" {", " {}")):
            return [*found, line[: line.rindex(" {")]]
        found.append(line)
        depth += sum(bare.count(c) for c in "([{") - sum(bare.count(c) for c in ")]}")
        if depth == 0 and bare.endswith(";"):
            return found
    raise Refused(f"no body and no end: {lines[0]}")


# Functions, and what `head_of` takes of each: up to its body, also where that is empty.
HEADS = (
    (["fn f()", "    ensures { x ≡ 1 }", "{}", "", "fn g() {"], 2),
    (["fn f()", "    ensures { x ≡ 1 }", "{", "    1", "}"], 2),
    (["fn f(x: u8) -> u8 {", "    x", "}"], 1),
    (["fn f(", "    x: u8,", ") -> u8", "    ensures { result ≡ x };", "", "fn g();"], 4),
)


def check_heads():
    for lines, count in HEADS:
        wanted = [line.removesuffix(" {") for line in lines[:count]]
        if head_of(lines) != wanted:
            raise Refused(f"head_of takes {head_of(lines)} of {lines}, where {wanted} is right")


def uses_in(text):
    """The names that a `use` brings in, each with its path."""
    if "{" not in text:
        path, _, name = text.strip().partition(" as ")
        parts = path.removesuffix("::self").split("::")
        return [(name or parts[-1], parts)]
    at = text.index("{")
    front, found, depth, part = text[:at].strip(), [], 0, ""
    for c in text[at + 1 : text.rindex("}")] + ",":
        depth += (c == "{") - (c == "}")
        if c == "," and depth == 0:
            found += uses_in(front + part.strip()) if part.strip() else []
            part = ""
        else:
            part += c
    return found


def impl_of(piece, module):
    """The parts of an impl's head."""
    rest, generics = re.sub(r",\s+>", ">", re.sub(r"<\s+", "<", block_of(piece)[0])).removeprefix("impl").strip(), ""
    if rest.startswith("<"):
        depths = [rest[: at + 1].count("<") - rest[: at + 1].count(">") for at in range(len(rest))]
        generics, rest = rest[1 : depths.index(0)], rest[depths.index(0) + 1 :].strip()
    trait, between, target = rest.partition(" for ")
    return Impl(generics, trait if between else "", target if between else rest, piece, module)


def uses_of(pieces):
    """The lines by which clauses bring in words."""
    return [" ".join(line.strip() for line in piece.lines) for piece in pieces if piece.lines[0].startswith("ghost use ")]


def named_in(text):
    """The path at the front of a type or a trait: of `&'a mut json::Array`, json and Array."""
    found = re.match(r"(?:&\s*(?:'\w+\s+)?(?:mut\s+)?)*([\w:]+)", text)
    return found.group(1).split("::") if found else [""]


# ---- reading the crates


def named_again():
    """Returns the files of definitions that `miniserde` names again, by their names there: each a crate and a file."""
    lines = (ROOT / "crates" / USER / "specs/Lib.antt").read_text().splitlines()
    found = filter(None, map(SPECS_USED.match, lines))
    return {it[4] or it[2].split(".")[-1]: (it[1], it[2]) for it in found}


class Sources:
    """The modules of all crates, with their items and impls."""

    def __init__(self):
        self.crates, self.items, self.impls = {}, [], []
        for name in rattle.crates():
            folder = ROOT / "crates" / name / "src"
            files = [file for file in (folder / "lib.rt", folder / "main.rt") if file.exists()]
            if not files:
                raise Refused(f"crates.txt names {name}, and crates/{name}/src has no lib.rt and no main.rt")
            self.crates[name] = self.module([name], None, folder, files[0].read_text().splitlines())
        for impl in self.impls:
            item = self.found(impl.module, named_in(impl.target))
            if isinstance(item, Item):
                item.impls.append(impl)
        self.walk(self.crates[USER], [USER])

    def module(self, path, parent, folder, lines):
        module = Module(path, parent)
        mods = []
        for piece in pieces_of(lines):
            mods += self.take(piece, module)
        for piece, public, name in mods:
            inside, file = dedented(piece.lines[1:-1]), folder / f"{name}.rt"
            inside = inside if piece.lines[0].endswith("{") else file.read_text().splitlines()
            module.names[name] = (public, self.module([*path, name], module, folder / name, inside))
        return module

    def take(self, piece, module):
        """Notes an item; of a module, answers what is still to be read."""
        first, whole = piece.lines[0], " ".join(line.strip() for line in piece.lines)
        used, named = USED.match(whole), NAMED.match(first)
        if first.startswith("ghost use "):
            module.imports.append(whole)
        elif used:
            for name, path in uses_in(used.group(2)):
                module.names.setdefault(name, (used.group(1) == "pub ", path))
        elif first.startswith("impl"):
            self.impls.append(impl_of(piece, module))
        elif named and "#[cfg(test)]" not in piece.above:
            public, kind, name = named.group(1) == "pub ", named.group(2), named.group(3)
            if kind == "mod":
                return [(piece, public, name)]
            item = Item(kind, name, public, piece, module, len(self.items))
            self.items.append(item)
            module.names[name] = (public, item)
        return []

    def found(self, module, path, beside=""):
        """The item or module that a path names from a module, if it is one of these crates."""
        now, rest = {"crate": self.crates[module.path[0]], "self": module, "super": module.parent}.get(path[0]), path[1:]
        if not now:
            inside = path[0] in module.names and path[0] != beside
            now = self.named(module, path[0]) if inside else self.crates.get(path[0])
        for name in rest:
            if not isinstance(now, Module):
                return None
            now = now.parent if name == "super" else self.named(now, name)
        return now

    def named(self, module, name):
        thing = module.names.get(name, (False, None))[1]
        return self.found(module, thing, name) if isinstance(thing, list) else thing

    def walk(self, module, path):
        """Notes the paths of all that a user can name below a module."""
        for name, (public, _) in module.names.items():
            thing = self.named(module, name) if public else None
            if isinstance(thing, Module):
                self.walk(thing, [*path, name])
            elif thing:
                thing.paths.append([*path, name])


def functions_of(lines):
    """Yields the functions of a file, those of its impls, traits and modules too."""
    for piece in pieces_of(lines):
        if NAMED.match(piece.lines[0]) and NAMED.match(piece.lines[0]).group(2) == "fn":
            yield piece
        elif re.match(r"(pub )?(impl|trait|mod)\b", piece.lines[0]) and len(piece.lines) > 1:
            yield from functions_of(block_of(piece)[1])
