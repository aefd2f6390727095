"""The models of the types of derived modules, across the crates of a repository."""
import pathlib
import re
from dataclasses import dataclass

from derived_enums import enum_of, unit_of
from derived_module import OF_RUST, Module
from derived_newtypes import newtype_of
from derived_own import MARK, plain
from derived_structs import struct_of
from derived_text import Type
from faults import Refused

# The library's types of documents, and std's containers, by the paths that bring them.
DOCUMENTS = set("Value Unique Document Number Array Object".split())
CONTAINERS = set("BTreeMap HashMap VecDeque".split())


@dataclass(frozen=True)
class Named:
    """A type of a derived module, with its arguments resolved."""

    module: tuple
    name: str
    args: tuple

    def __str__(self):
        return f"{self.name}<{', '.join(map(str, self.args))}>" if self.args else self.name


class World:
    """The derived modules of a repository, read when they are asked for."""

    def __init__(self, root, changed=None):
        self.root, self.changed, self.modules, self.models = pathlib.Path(root), changed or {}, {}, {}

    def file_of(self, path):
        """The file of a module."""
        return self.root / "crates" / path[0] / "src" / ("/".join(path[1:]) + ".rt")

    def is_derived(self, path):
        """Whether a module is derived: it has a file of types."""
        return len(path) == 2 and (self.root / "crates" / path[0] / "types" / f"{path[1]}.rs").is_file()

    def module(self, path):
        """The module at a path of a crate and modules."""
        path = tuple(path)
        if path not in self.modules:
            file = self.file_of(path)
            name = str(file.relative_to(self.root))
            if name not in self.changed and not file.is_file():
                raise Refused(f"{name} is missing: `./derive {path[0]}` writes it, if it is derived")
            self.modules[path] = Module(self.changed.get(name) or file.read_text(), name, path)
        return self.modules[path]

    def model(self, path, name):
        """The model of a type of a module."""
        key = (tuple(path), name)
        if key not in self.models:
            module = self.module(path)
            name = name if name in module.shapes else name + MARK
            if name not in module.shapes:
                raise Refused(f"{module.name}: there is no type `{name}`")
            self.models[key] = self.read(module, module.shapes[name])
        return self.models[key]

    def read(self, module, shape):
        """The model of a shape, by its kind."""
        if module.has("Record", shape.name):
            return struct_of(module, shape)
        if shape.variants is None:
            return newtype_of(module, shape)
        return unit_of(module, shape) if module.has("UnitEnum", shape.name) else enum_of(module, shape)

    def types_in(self, path):
        """The names of the types of a module that JSON is read as: not those of defaults and places."""
        module = self.module(path)
        return [plain(name) for name, it in module.shapes.items() if not module.has("Given", name) and not module.has("Visitor", name)]

    def paths_of(self, crate):
        """The paths of the derived modules of a crate, by its files of types."""
        files = sorted(self.root.glob(f"crates/{crate}/types/*.rs"))
        if not files:
            raise Refused(f"crates/{crate}/types has no file .rs")
        return [(crate, it.stem) for it in files]

    def resolved(self, of, path, given=None):
        """A type of a module with its names resolved: `Named` for a type of a derived module, and else a `Type`. `given` has the parameters' types."""
        if given and of.name in given and not of.args:
            return given[of.name]
        module = self.module(path)
        args = tuple(self.resolved(it, path, given) if not it.name.isdecimal() else it for it in of.args)
        name = of.name.split("::")[-1]
        if of.name in module.shapes:
            return Named(tuple(path), plain(of.name), args)
        used = module.uses.get(of.name, of.name)
        parts = used.split("::")
        if of.name in ("()", "[]") or of.name in OF_RUST and of.name not in module.uses:
            return Type(of.name, args)
        if name in DOCUMENTS and re.fullmatch(r"miniserde(_core)?::json::(value::)?\w+", used):
            return Type(name, args)
        if name in CONTAINERS and re.fullmatch(r"std::collections::\w+", used):
            return Type(name, args)
        if len(parts) < 3:
            module.refuse(0, f"a type that this reader does not know: `{of}` ({used})")
        return Named((path[0] if parts[0] == "crate" else parts[0], *parts[1:-1]), plain(parts[-1]), args)

    def given_to(self, named):
        """The model of a named type, and the types of its parameters."""
        model = self.model(named.module, named.name)
        if len(model.params) != len(named.args):
            raise Refused(f"`{named.name}` has {len(model.params)} parameters: {named}")
        return model, dict(zip(model.params, named.args))


