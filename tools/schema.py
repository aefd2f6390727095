"""The JSON Schema of a derived type (draft 2020-12), for `./derive --schema`.

It is made from the derived module, by the reader that `./derive --explain` has. What a schema cannot say is in a `$comment`, or on
the page (docs/YOUR-OWN-TYPES.md, "A type explained").
"""
import json
import re

from derived_enums import Enum
from derived_newtypes import Newtype
from derived_own import plain
from derived_structs import INTEGERS, NO_VALUE, Struct
from derived_text import Type, type_in
from derived_world import OF_RUST, Named, World
from explained import check_tag
from faults import Refused

DRAFT = "https://json-schema.org/draft/2020-12/schema"
PLAIN = {"bool": {"type": "boolean"}, "String": {"type": "string"}, "Number": {"type": "number"}, "Array": {"type": "array"}, "Object": {"type": "object"}}


def bounds_of(of):
    """The least and the largest value of an integer type."""
    bits = 64 if of.endswith("size") else int(of[1:])
    return (0, 2**bits - 1) if of[0] == "u" else (-(2 ** (bits - 1)), 2 ** (bits - 1) - 1)


def digits(least, most, count=0):
    """A pattern of a digit in a range, with that many more digits behind it."""
    first = str(most) if least == most else f"[{least}-{most}]"
    return first + (f"[0-9]{{{count}}}" if count > 1 else "[0-9]" * count)


def digits_to(most):
    """A pattern of the numbers from 0 to the largest in decimal, without leading zeros."""
    text = str(most)
    last = len(text) - 1
    forms = [digits(0, 9), *(digits(1, 9, length) for length in range(1, last))]
    for at, digit in enumerate(map(int, text)):
        least = 1 if at == 0 else 0
        if digit > least:
            forms.append(text[:at] + digits(least, digit - 1, last - at))
    return "|".join([*forms, text])


def key_pattern(of):
    """A pattern of the names that are read as an integer key: a sign or none, and any zeros in front."""
    least, most = bounds_of(of)
    positive = rf"\+?0*({digits_to(most)})"
    return f"^({positive}|-0*({digits_to(-least)}))$" if least else f"^{positive}$"


class Schemas:
    """The schemas of types, and the definitions of those that have names."""

    def __init__(self, world):
        self.world, self.definitions, self.names = world, {}, {}

    def of(self, of):
        """The schema of a type whose names are resolved."""
        if isinstance(of, Named):
            return self.reference(of)
        if of.name in INTEGERS:
            least, most = bounds_of(of.name)
            return {"type": "integer", "minimum": least, "maximum": most}
        if of.name in PLAIN:
            return dict(PLAIN[of.name])
        if of == Type("()"):
            return {"type": "null"}
        if of.name in ("Value", "Document"):
            return {}
        if of.name == "Unique":
            return {"$comment": "names: no object has a name twice"}
        if of.name == "Option":
            return self.or_null(self.of(of.args[0]))
        if of.name == "Box":
            return self.of(of.args[0])
        return self.of_container(of)

    def or_null(self, schema):
        """The schema of what another one takes, or of `null`."""
        if not {*schema} - {"$comment"}:
            return schema
        if schema.get("type") == "null" or isinstance(schema.get("type"), list):
            return schema
        if isinstance(schema.get("type"), str) and "enum" not in schema:
            return {**schema, "type": [schema["type"], "null"]}
        return {"anyOf": [schema, {"type": "null"}]}

    def of_container(self, of):
        """The schema of a list, an array, a tuple or a map."""
        if of.name in ("Vec", "VecDeque"):
            return {"type": "array", "items": self.of(of.args[0])}
        if of.name == "[]":
            count = int(of.args[1].name)
            return {"type": "array", "items": self.of(of.args[0]), "minItems": count, "maxItems": count}
        if of.name == "()":
            return {"type": "array", "prefixItems": [self.of(it) for it in of.args], "items": False, "minItems": len(of.args)}
        if of.name in ("BTreeMap", "HashMap"):
            key = self.key(of.args[0])
            return {"type": "object", **({"propertyNames": key} if key else {}), "additionalProperties": self.of(of.args[1])}
        raise Refused(f"a type that has no schema: {of}")

    def key(self, of):
        """The schema of the names that are read as a key, empty for any name."""
        if isinstance(of, Named):
            model, given = self.world.given_to(of)
            if not isinstance(model, Newtype) or not model.is_key:
                raise Refused(f"`{of}` is not a map's key")
            inner, own = self.key(self.world.resolved(model.of, of.module, given)), self.check_of(model)
            comments = "; ".join(it["$comment"] for it in (own, inner) if it.get("$comment"))
            return {**inner, **({"$comment": comments} if comments else {})}
        if of.name in INTEGERS:
            return {"pattern": key_pattern(of.name)}
        if of.name == "bool":
            return {"enum": ["false", "true"]}
        if of.name == "char":
            return {"minLength": 1, "maxLength": 1}
        if of.name == "String":
            return {}
        raise Refused(f"`{of}` is not a map's key")

    def check_of(self, model):
        """The comment of a newtype that a check narrows."""
        return {"$comment": f"check: {model.check}"} if model.check else {}

    def reference(self, of):
        """A reference to the definition of a type of a derived module."""
        if of not in self.names:
            self.names[of] = self.name_for(of)
            self.definitions[self.names[of]] = None
            self.definitions[self.names[of]] = self.named(of)
        if self.definitions[self.names[of]] is None:
            raise Refused(f"`{of}` contains itself")
        return {"$ref": f"#/$defs/{self.names[of]}"}

    def name_for(self, of):
        """A name for the definition of a type, which no other one has, of signs that a reference may have."""
        name = re.sub(r"\s", "", str(of)).translate(str.maketrans("<>[];", "()()*"))
        return name if name not in self.definitions else ".".join([*of.module, name])

    def named(self, of):
        """The schema of a type of a derived module."""
        if not self.world.is_derived(of.module):
            raise Refused(f"`{of}` of {'::'.join(of.module)} is written by hand: its JSON is not known here")
        model, given = self.world.given_to(of)
        resolved = lambda it: self.world.resolved(it, of.module, given)
        docs = {"description": " ".join(model.docs)} if model.docs else {}
        if isinstance(model, Struct):
            return {**docs, **self.struct(model, resolved)}
        if isinstance(model, Enum):
            return {**docs, **self.enum(model, resolved, of)}
        if not model.is_value:
            raise Refused(f"`{of}` is a map's key, and is not read as a value")
        if model.is_text:
            return {**docs, "type": "string", "$comment": f"text: `TextValue` of {'::'.join(of.module)}::{of.name} parses it"}
        return {**docs, **self.of(resolved(model.of)), **self.check_of(model)}

    def may_be_missing(self, of):
        """Whether a missing member of a type has a value."""
        if not isinstance(of, Named):
            return of.name == "Option"
        model, given = self.world.given_to(of)
        if not isinstance(model, Newtype) or not model.may_be_missing:
            return False
        return self.may_be_missing(self.world.resolved(model.of, of.module, given))

    def struct(self, it, resolved, tag=None):
        """The schema of a struct; `tag` has the name of a tag beside its members, and its text."""
        properties = {tag[0]: {"const": tag[1]}} if tag else {}
        for enum in map(resolved, it.left_out):
            properties.setdefault(self.world.model(enum.module, enum.name).tag, {})
        required, besides = [tag[0]] if tag else [], []
        for member in it.members:
            of, names = resolved(member.slot.of), [member.name, *member.aliases]
            default = {} if member.slot.given is NO_VALUE else {"default": member.slot.given}
            properties |= {name: {**self.of(of), **default} for name in names}
            if member.slot.given is NO_VALUE and not self.may_be_missing(of):
                required += names if len(names) == 1 else []
                besides += [{"anyOf": [{"required": [name]} for name in names]}] if len(names) > 1 else []
            if member.slot.once:
                pairs = [[one, other] for at, one in enumerate(names) for other in names[at + 1 :]]
                besides += [{"not": {"required": pair}} for pair in pairs]
        others = {"additionalProperties": False} if it.closed else {"additionalProperties": self.of(resolved(it.rest[1]))} if it.rest else {}
        return {"type": "object", "properties": properties, **({"required": required} if required else {}), **others, **({"allOf": besides} if besides else {})}

    def enum(self, it, resolved, of):
        """The schema of an enum, by its form."""
        if it.form == "unit":
            return {"type": "string", "enum": [each.written for each in it.variants]}
        if it.form == "untagged":
            return {"anyOf": [self.of(resolved(each.of or Type("()"))) for each in it.variants]}
        if it.form == "external":
            bare = [each.written for each in it.variants if each.of is None]
            return {"anyOf": [{"enum": bare}] * bool(bare) + [self.one_member(each, resolved) for each in it.variants if each.of is not None]}
        if it.form == "adjacent":
            return {"anyOf": [self.adjacent(it, each, resolved) for each in it.variants]}
        check_tag(self.world, of.module, it)
        return {"anyOf": [self.internal(it, each, resolved) for each in it.variants]}

    def one_member(self, variant, resolved):
        """The schema of a variant as an object of one member."""
        name = variant.written
        return {"type": "object", "properties": {name: self.of(resolved(variant.of))}, "required": [name], "additionalProperties": False}

    def adjacent(self, it, variant, resolved):
        """The schema of a variant whose data are a member beside the tag."""
        properties, required = {it.tag: {"const": variant.written}}, [it.tag]
        if variant.of is not None:
            of = resolved(variant.of)
            properties[it.content] = self.of(of)
            required += [] if self.may_be_missing(of) else [it.content]
        return {"type": "object", "properties": properties, "required": required}

    def internal(self, it, variant, resolved):
        """The schema of a variant whose members are beside the tag."""
        if variant.of is None:
            return {"type": "object", "properties": {it.tag: {"const": variant.written}}, "required": [it.tag]}
        data = resolved(variant.of)
        if not isinstance(data, Named) or not self.world.is_derived(data.module):
            raise Refused(f"the data of `{it.name}::{variant.name}` are not a derived struct")
        model, given = self.world.given_to(data)
        return self.struct(model, lambda each: self.world.resolved(each, data.module, given), (it.tag, variant.written))


def found_type(world, crate, of):
    """A type that a user writes, of the derived modules of a crate and of std, with its names resolved."""
    args = tuple(found_type(world, crate, it) if not it.name.isdecimal() else it for it in of.args)
    paths = [path for path in world.paths_of(crate) if of.name in world.types_in(path)]
    if len(paths) > 1:
        raise Refused(f"`{of.name}` is in {' and in '.join('::'.join(it) for it in paths)}: one crate has two types of this name")
    if paths:
        return Named(paths[0], of.name, args)
    if of.name in OF_RUST | {"BTreeMap", "HashMap", "VecDeque", "Value", "Document", "Number", "()", "[]"}:
        return Type(of.name, args)
    raise Refused(f"crates/{crate} has no derived type `{of.name}`")


def schema_of(world, named):
    """The whole schema of a type, with the definitions that it refers to."""
    schemas = Schemas(world)
    model = world.given_to(named)[0] if isinstance(named, Named) else None
    if model is not None and not isinstance(model, (Struct, Enum, Newtype)):
        raise Refused(f"`{named}` has no schema")
    own = schemas.named(named) if model is not None else schemas.of(named)
    return {"$schema": DRAFT, "title": str(named), **own, **({"$defs": schemas.definitions} if schemas.definitions else {})}


def schema_text(root, crate, name):
    """The schema of a type of a crate as text."""
    world = World(root)
    return plain(json.dumps(schema_of(world, found_type(world, crate, type_in(name, name))), indent=2, ensure_ascii=False)) + "\n"
