"""Texts for a type: examples of its schema, changed at a place or more, and what may be expected of each."""
import json
from decimal import Decimal

from made_texts import DECODER, Members, Number, has_surrogate

# In place of a value: of each kind, and at the edges of the integers.
VALUES = [None, True, False, "", "a", "é\n", "1", "null", [], [[]], {}, {"a": 1}, 0, 1, -1, 2, 100, 101, 255, 256, 127, 128, -128, -129, 32767, 32768, -32768, -32769, 65535, 65536,
          2**31, -(2**31) - 1, 2**32 - 1, 2**32, 2**53 + 1, 2**63 - 1, 2**63, -(2**63), -(2**63) - 1, 2**64 - 1, 2**64, 1.5, -0.25]
NAMES = ["", "a", "x", "é", "0", "1", "+7", "007", "-0", "-1", "255", "256", "true", "false", "kind", "type", "data", "18446744073709551615", "18446744073709551616"]
# Values that a check accepts, and others of the same type: by the definition of a check, or the type of a `TextValue`.
GOOD = {
    "at_most_100": [0, 1, 99, 100], "is_slug": ["a", "a-1", "-"], "is_celsius": [0, -273, 32767], "is_ordered": [{"from": 1, "to": 1}, {"from": 0, "to": 4294967295}],
    "AccountId": ["67e55044-10b1-426f-9247-bb680e5fe0c8", "67e5504410b1426f9247bb680e5fe0c8"], "Day": ["2026-11-30", "2024-02-29"],
    "Blob": ["", "AAEC", "YQ=="], "Release": ["1.2.3", "0.1.0-alpha+b"],
}
BAD = {
    "at_most_100": [101, 255], "is_slug": ["", "A", "a b", "é"], "is_celsius": [-274, -32768], "is_ordered": [{"from": 2, "to": 1}],
    "AccountId": ["", "67e55044", "a"], "Day": ["", "2026-13-01", "2023-02-29", "a"], "Blob": ["=", "A", "a"], "Release": ["", "1.2", "a"],
}


class LeftOut(Exception):
    """A text that a schema cannot speak of, and why."""


def check_in(comment):
    """The name of the check or of the type that a comment of a schema names, "" for another comment."""
    kind, _, rest = comment.partition(": ")
    return rest.split()[0] if kind == "check" else rest.split()[2].split("::")[-1] if kind == "text" else ""


def verdict_of(name, value):
    """Whether a check accepts a value, None if that is not known here."""
    good, bad = GOOD.get(name, []), BAD.get(name, [])
    if name == "at_most_100":
        return int(value) <= 100
    if name == "is_celsius":
        return value >= -273
    if name == "is_slug":
        return value != "" and all(it in "abcdefghijklmnopqrstuvwxyz0123456789-" for it in value)
    if name == "is_ordered":
        return value["from"] <= value["to"]
    return True if value in good else False if value in bad else None


def instance_of(text):
    """The JSON value of a text, as a validator takes it. Raises `ValueError` for what is no JSON, and `LeftOut`."""
    tree = DECODER.decode(text)
    if has_surrogate(tree):
        raise LeftOut("half a surrogate pair")
    return plain(tree)


def plain(tree):
    """The value of a tree of `made_texts`."""
    if isinstance(tree, Members):
        names = [name for name, _ in tree]
        if len(set(names)) < len(names):
            raise LeftOut("a duplicate name")
        if any(name.endswith("\n") for name in names):
            raise LeftOut("a name that ends in a line feed, before which Python's `$` matches")
        return {name: plain(value) for name, value in tree}
    if isinstance(tree, Number):
        if tree == "-0" or not tree.lstrip("-").isdecimal() and Decimal(tree) == Decimal(tree).to_integral_value():
            raise LeftOut("an integer written as `-0`, or with a fraction or an exponent")
        return int(tree) if tree.lstrip("-").isdecimal() else Decimal(tree)
    return [plain(it) for it in tree] if isinstance(tree, list) else tree


class Maker:
    """Makes texts of a schema from a source of random numbers."""

    def __init__(self, schema, source):
        self.schema, self.definitions, self.source = schema, schema.get("$defs", {}), source
        self.names = sorted({*NAMES, *self.words(schema)})
        self.groups = [*self.groups_in(schema)]

    def words(self, schema):
        """The names and texts that a schema has."""
        if isinstance(schema, dict):
            yield from schema.get("properties", {})
            yield from (it for it in [*schema.get("enum", []), schema.get("const")] if isinstance(it, str))
            for it in schema.values():
                yield from self.words(it)
        elif isinstance(schema, list):
            for it in schema:
                yield from self.words(it)

    def groups_in(self, schema):
        """The members that each object of a schema may have."""
        inside = schema.values() if isinstance(schema, dict) else schema if isinstance(schema, list) else []
        if isinstance(schema, dict) and isinstance(schema.get("properties"), dict):
            yield schema["properties"]
        for it in inside:
            yield from self.groups_in(it)

    def member(self, tree):
        """A name and a value, most of the time of a member that an object with these members may have too."""
        pick = self.source
        near = [it for it in self.groups if any(name in it for name in tree)]
        if near and pick.random() < 0.7:
            group = pick.choice(near)
            name = pick.choice([*group])
            return name, self.example(group[name])
        return pick.choice(self.names), pick.choice([*tree.values(), self.value()])

    def example(self, schema):
        """A value that a schema takes, as far as `anyOf`, `properties` and bounds say."""
        pick = self.source
        if "$ref" in schema:
            return self.example(self.definitions[schema["$ref"].removeprefix("#/$defs/")])
        if (name := check_in(schema.get("$comment", ""))) in GOOD:
            return pick.choice(GOOD[name])
        for word in ("const", "enum", "anyOf"):
            if word in schema:
                return schema["const"] if word == "const" else pick.choice(schema["enum"]) if word == "enum" else self.example(pick.choice(schema["anyOf"]))
        kind = schema.get("type")
        kind = pick.choice(kind) if isinstance(kind, list) else kind
        if kind == "object":
            return self.object(schema)
        if kind == "array":
            return self.array(schema)
        if kind == "integer":
            return pick.choice([schema["minimum"], schema["maximum"], max(0, schema["minimum"]), 1, 7])
        return {"null": None, "boolean": pick.random() < 0.5, "string": pick.choice(self.names), "number": pick.choice([0, -1, 1.5, 2**64, 7])}.get(kind, pick.choice(VALUES))

    def object(self, schema):
        """An object that a schema takes."""
        pick, found = self.source, {}
        required = [*schema.get("required", [])]
        for each in schema.get("allOf", []):
            required += [pick.choice(each["anyOf"])["required"][0]] if "anyOf" in each else []
        for name, inner in schema.get("properties", {}).items():
            if name in required or pick.random() < 0.4:
                found[name] = self.example(inner)
        for each in schema.get("allOf", []):
            if "not" in each and all(name in found for name in each["not"]["required"]):
                del found[pick.choice(each["not"]["required"])]
        more = schema.get("additionalProperties", {})
        for _ in range(pick.choice([0, 0, 1, 2]) if more is not False else 0):
            name = self.key(schema.get("propertyNames", {}))
            if name not in schema.get("properties", {}):
                found[name] = self.example(more)
        return found

    def key(self, schema):
        """A name that a schema for names takes, most of the time."""
        if (name := check_in(schema.get("$comment", ""))) in GOOD:
            return str(self.source.choice(GOOD[name]))
        if "enum" in schema:
            return self.source.choice(schema["enum"])
        if "pattern" in schema:
            return self.source.choice(["0", "1", "7", "+7", "007"])
        return self.source.choice("aé1") if "maxLength" in schema else self.source.choice(self.names)

    def array(self, schema):
        """An array that a schema takes."""
        if "prefixItems" in schema:
            return [self.example(it) for it in schema["prefixItems"]]
        least = schema.get("minItems", 0)
        count = self.source.randint(least, min(schema.get("maxItems", 3), least + 3))
        return [self.example(schema.get("items", {})) for _ in range(count)]

    def value(self):
        """Any value: one of the list, a name, or a value that a check accepts or refuses."""
        pick = self.source
        turn = pick.random()
        if turn < 0.3:
            return pick.choice(self.names) if turn < 0.2 else None
        return pick.choice(VALUES) if pick.random() < 0.9 else pick.choice([it for each in (GOOD, BAD) for values in each.values() for it in values])

    def changed(self, tree):
        """A value with a change at one place."""
        pick = self.source
        if isinstance(tree, dict) and tree and pick.random() < 0.85:
            found, name = dict(tree), pick.choice([*tree])
            turn = pick.random()
            if turn < 0.5:
                found[name] = self.changed(found[name])
            elif turn < 0.65:
                del found[name]
            elif turn < 0.8:
                found[pick.choice(self.names)] = found.pop(name)
            else:
                name, value = self.member(found)
                found[name] = value
            return found
        if isinstance(tree, list) and tree and pick.random() < 0.85:
            found, at = list(tree), pick.randrange(len(tree))
            turn = pick.random()
            if turn < 0.6:
                found[at] = self.changed(found[at])
            elif turn < 0.75:
                del found[at]
            else:
                found.insert(at, pick.choice([found[at], self.value()]))
            return found
        turn = pick.random()
        if turn < 0.1:
            return [tree]
        if turn < 0.2:
            return {pick.choice(self.names): tree}
        if isinstance(tree, int) and not isinstance(tree, bool) and turn < 0.4:
            return tree + pick.choice([1, -1])
        return self.value()

    def text(self, tree):
        """A text of a value: compact or not, with its members in another order, and sometimes broken."""
        pick = self.source
        if isinstance(tree, dict) and pick.random() < 0.3:
            names = [*tree]
            pick.shuffle(names)
            tree = {name: tree[name] for name in names}
        text = json.dumps(tree, ensure_ascii=pick.random() < 0.5, separators=pick.choice([(",", ":"), (" , ", ": "), (",\n", ":\t")]), default=float)
        if pick.random() < 0.02:
            at = pick.randrange(len(text))
            text = text[:at] + pick.choice(['"', "}", ",", "1", ""]) + text[at + pick.choice([0, 1]) :]
        return text

    def texts(self, count, rows):
        """That many texts: examples, and examples and rows of tables with changes."""
        pick, found = self.source, []
        while len(found) < count:
            trees = [row for row in rows if not isinstance(row, str)]
            tree = pick.choice(trees) if trees and pick.random() < 0.25 else self.example(self.schema)
            for _ in range(pick.choice([0, 1, 1, 1, 1, 2, 3])):
                tree = self.changed(tree)
            found.append(self.text(tree))
        return found
