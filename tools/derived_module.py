"""The items of a derived module, and what its names mean."""
import re

from derived_own import apart
from derived_text import Cursor, Type, impl_at, params_at, paths_of, shape_at, skip_above, tokens_of, type_at
from faults import Refused

# The types that need no import.
OF_RUST = set("u8 u16 u32 u64 usize i8 i16 i32 i64 isize bool char String Option Vec Box".split())
# The crates of the library, in whose paths a word of derived code means what this reader takes it for.
LIBRARIES = ("miniserde", "miniserde_core", "miniserde_more", "miniserde_laws", "miniserde_stored", "refused")
# The words of clauses that this reader knows, each with the file of definitions that has it.
HOMES = {
    "aliases_of": "Aliases", "enum_tree": "Cases", "tagged_tree": "Cases", "first_case": "Cases", "later_case": "Cases",
    "enum_meaning": "CasesMeaning", "tagged_meaning": "CasesMeaning", "on_unsigned": "Checks", "on_unsigned_key": "Checks",
    "checked_key": "Checks", "struct_meaning": "FieldsMeaning", "box_meaning": "Meanings", "checked_meaning": "Newtypes",
    "text_value_meaning": "Newtypes", "names_of": "Structs", "record_tree": "Structs", "neg": "Tree", "nonneg": "Tree", "truth": "Tree",
    "str": "Tree", "rest_tree": "Rest", "alias_names": "Rest", "untagged_tree": "Untagged", "untagged_meaning": "UntaggedMeaning", "codes": "Prelude",
    "string_bytes": "Prelude", "true": "Prelude", "negsuc": "Prelude", "option_map": "Prelude", "∷": "Prelude", "false": "Prelude",
}
# The traits whose impls say what the table has, each with the ghost members that it may have.
READ = {
    "Record": "names values made bijective distinct_names", "FromJson": "means absent read_infallible lacking", "Serialize": "tree", "HasAliases": "aliases apart",
    "HasTag": "tag", "HasContent": "content", "DataEnum": "names values made bijective distinct_names", "UntaggedEnum": "values made bijective",
    "UnitEnum": "all name_of found", "Checked": "inner means accepts same", "Leaf": "means only_leaves read_infallible lacking",
    "MapKey": "content code read text from_key_infallible alike back one_text", "Given": "given", "FieldByField": "wrong right",
}
# The traits whose impls add laws, places and calls, and change nothing of what a text means or what is written.
BESIDE = set(
    "Ranged RoundTrip Lossless NeverNull Stable Inside HasKinds Transparent Clone CheckedLeaf InjectiveKey ExactKey Visitor Deserialize PlacedRecord".split()
)


class Module:
    """What a derived module has: its imports, shapes, lists, constants and impls, by their names.

    `name` is what messages call it, and `path` are its crate and the names of its modules.
    """

    def __init__(self, text, name, path):
        self.name, self.path = name, tuple(path)
        self.uses, self.words, self.shapes, self.lists, self.constants, self.impls = {}, {}, {}, {}, {}, {}
        cursor = Cursor(apart(tokens_of(text)), name)
        while cursor.peek():
            self.take(cursor)

    def take(self, cursor):
        """Takes an item."""
        docs = skip_above(cursor)
        cursor.skip_public()
        word = cursor.take()
        if word == "ghost":
            cursor.take("use")
            self.bring(self.words, paths_of(cursor.until(";"), "."), cursor)
        elif word == "use":
            self.bring(self.uses, paths_of(cursor.until(";"), "::"), cursor)
        elif word in ("struct", "enum"):
            shape = shape_at(cursor, word, docs)
            self.add(self.shapes, shape.name, shape, cursor)
        elif word == "type":
            name, params = cursor.word(), params_at(cursor)
            cursor.take("=")
            self.add(self.lists, name, (params, type_at(cursor)), cursor)
            cursor.take(";")
        elif word == "const":
            self.take_constant(cursor)
        elif word == "impl":
            impl = impl_at(cursor)
            self.take_impl(impl, cursor)
        else:
            cursor.refuse(f"an item that this reader does not know: `{word}`")

    def bring(self, names, paths, cursor):
        """Adds the names of an import, unless there is another of one of them."""
        for name, path in paths.items():
            if "*" in path or re.search(r"\bas\b", path):
                cursor.refuse(f"an import that this reader does not follow: `{path}`")
            if names.setdefault(name, path) != path:
                cursor.refuse(f"a second `{name}`: `{path}` and `{names[name]}`")

    def add(self, items, name, item, cursor):
        """Adds an item, unless there is one of its name."""
        if name in items or name in OF_RUST:
            cursor.refuse(f"a second `{name}`")
        items[name] = item

    def take_constant(self, cursor):
        """Takes a constant: a text, or a list of texts or of pairs of texts."""
        name = cursor.word()
        cursor.take(":")
        kind = " ".join(it.text for it in cursor.until("="))
        value = cursor.until(";")
        strings = [self.string(it.text, cursor) for it in value if it.kind == "string"]
        rest = re.sub(r"(?<=\]),?|,(?=[\])])", "", "".join("s" if it.kind == "string" else it.text for it in value))
        forms = {"& str": "s", "& [ & str ]": r"&\[(s(,s)*)?\]", "& [ ( & str , & str ) ]": r"&\[(\(s,s\)(,\(s,s\))*)?\]"}
        if kind not in forms or not re.fullmatch(forms[kind], rest):
            cursor.refuse(f"`{name}` is not a list of texts")
        pairs = list(zip(strings[::2], strings[1::2]))
        self.add(self.constants, name, strings[0] if kind == "& str" else pairs if "(" in kind else strings, cursor)

    def string(self, text, cursor):
        """The text that a string means."""
        if "\\" in text:
            cursor.refuse(f"a text with a backslash, which this reader does not decode: {text}")
        return text[1:-1]

    def take_impl(self, impl, cursor):
        """Takes an impl of a trait that is known."""
        trait = impl.trait.name
        if trait not in {*READ, *BESIDE}:
            raise Refused(f"{self.name}: line {impl.line}: an impl of `{trait}`, which this reader does not know")
        if trait != "Clone":
            self.of_library(trait, impl.line)
        if others := set(impl.ghosts) - set(READ[trait].split()) if trait in READ else ():
            self.refuse(impl.line, f"`{trait}` for `{impl.target}` has `{min(others)}`, which this reader does not know")
        for name, path in [(name, path) for tokens in impl.uses for name, path in paths_of(tokens, ".").items()]:
            if name in HOMES or "*" in path:
                self.refuse(impl.line, f"`{trait}` for `{impl.target}` has its own `{name}`: `{path}`")
        if tuple(str(it) for it in impl.target.args) != impl.params and trait in READ and trait != "Given":
            raise Refused(f"{self.name}: line {impl.line}: an impl of `{trait}` for some of the types `{impl.target}` only")
        self.add(self.impls, (trait, impl.target.name), impl, cursor)

    def refuse(self, line, what):
        """Ends the reading with a message that names a line."""
        raise Refused(f"{self.name}: line {line}: {what}")

    def of_library(self, word, line):
        """Refuses a word of Rust code that is not the library's."""
        path = self.uses.get(word, "")
        if word in self.shapes or word in self.lists or path.split("::")[0] not in LIBRARIES:
            self.refuse(line, f"`{word}` is not the library's: it is `{path or 'not imported'}`")

    def is_library(self, word):
        """Whether a name is the library's in this module."""
        return self.uses.get(word, "").split("::")[0] in LIBRARIES and word not in self.shapes and word not in self.lists

    def known_word(self, word, line):
        """Refuses a word of a clause that is not the definition that this reader takes it for."""
        path = self.words.get("◌∷◌" if word == "∷" else word, "")
        if HOMES[word] == "Prelude":
            home = path.startswith("Rattle.std.specs.Prelude.")
        else:
            home = re.fullmatch(rf"Rattle\.miniserde(_core|_more)?\.specs\.{HOMES[word]}\.{re.escape(word)}", path)
        if not home:
            self.refuse(line, f"`{word}` is not the library's: it is `{path or 'not imported'}`")

    def impl(self, trait, name, line=0):
        """The impl of a trait for a type of this module."""
        if (trait, name) not in self.impls:
            self.refuse(line, f"`{name}` has no impl of `{trait}`")
        return self.impls[trait, name]

    def has(self, trait, name):
        """Whether a type of this module has an impl of a trait."""
        return (trait, name) in self.impls

    def expanded(self, of, line=0):
        """The type that a list of this module is an alias of."""
        if of.name not in self.lists:
            return of
        params, body = self.lists[of.name]
        if params != tuple(map(str, of.args)):
            self.refuse(line, f"`{of.name}` has the parameters ({', '.join(params)}), and not those of `{of}`")
        if any(name in self.lists for name in names_in(body)):
            self.refuse(line, f"`{of.name}` names another list")
        return replaced(body, dict(zip(params, of.args)))


def replaced(of, given):
    """The type with others in place of its parameters."""
    if of.name in given and not of.args:
        return given[of.name]
    return Type(of.name, tuple(replaced(it, given) for it in of.args))


def names_in(of):
    """The names that a type has."""
    return [of.name, *(name for it in of.args for name in names_in(it))]
