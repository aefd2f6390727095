"""What the impls and lists of a derived struct say: its members, their marks and defaults, and how they are written."""
from dataclasses import dataclass

from derived_terms import Call, Dot, Lambda, Of, Text, Tuple, Word, term_of
from derived_text import Type, paths_of

INTEGERS = {f"{sign}{bits}" for sign in "ui" for bits in ("8", "16", "32", "64", "size")}
# What the mark for an empty value gives, by the outermost type.
EMPTY = {"bool": False, "String": "", "Option": None, "Vec": [], "VecDeque": [], "BTreeMap": {}, "HashMap": {}, **{it: 0 for it in INTEGERS}}
NO_VALUE = object()


@dataclass
class Slot:
    """An entry of a list of fields: its type, whether a duplicate is invalid, the value of a missing one, and whether `None` is not written."""

    of: Type
    once: bool = False
    given: object = NO_VALUE
    omit: bool = False


@dataclass
class Member:
    """A member of a struct's object: its name, the field that has its value, its slot, other names, and the name that is written."""

    name: str
    field: str
    slot: Slot
    aliases: tuple = ()
    written: str = ""


@dataclass
class Struct:
    """A struct: its members in their order, whether unknown ones are refused, the field and the type of those that are kept, and the enums whose tag is not kept."""

    name: str
    params: tuple
    docs: tuple
    members: list
    closed: bool = False
    rest: tuple = ()
    left_out: tuple = ()
    looked_into: list = None


def whole(shape):
    """The type of a shape with its own parameters."""
    return Type(shape.name, tuple(Type(it) for it in shape.params))


def words_of(module, impl):
    """The imports that the clauses of an impl see."""
    found = dict(module.words)
    for tokens in impl.uses:
        found |= paths_of(tokens, ".")
    return found


def term_in(module, impl, name):
    """The term of an impl's ghost member, whose words are those that this reader knows."""
    if name not in impl.ghosts:
        module.refuse(impl.line, f"`{impl.trait}` for `{impl.target}` has no `{name}`")
    return term_of(impl.ghosts[name], module)


def constant(module, impl, term):
    """The value of a constant of this module that a term names."""
    if not isinstance(term, Word) or term.name not in module.constants:
        module.refuse(impl.line, f"a list of names that is not a constant of this module: {term}")
    crate, *mods = module.path
    wanted = ".".join(["Rattle", crate, "specs", "declared", *mods, "TheConstants", term.name])
    if words_of(module, impl).get(term.name) != wanted:
        module.refuse(impl.line, f"`{term.name}` is not this module's: it is `{words_of(module, impl).get(term.name, 'not imported')}`")
    return module.constants[term.name]


def called(module, term, name, line):
    """The arguments of a call of a word of the library, None if it is another term."""
    if not isinstance(term, Call) or term.head != Word(name):
        return None
    module.known_word(name, line)
    return term.args


def refuse_ghosts(module, impl, known):
    """Refuses ghost members that this reader does not know."""
    for name in impl.ghosts:
        if name not in known:
            module.refuse(impl.line, f"`{impl.trait}` for `{impl.target}` has `{name}`, which this reader does not know there")


def ghost_of(module, term, trait, member, line):
    """The type of a term `⟦<T as Trait>⟧.member`."""
    if not isinstance(term, Of) or (term.trait, term.member) != (trait, member):
        module.refuse(line, f"expected `{member}` of `{trait}`, found {term}")
    module.of_library(trait, line)
    own = module.shapes.get(term.of.name)
    if own is not None and len(own.params) == len(term.of.args) and trait in ("Record", "DataEnum", "UntaggedEnum", "HasTag") and term.of != whole(own):
        module.refuse(line, f"`{member}` of `{term.of}`, where its parameters have other names: `{whole(own)}`")
    return term.of


def tree_of(module, impl, term):
    """The JSON value of a tree that a clause writes down: a number, a boolean or a text."""
    for name in ("nonneg", "neg", "truth", "str"):
        args = called(module, term, name, impl.line)
        if args is None or len(args) != 1:
            continue
        inner = args[0]
        if name == "truth" and inner in (Word("true"), Word("false")):
            module.known_word(inner.name, impl.line)
            return inner.name == "true"
        if name == "nonneg" and isinstance(inner, Word) and inner.name.isdecimal():
            return int(inner.name)
        if name == "neg" and (below := called(module, inner, "negsuc", impl.line)) and below[0].name.isdecimal():
            return -int(below[0].name) - 1
        if name == "str" and isinstance(inner, Dot) and inner.name == "now":
            return constant(module, impl, inner.base)
        if name == "str":
            return text_of(module, impl, inner)
    module.refuse(impl.line, f"a default that this reader does not know: {term}")


def text_of(module, impl, term):
    """The text of a term `codes "x"`."""
    args = called(module, term, "codes", impl.line)
    if not args or len(args) != 1 or not isinstance(args[0], Text):
        module.refuse(impl.line, f"expected a text, found {term}")
    return args[0].text


def given_by(module, of, giver, line):
    """The value of a missing field of a type, by the type that gives it."""
    if module.is_library("Empty") and giver == Type("Empty"):
        if of.name not in EMPTY:
            module.refuse(line, f"`{of}` has no empty value")
        return EMPTY[of.name]
    impl = module.impl("Given", giver.name, line)
    if impl.trait.args != (of,):
        module.refuse(impl.line, f"`{giver}` gives a value of `{', '.join(map(str, impl.trait.args))}`, and the field has the type `{of}`")
    refuse_ghosts(module, impl, {"given"})
    return tree_of(module, impl, term_in(module, impl, "given"))


def marked(module, of, mark, line):
    """The slot of a type with a mark."""
    module.of_library(mark.name, line)
    if mark == Type("Plain"):
        return Slot(of)
    if mark.name == "Once" and len(mark.args) == 1:
        inner = marked(module, of, mark.args[0], line)
        inner.once = True
        return inner
    if mark.name == "WithDefault" and len(mark.args) == 1:
        return Slot(of, given=given_by(module, of, mark.args[0], line))
    module.refuse(line, f"a mark that this reader does not know: `{mark}`")


def slots_of(module, of, line):
    """The slots of a list of fields, and the word that ends it."""
    of = module.expanded(of, line)
    module.of_library(of.name, line)
    name, args = of.name, of.args
    if name in ("NoSlot", "Closed") and not args:
        return [], name
    if name == "MarkedFour" and len(args) == 9:
        first = [marked(module, args[at], args[at + 1], line) for at in range(0, 8, 2)]
    elif name == "FourSlot" and len(args) == 5:
        first = [Slot(it) for it in args[:4]]
    elif name in ("Slot", "OnceSlot") and len(args) == 2:
        first = [Slot(args[0], once=name == "OnceSlot")]
    elif name == "MarkedSlot" and len(args) == 3:
        first = [marked(module, args[0], args[1], line)]
    elif name == "OmitSlot" and len(args) == 3:
        first = [marked(module, Type("Option", args[:1]), args[1], line)]
        if first[0].given is not NO_VALUE:
            module.refuse(line, f"a field with `OmitSlot` has a default: `{of}`")
        first[0].omit = True
    else:
        module.refuse(line, f"a list of fields that this reader does not know: `{name}` with {len(args)} arguments")
    rest, end = slots_of(module, args[-1], line)
    return [*first, *rest], end


def fields_in(module, impl):
    """The fields that `values` of a struct returns, in their order; before them the one that keeps the other members, if a pair is asked for."""
    term = term_in(module, impl, "values")
    if not isinstance(term, Lambda) or len(term.names) != 1:
        module.refuse(impl.line, f"`values` of `{impl.target}` is not a function of one value")
    found, now = [], term.body
    while now != Word("tt"):
        if not isinstance(now, Tuple) or len(now.items) != 2 or not isinstance(now.items[0], Dot) or now.items[0].base != Word(term.names[0]):
            module.refuse(impl.line, f"`values` of `{impl.target}` does not list fields: {now}")
        found.append(now.items[0].name.removeprefix("r#"))
        now = now.items[1]
    return found


def names_in(module, of, line):
    """The names that a struct lists for its fields."""
    impl = module.impl("Record", of.name, line)
    args = called(module, term_in(module, impl, "names"), "names_of", impl.line)
    if not args or len(args) != 1:
        module.refuse(impl.line, f"`names` of `{of}` are not those of a constant")
    return constant(module, impl, args[0])


def aliases_in(module, of, line):
    """The pairs of an alias and a name that a struct lists."""
    impl = module.impl("HasAliases", of.name, line)
    args = called(module, term_in(module, impl, "aliases"), "aliases_of", impl.line)
    if not args or len(args) != 1:
        module.refuse(impl.line, f"`aliases` of `{of}` are not those of a constant")
    return constant(module, impl, args[0])


def taken_in(module, shape, of, line):
    """The names beside the fields' that a map does not keep, by the type that lists them: `None` for the aliases, and the enum of a tag."""
    if of is None:
        return []
    module.of_library(of.name, line)
    if of.name == "NoNames" and not of.args:
        return []
    if of.name not in ("AliasesOf", "TagOf") or not of.args or of.name == "AliasesOf" and of.args[0] != whole(shape):
        module.refuse(line, f"a list of names that this reader does not know: `{of}`")
    return [None if of.name == "AliasesOf" else of.args[0], *taken_in(module, shape, of.args[1] if len(of.args) > 1 else None, line)]


def written_taken(module, shape, term, line):
    """The names beside the fields' that a map's entries are not written under, by the clause."""
    if term == Word("[]"):
        return []
    if isinstance(term, Call) and term.head == Word("++"):
        return [*written_taken(module, shape, term.args[0], line), *written_taken(module, shape, term.args[1], line)]
    if isinstance(term, Call) and term.head == Word("∷"):
        return [ghost_of(module, term.args[0], "HasTag", "tag", line), *written_taken(module, shape, term.args[1], line)]
    args = called(module, term, "alias_names", line)
    if not args or ghost_of(module, args[0], "HasAliases", "aliases", line) != whole(shape):
        module.refuse(line, f"names that this reader does not know: {term}")
    return [None]


def read_slots(module, shape, list_of, line):
    """What the list in `means` says: the slots, the word that ends it, the aliases, the type of the members that are kept, and the further names that are not."""
    list_of, aliases, rest, taken = module.expanded(list_of, line), [], None, []
    for name in ("Aliased", "WithRest"):
        if list_of.name != name:
            continue
        module.of_library(name, line)
        owner, inner, *more = list_of.args
        if owner != whole(shape):
            module.refuse(line, f"`{name}` of `{shape.name}` names `{owner}`")
        if name == "Aliased":
            aliases = aliases_in(module, owner, line)
        else:
            rest, taken = more[0], taken_in(module, shape, more[1] if len(more) > 1 else None, line)
        list_of = module.expanded(inner, line)
    if rest is not None and bool(aliases) != (None in taken):
        module.refuse(line, f"the map of `{shape.name}` keeps members by the names of aliases")
    slots, end = slots_of(module, list_of, line)
    return slots, end, aliases, rest, taken


def written_slots(module, shape, impl, has_rest):
    """What `tree` says: the names and the slots that are written, and the type of the map's members with the further names that are left out."""
    term = term_in(module, impl, "tree")
    args = called(module, term, "rest_tree" if has_rest else "record_tree", impl.line)
    if args is None or len(args) != (7 if has_rest else 3):
        module.refuse(impl.line, f"`tree` of `{shape.name}` is not that of a struct{' that keeps members' * has_rest}: {term}")
    if has_rest:
        if args[0] != Word("string_bytes") or not isinstance(args[4], Lambda) or args[4].body != Dot(Word(args[4].names[0]), "entries"):
            module.refuse(impl.line, f"`tree` of `{shape.name}` does not write the entries of a map")
        value = ghost_of(module, args[3], "Serialize", "tree", impl.line), written_taken(module, shape, args[2], impl.line)
        args = (args[1], args[5], args[6])
    names = names_in(module, ghost_of(module, args[0], "Record", "names", impl.line), impl.line)
    slots, _ = slots_of(module, ghost_of(module, args[1], "WrittenFields", "trees", impl.line), impl.line)
    if ghost_of(module, args[2], "Record", "values", impl.line) != whole(shape):
        module.refuse(impl.line, f"`tree` of `{shape.name}` writes another type's values")
    return names, slots, value if has_rest else None


def struct_of(module, shape):
    """The model of a struct, by its impls."""
    read, write, record = (module.impl(it, shape.name, shape.line) for it in ("FromJson", "Serialize", "Record"))
    refuse_ghosts(module, read, {"means"})
    args = called(module, term_in(module, read, "means"), "struct_meaning", read.line)
    if args is None or len(args) != 3:
        module.refuse(read.line, f"`means` of `{shape.name}` is not that of a struct")
    if ghost_of(module, args[2], "Record", "values", read.line) != whole(shape):
        module.refuse(read.line, f"`means` of `{shape.name}` reads another type's values")
    slots, end, aliases, rest, taken = read_slots(module, shape, ghost_of(module, args[0], "Slots", "meaning", read.line), read.line)
    names = names_in(module, ghost_of(module, args[1], "Record", "names", read.line), read.line)
    written, written_as, value = written_slots(module, shape, write, rest is not None)
    kind, left_out = value or (None, [])
    if kind != rest:
        module.refuse(write.line, f"`{shape.name}` keeps members of `{rest}` and writes them as `{kind}`")
    if left_out != taken:
        module.refuse(write.line, f"`{shape.name}` reads and writes its map without members of different names")
    fields = fields_in(module, record)
    kept = (fields.pop(0), rest) if rest is not None else ()
    check_counts(module, shape, names, slots, written, written_as, fields)
    if {*fields, *kept[:1]} != {name.removeprefix("r#") for name, _ in shape.fields} or len(fields) + len(kept[:1]) != len(shape.fields):
        module.refuse(record.line, f"`values` of `{shape.name}` does not have each field once")
    members = [Member(name, each, slot, tuple(it for it, of in aliases if of == name), other) for name, each, slot, other in zip(names, fields, slots, written)]
    for alias, of in aliases:
        if of not in names or alias in names:
            module.refuse(read.line, f"the alias `{alias}` of `{shape.name}` is for `{of}`, which must be a name of a field, and the alias none")
    found = Struct(shape.name, shape.params, shape.docs, members, end == "Closed", kept, tuple(it for it in taken if it is not None))
    found.looked_into = looked_into(module, shape, found)
    return found


def check_counts(module, shape, names, slots, written, written_as, fields):
    """Refuses lists that do not fit each other or the fields of the struct."""
    if not len(names) == len(slots) == len(written) == len(written_as) == len(fields) or len(set(names)) != len(names):
        module.refuse(shape.line, f"`{shape.name}` has {len(slots)} slots, {len(names)} names, {len(written)} names that are written, and {len(fields)} fields")
    types = dict(shape.fields)
    for each, slot, other in zip(fields, slots, written_as):
        declared = types.get(each, types.get(f"r#{each}"))
        if slot.of != declared or other.of != declared:
            module.refuse(shape.line, f"the field `{each}` of `{shape.name}` has the type `{declared}`, is read as `{slot.of}`, and is written as `{other.of}`")
    for slot, other in zip(slots, written_as):
        slot.omit = other.omit


def probes_in(module, shape, impl, member, names):
    """The list by which `wrong` or `right` looks for fields."""
    term = term_in(module, impl, member)
    head = term.body.head if isinstance(term, Lambda) and isinstance(term.body, Call) else term
    listed, own = ghost_of(module, head, "Probes", member, impl.line), Of(whole(shape), "Record", "names")
    if term != Lambda(names, Call(head, (*map(Word, names), own))):
        module.refuse(impl.line, f"`{member}` of `{shape.name}` is not that of its list and its names")
    return listed


def looked_into(module, shape, found):
    """The fields that the calls for a wrong field lead into, None if the struct has no such calls."""
    if not module.has("FieldByField", shape.name):
        return None
    impl = module.impl("FieldByField", shape.name)
    probes = ("Probe", "ProbeInto", "ProbeIntoOption")
    lists = {probes_in(module, shape, impl, "wrong", ("gives", "here")), probes_in(module, shape, impl, "right", ("gives",))}
    now, into = module.expanded(lists.pop(), impl.line), []
    for member in found.members:
        module.of_library(now.name, impl.line)
        if now.name not in probes or len(now.args) != 3:
            module.refuse(impl.line, f"`{shape.name}` looks for `{member.field}` by a list that this reader does not know: `{now.name}`")
        inner = Type("Option", now.args[:1]) if now.name == "ProbeIntoOption" else now.args[0]
        slot = marked(module, inner, now.args[1], impl.line)
        if lists or inner != member.slot.of or (slot.once, slot.given) != (member.slot.once, member.slot.given):
            module.refuse(impl.line, f"`{shape.name}` looks for `{member.field}` as `{inner}` with `{now.args[1]}`, and reads it otherwise")
        into += [member.field] if now.name != "Probe" else []
        now = now.args[2]
    if now != Type("NoProbe"):
        module.refuse(impl.line, f"`{shape.name}` looks for more fields than it has")
    return into
