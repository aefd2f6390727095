"""What the impls and lists of a derived enum say: its form, its variants with their names and data, and how they are written."""
from dataclasses import dataclass

from derived_structs import called, constant, ghost_of, refuse_ghosts, term_in, text_of, whole
from derived_terms import Call, Elim, Lambda, Of, Record, Tuple, Word
from derived_text import Type, paths_of

# The words of each form: of its meaning, the trait of its list, the word of its tree, and the trait of the list that is written.
FORMS = {
    "external": ("enum_meaning", "Cases", "enum_tree", "WrittenCases"),
    "internal": ("tagged_meaning", "InsideCases", "tagged_tree", "WrittenCases"),
    "untagged": ("untagged_meaning", "UntaggedCases", "untagged_tree", "WrittenUntagged"),
}


@dataclass
class Variant:
    """A variant: its name in code, its name in JSON, the type of its data, None for none, and whether that is a struct of its named fields."""

    name: str
    written: str
    of: Type = None
    has_fields: bool = False


@dataclass
class Enum:
    """An enum: its form, `external`, `internal`, `adjacent`, `untagged` or `unit`, the names of the tag and of the member with the data, and
    its variants in the order of their names in JSON."""

    name: str
    params: tuple
    docs: tuple
    form: str
    variants: list
    tag: str = None
    content: str = None


def unit_of(module, shape):
    """The model of an enum without data."""
    read, write = module.impl("FromJson", shape.name, shape.line), module.impl("Serialize", shape.name, shape.line)
    refuse_ghosts(module, read, {"means", "read_infallible"})
    if term_in(module, read, "means") != Of(whole(shape), "Variants", "meaning") or not module.is_library("Variants"):
        module.refuse(read.line, f"`means` of `{shape.name}` is not that of a unit enum")
    tree, impl = term_in(module, write, "tree"), module.impl("UnitEnum", shape.name, shape.line)
    named = Call(Of(whole(shape), "UnitEnum", "name_of"), (Word("v"),))
    if not isinstance(tree, Lambda) or called(module, tree.body, "str", write.line) != (named,) or tree.names != ("v",):
        module.refuse(write.line, f"`tree` of `{shape.name}` is not the text of its name")
    listed, now = [], term_in(module, impl, "all")
    while args := called(module, now, "∷", impl.line):
        listed.append(args[0].name)
        now = args[1]
    names = term_in(module, impl, "name_of")
    cases = {pattern[0]: text_of(module, impl, term) for pattern, term in names.cases} if isinstance(names, Elim) else {}
    wanted = [name for name, *_ in shape.variants]
    if sorted(listed) != sorted(wanted) or sorted(cases) != sorted(wanted) or now != Word("[]") or len(set(cases.values())) != len(cases):
        module.refuse(impl.line, f"`all` and `name_of` of `{shape.name}` do not have each variant once, with a name of its own")
    return Enum(shape.name, shape.params, shape.docs, "unit", [Variant(name, cases[name]) for name in wanted])


def cases_of(module, of, line):
    """The types of the data of a list of variants, in order; None for a variant without data."""
    of = module.expanded(of, line)
    module.of_library(of.name, line)
    if of == Type("NoCase"):
        return []
    if of.name == "UnitCase" and len(of.args) == 1:
        return [None, *cases_of(module, of.args[0], line)]
    if of.name == "DataCase" and len(of.args) == 2:
        return [of.args[0], *cases_of(module, of.args[1], line)]
    module.refuse(line, f"a list of variants that this reader does not know: `{of.name}` with {len(of.args)} arguments")


def values_in(module, impl, line):
    """Where `values` of an enum puts each variant: its place in the list by its name, the names of its values, and their term."""
    term, found = term_in(module, impl, "values"), {}
    if not isinstance(term, Elim):
        module.refuse(line, f"`values` of `{impl.target}` does not list the variants")
    for (name, *names), now in term.cases:
        at = 0
        while args := called(module, now, "later_case", line):
            at, now = at + 1, args[0]
        args = called(module, now, "first_case", line)
        if not args or len(args) != 1:
            module.refuse(line, f"`values` of `{impl.target}` gives `{name}` no place")
        found[name] = (at, names, args[0])
    return found


def names_of(module, of, line):
    """The names that an enum lists for its variants."""
    impl = module.impl("DataEnum", of.name, line)
    args = called(module, term_in(module, impl, "names"), "names_of", impl.line)
    if not args or len(args) != 1:
        module.refuse(impl.line, f"`names` of `{of}` are not those of a constant")
    return constant(module, impl, args[0])


def word_of(module, trait, member, of, line):
    """The name of a tag or of a member with the data."""
    impl = module.impl(trait, of.name, line)
    text = text_of(module, impl, term_in(module, impl, member))
    for name in [name for tokens in impl.uses for name in paths_of(tokens, ".")]:
        if constant(module, impl, Word(name)) != [text]:
            module.refuse(impl.line, f"`{member}` of `{of}` is `{text}`, and `{name}` has {module.constants[name]}")
    return text


def parts_of(module, shape, form, args, line, is_written):
    """What `means` or `tree` of an enum names: the list of variants, the tag, and the names."""
    args, (_, read, _, write) = list(args), FORMS[form]
    trait = "UntaggedEnum" if form == "untagged" else "DataEnum"
    if ghost_of(module, args.pop(), trait, "values", line) != whole(shape):
        module.refuse(line, f"`{shape.name}` uses another type's values")
    if not is_written and form != "untagged" and args.pop() != Word("refl"):
        module.refuse(line, f"`means` of `{shape.name}` is not that of an enum")
    # `means` has the list first, and `tree` last.
    listed = args.pop() if is_written else args.pop(0)
    cases = cases_of(module, ghost_of(module, listed, write if is_written else read, "tree" if is_written else "meaning", line), line)
    tag = word_of(module, "HasTag", "tag", ghost_of(module, args.pop(0), "HasTag", "tag", line), line) if form == "internal" else None
    names = [None] * len(cases) if form == "untagged" else names_of(module, ghost_of(module, args.pop(0), "DataEnum", "names", line), line)
    return cases, tag, names


def form_of(module, shape, impl, term):
    """The form of an enum by its `means`, and the arguments of that."""
    for form, (word, *_) in FORMS.items():
        args = called(module, term, word, impl.line)
        if args is not None and len(args) == {"external": 4, "internal": 5, "untagged": 2}[form]:
            return form, args
    module.refuse(impl.line, f"`means` of `{shape.name}` is not that of an enum")


def enum_of(module, shape):
    """The model of an enum with data."""
    read, write = module.impl("FromJson", shape.name, shape.line), module.impl("Serialize", shape.name, shape.line)
    refuse_ghosts(module, read, {"means"})
    form, args = form_of(module, shape, read, term_in(module, read, "means"))
    found = parts_of(module, shape, form, args, read.line, False)
    args = called(module, term_in(module, write, "tree"), FORMS[form][2], write.line)
    if args is None or len(args) != len(found) + (form == "internal") - (form == "untagged"):
        module.refuse(write.line, f"`tree` of `{shape.name}` is not that of an enum of its form")
    if parts_of(module, shape, form, args, write.line, True) != found:
        module.refuse(write.line, f"`{shape.name}` is read and written by other variants, names or tags")
    cases, tag, names = found
    values = values_in(module, module.impl("UntaggedEnum" if form == "untagged" else "DataEnum", shape.name), shape.line)
    is_listed = sorted(at for at, *_ in values.values()) == list(range(len(cases))) and set(values) == {it[0] for it in shape.variants}
    if not is_listed or len(names) != len(cases) or form != "untagged" and len(set(names)) != len(names):
        module.refuse(shape.line, f"`{shape.name}` has {len(shape.variants)} variants, {len(cases)} in its list, and {len(names)} names")
    variants, contents = [None] * len(cases), set()
    for variant in shape.variants:
        at, variables, term = values[variant[0]]
        of, content = data_of(module, shape, form, cases[at], shape.line)
        contents |= {content} - {None}
        check_data(module, shape, variant, of, variables, term, content)
        variants[at] = Variant(variant[0], names[at], of, bool(variant[2]))
    if len(contents) > 1 or tag in contents:
        module.refuse(shape.line, f"the data of `{shape.name}` must be a member of one name, which is not the tag's: {', '.join(sorted(contents))}")
    content = contents.pop() if contents else None
    return Enum(shape.name, shape.params, shape.docs, "adjacent" if content is not None else form, variants, tag, content)


def data_of(module, shape, form, of, line):
    """The type of a variant's data by its entry in the list, None for none, and the name of the member that has them, None for none."""
    if form == "internal" and of is None:
        module.refuse(line, f"`{shape.name}` has a tag, and its list has `UnitCase`, which no object matches")
    if form == "internal" and of == Type("NoFields"):
        module.of_library("NoFields", line)
        return None, None
    if form == "internal" and of.name == "Content" and module.is_library("Content"):
        owner, inner = of.args
        if owner.name != shape.name:
            module.refuse(line, f"the member with the data of `{shape.name}` is that of `{owner}`")
        return inner, word_of(module, "HasContent", "content", owner, line)
    return (None if form == "untagged" and of == Type("()") else of), None


def check_data(module, shape, variant, of, variables, term, content):
    """Refuses a variant whose values are not those of its data, in their order."""
    name, values, fields = variant
    if content is not None:
        if not isinstance(term, Record) or [it for it, _ in term.fields] != ["value", "of"]:
            module.refuse(shape.line, f"`values` of `{shape.name}` gives `{name}` no content")
        term = term.fields[0][1]
    given = tuple(Word(it) for it in variables)
    wanted = {0: (Word("tt"), Record(())), 1: given}.get(len(values), (Tuple(given),))
    types = {0: None, 1: values[0] if values else None}.get(len(values), Type("()", values))
    if fields:
        own = module.shapes.get(of.name) if of else None
        if own is None or own.fields != fields or of != whole(own):
            module.refuse(shape.line, f"the data of `{name}` of `{shape.name}` are `{of}`, which has other fields")
        wanted, types = (Record(tuple((it, each) for (it, _), each in zip(fields, given))),), of
    if len(given) != (len(fields) or len(values)) or term not in wanted or types != of:
        module.refuse(shape.line, f"`{name}` of `{shape.name}` has the values `{types}`, and its list has `{of}`, of which it gives {term}")


