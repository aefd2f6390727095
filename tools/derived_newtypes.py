"""What the impls of a derived newtype say: the value inside, its check, and whether it may be missing; and as a map's key."""
from dataclasses import dataclass

from derived_structs import called, refuse_ghosts, term_in, whole
from derived_terms import Call, Dot, Lambda, Of, Record, Word
from derived_text import Type


@dataclass
class Newtype:
    """A newtype: the type of its value, its check with the file that has it, "" for none, whether it is a string by its `TextValue`, and whether
    it may be missing where its value may. `is_key` says that it is a map's key, and `is_value` that it is read from JSON."""

    name: str
    params: tuple
    docs: tuple
    of: Type
    check: str = ""
    is_text: bool = False
    may_be_missing: bool = False
    is_key: bool = False
    is_value: bool = True


def member_of(of, trait, member, params):
    """The term of a ghost member of a type: of a parameter it is short."""
    return Dot(Word(of.name), member) if of.name in params else Of(of, trait, member)


def check_of(module, term, line, on):
    """The check that a term is: its name, and the file of definitions that has it."""
    args = called(module, term, on, line)
    word = args[0] if args and len(args) == 1 else term
    path = module.words.get(word.name, "") if isinstance(word, Word) else ""
    parts = path.split(".")
    if len(parts) < 5 or parts[0] != "Rattle" or parts[2] != "specs" or parts[1] in ("std", "miniserde", "miniserde_core", "miniserde_more"):
        module.refuse(line, f"a check that is not imported from a file of definitions: {term}")
    return f"{parts[-1]} of crates/{parts[1]}/specs/{'/'.join(parts[3:-1])}.antt"


def inside_of(module, shape):
    """The name and the type of a newtype's one field."""
    if len(shape.fields) != 1 or shape.fields[0][0] != ("value" if shape.ghosts else "0"):
        module.refuse(shape.line, f"`{shape.name}` is neither a struct, an enum nor a newtype that this reader knows")
    return shape.fields[0]


def meaning_in(module, shape, impl):
    """The check that `means` of a newtype has, "" for none."""
    field, of = inside_of(module, shape)
    inner = member_of(of, "FromJson", "means", shape.params)
    taken = Lambda(("v",), Dot(Word("v"), field))
    term = term_in(module, impl, "means")
    if called(module, term, "box_meaning", impl.line) == (inner, taken):
        return ""
    args = called(module, term, "checked_meaning", impl.line)
    if args is None or len(args) != 3 or (args[0], args[2]) != (inner, taken):
        module.refuse(impl.line, f"`means` of `{shape.name}` is not that of a newtype of `{of}`: {term}")
    checked, on = module.impl("Checked", shape.name, shape.line), "on_unsigned"
    if term_in(module, checked, "accepts") != args[1] or term_in(module, checked, "means") != inner or term_in(module, checked, "inner") != taken:
        module.refuse(checked.line, f"`Checked` of `{shape.name}` has another check or value than `means`")
    return check_of(module, args[1], impl.line, on)


def check_tree(module, shape):
    """Refuses a newtype that is not written as its value."""
    impl = module.impl("Serialize", shape.name, shape.line)
    field, of = inside_of(module, shape)
    wanted = Lambda(("v",), Call(member_of(of, "Serialize", "tree", shape.params), (Dot(Word("v"), field),)))
    if term_in(module, impl, "tree") != wanted:
        module.refuse(impl.line, f"`{shape.name}` is not written as its value, a `{of}`")


def is_absent(module, shape, impl):
    """Whether a missing newtype has a value where its inner type has."""
    if "absent" not in impl.ghosts:
        return False
    field, of = inside_of(module, shape)
    wanted = (Lambda(("v",), Record(((field, Word("v")),))), member_of(of, "FromJson", "absent", shape.params))
    if called(module, term_in(module, impl, "absent"), "option_map", impl.line) != wanted:
        module.refuse(impl.line, f"`absent` of `{shape.name}` is not that of its value, a `{of}`")
    return True


def text_of(module, shape):
    """The model of a newtype that is written as a string."""
    read, write = module.impl("FromJson", shape.name, shape.line), module.impl("Serialize", shape.name, shape.line)
    leaf, own = module.impl("Leaf", shape.name, shape.line), whole(shape)
    member = lambda name: Of(own, "TextValue", name)
    refuse_ghosts(module, read, {"means", "read_infallible", "lacking"})
    module.of_library("TextValue", shape.line)
    if called(module, term_in(module, leaf, "means"), "text_value_meaning", leaf.line) != (member("parsed"), member("content")):
        module.refuse(leaf.line, f"`means` of `{shape.name}` is not that of its `TextValue`")
    text = Call(member("text"), (Call(member("content"), (Word("v"),)),))
    tree = term_in(module, write, "tree")
    if not isinstance(tree, Lambda) or tree.names != ("v",) or called(module, tree.body, "str", write.line) != (text,):
        module.refuse(write.line, f"`{shape.name}` is not written as the text of its `TextValue`")
    return Newtype(shape.name, shape.params, shape.docs, inside_of(module, shape)[1], is_text=True)


def check_key(module, shape, check):
    """Refuses a newtype that is another key than its value, with the same check."""
    impl, (field, of) = module.impl("MapKey", shape.name), inside_of(module, shape)
    member = lambda name: member_of(of, "MapKey", name, shape.params)
    taken = lambda name: Lambda(("v",), Call(member(name), (Dot(Word("v"), field),)))
    read, own = term_in(module, impl, "read"), ""
    if args := called(module, read, "checked_key", impl.line):
        own, read = check_of(module, args[0], impl.line, "on_unsigned_key"), args[1]
    has_code = "code" not in impl.ghosts or term_in(module, impl, "code") == member("code")
    if (read, own) != (member("read"), check) or any(term_in(module, impl, it) != taken(it) for it in ("content", "text")) or not has_code:
        module.refuse(impl.line, f"as a map's key `{shape.name}` is not its value, a `{of}`, with its check")


def newtype_of(module, shape):
    """The model of a newtype, by its impls."""
    field, of = inside_of(module, shape)
    is_key = module.has("MapKey", shape.name)
    if not module.has("FromJson", shape.name) and is_key and not shape.ghosts:
        check_key(module, shape, "")
        return Newtype(shape.name, shape.params, shape.docs, of, is_key=True, is_value=False)
    impl = module.impl("FromJson", shape.name, shape.line)
    if term_in(module, impl, "means") == Of(whole(shape), "Leaf", "means"):
        return text_of(module, shape)
    refuse_ghosts(module, impl, {"means", "absent", "read_infallible", "lacking"})
    check = meaning_in(module, shape, impl)
    check_tree(module, shape)
    if module.has("Leaf", shape.name) and term_in(module, module.impl("Leaf", shape.name), "means") != term_in(module, impl, "means"):
        module.refuse(impl.line, f"`Leaf` of `{shape.name}` has another check or value than `means`")
    if is_key:
        check_key(module, shape, check)
    return Newtype(shape.name, shape.params, shape.docs, of, check, False, is_absent(module, shape, impl), is_key)
