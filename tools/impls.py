"""The impls that `./derive` writes for a struct, and what those of each type have."""
import re

from fields import fields_text
from omitted import inner_of
from own import RESERVED
from places import place_text
from plain import const_of, plain


def quoted(name):
    return f"«{name}»" if plain(name) in RESERVED else name


def nested(items, last, word=""):
    """Nested items, as (a, (b, last)), or with a word in front of each bracket."""
    text = last
    for item in reversed(items):
        text = f"{word}({item}, {text})"
    return text


def wrapped(head, text):
    """A line of a clause, in more than one where it is long."""
    whole = f"    ghost {head} = {{ {text} }};"
    if len(plain(whole)) <= 100:
        return whole
    lines, now = [], f"    ghost {head} = {{"
    for word in re.split(r"(?<! v\.) ", f"{text} }};"):
        if len(plain(now)) + 1 + len(plain(word)) > 100:
            lines.append(now)
            now = "       "
        now += f" {word}"
    return "\n".join([*lines, now])


def values_of(names):
    """The clause of the fields' values. Of many fields it stands on one line, since `rt fmt` gives each three lines else."""
    pairs = "λ v. " + nested([f"v.{part}" for part in names], "tt")
    return wrapped("values", pairs) if len(names) <= 12 else f"    ghost values = {{ {pairs} }};"


def made_of(names):
    """The clause that makes a struct of the values of its fields."""
    made = [f"{quoted(name)} = x{'.1' * at}.0" for at, name in enumerate(names)]
    whole = f"    ghost made = {{ λ x. record {{ {'; '.join(made)} }} }};"
    if len(plain(whole)) <= 100:
        return whole
    return "\n".join(["    ghost made = { λ x. record {", *(f"      {it};" for it in made), "    } };"])


def beside(names, wanted):
    """The first of the wanted names that is none of the names, or that with a number behind it."""
    names = {plain(name) for name in names}
    return next(name for at in range(len(names) + 1) for each in wanted if (name := f"{each}{at or ''}") not in names)


def typed(it, end=""):
    """A type with its parameters: `Page<T>`, and `PageFields<T>` with the end `Fields`."""
    return f"{it.name}{end}<{', '.join(it.params)}>" if it.params else it.name + end


def impl_of(it, bound):
    """The first word of an impl, with a bound of each parameter: `impl<T: FromJson>`."""
    besides = {name: " + NeverNull" if bound == "RoundTrip" and name in it.bounded else "" for name in it.params}
    return f"impl<{', '.join(f'{name}: {bound}{besides[name]}' for name in it.params)}>" if it.params else "impl"


# The bounds of a parameter of a type that is written: its names and values are said by an impl for types that are read.
WRITTEN = "FromJson + Ranged + Serialize"

# What each type derives. An enum without data is small, so it is copied and compared.
DERIVES = {"struct": ["Drop"], "tagged": ["Drop"], "enum": ["Clone", "Copy", "PartialEq", "Eq", "Debug", "Drop"]}
# Derives of serde and the original, which the impls stand for.
STOOD_FOR = ("Serialize", "Deserialize")


def head_of(it):
    """A type as its user wrote it, with what it derives."""
    own = [name for name in it.derives if name not in STOOD_FOR and name not in DERIVES[it.kind]]
    word = "struct" if it.kind == "struct" else "enum"
    lines = [*it.above, f"#[derive({', '.join([*own, *DERIVES[it.kind]])})]", f"{it.public}{word} {typed(it)} {{"]
    for part in it.parts:
        lines += [f"    {line}".rstrip() for line in part.above]
        lines.append(f"    {part.public}{part.name}: {part.of}," if it.kind == "struct" else f"    {part.name}{data_of(part)},")
    return "\n".join([*lines, "}"])


def data_of(part):
    """The data of a variant as its user wrote it."""
    if part.values:
        return f"({', '.join(part.values)})"
    fields = ["\n".join([*(f"\n{line}" for line in it.above), f"{it.name}: {it.of}"]) for it in part.fields]
    return f" {{ {', '.join(fields)} }}" if fields else ""


def chain_of(names):
    """The name of the chain of a struct's values, which is no field's."""
    return beside(names, ("parts", "chain", "values"))


def laws_text(it, kind, types):
    """The impls of the laws, each by the call for its kind of type: the round trip if the crate has it, and those that are asked for."""

    tagged = it.kind == "tagged" and it.tag is not None
    aliased = it.kind == "struct" and has_aliases(it)

    def law(word, bounds, trait, call=None):
        fits = f"tag_fits::<{types}>();\n        " if tagged and word != "stable" else ""
        return f"""
{bounds} {trait} for {typed(it)} {{
    fn {word}() {{
        {fits}{call or ("tagged" if tagged else kind)}_{word}::<{types}>()
    }}
}}
"""

    never_null = f"""
{impl_of(it, "RoundTrip")} NeverNull for {typed(it)} {{
    fn never_null() {{}}
}}
"""
    round_trip = law("round_trips", impl_of(it, "RoundTrip"), "RoundTrip", "aliased" if aliased else None) if it.has_laws else ""
    lossless = law("lossless", lossless_impl(it), "Lossless") if "lossless" in it.words else ""
    if "untagged" in it.words:
        never_null = "" if it.may_be_null else law("never_null", impl_of(it, "RoundTrip"), "NeverNull")
    never_null = never_null if it.has_laws and ("lossless" in it.words or it.never_null) else ""
    return round_trip + lossless + never_null + (law("stable", impl_of(it, "Stable"), "Stable") if "stable" in it.words else "")


def lossless_impl(it):
    """The first word of the impl of `Lossless`: a parameter that an `Option` contains is never null besides."""

    def optional(name):
        types = [each.of for part in it.parts for each in [part, *part.fields]]
        return any(re.search(rf"\bOption<\s*(?:Box<\s*)*{name}\b", of) for of in types)

    bounds = [f"{name}: Lossless{' + NeverNull' if optional(name) or name in it.bounded else ''}" for name in it.params]
    return f"impl<{', '.join(bounds)}>" if bounds else "impl"


def of(kind, member, each):
    """A ghost member of a type's impl."""
    return f"⟦<{each} as {kind}>⟧.{member}"


def mark_of(it, part):
    """The mark of a field."""
    mark = "Plain" if part.default is None else f"WithDefault<{given_of(it, part)}>"
    return f"Once<{mark}>" if part.once or "once" in it.words else mark


def slots_of(it, parts):
    """The list of fields, in blocks of four: a check passes one impl for each block."""
    if not parts:
        return "Closed" if "closed" in it.words else "NoSlot"
    at = 4 if len(parts) >= 4 and not any(part.omit for part in parts[:4]) else 1
    marks, rest = [mark_of(it, part) for part in parts[:at]], slots_of(it, parts[at:])
    if parts[0].omit:
        return f"OmitSlot<{inner_of(parts[0])}, {marks[0]}, {rest}>"
    short = {"Plain": ["Slot", "FourSlot"], "Once<Plain>": ["OnceSlot"]}.get(marks[0], []) if len(set(marks)) == 1 else []
    if len(short) > at // 4:
        return f"{short[at // 4]}<{', '.join([*(part.of for part in parts[:at]), rest])}>"
    marked = [word for part, mark in zip(parts, marks) for word in (part.of, mark)]
    return f"Marked{'Four' if at == 4 else 'Slot'}<{', '.join([*marked, rest])}>"


def given_of(it, part):
    """The type that gives a missing field its value."""
    words = "".join(word[:1].upper() + word[1:] for word in part.name.split("_"))
    return f"{it.name}{words}Default" if part.default else "Empty"


def given_text(it, path):
    """The types that give missing fields their values."""
    text = ""
    for part in it.parts:
        if not part.default:
            continue
        name, uses, made = given_of(it, part), "", part.default
        if part.default[0] == '"':
            const = const_of(name).removesuffix("_NAMES")
            text += f"\nconst {const}: &str = {part.default};\n"
            uses = f"    ghost use Rattle.{path}.TheConstants.{{{const}}};\n\n"
            tree, made = f"str {const}.now", f"String::from_str(alloc, {const})?"
        elif part.default in ("true", "false"):
            tree = f"truth {part.default}"
        elif part.default[0].isalpha():
            tree, made = f'str (codes "{part.default_written}")', f"{part.of}::{part.default}"
        else:
            made = int(part.default)
            tree = f"nonneg {made}" if made >= 0 else f"neg (negsuc {-made - 1})"
        alloc = "alloc" if part.default[0] == '"' else "_alloc"
        text += f"""
/// The value of a missing `{part.name}`.
#[derive(Drop)]
{it.public}struct {name} {{}}

impl Given<{part.of}> for {name} {{
{uses}    ghost given = {{ {tree} }};

    fn make({alloc}: Global) -> Result<{part.of}> {{
        Ok({made})
    }}
}}
"""
    return text


def taken_of(names, chain):
    """The lines that take the fields' values out of their chain."""
    if len(names) >= 4:
        rest = "()" if len(names) == 4 else chain
        return [f"        let FourParts({', '.join(names[:4])}, {rest}) = take_four({chain});", *taken_of(names[4:], chain)]
    return [f"        let {nested(names, '()', 'Parts')} = {chain};"] if names else []


def lent_of(parts, before=""):
    """The fields' values, lent in blocks of four; `before` stands in front of a field's name."""
    if not parts:
        return "()"
    if len(parts) >= 4 and not any(part.omit for part in parts[:4]):
        return f"FourLent({', '.join(before + part.name for part in parts[:4])}, {lent_of(parts[4:], before)})"
    name = before + parts[0].name
    return f"Parts({f'Omitted({name})' if parts[0].omit else name}, {lent_of(parts[1:], before)})"


def struct_text(it, path):
    """A struct with its impls."""
    return f"""{head_of(it)}
{given_text(it, path)}
// Its fields, and their names.
type {typed(it, "Fields")} = {slots_of(it, it.parts)};

const {const_of(it.name)}: &[&str] = &[{", ".join(f'"{part.written}"' for part in it.parts)}];
{record_text(it, path)}{aliases_text(it, path)}{reading_text(it)}{writing_text(it)}{laws_text(it, "record", f"{typed(it)}, {typed(it, 'Fields')}")}{inside_text(it)}{fields_text(it, mark_of)}{place_text(it)}"""


def record_text(it, path):
    """The impl that takes a struct apart and makes one."""
    name, const, names = typed(it), const_of(it.name), [part.name for part in it.parts]
    chain = chain_of(names)
    return f"""
{impl_of(it, "FromJson")} Record for {name} {{
    ghost use Rattle.{path}.TheConstants.{{{const}}};

    type Values = <{typed(it, "Fields")} as Slots>::Values;

    ghost names = {{ names_of {const} }};

{values_of(names)}

{made_of(names)}

    ghost bijective = {{ (λ v. refl, λ x. refl) }};

    ghost distinct_names = {{ refl }};

    fn names() -> &'static [&'static str] {{
        {const}
    }}

    fn build({chain}: Self::Values) -> {name} {{
{chr(10).join(taken_of(names, chain))}
        {it.name} {{ {", ".join(names)} }}
    }}
}}
"""


def has_aliases(it):
    """Whether a struct is read by other names too."""
    return any(part.aliases for part in it.parts)


def read_fields(it):
    """The type that reads a struct's fields."""
    fields = typed(it, "Fields")
    return f"Aliased<{typed(it)}, {fields}>" if has_aliases(it) else fields


def aliases_text(it, path):
    """The impl that lists the other names of a struct's fields."""
    if not has_aliases(it):
        return ""
    const = const_of(it.name).removesuffix("_NAMES") + "_ALIASES"
    pairs = ", ".join(f'("{alias}", "{part.written}")' for part in it.parts for alias in part.aliases)
    return f"""
const {const}: &[(&str, &str)] = &[{pairs}];

{impl_of(it, "FromJson")} HasAliases for {typed(it)} {{
    ghost use Rattle.{path}.TheConstants.{{{const}}};

    ghost aliases = {{ aliases_of {const} }};

    ghost apart = {{ refl }};

    fn aliases() -> &'static [(&'static str, &'static str)] {{
        {const}
    }}
}}
"""


def reading_text(it):
    """The impl that reads a struct."""
    name, fields = typed(it), read_fields(it)
    meaning = f"struct_meaning {of('Slots', 'meaning', fields)} {of('Record', 'names', name)} {of('Record', 'values', name)}"
    return f"""
{impl_of(it, "FromJson")} FromJson for {name} {{
{wrapped("means", meaning)}

    fn missing() -> Option<{name}> {{
        None
    }}

    fn read<'a>(token: Event<'a>, source: &mut Source<'a>) -> Result<{name}> {{
        read_record::<{name}, {fields}>(token, source)
    }}
}}
"""


def rise(names):
    """Whether the names strictly rise in byte order, so that an object of members in their order may be canonical."""
    names = [name.encode() for name in names]
    return all(one < other for one, other in zip(names, names[1:]))


def writing_text(it):
    """The impls that write a struct, and say which of its values are valid."""
    name, fields = typed(it), typed(it, "Fields")
    call = "write_members_in_order" if rise(part.written for part in it.parts) else "write_members"
    tree = f"record_tree {of('Record', 'names', name)} {of('WrittenFields', 'trees', fields)} {of('Record', 'values', name)}"
    valid = f"λ v. {of('WrittenFields', 'valid', fields)} ({of('Record', 'values', name)} v)"
    return f"""
{impl_of(it, WRITTEN)} Serialize for {name} {{
{wrapped("tree", tree)}

    fn begin(&self, w: &mut Writer) -> Result<()> {{
        {call}(w, {const_of(it.name)}, &{lent_of(it.parts, "&self.")})
    }}
}}

{impl_of(it, WRITTEN)} Ranged for {name} {{
{wrapped("valid", valid)}

    fn ranged(&self) {{
{chr(10).join(f"        self.{part.name}.ranged();" for part in it.parts)}
    }}
}}
"""


def read_inside(it, fields):
    """The function that reads a struct beside a tag. The enum is a parameter, of a name that the struct has not."""
    name, tagged = typed(it), beside(it.params, ("E", "K", "W", "X", "Y"))
    return f"""    fn read_inside<'a, {tagged}: HasTag>(token: Event<'a>, source: &mut Source<'a>) -> Result<{name}> {{
        read_record::<{name}, BesideTag<{tagged}, {fields}>>(token, source)
    }}"""


def inside_text(it):
    """The impl of a struct whose members may stand beside a tag."""
    if "inside" not in it.words:
        return ""
    name = typed(it)
    return f"""
{impl_of(it, WRITTEN)} Inside for {name} {{
    ghost fields = {{ {of('Record', 'names', name)} }};

{read_inside(it, read_fields(it))}

    fn write_inside(&self, w: &mut Writer) -> Result<()> {{
        Members::write(&{lent_of(it.parts, "&self.")}, w, {const_of(it.name)})
    }}

    fn is_object() {{
        fields_named()
    }}
}}
"""
