"""The impls that `./derive` writes for an enum whose variants may have data."""
from impls import WRITTEN, beside, head_of, impl_of, laws_text, lent_of, of, quoted, typed, wrapped
from plain import const_of


def cases_of(it, parts):
    """The list of variants: the types of their data."""
    if not parts:
        return "NoCase"
    rest = cases_of(it, parts[1:])
    data = parts[0].of or "NoFields" * (it.tag is not None)
    data = f"Content<{typed(it)}, {data}>" if it.content is not None and parts[0].of else data
    return f"DataCase<{data}, {rest}>" if data else f"UnitCase<{rest}>"


def traits_of(it):
    """The trait that reads the variants, and what the calls of the enum's kind of tag are called."""
    return ("Cases", "enum") if it.tag is None else ("InsideCases", "tagged")


def tag_word(it):
    """The tag's name among the words of a clause, if the enum has one."""
    return "" if it.tag is None else f" {of('HasTag', 'tag', typed(it))}"


def names_in(part):
    """The names of a variant's values in code: of its fields their own."""
    return [it.name for it in part.fields] or list("abcdef")[: len(part.values)]


def variant_text(it, part):
    """A variant with its values by their names, as a pattern and as an expression."""
    names = ", ".join(names_in(part))
    return f"{it.name}::{part.name}{f' {{ {names} }}' if part.fields else f'({names})' if names else ''}"


def data_text(it, part):
    """The data of a variant with its values by their names, as a pattern."""
    names = ", ".join(names_in(part))
    if it.tag is not None and not part.of:
        return "NoFields {}"
    if it.content is not None:
        return f"Content {{ value: {inner_text(it, part, names)}, of: _ }}"
    return inner_text(it, part, names)


def inner_text(it, part, names):
    """The data of a variant with its values by their names, as a pattern, without what stands around it."""
    return f"{it.name}{part.name} {{ {names} }}" if part.fields else names if len(part.values) == 1 else f"({names})"


def case_clause(it, at, part):
    """The line of a clause that takes a variant apart: its data among the variants' values."""
    names = [f"x{each}" for each in range(len(part.fields) or len(part.values))]
    data = names[0] if len(part.values) == 1 else f"({', '.join(names)})" if names else "tt" if it.tag is None else "(record { })"
    if part.fields:
        data = f"(record {{ {'; '.join(f'{quoted(field.name)} = {name}' for field, name in zip(part.fields, names))} }})"
    if it.content is not None and part.of:
        data = f"(record {{ value = {data}; of = record {{}} }})"
    return f"{' '.join([quoted(part.name), *names])} ↦ {'later_case (' * at}first_case {data}{')' * at}"


def data_names(part, data):
    """The values of a variant by the name `data` of its data, in a clause."""
    if part.fields:
        return [f"{data}.{it.name}" for it in part.fields]
    return [data] if len(part.values) == 1 else [f"{data}.{at}" for at in range(len(part.values))]


def each_clause(parts, text):
    """The clause that has `text` for each variant and the name `x` of its data."""
    if not parts:
        return "any_of_never _"
    return f"each_case _ (λ x. {text(parts[0])}) ({each_clause(parts[1:], text)})"


def made_clause(parts, data="x"):
    """The clause that makes the enum of each value of a variant."""
    return each_clause(parts, lambda part: " ".join([quoted(part.name), *data_names(part, data)]))


def bijective_clause(parts):
    """The law that the clauses of `values` and `made` are inverse to each other, by computing variant by variant."""
    names = lambda part: [f"x{each}" for each in range(len(part.fields) or len(part.values))]
    taken = " | ".join(f"{' '.join([quoted(part.name), *names(part)])} ↦ refl" for part in parts)
    return f"(elim [ {taken} ], {each_clause(parts, lambda part: 'refl')})"


def built_of(it, parts):
    """The match that builds the enum of a variant's value."""
    if not parts:
        return "match value {}"
    return (
        f"match value {{ OneOf::First({data_text(it, parts[0])}) => {variant_text(it, parts[0])}, "
        f"OneOf::Later(value) => {built_of(it, parts[1:])}, }}"
    )


def tagged_text(it, path):
    """An enum with data with its impls."""
    return f"""{head_of(it)}

// Its variants, and their names.
type {typed(it, "Cases")} = {cases_of(it, it.parts)};

const {const_of(it.name)}: &[&str] = &[{", ".join(f'"{part.written}"' for part in it.parts)}];
{variants_text(it, path)}{tag_text(it, path)}{reading_text(it)}{writing_text(it)}{ranged_text(it)}{laws_text(it, "enum", f"{typed(it)}, {typed(it, 'Cases')}")}"""


def variants_text(it, path):
    """The impl that takes an enum apart and makes one."""
    name, const = typed(it), const_of(it.name)
    values = " | ".join(case_clause(it, at, part) for at, part in enumerate(it.parts))
    return f"""
{impl_of(it, "FromJson")} DataEnum for {name} {{
    ghost use Rattle.{path}.TheConstants.{{{const}}};
    ghost use Rattle.{path}.{it.name}.TheVariants.{{{", ".join(quoted(part.name) for part in it.parts)}}};

    type Values = <{typed(it, "Cases")} as {traits_of(it)[0]}>::Values;

    ghost names = {{ names_of {const} }};

{wrapped("values", f"elim [ {values} ]")}

{wrapped("made", made_clause(it.parts, "x.value" if it.content is not None else "x"))}

{wrapped("bijective", bijective_clause(it.parts))}

    ghost distinct_names = {{ refl }};

    fn names() -> &'static [&'static str] {{
        {const}
    }}

    fn build(value: Self::Values) -> {name} {{
        {built_of(it, it.parts)}
    }}
}}
"""


def tag_text(it, path):
    """The impl that has the name of an enum's tag."""
    if it.tag is None:
        return ""
    const = const_of(it.name).removesuffix("_NAMES") + "_TAG"
    return f"""
const {const}: &[&str] = &["{it.tag}"];

{impl_of(it, "FromJson")} HasTag for {typed(it)} {{
    ghost use Rattle.{path}.TheConstants.{{{const}}};

    ghost tag = {{ codes "{it.tag}" }};

    fn tag() -> &'static [&'static str] {{
        {const}
    }}
}}
{content_text(it, path)}"""


def content_text(it, path):
    """The impl that has the name of the member beside the tag."""
    if it.content is None:
        return ""
    const = content_const(it)
    return f"""
const {const}: &[&str] = &["{it.content}"];

{impl_of(it, "FromJson")} HasContent for {typed(it)} {{
    ghost use Rattle.{path}.TheConstants.{{{const}}};

    ghost content = {{ codes "{it.content}" }};

    fn content() -> &'static [&'static str] {{
        {const}
    }}
}}
"""


def content_const(it):
    """The constant of the name of the member beside the tag."""
    return const_of(it.name).removesuffix("_NAMES") + "_CONTENT"


def reading_text(it):
    """The impl that reads an enum."""
    name, cases = typed(it), typed(it, "Cases")
    trait, kind = traits_of(it)
    meaning = f"{kind}_meaning {of(trait, 'meaning', cases)}{tag_word(it)} {of('DataEnum', 'names', name)} refl {of('DataEnum', 'values', name)}"
    return f"""
{impl_of(it, "FromJson")} FromJson for {name} {{
{wrapped("means", meaning)}

    fn missing() -> Option<{name}> {{
        None
    }}

    fn read<'a>(token: Event<'a>, source: &mut Source<'a>) -> Result<{name}> {{
        read_{kind}::<{name}, {cases}>(token, source)
    }}
}}
"""


def written_of(it, part, writer):
    """The call that writes a variant."""
    tag = f'"{it.tag}", ' if it.tag is not None else ""
    if it.content is not None and part.values:
        value = "a" if len(part.values) == 1 else f"&({', '.join(names_in(part))})"
        return f'write_tagged_fields({writer}, {tag}"{part.written}", {content_const(it)}, &Parts({value}, ()))'
    if part.fields or tag and not part.of:
        const = const_of(it.name + part.name) if part.fields else "&[]"
        return f'{{ write{"_tagged" * bool(tag)}_fields({writer}, {tag}"{part.written}", {const}, &{lent_of(part.fields)}) }}'
    if part.values:
        value = "a" if len(part.values) == 1 else f"&({', '.join(names_in(part))})"
        return f'write_{"tagged" if tag else "data"}({writer}, {tag}"{part.written}", {value})'
    return f'{writer}.fragment(Fragment::Str("{part.written}"))'


def arms(it, each):
    """The arms of a match on an enum, in lines."""
    return "\n".join(f"            {variant_text(it, part)} => {each(part)}," for part in it.parts).replace(" => {},\n", " => {}\n")


def writing_text(it):
    """The impl that writes an enum. The writer has a name that no field has."""
    name, cases = typed(it), typed(it, "Cases")
    fields = {field.name for part in it.parts for field in part.fields}
    writer = beside(fields, ("w", "writer", "out", "to"))
    tree = f"{traits_of(it)[1]}_tree{tag_word(it)} {of('DataEnum', 'names', name)} {of('WrittenCases', 'tree', cases)} {of('DataEnum', 'values', name)}"
    return f"""
{impl_of(it, WRITTEN)} Serialize for {name} {{
{wrapped("tree", tree)}

    fn begin(&self, {writer}: &mut Writer) -> Result<()> {{
        match self {{
{arms(it, lambda part: written_of(it, part, writer))}
        }}
    }}
}}
"""


def ranged_of(part):
    """The call that promises that a variant's values are valid."""
    calls = [f"{name}.ranged()" for name in names_in(part)]
    return calls[0] if len(part.values) == 1 else f"{{ {' '.join(f'{call};' for call in calls)} }}" if calls else "{}"


def ranged_text(it):
    """The impl that says which values of an enum are valid."""
    name, cases = typed(it), typed(it, "Cases")
    valid = f"λ v. {of('WrittenCases', 'valid', cases)} ({of('DataEnum', 'values', name)} v)"
    return f"""
{impl_of(it, WRITTEN)} Ranged for {name} {{
{wrapped("valid", valid)}

    fn ranged(&self) {{
        match self {{
{arms(it, ranged_of)}
        }}
    }}
}}
"""
