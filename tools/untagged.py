"""The impls that `./derive` writes for an enum whose variants are told apart by the kind of the JSON value."""
from enums import arms, bijective_clause, built_of, case_clause, made_clause, names_in, ranged_of
from impls import WRITTEN, beside, head_of, impl_of, laws_text, lent_of, of, quoted, typed, wrapped
from plain import const_of


def cases_of(parts):
    """The list of variants: the types of their data, `()` for none."""
    return f"DataCase<{parts[0].of or '()'}, {cases_of(parts[1:])}>" if parts else "NoCase"


def untagged_text(it, path):
    """An untagged enum with its impls."""
    return f"""{head_of(it)}

// Its variants.
type {typed(it, "Cases")} = {cases_of(it.parts)};
{variants_text(it, path)}{reading_text(it)}{writing_text(it)}{ranged_text(it)}{laws_text(it, "untagged", f"{typed(it)}, {typed(it, 'Cases')}")}"""


def bound_of(it):
    """The first word of an impl: what is inside a variant's data, as in a list, is read."""
    return impl_of(it, "FromJson")


def variants_text(it, path):
    """The impl that takes an enum apart and makes one."""
    values = " | ".join(case_clause(it, at, part) for at, part in enumerate(it.parts))
    return f"""
{bound_of(it)} UntaggedEnum for {typed(it)} {{
    ghost use Rattle.{path}.{it.name}.TheVariants.{{{", ".join(quoted(part.name) for part in it.parts)}}};

    type Values = <{typed(it, "Cases")} as UntaggedCases>::Values;

{wrapped("values", f"elim [ {values} ]")}

{wrapped("made", made_clause(it.parts))}

{wrapped("bijective", bijective_clause(it.parts))}

    fn build(value: Self::Values) -> {typed(it)} {{
        {built_of(it, it.parts)}
    }}
}}
"""


def reading_text(it):
    """The impl that reads an enum."""
    name, cases = typed(it), typed(it, "Cases")
    return f"""
{bound_of(it)} FromJson for {name} {{
{wrapped("means", f"untagged_meaning {of('UntaggedCases', 'meaning', cases)} {of('UntaggedEnum', 'values', name)}")}

    fn missing() -> Option<{name}> {{
        None
    }}

    fn read<'a>(token: Event<'a>, source: &mut Source<'a>) -> Result<{name}> {{
        read_untagged::<{name}, {cases}>(token, source)
    }}
}}
"""


def written_of(it, part, writer):
    """The call that writes a variant: its data, or `null`."""
    if part.fields:
        return f"{{ write_members({writer}, {const_of(it.name + part.name)}, &{lent_of(part.fields)}) }}"
    if not part.values:
        return f"{writer}.fragment(Fragment::Null)"
    value = "a" if len(part.values) == 1 else f"({', '.join(names_in(part))})"
    return f"{value}.begin({writer})"


def writing_text(it):
    """The impl that writes an enum. The writer has a name that no field has."""
    name, cases = typed(it), typed(it, "Cases")
    fields = {field.name for part in it.parts for field in part.fields}
    writer = beside(fields, ("w", "writer", "out", "to"))
    tree = f"untagged_tree {of('WrittenUntagged', 'tree', cases)} {of('UntaggedEnum', 'values', name)}"
    return f"""
{impl_of(it, WRITTEN)} Serialize for {name} {{
{wrapped("tree", tree)}

    fn begin(&self, {writer}: &mut Writer) -> Result<()> {{
        match self {{
{arms(it, lambda part: written_of(it, part, writer))}
        }}
    }}
}}
"""


def ranged_text(it):
    """The impl that says which values of an enum are valid."""
    name, cases = typed(it), typed(it, "Cases")
    valid = f"λ v. {of('WrittenUntagged', 'valid', cases)} ({of('UntaggedEnum', 'values', name)} v)"
    return f"""
{impl_of(it, WRITTEN)} Ranged for {name} {{
{wrapped("valid", valid)}

    fn ranged(&self) {{
        match self {{
{arms(it, ranged_of)}
        }}
    }}
}}
"""
