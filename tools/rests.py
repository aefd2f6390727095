"""The impls that `./derive` writes for a struct with a field that keeps the members that no other field takes, and what it refuses of such a struct."""
import re

from impls import WRITTEN, aliases_text, chain_of, given_text, has_aliases, head_of, impl_of, lent_of, lossless_impl, nested, of, quoted, slots_of
from impls import read_inside, taken_of, typed, wrapped
from plain import const_of


def rest_of(it):
    """The field that keeps the other members, if the struct has one."""
    return next((part for part in it.parts if part.rest), None)


def fields_of(it):
    """The fields that have a name in JSON."""
    return [part for part in it.parts if not part.rest]


def value_of(part):
    """The type of the values of a field that keeps the other members."""
    return re.fullmatch(r"BTreeMap<\s*String\s*,\s*(.+?)\s*>", part.of).group(1)


def check_rests(found):
    """Refuses `rest` where no map keeps the other members, or where something else is asked of them."""
    enums = {it.name: it for it in found}
    for it in found:
        rests = [part for part in it.parts if part.rest]
        if not rests:
            continue
        line = rests[0].line
        if it.variant:
            yield f"line {line}: the named fields of a variant have no `rest`: write a struct of them, and a variant of the struct"
            continue
        if len(rests) > 1:
            yield f"line {rests[1].line}: one field keeps the other members: leave out the second `rest`"
        if not re.fullmatch(r"BTreeMap<\s*String\s*,.+>", rests[0].of):
            yield f"line {line}: `rest` marks a map of the other members, as `BTreeMap<String, Document>`; of an inner struct, write the fields: {rests[0].of}"
        if rests[0].once or rests[0].default is not None or rests[0].omit or rests[0].refused or rests[0].aliases:
            yield f"line {line}: a field with `rest` has no name in JSON, and no other mark"
        for word, why in (
            ("closed", "refuses the members that `rest` keeps"),
            ("events", "has a place, which keeps no other members yet"),
            ("refused", "is looked for field by field, which a rest is not yet"),
        ):
            if word in it.words:
                yield f"line {it.line}: a struct that is `{word}` {why}: leave out `{word}` or `rest`"
        if "inside" in it.words and not it.beside:
            yield f"line {it.line}: which tag `rest` leaves out cannot be told here: write the enum in this file, and leave out `inside`"
        for name in it.beside:
            if enums[name].params:
                yield f"line {it.line}: `rest` leaves out the tag of `{name}`, which must have no parameters: leave out `rest` or the parameters"


def listed(aliased, enums):
    """The type that lists the names that the map leaves out besides those of the fields: the aliases of the struct `aliased`, if
    it has any, and the tags of the enums."""
    more = f", {listed('', enums[1:] if not aliased else enums)}" if len(enums) > (not aliased) else ""
    return f"AliasesOf<{aliased}{more}>" if aliased else f"TagOf<{enums[0]}{more}>" if enums else "NoNames"


def further_of(it, whole):
    """The type that lists these names of a struct."""
    return listed(whole if has_aliases(it) else "", it.beside)


def names_of(it, whole):
    """These names in a clause."""
    tags = "".join(f"{of('HasTag', 'tag', name)} ∷ " for name in it.beside) + "[]"
    if not has_aliases(it):
        return f"({tags})" if it.beside else "[]"
    aliases = f"alias_names {of('HasAliases', 'aliases', whole)}"
    return f"({aliases} ++ {tags})" if it.beside else f"({aliases})"


def rest_text(it, path):
    """A struct with a rest, with its impls."""
    name, rest, fields = it.name, rest_of(it), fields_of(it)
    value, chain, const = value_of(rest), typed(it, "Fields"), const_of(it.name)
    names = [part.name for part in fields]
    whole = typed(it)
    record, written = of("Record", "values", whole), of("WrittenFields", "trees", chain)
    further = further_of(it, whole)
    read = f"WithRest<{whole}, {chain}, {value}>" if further == "NoNames" else f"WithRest<{whole}, {chain}, {value}, {further}>"
    read = f"Aliased<{whole}, {read}>" if has_aliases(it) else read
    made = [f"{quoted(part)} = x.1{'.1' * at}.0" for at, part in enumerate(names)] + [f"{quoted(rest.name)} = x.0"]
    meaning = f"struct_meaning {of('Slots', 'meaning', read)} {of('Record', 'names', whole)} {record}"
    tree = f"rest_tree string_bytes {of('Record', 'names', whole)} {names_of(it, whole)} {of('Serialize', 'tree', value)} (λ m. m.entries) {written} {record}"
    valid = f"λ v. {of('Ranged', 'valid', rest.of)} ({record} v).0 × {of('WrittenFields', 'valid', chain)} ({record} v).1"
    parts = chain_of([part.name for part in it.parts])
    return f"""{head_of(it)}
{given_text(it, path)}
// Its fields without the rest, and their names.
{it.public}type {chain} = {slots_of(it, fields)};

const {const}: &[&str] = &[{", ".join(f'"{part.written}"' for part in fields)}];

{impl_of(it, "FromJson")} Record for {whole} {{
    ghost use Rattle.{path}.TheConstants.{{{const}}};

    type Values = Parts<{rest.of}, <{chain} as Slots>::Values>;

    ghost names = {{ names_of {const} }};

{wrapped("values", f"λ v. (v.{rest.name}, {nested([f'v.{part}' for part in names], 'tt')})")}

    ghost made = {{ λ x. record {{ {'; '.join(made)} }} }};

    ghost bijective = {{ (λ v. refl, λ x. refl) }};

    ghost distinct_names = {{ refl }};

    fn names() -> &'static [&'static str] {{
        {const}
    }}

    fn build({parts}: Self::Values) -> {whole} {{
        let Parts({rest.name}, {parts}) = {parts};
{chr(10).join(taken_of(names, parts))}
        {name} {{ {", ".join(part.name for part in it.parts)} }}
    }}
}}
{aliases_text(it, path)}
{impl_of(it, "FromJson")} FromJson for {whole} {{
{wrapped("means", meaning)}

    fn missing() -> Option<{whole}> {{
        None
    }}

    fn read<'a>(token: Event<'a>, source: &mut Source<'a>) -> Result<{whole}> {{
        read_record::<{whole}, {read}>(token, source)
    }}
}}

{impl_of(it, WRITTEN)} Serialize for {whole} {{
{wrapped("tree", tree)}

    fn begin(&self, w: &mut Writer) -> Result<()> {{
        write_members_and_rest::<{further}, _, _>(w, {const}, &{lent_of(fields, "&self.")}, &self.{rest.name})
    }}
}}

{impl_of(it, WRITTEN)} Ranged for {whole} {{
{wrapped("valid", valid)}

    fn ranged(&self) {{
{chr(10).join(f"        self.{part.name}.ranged();" for part in it.parts)}
    }}
}}
{laws_of(it, whole, chain, value)}{beside_of(it, whole, chain, value, read)}"""


def laws_of(it, whole, chain, value):
    """The impls of the laws."""
    types = f"{whole}, {chain}, {value}"
    more = f"{types}, {further_of(it, whole)}"
    round_trips = f"aliased_rest_round_trips::<{types}, {listed('', it.beside)}>()" if has_aliases(it) else f"rest_round_trips::<{more}>()"
    text = f"""
{impl_of(it, "RoundTrip")} RoundTrip for {whole} {{
    fn round_trips() {{
        <{chain} as OpenFields>::open();
        {round_trips}
    }}
}}
""" if it.has_laws else ""
    if "lossless" in it.words:
        text += f"""
{lossless_impl(it)} Lossless for {whole} {{
    fn lossless() {{
        rest_lossless::<{more}>()
    }}
}}
"""
    if it.has_laws and ("lossless" in it.words or it.never_null):
        text += f"""
{impl_of(it, "RoundTrip")} NeverNull for {whole} {{
    fn never_null() {{}}
}}
"""
    if "stable" in it.words:
        text += f"""
{impl_of(it, "Stable")} Stable for {whole} {{
    fn stable() {{
        rest_stable::<{more}>()
    }}
}}
"""
    return text


def beside_of(it, whole, chain, value, read):
    """The impl of a struct whose members may stand beside a tag, which its map leaves out."""
    if not it.beside:
        return ""
    further, fields = further_of(it, whole), lent_of(fields_of(it), "&self.")
    return f"""
{impl_of(it, WRITTEN)} Inside for {whole} {{
    ghost fields = {{ {of('Record', 'names', whole)} }};

    ghost left_out = {{ is_among {names_of(it, whole)} }};

{read_inside(it, read)}

    fn write_inside(&self, w: &mut Writer) -> Result<()> {{
        write_inside_and_rest::<{further}, _, _>(w, {const_of(it.name)}, &{fields}, &self.{rest_of(it).name})
    }}

    fn is_object() {{
        rest_named::<{whole}, {chain}, {value}, {further}>()
    }}
}}
"""
