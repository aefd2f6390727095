"""The impls that `./derive` writes for an enum without data."""
from impls import head_of, laws_text, quoted, wrapped
from places import name_place_text


def enum_text(it, path):
    """A unit enum with its impls."""
    name = it.name
    return f"""{head_of(it)}
{unit_text(it, path)}
impl FromJson for {name} {{
    ghost means = {{ ⟦<{name} as Variants>⟧.meaning }};

    ghost read_infallible = {{ true }};

    fn missing() -> Option<{name}> {{
        None
    }}

    fn read<'a>(token: Event<'a>, source: &mut Source<'a>) -> Result<{name}> {{
        read_variant(token, source)
    }}
}}

impl Serialize for {name} {{
    ghost tree = {{ λ v. str (⟦<{name} as UnitEnum>⟧.name_of v) }};

    fn begin(&self, w: &mut Writer) -> Result<()> {{
        w.fragment(Fragment::Str(self.name()))
    }}
}}
{ranged_text(name)}{laws_text(it, "variant", name)}{name_place_text(it)}"""


def unit_text(it, path):
    """The impl that lists an enum's values and their names."""
    name, names = it.name, [part.name for part in it.parts]
    clause = [quoted(name) for name in names]
    arms = [f'            {name}::{part.name} => "{part.written}",' for part in it.parts]
    return f"""
impl UnitEnum for {name} {{
    ghost use Rattle.{path}.{name}.TheVariants.{{{", ".join(clause)}}};

{wrapped("all", " ∷ ".join([*clause, "[]"]))}

{wrapped("name_of", "elim [ " + " | ".join(f'{quoted(part.name)} ↦ codes "{part.written}"' for part in it.parts) + " ]")}

{wrapped("found", "elim [ " + " | ".join(f"{part} ↦ refl" for part in clause) + " ]")}

    fn values() -> &'static [{name}] {{
        &[{", ".join(f"{name}::{part}" for part in names)}]
    }}

    fn name(&self) -> &'static str {{
        match self {{
{chr(10).join(arms)}
        }}
    }}
}}
"""


def ranged_text(name):
    """The impl that says that each value of an enum is valid."""
    return f"""
impl Ranged for {name} {{
    ghost valid = {{ λ _. ⊤ }};

    fn ranged(&self) {{}}
}}
"""
