"""The impl that `./derive` writes for a struct whose fields are looked for one by one, and what it refuses of such a struct."""
import re

from refusals import NAME


def looked_into(found):
    """The structs of a file that are marked `refused`."""
    return {it.name for it in found if "refused" in it.words}


def inner_struct(part):
    """The type of a field, or that in its `Option`, and whether it is in one."""
    inside = re.fullmatch(rf"Option<\s*({NAME}(?:::{NAME})*)\s*>", part.of)
    return (inside.group(1), True) if inside else (part.of, False)


def check_refused(found):
    """Refuses `refused` where a struct may be refused for more than its fields, and a field that is no struct."""
    for it in found:
        for part in [each for each in it.parts if each.refused]:
            if "refused" not in it.words:
                yield f"line {part.line}: the fields of `{it.shown}` are not looked for: leave out `refused`, or mark `{it.shown}` with it"
            elif not re.fullmatch(rf"{NAME}(?:::{NAME})*", inner_struct(part)[0]):
                yield f"line {part.line}: `refused` marks a field that is a struct or an `Option` of one: {part.of}"
        if "refused" not in it.words:
            continue
        if it.kind != "struct":
            yield f"line {it.line}: `{it.shown}` is no struct, and has no fields to look for: leave out `refused`"
        if it.params:
            yield f"line {it.line}: a struct with parameters is not looked into: leave out `refused`, or write `{it.name}` for the types that it is used with"
        if "closed" in it.words:
            yield f"line {it.line}: a `closed` struct may be refused for a member that is no field: leave out `refused` or `closed`"
        for part in it.parts:
            if part.aliases:
                yield f"line {part.line}: a field with an alias is not looked for: leave out `refused` or the alias"


def probes_of(it, own, mark_of):
    """The chain of fields; those that are structs of the file which are marked too, or have the mark, are looked into."""
    text = "NoProbe"
    for part in reversed(it.parts):
        inner, optional = inner_struct(part)
        into = part.refused or inner in own
        kind = f"ProbeInto{'Option' if optional else ''}" if into else "Probe"
        text = f"{kind}<{inner if into else part.of}, {mark_of(it, part)}, {text}>"
    return text


def fields_text(it, mark_of):
    """The impl by which the fields of a struct are looked for."""
    if "refused" not in it.words:
        return ""
    name, probes = it.name, f"{it.name}Probes"
    return f"""
// Its fields, one by one.
type {probes} = {probes_of(it, it.looked_into, mark_of)};

impl FieldByField for {name} {{
    ghost wrong = {{ λ gives here. ⟦<{probes} as Probes>⟧.wrong gives here ⟦<{name} as Record>⟧.names }};

    ghost right = {{ λ gives. ⟦<{probes} as Probes>⟧.right gives ⟦<{name} as Record>⟧.names }};

    fn probe<W: Way>(alloc: Global, text: &str) -> Result<Option<FieldPath>> {{
        <{probes} as Probes>::probe::<W, NamesOf<{name}>>(alloc, text)
    }}

    fn by_fields<W: Way>() {{
        fields_give::<{name}, {probes}, W>()
    }}
}}
"""
