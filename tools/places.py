"""The places that `./derive` writes, for callers that hand on events."""


def fields_of(types, once):
    """The list of fields of a place, four at a time."""
    if len(types) >= 4:
        return f"{once}Four<{', '.join(types[:4])}, {fields_of(types[4:], once)}>"
    return f"{once}Field<{types[0]}, {fields_of(types[1:], once)}>" if types else "NoField"


def place_text(it):
    """The place of a struct, where its events are to be handed on."""
    if "events" not in it.words:
        return ""
    name, once = it.name, "Once" if "once" in it.words else ""
    return f"""
/// The place of a `{name}`.
#[derive(Drop)]
{it.public}struct {name}Place {{
    place: RecordPlace<{name}>,
}}

impl PlacedRecord for {name} {{
    type Fields = {fields_of([part.of for part in it.parts], once)};
}}
{visitor_text(name, once)}
impl Deserialize for {name} {{
    type Place = {name}Place;

    fn tied() {{}}
}}
"""


def visitor_text(name, once):
    """The impl by which a struct's place takes events: it passes them on."""
    inner = f"<RecordPlace<{name}> as Visitor>"
    further = f"""    // The name of a field that has a value is refused as a key.
    ghost further = {{ λ old e answer new.
        ⟦{inner}⟧.further old.place e answer new.place }};""" if once else ""
    meaning = f"    ghost meaning = {{ wrapper_meaning (λ p. p.place) ⟦{inner}⟧.meaning }};"
    return visitor_of(name, inner, meaning, further, "place.take()")


def visitor_of(name, inner, meaning, further, taken):
    """The impl of a place around one other: its ghost members, and what `take` returns of that place."""
    inner = inner if inner.endswith("Visitor>") else f"<{inner} as Visitor>"
    return f"""
impl Visitor for {name}Place {{
    type Out = {name};

{meaning}{f"{chr(10)}{chr(10)}{further}" if further else ""}

    fn begin(alloc: Global) -> Result<{name}Place> {{
        Ok({name}Place {{
            place: {inner}::begin(alloc)?,
        }})
    }}

    fn step(&mut self, event: Step<'_>) -> Result<()> {{
        self.place.step(event)
    }}

    fn refuse(&mut self, error: Error) -> Error {{
        self.place.refuse(error)
    }}

    fn is_complete(&self) -> bool {{
        self.place.is_complete()
    }}

    fn take(self) -> Result<{name}> {{
        let {name}Place {{ place }} = self;
        {taken}
    }}
}}
"""


def name_place_text(it):
    """The place of a unit enum, where its events are to be handed on."""
    if "events" not in it.words:
        return ""
    return f"""
impl Deserialize for {it.name} {{
    type Place = NamePlace<{it.name}>;

    fn tied() {{}}
}}
"""
