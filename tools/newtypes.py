"""The impls that `./derive` writes for a newtype: a struct of one unnamed value, with a check of it, without one, or as a
string."""
import re

from impls import impl_of, quoted, typed, wrapped
from places import visitor_of
from plain import plain

# The types of std that are keys, of which a newtype's laws are known.
UNSIGNED = "u8 u16 u32 u64 usize".split()
SIGNED = "i8 i16 i32 i64 isize".split()
# Types of std of which a missing field is an error.
NEVER_ABSENT = r"[ui](?:8|16|32|64|size)|bool|String|(?:Vec|VecDeque|BTreeMap|HashMap|Box)<.*|[(\[].*"
# Types of which a value may be written as `null`.
NULLED = r"(?:\w+::)*(?:Option|Value|Unique|Document|Box)\b|\(\)"


def of_inner(it, kind, member):
    """A ghost member of the inner type's impl."""
    of = it.parts[0].of
    return f"{quoted(of)}.{member}" if of in it.params else f"⟦<{of} as {kind}>⟧.{member}"


def fact_of(it, value):
    """The fact that the check takes a value: a number, the bytes of a text, or the content of another type's value."""
    of = it.parts[0].of
    shown = value if of in UNSIGNED + SIGNED else f"(string_bytes {value})" if of == "String" else f"({of_inner(it, 'FromJson', 'means')}.content {value})"
    return f"{it.check} {shown} ≡ true"


def accepts_of(it, key=""):
    """The check of a value's content."""
    return f"(on_unsigned{key} {it.check})" if it.parts[0].of in UNSIGNED else it.check


def newtype_head(it):
    """A newtype as its user wrote it, with what it derives. One with a check has a named field, since a ghost field stands
    beside it."""
    part = it.parts[0]
    orders = ["PartialEq", "Eq", "PartialOrd", "Ord"] if "key" in it.words else []
    derives = [name for name in it.derives if name not in ("Serialize", "Deserialize", "Drop", *orders)]
    if it.check and "Clone" in derives:
        # A struct with a ghost field derives `Clone` only if it is `Copy`.
        derives = [name for name in derives if name not in ("Clone", "Copy")] + (["Clone", "Copy"] if part.of in UNSIGNED + SIGNED else [])
    head = [*it.above, f"#[derive({', '.join([*derives, *orders, 'Drop'])})]"]
    if not it.check:
        return "\n".join([*head, f"{it.public}struct {typed(it)}({part.public}{part.of});"])
    return "\n".join([*head, f"{it.public}struct {it.name} {{", f"    value: {part.of},", f"    pub ghost checked: {{ {fact_of(it, 'value')} }},", "}"])


def newtype_text(it, path):
    """A newtype with its impls."""
    if "text" in it.words:
        return newtype_head(it) + "\n" + text_text(it) + laws_text(it) + place_text(it)
    if it.parts[0].of == "char":
        return newtype_head(it) + "\n" + ranged_text(it) + key_text(it)
    own = checked_text(it) if it.check else transparent_text(it)
    return newtype_head(it) + "\n" + own + shared_text(it) + laws_text(it) + key_text(it) + place_text(it)


def checks_of(found, crate):
    """The imports of the checks: of their definitions, and of the functions."""
    checked = [it for it in found if it.kind == "newtype" and it.check]
    ghosts, imports = [], []
    for module in sorted({it.module for it in checked}):
        names = ", ".join(sorted({it.check for it in checked if it.module == module}, key=plain))
        title = "".join(word.capitalize() for word in module.split("_"))
        ghosts.append(f"ghost use Rattle.{crate}.specs.{title}.{{{names}}};")
        imports.append(f"use crate::{module}::{{{names}}};")
    return ghosts, imports


def checked_text(it):
    """The impls of a newtype with a check that are not those of one without."""
    name, of = it.name, it.parts[0].of
    lent = "value.as_str()" if of == "String" else "value" if of in UNSIGNED + SIGNED else "&value"
    means = of_inner(it, "FromJson", "means")
    return f"""
impl Checked for {name} {{
    type Inner = {of};

    ghost inner = {{ λ v. v.value }};

    ghost means = {{ {means} }};

    ghost accepts = {{ {accepts_of(it).strip("()")} }};

    ghost same = {{ same_meaning {means} }};

    fn new(value: {of}) -> Option<{name}> {{
        if {it.check}({lent}) {{
            Some({name} {{ value }})
        }} else {{
            None
        }}
    }}

    fn get(&self) -> &{of} {{
        &self.value
    }}
}}
""" + clone_text(it)


def text_text(it):
    """The impls of a newtype that is written as a string, by its `TextValue`."""
    name, value = it.name, f"⟦<{it.name} as TextValue>⟧"
    return f"""
impl Leaf for {name} {{
    ghost means = {{ text_value_meaning {value}.parsed {value}.content }};

    ghost only_leaves = {{ (λ ts. refl, λ ms. refl) }};

    ghost read_infallible = {{ {value}.parse_infallible }};

    ghost lacking = {{ IsStringEvent }};

    fn from_step(alloc: Global, event: Step<'_>) -> Result<{name}> {{
        text_value_from_step(alloc, event)
    }}
}}

impl FromJson for {name} {{
    ghost means = {{ ⟦<{name} as Leaf>⟧.means }};

    ghost read_infallible = {{ {value}.parse_infallible }};

    ghost lacking = {{ λ event _ _. IsStringEvent event }};

    fn missing() -> Option<{name}> {{
        None
    }}

    fn read<'a>(token: Event<'a>, source: &mut Source<'a>) -> Result<{name}> {{
        read_leaf(token, source)
    }}
}}

impl Serialize for {name} {{
    ghost tree = {{ λ v. str ({value}.text ({value}.content v)) }};

    fn begin(&self, w: &mut Writer) -> Result<()> {{
        write_text_value(self, w)
    }}
}}

impl Ranged for {name} {{
{wrapped("valid", f"λ v. {value}.parsed ({value}.text ({value}.content v)) ≡ Some ({value}.content v)")}

    fn ranged(&self) {{
        self.is_read_back()
    }}
}}
"""


def clone_text(it):
    """The impl that clones a newtype with a check of its text."""
    if it.parts[0].of != "String" or "Clone" not in it.derives:
        return ""
    return f"""
impl Clone for {it.name} {{
    ghost is_clone = {{ λ s t. string_bytes t.value ≡ string_bytes s.value }};

    fn clone(&self) -> std::result::Result<{it.name}, AllocError> {{
        Ok({it.name} {{
            value: self.value.clone()?,
        }})
    }}
}}
"""


def transparent_text(it):
    """The impl that says that each value of the inner type may stand in the newtype. Its round trip asks for it."""
    if not it.has_laws:
        return ""
    params = f"<{', '.join(it.params)}>" if it.params else ""
    return f"""
impl{params} Transparent for {typed(it)} {{
    type Inner = {it.parts[0].of};

    ghost inner = {{ λ v. v.0 }};

    ghost wrapped = {{ λ x. record {{ 0 = x }} }};

    ghost unwraps = {{ λ x. refl }};
}}
"""


def shared_text(it):
    """The impls that read a newtype, write it, and say which of its values are valid."""
    name, of = typed(it), it.parts[0].of
    field = "value" if it.check else "0"
    inner = of_inner(it, "FromJson", "means")
    means = f"checked_meaning {inner} {accepts_of(it)} (λ v. v.value)" if it.check else f"box_meaning {inner} (λ v. v.0)"
    read = "read_checked(token, source)" if it.check else f"Ok({it.name}(<{of} as FromJson>::read(token, source)?))"
    has_absent = not it.check and not re.fullmatch(NEVER_ABSENT, of)
    absent = "" if not has_absent else wrapped("absent", f"option_map (λ v. record {{ 0 = v }}) {of_inner(it, 'FromJson', 'absent')}") + "\n\n"
    missing = "None" if not has_absent else f"Some({it.name}(<{of} as FromJson>::missing()?))"
    return f"""
{impl_of(it, "FromJson")} FromJson for {name} {{
{wrapped("means", means)}

{absent}    ghost read_infallible = {{ {of_inner(it, "FromJson", "read_infallible")} }};

    ghost lacking = {{ {of_inner(it, "FromJson", "lacking")} }};

    fn missing() -> Option<{name}> {{
        {missing}
    }}

    fn read<'a>(token: Event<'a>, source: &mut Source<'a>) -> Result<{name}> {{
        {read}
    }}
}}

{impl_of(it, "Serialize")} Serialize for {name} {{
    ghost tree = {{ λ v. {of_inner(it, "Serialize", "tree")} v.{field} }};

    fn begin(&self, w: &mut Writer) -> Result<()> {{
        self.{field}.begin(w)
    }}
}}
""" + ranged_text(it)


def ranged_text(it):
    """The impl that says which values of a newtype are valid."""
    field = "value" if it.check else "0"
    fact = f" × ({fact_of(it, 'v.value')})" if it.check else ""
    valid = f"{of_inner(it, 'Ranged', 'valid')} v.{field}{fact}"
    return f"""
{impl_of(it, "Ranged")} Ranged for {typed(it)} {{
{wrapped("valid", f"λ v. {valid}")}

    fn ranged(&self) {{
        self.{field}.ranged()
    }}
}}
"""


def laws_text(it):
    """The impls of the laws that are asked for."""
    name, of, text = typed(it), it.parts[0].of, ""

    def law(word, kind, call):
        body = f"text_value_round_trips::<{name}>()" if "text" in it.words else f"{call}::<{of}, {name}>()" if call else f"<{of} as {kind}>::{word}()"
        body = "" if "text" in it.words and word != "round_trips" else f"\n        {body}\n    "
        return f"""
{impl_of(it, kind)} {kind} for {name} {{
    fn {word}() {{{body}}}
}}
"""

    if it.has_laws:
        text += law("round_trips", "RoundTrip", "checked_round_trips" if it.check else "transparent_round_trips")
    if "lossless" in it.words:
        text += law("lossless", "Lossless", "checked_lossless" if it.check else "")
    if it.has_laws and (it.never_null or "lossless" in it.words and not re.match(NULLED, of)):
        text += law("never_null", "NeverNull", "")
    return text + (law("stable", "Stable", "checked_stable" if it.check else "") if "stable" in it.words else "")


def key_text(it):
    """The impls of a newtype that is a map's key."""
    if "key" not in it.words:
        return ""
    name, of, field = typed(it), it.parts[0].of, "value" if it.check else "0"
    read, code, exact = of_inner(it, "MapKey", "read"), "", ""
    if of in it.params:
        param = quoted(of)
        code = f"\n    ghost code = {{ {param}.code }};\n"
        alike, one_text, injective = f"λ a b. {param}.alike a.0 b.0", f"λ a b. {param}.one_text a.0 b.0", f"λ a b. {param}.injective a.0 b.0"
        back, exact = f"λ v r. let h = {param}.back v.0 r in (record {{ 0 = h.0 }}, h.1, h.2, h.3)", f"{param}.one_name"
    elif of == "String":
        alike, one_text, injective, own = "λ a b. refl", "λ a b e. e", "λ a b e. e", "refl"
        exact = f"checked-exact {it.check}" if it.check else "text-exact"
    else:
        law = f"{of}_key_laws"
        alike, one_text, injective = f"λ a b. {law}.alike a.{field} b.{field}", f"λ a b. {law}.one_text a.{field} b.{field}", "λ a b e. e"
        own = f"({law}.back v.{field} {'r.0' if it.check else 'r'})"
        exact = {"bool": "bool-exact", "char": "char-exact"}.get(of, "")
    if it.check:
        accepts = accepts_of(it, "_key")
        read = f"checked_key {accepts} {read}"
        own = f"(checked-back {accepts} _ _ {own} r.1)"
    if of not in it.params:
        back = f"λ v r. (v, r, {own}, refl)"
    from_key = f"<{of} as MapKey>::from_key(alloc, k)?"
    made = f"""match {it.name}::new({from_key}) {{
            Some(key) => Ok(key),
            None => Err(Error::Invalid),
        }}""" if it.check else f"Ok({it.name}({from_key}))"
    text = f"""
{impl_of(it, "MapKey")} MapKey for {name} {{
    ghost content = {{ λ v. {of_inner(it, "MapKey", "content")} v.{field} }};
{code}
    ghost read = {{ {read} }};

    ghost text = {{ λ v. {of_inner(it, "MapKey", "text")} v.{field} }};

    ghost from_key_infallible = {{ {of_inner(it, "MapKey", "from_key_infallible")} }};

    ghost alike = {{ {alike} }};

    ghost back = {{ {back} }};

    ghost one_text = {{ {one_text} }};

    fn from_key(alloc: Global, k: &str) -> Result<{name}> {{
        {made}
    }}

    fn to_key(&self, out: &mut String) -> Result<()> {{
        self.{field}.to_key(out)
    }}
}}

{impl_of(it, "InjectiveKey")} InjectiveKey for {name} {{
    ghost injective = {{ {injective} }};
}}
"""
    if exact and it.has_stored:
        text += f"""
{impl_of(it, "ExactKey")} ExactKey for {name} {{
    ghost one_name = {{ {exact} }};
}}
"""
    return text


def place_text(it):
    """The place of a newtype, where its events are to be handed on: around that of the value inside, or of a single token."""
    if "events" not in it.words:
        return ""
    name, of = it.name, it.parts[0].of
    is_leaf = "text" in it.words or it.check
    inner = f"LeafPlace<{name}>" if is_leaf else f"<{of} as Deserialize>::Place"
    around = "wrapper_meaning (λ p. p.place)" if is_leaf else "box_place_meaning (λ p. p.place) (λ v. v.0)"
    meaning = wrapped("meaning", f"{around} ⟦<{inner} as Visitor>⟧.meaning")
    further = wrapped("further", f"λ old e answer new. ⟦<{inner} as Visitor>⟧.further old.place e answer new.place")
    taken = "place.take()" if is_leaf else f"Ok({name}(place.take()?))"
    tied = "{}" if is_leaf else f"{{\n        <{of} as Deserialize>::tied()\n    }}"
    return f"""{leaf_text(it) if it.check else ""}
/// The place of a `{name}`.
#[derive(Drop)]
{it.public}struct {name}Place {{
    place: {inner},
}}
{visitor_of(name, inner, meaning, "" if is_leaf else further, taken)}
impl Deserialize for {name} {{
    type Place = {name}Place;

    fn tied() {tied}
}}
"""


def leaf_text(it):
    """The impl of a newtype with a check by which its place takes its one event."""
    name, of = it.name, it.parts[0].of
    means = f"checked_meaning ⟦<{of} as FromJson>⟧.means {accepts_of(it)} (λ v. v.value)"
    return f"""
impl Leaf for {name} {{
{wrapped("means", means)}

    ghost only_leaves = {{ (λ ts. refl, λ ms. refl) }};

    ghost read_infallible = {{ ⟦<{of} as Leaf>⟧.read_infallible }};

    ghost lacking = {{ ⟦<{of} as Leaf>⟧.lacking }};

    fn from_step(alloc: Global, event: Step<'_>) -> Result<{name}> {{
        checked_from_step(alloc, event)
    }}
}}

impl CheckedLeaf for {name} {{
    ghost same_leaf = {{ same_meaning ⟦<{of} as Leaf>⟧.means }};
}}
"""
