"""What derived code imports: the names that it may have, each with its place, and the lines that name them."""
import re

from definitions import names_known
from newtypes import checks_of
from plain import plain
from refusals import IMPORTED, NAME, NAMED, OF_LAWS, OF_MORE, OF_REFUSED, more_words

KEYS = [f"{sign}{bits}" for sign in "ui" for bits in "8 16 32 64 size".split()]
# Definitions and lemmas, by the name that `miniserde` gives their file.
SPECS = {
    "Aliases": "aliases_of",
    "Cases": "each_case enum_tree first_case later_case any_of_never tagged_tree",
    "CasesMeaning": "enum_meaning tagged_meaning",
    "Checks": "on_unsigned on_unsigned_key checked_key",
    "Events": "IsStringEvent",
    "ExactKeys": "text-exact bool-exact char-exact",
    "FieldsMeaning": "struct_meaning",
    "KeyLaws": " ".join([*(f"{it}_key_laws" for it in [*KEYS, "bool", "char"]), "checked-back checked-exact"]),
    "Marks": "is_among",
    "Meanings": "box_meaning",
    "Newtypes": "checked_meaning same_meaning text_value_meaning",
    "Place": "wrapper_meaning",
    "PlaceMeanings": "box_place_meaning",
    "Structs": "names_of record_tree",
    "Tree": "neg nonneg truth str",
}
# The files of enums with data; their words are others' elsewhere.
OF_CASES = ("Cases", "CasesMeaning")
# The files of places, which `miniserde_core` has not.
OF_PLACES = ("Place", "PlaceMeanings")
# The files that `miniserde_core` leaves to a crate of laws, with their places there.
OF_LAW_SPECS = {"ExactKeys": "miniserde_stored.specs.laws.Exact"}
# Definitions and lemmas of `miniserde_more`, by the name of their file there.
OF_MORE_SPECS = {"Rest": "alias_names rest_tree", "Untagged": "untagged_tree", "UntaggedMeaning": "untagged_meaning", "laws.Kinds": "by_tree"}


def place_of(facade, spec):
    """Returns the place of a file of definitions, over `miniserde` or `miniserde_core`. The first is written: `derive` puts
    the other in its place."""
    return OF_LAW_SPECS.get(spec, f"miniserde.specs.{spec}") if facade == "miniserde_core" else f"miniserde.specs.{spec}"


def uses_of(found, apart_from, text, facade, crate):
    """The imports of a module: each name that the text has, except in comments. A name that is the user's too gets another
    (`Apart`). The names of laws stand in crates of their own beside `miniserde_core`."""
    text = plain(re.sub(r"(?m)^\s*//.*$", "", text))
    told = lambda names, is_ghost: ", ".join(filter(None, (apart_from.imported(name, is_ghost) for name in names)))
    taken_in = lambda place, names: [f"use {place}::{{{told(names, False)}}};"] if told(names, False) else []
    words_in = lambda place, names: [f"ghost use Rattle.{place}.{{{told(names, True)}}};"] if told(names, True) else []
    has = lambda name: re.search(rf"(?<![A-Za-z0-9_]){re.escape(name)}(?![A-Za-z0-9_])", text)
    pick = lambda names: [name for name in names.split() if has(name) or name in "∷ []" and name in text]
    uses = []
    has_cases = any(it.kind == "tagged" for it in found)
    for spec, names in SPECS.items():
        names = " ".join(name for name in names.split() if name != "str") if has_cases or spec not in OF_CASES else ""
        picked = pick(names)
        if spec == "Tree" and (any(it.kind == "enum" for it in found) or "{ str " in text or has("TextValue")):
            picked = [*picked, "str"]
        uses += words_in(place_of(facade, spec), picked)
    for spec, names in OF_MORE_SPECS.items():
        uses += words_in(f"miniserde_more.specs.{spec}", pick(names))
    enums = any(it.kind == "enum" for it in found)
    prelude = ["true", "List", "codes", "[]", "◌∷◌", "⊤"] if enums else ["true"] if "truth true" in text else []
    prelude += ["codes"] if any(it.tag is not None for it in found) and "codes" not in prelude else []
    prelude += ["negsuc"] if "negsuc" in text else []
    checked = any(it.kind == "newtype" and it.check for it in found)
    prelude += ["◌≡◌"] if checked or has("TextValue") else []
    prelude += ["true"] if checked and "true" not in prelude else []
    prelude += ["Some"] if has("TextValue") else []
    if any(part.rest for it in found for part in it.parts):
        prelude += [name for name, word in (("[]", r"[ (]\[\]"), ("◌∷◌", "∷"), ("◌++◌", r"\+\+")) if name not in prelude and re.search(word, text)]
    prelude += [name for name in ("option_map", "string_bytes") if has(name)]
    uses += words_in("std.specs.Prelude", [*prelude, "refl"])
    of_laws = dict(OF_LAWS) if facade == "miniserde_core" else {}
    of_laws |= OF_REFUSED if any("refused" in it.words for it in found) else {}
    of_laws |= OF_MORE if any(more_words(it) for it in found) else {}
    apart = {name for names in of_laws.values() for name in names.split()}
    ghosts, imports = checks_of(found, crate)
    uses += [*ghosts, "", *imports, *taken_in("miniserde::derived", pick(" ".join(name for name in NAMED.split() if name not in apart)))]
    for place, names in of_laws.items():
        uses += taken_in(place, pick(names))
    return "\n".join([*uses, *(["use std::alloc::AllocError;"] if has("AllocError") and "AllocError" not in apart_from.code else [])])


def missing_uses(found, uses):
    """The imports that the types need, and that the file neither has nor defines."""
    known = names_known(found, uses)
    named = {name for it in found for part in it.parts for name in re.findall(r"(?<![\w:])" + NAME, part.of)}
    lines = []
    for module, names in IMPORTED.items():
        needed = [name for name in names.split() if name in named - known]
        if needed:
            lines.append(f"use {module}::{needed[0] if len(needed) == 1 else '{' + ', '.join(needed) + '}'};")
    return lines
