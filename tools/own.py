"""Keeps the names of a user apart from those of derived code: a type `Event` of a user stays, and the import is called `JsonEvent`.

While a module is written, each name of the user ends in a mark, so that no text of `./derive` is taken for one of them. At
the end each name of derived code that the user has too gets `Json` in front, and the marks are removed. A module in which
there is no such name is the same as without this file.
"""
import re
from itertools import count

from plain import MARKED, OWN, PARAM, plain
from refusals import NAME, NAMED, OF_MORE, OF_REFUSED, WORDS

# The paths of the names that derived code takes from Rust's prelude or from std. It writes the path if the user has the name.
PLACES = {
    "AllocError": "std::alloc::AllocError",
    "Clone": "std::clone::Clone",
    "Err": "std::result::Result::Err",
    "None": "std::option::Option::None",
    "Ok": "std::result::Result::Ok",
    "Option": "std::option::Option",
    "Some": "std::option::Option::Some",
    "String": "std::string::String",
}
# Names that derived code binds itself, which a type of the user can have: parameters, and the values of a variant.
BOUND = set("E K W X Y a b c d e f".split())
# Words that clauses reserve. There a user's name that is one of them is quoted.
RESERVED = set(
    "abbrev absurd as axiom cc coe data elim exists forall grind hiding in infix let module mod mutual omega open "
    "opaque package pub record refl rw simp subst tt Type unfold unfoldable unfolding use where λ".split()
)
# Words of clauses that cannot be imported, so they keep their name.
KEPT = RESERVED - {"refl"} | {"Rattle"}
IMPORTED = set(" ".join([NAMED, *OF_REFUSED.values(), *OF_MORE.values()]).split())
# What the constants of derived code end in. A variant or a field could have the name of one.
CONSTANTS = ("_NAMES", "_ALIASES", "_TAG", "_CONTENT", "_DEFAULT")
# The parts of derived text: what has no names, where a clause begins, brackets, and names, which in clauses may have hyphens.
TOKEN = re.compile(
    r"(?P<skip>//[^\n]*|\"(?:[^\"\\]|\\.)*\"|#\[[^\]]*\]|'[a-z_]+\b)|(?P<clause>\bghost \w+(?: =|:)(?= ))|(?P<use>\bghost use )"
    r"|(?P<bracket>[{}⟦⟧;])|(?P<name>[A-Za-z_][A-Za-z0-9_]*(?:-[a-z]+)*)"
)
# What follows a field's name where a clause makes a record.
LABEL = re.compile(r"\s*=(?!=)")
# What precedes the name of a member, or a name in a path.
MEMBER = re.compile(r"(?:\.|::|\bfn |\n    type )$")


def own(name):
    """A name of the user with its mark. The value of a newtype has no name."""
    return name + OWN if re.fullmatch(NAME, name) else name


def brought_by(line):
    """The names that a `use` line brings, but for those of std and of the library, which `./derive` knows."""
    if re.match(r"(?:pub )?use (?:std|core|alloc|miniserde|miniserde_core)::", line) or not re.match(r"(?:pub )?use ", line):
        return set()
    return set(re.findall(rf"({NAME})\s*(?=[,}};])", line)) - {"self"}


def mark(found, uses):
    """Puts marks behind the names of the types of a file, before anything is written or checked of them."""
    types = {it.name for it in found if it.name not in WORDS} | {name for line in uses for name in brought_by(line)}

    def marked(of, params):
        each = lambda name: name + (PARAM if name in params else OWN if name in types else "")
        return re.sub(rf"(?<![\w:]){NAME}\b", lambda name: each(name.group()), of)

    def mark_part(part, params):
        part.name, part.of = own(part.name), marked(part.of, params)
        part.values = tuple(marked(each, params) for each in part.values)
        if part.default and part.default[0].isalpha() and part.default not in ("true", "false"):
            part.default = own(part.default)
        for each in part.fields:
            mark_part(each, params)

    for it in found:
        for part in it.parts:
            mark_part(part, it.params)
        it.name, it.check, it.params = own(it.name), own(it.check), tuple(each + PARAM for each in it.params)


def named_in(text):
    """Yields the names in derived text, except those of members: each with its place, and whether it is a word of a clause.
    A type between `⟦` and `⟧` is code."""
    depth, in_type, in_use = -1, False, False
    for found in TOKEN.finditer(text):
        bracket = found["bracket"]
        if found["clause"]:
            depth = 0
        elif found["use"]:
            in_use = True
        elif bracket in ("⟦", "⟧"):
            in_type = bracket == "⟦"
        elif bracket == ";":
            in_use = False
        elif bracket and depth >= 0:
            depth += 1 if bracket == "{" else -1
            depth = depth or -1
        elif found["name"] and not MEMBER.search(text[max(0, found.start() - 12) : found.start()]):
            yield found, in_use or depth > 0 and not in_type


def is_label(text, found):
    """Whether a name in a clause is that of a field, in a record that the clause makes."""
    return bool(LABEL.match(text, found.end())) and not text.endswith("let ", 0, found.start())


class Apart:
    """Derived text in which no name of derived code is one of the user's.

    `code` and `ghost` are the user's names in code and in clauses, without their marks, and `fields` those that code binds.
    `in_code` and `in_ghost` give the new name of each name that the user has too, and `printed` those of types and constants
    that `./derive` writes beside the user's.
    """

    def __init__(self, text, found, uses):
        whole = lambda names: {plain(name) for name in names}
        types = {it.name for it in found if not it.variant} | {own(name) for line in uses for name in brought_by(line)}
        bound = BOUND & whole(types)
        types |= {name for it in found for name in it.params} | {it.check for it in found if it.check}
        variants = {part.name for it in found if it.kind in ("enum", "tagged") for part in it.parts}
        fields = {part.name for it in found if it.kind == "struct" for part in it.parts}
        self.code, self.ghost, self.fields = whole(types), whole(types | variants), whole(fields)
        self.in_code, self.in_ghost, self.printed = {}, {}, {}
        seen = list(named_in(text))
        self.names = whole(each["name"] for each, _ in seen) | self.code | self.ghost
        written = [name for each, _ in seen if MARKED.search(name := each["name"]) and name not in types | variants | fields]
        for name in dict.fromkeys(written):
            others = self.ghost | self.fields if plain(name).endswith(CONSTANTS) else self.code
            self.printed[name] = self.fresh(plain(name), others | set(self.printed.values()))
        taken = self.code | set(self.printed.values())
        for each, is_ghost in seen:
            name = each["name"]
            if MARKED.search(name) or name in (self.in_ghost if is_ghost else self.in_code):
                continue
            if is_ghost and name in self.ghost - KEPT and not is_label(text, each):
                self.in_ghost[name] = self.fresh(name, {name})
            elif not is_ghost and (name in bound or name in taken & (IMPORTED | set(PLACES)) or name in self.fields & IMPORTED):
                self.in_code[name] = PLACES.get(name) or self.fresh(name, {name})
        self.code = taken
        self.text = plain(self.renamed(text, seen))

    def fresh(self, name, taken):
        """A name for one of derived code, which is itself if it is not taken."""
        if name not in taken:
            return name
        front = "json_" if name[0].islower() else "JSON_" if "_" in name else "Json"
        given = next(each for at in count(1) if (each := f"{front}{name}{at if at > 1 else ''}") not in self.names | taken)
        self.names.add(given)
        return given

    def renamed(self, text, seen):
        """A text with the new names."""
        parts, end = [], 0
        for each, is_ghost in seen:
            name = each["name"]
            names = self.printed if MARKED.search(name) else self.in_ghost if is_ghost else self.in_code
            if name in names and not (is_ghost and is_label(text, each)):
                parts += [text[end : each.start()], names[name]]
                end = each.end()
        return "".join([*parts, text[end:]])

    def imported(self, name, is_ghost):
        """What an import says for a name, or "" if the module has only the user's."""
        names, taken = (self.in_ghost, self.ghost) if is_ghost else (self.in_code, self.code | self.fields)
        return f"{name} as {names[name]}" if name in names else "" if name in taken else name
