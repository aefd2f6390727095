"""Tells the names of a user from those of derived code, in the tokens of a derived module.

In the module of a type `Event` derived code imports the library's as `JsonEvent`, and beside a type `Option` it writes
`std::option::Option`. Here each word of derived code gets the name that it has elsewhere, and each of the user's with such
a name gets a mark behind it.
"""
import re
from dataclasses import replace

MARK = "ªown"
# The names of Rust's prelude that a module may have beside the user's of the same name.
PRELUDE = set("Option Some None Ok Err String Vec Box Clone Result".split())
# The crates in whose imports `as` gives a word of derived code another name.
LIBRARIES = re.compile(r"miniserde\w*|refused|std")


def plain(name):
    """A name, or a text, without the marks."""
    return name.replace(MARK, "")


def imports_of(tokens):
    """Yields the first and the last place of each import of the library or of std."""
    for at, token in enumerate(tokens):
        crate = at + (3 if [it.text for it in tokens[at + 1 : at + 3]] == ["Rattle", "."] else 1)
        if token.text == "use" and crate < len(tokens) and LIBRARIES.fullmatch(tokens[crate].text):
            yield at, next(end for end in range(at, len(tokens)) if tokens[end].text == ";")


def without_aliases(tokens):
    """The tokens with `X as Y` as `X` in imports, and the word that each `Y` stands for."""
    aliases, dropped = {}, set()
    for first, last in imports_of(tokens):
        for at in range(first, last):
            if tokens[at].text == "as":
                aliases[tokens[at + 1].text] = tokens[at - 1].text
                dropped |= {at, at + 1}
    brought = {at for first, last in imports_of(tokens) for at in range(first, last)}
    kept = [(token, at in brought) for at, token in enumerate(tokens) if at not in dropped]
    return kept, aliases


def without_paths(kept):
    """The tokens with a path of std to a name of the prelude as that name, each with whether it is one of derived code."""
    found, at = [], 0
    while at < len(kept):
        token, is_import = kept[at]
        path = [it.text for it, _ in kept[at : at + 7]]
        size = next((it for it in (7, 5) if path[0] == "std" and path[1 : it - 1 : 2] == ["::"] * (it // 2) and path[it - 1 : it] and path[it - 1] in PRELUDE), 0)
        if size and not is_import:
            found.append((replace(kept[at + size - 1][0], line=token.line), True))
            at += size
        else:
            found.append((token, is_import))
            at += 1
    return found


def renamed_binders(tokens):
    """What the words stand for that clauses bind, as `json_v` where the user has a `v`."""
    found, is_bound = {}, False
    for token in tokens:
        is_bound = token.text == "λ" or is_bound and token.text != "."
        if is_bound and token.text.startswith("json_"):
            found[token.text] = token.text.removeprefix("json_")
    return found


def named(token, aliases, shared):
    """A token with the word that it stands for, or with a mark if it is one of the shared words of the user."""
    if token.kind == "quoted":
        name = token.text[1:-1]
        return replace(token, text=f"«{name}{MARK * (name in shared)}»")
    if token.kind != "word":
        return token
    return replace(token, text=aliases.get(token.text, token.text + MARK * (token.text in shared)))


def apart(tokens):
    """The tokens, with a mark behind each name of the user that is a word of derived code too."""
    kept, aliases = without_aliases(tokens)
    aliases |= renamed_binders(tokens)
    declared = {after.text for before, after in zip(tokens, tokens[1:]) if before.text in ("struct", "enum")}
    shared = set(aliases.values()) | declared & PRELUDE
    if not shared:
        return tokens
    return [token if is_ours else named(token, aliases, shared) for token, is_ours in without_paths(kept)]
