"""The lines of a file of types, as `./derive` reads them: one attribute, field or variant a line."""
import re

from refusals import NAME, split_at_commas

PARAMS = r"(?:<[^{}]*>)?"
ON_ONE_LINE = re.compile(
    rf"((?:pub(?:\([a-z ]+\))?\s+)?(?:struct|enum)\s+{NAME}\s*{PARAMS}\s*\{{)((?:[^{{}}]|\{{[^{{}}]*\}})*)\}}(\s*//.*)?"
)
STRING = re.compile(r'"(?:[^"\\]|\\.)*"')


def end_of_attribute(text):
    """Returns where the attribute that a text begins with ends, None if it goes on behind the text."""
    bare, depth = STRING.sub(lambda found: "_" * len(found[0]), text), 0
    for at, sign in enumerate(bare):
        depth += (sign == "[") - (sign == "]")
        if sign == "]" and depth == 0:
            return at + 1
    return None


def attributes_of(text):
    """The attributes in front of a field, and the rest."""
    attributes = []
    while text.startswith("#[") and (end := end_of_attribute(text)):
        attributes.append(text[:end])
        text = text[end:].strip()
    return attributes, text


def whole_lines(text):
    """The lines of a file with their numbers, without the spaces around them; an attribute of several lines is one."""
    begun = None
    for number, line in enumerate(text.splitlines(), 1):
        bare = line.strip()
        if begun:
            number, bare = begun[0], f"{begun[1]} {bare}"
        begun = (number, bare) if bare.startswith("#[") and not end_of_attribute(bare) else None
        if not begun:
            yield number, bare
    if begun:
        yield begun


def lines_of(text):
    """The lines of a file with their numbers. A type on one line becomes several of its number, and so do attributes and what stands behind them."""
    for number, line in whole_lines(text):
        attributes, bare = attributes_of(line)
        yield from ((number, it) for it in attributes)
        found = ON_ONE_LINE.fullmatch(bare)
        if found:
            yield number, found[1] + (found[3] or "")
            for part in split_at_commas(found[2]):
                attributes, part = attributes_of(part)
                yield from ((number, it) for it in [*attributes, f"{part},"])
            yield number, "}"
        elif bare or not attributes:
            yield number, bare
