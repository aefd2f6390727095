"""Reads the terms of a derived module's ghost members."""
from dataclasses import dataclass

from derived_text import Cursor, Type, type_at

ENDS = set(") ] | ; , } ∷ + × ≡ ↦".split()) | {""}


@dataclass(frozen=True)
class Word:
    """A name, as `tt`."""

    name: str


@dataclass(frozen=True)
class Text:
    """A text between quotes."""

    text: str


@dataclass(frozen=True)
class Of:
    """A ghost member of a type's impl, as `⟦<T as Trait>⟧.member`, or with no trait, as `T.member`."""

    of: Type
    trait: str
    member: str


@dataclass(frozen=True)
class Dot:
    """A part of a term, as `v.0`."""

    base: object
    name: str


@dataclass(frozen=True)
class Call:
    """A name with arguments behind it."""

    head: object
    args: tuple


@dataclass(frozen=True)
class Lambda:
    """A function of names."""

    names: tuple
    body: object


@dataclass(frozen=True)
class Tuple:
    """Terms with commas between, in brackets."""

    items: tuple


@dataclass(frozen=True)
class Record:
    """Names with terms."""

    fields: tuple


@dataclass(frozen=True)
class Elim:
    """Cases: the words of each pattern, and its term."""

    cases: tuple


def term_of(tokens, module, line=0):
    """The term that tokens are, all of them."""
    cursor = Cursor(tokens, module.name)
    found = term_at(cursor)
    if cursor.peek():
        cursor.refuse(f"a term that this reader does not know, at `{cursor.peek()}`")
    return found


def term_at(cursor):
    """The term that is next, a list `a ∷ b ∷ []` as a call of `∷`, and lists one behind another as a call of `++`."""
    first = applied_at(cursor)
    if cursor.took("∷"):
        return Call(Word("∷"), (first, term_at(cursor)))
    if cursor.took("+"):
        cursor.take("+")
        return Call(Word("++"), (first, term_at(cursor)))
    return first


def applied_at(cursor):
    """The call that is next, or the next term if it has no arguments."""
    if cursor.took("λ"):
        names = []
        while not cursor.took("."):
            names.append(cursor.word())
        return Lambda(tuple(names), term_at(cursor))
    atoms = []
    while cursor.peek() not in ENDS:
        atoms.append(atom_at(cursor))
    if not atoms:
        cursor.refuse(f"expected a term, found `{cursor.peek()}`")
    return Call(atoms[0], tuple(atoms[1:])) if len(atoms) > 1 else atoms[0]


def atom_at(cursor):
    """The term that is next, without arguments."""
    if cursor.peek() == "⟦":
        return of_at(cursor)
    if cursor.took("("):
        items = [term_at(cursor)]
        while cursor.took(","):
            if cursor.peek() != ")":
                items.append(term_at(cursor))
        cursor.take(")")
        return dotted(cursor, items[0] if len(items) == 1 else Tuple(tuple(items)))
    if cursor.took("["):
        cursor.take("]")
        return Word("[]")
    if cursor.at < len(cursor.tokens) and cursor.tokens[cursor.at].kind == "string":
        return text_at(cursor)
    word = cursor.word()
    if word == "record" and cursor.peek() == "{":
        return record_at(cursor)
    if word == "elim" and cursor.peek() == "[":
        return elim_at(cursor)
    return dotted(cursor, Word(word))


def text_at(cursor):
    """The text that is next."""
    text = cursor.take()
    if "\\" in text:
        cursor.refuse(f"a text with a backslash, which this reader does not decode: {text}")
    return Text(text[1:-1])


def dotted(cursor, base):
    """A term with the parts that follow it, as `x.1.0`."""
    while cursor.peek() == "." and cursor.peek(1) not in ENDS:
        cursor.take(".")
        base = Dot(base, cursor.word())
    return base


def of_at(cursor):
    """The ghost member that is next, and its parts."""
    inside = Cursor(cursor.block(), cursor.name)
    inside.take("<")
    of = type_at(inside)
    inside.take("as")
    trait = type_at(inside)
    inside.take(">")
    cursor.take(".")
    return dotted(cursor, Of(of, trait.name, cursor.word()))


def record_at(cursor):
    """The names and terms of a record."""
    inside, fields = Cursor(cursor.block(), cursor.name), []
    while inside.peek():
        name = inside.word()
        inside.take("=")
        fields.append((name, term_at(inside)))
        inside.took(";")
    return Record(tuple(fields))


def elim_at(cursor):
    """The cases of an elimination."""
    inside, cases = Cursor(cursor.block(), cursor.name), []
    inside.took("|")
    while inside.peek():
        pattern = [inside.word()]
        while not inside.took("↦"):
            pattern.append(inside.word())
        cases.append((tuple(pattern), term_at(inside)))
        inside.took("|")
    return Elim(tuple(cases))


def words_in(term):
    """The names that a term has, but for its variables and the parts of terms."""
    if isinstance(term, Word):
        yield term.name
    elif isinstance(term, Dot):
        yield from words_in(term.base)
    elif isinstance(term, Call):
        for it in (term.head, *term.args):
            yield from words_in(it)
    elif isinstance(term, Lambda):
        yield from (it for it in words_in(term.body) if it not in term.names)
    elif isinstance(term, Tuple):
        for it in term.items:
            yield from words_in(it)
