"""Reads the text of a derived module: its imports, types, lists, constants and impls. It knows nothing of the file of types."""
import re
from dataclasses import dataclass, field

from faults import Refused

TOKEN = re.compile(
    r"""(?P<doc>///[^\n]*)|(?P<comment>//[^\n]*)|(?P<space>\s+)|(?P<string>"(?:[^"\\]|\\.)*")|(?P<quoted>«[^»]*»)"""
    r"""|(?P<lifetime>'[a-z_]\w*)|(?P<word>(?:r\#)?[A-Za-z_0-9][\w]*)|(?P<sign>::|->|=>|.)""",
    re.S | re.X,
)
OPEN, CLOSE = "([{⟦", ")]}⟧"


@dataclass(frozen=True)
class Token:
    """A word, a string or a sign, with its kind and the number of its line."""

    text: str
    kind: str
    line: int


@dataclass(frozen=True)
class Type:
    """A type: its name with the path as written, and its arguments. A tuple has the name `()`, and an array `[]`."""

    name: str
    args: tuple = ()

    def __str__(self):
        args = ", ".join(map(str, self.args))
        if self.name == "()":
            return f"({args}{',' * (len(self.args) == 1)})"
        if self.name == "[]":
            return f"[{self.args[0]}; {self.args[1]}]"
        return f"{self.name}<{args}>" if self.args else self.name


@dataclass
class Shape:
    """A struct or an enum as Rust has it. A newtype's field has the name `0`. `fields` are pairs of a name and a type, and
    `variants` have a name, the types of their values, and their named fields. `ghosts` are the names of ghost fields."""

    name: str
    params: tuple
    line: int
    docs: tuple = ()
    fields: list = field(default_factory=list)
    variants: list = None
    ghosts: tuple = ()


@dataclass
class Impl:
    """An impl: its trait with arguments, its type, and its ghost members, each with the tokens of its term."""

    trait: Type
    target: Type
    line: int
    params: tuple = ()
    uses: list = field(default_factory=list)
    ghosts: dict = field(default_factory=dict)
    types: dict = field(default_factory=dict)


def tokens_of(text):
    """The tokens of a text, without spaces and comments."""
    found, line = [], 1
    for each in TOKEN.finditer(text):
        if each.lastgroup not in ("space", "comment"):
            found.append(Token(each.group(), each.lastgroup, line))
        line += each.group().count("\n")
    return found


class Cursor:
    """Tokens in a row, and how many of them were read."""

    def __init__(self, tokens, name="the module"):
        self.tokens, self.at, self.name = tokens, 0, name

    @property
    def line(self):
        """The line of the next token, or of the last one."""
        return self.tokens[min(self.at, len(self.tokens) - 1)].line if self.tokens else 0

    def refuse(self, what):
        """Ends the reading with a message that names the line."""
        raise Refused(f"{self.name}: line {self.line}: {what}")

    def peek(self, ahead=0):
        """The text of the next token, or "" at the end."""
        at = self.at + ahead
        return self.tokens[at].text if at < len(self.tokens) else ""

    def take(self, wanted=None):
        """The text of the next token, which must be the wanted one if one is named."""
        text = self.peek()
        if not text or wanted is not None and text != wanted:
            self.refuse(f"expected `{wanted or 'more'}`, found `{text or 'the end'}`")
        self.at += 1
        return text

    def took(self, text):
        """Takes the next token if it has this text. Returns whether it has."""
        if self.peek() != text:
            return False
        self.at += 1
        return True

    def word(self):
        """The next token, which must be a name."""
        if self.at >= len(self.tokens) or self.tokens[self.at].kind not in ("word", "quoted"):
            self.refuse(f"expected a name, found `{self.peek()}`")
        return self.take().strip("«»")

    def block(self):
        """The tokens between an opening bracket, which is next, and the bracket that closes it."""
        begin, depth = self.at, 0
        while True:
            text = self.take()
            depth += (text in OPEN) - (text in CLOSE)
            if depth == 0:
                return self.tokens[begin + 1 : self.at - 1]

    def until(self, sign):
        """The tokens up to a sign outside of brackets, which is taken too."""
        begin = self.at
        while self.peek() != sign:
            self.block() if self.peek() in OPEN else self.take()
        self.at += 1
        return self.tokens[begin : self.at - 1]

    def skip_body(self):
        """Takes a function up to the end of its body."""
        while self.peek() != "{":
            self.take()
        self.block()

    def skip_public(self):
        """Takes `pub`, if it is next. Returns whether it is."""
        is_public = self.took("pub")
        if is_public and self.peek() == "(":
            self.block()
        return is_public


def type_at(cursor):
    """The type that is next."""
    if cursor.took("("):
        items = list_at(cursor, ")")
        return Type("()", tuple(items))
    if cursor.took("["):
        item = type_at(cursor)
        cursor.take(";")
        count = Type(cursor.take())
        cursor.take("]")
        return Type("[]", (item, count))
    if cursor.took("<"):
        return projection_at(cursor)
    name = cursor.word()
    while cursor.took("::"):
        name += f"::{cursor.word()}"
    return Type(name, tuple(list_at(cursor, ">")) if cursor.took("<") else ())


def projection_at(cursor):
    """A type such as `<A as Trait>::Name`, behind its first sign."""
    base = type_at(cursor)
    cursor.take("as")
    trait = type_at(cursor)
    cursor.take(">")
    cursor.take("::")
    return Type(f"<{base} as {trait}>::{cursor.word()}")


def list_at(cursor, end):
    """The types up to a closing sign, with commas between."""
    items = []
    while not cursor.took(end):
        items.append(type_at(cursor))
        if cursor.peek() != end:
            cursor.take(",")
    return items


def params_at(cursor):
    """The names of the parameters that are next, without their bounds; none if no `<` is next."""
    names = []
    if cursor.took("<"):
        while not cursor.took(">"):
            names.append(cursor.word())
            while cursor.peek() not in (",", ">"):
                cursor.take()
            cursor.took(",")
    return tuple(names)


def type_in(text, name):
    """The type that a text has, as a user writes it."""
    cursor = Cursor(tokens_of(text), name)
    found = type_at(cursor)
    if cursor.peek():
        cursor.refuse(f"not a type: `{text}`")
    return found


def paths_of(tokens, separator):
    """The paths of a `use` line by the names that they bring. Groups are only last, as in `a::{b, c}`."""
    words = [it.text for it in tokens if it.text != separator]
    head = words[: words.index("{")] if "{" in words else words[:-1]
    names = words[len(head) :]
    if names[0] != "{":
        return {names[-1]: separator.join([*head, names[-1]])}
    found, now = {}, []
    for word in names[1:]:
        if word in (",", "}"):
            # A name of a clause may have signs, as `checked-back` and `◌∷◌`.
            now = ["".join(now)] if separator == "." and now else now
            found |= {now[-1]: separator.join([*head, *now])} if now else {}
            now = []
        else:
            now.append(word)
    return found


def field_at(cursor):
    """The named field that is next."""
    name = cursor.word()
    cursor.take(":")
    return name, type_at(cursor)


def skip_above(cursor):
    """Takes the lines of documentation and the attributes that are next. Returns the documentation."""
    docs = []
    while cursor.peek().startswith("///") or cursor.peek() == "#":
        if cursor.took("#"):
            cursor.block()
        else:
            docs.append(cursor.take()[3:].strip())
    return tuple(docs)


def shape_at(cursor, word, docs):
    """The struct or the enum that is next."""
    line, name = cursor.line, cursor.word()
    shape = Shape(name, params_at(cursor), line, docs)
    if cursor.peek() == "(":
        inside = Cursor(cursor.block(), cursor.name)
        inside.skip_public()
        shape.fields.append(("0", type_at(inside)))
        if inside.peek():
            inside.refuse("a struct of more than one unnamed value")
        cursor.take(";")
        return shape
    inside = Cursor(cursor.block(), cursor.name)
    while inside.peek():
        skip_above(inside)
        if word == "enum":
            shape.variants = [*(shape.variants or []), variant_at(inside)]
        elif inside.skip_public() and inside.took("ghost"):
            shape.ghosts += (inside.word(),)
            inside.take(":")
            inside.block()
        else:
            shape.fields.append(field_at(inside))
        if inside.peek():
            inside.take(",")
    return shape


def variant_at(cursor):
    """The variant that is next: its name, the types of its values, and its named fields."""
    name, values, fields = cursor.word(), (), []
    if cursor.took("("):
        values = tuple(list_at(cursor, ")"))
    elif cursor.peek() == "{":
        inside = Cursor(cursor.block(), cursor.name)
        while inside.peek():
            skip_above(inside)
            fields.append(field_at(inside))
            if inside.peek():
                inside.take(",")
    return name, values, fields


def impl_at(cursor):
    """The impl that is next."""
    line, params = cursor.line, params_at(cursor)
    trait = type_at(cursor)
    cursor.take("for")
    impl = Impl(trait, type_at(cursor), line, params)
    inside = Cursor(cursor.block(), cursor.name)
    while inside.peek():
        skip_above(inside)
        if inside.took("type"):
            name = inside.word()
            inside.take("=")
            impl.types[name] = type_at(inside)
            inside.take(";")
        elif inside.took("fn"):
            inside.skip_body()
        else:
            inside.take("ghost")
            if inside.took("use"):
                impl.uses.append(inside.until(";"))
            else:
                name = inside.word()
                inside.take("=")
                impl.ghosts[name] = inside.block()
                inside.take(";")
    return impl
