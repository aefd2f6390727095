"""JSON texts made from a source of random numbers: their trees, each tree's texts, and the answer that `canonical` owes."""
import json

NUMBERS = """0 -0 1 -1 9 10 -10 18446744073709551614 18446744073709551615 18446744073709551616 9223372036854775807
9223372036854775808 -9223372036854775807 -9223372036854775808 -9223372036854775809 -18446744073709551615
99999999999999999999 100000000000000000000 0.0 -0.0 0e0 -0e0 0E+0 0e-0 1e1 1E400 1e-400 0.10 1.0 12e012
0.00000000000000000000001 123456789012345678901234567890.5e+10""".split()
# At the edges of the escapes, of the lengths in UTF-8, of the surrogates.
CHARACTERS = '"\\/\0\b\t\n\x0b\f\r\x1f \x7f\x80\u07ff\u0800\u2028\ud7ff\ue000\ufeff\uffff\U00010000\U0001f600\U0010ffff'
# Names whose order is easily mistaken: one a beginning of another, either case, past the surrogates.
NAMES = ["", "a", "aa", "ab", "b", "A", "10", "9", "/", '"', "\\", "\0", "\xe9", "\uffff", "\U00010000", "a\0"]
# In place of a value, none of these is one, whatever stands around it.
NO_VALUES = r"""01|-01|00|+1|-|--1|.5|-.5|1.|1.e3|1e|1e+|1E-|1.5.5|1e5.5|0x10|1_000|1 2|1f|NaN|Infinity|-Infinity|nul|nulL
True|truefalse|undefined|'a'|[|]|{|[1,]|[1 2]|[1}|{"a":1,}|{"a" 1}|{"a":1]|{"a"}|{a:1}|{1:1}""".replace("\n", "|").split("|")
# No string begins with one of these: a control character, an escape that there is not, half a pair.
NO_PIECES = ["\0", "\1", "\b", "\t", "\n", "\r", "\x1f", *r"\a|\'|\0|\ |\U0041|\u00g0|\u+041|\ud800|\udbff\u0041".split("|"),
             *r"\ud83d\ud83d|\ud83d\n|\udc00|\udfff".split("|")]
# No text has one of these in front of it or behind it.
NO_NEIGHBORS = ["[", "]", "{", "}", ",", ":", '"', " 1 ", " null ", ' "" ', " // ", "\0", "\x0b", "\f", "\x85", "\xa0",
                "\u2028", "\ufeff"]
MARKS = '{}[],:"\\/-+.eE019unt \t\n\x0b'


class Number(str):
    """A number, by its text."""


class Members(list):
    """The members of an object in order: pairs of a name and a value. Names may repeat."""


# ---- the expected answer


def written(tree):
    """Returns the canonical text of a tree."""
    if isinstance(tree, Number):
        return "0" if tree == "-0" else str(tree)
    if isinstance(tree, Members):
        last = dict(tree)
        names = sorted(last, key=lambda name: name.encode())
        return "{%s}" % ",".join(f"{json.dumps(name, ensure_ascii=False)}:{written(last[name])}" for name in names)
    if isinstance(tree, list):
        return "[%s]" % ",".join(map(written, tree))
    return json.dumps(tree, ensure_ascii=False)


def has_surrogate(tree):
    """Whether a string or a name of the tree holds half a surrogate pair."""
    if isinstance(tree, Members):
        return any(has_surrogate(name) or has_surrogate(value) for name, value in tree)
    if isinstance(tree, list):
        return any(map(has_surrogate, tree))
    return isinstance(tree, str) and any("\ud800" <= character <= "\udfff" for character in tree)


def no_number(word):
    raise ValueError(word)


DECODER = json.JSONDecoder(parse_int=Number, parse_float=Number, parse_constant=no_number, object_pairs_hook=Members)


def expected_of(text):
    """Returns the canonical text of a text, or None if the text is refused."""
    try:
        tree = DECODER.decode(text)
    except ValueError:
        return None
    return None if has_surrogate(tree) else written(tree)


# ---- trees


def number(source):
    way = source.randrange(3)
    if way == 0:
        return Number(source.choice(NUMBERS))
    minus = source.choice(["", "-"])
    if way == 1:
        return Number(f"{minus}{source.getrandbits(64) >> source.randrange(64)}")
    digits = lambda least, most: "".join(source.choices("0123456789", k=source.randint(least, most)))
    whole = source.choice("0" * 3 + "123456789" * 2)
    text = minus + (whole if whole == "0" else whole + digits(0, 23))
    text += "." + digits(1, 20) if source.randrange(3) == 0 else ""
    text += source.choice(["e", "E", "e+", "E+", "e-", "E-"]) + digits(1, 4) if source.randrange(3) == 0 else ""
    return Number(text)


def character(source):
    ranges = [(0, 0x1F), (0x80, 0x7FF), (0x800, 0xFFFF), (0x10000, 0x10FFFF), None, None, (0x20, 0x7E), (0x20, 0x7E)]
    span = source.choice(ranges)
    found = chr(source.randint(*span)) if span else source.choice(CHARACTERS)
    return "x" if has_surrogate(found) else found


def string(source, most):
    return "".join(character(source) for _ in range(source.randint(0, most)))


def leaf(source):
    makers = [lambda: None, lambda: source.random() < 0.5, lambda: number(source), lambda: number(source), lambda: string(source, 8)]
    return source.choice(makers)()


def container(source, values, few_names=False):
    """Returns the values as a list, or as the members of an object."""
    if source.random() < 0.5:
        return list(values)
    return Members((source.choice(NAMES) if few_names else string(source, 6), value) for value in values)


def deep(source):
    tree = leaf(source)
    for _ in range(source.randint(0, 120)):
        tree = container(source, [*[leaf(source)] * source.randint(0, 1), tree, leaf(source)], few_names=True)
    return tree


def piled(source, steps, few_names):
    """Returns values nested at random: a container takes the values that were made last."""
    pile = []
    for _ in range(steps):
        count = min(source.randint(0, 6), len(pile))
        if source.randrange(3) == 0:
            taken = [pile.pop() for _ in range(count)]
            pile.append(container(source, taken, few_names))
        else:
            pile.append(leaf(source))
    return Members((source.choice(NAMES) if few_names else string(source, 6), value) for value in pile)


def small(source):
    return piled(source, 4, True) if source.randrange(4) == 0 else leaf(source)


def held(source, values):
    """Returns one of the values, or a container of all."""
    return values[-1] if values and source.randrange(4) == 0 else container(source, values)


def tree_of(source):
    return source.choice([
        lambda: deep(source),
        lambda: container(source, [leaf(source) for _ in range(source.randint(0, 120))]),
        lambda: held(source, [string(source, 40) for _ in range(source.randint(0, 12))]),
        lambda: piled(source, source.randint(1, 60), True),
        lambda: held(source, [number(source) for _ in range(source.randint(0, 24))]),
        lambda: piled(source, source.randint(0, 20), False),
    ])()


# ---- texts of a tree


class Speller:
    """Writes a text of a tree, with whitespace and escapes nowhere, now and then, or wherever they may be."""

    def __init__(self, source):
        self.source, self.text, self.strings = source, "", []
        self.spaces, self.escapes = source.choice([0, 1, 2, 9]), source.choice([0, 1, 2, 9])

    def once_in(self, times):
        return times != 0 and self.source.randrange(times) == 0

    def gap(self):
        if self.once_in(self.spaces):
            self.text += "".join(self.source.choices(" \t\n\r", k=self.source.randint(1, 3)))

    def unit(self, code):
        return "\\u" + "".join(self.source.choice([digit, digit.upper()]) for digit in f"{code:04x}")

    def code(self, character):
        code = ord(character)
        if code < 0x10000:
            return self.unit(code)
        high, low = divmod(code - 0x10000, 0x400)
        return self.unit(0xD800 + high) + self.unit(0xDC00 + low)

    def character(self, character):
        if character >= " " and character not in '"\\' and not self.once_in(self.escapes):
            return character
        letter = {'"': '"', "\\": "\\", "/": "/", "\b": "b", "\t": "t", "\n": "n", "\f": "f", "\r": "r"}.get(character)
        return self.code(character) if not letter or self.once_in(self.escapes) else "\\" + letter

    def string(self, text):
        self.strings.append(len(self.text) + 1)
        self.text += '"%s"' % "".join(map(self.character, text))

    def value(self, tree):
        if isinstance(tree, Number):
            zero = "-0" if self.once_in(self.escapes) else "0"
            self.text += zero if tree in ("0", "-0") else tree
        elif isinstance(tree, str):
            self.string(tree)
        elif isinstance(tree, list):
            self.parts(tree, "{}" if isinstance(tree, Members) else "[]")
        else:
            self.text += json.dumps(tree)

    def parts(self, parts, brackets):
        self.text += brackets[0]
        self.gap()
        for at, part in enumerate(parts):
            if at:
                self.text += ","
                self.gap()
            if brackets == "{}":
                self.string(part[0])
                self.gap()
                self.text += ":"
                self.gap()
                part = part[1]
            self.value(part)
            self.gap()
        self.text += brackets[1]


def spelled(source, tree):
    """Returns a text of a tree, and where its strings begin, behind the quote."""
    speller = Speller(source)
    speller.gap()
    speller.value(tree)
    speller.gap()
    return speller.text, speller.strings


# ---- other trees


def turned(tree):
    """Returns the tree with the names of each object in the other order; members of one name stay in theirs."""
    if isinstance(tree, Members):
        names = list(dict.fromkeys(name for name, _ in reversed(tree)))
        return Members((name, turned(value)) for name in names for other, value in tree if other == name)
    return [turned(item) for item in tree] if isinstance(tree, list) else tree


def repeated(source, tree):
    """Returns the tree with one of its names repeated in front of each object that has one."""
    if isinstance(tree, Members):
        members = Members((name, repeated(source, value)) for name, value in tree)
        return Members([(source.choice(members)[0], small(source)), *members]) if members else members
    return [repeated(source, item) for item in tree] if isinstance(tree, list) else tree


def edited(source, tree, edit):
    """Returns the tree with one value edited. In an object it is a value that stands: the last of its name."""
    if not isinstance(tree, list) or not tree or source.randrange(10) == 0:
        return edit(source, tree)
    at = source.randrange(len(tree))
    if isinstance(tree, Members):
        at = max(place for place, (name, _) in enumerate(tree) if name == tree[at][0])
        return Members([*tree[:at], (tree[at][0], edited(source, tree[at][1], edit)), *tree[at + 1 :]])
    return [*tree[:at], edited(source, tree[at], edit), *tree[at + 1 :]]


def another(source, value):
    """Returns another value."""
    if isinstance(value, Members):
        name = "n" * (1 + max((len(name) for name, _ in value), default=0))
        if value and source.random() < 0.5:
            return Members([*value[:-1], (name, value[-1][1])])
        return Members([*value, (name, small(source))])
    if isinstance(value, list):
        return value[:-1] if value and source.random() < 0.5 else [*value, small(source)]
    if value is None or isinstance(value, bool):
        return source.random() < 0.5 if value is None else not value
    if not isinstance(value, Number):
        return value + character(source)
    other = str(value) if source.randrange(4) == 0 else number(source)
    return Number("1" if value in ("0", "-0") else "0") if written(other) == written(value) else other


def no_value(source, _):
    return Number(source.choice(NO_VALUES))


# ---- broken texts


def broken(source, text):
    """Returns the text with one character replaced, removed, inserted, or the last that is left."""
    at = source.randrange(len(text))
    mark = character(source) if source.randrange(4) == 0 else source.choice(MARKS)
    return source.choice([text[:at] + mark + text[at + 1 :], text[:at] + text[at + 1 :], text[:at] + mark + text[at:], text[:at]])


def wrong(source, text, strings, tree):
    """Yields texts that no tree has."""
    bare = text.strip()
    if bare[0] in '"[{':
        yield bare[: source.randrange(len(bare))]
    if strings:
        at = source.choice(strings)
        yield text[:at] + source.choice(NO_PIECES) + text[at:]
    neighbor = source.choice(NO_NEIGHBORS)
    yield source.choice([neighbor + text, text + neighbor])
    yield spelled(source, edited(source, tree, no_value))[0]
