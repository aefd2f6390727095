"""The marks that stand behind the names of a user while a module is written (`own.py`)."""
import re
import zlib

# The marks: of a name, and of a parameter, which hides a type of its name. The constant of a name has another number in its mark.
OWN, PARAM = "0own0own0", "0own1own0"
MARKED = re.compile("0own[0-9]+own0")


def plain(text):
    """A text without the marks."""
    return MARKED.sub("", text)


def const_of(name):
    """The constant of the names of a type's parts. Its mark tells it from that of a name which gives the same letters."""
    return f"{re.sub(r'(?<=[a-z0-9])(?=[A-Z])', '_', plain(name)).upper()}0own{zlib.crc32(name.encode())}own0_NAMES"
