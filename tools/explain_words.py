"""What `./derive --explain` and `./derive --schema` answer."""
from derived_own import plain
from explained import explained, write_pages
from faults import Refused
from schema import schema_text


def answer(root, words):
    """The text that the words of a command line ask for, None if they ask for something else."""
    try:
        return answered(root, words)
    except Refused as error:
        raise Refused(*map(plain, error.args)) from error


def answered(root, words):
    """What `answer` returns. The names in its messages have the marks of `derived_own.py`."""
    if words[:1] not in (["--explain"], ["--schema"]):
        return None
    word, *rest = words
    if word == "--explain" and len(rest) == 2 and rest[0] == "--write":
        return "".join(f"{file.relative_to(root)}\n" for file in write_pages(root, rest[1]))
    if word == "--explain" and len(rest) in (1, 2) and not rest[0].startswith("-"):
        return explained(root, *rest)
    if word == "--schema" and len(rest) == 2 and not rest[0].startswith("-"):
        return schema_text(root, *rest)
    raise Refused("write `--explain CRATE`, `--explain CRATE TYPE`, `--explain --write CRATE` or `--schema CRATE TYPE`")
