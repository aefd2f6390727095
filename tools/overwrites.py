"""Which modules `./derive` may replace: those that it wrote itself, by what they import and by their lines at the margin."""
import re

# The traits whose impls it writes.
TRAITS = set(
    "Checked CheckedLeaf Clone DataEnum Deserialize ExactKey FieldByField FromJson Given HasAliases HasContent HasKinds HasTag InjectiveKey Inside Leaf "
    "Lossless MapKey NeverNull PlacedRecord Ranged Record RoundTrip Serialize Stable Transparent UnitEnum UntaggedEnum Visitor".split()
)
# Comments, imports, declarations, and the ends of items of several lines.
WRITTEN = re.compile(r"$|\s|//|(?:ghost )?use |#\[derive\(|(?:pub )?(?:struct|enum|type) |const [A-Z0-9_]+: |where$|[\])}>]")
IMPL = re.compile(r"impl\b(?:<.*?>)?\s+(?:\w+::)*(\w+)(?:<.*>)?\s+for\b", re.S)
IMPORT = re.compile(r"^use miniserde(?:_core)?::derived::", re.M)
# An import that has another name in the module, since a type of the user has its own.
RENAMED = re.compile(r"\b(\w+) as (\w+)")


def is_written(text, at, renamed):
    """Returns whether `./derive` writes lines like the one that begins at this index of a text; `renamed` has the imports
    by their other names."""
    if not text.startswith("impl", at):
        return bool(WRITTEN.match(text[at:].partition("\n")[0]))
    found = IMPL.match(text[at:].partition("{")[0])
    return bool(found) and renamed.get(found[1], found[1]) in TRAITS


def by_hand(text):
    """Returns what shows that `./derive` did not write a module, or "" if it did. It may replace a module of only `//!` lines, which it keeps."""
    starts = [0, *(it.end() for it in re.finditer("\n", text))]
    renamed = {new: name for used in re.findall(r"(?m)^use [^;]*;", text) for name, new in RENAMED.findall(used)}
    line = next((text[at:].partition("\n")[0] for at in starts if not is_written(text, at, renamed)), "")
    if line:
        return f"has the line `{line}`"
    has_more = any(it.strip() and not it.startswith("//!") for it in text.splitlines())
    return "does not import `miniserde::derived`" if has_more and not IMPORT.search(text) else ""


def overwritten(types, file):
    """Returns why a file of types may not be written to its module, or "" if it may."""
    if file.stem in ("main", "lib"):
        return f"{types}: its module would be src/{file.name}, the root of the crate: rename the file of types"
    if file.is_symlink():
        return f"{types}: its module would be src/{file.name}, which is a link: delete the link, or rename the file of types"
    found = by_hand(file.read_text()) if file.exists() else ""
    if not found:
        return ""
    return (
        f"{types}: its module would replace src/{file.name}, which ./derive did not write, since it {found}: rename the file of types, or move "
        f"your own code to another module and delete src/{file.name}"
    )
