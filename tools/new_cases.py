"""Cases of `./new --selftest`: what `./new` and `./derive` refuse, and what they leave as it was."""
import os
import pathlib
import shutil
import subprocess

ROOT = pathlib.Path(__file__).resolve().parent.parent
MARK = "# Crates of your own stand below this line.\n"
# Below the line of a repository over `miniserde_core`: names that look like those of the library, and remarks.
OWN = """yours: miniserde_core
# This one is ours.
miniserde_ours: miniserde_core

turns: yours # the library has this name, and this repository does not need it
app: miniserde_core yours
"""
KEYS = "miniserde_keys: miniserde_model itoa\n"
# What a repository cannot be updated for: what is replaced in crates.txt, by what, and what the message names.
REFUSED = (
    ("a crate below the line that the library needs", ((KEYS, ""), (MARK, MARK + "miniserde_keys: miniserde_core\n")), "your crate `miniserde_keys`"),
    ("a folder that no line lists", ((KEYS, ""),), "crates/miniserde_keys has the name"),
    ("a crate above the line that is not of the library", ((MARK, "shop: miniserde_core\n" + MARK),), "`shop` is not a crate of the library"),
    ("a crate of the user's whose name begins as the library's", ((MARK, "miniserde_shop: miniserde_core\n" + MARK),), "`miniserde_shop` is not a crate"),
    ("no line between the library and the rest", ((MARK, ""),), "no line `# Crates of your own"),
    ("no crate of the library above the line", ((MARK, ""), ("miniserde_model:\n", MARK + "miniserde_model:\n")), "no crate of the library above"),
)
# What `./derive` must not replace: the crate, the name of the file of types, the text of its module, and what the message says of it.
KEPT = (
    ("yours", "lib", None, "src/lib.rt, the root of the crate"),
    ("app", "main", None, "src/main.rt, the root of the crate"),
    ("yours", "plain", None, "it has the line `"),
    ("yours", "spans", "//! Spans.\nuse std::ops::Range;\n\npub struct Span(pub Range<u64>);\n", "it does not import `miniserde::derived`"),
    ("yours", "old", "// fn a() {}\n", "it does not import `miniserde::derived`"),
    ("yours", "ends", "use miniserde_core::derived::Error;\n\nimpl std::fmt::Display for End {}\n", "it has the line `impl std::fmt::Display for End {}`"),
)
# Programs in place of `rt`: one that fails, and one that ends the `./new` above the `./derive` that starts it.
STOPS = {"fails": "exit 1", "ends it": 'kill -TERM "$(cut -d " " -f 4 "/proc/$PPID/stat")"; sleep 5'}


def ran(*words, folder=ROOT, **variables):
    """Runs a command. Returns its status and its errors."""
    done = subprocess.run([str(it) for it in words], cwd=folder, env={**os.environ, **variables}, stdout=subprocess.DEVNULL, stderr=subprocess.PIPE, text=True)
    return done.returncode, done.stderr


def files_of(folder):
    """Returns the bytes of each file of a folder, by its path."""
    return {str(file.relative_to(folder)): file.read_bytes() for file in sorted(folder.rglob("*")) if file.is_file()}


def write(folder, files):
    for name, text in files.items():
        (folder / name).parent.mkdir(parents=True, exist_ok=True)
        (folder / name).write_text(text)


def faults_of_own_crates(folder):
    """Updates a repository with crates and remarks of the user's own. Yields faults."""
    made = (folder / "crates.txt").read_text().partition(MARK)[0]
    remarked = "# The library.\n" + made.replace(KEYS, "# Keys.\n" + KEYS.replace("\n", " # of maps\n"))
    own = {f"crates/{name}/src/lib.rt": f"//! {name} of the user.\n" for name in ("miniserde_ours", "turns")}
    own |= {"LICENSE-MIT": "All rights reserved.\n", "docs/ours.md": "[gone](gone.md)\n", "linked.md": "A page of the user.\n"}
    write(folder, {"crates.txt": remarked + MARK + OWN, **own})
    (folder / "docs/FIRST-TYPE.md").unlink()
    (folder / "docs/FIRST-TYPE.md").symlink_to("../linked.md")
    status, errors = ran("./new", "--update", folder)
    if status:
        yield f"--update ends with {status}: {errors}"
    if (folder / "crates.txt").read_text() != remarked + MARK + OWN:
        yield f"--update writes another crates.txt:\n{(folder / 'crates.txt').read_text()}"
    files = files_of(folder)
    yield from (f"--update changes {name}" for name, text in own.items() if files.get(name) != text.encode())
    write(folder, {"crates.txt": made + MARK + OWN})


def faults_of_places(folder, room):
    """Updates a repository whose folders are links or whose files are the user's, and makes one where a file has the name of its room. Yields faults."""
    for name in ("crates", "crates/miniserde_text", "docs", "tools"):
        place, away = folder / name, room / "away"
        place.rename(away)
        place.symlink_to(away)
        before = files_of(away)
        status, errors = ran("./new", "--update", folder)
        if status != 1 or f"{name} is a link" not in errors or files_of(away) != before:
            yield f"--update through a link at {name} ends with {status}, or changes files there: {errors}"
        place.unlink()
        away.rename(place)
    listed = (folder / "crates.txt").read_text()
    for name, file, text in (("rows", "lib", "pub mod error;\npub mod goods;\n"), ("turns", "lib", ""), ("store", "main", "fn main() {}\n")):
        taken = f"{name}: miniserde_core\n"
        write(folder, {"crates.txt": listed.replace(taken, "").replace(MARK, taken + MARK), f"crates/{name}/src/{file}.rt": text})
        status, errors = ran("./new", "--update", folder)
        if status != 1 or f"`{name}` is not a crate of the library" not in errors or not (folder / f"crates/{name}/src/{file}.rt").exists():
            yield f"--update over a crate `{name}` of the user's ends with {status}: {errors}"
        shutil.rmtree(folder / "crates" / name) if name != "turns" else None
    log = (folder / "CHANGELOG.md").read_text()
    write(folder, {"crates.txt": listed})
    write(folder, {"CHANGELOG.md": "# Changelog\n\nOf the user.\n"})
    status, errors = ran("./new", "--update", folder)
    if status != 1 or "CHANGELOG.md is not the library's" not in errors or "Of the user" not in (folder / "CHANGELOG.md").read_text():
        yield f"--update over a changelog of the user's ends with {status}: {errors}"
    if os.geteuid() == 0:
        yield from faults_of_planted(folder)
    write(folder, {"CHANGELOG.md": log, "linked": ""})
    (folder / "derive").unlink()
    (folder / "derive").symlink_to("linked")
    status, errors = ran("./new", "--update", folder)
    if status or (folder / "linked").read_text() or (folder / "derive").is_symlink():
        yield f"--update where `derive` is a link ends with {status}, or writes through it: {errors}"
    (folder / "linked").unlink()


def faults_of_planted(folder):
    """Updates, as root, a repository in which another user has put files, and one that others may write. Yields faults."""
    for name in ("subprocess.py", "tools/dataclasses.py", "crates/yours/specs/Ours.antt"):
        write(folder, {name: "raise SystemExit(9)\n"})
        os.chown(folder / name, 65534, 65534)
        status, errors = ran("./new", "--update", folder)
        if status != 1 or f"{name} is another user's" not in errors:
            yield f"--update by root beside {name} of another user ends with {status}: {errors}"
        (folder / name).unlink()
    for name in (".", "tools", "crates/yours/src"):
        mode = (folder / name).stat().st_mode
        (folder / name).chmod(0o777)
        status, errors = ran("./new", "--update", folder)
        if status != 1 or "may be written by others" not in errors:
            yield f"--update by root where others may write {name} ends with {status}: {errors}"
        (folder / name).chmod(mode)


def faults_of_anothers(room):
    """Makes a repository where another user has made the folder in which it would be made. Yields faults."""
    place = room / "anothers"
    script = 'mkdir "$1/.shop.$$"; shift; exec ./new "$@"'
    place.mkdir()
    status, errors = ran("sh", "-c", script, "sh", place, place / "shop")
    if status != 1 or "File exists" not in errors or (place / "shop").exists():
        yield f"./new over a folder that is there ends with {status}: {errors[-300:]}"


def faults_of_refused_updates(folder):
    """Updates a repository that cannot be updated. Yields faults."""
    listed = (folder / "crates.txt").read_text()
    for what, changes, wanted in REFUSED:
        text = listed
        for old, new in changes:
            text = text.replace(old, new)
        write(folder, {"crates.txt": text})
        before = files_of(folder)
        status, errors = ran("./new", "--update", folder)
        if status != 1 or wanted not in errors:
            yield f"{what}: --update ends with {status}: {errors}"
        if files_of(folder) != before:
            yield f"{what}: --update changes files"
    write(folder, {"crates.txt": listed})


def faults_of_kept_modules(folder):
    """Has `./derive` replace modules that it did not write, and one of only comments. Yields faults."""
    for crate, name, text, wanted in KEPT:
        types, module = folder / "crates" / crate / "types" / f"{name}.rs", folder / "crates" / crate / "src" / f"{name}.rt"
        write(folder, {types: "pub struct Item { of: u64 }\n", **({module: text} if text else {})})
        before = files_of(folder)
        status, errors = ran("./derive", crate, folder=folder)
        if status != 1 or wanted not in errors or files_of(folder) != before:
            yield f"./derive of types/{name}.rs in `{crate}` ends with {status}, or changes files: {errors}"
        types.unlink()
    write(folder, {"crates/yours/types/linked.rs": "pub struct Item { of: u64 }\n"})
    (folder / "crates/yours/src/linked.rt").symlink_to("elsewhere.rt")
    status, errors = ran("./derive", "yours", folder=folder)
    if status != 1 or "which is a link" not in errors or (folder / "crates/yours/src/elsewhere.rt").exists():
        yield f"./derive through a link ends with {status}: {errors}"
    (folder / "crates/yours/src/linked.rt").unlink()
    (folder / "crates/yours/types/linked.rs").unlink()
    write(folder, {"crates/yours/types/more.rs": "pub struct Item { of: u64 }\n", "crates/yours/src/more.rt": "//! More types.\n"})
    status, errors = ran("./derive", "yours", folder=folder)
    text = (folder / "crates/yours/src/more.rt").read_text()
    if status or not text.startswith("//! More types.\n") or "pub struct Item" not in text:
        yield f"./derive does not write a module over one of only comments: {errors}"


def faults_of_unfinished(room):
    """Makes repositories by a `./new` that cannot finish. Yields faults."""
    for what, script in STOPS.items():
        tools, place = room / what / "bin", room / what / "place"
        write(tools, {"rt": f"#!/bin/sh\n{script}\n"})
        (tools / "rt").chmod(0o755)
        place.mkdir()
        status, _ = ran("./new", place / "shop", PATH=f"{tools}:{os.environ['PATH']}")
        if status != (143 if "ends" in what else 1) or [*place.iterdir()]:
            yield f"./new with an rt that {what} ends with {status}, and leaves {[*map(str, place.iterdir())]}"


def faults_inside():
    """Makes a repository inside the pages of this one. Yields faults."""
    place = ROOT / "docs/of-a-user"
    status, errors = ran("./new", place / "shop")
    if status != 1 or "choose another place" not in errors or place.exists():
        yield f"./new in docs ends with {status}: {errors[-300:]}"
    shutil.rmtree(place, ignore_errors=True)


def faults(folder, room):
    """Tries all cases in a repository over `miniserde_core` and in an empty folder. Yields faults."""
    yield from faults_of_own_crates(folder)
    yield from faults_of_places(folder, room)
    yield from faults_of_refused_updates(folder)
    yield from faults_of_kept_modules(folder)
    yield from faults_of_unfinished(room)
    yield from faults_of_anothers(room)
    yield from faults_inside()
