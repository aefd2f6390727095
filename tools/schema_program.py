"""A program that reads texts as the derived types of all crates, in a repository of its own, and what it answers."""
import re
import shutil
import subprocess

import rattle

SEPARATOR = "\x1e"
# What an answer may be: accepted, invalid, or no memory.
ANSWERS = set("10m")
MAIN = """//! Reads each text of standard input as the type whose number is in front of it.
#![tactic(auto)]

use miniserde::json::from_str;
use miniserde::{{Error, FromJson}};
use std::alloc::Global;
use std::collections::{{BTreeMap, VecDeque}};
use std::io;
use std::io::{{BufRead, BufReader}};
use std::str;

fn answer<T: FromJson + Drop>(alloc: Global, text: &str) -> &'static str {{
    match from_str::<T>(alloc, text) {{
        Ok(_) => "1",
        Err(Error::Invalid) => "0",
        Err(Error::Memory) => "m",
    }}
}}

{parts}
fn judge(alloc: Global, at: usize, text: &str) -> &'static str {{
    match at / {width} {{
{arms}
        _ => "?",
    }}
}}

fn main(rt: HostRuntime) -> io::Result<()> {{
    let alloc = rt.alloc();
    let mut answers = String::new(alloc);
    let reader = BufReader::new(alloc, rt.stdin())?;
    for part in reader.split(alloc, 30) {{
        let part = part?;
        let Ok(whole) = str::from_utf8(part.as_slice()) else {{
            continue;
        }};
        let Some((at, text)) = whole.split_once(":") else {{
            continue;
        }};
        answers.push_str(judge(alloc, at.parse::<usize>().unwrap_or(9999), text))?;
    }}
    print!(rt; "{{answers}}")
}}
"""
PART = """fn judge_{number}(alloc: Global, at: usize, text: &str) -> &'static str {{
    match at {{
{arms}
        _ => "?",
    }}
}}
"""
WIDTH = 16


def imports_of(text):
    """The modules of its own crate that a module names."""
    return set(re.findall(r"\bcrate::(\w+)", text))


def modules_of(crate, derived):
    """The modules of a crate that its derived ones need, each with its text: what they name, and who implements `TextValue`."""
    texts = {file.stem: file.read_text() for file in (crate.folder / "src").glob("*.rt")}
    needed = {*derived, *(name for name, text in texts.items() if re.search(r"^impl TextValue for", text, re.M))}
    while more := {name for it in needed for name in imports_of(texts[it]) if name in texts} - needed:
        needed |= more
    return {name: texts[name] for name in sorted(needed)}


def write_crate(folder, crate, derived):
    """Writes a crate with only its derived modules. Returns its line of crates.txt."""
    source = folder / "crates" / crate.name
    shutil.copytree(crate.folder, source, ignore=shutil.ignore_patterns("out", "wrong-bodies", "types"))
    shutil.rmtree(source / "src")
    (source / "src").mkdir()
    modules = modules_of(crate, derived)
    for name, text in modules.items():
        (source / f"src/{name}.rt").write_text(re.split(r"\n#\[cfg\(test\)\]", text)[0] + "\n")
    lines = "".join(f"pub mod {name};\n" for name in modules)
    (source / "src/lib.rt").write_text(f"//! The derived types of a crate.\n#![tactic(auto)]\n\n{lines}")
    used = [it for it in [*(each.name for each in crate.libraries), *crate.of_kit] if any(re.search(rf"\b{it}(?:::|\.)", text) for text in modules.values())]
    return f"{crate.name}: {' '.join(used)}\n"


def write_repository(folder, derived, types):
    """Writes the repository of the program. `derived` has the derived modules of each crate, and `types` are written as in code."""
    crates, lines, done = rattle.crates(), "", set()
    for name, modules in derived.items():
        lines += write_crate(folder, crates[name], modules)
        done.add(name)
    below = {it.name: it for name in [*derived, "miniserde"] for it in [*crates[name].below(), crates[name]]}
    for name, crate in below.items():
        if name not in done:
            shutil.copytree(crate.folder, folder / "crates" / name, ignore=shutil.ignore_patterns("out", "wrong-bodies"))
            lines += f"{name}: {' '.join([*(it.name for it in crate.libraries), *crate.of_kit])}\n"
    (folder / "crates.txt").write_text(lines + f"schemas: miniserde {' '.join(derived)}\n")
    (folder / "HANDLES").write_text("Handles allowed: none.\n")
    source = folder / "crates/schemas/src/main.rt"
    source.parent.mkdir(parents=True)
    source.write_text(main_of(types))


def main_of(types):
    """The program, with the types in parts, since a function has few lines."""
    parts, arms = [], []
    for number, at in enumerate(range(0, len(types), WIDTH)):
        own = "\n".join(f"        {at + each} => answer::<{of}>(alloc, text)," for each, of in enumerate(types[at : at + WIDTH]))
        parts.append(PART.format(number=number, arms=own))
        arms.append(f"        {number} => judge_{number}(alloc, at, text),")
    return MAIN.format(parts="\n".join(parts), arms="\n".join(arms), width=WIDTH)


def answers_to(folder, texts):
    """What the program answers to each text, with the number of its type. The interpreter is stopped at once: what answers is compiled."""
    given = SEPARATOR.join(f"{at}:{text}" for at, text in texts)
    words = ["rt", "try", "--steps", "1", "--seconds", "600"]
    ran = subprocess.run(words, cwd=folder / "crates/schemas", input=given, capture_output=True, text=True)
    answers = ran.stdout.partition("\n")[0]
    if len(answers) != len(texts) or not set(answers) <= ANSWERS:
        raise SystemExit(f"try_schemas: the program gave {len(answers)} answers to {len(texts)} texts\n{ran.stdout[-2000:]}{ran.stderr[-3000:]}")
    return answers
