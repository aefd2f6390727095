#!/usr/bin/env python3
"""Draws docs/speed.svg: eleven jobs of bench/FIGURES.md as bars.

    bench/picture.py            draws it
    bench/picture.py --check    compares it with what it would draw

A bar is our figure as a part of serde_json's for the same job, which is the line at 1.0 of the axis: instructions, and
thinner below it time. A mark is the original crate's part, if the page has one. Shorter is better.
"""
import pathlib
import re
import sys
from html import escape

DOCS = pathlib.Path(__file__).resolve().parent.parent / "docs"
# The tables with the instructions of a job, and with its times.
TYPED = "Read and write: instructions a byte", "Read and write: nanoseconds a byte, and peak memory in multiples of the text"
USERS = "Types as users have them: instructions a byte", TYPED[1]
TEXTS = "Canonical text: instructions a byte", "Canonical text: nanoseconds a byte, and peak memory in multiples of the text"
# What is drawn: what it is called, its tables, and its row there.
JOBS = (
    ("Vec<String>", TYPED, "`Vec<String>`, 3 to 15 letters"),
    ("BTreeMap<String, u64>", TYPED, "`BTreeMap<String, u64>`"),
    ("structs", TYPED, "`Vec<Demo>`, structs"),
    ("enums with data", TYPED, "`Vec<Command>`, enums with data"),
    ("thirty fields", USERS, "`Vec<Service>`, thirty fields"),
    ("Vec<Option<bool>>", TYPED, "`Vec<Option<bool>>`"),
    ("Value: messages", TYPED, "`Value`, messages"),
    ("Value: records", TYPED, "`Value`, records"),
    ("Value: distinct names", TYPED, "`Value`, distinct names"),
    ("canonical: messages", TEXTS, "messages"),
    ("canonical: records", TEXTS, "records"),
)
LEFT, ONE, WIDEST, STEP, TOP = 165, 210, 2.2, 27, 44


def tables_of(page):
    """Returns the tables of a page by their headings: each row by its first cell, its cells by the table's heads."""
    tables = {}
    for title, rows in re.findall(r"### (.*)\n\n(?:[^|#\n].*\n\n)*((?:\|.*\n)+)", page):
        heads, _, *rows = [[cell.strip() for cell in line.strip("|\n").split("|")] for line in rows.splitlines()]
        tables[title] = {row[0]: dict(zip(heads, row)) for row in rows}
    return tables


def part_of(row, name, word=""):
    """Returns a program's figure as a part of serde_json's, or None where one of the two is missing."""
    ours, theirs = (row.get(word + each, "-") for each in (name, "serde_json"))
    return None if "-" in (ours, theirs) else float(ours) / float(theirs)


def text(x, y, words, anchor="start", weight="normal"):
    return f'<text x="{x:.0f}" y="{y:.0f}" text-anchor="{anchor}" font-weight="{weight}">{escape(words)}</text>'


def bar(y, height, part, colour):
    return f'<rect x="{LEFT}" y="{y}" width="{ONE * part:.1f}" height="{height}" fill="{colour}"/>'


def job_of(name, y, figures, times):
    """Returns the bars of a job, and its figures."""
    ours, original, time = float(figures.get("to serde_json") or figures["ratio"]), part_of(figures, "miniserde 0.1.46"), part_of(times, "ours", "time, ")
    parts = [text(LEFT - 8, y + 12, name, "end"), bar(y, 11, ours, "#1f6feb")]
    parts += [bar(y + 12, 5, time, "#a5c7f7")] if time else []
    if original:
        parts.append(f'<rect x="{LEFT + ONE * original - 1:.1f}" y="{y - 1}" width="3" height="14" fill="#d4a72c"/>')
    words = f"{ours:.2f}" + (f", time {time:.2f}" if time else "")
    return [*parts, text(LEFT + ONE * WIDEST + 10, y + 12, words)]


def axis(bottom):
    """Returns the lines of the scale, with their values below them. The one at 1.0 is serde_json's."""
    parts = []
    for tenths in range(0, int(WIDEST * 10), 5):
        x, colour = LEFT + ONE * tenths / 10, "#57606a" if tenths == 10 else "#d0d7de"
        parts.append(f'<rect x="{x:.0f}" y="{TOP - 4}" width="1" height="{bottom - TOP}" fill="{colour}"/>')
        parts.append(text(x, bottom + 10, f"{tenths / 10:.1f}" + (" = serde_json" if tenths == 10 else ""), "middle"))
    return parts


def picture(page):
    """Returns the picture of a page's figures, with the machine and the date that it names."""
    tables, height = tables_of(page), TOP + STEP * len(JOBS)
    machine = re.search(r"^.*GHz.*?\d{4}-\d\d-\d\d", page, re.M)
    parts = [text(8, 16, "Read and write, as a fraction of serde_json: shorter is better", weight="bold")]
    for x, colour, name in ((8, "#1f6feb", "instructions"), (110, "#a5c7f7", "time"), (170, "#d4a72c", "instructions of miniserde 0.1.46")):
        parts += [f'<rect x="{x}" y="24" width="10" height="10" fill="{colour}"/>', text(x + 14, 33, name)]
    parts += axis(height)
    for at, (name, (instructions, times), row) in enumerate(JOBS):
        parts += job_of(name, TOP + at * STEP, tables[instructions][row], tables.get(times, {}).get(row, {}))
    parts.append(text(8, height + 28, machine.group() if machine else ""))
    head = f'<svg xmlns="http://www.w3.org/2000/svg" width="790" height="{height + 36}" font-family="sans-serif" font-size="11">'
    return "\n".join([head, '<rect width="100%" height="100%" fill="#ffffff"/>', *parts, "</svg>", ""])


def main(words):
    if words not in ([], ["--check"]):
        print(__doc__.strip())
        return 0 if words in (["--help"], ["-h"]) else 2
    drawn = picture((DOCS.parent / "bench/FIGURES.md").read_text())
    if words and (DOCS / "speed.svg").read_text() != drawn:
        print("picture: docs/speed.svg is not what bench/FIGURES.md has: run bench/picture.py", file=sys.stderr)
        return 1
    (DOCS / "speed.svg").write_text(drawn)
    return 0


if __name__ == "__main__":
    sys.exit(main(sys.argv[1:]))
