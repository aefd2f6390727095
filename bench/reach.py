#!/usr/bin/env python3
"""Measures the C library, the Python package and `canon` beside their peers, and prints the tables.

reach.py TEXTS IN_PROCESS CANON SITE [--only WORD] [--rounds N] [--no-instructions]

TEXTS is a folder of make_texts.py, IN_PROCESS the program of peers/in_process.cpp, CANON the program, and SITE a folder
with the Python package. In each table ours is absolute, and the others are multiples of ours.
"""
import argparse
import functools
import json
import os
import subprocess
import sys
import time

from measure import Program

# the row, and its text
TEXTS = [
    ('7 bytes', 'seven_bytes'), ('messages', 'messages'), ('messages, indented', 'indented_messages'),
    ('messages in order', 'messages_in_order'), ('records', 'records'), ('integers', 'numbers'), ('floats', 'polygons'),
    ('escapes', 'escapes'), ('not ASCII', 'not_ascii'), ('distinct names', 'names'), ('100 deep', 'nested'),
]
UNITS = {'time': 'nanoseconds a byte', 'instructions': 'instructions a byte', 'memory': 'peak memory in multiples of the text'}
# How answers differ that are of one document, and how numbers are read to see that nothing else differs.
LIKENESSES = {'strings spelled otherwise': {'parse_int': str, 'parse_float': str}, 'fractions spelled otherwise': {},
              'integers rounded to doubles': {'parse_int': float}}
# What is less than this is measured by many calls, and told a call.
SMALL = 100


class Library(Program):
    """A library, called by the program in_process. The mode is `answer`, or how many calls."""

    def __init__(self, path, name):
        self.path, self.library = path, name
        self.name = 'ours' if name == 'miniserde' else name

    def command(self, kind, mode):
        return [self.path, self.library, kind, *mode.split()]

    def seconds_a_call(self, kind, text, size):
        with open(text, 'rb') as i:
            calls = f'{max(1, 10 ** 6 // size)} 3'
            return float(subprocess.run(self.command(kind, calls), stdin=i, stdout=subprocess.PIPE, check=True).stdout)


class Command(Program):
    """A program that takes a text on standard input and writes its canonical text."""

    def __init__(self, name, *words):
        self.name, self.words = name, list(words)

    def command(self, kind, mode):
        return self.words


@functools.cache
def instructions(program, kind, mode, text):
    return program.instructions(kind, mode, text)


def able(programs, kind, text, notes):
    """Returns the programs that take the text, and notes what the others' answers are."""
    answers = {p: p.answer(kind, 'answer', text) for p in programs}
    compare({p.name: answer for p, answer in answers.items()}, notes)
    return [p for p in programs if answers[p] is not None]


def compare(answers, notes):
    """Notes for each answer how it stands to ours, which is the first. Ends the run if it is another document."""
    ours = next(iter(answers.values()))
    if ours is None:
        sys.exit('reach.py: ours refused a text')
    for name, answer in answers.items():
        notes[name] = 'refused' if answer is None else likeness(answer, ours)
        if notes[name] is None:
            sys.exit(f'reach.py: {name} wrote another document')


def likeness(answer, ours):
    """Returns how an answer differs from ours, '' if in nothing but a line's end, None if it is another document."""
    if answer.rstrip(b'\n') == ours:
        return ''
    for what, numbers in LIKENESSES.items():
        # As tuples, so that the order of names counts, and duplicates do.
        if json.loads(answer, object_pairs_hook=tuple, **numbers) == json.loads(ours, object_pairs_hook=tuple, **numbers):
            return what
    return None


def from_c(libraries, kind, text, given, notes):
    """Returns the figures of a text by library and measure."""
    empty, size = os.path.join(given.texts, 'empty.json'), os.path.getsize(text)
    libraries = able(libraries, kind, text, notes)
    figures, part = {}, 1 if size < SMALL else size
    for p in libraries:
        if size >= SMALL:
            figures[p.name, 'memory'] = (p.memory(kind, 'answer', text) - p.memory(kind, 'answer', empty)) / size
        if given.no_instructions:
            continue
        if size < SMALL:
            more = instructions(p, kind, '1001', text) - instructions(p, kind, '1', text)
            figures[p.name, 'instructions'] = more / 1000
        else:
            more = instructions(p, kind, 'answer', text) - instructions(p, kind, 'answer', empty)
            figures[p.name, 'instructions'] = more / size
    least = dict.fromkeys(libraries, 1e9)
    for _ in range(given.rounds):
        for p in libraries:
            least[p] = min(least[p], p.seconds_a_call(kind, text, size))
    figures.update(((p.name, 'time'), least[p] * 1e9 / part) for p in libraries)
    return figures


def from_python(jobs, kind, text, given, notes):
    """Returns the times of a text by package."""
    with open(text, 'rb') as i:
        data = i.read()
    size, part = len(data), 1 if len(data) < SMALL else len(data)
    it = json.loads(data) if kind == 'dumps' else data
    if kind != 'is_json':
        compare({name: job(it) for name, job in jobs.items()}, notes)
    calls, least = max(1, 10 ** 6 // size), dict.fromkeys(jobs, 1e9)
    for _ in range(given.rounds):
        for name, job in jobs.items():
            begun = time.process_time()
            for _ in range(calls):
                job(it)
            least[name] = min(least[name], (time.process_time() - begun) / calls)
    return {(name, 'time'): least[name] * 1e9 / part for name in jobs}


def as_process(commands, kind, text, given, notes):
    """Returns the figures of a text by program and measure: a byte, start-up taken off, or of a whole run of a small text."""
    size = os.path.getsize(text)
    is_small = size < SMALL
    texts = [text] if is_small else [text, os.path.join(given.texts, 'empty.json')]
    part = 1 if is_small else size
    commands = able(commands, kind, text, notes)
    figures, least = {}, {(p, t): 1e9 for p in commands for t in texts}
    less = lambda found: found[0] - sum(found[1:])
    for p in commands:
        figures[p.name, 'memory'] = less([p.memory(kind, '', t) for t in texts]) / part
        if not given.no_instructions:
            figures[p.name, 'instructions'] = less([instructions(p, kind, '', t) for t in texts]) / part
    with open('/dev/shm/%d' % os.getpid(), 'wb') as to:
        for _ in range(given.rounds):
            for p, t in least:
                to.seek(0)
                least[p, t] = min(least[p, t], p.seconds(kind, '', t, to))
        os.unlink(to.name)
    figures.update(((p.name, 'time'), less([least[p, t] for t in texts]) * 1e9 / part) for p in commands)
    return figures


def python_jobs():
    """Returns the jobs of the Python package, each by the packages that do it."""
    import miniserde
    compact = lambda it: json.dumps(it, sort_keys=True, separators=(',', ':'), ensure_ascii=False).encode()
    jobs = {'canonical': {'ours': miniserde.canonical, 'json': lambda it: compact(json.loads(it))},
            'dumps': {'ours': miniserde.dumps, 'json': compact},
            'is_json': {'ours': miniserde.is_json, 'json': json.loads}}
    try:
        import orjson
    except ImportError:
        return jobs
    write = lambda it: orjson.dumps(it, option=orjson.OPT_SORT_KEYS)
    jobs['canonical']['orjson'] = lambda it: write(orjson.loads(it))
    jobs['dumps']['orjson'] = write
    jobs['is_json']['orjson'] = orjson.loads
    return jobs


def commands_of(canon):
    script = ('import json, sys; sys.stdout.write(json.dumps(json.loads(sys.stdin.buffer.read()), sort_keys=True, '
              'separators=(",", ":"), ensure_ascii=False))')
    return [Command('ours', canon), Command('jq -cS', 'jq', '-cS', '.'), Command('python3', sys.executable, '-X', 'utf8', '-c', script)]


def cell(ours, other):
    if other is None or ours is None or ours <= 0:
        return '-'
    return '%.*f' % (2 if other < 10 * ours else 1, other / ours)


def table(title, names, rows, what):
    """Prints the rows that have figures of a measure: ours as it is, the others in multiples of ours."""
    rows = [(label, figures) for label, figures in rows if ('ours', what) in figures]
    names = [name for name in names if any((name, what) in figures for _, figures in rows)]
    if not rows:
        return
    print(f'### {title}\n\n| text | {" | ".join(names)} |\n|' + '---|' * (len(names) + 1))
    for label, figures in rows:
        ours, *others = (figures.get((name, what)) for name in names)
        told = '%.1f' % ours if ours < 1000 else '{:,.0f}'.format(ours)
        print('| ' + ' | '.join([label, told, *(cell(ours, it) for it in others)]) + ' |')
    print()


def whole_runs(names, figures):
    """Prints the figures of whole runs over a small text."""
    scaled = {'time, ms': ('time', 1e6), 'instructions, millions': ('instructions', 1e6), 'peak memory, MB': ('memory', 1e6)}
    rows = [(label, {(name, 'run'): figures[name, what] / by for name in names if (name, what) in figures})
            for label, (what, by) in scaled.items()]
    table('As a process, 7 bytes: a whole run', names, rows, 'run')


def tell(section, names, rows, notes):
    """Prints the tables of a section, and which answers are not ours."""
    if section == 'As a process':
        for label, figures in rows:
            if label == '7 bytes':
                whole_runs(names, figures)
        rows = [(label, figures) for label, figures in rows if label != '7 bytes']
    else:
        rows = [(label + ', a call' * (label == '7 bytes'), figures) for label, figures in rows]
    for what, unit in UNITS.items():
        table(f'{section}: {unit}', names, rows, what)
    told = [f'- {name}, {what}: {"; ".join(found)}.' for name in names[1:] for what in ('refused', *LIKENESSES)
            if (found := [label for label in notes if notes[label].get(name) == what])]
    if told:
        print(*told, sep='\n', end='\n\n')
    sys.stdout.flush()


def sections(given):
    """Yields each section: its title, its function, its job, and what does it, ours first."""
    libraries = {name: Library(given.in_process, name) for name in ('miniserde', 'jansson', 'RapidJSON', 'simdjson')}
    yield 'From C, canonical text', from_c, 'canonical', list(libraries.values())
    yield 'From C, validation', from_c, 'is_json', [libraries[name] for name in ('miniserde', 'RapidJSON', 'simdjson')]
    for kind, jobs in python_jobs().items():
        title = {'canonical': 'canonical text', 'dumps': '`dumps` of an object', 'is_json': 'validation'}[kind]
        yield f'From Python, {title}', from_python, kind, jobs
    yield 'As a process', as_process, 'canonical', commands_of(given.canon)


def main():
    a = argparse.ArgumentParser()
    for word in ('texts', 'in_process', 'canon', 'site'):
        a.add_argument(word, type=os.path.abspath)
    a.add_argument('--only', default='')
    a.add_argument('--rounds', type=int, default=5)
    a.add_argument('--no-instructions', action='store_true')
    given = a.parse_args()
    sys.path.insert(0, given.site)
    is_any = False
    for section, measure, kind, programs in sections(given):
        rows, notes = [], {}
        for label, name in TEXTS:
            if given.only in f'{section}, {label}':
                text = os.path.join(given.texts, f'{name}.json')
                rows.append((label, measure(programs, kind, text, given, notes.setdefault(label, {}))))
                print('.', end='', file=sys.stderr, flush=True)
        if rows:
            is_any = True
            tell(section, [getattr(it, 'name', it) for it in programs], rows, notes)
    print(file=sys.stderr)
    if not is_any:
        sys.exit(f'reach.py: no table or row has {given.only} in it')


if __name__ == '__main__':
    main()
