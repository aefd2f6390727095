#!/usr/bin/env python3
"""Measures our jobs beside others', and prints the tables.

measure.py TEXTS OURS OTHER.. [--only WORD] [--rounds N] [--no-instructions]

OURS and OTHER are NAME=PROGRAM, programs that take a type and a mode as words and a text on standard input. The
figures of each are those of a run less those of a run over an empty text.
"""
import argparse
import json
import os
import subprocess
import sys
import tempfile
import time

# the row, the type, the text, the text of the empty run
JOBS = [
    ('`Vec<u64>`, 1 to 3 digits', 'u64s', 'short_numbers', 'empty'),
    ('`Vec<u64>`, 1 to 20 digits', 'u64s', 'long_numbers', 'empty'),
    ('`Vec<String>`, 3 to 15 letters', 'strings', 'short_strings', 'empty'),
    ('`Vec<String>`, 1 KB', 'strings', 'long_strings', 'empty'),
    ('`Vec<String>`, escapes', 'strings', 'escapes', 'empty'),
    ('`Vec<String>`, not ASCII', 'strings', 'not_ascii', 'empty'),
    ('`Vec<Vec<u64>>`', 'rows', 'rows', 'empty'),
    ('`Vec<Vec<Vec<u64>>>`', 'cubes', 'cubes', 'empty'),
    ('`BTreeMap<String, u64>`', 'map', 'map', 'empty_map'),
    ('`Vec<Demo>`, structs', 'demos', 'structs', 'empty'),
    ('`Vec<Tag>`, unit enums', 'tags', 'tags', 'empty'),
    ('`Vec<Command>`, enums with data', 'commands', 'commands', 'empty'),
    *((f'`Vec<Action>`, tag {where}', 'actions', f'tag_{where}', 'empty') for where in ('first', 'middle', 'last')),
    ('`Vec<(u64, String)>`', 'pairs', 'pairs', 'empty'),
    ('`Vec<(u8, u8, u8)>`', 'triples', 'triples', 'empty'),
    ('`Vec<Option<bool>>`', 'options', 'options', 'empty'),
    ('`Vec<Post>`, structs in structs', 'posts', 'posts', 'empty'),
    ('`Vec<Page>`, pages of records', 'pages', 'pages', 'empty'),
    ('`Vec<Service>`, thirty fields', 'services', 'services', 'empty'),
    *((f'{what}, {text}', kind, name, 'empty_map' if name == 'names' else 'empty')
      for what, kind in (('`Value`', 'value'), ('`canonical`', 'canonical'))
      for text, name in (('messages', 'messages'), ('records', 'records'), ('100 deep', 'nested'),
                         ('100,000 deep', 'deep'), ('distinct names', 'names'), ('escapes', 'escapes'),
                         ('numbers', 'numbers'))),
    *((f'`canonical`, {text}', 'canonical', name, 'empty')
      for text, name in (('messages, indented', 'indented_messages'), ('messages in order', 'messages_in_order'),
                         ('records in order', 'records_in_order'), ('polygons', 'polygons'),
                         ('100 levels out of order', 'out_of_order'))),
]


def modes_of(kind):
    """Canonical text is made in one call, so there is nothing that is read alone."""
    return ['both'] if kind == 'canonical' else ['read', 'both']


class Program:
    def __init__(self, word):
        self.name, self.path = word.split('=', 1)

    def command(self, kind, mode):
        return [self.path, kind, mode]

    def answer(self, kind, mode, text):
        with open(text, 'rb') as i:
            r = subprocess.run(self.command(kind, mode), stdin=i, stdout=subprocess.PIPE, stderr=subprocess.DEVNULL)
        return r.stdout if r.returncode == 0 else None

    def instructions(self, kind, mode, text):
        with open(text, 'rb') as i:
            r = subprocess.run(
                ['valgrind', '--tool=callgrind', '--callgrind-out-file=/dev/null', '--main-stacksize=67108864']
                + self.command(kind, mode), stdin=i, stdout=subprocess.DEVNULL, stderr=subprocess.PIPE)
        return next(int(line.split(':')[1]) for line in r.stderr.decode().splitlines() if 'Collected' in line)

    def memory(self, kind, mode, text):
        """peak resident bytes, by a process of its own, since a child is charged with its parent's"""
        with tempfile.NamedTemporaryFile() as report, open(text, 'rb') as i:
            subprocess.run(['/usr/bin/time', '-q', '-f', '%M', '-o', report.name] + self.command(kind, mode),
                           stdin=i, stdout=subprocess.DEVNULL, stderr=subprocess.DEVNULL)
            return int(report.read().split()[-1]) * 1024

    def seconds(self, kind, mode, text, to):
        with open(text, 'rb') as i:
            begun = time.perf_counter()
            subprocess.run(self.command(kind, mode), stdin=i, stdout=to, stderr=subprocess.DEVNULL)
            return time.perf_counter() - begun


def is_same_document(one, other):
    """Whether two texts differ in nothing but the spelling of numbers: peers read fractions as floats."""
    try:
        return json.loads(one) == json.loads(other)
    except RecursionError:
        return False


def measure(programs, job, folder, rounds, with_instructions):
    """figures by program, mode and measure, of the programs that take the text"""
    _, kind, text, empty = job
    text, empty = '%s/%s.json' % (folder, text), '%s/%s.json' % (folder, empty)
    size = os.path.getsize(text) - os.path.getsize(empty)
    answers = {(p.name, mode): p.answer(kind, mode, text) for p in programs for mode in modes_of(kind)}
    ours = answers[programs[0].name, 'both']
    if ours is None:
        sys.exit('%s: ours refused' % job[0])
    for (name, mode), answer in answers.items():
        if mode == 'both' and answer is not None and answer != ours and not is_same_document(answer, ours):
            sys.exit('%s: %s wrote another text' % (job[0], name))
    # A program may be made for one mode alone.
    able = [(p, mode) for p in programs for mode in modes_of(kind) if answers[p.name, mode] is not None]
    figures = {}
    for p, mode in able:
        if with_instructions:
            more = p.instructions(kind, mode, text) - p.instructions(kind, mode, empty)
            figures[p.name, mode, 'instructions'] = more / size
        figures[p.name, mode, 'memory'] = (p.memory(kind, mode, text) - p.memory(kind, mode, empty)) / size
    least = {}
    with open('/dev/shm/%d' % os.getpid(), 'wb') as to:
        for _ in range(rounds):
            for p, mode in able:
                for t in (text, empty):
                    to.seek(0)
                    key = p.name, mode, t
                    least[key] = min(least.get(key, 1e9), p.seconds(kind, mode, t, to))
        os.unlink(to.name)
    for p, mode in able:
        figures[p.name, mode, 'time'] = (least[p.name, mode, text] - least[p.name, mode, empty]) * 1e9 / size
    for p in programs:
        for what in ('instructions', 'time'):
            if (p.name, 'read', what) in figures and (p.name, 'both', what) in figures:
                figures[p.name, 'write', what] = figures[p.name, 'both', what] - figures[p.name, 'read', what]
    return figures


def table(programs, rows, mode, what):
    """Prints the figures of each job that has them, and ours in multiples of the others'."""
    programs = [p for p in programs if any((p.name, mode, what) in figures for _, figures in rows)]
    ours, others = programs[0], programs[1:]
    heads = ['job', *(p.name for p in programs), *(f'to {p.name}' for p in others)]
    print('| ' + ' | '.join(heads) + ' |\n|' + '---|' * len(heads))
    for label, figures in rows:
        if (ours.name, mode, what) not in figures:
            continue
        found = [figures.get((p.name, mode, what)) for p in programs]
        cells = ['-' if it is None else '%.1f' % it for it in found]
        cells += ['%.2f' % (found[0] / it) if it and it > 0 else '-' for it in found[1:]]
        print('| ' + ' | '.join([label, *cells]) + ' |')
    print()


def main():
    a = argparse.ArgumentParser()
    a.add_argument('texts')
    a.add_argument('programs', nargs='+', type=Program)
    a.add_argument('--only', default='')
    a.add_argument('--rounds', type=int, default=15)
    a.add_argument('--no-instructions', action='store_true')
    a = a.parse_args()
    lacking = [p.path for p in a.programs if not os.access(p.path, os.X_OK)]
    if lacking or a.rounds < 1:
        sys.exit('measure.py: %s' % (f'{lacking[0]} is no program' if lacking else '--rounds takes a number from 1'))
    rows = []
    for job in JOBS:
        if a.only in ' '.join(job):
            rows.append((job[0], measure(a.programs, job, a.texts, a.rounds, not a.no_instructions)))
            print('.', end='', file=sys.stderr, flush=True)
    print(file=sys.stderr)
    if not rows:
        sys.exit('measure.py: no job has %s in it' % a.only)
    for mode, title in (('read', 'Read and drop'), ('write', 'Write (both less read)'), ('both', 'Read and write')):
        for what, unit in (('instructions', 'instructions a byte'), ('time', 'nanoseconds a byte'),
                           ('memory', 'peak memory in multiples of the text')):
            if any((a.programs[0].name, mode, what) in figures for _, figures in rows):
                print(f'### {title}: {unit}\n')
                table(a.programs, rows, mode, what)


if __name__ == '__main__':
    main()
