#!/usr/bin/env python3
"""Counts the instructions a byte of inputs that make careless readers slow, at one size and at ten times that.

slow.py PROGRAM [--only WORD]

PROGRAM takes a type and a mode as words and a text on standard input, as `crates/test_driver` does. Each input is read as
its type and written. If the cost a byte grows by more than 1.3 times, the last line says so and the status is 1; the names
of an object are looked up in a tree, so there the logarithm of their number is taken off first.
"""
import argparse
import math
import random
import subprocess
import sys
import tempfile

LIMIT = 1.3


def names(order, size, name='n%d'):
    numbers = list(range(size))
    if order == 'falling':
        numbers.reverse()
    if order == 'shuffled':
        random.Random(18).shuffle(numbers)
    return '{%s}' % ','.join('"%s":%d' % (name % (10 ** 7 + k), k) for k in numbers)


def shared(size):
    return names('shuffled', size, 'a' * 1000 + '%d')


def numbered(size):
    return '{%s}' % ','.join('"%d":true' % k for k in range(size))


def unknown(size):
    return '{"code":1,"message":"",%s}' % ','.join('"n%d":%d' % (10 ** 7 + k, k) for k in range(size))


def deep_unknown(size):
    return '{"code":1,"message":"","n":%s}' % ('[' * size + ']' * size)


def before_tag(size):
    return '[{%s,"kind":"Ping"}]' % ','.join('"n%d":%d' % (10 ** 7 + k, k) for k in range(size))


def before_tag_deep(size):
    return '[{"n":%s,"kind":"Ping"}]' % ('[' * size + ']' * size)


def tag_last(size):
    return '[%s]' % ','.join(['{"x":1,"y":-1,"kind":"move"}'] * size)


def out_of_order(levels):
    """Objects of that many levels in a list, as many levels in all as asked."""
    tower = '{"b":' * levels + '0' + ',"a":1}' * levels
    return lambda n: '[%s]' % ','.join([tower] * (n // levels))


# an empty text of each type
EMPTY = {'value': '{}', 'canonical': '{}', 'map': '{}', 'hashed': '{}', 'strings': '[]', 'cubes': '[]', 'demo': '{"code":1,"message":""}',
         'actions': '[]'}

# the row, the type, the text of a size, the larger size, and whether names are looked up in a tree
JOBS = [
    *((f'{what}, {row}', kind, *rest) for what, kind in (('`Value`', 'value'), ('`canonical`', 'canonical')) for row, *rest in (
        ('100,000 distinct names, rising', lambda n: names('rising', n), 100000, True),
        ('100,000 distinct names, falling', lambda n: names('falling', n), 100000, True),
        ('100,000 distinct names, shuffled', lambda n: names('shuffled', n), 100000, True),
        ('100,000 equal names', lambda n: '{%s}' % ','.join(['"a":1'] * n), 100000, False),
        ('10,000 names that share 1,000 bytes', shared, 10000, True),
        ('a string of 1,000,000 escapes', lambda n: '"%s"' % ('\\n' * n), 1000000, False),
        ('1,000,000 levels of lists', lambda n: '[' * n + ']' * n, 1000000, False),
        ('1,000,000 levels of objects', lambda n: '{"":' * n + '0' + '}' * n, 1000000, False),
        ('100,000 levels of objects with names that fall', lambda n: '{"b":1,"a":' * n + '0' + '}' * n, 100000, False),
        ('1,000,000 empty lists in a list', lambda n: '[%s]' % ','.join(['[]'] * n), 1000000, False))),
    ('`canonical`, objects out of order, by 10 levels', 'canonical', out_of_order(10), 100000, False),
    ('`canonical`, objects out of order, by 1,000 levels', 'canonical', out_of_order(1000), 100000, False),
    ('`canonical`, 100,000 levels of objects out of order', 'canonical', lambda n: out_of_order(n)(n), 100000, False),
    ('`BTreeMap<String, u64>`, names falling', 'map', lambda n: names('falling', n), 100000, True),
    ('`BTreeMap<String, u64>`, names shuffled', 'map', lambda n: names('shuffled', n), 100000, True),
    ('`BTreeMap<String, u64>`, equal names', 'map', lambda n: '{%s}' % ','.join(['"a":1'] * n), 100000, False),
    ('`BTreeMap<String, u64>`, names that share 1,000 bytes', 'map', shared, 10000, True),
    ('`HashMap<u32, bool>`', 'hashed', numbered, 100000, False),
    ('a struct with 100,000 unknown members', 'demo', unknown, 100000, False),
    ('a struct with an unknown member of 1,000,000 levels', 'demo', deep_unknown, 1000000, False),
    ('a tagged enum with 100,000 unknown members before the tag', 'actions', before_tag, 100000, False),
    ('a tagged enum with an unknown member of 1,000,000 levels before the tag', 'actions', before_tag_deep, 1000000, False),
    ('100,000 tagged enums, tag last', 'actions', tag_last, 100000, False),
    ('`Vec<String>`, a string of 1,000,000 escapes', 'strings', lambda n: '["%s"]' % ('\\n' * n), 1000000, False),
    ('`Vec<Vec<Vec<u64>>>`, 1,000,000 empty lists', 'cubes', lambda n: '[[%s]]' % ','.join(['[]'] * n), 1000000, False),
]


def instructions(program, kind, text):
    with tempfile.NamedTemporaryFile() as file:
        file.write(text.encode())
        file.flush()
        file.seek(0)
        run = subprocess.run(
            ['valgrind', '--tool=callgrind', '--callgrind-out-file=/dev/null', program, kind, 'both'],
            stdin=file, stdout=subprocess.DEVNULL, stderr=subprocess.PIPE)
    if run.returncode:
        sys.exit('slow.py: the program refused a text')
    return next(int(line.split(':')[1]) for line in run.stderr.decode().splitlines() if 'Collected' in line)


def main():
    words = argparse.ArgumentParser()
    words.add_argument('program')
    words.add_argument('--only', default='')
    given = words.parse_args()
    slow = []
    print('| input | instructions a byte at a tenth | at full size | grows by |')
    print('|---|---|---|---|')
    for row, kind, text_of, size, looks_up in JOBS:
        if given.only not in row:
            continue
        costs, empty = [], instructions(given.program, kind, EMPTY[kind])
        for n in (size // 10, size):
            text = text_of(n)
            costs.append((instructions(given.program, kind, text) - empty) / len(text))
        growth = costs[1] / costs[0]
        told = '%.2f' % growth
        if looks_up:
            growth /= math.log(size) / math.log(size // 10)
            told += ', the logarithm of names taken off %.2f' % growth
        if growth > LIMIT:
            slow.append(row)
        print('| %s | %.1f | %.1f | %s |' % (row, costs[0], costs[1], told), flush=True)
    if slow:
        print('\nGrows by more than %.1f: %s.' % (LIMIT, '; '.join(slow)))
        sys.exit(1)


if __name__ == '__main__':
    main()
