#!/usr/bin/env python3
"""Makes the measured texts, from a fixed seed.

    make_texts.py FOLDER    writes FOLDER/NAME.json, and last an empty file FOLDER/complete
"""
import json
import pathlib
import random
import sys

SIZE = 2_000_000
LETTERS = 'abcdefghijklmnopqrstuvwxyz '
ESCAPES = ['\\n', '\\"', '\\\\', '\\u00e9', '\\ud83d\\ude00', '\\/', '\\t', '\\u0001', '\\u0041', 'a']
NOT_ASCII = '日本語éñ漢字カナ'


def word(r, low, high):
    return ''.join(r.choices(LETTERS, k=r.randint(low, high)))


def number(r):
    """1 to 19 digits, each as often, and now and then 2^64-1"""
    digits = r.randint(1, 20)
    if digits == 20:
        return str(2 ** 64 - 1)
    return str(r.randrange(10 ** (digits - 1) if digits > 1 else 0, 10 ** digits))


def listed(items):
    return '[' + ','.join(items) + ']'


def fill(size, item):
    """A list of as many items as make up the size in bytes."""
    items, bytes_so_far = [], 2
    while bytes_so_far < size:
        items.append(item())
        bytes_so_far += len(items[-1].encode()) + 1
    return listed(items)


def message(r, number_of_message):
    """A message as social media have them: nested objects, texts with and without escapes, numbers and words."""
    text = word(r, 20, 120) + r.choice(['', '\\n', ' \\"quoted\\"', ' 日本語の文', ' \\u00e9t\\u00e9', ' http:\\/\\/t.co\\/' + word(r, 8, 8).replace(' ', 'x')])
    user = '{"id":%d,"name":"%s","screen_name":"%s","followers_count":%d,"verified":%s,"description":"%s","url":null}' % (
        r.randrange(10 ** 10), word(r, 5, 20), word(r, 5, 15), r.randrange(10 ** 6), r.choice(['true', 'false']), word(r, 0, 160))
    tags = listed('{"text":"%s","indices":[%d,%d]}' % (word(r, 3, 12), at, at + 9) for at in r.choices(range(140), k=r.randrange(4)))
    return '{"id":%d,"created_at":"Sun Nov 22 %02d:00:29 +0000 2026","text":"%s","truncated":false,"user":%s,"geo":null,"coordinates":%s,"entities":{"hashtags":%s,"urls":[]},"retweet_count":%d,"favorited":%s,"lang":"%s"}' % (
        505874873961308160 + number_of_message, r.randrange(24), text, user,
        r.choice(['null', '[%s,%s]' % (round(r.uniform(-180, 180), 6), round(r.uniform(-90, 90), 6))]), tags, r.randrange(100),
        r.choice(['true', 'false']), r.choice(['en', 'ja', 'fr']))


def words(r, most):
    return [word(r, 3, 12) for _ in range(r.randrange(most + 1))]


def media(r):
    """What a post shows, as an enum with data."""
    url = 'http://t.co/' + r.choice(LETTERS[:26]) * 8
    return r.choice([
        {'Photo': {'url': url, 'width': r.randrange(4000), 'height': r.randrange(4000)}},
        {'Video': {'url': url, 'seconds': r.randrange(1000)}},
        {'Link': url},
    ])


def post(r, number_of_post):
    """A message as `message` makes it, with what a type of structs has: a map, an enum with data, pairs of integers."""
    made = json.loads(message(r, number_of_post))
    if made['coordinates']:
        made['coordinates'] = [round(degrees * 10 ** 6) for degrees in made['coordinates']]
    made['media'] = [media(r) for _ in range(r.randrange(3))]
    made['counts'] = {name: r.randrange(10 ** 4) for name in ('likes', 'replies', 'views')}
    del made['geo'], made['retweet_count']
    return made


def record(r, at):
    return {'id': at, 'name': word(r, 3, 15), 'tags': words(r, 3), 'ok': r.random() < 0.5,
            'at': {'x': r.randint(-10 ** 6, 10 ** 6), 'y': r.choice([None, r.randrange(1000)])}}


def page(r):
    begin = r.randrange(10 ** 9)
    return {'total': 10 ** 9, 'next': r.choice([None, word(r, 20, 20)]), 'records': [record(r, begin + k) for k in range(50)]}


def service(r):
    """Settings of thirty members, in the order in which their struct has them."""
    maybe = lambda value: value if r.random() < 0.5 else None
    names = lambda: {word(r, 3, 10) for _ in range(3)}
    return {
        'name': word(r, 5, 20), 'host': word(r, 5, 20), 'port': r.randrange(2 ** 16), 'admin_port': maybe(r.randrange(2 ** 16)),
        'workers': r.randrange(256), 'queue': r.randrange(10 ** 6), 'timeout_ms': r.randrange(10 ** 5),
        'idle_timeout_ms': maybe(r.randrange(10 ** 5)), 'max_body': r.randrange(10 ** 9), 'max_header': r.randrange(10 ** 5),
        'keep_alive': r.random() < 0.5, 'tls': r.random() < 0.5, 'cert': maybe(word(r, 10, 40)), 'key': maybe(word(r, 10, 40)),
        'level': r.choice(['Error', 'Warn', 'Info', 'Debug']), 'log_file': maybe(word(r, 10, 40)), 'origins': words(r, 3),
        'methods': words(r, 4), 'headers': {name: word(r, 3, 30) for name in sorted(names())},
        'routes': {name: words(r, 3) for name in sorted(names())}, 'per_second': r.randrange(10 ** 4), 'burst': r.randrange(10 ** 4),
        'block_seconds': maybe(r.randrange(10 ** 4)), 'retry': [r.randrange(10 ** 4) for _ in range(3)],
        'backoff': [r.randrange(100), r.randrange(10 ** 4)], 'offset': r.randint(-10 ** 4, 10 ** 4), 'region': r.choice(['eu-west', 'us-east', 'ap-south']),
        'tags': maybe(words(r, 3)), 'quota': {str(k): r.randint(-100, 100) for k in sorted(r.choices(range(9), k=3))},
        'share': r.randrange(101),
    }


def in_order(text):
    """The text with the names of its objects in order, without whitespace, and no escape but those that must be."""
    return json.dumps(json.loads(text), sort_keys=True, ensure_ascii=False, separators=(',', ':'))


def polygon(r):
    """A polygon as maps have them: pairs of degrees with fractions."""
    points = listed('[%s,%s]' % (round(r.uniform(-180, 180), 6), round(r.uniform(-90, 90), 6)) for _ in range(r.randrange(10, 200)))
    return '{"type":"Feature","geometry":{"type":"Polygon","coordinates":[%s]}}' % points


def command(r):
    """A variant without data, one with a text, or one with two fields, each as often."""
    step = '{"Move":{"x":%d,"y":%d}}' % (r.randint(-1000, 1000), r.randint(-1000, 1000))
    return r.choice(['"Ping"', '{"Text":"%s"}' % word(r, 3, 30), step])


def action(r, at):
    """An object whose member `kind` names a variant without data or one with two fields, each as often. `at` is where the
    member stands if there are others: 0 first, 1 in the middle, 2 last."""
    said = ['"text":"%s"' % word(r, 3, 30), '"to":%s' % r.choice(['null', '"%s"' % word(r, 3, 10)])]
    step = ['"x":%d' % r.randint(-1000, 1000), '"y":%d' % r.randint(-1000, 1000)]
    name, members = r.choice([('Ping', []), ('Say', said), ('move', step)])
    members.insert(at, '"kind":"%s"' % name)
    return '{%s}' % ','.join(members)


def texts():
    r = random.Random(20261123)
    row = lambda: listed(number(r) for _ in range(10))
    yield 'empty', '[]'
    yield 'empty_map', '{}'
    yield 'seven_bytes', '{"a":1}'
    yield 'short_numbers', fill(SIZE, lambda: str(r.randrange(1000)))
    yield 'long_numbers', fill(SIZE, lambda: number(r))
    yield 'short_strings', fill(SIZE, lambda: '"%s"' % word(r, 3, 15))
    yield 'long_strings', fill(SIZE, lambda: '"%s"' % word(r, 1024, 1024))
    yield 'escapes', fill(SIZE, lambda: '"%s"' % ''.join(r.choices(ESCAPES, k=40)))
    yield 'not_ascii', fill(SIZE, lambda: '"%s"' % ''.join(r.choices(NOT_ASCII, k=30)))
    yield 'rows', fill(SIZE, row)
    yield 'cubes', fill(SIZE, lambda: listed(row() for _ in range(10)))
    yield 'structs', fill(SIZE, lambda: '{"code":%d,"message":"%s"}' % (r.randrange(1000), word(r, 10, 30)))
    yield 'pairs', fill(SIZE, lambda: '[%s,"%s"]' % (number(r), word(r, 3, 15)))
    names = list(range(100_000))
    r.shuffle(names)
    yield 'map', '{' + ','.join('"name%d":%d' % (k, r.randrange(10 ** 6)) for k in names) + '}'
    messages = (message(r, n) for n in range(10 ** 6))
    listed_messages = fill(SIZE, lambda: next(messages))
    yield 'messages', listed_messages
    yield 'indented_messages', json.dumps(json.loads(listed_messages), ensure_ascii=False, indent=2)
    yield 'messages_in_order', in_order(listed_messages)
    ids = iter(range(10 ** 6))
    record = lambda i: '{"id": %d, "name": "user%d", "tags": ["a", "b"], "ok": true, "at": {"x": %d, "y": null}}' % (i, i, i * 7)
    records = fill(SIZE, lambda: record(next(ids)))
    yield 'records', records
    yield 'records_in_order', in_order(records)
    # serde_json refuses what is nested deeper.
    yield 'nested', fill(SIZE, lambda: '[' * 100 + ']' * 100)
    yield 'deep', '[' * 100_000 + ']' * 100_000
    names = list(range(100_000))
    r.shuffle(names)
    yield 'names', '{' + ','.join('"name%d":%d' % (k, i) for i, k in enumerate(names)) + '}'
    yield 'numbers', fill(SIZE, lambda: str(r.randint(-10 ** r.randint(1, 18), 10 ** r.randint(1, 18))))
    yield 'options', fill(SIZE, lambda: r.choice(['null', 'true', 'false']))
    yield 'polygons', fill(SIZE, lambda: polygon(r))
    yield 'tags', fill(SIZE, lambda: r.choice(['"A"', '"renamedB"', '"enum"']))
    yield 'commands', fill(SIZE, lambda: command(r))
    yield 'out_of_order', fill(SIZE, lambda: '{"b":' * 100 + '0' + ',"a":1}' * 100)
    for at, name in enumerate(('tag_first', 'tag_middle', 'tag_last')):
        same = random.Random(20261127)
        yield name, fill(SIZE, lambda: action(same, at))
    yield 'triples', fill(SIZE, lambda: '[%d,%d,%d]' % tuple(r.choices(range(256), k=3)))
    # Types as users have them.
    r = random.Random(20261129)
    ids = iter(range(10 ** 6))
    for name, make in (('posts', lambda: post(r, next(ids))), ('pages', lambda: page(r)), ('services', lambda: service(r))):
        yield name, fill(SIZE, lambda: json.dumps(make(), ensure_ascii=False, separators=(',', ':')))


def main():
    if len(sys.argv) != 2 or sys.argv[1].startswith('-'):
        print(__doc__.strip())
        sys.exit(0 if sys.argv[1:] in (['--help'], ['-h']) else 2)
    folder = pathlib.Path(sys.argv[1])
    folder.mkdir(parents=True, exist_ok=True)
    complete = folder / 'complete'
    complete.unlink(missing_ok=True)
    for name, text in texts():
        (folder / f'{name}.json').write_text(text, encoding='utf-8')
    complete.touch()


if __name__ == '__main__':
    main()
