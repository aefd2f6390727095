#!/usr/bin/env python3
"""Counts what the canonical text of a value takes beside its text, and prints the table.

canonical_of.py TEXTS PROGRAM

Each figure is instructions a byte of the text that was read, less those of reading it, and of a run over an empty text.
"""
import os
import sys

from measure import JOBS, Program


def main():
    if len(sys.argv) != 3:
        sys.exit('canonical_of.py: TEXTS PROGRAM')
    folder, ours = sys.argv[1], Program('ours=' + sys.argv[2])
    print('### Canonical text of a value: instructions a byte\n')
    print('| job | `to_string` | `canonical_of` | to `to_string` |\n|---|---|---|---|')
    for label, kind, *texts in JOBS:
        if kind == 'canonical':
            continue
        text, empty = ('%s/%s.json' % (folder, name) for name in texts)
        size = os.path.getsize(text) - os.path.getsize(empty)
        read, both, canonical = (ours.instructions(kind, mode, text) - ours.instructions(kind, mode, empty)
                                 for mode in ('read', 'both', 'canonical'))
        written, made = (both - read) / size, (canonical - read) / size
        print('| %s | %.1f | %.1f | %.2f |' % (label, written, made, made / written), flush=True)


if __name__ == '__main__':
    main()
