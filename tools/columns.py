#!/usr/bin/env python3
"""Refuses lines over 120 columns in the crates' .rt and .antt files; run from the root of the repository.

Two kinds of lines can't be broken and are left out: one that holds a byte string, and a `use` of one module.
"""
import os
import re
import sys

MOST = 120


def unbreakable(line):
    return 'b"' in line or re.fullmatch(r'use \S+( as \S+)?', line) is not None


def main():
    wide = 0
    for top, folders, names in os.walk('crates'):
        folders[:] = sorted(folder for folder in folders if folder != 'out')
        for name in sorted(names):
            if not name.endswith(('.rt', '.antt')):
                continue
            path = os.path.join(top, name)
            with open(path, encoding='utf-8') as file:
                for number, line in enumerate(file, 1):
                    line = line.rstrip('\n')
                    if len(line) > MOST and not unbreakable(line):
                        print(f'{path}:{number}: {len(line)} columns, more than {MOST}')
                        wide += 1
    return 1 if wide else 0


if __name__ == '__main__':
    sys.exit(main())
