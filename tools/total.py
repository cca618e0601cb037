#!/usr/bin/env python3
"""No function that another crate can call has a `requires` (docs/PROVED.md, "Contracts of the public functions"): names
each that has one; run from the root of the repository. Methods of a trait, and of an impl of one, count as public.
"""
import pathlib
import re
import sys

FUNCTION = re.compile(r'\s*(pub )?(?:const |unsafe |extern "C" )*fn (\w+)')
OF_A_TRAIT = re.compile(r'(pub (unsafe )?trait |(unsafe )?impl\b.* for )')
CLAUSE = re.compile(r'\s*(ensures|requires)\b')
ENDS = ('{', '{}', ';')


def code(line):
    return line.split('//')[0].rstrip()


def heads(lines):
    """Each function that another crate can call, with the lines of its head, down to where its body begins."""
    of_a_trait = False
    for number, line in enumerate(lines):
        if line[:1].strip():
            of_a_trait = OF_A_TRAIT.match(line) is not None
        function = FUNCTION.match(line)
        if function and (function[1] or of_a_trait):
            end = number
            while end < len(lines) and (CLAUSE.match(lines[end]) or not code(lines[end]).endswith(ENDS)):
                end += 1
            yield function[2], lines[number:end + 1]


def main():
    asking = 0
    for path in sorted(pathlib.Path('crates').glob('*/src/**/*.rt')):
        for name, head in heads(path.read_text(encoding='utf-8').split('\n')):
            if any(re.search(r'\brequires\b', code(line)) for line in head):
                print(f'{path}: {name} can be called from another crate and has a `requires`')
                asking += 1
    return 1 if asking else 0


if __name__ == '__main__':
    sys.exit(main())
