#!/usr/bin/env python3
"""Brings the repository's own names to today's spelling: words in snake case; run once, at the root, after port.py.

A name that begins with a small letter and holds a capital (`frameAt`) becomes words joined by `_` (`frame_at`), in the
crates' .rt, .antt and .edit files outside strings, and in the pages between back quotes. Types, modules and facts keep
their capitals, and a dash still joins two names. Five lemmas, which port.py gave the name that such a definition has
now, have their dash back.
"""
import os
import re

CAMEL = re.compile(r"(?<![A-Za-z0-9_'])[a-z][a-z0-9]*(?:_[a-z0-9]+)*(?:[A-Z][a-z0-9]*)+(?:_[a-z0-9]+)*(?![A-Za-z0-9_'])")
STRING = re.compile(r'b?"(?:[^"\\]|\\.)*"')

# a file, and the lemmas in it whose dash comes back
DASHES = {
    'crates/ir/proofs/Numbered.antt': ['access_of'],
    'crates/frames/proofs/Same.antt': ['made_row'],
    'crates/law_passes/proofs/Binary.antt': ['of_left', 'of_right'],
    'crates/law_later_readers/proofs/Ours.antt': ['stands_at'],
}
EVERYWHERE = ['row_named']


def snake(word):
    return re.sub(r'(?<=[a-z0-9])([A-Z])', r'_\1', word).lower()


def words(text):
    return CAMEL.sub(lambda m: snake(m.group(0)), text)


def outside_strings(text):
    out, at = [], 0
    for m in STRING.finditer(text):
        out.append(words(text[at:m.start()]))
        out.append(m.group(0))
        at = m.end()
    out.append(words(text[at:]))
    return ''.join(out)


def dashed(text, names):
    for name in names:
        text = re.sub(r"(?<![A-Za-z0-9_'.-])" + name + r"(?![A-Za-z0-9_'-])", name.replace('_', '-'), text)
    return text


def crate_file(path):
    with open(path, encoding='utf-8') as file:
        old = file.read()
    new = dashed(old, DASHES.get(path, []))
    if path.startswith('crates/law_') and path.endswith('.antt'):
        new = dashed(new, EVERYWHERE)
    lines = [words(line) if path.endswith('.antt') else outside_strings(line) for line in new.split('\n')]
    new = '\n'.join(lines)
    if new != old:
        with open(path, 'w', encoding='utf-8') as file:
            file.write(new)


def page(path):
    with open(path, encoding='utf-8') as file:
        old = file.read()
    new = re.sub(r'`[^`\n]*`', lambda m: words(m.group(0)), old)
    if new != old:
        with open(path, 'w', encoding='utf-8') as file:
            file.write(new)


def main():
    for top, folders, names in os.walk('crates'):
        folders[:] = sorted(f for f in folders if f != 'out')
        for name in sorted(names):
            if name.endswith(('.rt', '.antt', '.edit')):
                crate_file(os.path.join(top, name))
    for top, _, names in os.walk('docs'):
        for name in sorted(names):
            if name.endswith('.md'):
                page(os.path.join(top, name))
    page('README.md')


if __name__ == '__main__':
    main()
