#!/usr/bin/env python3
"""Lists what must be believed: the definitions that the public statements cite, and those that these cite in turn.

A public statement is the contract of a public function, or a theorem that docs/PROVED.md names for one of the three promises;
ROOTS has them all. From the names in a statement the script goes to their definitions in crates/*/specs, to structs, enums and named types in
crates/*/src, and to definitions that stand beside a theorem in crates/*/proofs; and on from the names in each of these. It goes
by the text, through `use` and `ghost use` lines. A name that a definition binds in its signature or in a pattern is left out; one
that a λ or a `let` binds is not, so that the script may reach a definition too many. Run it from the root of the repository:

  python3 tools/believed.py                          the files in reading order, with how much of each is reached
  python3 tools/believed.py --unreached              the definitions in the reached files of specs that no public statement reaches
  python3 tools/believed.py --check docs/PROVED.md   whether the list under "## What must be believed" has exactly these files, in this order
"""
import os
import re
import sys

# contract CRATE::FUNCTION or CRATE::MODULE::FUNCTION; CRATE::* is every function that the crate exports for C
# theorem CRATE/proofs/FILE NAME ..
ROOTS = '''
contract file_read::read_file
contract file_read::same_type
contract file_rows::type_rows
contract file_rows::type_file
contract file_rows::row_type
contract file_rows::compose_verdict
contract file_lines::type_text
contract file_pointers::canonical_form
contract file_pointers::pointer_base
contract file_sizes::type_size
contract file_sizes::size_range
contract file_cut::smallest_part
contract file_cut::cut_text
contract file_join::join_files
contract file_lines::put_lines
contract text_encode::write_text
contract program_limit::word_of
contract program_limit::asked_by
contract program_limit::counts::counts_of
contract explain_file::explain_text
contract explain_file::sizes_text
contract explain_file::ranges_text
contract texel::texel_of
contract gelmusko::*
theorem law_file/proofs/Laws.antt accepted-when long-when torn-when short-when order-when field-when index-when by-file
theorem law_file/proofs/Laws.antt buffer-written buffer-long buffer-torn buffer-short
theorem law_file/proofs/Laws.antt read_alike buffer-alike
theorem law_file/proofs/Alike.antt over-alike same_alike answers-alike count-alike row-alike row-answers-alike
theorem law_file/proofs/Alike.antt verdict-alike verdict-answers-alike text-alike
theorem file_pointers/proofs/Alike.antt canonical-alike base-alike
theorem file_sizes/proofs/Alike.antt size-alike range-alike range-frames-alike
theorem explain_file/proofs/Alike.antt explained-alike sized-alike ranged-alike
theorem gelmusko/proofs/Limits.antt no-room-alike read-file-alike same-type-alike canonical-form-alike pointer-base-alike
theorem gelmusko/proofs/Limits.antt type-size-alike size-range-alike type-rows-alike row-type-alike compose-verdict-alike
theorem gelmusko/proofs/Limits.antt smallest-part-alike cut-text-alike
theorem law_cut/proofs/Public.antt marks-follow marks-named marks-by marks-refusal marks-least cut-accepted cut-type cut-said same-frame
theorem law_join/proofs/Outcomes.antt first-when second-when not-joinable-when long-when short-when joined-when
theorem law_join/proofs/Joinable.antt joinable-when
theorem law_join/proofs/Public.antt join-accepted lines_fit join-answers join-printed
theorem law_join/proofs/PublicRows.antt first-row second-row first-verdict second-verdict
theorem law_join/proofs/PublicTypes.antt first-types second-types
theorem law_join/proofs/PublicSizes.antt first-size second-size
theorem law_join/proofs/Buffers.antt written-accepted unwritten second-kept
theorem law_join/proofs/PublicThree.antt three-lines joined-joinable
theorem law_join/proofs/Passes.antt argument-somewhere special-somewhere
theorem law_cut/proofs/Outcomes.antt outcome-is outcome-refused no-mark written-accepted written-shows
theorem law_rows/proofs/Range.antt range
theorem ir/proofs/Formats.antt formats-named
theorem rule/proofs/Shows.antt texels-shown sees_more
theorem rule_rows/proofs/Storage.antt storage-typed first-storage-newer
theorem rule_rows/proofs/Formats.antt every-format storage-gathered
theorem law_verdicts/proofs/Numbers.antt verdict-numbers
theorem law_verdicts/proofs/Each.antt one_each
theorem law_file/proofs/Said.antt row-said verdict-said
theorem law_file/proofs/Printed.antt text-fits
theorem explain_file/proofs/Fits.antt explained-fits sized-fits ranged-fits
theorem law_later_readers/proofs/Ours.antt type-rows-keeps row-type-keeps just_enough
theorem law_later_readers/proofs/Only.antt only-ours
theorem law_later_readers/proofs/ShutOut.antt not-all-newer not-before-reading not-as-another not-at-itself
theorem rule_rows/proofs/Wgsl.antt wgsl-is
theorem rule_sizes/proofs/Table.antt in-the-table
theorem law_sizes/proofs/Laws.antt fills-when fault-when
theorem law_sizes/proofs/Source.antt source-size
theorem rule_ranges/proofs/Laws.antt no-counts
theorem law_ranges/proofs/Ranges.antt range-when range-reached range-within range-fixed faults-at-greatest refused-when span-when index-when asked-when
theorem law_ranges/proofs/Steps.antt array_steps struct-steps
theorem law_ranges/proofs/Same.antt fixed_same same-counts holds-when
theorem law_ranges/proofs/Grow.antt grows fills_below only-huge
theorem law_ranges/proofs/Laws.antt has-at-when fault-at-when
theorem law_ranges/proofs/Free.antt entries-free
theorem law_file_sizes/proofs/Means.antt size-means fault-means range-means refusal-means span-means
theorem law_file_sizes/proofs/Words.antt outside_alone never-misplaced
theorem law_file_sizes/proofs/Steps.antt greatest-array-steps least-array-steps greatest-struct-steps least-struct-steps
theorem law_file_sizes/proofs/Said.antt size-said range-said
theorem law_passes/proofs/Judged.antt binary-judged
theorem law_passes/proofs/Binary.antt binary-one
theorem law_passes/proofs/BinaryInBoth.antt binary-in-both
theorem law_passes/proofs/InBoth.antt alike_at typed-in-both row-in-both
theorem law_passes/proofs/Alike.antt passes-alike rows_alike verdicts-alike row-frames-alike outputs-alike file-alike
theorem law_passes/proofs/Apart.antt not-both not-first-pass not-first-pass-by-row
theorem law_widths/proofs/Files.antt file-widths
theorem law_widths/proofs/Answers.antt answers-width row-type-width
theorem law_widths/proofs/Values.antt resolution-width answer-width said-width scalar-back
theorem law_widths/proofs/Handed.antt other-left other-right other-chosen other-newer
theorem law_equality/proofs/Equality.antt equivalence types-known sound-equivalence either_order replaced taken-when known-when
theorem law_equality/proofs/Groups.antt one-group-when in-a-group order-free members-free members-one
theorem law_equality/proofs/Parts.antt base_agrees rows_agree
theorem law_rows/proofs/Reading.antt reads-are
theorem rule_types/proofs/Looks.antt looks-are
theorem law_verdicts/proofs/Reading.antt verdict-reads-are
'''
HEADING = '## What must be believed'


def words(text):
    """The words and brackets of a text in antt, without its comments and strings."""
    found = re.findall(r'"(?:\\.|[^"\\])*"|--.*|[(){},;]|[^\s(){},;]+', text)
    return [w for w in found if not w.startswith(('--', '"'))]


class Definition:
    """What is defined under a name: the words of its signature and of each clause, and the names that it binds throughout."""

    def __init__(self, file, name, lines):
        self.file, self.name, self.lines = file, name, lines
        self.signature, self.clauses, self.bound, self.constructors = [], [], set(), []


class File:
    """A file: its definitions, the data types that have its constructors, and the names that `use` lines bring, with their modules."""

    def __init__(self, path):
        self.path, self.definitions, self.owners, self.brought = path, {}, {}, {}
        self.text = open(path).read()
        self.read_code() if path.endswith('.rt') else self.read_antt()
        for d in self.definitions.values():
            for c in d.constructors:
                self.owners.setdefault(c, []).append(d)

    def read_antt(self):
        sections, last = [], None
        for indent, lines in items(self.text):
            ws = [w for w in words('\n'.join(lines)) if w not in ('abbrev', 'unfoldable', 'pub')]
            sections = [s for s in sections if s[0] < indent]
            if ws[0] == 'use':
                self.bring(ws)
            elif ws[0] == 'module':
                sections.append((indent, ws))
            elif ws[0] in ('data', 'record') or ':' in ws and '=' not in ws[:ws.index(':')]:
                named = 1 if ws[0] in ('data', 'record') else 0
                last = self.definitions[ws[named]] = Definition(self, ws[named], len(lines))
                last.signature = [w for s in sections for w in s[1]] + ws[named + 1:]
                last.bound = binders(last.signature)
                inside = [words(x) for x in lines[1:] if named and len(x) - len(x.lstrip()) == indent + 2]
                for x in inside:
                    names = [w for w in x[:x.index(':')] if w != 'pub'] if ':' in x else []
                    last.bound.update(names)
                    last.constructors += names if ws[0] == 'data' else []
            elif last and '=' in ws:
                last.clauses.append(ws)
                last.lines += len(lines)

    def read_code(self):
        crate = self.path.split('/')[1]
        for line in re.findall(r'^ghost use (.*);', self.text, re.M):
            self.bring(words('use ' + line))
        for path, group in re.findall(r'^(?:pub )?use ([\w:]+)(?:::\{([^}]*)\})?;', self.text, re.M):
            for inner in [path + '::' + name.strip() for name in group.split(',') if name.strip()] if group else [path]:
                owner, *rest = inner.split('::')
                if rest and re.fullmatch(r'[A-Z]\w*', rest[-1]) and owner != 'std':
                    module = ['Rattle', crate if owner == 'crate' else owner, 'specs', 'declared']
                    self.brought[rest[-1]] = '.'.join(module + rest), rest[-1]
        for kind, name, body in re.findall(r'^pub (enum|struct) (\w+)( \{.*?^\}|\(.*?\);)', self.text, re.M | re.S):
            d = self.definitions[name] = Definition(self, name, body.count('\n') + 1)
            body = re.sub('//.*', '', body)
            if kind == 'enum':
                d.constructors = re.findall(r'^    (\w+)', body, re.M)
                body = re.sub(r'^    \w+', '', body, flags=re.M)
            d.signature = re.findall(r'[A-Z]\w*', body)
        for name, body in re.findall(r'^pub type (\w+) = (.*?);', self.text, re.M | re.S):
            self.definitions[name] = d = Definition(self, name, 1)
            d.signature = re.findall(r'[A-Z]\w*', body)

    def bring(self, ws):
        """What a `use` line brings: names of a module, or a module under a name of its own."""
        ws = [w for w in ws[1:] if w not in '{},;']
        if 'as' in ws:
            self.brought[ws[2]] = ws[0], ''
        else:
            self.brought.update({w: (ws[0].rstrip('.'), w) for w in ws[1:]})

    def meant(self, word):
        """The definitions that a word means here; none if it is of a library, or no name."""
        head, dot, rest = word.partition('.')
        if head in self.brought and (dot or self.brought[head][1]):
            module, name = self.brought[head]
            return defined(module, name or rest.split('.')[0])
        if head in self.definitions:
            return [self.definitions[head]]
        return self.owners.get(word, [])

    def constructs(self, word):
        return any(word.split('.')[-1] in d.constructors for d in self.meant(word))

    def cited(self, ws, bound):
        """The definitions that words cite; the word before `=` is a label."""
        names = [w for w, after in zip(ws, ws[1:] + ['']) if after != '=' and w.split('.')[0] not in bound]
        return [d for w in names for d in self.meant(w)]


def items(text):
    """The items of a file in antt, with the indent of each: a line, and those after it that stand deeper."""
    item, indent = [], 0
    for line in text.split('\n'):
        if not line.strip() or line.lstrip().startswith('--'):
            continue
        deep = len(line) - len(line.lstrip())
        opened = item and words(item[0])[0] == 'module' and words(item[-1])[-1] == 'where'
        if item and (deep <= indent or opened) and line[deep] not in ')}':
            yield indent, item
            item = []
        if not item:
            indent = deep
        item.append(line)
    if item:
        yield indent, item


def binders(ws):
    """The names that `(x y : T)` and `{x : T}` bind."""
    bound, names = set(), None
    for w in ws:
        if w == ':':
            bound.update(names or [])
        names = [] if w in '({' else names + [w] if names is not None and w not in ')},;:' else None
    return bound


files = {}


def file(path):
    if path not in files:
        files[path] = File(path)
    return files[path]


def defined(module, name):
    """The definitions of a name in a module: Rattle.CRATE.specs.FILE, .specs.declared.TYPE, or a file of proofs."""
    library, crate, *parts = module.split('.') + ['']
    parts = [p for p in parts if p]
    if library != 'Rattle' or crate == 'std':
        return []
    if parts[:2] == ['specs', 'declared']:
        *inner, name = [p for p in parts[2:] if p != 'TheVariants']
        f = file('crates/%s/src/%s.rt' % (crate, '/'.join(inner or ['lib'])))
    else:
        f = file('crates/%s/%s.antt' % (crate, '/'.join(parts)))
    if name not in f.definitions and name not in f.owners:
        sys.exit('%s does not define %s' % (f.path, name))
    return [f.definitions[name]] if name in f.definitions else f.owners[name]


def cites(d, statement=False):
    """The definitions that a definition cites, or its statement alone."""
    out = d.file.cited(d.signature, d.bound)
    for c in [] if statement else d.clauses:
        equals = c.index('=')
        pattern = [w for w in c[1:equals] if not d.file.constructs(w)]
        out += d.file.cited(c[equals + 1:], d.bound.union(pattern))
    return out


def contract(path):
    """What the contract of a function cites, or the contracts of every function that a crate exports for C."""
    crate, *inner, name = path.split('::')
    src = 'crates/%s/src/' % crate
    paths = ordered(src, 'lib', '.rt') if name == '*' else [src + '/'.join(inner or ['lib']) + '.rt']
    head = r'extern "C" fn \w+' if name == '*' else 'fn ' + name
    out = []
    for f in map(file, paths):
        for text in re.findall(r'^pub (%s\(.*?)^\{' % head, f.text, re.M | re.S):
            parameters, *clauses = re.split(r'^ +(?:requires|ensures)(?: \w+)? (?=\{)', text, flags=re.M)
            out += f.cited(re.findall(r'[A-Z]\w*', parameters), ())
            for c in clauses:
                out += f.cited(words(c), re.findall(r'(\w+):', parameters))
    return out or sys.exit('no contract of %s' % path)


def reach():
    """Every definition that a public statement reaches."""
    wait, reached = [], set()
    for kind, path, *names in [line.split() for line in ROOTS.strip().split('\n')]:
        if kind == 'contract':
            wait += contract(path)
        for name in names:
            f = file('crates/' + path)
            wait += cites(f.definitions[name], statement=True) if name in f.definitions else sys.exit('no theorem %s in %s' % (name, path))
    while wait:
        d = wait.pop()
        if d not in reached:
            reached.add(d)
            wait += cites(d)
    return reached


def ordered(folder, root, ending):
    """A file and those that its `mod` lines name, in their order."""
    path = folder + root + ending
    if not os.path.exists(path):
        return []
    inner = folder if root in ('lib', 'Lib') else folder + root + '/'
    return [path] + [p for m in re.findall(r'^(?:pub )?mod (\w+)', open(path).read(), re.M) for p in ordered(inner, m, ending)]


def reading_order():
    """The files of all crates, each crate after those that it needs: declarations, definitions, proofs."""
    lines = [line.split('#')[0].split(':') for line in open('crates.txt') if ':' in line.split('#')[0]]
    needs = {line[0].split()[0]: line[1] for line in lines}
    crates, order = [], []

    def place(crate):
        if crate in needs and crate not in crates:
            for n in needs[crate].split():
                place(n)
            crates.append(crate)
    for crate in needs:
        place(crate)
    for crate in crates:
        for part, root, ending in ('src', 'lib', '.rt'), ('specs', 'Lib', '.antt'), ('proofs', 'Lib', '.antt'):
            folder = 'crates/%s/%s/' % (crate, part)
            named = ordered(folder, root, ending)
            order += named + sorted(p for p in files if p.startswith(folder) and p not in named)
    return order


def check(page, paths):
    """Says where the page's list differs from these files."""
    after = ('\n' + open(page).read()).partition('\n' + HEADING + '\n')[2]
    listed = [p for p in re.findall(r'^ *(?:[-*]|\d+\.) +`([^`]+)`', after.split('\n## ')[0], re.M) if '/' in p]
    if not after:
        print('%s has no heading "%s"' % (page, HEADING))
    for p in paths:
        if after and p not in listed:
            print('%s does not list %s, which must be believed' % (page, p))
    for p in listed:
        if p not in paths:
            print('%s lists %s, which no public statement reaches' % (page, p))
    if set(listed) == set(paths) and listed != paths:
        print('%s lists the right files, but one twice or not in reading order' % page)
    return 0 if listed == paths else 1


def main(arguments):
    reached = reach()
    paths = [p for p in reading_order() if any(d.file.path == p for d in reached)]
    if arguments[:1] == ['--check']:
        return check(arguments[1], paths)
    for p in paths:
        all = list(files[p].definitions.values())
        here = [d for d in all if d in reached]
        if not arguments:
            of = ' of %d' % len(all) if '/specs/' in p else ''
            print('%-44s %8s definitions, %3d lines' % (p, str(len(here)) + of, sum(d.lines for d in here)))
        elif '/specs/' in p and len(here) < len(all):
            print(p + ': ' + ', '.join(d.name for d in all if d not in reached))
    if not arguments:
        print('%d files, %d definitions, %d lines' % (len(paths), len(reached), sum(d.lines for d in reached)))
    return 0


if __name__ == '__main__':
    sys.exit(main(sys.argv[1:]))
