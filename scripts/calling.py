#!/usr/bin/env python3
"""Checks that docs/CALLING.md is current: its caller and its contracts are those of the sources.

    scripts/calling.py [--update]

The page has a text of its own, and between the lines that name this script what is made here: a caller and its proof,
as they are in crates/guide, and the contract of each public function in crates/bincode/src, in short form. With --update
it is written anew there. Without, the script prints the first line that differs, and the status is 1; where none does,
it prints the number of contracts, and the status is 0. It fails where a public function is in no group below, or has
no contract that it can read.
"""
import glob, os, re, sys, textwrap

ROOT = os.path.dirname(os.path.dirname(os.path.abspath(__file__)))
SOURCES = 'crates/bincode/src'
PAGE = 'docs/CALLING.md'
CALLER = ['crates/guide/src/trips.rt', 'crates/guide/proofs/trips/write_and_read/Answers.antt']
FIRST, LAST = '<!-- scripts/calling.py -->', '<!-- end of scripts/calling.py -->'
COLUMNS = 118
HARD = '\x01'  # a blank at which no line is broken
# The files of the public functions, in the order of the page, each with the title of its group.
GROUPS = [
    ('Slices', ['slice', 'exact', 'borrow']),
    ('Vectors and writers', ['vec', 'writer']),
    ('Readers and streams', ['reader', 'streams', 'next']),
    ('Checked calls, in `bincode::checked`', ['checked']),
    ('Shapes, in `bincode::shape`', ['shaped', 'shaped/within', 'enum_shapes']),
]
# What is long in many clauses, and its short form, in the order in which they are replaced.
SHORT = [
    (r'(\w+)\.words\.format C\.setting', r'format \1'),
    (r'AllowedWord \((\w+)\.words\.means (\S+?)\) \(format \1\)', r'allowed \1 \2'),
    (r'IsReady \((\w+)\.words\.writable C\.setting (\S+?)\) \(allowed \1 \2\)', r'ready \1 \2'),
    (r'format_of (\S+) C\.setting', r'format_of \1'),
]


def read(path):
    with open(f'{ROOT}/{path}', encoding='utf-8') as file:
        return file.read()


def block_end(text, start):
    """The place after the brace that closes the one at this place."""
    depth = 0
    for place in range(start, len(text)):
        depth += {'{': 1, '}': -1}.get(text[place], 0)
        if depth == 0:
            return place + 1
    raise ValueError(text[start:start + 60])


def joined(text):
    """A text on one line, without what only the layout asks for."""
    text = re.sub(r'\s+', ' ', text).strip()
    text = re.sub(r'([(<]) ', r'\1', text)
    return re.sub(r',? ([)>])(?=[(),> ]|$)', r'\1', text)


def shortened(clause):
    """A clause on one line, with the short forms."""
    clause = re.sub(r'\s+', ' ', clause).strip()
    for long, short in SHORT:
        clause = re.sub(long, short, clause)
    return clause


def wrapped(line, indent):
    """A line, broken where it is too long; a break is at a blank."""
    filled = textwrap.fill(line, COLUMNS, subsequent_indent=' ' * indent, break_long_words=False, break_on_hyphens=False)
    return filled.replace(HARD, ' ')


def head_line(head):
    """The head of a function, broken where it is too long: after a parameter, or before the result."""
    head, arrow, result = joined(head).partition(') -> ')
    head = re.sub(r'(?<!,) ', HARD, head)
    return wrapped(head + arrow.replace('-> ', '->' + HARD) + result.replace(' ', HARD), 4)


def contracts(path):
    """The public functions of a file, each with its lines on the page."""
    text = re.sub(r'^\s*//[^\n]*\n', '', read(path), flags=re.M)
    for found in re.finditer(r'^pub fn (\w+)', text, re.M):
        place = found.end()
        heads = re.compile(r'\n    (?:ensures|requires)\b|\n\{|\s*\{\n').search(text, place)
        lines = [head_line(text[found.start() + len('pub '):heads.start()])]
        clause = re.compile(r'\s*(ensures|requires)\*? ?(\w+)? ?(?=\{)')
        place = heads.start()
        while True:
            next_clause = clause.match(text, place)
            if not next_clause:
                break
            end = block_end(text, next_clause.end())
            kind, name = next_clause.group(1), next_clause.group(2)
            said = shortened(text[next_clause.end() + 1:end - 1])
            lines.append(wrapped(f'  {kind}{" " + name if name else ""}: {said}', 6))
            place = end
        if len(lines) < 2:
            sys.exit(f'{path}: no contract of `{found.group(1)}` was found')
        yield found.group(1), lines


def made():
    """What stands between the two lines, and the number of contracts."""
    source, proof = CALLER
    parts = ['## A caller', '', f'From `{source}`, where `Saved` is an enum of the module `settings`:', '', '```rust',
             read(source).rstrip('\n'), '```', '', f'Its proof is `{proof}`:', '', '```antt', read(proof).rstrip('\n'),
             '```', '', '## Contracts', '', read_head()]
    count, files = 0, set()
    for title, names in GROUPS:
        parts += ['', f'### {title}', '', '```text']
        for name in names:
            path = f'{SOURCES}/{name}.rt'
            files.add(path)
            for _, lines in contracts(path):
                parts += lines
                count += 1
        parts.append('```')
    for path in sorted(glob.glob(f'{ROOT}/{SOURCES}/**/*.rt', recursive=True)):
        shown = os.path.relpath(path, ROOT)
        if shown not in files and re.search(r'^pub fn ', read(shown), re.M):
            sys.exit(f'{shown}: its public functions are in no group')
    return '\n'.join(parts) + '\n', count


def read_head():
    """What is said before the contracts."""
    return HEAD.strip('\n')


HEAD = '''
These are quoted from `crates/bincode/src`, without comments, and shortened:

- `format T` is `T.words.format C.setting`, the format of a type under a configuration.
- `allowed E val` is `AllowedWord (E.words.means val) (format E)`: the encodings that the value allows.
- `ready E val` is `IsReady (E.words.writable C.setting val) (allowed E val)`: these, if the value can be written.
- `format_of shape` is `format_of shape C.setting`.

A value is `old` before and `new` after the call, and `now` if it is only read. A clause without a name is cited as
`ensures`, and one with a name as `ensures.NAME`: `c.round_trip_by_vec.ensures.back` is the clause `back` of that call.
'''


def main():
    if sys.argv[1:] not in ([], ['--update']):
        sys.exit(__doc__)
    text, count = made()
    page = read(PAGE)
    before, first, others = page.partition(FIRST + '\n')
    _, last, after = others.partition(LAST + '\n')
    if not first or not last:
        sys.exit(f'{PAGE}: the lines "{FIRST}" and "{LAST}" are not there')
    new = before + first + text + last + after
    if sys.argv[1:]:
        with open(f'{ROOT}/{PAGE}', 'w', encoding='utf-8') as file:
            file.write(new)
    elif new != page:
        old_lines, new_lines = page.split('\n'), new.split('\n')
        number = next((i for i, pair in enumerate(zip(old_lines, new_lines)) if pair[0] != pair[1]), 0)
        print(f'{PAGE}:{number + 1}: not current; scripts/calling.py --update writes it anew')
        return 1
    print(f'{count} contracts')
    return 0


if __name__ == '__main__':
    sys.exit(main())
