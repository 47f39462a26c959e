#!/usr/bin/env python3
"""Compares the lists of files in docs/MAP.md with the heads of the files, and fails where the page is not current.

    scripts/map.py [--update]

The status is 1 where the page is not current. --update writes the lists into the page, between the lines that name this script. A file of
a crate is listed with the first sentence of its head (`//! ..`), in the order of the page's tables, and the files of `specs/` by their
names. The head of a `lib` or `main` is left out: the row of the crate in a table says what it has. The programs in `scripts/`,
`conformance/`, `compare/` and `bench/` are listed with the first sentence of their heads too. Each crate of crates.txt has one row in one
table.
"""
import os, re, sys, textwrap

ROOT = os.path.dirname(os.path.dirname(os.path.abspath(__file__)))
PAGE = 'docs/MAP.md'
FOLDERS = ['scripts', 'conformance', 'compare', 'bench']
WIDTH = 120
WRITTEN = 'words'  # the module that `derive` writes for a file of types


def read(path):
    with open(f'{ROOT}/{path}', encoding='utf-8') as file:
        return file.read()


def sentence(text, path):
    """The first sentence of a paragraph, without the places in docs/ that it names."""
    found = re.match(r'(.*?\.)(?= [A-Z`(]| docs/|$)', ' '.join(text.split()))
    if not found:
        sys.exit(f'{path}: its head does not begin with a sentence')
    text = re.sub(r' \(docs/\w+\.md[^)]*\)', '', found.group(1))
    return re.sub(r'(?<![\w`/.])[\w/]+\.(?:py|json|rt|rs)\b(?!`)', r'`\g<0>`', text)


def head_of_module(path):
    """The first paragraph of the comment at the head of a source."""
    lines = re.match(r'(//! ?[^\n]*\n)*', read(path)).group().split('\n')
    return sentence('\n'.join(line[3:] for line in lines).strip().split('\n\n')[0], path)


def head_of_program(path):
    """The first paragraph of the text or comment at the head of a program, or nothing where it has none."""
    text = read(path)
    quoted = re.match(r'(?:#![^\n]*\n)?"""(.*?)"""', text, re.DOTALL)
    if quoted:
        return sentence(quoted.group(1).split('\n\n')[0], path)
    commented = re.match(r'#![^\n]*\n((?:#[^\n]*\n)+)', text)
    if commented:
        lines = [line[1:].strip() for line in commented.group(1).split('\n')]
        return sentence('\n'.join(lines).split('\n\n')[0], path)
    return None


def item(indent, text):
    """A list item, in lines that are not too long."""
    return textwrap.wrap(text, WIDTH, initial_indent=f'{indent}- ', subsequent_indent=f'{indent}  ', break_long_words=False,
                         break_on_hyphens=False)


def modules(folder):
    """The modules below a folder, by their paths in it, without what `derive` wrote."""
    found = []
    for place, _, names in os.walk(f'{ROOT}/{folder}'):
        for name in names:
            if name.endswith('.rt'):
                found.append(os.path.relpath(f'{place}/{name[:-3]}', f'{ROOT}/{folder}'))
    return sorted(found)


def specs(crate, file='Lib'):
    """The files of `specs/`, in the order in which they are declared."""
    path = f'crates/{crate}/specs/{file}.antt'
    if not os.path.exists(f'{ROOT}/{path}'):
        return []
    found = []
    for name in re.findall(r'^(?:pub )?mod (\w+)', read(path), re.MULTILINE):
        inner = name if file == 'Lib' else f'{file}/{name}'
        found += [inner] + specs(crate, inner)
    return found


def files_of(crate):
    """The list of a crate's files, or nothing where its `lib` or `main` is all that it has."""
    lines, names = [], modules(f'crates/{crate}/src')
    for name in names:
        place, _, last = name.rpartition('/')
        if last == WRITTEN and place in names or last in ('lib', 'main'):
            continue
        if place.endswith('impls'):
            continue
        text = f'`{name}`: {head_of_module(f"crates/{crate}/src/{name}.rt")}'
        families = [f'`{other.rpartition("/")[2]}`' for other in names if other.rpartition('/')[0] == name]
        if last == 'impls':
            text = f'{text[:-1]}: {", ".join(families)}.'
        elif f'`{WRITTEN}`' in families:
            text = text.replace('`: ', f'`, `{name}/{WRITTEN}`: ', 1)
        lines += item('  ', text)
    stated = [f'`{name}`' for name in specs(crate)]
    if stated:
        lines += item('  ', f'In `specs/`: {", ".join(stated)}.')
    return [f'- **`{crate}`**'] + lines if lines else []


def programs():
    """The list of the programs beside the crates."""
    lines = []
    for folder in FOLDERS:
        inner = []
        for name in sorted(os.listdir(f'{ROOT}/{folder}')):
            path = f'{folder}/{name}'
            if os.path.isfile(f'{ROOT}/{path}') and (name.endswith('.py') or '.' not in name):
                head = head_of_program(path)
                if head:
                    inner += item('  ', f'`{name}`: {head}')
        lines += [f'- **`{folder}/`**'] + inner
    return lines


def tables(page):
    """The crates of each table of the page, by the heading above it."""
    found, title = {}, None
    for line in page.split('\n'):
        heading = re.match(r'## (.*)', line)
        row = re.match(r'\| `(\w+)` \|', line)
        if heading:
            title = heading.group(1)
        elif row:
            found.setdefault(title, []).append(row.group(1))
    return found


def replaced(page, name, lines):
    begin, end = f'<!-- scripts/map.py: {name} -->\n', '<!-- end of scripts/map.py -->\n'
    before, begins, rest = page.partition(begin)
    _, ends, after = rest.partition(end)
    if not begins or not ends:
        sys.exit(f'{PAGE}: no lines {begin.strip()} and {end.strip()}')
    return before + begin + '\n' + '\n'.join(lines) + '\n\n' + end + after


def main():
    words = sys.argv[1:]
    if words not in ([], ['--update']):
        sys.exit(__doc__)
    page = read(PAGE)
    rows = tables(page)
    listed = [crate for crates in rows.values() for crate in crates]
    declared = re.findall(r'^(\w+)(?: \w+)?:', read('crates.txt'), re.MULTILINE)
    wrong = [crate for crate in declared if listed.count(crate) != 1] + [crate for crate in listed if crate not in declared]
    if wrong:
        sys.exit(f'{PAGE}: each crate has one row in a table, but not {", ".join(wrong)}')
    lines = []
    for title, crates in rows.items():
        inner = [line for crate in crates for line in files_of(crate)]
        lines += [f'### {title}', ''] + inner + ['']
    new = replaced(page, 'the files of the crates', lines[:-1])
    new = replaced(new, 'the programs beside them', programs())
    if words:
        with open(f'{ROOT}/{PAGE}', 'w', encoding='utf-8') as file:
            file.write(new)
    count = sum(line.startswith('  - ') for line in lines)
    state = 'written' if words else 'current' if new == page else 'not current: run scripts/map.py --update'
    print(f'{PAGE}: {len(declared)} crates, {count} entries, {state}')
    sys.exit(0 if words or new == page else 1)


main()
