#!/usr/bin/env python3
"""Compares the code on the pages with the files that the gate compiles, and a few figures with their source. Status 1 if something differs.

The pages are README.md, docs/GUIDE.md, docs/OWN_TYPES.md, docs/BY_HAND.md and the head of crates/bincode/src/lib.rt. A block between ``` is the
text of one file, or pieces of it in order with a line `// ..` between two; it may be indented less than it is there. The file is the last one
that the page names as From `crates/..`: a source, a definition, or the output of a program (`crates/hello/stdout`). In README, GUIDE and lib.rt
each block has to name its file. On the other pages a block before the first such line is a reader's own file, and is not compared.

README may have 150 lines and 1,300 words, and has the number of definitions and lines that docs/PROVED.md has.
"""
import os, re, sys

ROOT = os.path.dirname(os.path.dirname(os.path.abspath(__file__)))
PAGES = ['README.md', 'docs/GUIDE.md', 'docs/OWN_TYPES.md', 'docs/BY_HAND.md', 'crates/bincode/src/lib.rt']
# Pages of which each block has to name its file.
WHOLE = ['README.md', 'docs/GUIDE.md', 'crates/bincode/src/lib.rt']
MOST_LINES, MOST_WORDS = 150, 1300


def read(path):
    with open(f'{ROOT}/{path}', encoding='utf-8') as file:
        return file.read()


def lines_of(page):
    """The lines of a page; of a source those of the comment at its head."""
    lines = read(page).split('\n')
    if page.endswith('.rt'):
        lines = [line[3:].removeprefix(' ') for line in lines if line.startswith('//!')]
    return lines


def end_of(piece, text, start):
    """Where a piece ends that is found in a text from `start` on, as it is or indented by a step; or nothing."""
    indented = re.sub(r'^(?=.)', '    ', piece, flags=re.MULTILINE)
    for form in (piece, indented):
        found = text.find(f'\n{form}\n', start)
        if found >= 0:
            return found + 1 + len(form)
    return None


def missing_pieces(block, path):
    """The first lines of the pieces of a block that are not in a file, in order."""
    if not os.path.isfile(f'{ROOT}/{path}'):
        return ['no such file']
    text, place, missing = '\n' + read(path), 0, []
    for piece in '\n'.join(block).split('\n// ..\n'):
        end = end_of(piece, text, place)
        if end is None:
            missing.append(piece.split('\n')[0])
        else:
            place = end
    return missing


def wrong_blocks(page):
    """How many blocks of a page were compared, and what is wrong in which line."""
    path, prose, block, wrong, count = None, '', None, [], 0
    for number, line in enumerate(lines_of(page), 1):
        if block is None and not line.startswith('```'):
            prose += f' {line}'
        elif block is None:
            named = re.findall(r'\b[Ff]rom `(crates/[^`]+(?:\.rt|\.antt|/stdout))`', prose)
            path, prose, block = named[-1] if named else path, '', []
        elif not line.startswith('```'):
            block.append(line)
        else:
            if path is not None:
                count += 1
                wrong += [f'{page}:{number}: not in {path}: {piece}' for piece in missing_pieces(block, path)]
            elif page in WHOLE:
                wrong.append(f'{page}:{number}: a block that names no file')
            block = None
    return count, wrong


def wrong_figures():
    """What README has too much of, and figures of it that are not those of another page."""
    text = read('README.md')
    wrong = []
    lines, words = text.count('\n'), len(text.split())
    if lines > MOST_LINES or words > MOST_WORDS:
        wrong.append(f'README.md: {lines} lines of {MOST_LINES}, {words} words of {MOST_WORDS}')
    found = re.search(r'^(\d+ definitions, \d+ lines)', read('docs/PROVED.md'), re.MULTILINE)
    if not found or found.group(1) not in ' '.join(text.split()):
        wrong.append(f'README.md: docs/PROVED.md has: {found.group(1) if found else "no count of definitions"}')
    return wrong


def main():
    total, failed = 0, []
    for page in PAGES:
        if page == 'docs/BY_HAND.md' and not os.path.exists(f'{ROOT}/{page}'):
            continue
        count, wrong = wrong_blocks(page)
        total, failed = total + count, failed + wrong
        if count == 0:
            failed.append(f'{page}: no block names its file')
    failed += wrong_figures()
    print('\n'.join(failed + [f'{total} blocks, {len(failed)} wrong']))
    sys.exit(1 if failed else 0)


main()
