#!/usr/bin/env python3
"""Prints the tables of rows in docs/SPEED.md, which are made of bench/results.txt; with --check those rows that the page
does not have, with the status 1.

    bench/tables.py [--check]
"""
import os, re, sys

ROOT = os.path.dirname(os.path.dirname(os.path.abspath(__file__)))
# The names of types in the rows, and in the tables.
VALUES = {
    'u32': '`u32`',
    'u64': '`u64`',
    'i64': '`i64`',
    'numbers': 'a tuple of 16 `u32`',
    'mixed': 'a tuple of seven types',
    'choices': 'a tuple of four enums',
    'characters': 'a tuple of 8 `char`',
    'array_u32': '`[u32; 256]`',
    'array_u64': '`[u64; 256]`',
    'array_u8': '`[u8; 1024]`',
}
LISTS = {
    'list_u32': '`Vec<u32>`',
    'list_u64': '`Vec<u64>`',
    'list_f64': '`Vec<f64>`',
    'bytes': '`Vec<u8>`',
    'text': '`String`',
    'map': '`BTreeMap<u32, u64>`',
    'hashed': '`HashMap<u32, u64>`',
    'pairs': '`Vec<(u32, String)>`',
    'lists': '`Vec<Vec<u16>>`',
    'boxes': '`Vec<Option<Box<(u8, u64)>>>`',
}
BORROWED = {'texts': '`Vec<&str>`', 'piece': '`&[u8]`', 'record': '`(&str, u32, &str, u64, u16)`'}
STREAMS = {
    'stream': '`encode_into_buf_write`',
    'block': '`BlockWriter`',
    'std_read': '`decode_from_std_read`',
    'buf_read': '`decode_from_buf_read`',
    'reader': '`decode_from_reader`',
    'read': '`decode_from_slice`',
    'write': '`encode_into_slice`',
}
CONFIGURATIONS = {'v': 'variable', 'f': 'fixed', 'vl': 'limit'}
# The columns: the configuration, where it is one of the column, and the values.
WIDTHS = [('', 'one byte'), ('', 'two bytes'), ('', 'wide'), ('', 'mixed')]
COUNTS = [('', '1'), ('', '16'), ('', '1000'), ('', '100000')]


def measured():
    """The time here and the ratio of each row, by its name; and the geometric means, by call and configuration."""
    rows, means = {}, {}
    with open(f'{ROOT}/bench/results.txt', encoding='utf-8') as file:
        for line in file:
            row = re.match(r'(\S.*?)\s{2,}[\d.]+\s+([\d.]+)\s+([\d.]+)\s+[\d.]+ - [\d.]+$', line)
            mean = re.match(r'(\w+ \w+)\s+(\d+) rows\s+([\d.]+)$', line)
            if row:
                rows[row.group(1)] = float(row.group(2)), row.group(3)
            elif mean:
                means[mean.group(1)] = int(mean.group(2)), mean.group(3)
    return rows, means


def cell(found):
    """What a table has for a row: nanoseconds here, and the ratio in brackets."""
    if found is None:
        return ''
    time, ratio = found
    digits = 0 if time >= 100 else 1 if time >= 10 else 2
    shown = f'{time:,.{digits}f}' if time >= .01 else '<0.01'
    return f'{shown} ({ratio})'


def line(rows, call, configuration, name, shown, columns):
    """The line of a call and a type; nothing where no row is of it."""
    cells = [cell(rows.get(f'{call} {own or configuration} {name} {values}')) for own, values in columns]
    return ['| ' + ' | '.join([shown, *cells]) + ' |'] if any(cells) else []


def types(rows, call, names, configurations, columns):
    """The lines of a call, one for each type and configuration."""
    for name, shown in names.items():
        for each in configurations:
            named = f'{shown}, {CONFIGURATIONS[each]}' if len(configurations) > 1 else shown
            yield from line(rows, call, each, name, named, columns)


def streams(rows, name, columns):
    """The lines of the calls for streams."""
    for call, shown in STREAMS.items():
        for each in CONFIGURATIONS:
            yield from line(rows, call, each, name, f'{shown}, {CONFIGURATIONS[each]}', columns)


def tables():
    """The heading and the lines of each table."""
    rows, means = measured()
    every = list(CONFIGURATIONS)
    fixed, limit = [('f', 'mixed')], [('vl', 'mixed')]
    yield 'means', [f'| {name} | {ratio} | {count} |' for name, (count, ratio) in means.items()]
    yield 'encode_into_slice, values', [*types(rows, 'write', VALUES, 'v', WIDTHS + fixed)]
    yield 'decode_from_slice, values', [*types(rows, 'read', VALUES, 'v', WIDTHS + fixed + limit)]
    yield 'encode_into_slice, lists', [*types(rows, 'write', LISTS, 'vf', COUNTS)]
    yield 'encode_to_vec, lists', [*types(rows, 'vector', LISTS, 'vf', COUNTS)]
    yield 'decode_from_slice, lists', [*types(rows, 'read', LISTS, every, COUNTS)]
    yield 'borrow_decode_from_slice', [*types(rows, 'borrow', BORROWED, every, COUNTS)]
    yield 'streams, lists of records', [*streams(rows, 'records', COUNTS)]
    yield 'streams, one record a call', [*streams(rows, 'record', WIDTHS)]


def main():
    if sys.argv[1:] == ['--check']:
        with open(f'{ROOT}/docs/SPEED.md', encoding='utf-8') as file:
            page = file.read().split('\n')
        missing = [(name, row) for name, lines in tables() if name != 'means' for row in lines if row not in page]
        for name, row in missing:
            print(f'{name}: {row}')
        return 1 if missing else 0
    for name, lines in tables():
        print(f'\n{name}\n\n' + '\n'.join(lines))
    return 0


if __name__ == '__main__':
    sys.exit(main())
