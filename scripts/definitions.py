#!/usr/bin/env python3
"""Prints what there is to believe of some calls with some types: the definitions that their contracts cite.

    scripts/definitions.py [--names | --text | --update] [CALL .. [-- TYPE ..]]

Without calls it takes `encode_into_slice` and `decode_from_slice`, with `(u32, String, Vec<u16>)`. It prints how many
definitions these are, and how many lines without comments; with --names also their names, file by file, and with
--text each in full, one after what it needs. --update writes the names into docs/PROVED.md, between the two lines that
name this script.

Of the record `Words`, which says what the encodings of a type are, it takes the members that these contracts name, and
one law, `lawful`: each input begins with an encoding or has a fault, never both, and what is written is an encoding.
Without it the contracts would say nothing of an input that had neither. Of that law (`IsLawful`) it prints the fields
that say so. The law names the program that reads a format (`read` of `Format`), of which it is enough to know that
there is one: it gives one result for each input. So what each format reads by it is left out. Left out, too, are the
other laws, which are proved of each type and which no contract of a call names; what a form of numbers says for laws
(`Bounds` and `need` of `Form`); the laws of what decoding promises (`keeps` and `joins` of `Promise`); and the
definitions of the standard library. The script stops where a contract comes to name one of these.
"""
import glob, os, re, sys, textwrap

ROOT = os.path.dirname(os.path.dirname(os.path.abspath(__file__)))
# The members of `Words`, the record of what a type says of its words.
MEMBERS = ['format', 'valid', 'means', 'decodes_to', 'writable', 'own_errors', 'may_allocate', 'claim', 'need', 'lawful', 'balanced', 'has_word',
           'errors_are_own', 'claims', 'needs', 'charges_enough']
# The members of `Format`, `Form` and `Promise` that no contract of a call names: laws and lemmas do.
BY_LAWS = ['read', 'Bounds', 'need', 'keeps', 'joins']
# The law that is printed, the member of `Words` that has it, and the fields of it that are left out: they speak of
# longer inputs.
LAW, LAW_MEMBER, OTHER_FIELDS = 'IsLawful', 'lawful', ['stays', 'begun', 'mended']
LEMMAS = 'bincode_lemmas'  # the crate of laws
WORD = re.compile(r"[^\W\d][\w']*(?:-[^\W][\w']*)*|◌[^\s{},()]*◌|◌[^\s{},()]+|[^\s\w(){}\[\],.;λ_◌]+")


def read(path):
    with open(path, encoding='utf-8') as file:
        return file.read()


def parse_use(text, keyword):
    """The imports of a file: a local name to its module and its name there."""
    names = {}
    for crate, kind, rest in re.findall(keyword + r' Rattle\.(\w+)\.(specs|proofs)\.([^;\n]*)', text):
        found = re.match(r'([\w.]+?)(?:\.\{([^}]*)\}|( as (\w+))?)\s*$', rest.strip())
        if kind != 'specs' or not found:
            continue
        module, listed = found.group(1), found.group(2)
        for name in (listed or '').split(','):
            name, _, alias = name.strip().partition(' as ')
            if name:
                names[alias.strip() or name] = (crate, module, name)
    return names


class Definition:
    def __init__(self, crate, module, name, lines, scope):
        self.key, self.lines, self.scope = (crate, module, name), lines, scope


def operators(name):
    """How an operator stands in a text: by its parts."""
    return [part for part in name.split('◌') if part]


class Library:
    def __init__(self):
        self.made, self.parts, self.members = {}, {}, set()
        for path in sorted(glob.glob(f'{ROOT}/crates/bincode*/specs/**/*.antt', recursive=True)):
            crate, _, module = os.path.relpath(path[:-5], f'{ROOT}/crates').replace('/', '.').split('.', 2)
            if crate != LEMMAS:
                self.file(crate, module, read(path))

    def file(self, crate, module, text):
        lines = [line for line in text.split('\n') if line.strip() and not line.strip().startswith('--')]
        scope = parse_use(text, 'use')
        opened, current, name = [], None, None
        for line in lines:
            if line.startswith(('use ', 'pub use', 'pub mod', 'mod ', 'syntax', 'infix')):
                continue
            if line.startswith('module '):
                opened, current = [line], None
                continue
            if opened and not line.startswith(' '):
                opened = []
            shift = '  ' if opened else ''
            body = line[len(shift):]
            head = re.match(r'(?:(?:abbrev|unfoldable|opaque|partial) )*(?:pub )?(?:(?:abbrev|unfoldable|opaque|record|data) )?(?:pub )?(\S+)(?= )', body)
            begins = not body.startswith((' ', '}', ')'))
            if begins and head:
                new = head.group(1)
                is_clause = name is not None and (new == name or current is not None and not re.match(
                    r'(abbrev|unfoldable|opaque|pub|record|data)\b', body) and not re.match(r'\S+ :', body))
                if not is_clause:
                    name = new
                    current = Definition(crate, module, name, [], scope)
                    self.made[current.key] = current
                    if opened:
                        current.lines.append(opened[0])
            if current is not None:
                current.lines.append(line)
        for definition in [d for key, d in self.made.items() if key[:2] == (crate, module)]:
            first = definition.lines[definition.lines[0].startswith('module')]
            if re.match(r'\s*(?:pub )?data\b', first):
                for line in definition.lines[1:]:
                    made = re.match(r'\s+(?:pub )?(\S+) :', line)
                    if made:
                        self.parts[(crate, module, made.group(1))] = definition.key

    def find(self, key):
        """A definition by its place, also by the name under which a library gives its module out."""
        crate, module, name = key
        key = self.parts.get(key, key)
        if key in self.made:
            return key
        if crate == 'bincode':
            for other in self.made:
                if other[1:] == (module, name):
                    return other
            for other, whole in self.parts.items():
                if other[1:] == (module, name):
                    return whole
        return None

    def cited(self, text, scope, own=None):
        """The definitions that a text cites."""
        text = self.chosen(re.sub(r'--[^\n]*', '', text))
        words = WORD.findall(text)
        found = []
        for word in dict.fromkeys(words):
            key = scope.get(word)
            if key is None and own is not None:
                key = (own[0], own[1], word)
            if key is None:
                continue
            key = self.find(key)
            if key is not None and key != own and key not in found:
                found.append(key)
        for name, key in list(scope.items()) + [((k[2]), k) for k in self.made if own is not None and k[:2] == own[:2]]:
            if '◌' in name and all(part in text for part in operators(name)):
                key = self.find(key)
                if key is not None and key != own and key not in found:
                    found.append(key)
        return found

    def needed(self, starts):
        """All that these need, file by file, each after what it needs: a file stands after those that it imports."""
        needs, waiting = {}, list(starts)
        while waiting:
            key = waiting.pop()
            if key not in needs:
                needs[key] = self.cited('\n'.join(self.made[key].lines), self.made[key].scope, key)
                waiting += needs[key]
        files = []

        def visit(file):
            for key in self.made:
                if key in needs and key[:2] == file:
                    for other in needs[key]:
                        if other[:2] != file and other[:2] not in files:
                            visit(other[:2])
            if file not in files:
                files.append(file)

        for key in starts:
            visit(key[:2])
        return [key for file in files for key in self.made if key in needs and key[:2] == file]


    def chosen(self, text):
        """A text without the members of `Words`, `Format` and `Form` that neither a contract nor the law names."""
        for member in BY_LAWS:
            signs = '=' if member == 'read' and 'record Format ' in text else '=:'
            text = re.sub(rf'^  (pub )?{member} [{signs}] [^\n]*\n?', '', text, flags=re.M)
            text = re.sub(rf';? {member} = [^;{{}}]*(?=;| }})', '', text)
        if f'record {LAW} ' in text:
            text = re.sub(rf'^  pub ({"|".join(OTHER_FIELDS)}) : [^\n]*\n?', '', text, flags=re.M)
        if not re.search(r'^\s+(pub )?lawful [=:] ', text, re.M):
            return text
        kept, skips = [], False
        for line in text.split('\n'):
            field = re.match(r'\s+(?:pub )?(\w+) [=:] ', line)
            if field:
                is_law = line.startswith(f'  pub {LAW_MEMBER} : ')
                skips = field.group(1) in MEMBERS and field.group(1) not in self.members and not is_law
            elif re.match(r'\s*[})]', line) or not line.startswith(' '):
                skips = False
            if not skips:
                kept.append(line)
        return '\n'.join(kept)


def block(text, start):
    """The text from a place to the brace that closes the first one that opens after it."""
    depth, i = 0, text.index('{', start)
    for j in range(i, len(text)):
        depth += {'{': 1, '}': -1}.get(text[j], 0)
        if depth == 0:
            return text[start:j + 1]
    raise ValueError(text[start:start + 60])


class Types:
    """What the types of the library say of themselves, by the head of each."""

    def __init__(self):
        self.impls = {}
        for path in sorted(glob.glob(f'{ROOT}/crates/bincode_types/src/**/*.rt', recursive=True)):
            text = read(path)
            scope = parse_use(text, 'ghost use')
            for found in re.finditer(r'^pub trait ByParts \{', text, re.M):
                self.impls['ByParts'] = [(block(text, found.start()), scope)]
            for found in re.finditer(r'^impl(<[^{]*?>)? ?(Wire|ByParts|Scalar|Tail|Variants) for ([^{]+?)(?: where[^{]*)? \{', text, re.M):
                self.impls.setdefault(head_of(found.group(3)), []).append((block(text, found.start()), scope))

    def members(self, name, seen):
        """The texts of the members that say what the words of a type are, with the imports that they stand under."""
        if name in seen:
            return
        seen.add(name)
        for text, scope in self.impls.get(name, []):
            for member in re.finditer(r'^    ghost (words|form|SIZE|parts|promise|more|choices|variants)(?: = |: \{)', text, re.M):
                end = member.start() + len(block(text, member.start()))
                yield text[member.start():text.index(';', end)], {**scope, **parse_use(text, 'ghost use')}
            for parts in re.findall(r'^    type Parts = ([^;]*);', text, re.M):
                for inner in ['ByParts', 'T'] + heads_of(parts):  # a type by its parts has the words that its `ByParts` says
                    yield from self.members(inner, seen)


ALIASES = {'Items': 'ListItems'}


def head_of(text):
    """The head of a type: of `Vec<T>` it is `Vec`, and of a tuple of two `(,)`."""
    text = re.sub(r"^&('\w+ )?(mut )?", '&', text.strip())
    if text.startswith('('):
        depth, commas = 0, 0
        for c in text:
            depth += {'(': 1, '<': 1, '[': 1, ')': -1, '>': -1, ']': -1}.get(c, 0)
            commas += c == ',' and depth == 1
        return '(' + ',' * (commas + (not text.endswith(',)') and commas > 0)) + ')'
    if text.startswith('['):
        return '[;]'
    found = re.match(r'&?[\w:]+', text)
    name = found.group() if found else text
    return ALIASES.get(name, name)


def heads_of(text):
    """The heads of all types that stand in a type."""
    text = text.strip()
    heads = [head_of(text)]
    inner, depth, piece = [], 0, ''
    for c in text[text.find(next((c for c in text if c in '(<['), text[-1])):]:
        if c in '(<[':
            depth += 1
            if depth == 1:
                continue
        if c in ')>]':
            depth -= 1
            if depth == 0:
                break
        if c in ',;' and depth == 1:
            inner.append(piece)
            piece = ''
        elif depth:
            piece += c
    for piece in inner + [piece]:
        piece = piece.strip()
        if piece and piece != text and not re.match(r'\d+$|true$|false$', piece):
            heads += heads_of(piece)
    return list(dict.fromkeys(heads))


def clauses(call):
    """What a call ensures and asks, with the imports of its file."""
    for path in sorted(glob.glob(f'{ROOT}/crates/bincode/src/**/*.rt', recursive=True)):
        text = read(path)
        found = re.search(rf'^pub fn {call}\b', text, re.M)
        if found:
            head = text[found.start():text.index('\n{', found.start())]
            said = re.sub(r'//[^\n]*', '', head[head.find('\n    ensures'):])
            return re.sub(r'^    (ensures|requires) \w+ \{', r'    \1 {', said, flags=re.M), parse_use(text, 'ghost use')
    sys.exit(f'{call}: no such call in bincode')


def main():
    words = sys.argv[1:]
    shows = next((word for word in words if word in ('--names', '--text', '--update')), None)
    words = [word for word in words if word != shows]
    calls, types = words, []
    if '--' in words:
        calls, types = words[:words.index('--')], words[words.index('--') + 1:]
    if not words:
        calls, types = ['encode_into_slice', 'decode_from_slice'], ['(u32, String, Vec<u16>)']
    library, known, starts, seen = Library(), Types(), [], set()
    texts = [clauses(call) for call in calls]
    for text in types:
        for name in heads_of(text):
            if name not in known.impls:
                sys.exit(f'{name}: no such type in bincode_types')
            texts += known.members(name, seen)
    named = -1
    while named != len(library.members):
        named = len(library.members)
        for text, _ in texts:
            library.members |= set(re.findall(r'words\.(\w+)', library.chosen(text)))
    starts += library.cited('Setting', parse_use(read(f'{ROOT}/crates/bincode_base/src/config.rt'), 'ghost use'))
    for text, scope in texts[len(calls):] + texts[:len(calls)]:
        starts += library.cited(text, scope)
    starts.append(('bincode_types', 'TypeWords', 'Words'))
    order = library.needed(dict.fromkeys(starts))
    texts = {key: library.chosen('\n'.join(library.made[key].lines)) for key in order}
    texts = {key: text.rstrip('\n') for key, text in texts.items()}
    named = sorted({name for name in BY_LAWS for key, text in texts.items()
                    if key[2] != LAW and re.search(rf'\w\.{name}\b', text)})
    if named:
        sys.exit(f'named by a contract, so it has to be shown: {", ".join(named)}')
    count = sum(text.count('\n') + 1 for text in texts.values())
    files = list(dict.fromkeys(key[:2] for key in order))
    total = f'{len(order)} definitions, {count} lines, in {len(files)} files'
    rows = []
    for file in files:
        names = ', '.join(f'`{key[2]}`' for key in order if key[:2] == file)
        row = f'- `{file[0]}/specs/{file[1].replace(".", "/")}`: {names}'
        rows.append(textwrap.fill(row, 118, subsequent_indent='  ', break_long_words=False, break_on_hyphens=False))
    if shows == '--text':
        print('\n\n'.join(texts.values()) + '\n')
    if shows == '--names':
        print('\n'.join(rows))
    if shows == '--update':
        page = read(f'{ROOT}/docs/PROVED.md')
        first, last = '<!-- scripts/definitions.py -->\n', '<!-- end of scripts/definitions.py -->\n'
        before, _, rest = page.partition(first)
        _, _, after = rest.partition(last)
        page = before + first + f'{total}:\n\n' + '\n'.join(rows) + '\n' + last + after
        with open(f'{ROOT}/docs/PROVED.md', 'w', encoding='utf-8') as file:
            file.write(page)
    print(total)


main()
