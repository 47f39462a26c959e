#!/usr/bin/env python3
"""Lists terms of pages and messages that are not in their vocabulary, sentences without a verb, and lines of pages over
120 columns.

    scripts/check_words.py [PATH ..]

PATH is a page (*.md), a source (*.rt) or a folder; without any, the whole repository is read. In a page, code is not
looked at: code blocks, what is in backticks, and the targets of links. Messages are the texts of errors
(`#[error("..")]`) and the other string literals of three or more words in crates/*/src, except in crates of tests and
examples. Each finding is a line `FILE:LINE: what`, and the status is 1. Where there is none, nothing is printed, and
the status is 0.

A sentence is reported only where it begins with a preposition or the like and has no word that may be a verb. Many
sentences without a verb are missed, and few others are reported.
"""
import os, re, sys

ROOT = os.path.dirname(os.path.dirname(os.path.abspath(__file__)))
COLUMNS = 120

# A word or phrase, and what to write in its place.
WORDS = [
    (r'answers|answered|answering', 'returns, fails with, result, reply'),
    (r'(?:to|may|can|cannot|must|will|would|not|they|both|calls|which) answer', 'return, fail with, reply'),
    (r'told|tells?|telling', 'reports, says, shows, distinguishes'),
    (r'stands?(?! for\b)|stood(?! for\b)|standing', 'is, is in, has'),
    (r'words?', 'encoding, text, argument, message'),
    (r'fronts?', 'prefix, before'),
    (r'behind', 'after, below'),
    (r'given for (?:its|their|the|that|a) meanings?', 'decodes to'),
    (r"of (?:an?|the|one|any) user's own|of users' own|of one's own", 'user-defined, your own'),
    (r'the same of', 'the same for'),
    (r'lent|lends?|lending', 'borrowed'),
    (r'rooms?', 'capacity, space'),
    (r'torn', 'truncated'),
    (r'from nothing', 'clean'),
    (r'by (?:its|their) parts', 'by its fields'),
    (r'unless (?:the )?memory (?:is|was) refused', 'or fails with `Memory`'),
    (r'kits?', 'toolchain'),
    (r'worked rows?', 'test vectors'),
]

# What is allowed: a part of a path, the text around a finding (a match that overlaps it), and the reason.
ALLOWED = [
    ('', r"words? (?:of|on|in) (?:a|the|its|their) command lines?|command[- ]line words?", 'a word of a command line'),
    ('', r'in other words|key ?words?|machine words?|[\d,]+ words', 'plain English'),
    ('', r'stands? (?:alone|out)', 'plain English'),
    ('', r'\*words?\*', 'the term of the definitions, where a page introduces it'),
    ('bench/toolchain/README.md', r'## room', 'the name of a function'),
    ('crates/stock_files/src/request.rt', r'words separated by', 'the words of a line of input'),
    ('crates/derive_words/src/answers.rt', r'(?s).+', 'paths and names in the code that `derive` writes'),
    ('crates/derive_words/src/coding.rt', r'(?s).+', 'the same'),
    ('crates/derive_words/src/shown.rt', r'(?s).+', 'the same'),
]

# Where a sentence begins that is likely to have no verb.
BEGINNINGS = (
    r'(?:The same|Of|As|Also|From|With|Without|By|For|In|On|At|Under|Beside|Besides|Beyond|Within|Like|So|And|Or|But|'
    r'Else|Otherwise|Not|No|Then|Only|Both|All|Each|Most)')

VERBS = """
accept add admit agree allocate allow answer append apply arise arrive ascend ask assert assume attach avoid await
balance base bear become begin believe belong benefit borrow bound break bring build calculate call cause change
charge check choose cite claim clear close collect combine come commit compare compile complete compute concern
confirm connect consider consist construct contain continue convert copy correct correspond cost count cover create
cross cut damage decide decline decode define delete deliver deny depend derive descend describe design destroy detect
determine differ discard display distinguish divide double drop emit enable encode end enforce ensure enter equal
establish evaluate examine exceed exclude execute exist exit expand expect explain export express extend extract fail
fall feed fetch fill find finish fit fix flip flush focus follow forbid force forget form format free gain generate
get give go grant grow guarantee guard hand handle happen hash help hide hold hope identify ignore implement imply
import include increase indicate inform inherit initialize inline insert inspect install interpret introduce invoke
involve iterate join judge jump justify keep know lack lead learn leave lengthen let lie limit link list live load
lock look lose make map mark match matter mean measure meet mention merge miss mix modify move multiply name narrow
need negate note notice number obey observe obtain occur offer omit open operate order outlive overflow overwrite own
pad panic parse pass pay peek permit pick pin place poll pop possess preserve prevent print proceed process produce
promise propagate protect prove provide publish push put query quote raise rank reach read rebuild receive reckon
recognize recommend record recover recurse redo reduce refer reflect refuse reject release rely remain remember remove
rename render reorder repair repeat replace report represent require reserve reset resolve rest restore result resume
retain retry return reuse reveal reverse revise rewrite roll round run sample satisfy save say scan search see seed
seek seem select send separate serve set settle share shift shorten show sign simplify sit skip sleep snap solve sort
span spawn speak specify spell spend split stand start state stay steal step stop store stream succeed suffice suggest
sum supply support suppose suppress surround suspend swap switch sync tag take tell terminate test think throw time
touch track transfer translate treat trigger trim trust try turn type understand undo unify unlock unwrap update
upgrade use validate vary verify view violate visit vote wait wake walk want warn watch weigh win witness work wrap
write yield zero
""".split()

OTHER_VERBS = """
is are was were be been am isn't aren't wasn't weren't has have had hasn't haven't hadn't does do did doesn't don't
didn't can can't cannot could may might must shall should will won't would need ought let lets became began bore
bought broke brought built came chose cost cut did drew fell fed felt found fought forgot got gave went grew held hid
hit kept knew laid led left lost made meant met paid put read ran said sat saw sent set showed shut spent split spoke
stood stuck taught thought threw told took tried understood went won wrote written taken given known shown drawn done
gone seen bound hold
""".split()


def forms(verb):
    """The forms of a verb that may be finite."""
    if re.search(r'(?:[sxz]|ch|sh|o)$', verb):
        third = verb + 'es'
    elif re.search(r'[^aeiou]y$', verb):
        third = verb[:-1] + 'ies'
    else:
        third = verb + 's'
    return {verb, third}


FINITE = set(OTHER_VERBS).union(*(forms(verb) for verb in VERBS))
# After these a word is a noun or an infinitive; after some, one in -s may be a verb, or one that is not.
BEFORE_NOUNS = set("""
the of in on at by to from for with without as per no any its their his your our my same own only first last next more
than like under over within beyond beside between into
""".split())
BEFORE_ONE = {'a', 'an', 'each', 'every', 'one', 'this', 'that'}
BEFORE_MANY = {'all', 'both', 'most', 'some', 'such', 'these', 'those', 'two', 'three', 'four', 'other'}
ALWAYS_VERBS = set("""
is are was were be been am has have had does do did can cannot could may might must shall should will would comes
become becomes begins contains consists depends describes exists gives goes holds keeps knows lies makes means remains
stays takes
""".split())
# The first verb after these is one of another clause.
CLAUSES = {'that', 'which', 'who', 'whose', 'where', 'when', 'if', 'because', 'unless', 'until', 'while'}
# A sentence ends with a mark, and perhaps brackets and quotes, before a blank.
SENTENCE = re.compile(r'[^.?!]*(?:[.?!](?![\s)*_"]*(?:\s|$))[^.?!]*)*[.?!]+[)*_"]*(?=\s|$)')
NO_MESSAGES = re.compile(r'.*_tests|test_helpers|proved_callers|own_types|own_by_hand|derived_types|guide|tills')
ITEM = re.compile(r'\s*(?:[-*+]|\d+[.)])\s+')


def blank(match):
    """A text of the same length and the same lines, without its words."""
    return re.sub(r'[^\n]', '\x00', match.group(0))


def masked_page(text):
    """The text of a page with its code and the targets of its links blanked out, and the kind of each line."""
    lines, kinds = text.split('\n'), []
    fence, in_list, after_blank = None, False, True
    for number, line in enumerate(lines):
        found = re.match(r'\s*(`{3,}|~{3,})', line)
        if fence:
            kinds.append('code')
            if found and found.group(1).startswith(fence):
                fence = None
        elif found:
            fence = found.group(1)
            kinds.append('code')
        elif not line.strip():
            kinds.append('blank')
        elif line.startswith('    ') and not in_list and (after_blank or kinds[-1] == 'code'):
            kinds.append('code')
        elif line.startswith('#'):
            kinds.append('head')
        elif re.match(r'\s*\|', line):
            kinds.append('table')
        elif ITEM.match(line):
            kinds.append('item')
            in_list = True
        elif in_list and not after_blank:
            kinds.append('more')
        else:
            in_list = in_list and line.startswith(' ')
            kinds.append('more' if in_list else 'text')
        after_blank = kinds[-1] == 'blank'
        if kinds[-1] in ('head', 'table'):
            in_list = False
        if kinds[-1] == 'code':
            lines[number] = '\x00' * len(line)
    text = '\n'.join(lines)
    text = re.sub(r'<!--.*?-->', blank, text, flags=re.DOTALL)
    text = re.sub(r'(`+)(?!`)(?:[^\n]|\n(?!\s*\n))*?(?<!`)\1(?!`)', blank, text)
    text = re.sub(r'\]\([^)\s]*\)', blank, text)
    text = re.sub(r'https?://[^\s)>]+', blank, text)
    return text, kinds


def allowed(path, text, start, end):
    """Whether what stands there is on the list of what is allowed."""
    for where, around, _ in ALLOWED:
        if path.endswith(where) or where in path:
            for match in re.finditer(around, text[max(0, start - 80):end + 80], re.IGNORECASE):
                low = match.start() + max(0, start - 80)
                if low < end and start < low + len(match.group(0)):
                    return True
    return False


def may_be_verb(word, before):
    """Whether a word after another may be a finite verb."""
    if word in ALWAYS_VERBS or word.endswith(("'s", "n't")):
        return True
    if word not in FINITE or before in BEFORE_NOUNS:
        return False
    if before in BEFORE_ONE:
        return word.endswith('s')
    return before not in BEFORE_MANY or not word.endswith('s')


def has_verb(tokens):
    """Whether the words of a sentence hold what can be its finite verb; true of sentences of less than four words."""
    words = [token.lower().replace('’', "'") for token in tokens]
    if sum(word not in (',', ';', ':') for word in words) < 4:
        return True
    open_clauses, before = 0, ''
    for index, word in enumerate(words):
        is_pronoun = before.isalpha() and before not in BEFORE_NOUNS | FINITE
        if word in CLAUSES and index > 1 and (word != 'that' or is_pronoun):
            open_clauses += 1
            word = ''
        elif may_be_verb(word, before):
            if open_clauses == 0:
                return True
            open_clauses -= 1
        before = word
    return False


def wrong_words(path, text):
    """Each place of a text with a word that is not in the vocabulary, and what is wrong there."""
    for pattern, instead in WORDS:
        spaced = pattern.replace(' ', r'[\s>\\]+')
        for match in re.finditer(rf'(?<![\w-])(?:{spaced})(?![\w-])', text, re.IGNORECASE):
            if not allowed(path, text, *match.span()):
                found = re.sub(r'\s+', ' ', match.group(0))
                yield match.start(), f'"{found}": say {instead}'


def verbless(text, kinds):
    """Each place of a page where a sentence without a verb begins."""
    lines, number = text.split('\n'), 0
    starts = [0]
    for line in lines:
        starts.append(starts[-1] + len(line) + 1)
    while number < len(lines):
        if kinds[number] not in ('text', 'item'):
            number += 1
            continue
        first, kind = number, kinds[number]
        number += 1
        while number < len(lines) and kinds[number] == ('text' if kind == 'text' else 'more'):
            number += 1
        paragraph = text[starts[first]:starts[number] - 1]
        place = 0
        for index, match in enumerate(SENTENCE.finditer(paragraph)):
            sentence = match.group(0)
            if kind == 'item' and index == 0:
                continue
            lead = re.match(r'[\s(*_>]*', sentence).end()
            if not re.match(BEGINNINGS + r'\s', sentence[lead:]):
                continue
            if not has_verb(re.findall(r"[A-Za-z][\w.'’-]*\w|\w|\x00+|[,;:]|[\d.,]+\d", sentence)):
                yield starts[first] + match.start() + lead


def page_findings(path, text):
    """What is wrong in a page, with the place of each."""
    masked, kinds = masked_page(text)
    yield from wrong_words(path, masked)
    for place in verbless(masked, kinds):
        shown = re.sub(r'\s+', ' ', text[place:place + 50])
        yield place, f'no verb in the sentence "{shown} .."'
    place = 0
    for line in text.split('\n'):
        if len(line) > COLUMNS and len(re.sub(r'https?://\S+', '', line)) > COLUMNS:
            yield place, f'{len(line)} columns, of which {COLUMNS} are allowed'
        place += len(line) + 1


def source_findings(path, text):
    """What is wrong in the messages of a source, with the place of each."""
    bare = re.sub(r'^\s*//.*$', lambda match: '\x00' * len(match.group(0)), text, flags=re.MULTILINE)
    for match in re.finditer(r'(?<![\w\'])b?"((?:[^"\\]|\\.)*)"', bare, re.DOTALL):
        literal = re.sub(r'`[^`\n]*`|\{[^{}]*\}|\$\w+\$', blank, match.group(1))
        is_error = re.search(r'#\[error\(\s*$', bare[:match.start()])
        if is_error or len(re.findall(r"(?<![\w$:])[A-Za-z]+(?![\w$:<(])", literal)) >= 3:
            for place, what in wrong_words(path, literal):
                yield match.start(1) + place, what


def is_read(path):
    """Whether a file is a page, or a source that has messages for users."""
    if path.endswith('.md'):
        return True
    found = re.search(r'(?:^|/)crates/(\w+)/src/.*\.rt$', path)
    return bool(found) and not NO_MESSAGES.fullmatch(found.group(1))


def files_below(folder):
    """The files of a folder that are read, in order."""
    for place, inner, found in os.walk(folder):
        inner[:] = sorted(name for name in inner if name != 'out' and not name.startswith('.'))
        for name in sorted(found):
            path = os.path.join(place, name)
            if is_read(os.path.abspath(path)):
                yield path


def main():
    paths = []
    for path in sys.argv[1:] or [ROOT]:
        paths += files_below(path) if os.path.isdir(path) else [path]
    count = 0
    for path in paths:
        with open(path, encoding='utf-8') as file:
            text = file.read()
        shown = os.path.relpath(path, ROOT) if os.path.abspath(path).startswith(ROOT + '/') else path
        findings = page_findings if path.endswith('.md') else source_findings
        for place, what in sorted(set(findings(path, text))):
            print(f'{shown}:{text.count(chr(10), 0, place) + 1}: {what}')
            count += 1
    return 1 if count else 0


if __name__ == '__main__':
    sys.exit(main())
