#!/usr/bin/env python3
"""Says where the version of the library is another than in CHANGELOG.md; then the status is 1. It takes a second.

    scripts/check_version.py [PROGRAM ..]

It looks at README.md, at the command lines of the programs (crates/*/src), at the tests of their `--version`, and at
the VERSION that `scripts/vendor` writes into another repository, here an empty folder. PROGRAM is a built program
(crates/NAME/out/NAME), which is run with `--version`.
"""
import glob, os, re, subprocess, sys, tempfile

ROOT = os.path.dirname(os.path.dirname(os.path.abspath(__file__)))
PROGRAMS = ['derive', 'describe', 'records']
VERSION = r'\d+\.\d+\.\d+'


def read(path):
    with open(f'{ROOT}/{path}', encoding='utf-8') as file:
        return file.read()


def vendored():
    """The VERSION that `scripts/vendor` writes."""
    with tempfile.TemporaryDirectory() as folder:
        command = [f'{ROOT}/scripts/vendor', folder]
        subprocess.run(command, check=True, stdout=subprocess.DEVNULL)
        with open(f'{folder}/vendor/bincode/VERSION', encoding='utf-8') as file:
            return file.read()


def main(programs):
    found = re.search(rf'^## ({VERSION})', read('CHANGELOG.md'), re.MULTILINE)
    if not found:
        sys.exit('CHANGELOG.md: no heading with a version')
    version = found.group(1)
    wrong = []

    if not re.search(rf'(?<![\d.]){re.escape(version)}(?![\d.]*\d)', read('README.md')):
        wrong.append(f'README.md: {version} is missing')

    stated = {}
    for path in sorted(glob.glob('crates/*/src/**/*.rt', root_dir=ROOT, recursive=True)):
        text = read(path)
        for name, states in re.findall(r'name: "(\w+)",\s*version: "([^"]*)"', text):
            stated[name] = path
            if states != version:
                wrong.append(f'{path}: the version of `{name}` is {states}')
        for name, prints in re.findall(rf'\b({"|".join(PROGRAMS)}) ({VERSION})\b', text):
            if prints != version:
                wrong.append(f'{path}: a test wants {prints} of `{name}`')
    wrong += [f'crates: no command line of `{name}` states a version' for name in PROGRAMS if name not in stated]

    first = vendored().splitlines()[0]
    if f'bincode in Rattle {version};' not in first:
        wrong.append(f'scripts/vendor: VERSION begins with "{first}"')

    for program in programs:
        said = subprocess.run([program, '--version'], capture_output=True, text=True).stdout.strip()
        if said != f'{os.path.basename(program)} {version}':
            wrong.append(f'{program} --version: {said}')

    for line in wrong:
        print(f'{line}, and CHANGELOG.md has {version}' if 'missing' not in line else line)
    return 1 if wrong else 0


if __name__ == '__main__':
    sys.exit(main(sys.argv[1:]))
