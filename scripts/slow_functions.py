#!/usr/bin/env python3
"""Prints which functions of a crate take long to prove, by what `rt check` keeps of them.

usage: slow_functions.py [--most N] CRATE ..

Run `rt check --jobs 1` in the crate from nothing first (without its out/incremental), with nothing beside it. A check writes a file
for each step of a proof, so the time between two files is that of the step: `Lts` (the states of a function, with all that its calls
name), `Tie` (what ties them to its calls), `Goals` (what is to be shown), `Answers` (what files of proofs answer), `Proof` (what is
searched for) and others. A pause of more than 100 seconds is one between two checks, and is left out. It prints the seconds of each kind, and then of each function with its three dearest kinds. With several jobs
the files of several functions come in turn, and the seconds say little.
"""

import argparse
import re
import sys
from collections import defaultdict
from pathlib import Path

TOP = Path(__file__).resolve().parent.parent
# A longer time between two files is one between two checks.
LONGEST = 100

# The name of a kept file: the function's path, and the kind of the step.
NAME = re.compile(r"Rattle-\w+?-(?:proofs|specs)\.(.*?)\.([A-Z]\w*)(?:\.decls)?\.oantt$")


def steps_of(folder):
    """The seconds of each step, as triples of a function, a kind and the time before the file was written."""
    files = sorted((file.stat().st_mtime, file.name) for file in folder.rglob("*.oantt"))
    for (before, _), (at, name) in zip(files, files[1:]):
        found = NAME.match(name)
        if at - before <= LONGEST:
            yield *(found.groups() if found else ("(the crate)", "other")), at - before


def show(crate, most):
    """Prints the table of one crate. Returns whether it has one."""
    folder = TOP / "crates" / crate / "out" / "incremental"
    kinds, functions = defaultdict(float), defaultdict(lambda: defaultdict(float))
    for function, kind, seconds in steps_of(folder):
        kinds[kind] += seconds
        functions[function][kind] += seconds
    if not kinds:
        print(f"{crate}: no out/incremental: run `rt check --jobs 1` there first", file=sys.stderr)
        return False
    print(f"{crate}: {sum(kinds.values()):.0f} s, of it " + ", ".join(f"{kind} {kinds[kind]:.0f}" for kind in sorted(kinds, key=kinds.get, reverse=True)[:6]))
    for function in sorted(functions, key=lambda name: -sum(functions[name].values()))[:most]:
        each = functions[function]
        dearest = ", ".join(f"{kind} {each[kind]:.1f}" for kind in sorted(each, key=each.get, reverse=True)[:3])
        print(f"{sum(each.values()):8.1f}  {function}  ({dearest})")
    return True


def main():
    words = argparse.ArgumentParser(description=__doc__, formatter_class=argparse.RawDescriptionHelpFormatter)
    words.add_argument("--most", type=int, default=20, help="how many functions of a crate are printed (20)")
    words.add_argument("crates", nargs="+", metavar="CRATE")
    given = words.parse_args()
    sys.exit(0 if all([show(crate, given.most) for crate in given.crates]) else 1)


if __name__ == "__main__":
    main()
