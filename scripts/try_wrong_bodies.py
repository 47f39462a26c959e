#!/usr/bin/env python3
"""Tries wrong bodies of functions on the tests: for each of them a test has to fail.

usage: try_wrong_bodies.py [--only WORD] [--jobs N] [CRATE ..]

CRATE is a crate with tests, and by default each that scripts/wrong_bodies/bodies.tsv names for a body that is tried. --only leaves
the bodies whose lines have WORD in them, and --jobs says how many run at once (2 by default). It proves nothing, and changes
nothing here.

scripts/wrong_bodies/bodies.patch puts all the bodies into a copy of the repository, each behind a number. bodies.tsv has a line
for each: its number, what it does, the crate whose tests tell it, and one test that fails with it. Where no test does, `clause`
stands in the place of the crate, and then the clause that refuses it, or `run`, and then the program of the gate whose output
tells it, or `nothing`.

The tests of a crate are built once, by `rt try --test`: with the bodies the executable has a number once in its code, which names
none of them. First each test runs like this, and has to pass. Then for each body its number is put into a copy of the executable,
and the test runs that is named for it. Where that passes, or none is named, all tests of these crates run that take less than a
second.

It prints a line for each body that its test does not tell, and for each that a test tells although none is named; then a line for
each crate, and one for the bodies without a test. It ends with status 1 if no test tells a body that has one, and with 2 if it can
judge nothing. Where the patch does not apply, `git apply --reject` puts in what it can: the rest goes in by hand, and what
`git diff` prints then is the new patch.
"""

import argparse
import glob
import multiprocessing
import os
import resource
import shutil
import subprocess
import sys
import tempfile
import time
from pathlib import Path
from typing import NamedTuple

TOP = Path(__file__).resolve().parent.parent
BODIES = TOP / "scripts" / "wrong_bodies"

# What stands in the place of a crate where no test is named.
NO_TEST = {"clause", "run", "nothing"}

# The number in the executable, as `bincode_base::wrong` has it there: the size of a page is taken from it at run time.
MARK = (0x5A17_C0DE_7EA3_91B5).to_bytes(8, "little")
PAGE = os.sysconf("SC_PAGE_SIZE")

# The number of no body.
RIGHT = 0

# How long a test may take, and how long one that runs for every body that its own test does not tell, of the processor.
SECONDS, QUICK = 300, 1


class Body(NamedTuple):
    number: int
    words: str
    crate: str
    test: str = ""


class Program(NamedTuple):
    """The executable of a crate's tests, where the number stands in it, and which of the tests are quick."""

    file: Path
    place: int
    quick: tuple = ()


def stop(text):
    """Ends the script, since it could judge nothing."""
    print(f"try_wrong_bodies: {text}", file=sys.stderr)
    sys.exit(2)


def bodies_with(word):
    """The bodies whose lines have this word in them."""
    lines = (BODIES / "bodies.tsv").read_text().splitlines()[1:]
    rows = [it.split("\t") for it in lines if word in it]
    return [Body(int(number), *rest) for number, *rest in rows]


def crates_of(bodies):
    """The crates whose tests are named for these bodies."""
    return sorted({it.crate for it in bodies} - NO_TEST)


def copy_with_bodies(folder):
    """Copies the repository, and puts the bodies into the copy."""
    shutil.copytree(TOP, folder, ignore=shutil.ignore_patterns("out", ".*"))
    words = ["git", "apply", BODIES / "bodies.patch"]
    outside = {**os.environ, "GIT_CEILING_DIRECTORIES": str(folder.parent)}
    if subprocess.run(words, cwd=folder, env=outside).returncode:
        stop("scripts/wrong_bodies/bodies.patch does not apply")


def build(crate, folder):
    """Builds the tests of the crate in this folder, and answers the executable, which rt itself removes."""
    folder.mkdir()
    log = folder / "log"
    kept = []
    with log.open("wb") as out:
        how = {"stdout": out, "stderr": out, "env": {**os.environ, "TMPDIR": str(folder)}}
        tool = subprocess.Popen(["rt", "try", "--test"], cwd=crate, **how)
        while tool.poll() is None:
            for it in glob.glob(f"{folder}/**/program", recursive=True):
                if len(kept) < 3:
                    kept.append(folder / f"kept-{len(kept)}")
                    try:
                        os.link(it, kept[-1])
                    except FileNotFoundError:
                        kept.pop()
            time.sleep(0.02)
    if tool.returncode:
        stop(f"the tests of {crate.name} do not pass:\n{log.read_text(errors='replace')[-2000:]}")
    for it in kept:
        code = it.read_bytes()
        if code.count(MARK) == 1:
            return Program(it, code.index(MARK))
    stop(f"the executable of {crate.name} was not found")


class Runner:
    """A copy of each executable, whose number changes from run to run."""

    def __init__(self, programs):
        self.programs = {}
        for crate, program in programs.items():
            file = Path(tempfile.mkdtemp(dir=program.file.parent)) / "program"
            shutil.copy(program.file, file)
            self.programs[crate] = program._replace(file=file)

    def passes(self, crate, test, number):
        """Whether the test passes with the body of this number."""
        file, place, _ = self.programs[crate]
        with file.open("r+b") as code:
            code.seek(place)
            code.write((number ^ PAGE).to_bytes(8, "little"))
        how = {"stdin": subprocess.DEVNULL, "stdout": subprocess.DEVNULL, "stderr": subprocess.DEVNULL}
        how["env"] = {"TMPDIR": str(file.parent)}
        try:
            return subprocess.run([file, test], cwd=file.parent, timeout=SECONDS, **how).returncode == 0
        except subprocess.TimeoutExpired:
            return False

    def told_by(self, body):
        """A test that fails with this body: the one that is named for it, or else a quick one."""
        if body.test and body.crate in self.programs and not self.passes(body.crate, body.test, body.number):
            return f"{body.crate}::{body.test}"
        for crate, program in self.programs.items():
            for test in program.quick:
                if not self.passes(crate, test, body.number):
                    return f"{crate}::{test}"
        return None


def with_quick_tests(crate, program, named):
    """Runs each test of a crate without a body, and keeps the names of the quick ones."""
    listed = subprocess.run([program.file, "--list"], stdout=subprocess.PIPE, check=True, text=True).stdout
    tests = [it.removesuffix(": test") for it in listed.splitlines() if it.endswith(": test")]
    gone = sorted(named - set(tests))
    if gone:
        stop(f"{crate} has no test {gone[0]}")
    runner = Runner({crate: program})
    quick = []
    for test in tests:
        before = resource.getrusage(resource.RUSAGE_CHILDREN).ru_utime
        if not runner.passes(crate, test, RIGHT):
            stop(f"{crate}::{test} does not pass without a wrong body")
        if resource.getrusage(resource.RUSAGE_CHILDREN).ru_utime - before < QUICK:
            quick.append(test)
    print(f"{crate}: {len(tests)} tests pass without a wrong body, and {len(quick)} of them are quick", flush=True)
    return program._replace(quick=tuple(quick))


def begin(programs):
    """Gives each process a runner of its own."""
    global RUNNER
    RUNNER = Runner(programs)


def told_by(body):
    return body, RUNNER.told_by(body)


def try_all(bodies, programs, jobs):
    """Tries each body, and answers how many no test told that have one."""
    found = {}
    with multiprocessing.Pool(jobs, begin, (programs,)) as pool:
        for body, test in pool.imap_unordered(told_by, bodies):
            found[body] = test
            named = f"{body.crate}::{body.test}" if body.crate in programs else None
            if test != named:
                print(f"{body.number} ({body.words}): told by {test or 'no test'}, named is {named or 'none'}", flush=True)
    for crate in programs:
        of_it = [test for body, test in found.items() if body.crate == crate]
        print(f"{crate}: {len(of_it)} bodies have a test here, and {len(of_it) - of_it.count(None)} of them are told")
    others = [test for body, test in found.items() if body.crate in NO_TEST]
    print(f"without a test: {len(others)} bodies, and {len(others) - others.count(None)} of them are told")
    return sum(1 for body, test in found.items() if body.crate in programs and not test)


def main():
    asks = argparse.ArgumentParser(description=__doc__, formatter_class=argparse.RawDescriptionHelpFormatter)
    asks.add_argument("--jobs", type=int, default=2)
    asks.add_argument("--only", default="")
    asks.add_argument("crates", nargs="*", metavar="CRATE")
    given = asks.parse_args()
    bodies = bodies_with(given.only)
    crates = given.crates or crates_of(bodies) or crates_of(bodies_with(""))
    with tempfile.TemporaryDirectory(prefix="wrong-") as folder:
        top = Path(folder) / "repository"
        copy_with_bodies(top)
        programs = {}
        for crate in crates:
            named = {it.test for it in bodies if it.crate == crate}
            programs[crate] = with_quick_tests(crate, build(top / "crates" / crate, Path(folder) / crate), named)
        failed = try_all([it for it in bodies if it.crate in [*crates, *NO_TEST]], programs, given.jobs)
    sys.exit(1 if failed else 0)


if __name__ == "__main__":
    main()
