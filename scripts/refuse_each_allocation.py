#!/usr/bin/env python3
"""Refuses each allocation of each test in turn: a test has to pass whichever one of them is refused.

usage: refuse_each_allocation.py [--jobs N] [--most N] [--only WORD] [CRATE ..]

CRATE is a crate with tests, and by default each of CRATES below. Of those in ONLY the tests of one module are run, which say what is
left where memory is refused; their other tests want memory. --only leaves the tests whose names have WORD in them, --most leaves the
first N allocations of each test, and --jobs says how many run at once (2 by default). It proves nothing.

The tests of a crate are built once, by `rt try --test --fail-alloc`, which makes an executable that counts the allocations (each
growth of a block counts as one) and refuses the one with a number that stands in its code. Here that number is changed in a copy.
So it is known how many allocations a test asks for: the greatest number that is met, where meeting it is made to stop the test.
Then the test runs once for each of them, with that one refused.

The tests of SAMPLED ask for thousands of blocks, at seconds for a run: of their allocations the first ones are refused, the last
ones and some between. The tests of WITHOUT_MEMORY run with every allocation refused, and fail here if they ask for one.

It prints a line for each run that failed, one for each crate, and one for each sampled test, and ends with status 1 if a run failed,
and 2 if it could not read the executable.
"""

import argparse
import glob
import multiprocessing
import os
import shutil
import subprocess
import sys
import tempfile
import time
from pathlib import Path

CRATES = ["bincode_tests", "collection_tests", "shape_tests", "log_tests", "call_tests"]

ONLY = {"log_tests": "refused_memory::", "call_tests": "refused_memory"}

# The calls of these tests take no memory: what builds configurations, the varint calls over a slice, encoders and decoders over a
# slice, encoding plain values into a slice or a writer of blocks, and decoding from a slice, owned what holds nothing on the heap
# and borrowed bytes and texts. And a length that passes the limit is told before its room is asked for.
WITHOUT_MEMORY = {
    "bincode_tests": [
        "configurations::changes_each_part",
        "varints::writes_each_type",
        "varints::reads_each_type",
        "numbers::keeps_numbers",
        "numbers::keeps_fixed_numbers_that_begin_above_250",
        "numbers::refuses_second_bytes_that_continue_nothing",
        "composites::keeps_tuples",
        "composites::keeps_ranges_and_wrappers",
        "composites::keeps_composites",
        "composites::names_a_tag_that_no_choice_has",
        "composites::converts_spans",
        "composites::collects_into_arrays",
        "addresses::keeps_addresses_and_names_a_tag_that_none_has",
        "contexts::lends_in_context",
        "readers::leaves_a_lent_stream_after_a_word",
        "writers::leaves_a_front_where_the_most_does_not_fit",
        "borrowed::borrows_in_turn",
        "borrowed::keeps_scalars",
        "borrowed::lends_texts_and_bytes",
        "coders::encodes_in_turn",
        "coders::decodes_in_turn",
        "blocks::gathers_values_in_a_block",
        "blocks::tells_that_the_stream_is_full",
        "blocks::writes_long_pieces_by_themselves",
        "blocks::writes_records_of_all_widths",
    ],
    "collection_tests": [
        "limits::reads_back_within_the_peak",
        "borrowed::lends_to_a_struct",
        "borrowed::lends_to_an_enum",
        "borrowed::borrows_a_pair",
        "empties::reads_nothing_and_refuses_lengths_without_memory",
        "unallocated::answers_without_memory",
    ],
    "shape_tests": [],
}

# Sets and maps of 12,000, lists of 101,000 and texts of 600,000 bytes. Those of 300 are kept by
# `containers::keeps_a_value_of_each_type` through the same calls, and each allocation of that test is refused. And the bytes that are
# looked for in many pairs of shapes, as those of `explained` are in a few.
SAMPLED = {
    "collection_tests": [
        "containers::keeps_large_lists",
        "containers::keeps_large_texts",
        "maps::keeps_large_sets_and_maps",
        "maps::keeps_large_hashed_sets_and_maps",
    ],
    "shape_tests": ["changed_shapes::explains_each_difference"],
}

# How many allocations of a sampled test are refused from its first one on, how many up to its last one, and how many between.
NEAR = 20

# A number that no count of allocations comes to, and that stands nowhere else in the code.
MARK = 1_234_567_891

# `cmp rax, MARK`; then come `jne` over so many bytes, and what answers that there is no memory, which begins with `xor eax, eax`.
COMPARES = b"\x48\x3d" + MARK.to_bytes(4, "little")
JUMPS_UNLESS_EQUAL, JUMPS_IF_BELOW = b"\x75", b"\x72"
ANSWERS_NOTHING, STOPS = b"\x31\xc0", b"\x0f\x0b"

SECONDS = 60


def stop(text):
    """Ends the script, since it could judge nothing."""
    print(f"refuse_each_allocation: {text}", file=sys.stderr)
    sys.exit(2)


def places_in(program):
    """Where the number stands in the executable: once for new blocks, and once for those that grow."""
    code = program.read_bytes()
    places = []
    start = code.find(COMPARES)
    while start >= 0:
        place = start + 2
        is_known = code[place + 4 : place + 5] == JUMPS_UNLESS_EQUAL and code[place + 6 : place + 8] == ANSWERS_NOTHING
        if not is_known:
            stop("the executable has another form than this script knows: was another kit at work?")
        places.append(place)
        start = code.find(COMPARES, start + 1)
    return places


def build(crate, folder):
    """Builds the tests of the crate in this folder, and answers the executable, which rt itself removes."""
    words = ["rt", "try", "--test", "--fail-alloc", str(MARK)]
    log = folder / "log"
    kept = []
    with log.open("wb") as out:
        how = {"stdout": out, "stderr": out, "env": {**os.environ, "TMPDIR": str(folder)}}
        tool = subprocess.Popen(words, cwd=crate, **how)
        while tool.poll() is None:
            for it in glob.glob(f"{folder}/**/program", recursive=True):
                if len(kept) < 3:
                    kept.append(folder / f"kept-{len(kept)}")
                    try:
                        os.link(it, kept[-1])
                    except FileNotFoundError:
                        kept.pop()
            time.sleep(0.02)
    if tool.returncode:
        stop(f"the tests of {crate.name} do not pass:\n{log.read_text(errors='replace')[-2000:]}")
    for it in kept:
        if len(places_in(it)) == 2:
            return it
    stop(f"the executable of {crate.name} was not found")


def tests_of(program):
    """The names of the tests of an executable."""
    listed = subprocess.run([program, "--list"], stdout=subprocess.PIPE, check=True, text=True).stdout
    return [it.removesuffix(": test") for it in listed.splitlines() if it.endswith(": test")]


class Runner:
    """A copy of the executable, whose number and code change from run to run."""

    def __init__(self, program, places):
        self.file = Path(tempfile.mkdtemp(dir=program.parent)) / "program"
        shutil.copy(program, self.file)
        self.places = places

    def passes(self, test, number, jump=JUMPS_UNLESS_EQUAL, answer=ANSWERS_NOTHING):
        """Whether the test passes with this number in the code."""
        with self.file.open("r+b") as code:
            for place in self.places:
                code.seek(place)
                code.write(number.to_bytes(4, "little") + jump)
                code.seek(place + 6)
                code.write(answer)
        words = [self.file, test]
        how = {"stdin": subprocess.DEVNULL, "stdout": subprocess.DEVNULL, "stderr": subprocess.DEVNULL, "env": {}}
        try:
            return subprocess.run(words, cwd=self.file.parent, timeout=SECONDS, **how).returncode == 0
        except subprocess.TimeoutExpired:
            return False

    def asked(self, test):
        """How many allocations the test asks for, where none is refused."""
        least, most = 0, 1
        while not self.passes(test, most, answer=STOPS):
            least, most = most, most * 2
            if most > MARK:
                raise RuntimeError(f"{test} does not pass in {SECONDS} seconds, where no allocation is refused")
        while most - least > 1:
            middle = (least + most) // 2
            if self.passes(test, middle, answer=STOPS):
                most = middle
            else:
                least = middle
        return least


def begin(*words):
    """Gives each process a runner of its own."""
    global RUNNER
    RUNNER = Runner(*words)


def asked(test):
    return test, RUNNER.asked(test)


def passes_without(run):
    test, number = run
    return test, number, RUNNER.passes(test, number)


def passes_without_any(test):
    return test, RUNNER.passes(test, 1, jump=JUMPS_IF_BELOW)


def refused(test, count, crate, most):
    """The numbers of the allocations of a test that are refused, of as many as it asks for."""
    if test not in SAMPLED.get(crate, []) or count <= 3 * NEAR:
        return range(1, min(count, most) + 1)
    between = range(NEAR + 1, count - NEAR + 1, (count - NEAR) // NEAR)
    numbers = [*range(1, NEAR + 1), *between, *range(count - NEAR + 1, count + 1)]
    return [it for it in numbers if it <= most]


def sweep(crate, program, given):
    """Runs each test of the crate without each of its allocations, and answers how many runs failed."""
    tests = tests_of(program)
    without = WITHOUT_MEMORY.get(crate.name, [])
    gone = [it for it in [*without, *SAMPLED.get(crate.name, [])] if it not in tests]
    if gone:
        stop(f"{crate.name} has no test {gone[0]}")
    tests = [it for it in tests if given.only in it and ONLY.get(crate.name, "") in it]
    without = [it for it in without if given.only in it]
    failed = 0
    with multiprocessing.Pool(given.jobs, begin, (program, places_in(program))) as pool:
        counts = dict(pool.imap_unordered(asked, tests))
        for test, holds in pool.imap_unordered(passes_without_any, without):
            if counts[test] or not holds:
                failed += 1
                print(f"FAILED {crate.name} {test}, with every allocation refused", flush=True)
        runs = [(test, number) for test in tests for number in refused(test, counts[test], crate.name, given.most)]
        for test, number, holds in pool.imap_unordered(passes_without, runs, 8):
            if not holds:
                failed += 1
                print(f"FAILED {crate.name} {test}, with allocation {number} of {counts[test]} refused", flush=True)
    print(
        f"{crate.name}: {len(tests)} tests, {len(runs)} of {sum(counts.values())} allocations refused, each in a run of its own;"
        f" {len(without)} tests with every allocation refused; {failed} runs failed",
        flush=True,
    )
    for test in SAMPLED.get(crate.name, []):
        if test in tests:
            number = sum(1 for it, _ in runs if it == test)
            print(f"{crate.name}: of {test} {number} of {counts[test]} allocations", flush=True)
    return failed


def main():
    asks = argparse.ArgumentParser(description=__doc__, formatter_class=argparse.RawDescriptionHelpFormatter)
    asks.add_argument("--jobs", type=int, default=2)
    asks.add_argument("--most", type=int, default=MARK)
    asks.add_argument("--only", default="")
    asks.add_argument("crates", nargs="*", default=CRATES)
    given = asks.parse_args()
    top = Path(__file__).resolve().parent.parent / "crates"
    failed = 0
    for name in given.crates:
        with tempfile.TemporaryDirectory(prefix="refused-") as folder:
            crate = top / name
            failed += sweep(crate, build(crate, Path(folder)), given)
    sys.exit(1 if failed else 0)


if __name__ == "__main__":
    main()
