"""Builds both sides: the original's with the program that asks, and the port's, proved as static libraries or not proved as a program."""

import os
import shutil
import subprocess
import sys

import build
import port
import table

HERE = os.path.dirname(os.path.realpath(__file__))

# how many types a part of the port's side has at most: so no proof takes too much memory, and no part too many copies of generic functions
TYPES = 45

# how long the program that is not proved may take for a file of calls
SECONDS = 600


def parts_of(asked):
    """The types by their numbers, in parts that have some of each sort."""
    numbered, count = list(enumerate(asked)), -(-len(asked) // TYPES)
    return [dict(numbered[part::count]) for part in range(count)]


def port_libraries(work, asked, jobs):
    """The port's side, proved and built: a static library for each part."""
    libraries = {f"compare_{number}": list(part.values()) for number, part in enumerate(parts_of(asked))}
    own = {f"{name} staticlib: {port.crates_of(part)}": {"src/lib.rt": port.library(part)} for name, part in libraries.items()}
    crates = build.tree_of(work, own)
    for name in libraries:
        build.run(f"proving and building {name}", ["rt", "lib", "--jobs", str(jobs)], f"{crates}/{name}")
    return [f"{crates}/{name}/out/lib{name}.a" for name in libraries]


def unproved_tree(work, asked):
    """A copy of the library, and beside it the programs that answer calls, one for each part."""
    programs = {f"compare_try_{number}: {port.crates_of(part.values())}": {"src/main.rt": port.program(part)} for number, part in enumerate(parts_of(asked))}
    return os.path.dirname(build.tree_of(f"{work}/unproved", programs, has_proofs=False))


def compare_unproved(work, tree, made, asked, calls, seed):
    """Writes calls with the original's answers, has the programs answer them, and judges where they answer otherwise."""
    folder, count = f"{work}/calls", len(parts_of(asked))
    shutil.rmtree(folder, ignore_errors=True)
    for part in range(count):
        os.makedirs(f"{folder}/{part}")
        subprocess.run([made, "write", str(calls // count), str(seed), f"{folder}/{part}", str(part), str(count)], check=True)
        command = f"rt try --steps 1 --seconds {SECONDS} --cases '{folder}/{part}' >'{folder}/answers_{part}'"
        build.run("compiling a part of the port's side, and answering", ["sh", "-c", command], f"{tree}/crates/compare_try_{part}", may_fail=True)
    return subprocess.run([made, "judge", folder, str(count)]).returncode


def program(work, asked, libraries, original, jobs, name="harness"):
    """The program that asks, built: with the port's libraries, or without."""
    harness = f"{work}/{name}"
    shutil.copytree(f"{HERE}/harness", harness, dirs_exist_ok=True)
    shutil.copy(f"{build.HERE}/harness/build.rs", harness)
    if original:
        build.original_in(f"{harness}/original/Cargo.toml", original)
    rows = f"{work}/{name}_rows"
    os.makedirs(rows, exist_ok=True)
    table.write(rows, asked, libraries is not None)
    linked = [*(libraries or []), f"{build.KIT}/c/liblibc_c.a", f"{build.KIT}/c/libos_c.a"]
    environment = dict(os.environ, PORT_LIBRARIES=" ".join(linked), BENCH_WORK=rows)
    command = ["cargo", "build", "--release", "--jobs", str(jobs), *["--offline"] * bool(original)]
    build.run("building the original's side", command, harness, environment)
    return f"{harness}/target/release/compare"


def exit_with(main):
    """Ends with the status of the comparison, or with 2 where something could not be built."""
    try:
        status = main()
    except SystemExit as end:
        if isinstance(end.code, str):
            print(end.code, file=sys.stderr)
            sys.exit(2)
        raise
    sys.exit(status)
