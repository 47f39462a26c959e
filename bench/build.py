"""What the commands of this folder share: steps that may fail, and a copy of the crates in which further crates can be proved."""

import os
import shutil
import subprocess
import sys
import time

HERE = os.path.dirname(os.path.realpath(__file__))
TOP = os.path.dirname(HERE)
KIT = os.path.dirname(os.path.dirname(os.path.realpath(shutil.which("rt") or sys.exit("rt is wanted"))))


def run(what, command, folder, environment=None, may_fail=False):
    print(f"{what} ..", file=sys.stderr, flush=True)
    start = time.monotonic()
    if subprocess.run(command, cwd=folder, env=environment, stdout=sys.stderr).returncode and not may_fail:
        sys.exit(f"{what} failed")
    print(f"{what} took {time.monotonic() - start:.0f} s", file=sys.stderr, flush=True)


def needed_crates(tops=("bincode",)):
    """The lines of crates.txt that these crates stand on, with their own."""
    uses = {}
    for line in open(f"{TOP}/crates.txt"):
        name, colon, below = line.split("#")[0].partition(":")
        if colon:
            uses[name.strip()] = below.split()
    needed = []

    def visit(name):
        if name in uses and name not in needed:
            for below in uses[name]:
                visit(below)
            needed.append(name)

    for top in tops:
        visit(top)
    return {name: uses[name] for name in needed}


def tree_of(work, own, has_proofs=True):
    """A copy of those crates, with what was proved of them, and beside them crates of our own: by the line of each in crates.txt, the text of its files.
    They stand there since a crate of the benchmark is none of the repository's."""
    tree = f"{work}/tree"
    needed = needed_crates(("bincode", *(name for line in own for name in line.partition(":")[2].split())))
    lines = [f"{name}: {' '.join(below)}\n" for name, below in needed.items()]
    for name in needed:
        source, copy = f"{TOP}/crates/{name}", f"{tree}/crates/{name}"
        os.makedirs(copy, exist_ok=True)
        for part in ("src", "specs", "proofs"):
            shutil.rmtree(f"{copy}/{part}", ignore_errors=True)
            if os.path.isdir(f"{source}/{part}"):
                shutil.copytree(f"{source}/{part}", f"{copy}/{part}")
        if has_proofs and os.path.isdir(f"{source}/out") and not os.path.isdir(f"{copy}/out"):
            shutil.copytree(f"{source}/out", f"{copy}/out")
    for line, files in own.items():
        lines.append(f"{line}\n")
        for file, text in files.items():
            place = f"{tree}/crates/{line.replace(':', ' ').split()[0]}/{file}"
            os.makedirs(os.path.dirname(place), exist_ok=True)
            with open(place, "w") as written:
                written.write(text)
    with open(f"{tree}/crates.txt", "w") as file:
        file.writelines(lines)
    return f"{tree}/crates"


def work_folder(asked):
    """The folder that is asked for, made: outside the repository, whose gate reads every file below it."""
    work = os.path.abspath(asked)
    if f"{work}/".startswith(f"{TOP}/"):
        sys.exit("the work folder has to stand outside the repository, whose gate reads every file below it")
    os.makedirs(work, exist_ok=True)
    return work


def original_in(manifest, place):
    """Takes the original from a folder, and not from the registry."""
    text = open(manifest).read().replace('version = "=2.0.1"', f'path = "{os.path.abspath(place)}"')
    with open(manifest, "w") as file:
        file.write(text)
