#!/usr/bin/env python3
"""Checks that wrong uses of lifetimes do not compile.

usage: try_misuses.py

scripts/misuses/ has a file for each: a list that is used after its arena was reset, and a text that is used after the bytes that it
borrows were dropped. The first line of a file names the error that the compiler has to report for it. The script copies what git tracks
here to a folder of its own, with a crate `misuses` of these files beside the library, and runs `rt try` there, which compiles that crate
and proves nothing. The compiler has to report just that error in each file and none elsewhere; then the status is 0, else 1.
"""

import os
import re
import shutil
import subprocess
import sys
import tempfile
from pathlib import Path

TOP = Path(__file__).resolve().parent.parent
MISUSES = TOP / "scripts" / "misuses"
CRATE = "misuses: bincode bumpalo own_types"
HEAD = "//! Wrong uses, which do not compile.\n#![tactic(auto)]\n\n"
MAIN = "\nfn main(_rt: HostRuntime) {}\n"


def copy_tracked(to):
    """Copies the files that git tracks, as they stand, into a folder, which becomes a repository of its own."""
    listed = subprocess.run(["git", "ls-files", "-z"], cwd=TOP, check=True, stdout=subprocess.PIPE)
    for name in filter(None, os.fsdecode(listed.stdout).split("\0")):
        if (TOP / name).is_file():
            (to / name).parent.mkdir(parents=True, exist_ok=True)
            shutil.copy2(TOP / name, to / name)
    subprocess.run(["git", "init", "-q"], cwd=to, check=True)


def errors_of(misuses, room):
    """What the compiler prints of a crate of these files, and the errors in it: file, name and text of each."""
    source = room / "crates" / "misuses" / "src"
    source.mkdir(parents=True)
    for misuse in misuses:
        shutil.copy2(misuse, source / f"{misuse.stem}.rt")
    (source / "main.rt").write_text(HEAD + "".join(f"mod {misuse.stem};\n" for misuse in misuses) + MAIN)
    with open(room / "crates.txt", "a", encoding="utf-8") as lines:
        lines.write(CRATE + "\n")
    tried = subprocess.run(["rt", "try"], cwd=source.parent, stdout=subprocess.PIPE, stderr=subprocess.STDOUT, text=True)
    return tried.stdout, re.findall(r"^(\S+?):\d+:\d+: error\[([^\]]+)\]: (.*)$", tried.stdout, re.MULTILINE)


def main():
    misuses = sorted(MISUSES.glob("*.misuse"))
    with tempfile.TemporaryDirectory(prefix="misuses-") as folder:
        copy_tracked(Path(folder))
        output, errors = errors_of(misuses, Path(folder))
    failed = [f"{file}: error[{name}]: {text}" for file, name, text in errors
              if file not in {f"src/{misuse.stem}.rt" for misuse in misuses}]
    for misuse in misuses:
        wanted = re.search(r"error\[([^\]]+)\]", misuse.read_text(encoding="utf-8").split("\n")[0]).group(1)
        found = [(name, text) for file, name, text in errors if file == f"src/{misuse.stem}.rt"]
        if [name for name, _ in found] == [wanted]:
            print(f"{misuse.stem}: refused, error[{wanted}]: {found[0][1]}")
        else:
            failed.append(f"{misuse.stem}: error[{wanted}] was wanted, and {[name for name, _ in found] or 'no error'} came")
    if failed or not misuses:
        print("\n".join(failed or ["there are no misuses"]))
        print(output)
        sys.exit(1)
    print(f"{len(misuses)} misuses, each refused")


if __name__ == "__main__":
    main()
