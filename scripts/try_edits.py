#!/usr/bin/env python3
"""Tries the edits that the gate leaves out: the prover has to refuse each.

usage: try_edits.py [CRATE ..]

scripts/edits/ has a folder of edits for each crate of which the gate leaves some or all out, and by default all of them are tried. It copies
what git tracks here to a folder of its own, puts the edits where `rt must-fail` looks for them, and runs that: each crate is
proved once, and then each edit is tried. It changes nothing here, and ends with the status of `rt must-fail`, which is 0 if all
are refused.
"""

import argparse
import os
import shutil
import subprocess
import sys
import tempfile
from pathlib import Path

TOP = Path(__file__).resolve().parent.parent
EDITS = TOP / "scripts" / "edits"


def copy_tracked(to):
    """Copies the files that git tracks, as they stand, into a folder, which becomes a repository of its own."""
    listed = subprocess.run(["git", "ls-files", "-z"], cwd=TOP, check=True, stdout=subprocess.PIPE)
    for name in filter(None, os.fsdecode(listed.stdout).split("\0")):
        if (TOP / name).is_file():
            (to / name).parent.mkdir(parents=True, exist_ok=True)
            shutil.copy2(TOP / name, to / name)
    subprocess.run(["git", "init", "-q"], cwd=to, check=True)


def main():
    there = sorted(folder.name for folder in EDITS.iterdir() if folder.is_dir())
    words = argparse.ArgumentParser(description=__doc__, formatter_class=argparse.RawDescriptionHelpFormatter)
    words.add_argument("crates", nargs="*", metavar="CRATE", help=", ".join(there))
    crates = words.parse_args().crates or there
    for crate in crates:
        if crate not in there:
            words.error(f"scripts/edits has no folder {crate}")
    with tempfile.TemporaryDirectory(prefix="edits-") as room:
        copy_tracked(Path(room))
        for crate in crates:
            shutil.copytree(EDITS / crate, Path(room) / "crates" / crate / "must-fail", dirs_exist_ok=True)
        sys.exit(subprocess.run(["rt", "must-fail", *crates], cwd=room).returncode)


if __name__ == "__main__":
    main()
