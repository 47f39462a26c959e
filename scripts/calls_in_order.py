"""The order in which a built program changes files, brings them to the disk and prints, by `strace`. For the scripts beside it."""
import re, shutil, subprocess, tempfile
from pathlib import Path

# What each call does, by its name.
KINDS = {
    "write": "write", "writev": "write", "pwrite64": "write", "fsync": "sync", "fdatasync": "sync", "ftruncate": "cut",
    "rename": "move", "renameat": "move", "renameat2": "move",
}
OF_A_FILE = re.compile(r"^\d+ +(\w+)\((\d+)<([^>]*)>")
OF_PATHS = re.compile(r'^\d+ +(rename\w*)\(.*?"([^"]*)", .*?"([^"]*)"')


def can_be_seen():
    """Whether there is a `strace` that may follow programs."""
    return shutil.which("strace") is not None and subprocess.run(["strace", "-o", "/dev/null", "true"], stderr=subprocess.DEVNULL).returncode == 0


def changes_of(words):
    """What a run does, in order, as pairs of a kind and a path: `write`, `sync`, `cut` and `move` (to a path), and `print` of the
    standard output."""
    with tempfile.TemporaryDirectory() as folder:
        log = Path(folder) / "calls"
        subprocess.run(["strace", "-f", "-y", "-o", str(log), "-e", "trace=" + ",".join(KINDS), *map(str, words)], stdout=subprocess.PIPE, stderr=subprocess.PIPE)
        changes = []
        for line in log.read_text(errors="replace").splitlines():
            if moved := OF_PATHS.match(line):
                changes.append(("move", moved[3]))
            elif called := OF_A_FILE.match(line):
                kind = KINDS[called[1]]
                changes.append(("print", "") if kind == "write" and called[2] == "1" else (kind, called[3]))
    return changes


def are_in_order(changes, steps):
    """Whether the last write of each step that is one, and the first call of each other step after the step before it, come in this
    order, and nothing is printed before the last step."""
    at = -1
    for kind, path in steps:
        found = [place for place, change in enumerate(changes) if change == (kind, str(path)) and (kind == "write" or place > at)]
        if not found or (place := found[-1] if kind == "write" else found[0]) <= at:
            return False
        at = place
    return ("print", "") not in changes[: at]
