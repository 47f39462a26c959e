#!/usr/bin/env python3
"""Fails each call of the built programs to the system in turn: each open, look, read, write, sync, cut, rename, lock.

    scripts/fail_each_call.py [--only WORD] [PROGRAM ..]

PROGRAM is a built program (crates/records/out/records), and by default each of records and describe, where `rt run` left it. It wants `strace`, which fails the Nth call of a kind and lets all others through. Each run begins with the same files, in
a temporary folder.

A run has to end by itself, with status 3 or that of a run without a failure, and to say why on the standard error where it is 3. It
leaves no other files than such a run. Then its files are looked at by the same program, without a failure. Unless the status was 3
they are what a run without a failure leaves, and what was printed is the same, if it is not a message about a change. After status
3 they are what they were before or that, or have a torn end that `repair` cuts off; and the same command once more does what it
does without a failure.

A line is printed for each command, with how many calls failed in turn and how many runs were answered wrongly. The status is 1 if
any was, and 2 where nothing could be tried.
"""

import argparse
import re
import shutil
import subprocess
import sys
import tempfile
from pathlib import Path

TOP = Path(__file__).resolve().parent.parent

# The error that each kind of call answers in place of its result.
ERRORS = {
    "openat": "EACCES", "newfstatat": "EIO", "fstat": "EIO", "statx": "EIO", "stat": "EIO", "lstat": "EIO", "read": "EIO", "pread64": "EIO",
    "readv": "EIO", "write": "ENOSPC", "writev": "ENOSPC", "pwrite64": "ENOSPC", "fsync": "EIO", "fdatasync": "EIO", "ftruncate": "EIO",
    "rename": "EIO", "renameat": "EIO", "renameat2": "EIO", "unlink": "EIO", "unlinkat": "EIO", "flock": "ENOLCK", "lseek": "EIO",
    "fchmod": "EIO", "readlink": "EIO", "readlinkat": "EIO",
}

# What the loader and the runtime open before the program begins, and while it ends.
OF_THE_LOADER = re.compile(r'"(/etc/ld\.so|/lib|/usr/lib|/proc/self)')

CALL = re.compile(r"^(?:\d+ +)?(\w+)\((.*)$")
DONE, DEVICE = 0, 3
SECONDS = 20


def run(words, folder, given=b"", failing=None):
    """The status, the output and the errors of a run, in which one call fails if one is named. The status is None if it does not end."""
    if failing:
        kind, number = failing
        words = ["strace", "-f", "-qqq", "-o", "/dev/null", "-e", f"trace={kind}", "-e", f"inject={kind}:error={ERRORS[kind]}:when={number}", *words]
    try:
        ran = subprocess.run(words, cwd=folder, input=given, stdout=subprocess.PIPE, stderr=subprocess.PIPE, timeout=SECONDS)
    except subprocess.TimeoutExpired:
        return None, b"", b"it does not end"
    return ran.returncode, ran.stdout, ran.stderr


def calls_of(words, folder, given):
    """The calls that a run makes, as pairs of a kind and a number: those of the loader are left out."""
    log = folder / "calls.log"
    how = {"cwd": folder, "input": given, "stdout": subprocess.DEVNULL, "stderr": subprocess.DEVNULL, "timeout": SECONDS}
    subprocess.run(["strace", "-f", "-qqq", "-o", str(log), "-e", "trace=" + ",".join(f"?{it}" for it in ERRORS), *words], **how)
    met, found, loaded = {}, [], set()
    for line in log.read_text(errors="replace").splitlines():
        call = CALL.match(line)
        if not call:
            continue
        kind, rest = call.groups()
        met[kind] = met.get(kind, 0) + 1
        opened, first = re.search(r"= (\d+)", rest), re.match(r"(\d+)", rest)
        if kind == "openat":
            # (a number that was the loader's may be the program's next)
            (loaded.add if OF_THE_LOADER.search(rest) else loaded.discard)(opened and opened[1])
        if not OF_THE_LOADER.search(rest) and (kind == "openat" or not first or first[1] not in loaded):
            found.append((kind, met[kind]))
    log.unlink()
    return found


class Case:
    """A command over some files: how they are made, what it is given, and how its files are looked at."""

    def __init__(self, name, words, make, look, given=b"", mend=None, answers=None, new=None):
        self.name, self.words, self.make, self.look, self.given = name, words, make, look, given
        # what cuts off a torn end; what judges a server's answers in place of its files; a file that is made, and may be left empty
        self.mend, self.answers, self.new = mend, answers, new


def files_in(folder):
    return {it.name: it.read_bytes() for it in folder.iterdir()}


def put_files(folder, files):
    for it in folder.iterdir():
        it.unlink()
    for name, held in files.items():
        (folder / name).write_bytes(held)


def why_wrong(case, program, folder, before, clean, failing):
    """Why a run in which this call fails is answered wrongly, or None."""
    put_files(folder, before.files)
    status, printed, said = run([program, *case.words], folder, case.given, failing)
    if status not in (DEVICE, clean.status):
        return f"status {status}, {said.decode(errors='replace').strip()[:200]!r}"
    # (the message itself may be what could not be written)
    if status == DEVICE and not said and failing[0] != "write":
        return "status 3 without a word"
    if case.answers:
        return case.answers(program, folder, printed, status)
    if status != DEVICE and clean.files == before.files and printed != clean.printed:
        return f"status {status}, but {printed[:100]!r} is printed"
    seen = case.look(program, folder)
    allowed = [clean.seen] if status != DEVICE else [clean.seen, *before.seen]
    if seen not in allowed and status == DEVICE and case.mend:
        run([program, *case.mend], folder)
        seen = case.look(program, folder)
    left = sorted(files_in(folder).keys() - clean.files.keys() - before.files.keys())
    if left:
        return f"status {status}, and {left[0]} is left"
    if seen not in allowed:
        return f"status {status}, and then {seen!r} in place of {allowed!r}"
    if status == DEVICE and seen in before.seen:
        again, _, said = run([program, *case.words], folder, case.given)
        if again != clean.status or case.look(program, folder) != clean.seen:
            return f"once more: status {again}, {said.decode(errors='replace').strip()[:200]!r}"
    return None


class Outcome:
    """The files, what they are seen to hold (of those before the run a list), and what was printed."""

    def __init__(self, files, seen, status=DONE, printed=b""):
        self.files, self.seen, self.status, self.printed = files, seen, status, printed


def try_case(case, program, folder):
    """Fails each call of a case in turn. Returns how many runs were answered wrongly."""
    put_files(folder, {})
    case.make(program, folder)
    held = files_in(folder)
    seen = [case.look(program, folder)]
    if case.new:
        put_files(folder, {case.new: b""})
        seen.append(case.look(program, folder))
    before = Outcome(held, seen)
    put_files(folder, held)
    status, printed, said = run([program, *case.words], folder, case.given)
    clean = Outcome(files_in(folder), case.look(program, folder), status, printed)
    put_files(folder, held)
    calls = calls_of([program, *case.words], folder, case.given)
    wrong = 0
    for failing in calls:
        why = why_wrong(case, program, folder, before, clean, failing)
        if why:
            wrong += 1
            print(f"  {case.name}: call {failing[1]} of {failing[0]}: {why}", flush=True)
    print(f"{case.name}: {len(calls)} calls, each failed in a run of its own; {wrong} runs answered wrongly", flush=True)
    return len(calls), wrong


def change(folder, name, changed):
    """Changes the bytes of a file."""
    (folder / name).write_bytes(changed((folder / name).read_bytes()))


def no_files(program, folder):
    """Nothing is there before the run."""


def no_look(program, folder):
    """No file is changed."""


def records_cases():
    def articles(program, folder):
        run([program, "add", "store", "-"], folder, b"tea 1250 100 origin=Assam\ncoffee 900\ncup 300 250\n")

    def torn(program, folder):
        articles(program, folder)
        change(folder, "store", lambda held: held[:-4])

    def damaged(program, folder):
        articles(program, folder)
        change(folder, "store", lambda held: held[:20] + bytes([held[20] ^ 1]) + held[21:])

    def look(program, folder):
        return [run([program, word, "store"], folder)[:2] for word in ("list", "check")]

    lines = b"pot 1200\nspoon 80 20\n"
    mend = ["repair", "store"]
    return [
        Case("records add", ["add", "store", "pot", "1200"], articles, look, mend=mend),
        Case("records add to a new file", ["add", "store", "pot", "1200"], no_files, look, mend=mend, new="store"),
        Case("records add -", ["add", "store", "-"], articles, look, given=lines, mend=mend),
        Case("records list", ["list", "store"], articles, look),
        Case("records check", ["check", "store"], damaged, look),
        Case("records repair", ["repair", "store"], torn, look, mend=mend),
        Case("records repair --drop-damaged", ["repair", "--drop-damaged", "store"], damaged, look),
    ]


def describe_cases():
    def files(program, folder):
        (folder / "file").write_bytes(bytes([7, 2, 5, 251, 0, 1, 1, 2, 111, 107, 0, 251, 44, 1]) * 3)

    shape = "(u8, [u16], text?, u32|text)"
    return [
        Case("describe", [shape, "file"], files, no_look),
        Case("describe --reads", ["--reads", "(u32, text?)", "(u16, text?)"], files, no_look),
    ]


def cases_of(program):
    """The cases of a program, by its name."""
    return {"records": records_cases, "describe": describe_cases}[Path(program).name]()


def main():
    asks = argparse.ArgumentParser(description=__doc__, formatter_class=argparse.RawDescriptionHelpFormatter)
    asks.add_argument("--only", default="", help="only the commands with this word in their name")
    asks.add_argument("programs", nargs="*", default=[f"{TOP}/crates/{it}/out/{it}" for it in ("records", "describe")])
    words = asks.parse_args()
    lacking = [it for it in words.programs if not Path(it).is_file()]
    if lacking or not shutil.which("strace"):
        print(f"fail_each_call: {f'{lacking[0]} is not there: build it by rt run' if lacking else 'strace is not there'}", file=sys.stderr)
        sys.exit(2)
    calls = wrong = 0
    for program in words.programs:
        with tempfile.TemporaryDirectory(prefix="fail-each-call-") as room:
            folder = Path(room)
            for case in cases_of(program):
                if words.only in case.name:
                    more = try_case(case, str(Path(program).resolve()), folder)
                    calls, wrong = calls + more[0], wrong + more[1]
    print(f"all: {calls} calls failed in turn, {wrong} runs answered wrongly")
    sys.exit(1 if wrong else 0)


if __name__ == "__main__":
    main()
