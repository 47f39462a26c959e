#!/usr/bin/env python3
"""Tries a built program that keeps records in a store of frames on files that are damaged, truncated, locked, full or huge.

    scripts/try_store.py PROGRAM [--huge] [--only WORD]

PROGRAM is the built program (crates/NAME/out/NAME). Every file is made in a temporary folder. --huge also tries files of a gigabyte of
zeros and of 0xff. A line is printed for each group of tries, with how many there were and how many were answered wrongly. The status is 1
if any was, and 2 where the program could not be started.

Statuses that it wants: 0 whole, 1 damaged or torn, 2 wrong use, 3 input or output.
"""
import argparse, os, resource, signal, subprocess, sys, tempfile, time
from pathlib import Path

sys.dont_write_bytecode = True
from calls_in_order import are_in_order, can_be_seen, changes_of

WHOLE, DAMAGED, USAGE, DEVICE = 0, 1, 2, 3


def crc32c(data):
    """The check of RFC 3720, bit by bit."""
    state = 0xFFFFFFFF
    for byte in data:
        state ^= byte
        for _ in range(8):
            state = (state >> 1) ^ (0x82F63B78 if state & 1 else 0)
    return state ^ 0xFFFFFFFF


def frame(word):
    length = len(word).to_bytes(4, "little")
    return length + word + crc32c(length + word).to_bytes(4, "little")


class Tries:
    """Counts the tries of a group, and shows the first that are answered wrongly."""

    def __init__(self, name):
        self.name, self.count, self.wrong = name, 0, 0

    def want(self, holds, what):
        self.count += 1
        if not holds:
            self.wrong += 1
            if self.wrong <= 5:
                print(f"  {self.name}: {what}", flush=True)

    def done(self):
        print(f"{self.name}: {self.count} tries, {self.wrong} answered wrongly", flush=True)
        return self.wrong


class Store:
    """The program over one file."""

    def __init__(self, program, folder):
        self.program, self.file = program, folder / "store"

    def run(self, *words, given=b"", seconds=60, output=subprocess.PIPE, before=None):
        try:
            ran = subprocess.run([self.program, *words], input=given, stdout=output, stderr=subprocess.PIPE, timeout=seconds, preexec_fn=before)
        except subprocess.TimeoutExpired:
            return None, "", "it does not end"
        text = ran.stdout.decode(errors="replace") if ran.stdout is not None else ""
        return ran.returncode, text, ran.stderr.decode(errors="replace")

    def with_bytes(self, held):
        self.file.write_bytes(held)
        return self


def frames_of(bytes_held):
    """Where each frame of a whole store begins, and how many bytes it has."""
    at, frames = 0, []
    while at < len(bytes_held):
        size = 8 + int.from_bytes(bytes_held[at : at + 4], "little")
        frames.append((at, size))
        at += size
    return frames


def made(store, count):
    """A store of so many records, each appended by a call of its own."""
    if store.file.exists():
        store.file.unlink()
    for number in range(count):
        note = "kind=green" if number % 3 else "note=from a shelf"
        status, _, error = store.run("add", str(store.file), f"name{number}", str(number * 1000), note)
        if status != WHOLE:
            sys.exit(f"try_store: add answered {status}: {error}")
    return store.file.read_bytes()


def is_listed(store, frames, count):
    """Whether the list begins with the first so many records, at their places."""
    _, text, _ = store.run("list", str(store.file))
    lines = text.splitlines()
    return len(lines) >= count and all(lines[i].startswith(f"{frames[i][0]}: ") and f"name{i}" in lines[i] for i in range(count))


def flips(store, held, frames):
    """Each byte is changed in turn, and each bit of a length: each change is told, the records before it are listed, and no repair
    loses another one."""
    tries = Tries("each byte changed")
    lengths = [at + byte for at, _ in frames for byte in range(4)]
    for place, bit in [(place, place % 8) for place in range(len(held))] + [(place, bit) for place in lengths for bit in range(8) if bit != place % 8]:
        spoilt = bytearray(held)
        spoilt[place] ^= 1 << bit
        store.with_bytes(bytes(spoilt))
        status, text, _ = store.run("check", str(store.file))
        before = sum(1 for at, size in frames if at + size <= place)
        tries.want(status == DAMAGED, f"byte {place}: status {status}, {text.strip()!r}")
        tries.want(is_listed(store, frames, before), f"byte {place}: the {before} records before it are not listed")
        store.run("repair", str(store.file))
        left = store.file.read_bytes()
        others = [(at, size) for at, size in frames if not at <= place < at + size]
        tries.want(all(left[at : at + size] == held[at : at + size] for at, size in others), f"byte {place}: a plain repair lost a whole frame")
        store.with_bytes(bytes(spoilt))
        status, text, error = store.run("repair", "--drop-damaged", str(store.file))
        kept = b"".join(held[at : at + size] for at, size in frames if not at <= place < at + size)
        tries.want(status == WHOLE and store.file.read_bytes() == kept, f"byte {place}: repaired with status {status}, {text.strip()!r}, {error.strip()!r}")
    return tries.done()


def prefixes(store, held, frames):
    """Each prefix: whole at the end of a frame, else torn, and the records before the end are listed. What is repaired is whole."""
    tries = Tries("each prefix")
    ends = {0, *(at + size for at, size in frames)}
    for length in range(len(held) + 1):
        store.with_bytes(held[:length])
        status, text, _ = store.run("check", str(store.file))
        tries.want(status == (WHOLE if length in ends else DAMAGED), f"{length} bytes: status {status}, {text.strip()!r}")
        whole = sum(1 for at, size in frames if at + size <= length)
        tries.want(is_listed(store, frames, whole), f"{length} bytes: {whole} records are not listed")
        status, text, error = store.run("repair", str(store.file))
        last = max(end for end in ends if end <= length)
        tries.want(status == WHOLE and store.file.read_bytes() == held[:last], f"{length} bytes: repaired with status {status}, {error.strip()!r}")
    return tries.done()


def tails(store, held, frames):
    """What may stand after a whole store: each is told, and every record is listed."""
    tries = Tries("kinds of tail")
    word = held[frames[0][0] + 4 : frames[0][0] + frames[0][1] - 4]
    cut = frame(word)
    kinds = {
        "one zero": bytes(1), "three zeros": bytes(3), "four zeros": bytes(4), "eight zeros": bytes(8), "a page of zeros": bytes(4096),
        "0xff": b"\xff" * 8, "a page of 0xff": b"\xff" * 4096, "a length alone": (7).to_bytes(4, "little"), "a length above the most": (2**32 - 1).to_bytes(4, "little"),
        "half a frame": cut[: len(cut) // 2], "a frame without its last byte": cut[:-1], "a word without a frame": word,
        "a frame of another check": cut[:-1] + bytes([cut[-1] ^ 1]), "a frame of an empty word": frame(b""), "a frame of a longer word": frame(word + b"\0"),
        "text": b"tea 1250\n",
    }
    for name, tail in kinds.items():
        store.with_bytes(held + tail)
        status, text, _ = store.run("check", str(store.file))
        tries.want(status == DAMAGED, f"{name}: status {status}, {text.strip()!r}")
        tries.want(is_listed(store, frames, len(frames)), f"{name}: not all records are listed")
    return tries.done()


def killed(store, held, frames):
    """The program is killed while it appends: what it said is there, and what is left can be repaired."""
    tries = Tries("killed while appending")
    for number in range(20):
        store.with_bytes(b"")
        given = "".join(f"name{i} {i}\n" for i in range(200)).encode()
        tool = subprocess.Popen([store.program, "add", str(store.file), "-"], stdin=subprocess.PIPE, stdout=subprocess.PIPE, stderr=subprocess.DEVNULL)
        tool.stdin.write(given)
        tool.stdin.close()
        time.sleep(0.001 * number)
        tool.send_signal(signal.SIGKILL)
        said = tool.stdout.read().decode(errors="replace").splitlines()
        tool.wait()
        status, text, error = store.run("repair", str(store.file))
        tries.want(status == WHOLE, f"run {number}: repair answered {status}, {error.strip()!r}")
        status, text, _ = store.run("check", str(store.file))
        tries.want(status == WHOLE, f"run {number}: after repair {status}, {text.strip()!r}")
        listed = store.run("list", str(store.file))[1].splitlines()
        there = sum("name" in line for line in listed)
        tries.want(there == 200 if said else there <= 200, f"run {number}: {there} are there, and it said {said}")
    return tries.done()


def locked(store, held, frames):
    """Two that append at once: the second is refused, or both stand whole."""
    tries = Tries("two that append at once")
    for _ in range(20):
        store.with_bytes(b"")
        given = "".join(f"name{i} {i}\n" for i in range(50)).encode()
        tools = [subprocess.Popen([store.program, "add", str(store.file), "-"], stdin=subprocess.PIPE, stdout=subprocess.DEVNULL, stderr=subprocess.DEVNULL) for _ in range(2)]
        statuses = [tool.communicate(given)[0] or tool.returncode for tool in tools]
        status, text, _ = store.run("check", str(store.file))
        tries.want(status == WHOLE and all(it in (WHOLE, DEVICE) for it in statuses), f"statuses {statuses}, then {status}, {text.strip()!r}")
        done = sum(it == WHOLE for it in statuses)
        listed = sum("name" in line for line in store.run("list", str(store.file))[1].splitlines())
        tries.want(listed == 50 * done, f"{done} were done, and {listed} records are listed")
    return tries.done()


def devices(store, held, frames):
    """Files that are none, that may not be read, that have no end, and a full disk."""
    tries = Tries("other files and full disks")
    folder = store.file.parent
    missing = str(folder / "missing")
    for words, wanted in [
        (("list", missing), DEVICE), (("check", missing), DEVICE), (("check", str(folder)), DEVICE), (("add", str(folder), "tea", "1"), DEVICE),
        (("add", "/dev/full", "tea", "1"), DEVICE), (("check", "/dev/zero"), DEVICE), (("add", "/dev/zero", "tea", "1"), DEVICE), (("list", "/dev/zero"), DEVICE),
        ((), USAGE), (("no",), USAGE), (("add",), USAGE), (("add", missing, "tea"), USAGE), (("add", missing, "tea", "x"), USAGE), (("list",), USAGE),
        (("check", "--no", missing), USAGE), (("--help",), WHOLE), (("--version",), WHOLE),
    ]:
        status, text, error = store.run(*words, seconds=20)
        tries.want(status == wanted, f"{words}: status {status}, {error.strip()[:200]!r}")
    pipe = str(folder / "pipe")
    os.mkfifo(pipe)
    for words in (("check", pipe), ("list", pipe), ("add", pipe, "tea", "1"), ("repair", pipe)):
        tries.want(store.run(*words, seconds=5)[0] == DEVICE, f"{words[0]} of a pipe that nobody writes to")
    store.with_bytes(held)
    if os.geteuid():
        store.file.chmod(0)
        tries.want(store.run("check", str(store.file))[0] == DEVICE, "a file without permission")
        store.file.chmod(0o600)
    with open("/dev/full", "wb") as full:
        status, _, error = store.run("list", str(store.file), output=full)
        tries.want(status == DEVICE, f"a full disk for what is printed: status {status}, {error.strip()!r}")
    store.with_bytes(b"")
    store.run("add", str(store.file), "-", given=b"".join(b"name%d %d\n" % (i, i) for i in range(50_000)))
    piped = subprocess.run(f"'{store.program}' list '{store.file}' | head -1", shell=True, stdout=subprocess.PIPE, stderr=subprocess.PIPE)
    tries.want(piped.stdout.count(b"\n") == 1 and not piped.stderr, f"a reader that is gone: {piped.stderr!r}")
    return tries.done()


def full_disk(store, held, frames):
    """A disk without room for all that is added: nothing of it is, and what was there stays."""
    tries = Tries("a small disk")
    disk = store.file.parent / "disk"
    disk.mkdir()
    if subprocess.run(["mount", "-t", "tmpfs", "-o", "size=128k", "tmpfs", str(disk)], stderr=subprocess.DEVNULL).returncode:
        print("  no disk could be mounted: not tried", flush=True)
        return tries.done()
    try:
        file = disk / "store"
        file.write_bytes(held)
        many = b"".join(b"name%d %d\n" % (i, i) for i in range(20_000))
        status, _, error = store.run("add", str(file), "-", given=many)
        tries.want(status == DEVICE and error, f"many: status {status}, {error.strip()!r}")
        tries.want(file.read_bytes() == held, f"many: {file.stat().st_size} bytes are left of {len(held)}")
        status, _, error = store.run("add", str(file), "-", given=b"tea 1\ntea much\n")
        tries.want(status == DEVICE and file.read_bytes() == held, f"a line that is no article: status {status}, {error.strip()!r}")
        status, _, error = store.run("add", str(file), "tea", "1250")
        tries.want(status == WHOLE, f"one more: status {status}, {error.strip()!r}")
    finally:
        subprocess.run(["umount", str(disk)])
    return tries.done()


def orders(store, held, frames):
    """What is said to be done is on the disk before it is said: the bytes, and the names in the folder."""
    tries = Tries("changes on the disk before they are told")
    if not can_be_seen():
        print("  no calls can be seen here: not tried", flush=True)
        return tries.done()
    folder, new, at = store.file.parent, Path(f"{store.file}.repaired"), frames[1][0]
    added = [("write", store.file), ("sync", store.file), ("print", "")]
    named = [("sync", folder), ("print", "")]
    rewritten = [("write", new), ("sync", new), ("move", store.file), ("sync", folder), ("print", "")]
    spoilt = held[: at + 5] + bytes([held[at + 5] ^ 1]) + held[at + 6 :]
    for bytes_held, words, steps in (
        (None, ("add", store.file, "tea", "5"), [added, named]),
        (b"", ("add", store.file, "tea", "5"), [added, named]),
        (held, ("add", store.file, "tea", "5"), [added]),
        (held[:-1], ("repair", store.file), [[("cut", store.file), ("sync", store.file), ("print", "")]]),
        (spoilt, ("repair", "--drop-damaged", store.file), [rewritten]),
    ):
        store.file.unlink(missing_ok=True)
        if bytes_held is not None:
            store.with_bytes(bytes_held)
        changes = changes_of([store.program, *words])
        for wanted in steps:
            tries.want(are_in_order(changes, wanted), f"{words}: {changes}, and not {wanted}")
    return tries.done()


def no_output(store, held, frames):
    """Without a standard output, or without any of the three streams, nothing that is printed goes into the store."""
    tries = Tries("no standard output")
    last = frames[-1][0]
    for closed in ((1,), (0, 1, 2), (0, 1), (2,)):
        for words, bytes_held, left in (
            (("repair", str(store.file)), held, held),
            (("repair", str(store.file)), held[:-1], held[:last]),
            (("check", str(store.file)), held, held),
            (("add", str(store.file), "tea", "5"), held, None),
        ):
            store.with_bytes(bytes_held)
            store.run(*words, before=lambda: [os.close(stream) for stream in closed])
            got = store.file.read_bytes()
            tries.want(got == left if left is not None else got.startswith(held) and len(got) == len(held) + 15, f"{words} without {closed}: {got[-80:]!r}")
            tries.want(store.run("check", str(store.file))[0] == WHOLE, f"{words} without {closed}: it is not whole")
    return tries.done()


def modes(store, held, frames):
    """A repair keeps the permissions of a file, and goes through a link to it."""
    tries = Tries("permissions and links")
    link = store.file.parent / "link"
    for path in (store.file, link):
        store.with_bytes(held[:5] + bytes([held[5] ^ 1]) + held[6:])
        os.chmod(store.file, 0o600)
        link.unlink(missing_ok=True)
        link.symlink_to(store.file)
        status, _, error = store.run("repair", "--drop-damaged", str(path))
        tries.want(status == WHOLE and store.file.read_bytes() == held[frames[1][0] :], f"{path.name}: status {status}, {error!r}")
        tries.want(link.is_symlink() and store.file.stat().st_mode & 0o777 == 0o600, f"{path.name}: its link or its permissions are gone")
    link.unlink()
    return tries.done()


def several(store, held, frames):
    """Each file is dealt with, also after one that is missing."""
    tries = Tries("several files")
    store.with_bytes(held)
    status, text, error = store.run("check", str(store.file) + "-missing", str(store.file))
    tries.want(status == DEVICE and f"{store.file}: whole" in text and "-missing" in error, f"status {status}, {text!r}, {error!r}")
    status, text, _ = store.run("shape")
    tries.want((status, text) == (WHOLE, "(text, u64, u32?, [(text, text)])\n"), f"the shape: {status}, {text!r}")
    store.file.unlink()
    status, text, _ = store.run("add", str(store.file), "-", given=b"tea 5\nsalt 40\n")
    tries.want((status, text) == (WHOLE, f"{store.file}: 2 records added at byte 0\n"), f"lines: {status}, {text!r}")
    return tries.done()


def huge(store, held, frames):
    """A gigabyte of zeros, and one of 0xff."""
    tries = Tries("a gigabyte")
    for name, byte in (("zeros", b"\0"), ("0xff", b"\xff")):
        with store.file.open("wb") as out:
            for _ in range(1024):
                out.write(byte * 2**20)
        begin = time.time()
        status, text, _ = store.run("check", str(store.file), seconds=300)
        most = resource.getrusage(resource.RUSAGE_CHILDREN).ru_maxrss // 1024
        tries.want(status == DAMAGED, f"{name}: status {status}, {text.strip()!r}")
        print(f"  {name}: {time.time() - begin:.1f} s, {most} MiB", flush=True)
    return tries.done()


def main():
    parser = argparse.ArgumentParser(description=__doc__.split("\n")[0])
    parser.add_argument("program")
    parser.add_argument("--huge", action="store_true")
    parser.add_argument("--only", default="")
    given = parser.parse_args()
    program = os.path.realpath(given.program)
    if not os.access(program, os.X_OK):
        print(f"try_store: {program} is no program", file=sys.stderr)
        sys.exit(2)
    wrong = 0
    with tempfile.TemporaryDirectory() as folder:
        store = Store(program, Path(folder))
        held = made(store, 20)
        frames = frames_of(held)
        for group in (flips, prefixes, tails, killed, locked, devices, full_disk, orders, no_output, modes, several, *([huge] if given.huge else [])):
            if given.only in group.__name__:
                wrong += group(store, held, frames)
    sys.exit(1 if wrong else 0)


main()
