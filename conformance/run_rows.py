#!/usr/bin/env python3
"""Runs the rows of rows.json that decode through the program `describe`, which reads encodings by a shape.

    conformance/run_rows.py PROGRAM [ROWS]        conformance/rows.json unless another file is named

PROGRAM is crates/describe/out/describe, which `rt run` in crates/describe builds. A row runs if it has a shape and some bytes: an input, with the value
and the count of bytes that are to be read of it or the fault, or a word, with the value that is to be read back. Its order and integers are options of
the program. What the program has no words for is passed over and counted: a type without a shape, a limit, a stream, a value that is only written, an
encoding without bytes (no count of them is known), and an input without any (there is no value in it). Of an input that ends too early it does not
tell how many bytes are missing.

Prints each row that differs, then how many were run, failed and were passed over, by the reason. Status: 0 all that ran hold, 1 some do not.
"""
import json, os, subprocess, sys, tempfile

sys.dont_write_bytecode = True
PATH = os.path.join(os.path.dirname(os.path.abspath(__file__)), "rows.json")
OPTIONS = {"order": {"little": [], "big": ["--big-endian"]}, "integers": {"varint": [], "fixint": ["--fixed"]}}
SECONDS = 20


def unasked(row):
    """Why the program can't be asked for a row, or None."""
    if "shape" not in row:
        return "a type without a shape"
    if "limit" in row:
        return "a limit"
    if row.get("stream"):
        return "a stream"
    if "input" not in row and "word" not in row:
        return "a value that is only written"
    if "fault" not in row and not row.get("taken", len(row.get("word", ""))):
        return "an encoding without bytes"
    if not row.get("input", row.get("word")):
        return "an input without bytes"
    return None


def described(program, row, read):
    """The status of the program, its lines, and what it says on the standard error."""
    words = [word for name, words in OPTIONS.items() if name in row for word in words[row[name]]]
    with tempfile.NamedTemporaryFile() as file:
        file.write(read)
        file.flush()
        done = subprocess.run([program, "--limit", "none", *words, row["shape"], file.name], capture_output=True, timeout=SECONDS)
    return done.returncode, done.stdout.decode().splitlines(), done.stderr.decode()


def shown(fault):
    """The parts of the text of a fault: its name, then its fields."""
    yield fault["name"]
    for name, field in fault.items():
        if name != "name":
            yield f"({field})" if name in ("byte", "bytes") else f"{name}: {field}"


def wrong_fault(fault, status, lines, said):
    """A line, if the program does not refuse the first bytes by this fault."""
    if status != 1 or lines:
        return [f"wanted {fault}, found {lines[:1]}, status {status}: {said.strip()}"]
    if fault["name"] == "UnexpectedEnd":
        is_told = "truncated at byte 0: " in said
    else:
        is_told = " at byte 0: " in said and all(part in said for part in shown(fault))
    return [] if is_told else [f"wanted {fault}, found {said.strip()}"]


def wrong_value(row, read, status, lines, said):
    """A line, if the program does not read this value of the first bytes; all of them, if it has them all."""
    taken = row.get("taken", len(read))
    wanted = {"offset": 0, "length": taken, "value": row["value"]}
    found = json.loads(lines[0]) if lines else said.strip()
    if json.dumps(found, sort_keys=True) != json.dumps(wanted, sort_keys=True):
        return [f"wanted {wanted}, found {found}"]
    if taken == len(read) and (status, len(lines), said) != (0, 1, ""):
        return [f"wanted one value, found {len(lines)}, status {status}: {said.strip()}"]
    return []


def wrong(program, row):
    """A line for each answer of a row that differs; None if the program can't be asked."""
    if unasked(row):
        return None
    read = bytes.fromhex(row["input"] if "input" in row else row["word"])
    answer = described(program, row, read)
    return wrong_fault(row["fault"], *answer) if "fault" in row else wrong_value(row, read, *answer)


def main():
    if len(sys.argv) not in (2, 3):
        sys.exit(__doc__)
    program = os.path.abspath(sys.argv[1])
    with open(sys.argv[2] if len(sys.argv) > 2 else PATH, encoding="utf-8") as file:
        rows = json.load(file)
    failed, passed_over = 0, {}
    for row in rows:
        lines = wrong(program, row)
        if lines is None:
            passed_over[unasked(row)] = passed_over.get(unasked(row), 0) + 1
        for line in lines or []:
            print(f"{row['family']}: {row['label']}: {line}")
        failed += bool(lines)
    for reason, count in sorted(passed_over.items()):
        print(f"passed over {count}: {reason}")
    print(f"rows {len(rows)} run {len(rows) - sum(passed_over.values())} failed {failed}")
    return 1 if failed else 0


if __name__ == "__main__":
    sys.exit(main())
