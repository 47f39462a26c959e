#!/usr/bin/env python3
"""Changes rows of rows.json, one thing in each, and wants check.py to report each of them, and run_rows.py each that it runs.

    conformance/try_changed_rows.py [PROGRAM] [--rows N] [--seed N]

PROGRAM is crates/describe/out/describe, which `rt run` in crates/describe builds; without it check.py alone is asked. N is 1000 unless it is given. What a row answers is changed, and not what it asks: a value that is read, a count, a field of a fault, a bit of a word or of what
is left in a slice, the name of an error. Each change that is not told is printed. Status: 0 all are told, 1 some are not.
"""
import argparse, copy, json, random, sys

sys.dont_write_bytecode = True
import check, run_rows

IN_HEX = ("word", "written", "left")
ANSWERS = (*IN_HEX, "taken", "fault", "error", "text")


def places(value, path=()):
    """The paths to all that has no parts."""
    inner = value.items() if isinstance(value, dict) else enumerate(value) if isinstance(value, list) else ()
    found = [place for name, part in inner for place in places(part, (*path, name))]
    return found or [path]


def other(draw, value, is_hex):
    if is_hex:
        read = bytearray.fromhex(value)
        if not read:
            return "00"
        read[draw.randrange(len(read))] ^= 1 << draw.randrange(8)
        return read.hex()
    if isinstance(value, bool):
        return not value
    if isinstance(value, int):
        return value + draw.choice([-1, 1])
    if isinstance(value, float):
        return draw.choice([-value, value + 1 if abs(value) < 2**20 else 0.0])
    if isinstance(value, str):
        return value + "x"
    return 7 if value is None else [0]


def changed(draw, row):
    """A row with another answer, and what was changed. A value that is written alone is what the row asks."""
    row = copy.deepcopy(row)
    answers = ANSWERS if "slice" in row or "written" in row else (*ANSWERS, "value")
    path = draw.choice([place for place in places(row) if place[0] in answers])
    held = row
    for name in path[:-1]:
        held = held[name]
    before = held[path[-1]]
    held[path[-1]] = other(draw, before, path[0] in IN_HEX)
    return row, f"{'.'.join(map(str, path))}: {json.dumps(before)} became {json.dumps(held[path[-1]])}"


def silent(row, program):
    """Which of them does not tell a row. The program tells how many bytes are missing of no input that ends too early."""
    if not check.wrong(row):
        yield "check.py"
    if program and run_rows.wrong(program, row) == [] and row.get("fault", {}).get("name") != "UnexpectedEnd":
        yield "run_rows.py"


def main():
    parser = argparse.ArgumentParser(description=__doc__, formatter_class=argparse.RawDescriptionHelpFormatter)
    parser.add_argument("program", nargs="?", metavar="PROGRAM")
    parser.add_argument("--rows", type=int, default=1000)
    parser.add_argument("--seed", type=int, default=random.randrange(2**32))
    options = parser.parse_args()
    draw, passed = random.Random(options.seed), 0
    with open(check.PATH, encoding="utf-8") as file:
        rows = json.load(file)
    tried = [changed(draw, draw.choice(rows)) for _ in range(options.rows)]
    for row, change in tried:
        names = list(silent(row, options.program))
        passed += bool(names)
        for name in names:
            print(f"{row['family']}: {row['label']}: {change}: not told by {name}")
    print(f"seed {options.seed}, rows {options.rows} not told {passed}")
    return 1 if passed else 0


if __name__ == "__main__":
    sys.exit(main())
