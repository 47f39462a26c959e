#!/usr/bin/env python3
"""Runs the rows of rows.json by shapes.py and words.py, which were written from docs/FORMAT.md alone, but for the texts
and the JSON of docs/SHAPES.md.

    conformance/check.py [ROWS]        conformance/rows.json unless another file is named

Prints each row that differs, then a line for each family with its counts. Status: 0 all rows hold, 1 some do not. Of a row:

    family, label                       where it belongs
    shape, type                         what is read or written: the text of a shape, the name of a type, or both, which then have to agree
    order, integers, limit, stream      how: little, varint, without a limit, from a slice, unless it says otherwise
    input, value, taken                 these bytes, in hex, begin with an encoding of that value, of so many bytes
    input, fault                        these bytes are refused by this fault
    value, word                         the value is written as these bytes, and read back from them
    value, written                      the value is written as these bytes
    value, slice, left, error, text     the value is written into a slice with these bytes, with this error; those are left then
"""
import json, os, sys

sys.dont_write_bytecode = True
from shapes import parsed
from words import Unfit, decode, encode, write_into

PATH = os.path.join(os.path.dirname(os.path.abspath(__file__)), "rows.json")
HOW = ("order", "integers", "limit", "stream")
ANSWER = ("value", "taken", "fault")
NAMES = {"family", "label", "shape", "type", *HOW, "input", *ANSWER, "word", "written", "slice", "left", "error", "text"}


def answers(row, shape):
    """Pairs of what a row wants and what is found, for one of its shapes."""
    how = {name: row[name] for name in HOW if name in row}
    if "input" in row:
        yield {name: row[name] for name in ANSWER if name in row}, decode(shape, bytes.fromhex(row["input"]), **how)
    elif "slice" in row:
        wanted = {name: row[name] for name in ("left", "error", "text") if name in row}
        yield wanted, write_into(bytes.fromhex(row["slice"]), shape, row["value"], **how)
    else:
        word = bytes.fromhex(row["word"] if "word" in row else row["written"])
        yield word.hex(), b"".join(encode(shape, row["value"], **how)).hex()
        if "word" in row:
            yield {"value": row["value"], "taken": len(word)}, decode(shape, word, **how)


def wrong(row):
    """A line for each answer of a row that differs."""
    try:
        if unknown := row.keys() - NAMES:
            return [f"it has {unknown}"]
        shapes = [parsed(row[name]) for name in ("shape", "type") if name in row]
        pairs = [pair for shape in shapes for pair in answers(row, shape)]
    except (ValueError, KeyError, TypeError, IndexError, AttributeError, Unfit) as why:
        return [f"it can't be run: {why!r}"]
    if not pairs:
        return ["it says nothing"]
    return [f"wanted {wanted}, found {found}" for wanted, found in pairs if json.dumps(wanted, sort_keys=True) != json.dumps(found, sort_keys=True)]


def main():
    with open(sys.argv[1] if len(sys.argv) > 1 else PATH, encoding="utf-8") as file:
        rows = json.load(file)
    counts = {}
    for row in rows:
        lines = wrong(row)
        total, failed = counts.get(row["family"], (0, 0))
        counts[row["family"]] = total + 1, failed + bool(lines)
        for line in lines:
            print(f"{row['family']}: {row['label']}: {line}")
    for family, (total, failed) in counts.items():
        print(f"{family}: rows {total} failed {failed}")
    failed = sum(failed for _, failed in counts.values())
    print(f"rows {len(rows)} failed {failed}")
    return 1 if failed else 0


if __name__ == "__main__":
    sys.exit(main())
