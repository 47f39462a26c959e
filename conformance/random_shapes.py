#!/usr/bin/env python3
"""Asks the program `describe` and words.py for random values and hostile bytes of random shapes, and prints where they differ.

    conformance/random_shapes.py PROGRAM [--rows N] [--seed N]

PROGRAM is crates/describe/out/describe, which `rt run` in crates/describe builds. N is 5000 unless it is given; the seed is drawn where none is given,
and printed. run_rows.py asks for each row; those that it passes over are not drawn. Of the rows that differ the first five are made smaller, as long
as a smaller one differs too, and printed with both answers. Status: 0 none differs, 1 some do.
"""
import argparse, json, os, random, sys

sys.dont_write_bytecode = True
from shapes import SCALARS, WIDTHS, parsed
from run_rows import unasked, wrong
from words import Reader, Fault, decode, encode

TEXTS = ["", "a", "\u00e9", "\u20ac", "\U0001f600", "a\0b", "caf\u00e9 \u20ac", "z" * 251, "\"\\\n"]
CODES = [0, 65, 127, 128, 2047, 2048, 55295, 57344, 65535, 65536, 1114111]
MOST_ITEMS = 5000


def draw_shape(draw, depth):
    """The text of a shape, with at most so many shapes around a part."""
    kind = draw.choice(["scalar", "scalar", "scalar", "list", "array", "tuple", "option", "choice"]) if depth else "scalar"
    if kind == "scalar":
        return draw.choice([*SCALARS, "text", "()", "u8", "u16"])
    parts = [draw_shape(draw, depth - 1) for _ in range(draw.choice([2, 2, 3, 5]) if kind in ("tuple", "choice") else 1)]
    if kind == "list":
        return f"[{parts[0]}]"
    if kind == "array":
        return f"[{parts[0]}; {draw.choice([0, 1, 2, 3, 7])}]"
    if kind == "tuple":
        return f"({', '.join(parts)})" if draw.random() < 0.9 else f"({parts[0]},)"
    bracketed = [f"({part})" if "|" in part else part for part in parts]
    return f"{bracketed[0]}?" if kind == "option" else "|".join(bracketed)


def draw_number(draw, name):
    width, is_signed = WIDTHS[name], name[0] == "i"
    edges = [0, 1, 125, 126, 250, 251, 255, 256, 65535, 65536, 2**32 - 1, 2**32, 2**64 - 1, 2**64, 256**width - 1, draw.randrange(256**width)]
    number = draw.choice([edge for edge in edges if edge < 256**width])
    number = number // 2 if is_signed and number % 2 == 0 else -(number + 1) // 2 if is_signed else number
    return number if -2**63 <= number < 2**64 else str(number)


def draw_items(draw, shape, count):
    element = shape.parts[0]
    return {"count": count} if element.has_no_bytes else [draw_value(draw, element) for _ in range(count)]


def draw_value(draw, shape):
    """A value of a shape, as JSON."""
    kind, parts = shape.kind, shape.parts
    if kind in WIDTHS:
        return draw_number(draw, kind)
    if kind == "tuple":
        return [draw_value(draw, part) for part in parts]
    if kind == "option":
        value = draw_value(draw, parts[0])
        return None if draw.random() < 0.3 else {"some": value} if parts[0].kind in ("unit", "option") else value
    if kind == "choice":
        tag = draw.randrange(len(parts))
        return {str(tag): draw_value(draw, parts[tag])}
    others = {"unit": lambda: None, "bool": lambda: draw.random() < 0.5, "char": lambda: chr(draw.choice(CODES)), "text": lambda: draw.choice(TEXTS),
              "list": lambda: draw_items(draw, shape, draw.choice([0, 1, 2, 3, 20])), "array": lambda: draw_items(draw, shape, shape.count)}
    return others[kind]()


def hostile(draw, word):
    """A word with some of its bytes changed, cut off or added."""
    read = bytearray(word)
    for _ in range(draw.choice([1, 1, 1, 2, 4])):
        place = draw.randrange(len(read) + 1)
        change = draw.choice(["set", "set", "flip", "cut", "add", "length"])
        if change == "add":
            read[place:place] = bytes([draw.choice([0, 1, 2, 128, 250, 251, 252, 253, 254, 255])])
        elif change == "length":
            read[place:place + 1] = bytes([253]) + draw.choice([2**64 - 1, 2**60, 2**32, 2**63]).to_bytes(8, draw.choice(["little", "big"]))
        elif change == "cut":
            del read[place:]
        elif place < len(read):
            read[place] = draw.choice([0, 1, 2, 3, 128, 195, 251, 252, 253, 254, 255]) if change == "set" else read[place] ^ 1 << draw.randrange(8)
    return bytes(read)


class Counting(Reader):
    """A reader that knows the greatest count of elements without bytes."""
    most = 0

    def items(self, element, count):
        self.most = max(self.most, count if element.has_no_bytes else 0)
        return super().items(element, count)


def most_items(shape, read, how):
    reader = Counting(read, how.get("order", "little"), how.get("integers", "varint"), None)
    try:
        reader.value(shape)
    except Fault:
        pass
    return reader.most


def item_count(value):
    """How many values there are in one."""
    if isinstance(value, dict) and "count" in value:
        return value["count"]
    inner = value.values() if isinstance(value, dict) else value if isinstance(value, list) else []
    return 1 + sum(map(item_count, inner))


def answered(row):
    """The row with the answer of words.py, or None where run_rows.py passes it over, or the answer would take much memory."""
    asked = {name: row[name] for name in ("family", "label", "shape", "order", "integers", "input", "word") if name in row}
    how = {name: row[name] for name in ("order", "integers") if name in row}
    shape = parsed(row["shape"])
    if "input" in row:
        read = bytes.fromhex(row["input"])
        answer = decode(shape, read, **how)
        is_large = most_items(shape, read, how) > MOST_ITEMS or item_count(answer.get("value")) > MOST_ITEMS
        found = {**asked, **answer}
        return None if is_large or unasked(found) else found
    found = {**asked, "value": row["value"], "word": b"".join(encode(shape, row["value"], **how)).hex()}
    return None if unasked(found) else found


def draw_how(draw):
    how = {"order": "big"} if draw.random() < 0.3 else {}
    return {**how, "integers": "fixint"} if draw.random() < 0.3 else how


def draw_rows(draw, text):
    """Some rows of a shape: a value and its word, and what is read of that word and of hostile ones."""
    shape, how = parsed(text), draw_how(draw)
    value = draw_value(draw, shape)
    word = b"".join(encode(shape, value, **how))
    common = {"family": "random", "label": "", "shape": text, **how}
    yield {**common, "value": value}
    for read in [word + b"\7"] + [hostile(draw, word) for _ in range(3)] + [bytes(draw.randrange(256) for _ in range(draw.randrange(9)))]:
        yield {**common, "input": read.hex()}


def smaller_shapes(text):
    """Parts of a shape's text, and the text with a part that became a byte, or nothing. Most are no shapes."""
    for start in range(len(text)):
        for end in range(start + 1, len(text) + 1):
            part = text[start:end]
            yield part
            if part not in ("u8", "()") and part.count("(") == part.count(")"):
                yield f"{text[:start]}u8{text[end:]}"
                yield f"{text[:start]}(){text[end:]}"


def smaller(row):
    """Rows that ask for less: a shorter input, the usual setting, and a smaller shape."""
    read, size = bytes.fromhex(row.get("input", "")), len(row.get("input", "")) // 2
    while size:
        yield from ({**row, "input": (read[:place] + read[place + size:]).hex()} for place in range(0, len(read), size))
        size //= 2
    for name in "order", "integers":
        if name in row:
            yield {other: row[other] for other in row if other != name}
    for shape in set(smaller_shapes(row["shape"])) - {row["shape"]}:
        yield {**row, "shape": shape}


def smaller_rows(row):
    """Those that can be asked, with their answers."""
    found = []
    for one in smaller(row):
        try:
            found.append(answered(one))
        except Exception:
            continue
    return [one for one in found if one]


def minimised(row, program):
    """The smallest row that was found to differ, by going to smaller ones as long as there is one."""
    for _ in range(50):
        differing = [one for one in smaller_rows(row) if wrong(program, one)]
        best = min(differing, key=lambda one: len(json.dumps(one)), default=row)
        if len(json.dumps(best)) >= len(json.dumps(row)):
            break
        row = best
    return row


def counted(rows):
    """How many rows have which answer."""
    counts = {}
    for row in rows:
        answer = row["fault"]["name"] if "fault" in row else "a value" if "input" in row else "a word"
        counts[answer] = counts.get(answer, 0) + 1
    return ", ".join(f"{name} {count}" for name, count in sorted(counts.items()))


def main():
    parser = argparse.ArgumentParser(description=__doc__, formatter_class=argparse.RawDescriptionHelpFormatter)
    parser.add_argument("program", metavar="PROGRAM")
    parser.add_argument("--rows", type=int, default=5000)
    parser.add_argument("--seed", type=int, default=random.randrange(2**32))
    options = parser.parse_args()
    draw, rows = random.Random(options.seed), []
    while len(rows) < options.rows:
        text = draw_shape(draw, draw.choice([0, 1, 2, 3]))
        rows += [row for row in map(answered, draw_rows(draw, text)) if row]
    print(f"seed {options.seed}, shapes {len({row['shape'] for row in rows})}, rows {len(rows)}: {counted(rows)}", flush=True)
    program = os.path.abspath(options.program)
    differing = [row for row in rows if wrong(program, row)]
    for row in differing[:5]:
        row = minimised(row, program)
        print(f"{json.dumps(row, ensure_ascii=False)}: {wrong(program, row)}")
    print(f"rows {len(rows)} differ {len(differing)}")
    return 1 if differing else 0


if __name__ == "__main__":
    sys.exit(main())
