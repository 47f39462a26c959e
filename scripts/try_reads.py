#!/usr/bin/env python3
"""Tries `describe --reads` on random pairs of small shapes, against the reading in Python of conformance/words.py.

    scripts/try_reads.py PROGRAM [--pairs N] [--seed N]

PROGRAM is the built program (crates/describe/out/describe). It is run once, with all pairs on its standard input. For each pair and each of the four settings:

  yes   each word of OLD that is tried is read by NEW as the same: short strings of bytes, and encodings that are drawn by docs/FORMAT.md
  no    the rules of docs/SHAPES.md, section 4, written anew below, say no too; bytes that are shown are a word of OLD, and not one of NEW with that meaning; and at the
        place that is named stand the shapes that are named
  no, without bytes: counted, and those of which a word that was tried shows a difference

The status is 1 if any answer is wrong, and 2 if the program could not be run.
"""
import argparse, itertools, os, random, re, subprocess, sys

ROOT = os.path.dirname(os.path.dirname(os.path.abspath(__file__)))
sys.path.insert(0, f"{ROOT}/conformance")
from shapes import SCALARS, WIDTHS, parsed  # noqa: E402
from words import BYTES_AFTER, decode  # noqa: E402

SETTINGS = [("varint", "little"), ("varint", "big"), ("fixint", "little"), ("fixint", "big")]
HEADS = {("varint", "little"): "variable  little endian", ("varint", "big"): "variable  big endian   ",
         ("fixint", "little"): "fixed     little endian", ("fixint", "big"): "fixed     big endian   "}
NAMES = [*SCALARS, "text"]
SHORT = [bytes(some) for count in range(3) for some in itertools.product([0, 1, 2, 3, 97, 128, 195, 250, 251, 252, 255], repeat=count)]
NUMBERS = [0, 1, 2, 250, 251, 255, 256, 2**16 - 1, 2**16, 2**32 - 1, 2**32, 2**64 - 1, 2**64, 2**128 - 1]
STEP = r"(?:element|value|(?:part|variant) \d+)"
EVERY = "every file of OLD is read by NEW"


# Shapes as they are drawn: a name, or a kind and its parts.

def drawn(rng, depth):
    kind = rng.choice(["name"] * 4 + (["unit", "list", "array", "tuple", "option", "choice"] if depth else []))
    if kind == "name":
        return rng.choice(NAMES)
    if kind == "unit":
        return (kind,)
    if kind == "array":
        return (kind, rng.choice([0, 1, 2, 2, 3]), drawn(rng, depth - 1))
    count = {"list": 1, "option": 1}.get(kind) or rng.randint(1, 3)
    return (kind, *(drawn(rng, depth - 1) for _ in range(count)))


def changed(rng, shape, depth):
    """A shape that is like this one, maybe but for one part."""
    if rng.random() < 0.15:
        return drawn(rng, depth)
    if isinstance(shape, str):
        kin = [name for name in NAMES if name[0] == shape[0] and name in WIDTHS] if shape in WIDTHS else [shape]
        return rng.choice(kin + [shape])
    kind, *parts = shape
    if kind == "array":
        if rng.random() < 0.2:
            return ("tuple", *[parts[1]] * parts[0]) if parts[0] else ("unit",)
        return (kind, parts[0] + (rng.random() < 0.1), changed(rng, parts[1], depth - 1))
    if kind == "tuple" and rng.random() < 0.2:
        return ("array", len(parts), parts[0])
    if kind == "option" and rng.random() < 0.3:
        return ("choice", ("unit",), parts[0], *[drawn(rng, 0)] * rng.randint(0, 1))
    if kind == "unit":
        return rng.choice([shape, ("array", 0, drawn(rng, 0))])
    at = rng.randrange(len(parts))
    parts[at] = changed(rng, parts[at], depth - 1)
    if kind in ("tuple", "choice"):
        act = rng.choice(["none"] * 6 + ["more", "more", "less", "turn"])
        if act == "more":
            parts.append(drawn(rng, 1))
        elif act == "less" and len(parts) > 1:
            parts.pop()
        elif act == "turn":
            parts.reverse()
    return (kind, *parts)


def text_of(shape, is_part=False):
    if isinstance(shape, str):
        return shape
    kind, *parts = shape
    if kind == "unit":
        return "()"
    if kind == "list":
        return f"[{text_of(parts[0])}]"
    if kind == "array":
        return f"[{text_of(parts[1])}; {parts[0]}]"
    if kind == "tuple":
        return f"({', '.join(map(text_of, parts))}{',' if len(parts) < 2 else ''})"
    if kind == "option":
        return text_of(parts[0], True) + "?"
    bars = ("|" if len(parts) < 2 else "") + "|".join(text_of(part, True) for part in parts)
    return f"({bars})" if is_part else bars


# The rules of docs/SHAPES.md, section 4. Each shape that has a text has encodings.

def is_nothing(shape):
    return shape.kind == "unit" or shape.kind == "array" and shape.count == 0


def row_of(shape):
    """The parts of a row whose length is known."""
    if shape.kind == "array":
        return list(shape.parts) * shape.count
    return list(shape.parts) if shape.kind == "tuple" else None


def allows(new, old, integers):
    if is_nothing(old):
        return is_nothing(new)
    if old.kind in WIDTHS:
        if WIDTHS[old.kind] == 1:
            return new.kind == old.kind
        is_alike = new.kind in WIDTHS and new.kind[0] == old.kind[0] and WIDTHS[new.kind] > 1
        wider = is_alike and WIDTHS[new.kind] >= WIDTHS[old.kind]
        return wider if integers == "varint" else is_alike and WIDTHS[new.kind] == WIDTHS[old.kind]
    if old.kind in ("bool", "char", "text"):
        return new.kind == old.kind
    if old.kind == "list":
        return new.kind == "list" and allows(new.parts[0], old.parts[0], integers)
    if old.kind in ("array", "tuple"):
        before, after = row_of(old), row_of(new)
        return after is not None and len(after) == len(before) and all(allows(n, o, integers) for n, o in zip(after, before))
    if old.kind == "option":
        if new.kind == "option":
            return allows(new.parts[0], old.parts[0], integers)
        return integers == "varint" and new.kind == "choice" and len(new.parts) > 1 and is_nothing(new.parts[0]) \
            and allows(new.parts[1], old.parts[0], integers)
    return new.kind == "choice" and len(new.parts) >= len(old.parts) and all(allows(n, o, integers) for n, o in zip(new.parts, old.parts))


# Words of a shape, by section 4: also by spellings that are longer than needed.

def number_word(rng, value, width, setting):
    integers, order = setting
    if width == 1 or integers == "fixint":
        return value.to_bytes(width, order)
    ways = [bytes([value])] if value < 251 else []
    ways += [bytes([first]) + value.to_bytes(count, order) for first, count in BYTES_AFTER.items() if count <= width and value < 256**count]
    return rng.choice(ways)


def word_of(rng, shape, setting):
    if shape.kind in WIDTHS:
        return number_word(rng, rng.choice(NUMBERS) % 256**WIDTHS[shape.kind], WIDTHS[shape.kind], setting)
    if shape.kind == "unit":
        return b""
    if shape.kind == "bool":
        return rng.choice([b"\0", b"\1"])
    if shape.kind == "char":
        return rng.choice(["a", "\0", "é", "€", "😀"]).encode()
    if shape.kind == "text":
        text = rng.choice(["", "a", "é", "\0", "\1a"]).encode()
        return number_word(rng, len(text), 8, setting) + text
    if shape.kind == "list":
        count = rng.randint(0, 2)
        return number_word(rng, count, 8, setting) + b"".join(word_of(rng, shape.parts[0], setting) for _ in range(count))
    if shape.kind in ("array", "tuple"):
        return b"".join(word_of(rng, part, setting) for part in row_of(shape))
    if shape.kind == "option":
        return rng.choice([b"\0", b"\1" + word_of(rng, shape.parts[0], setting)])
    tag = rng.randrange(len(shape.parts))
    return number_word(rng, tag, 4, setting) + word_of(rng, shape.parts[tag], setting)


# What a value means, whatever its shape.

NOTHING = ("row",)


def meaning(shape, value):
    if shape.kind in WIDTHS:
        return ("number", int(value))
    if shape.kind in ("bool", "char", "text"):
        return (shape.kind, value)
    if shape.kind == "unit":
        return NOTHING
    if shape.kind == "option":
        if value is None:
            return ("choice", 0, NOTHING)
        part = shape.parts[0]
        return ("choice", 1, meaning(part, value["some"] if part.kind in ("unit", "option") else value))
    if shape.kind == "choice":
        (tag, part), = value.items()
        return ("choice", int(tag), meaning(shape.parts[int(tag)], part))
    if isinstance(value, dict):
        element = value_of_nothing(shape.parts[0])
        return ("row", *[element] * value["count"]) if value["count"] < 100 else ("rows", value["count"], element)
    parts = shape.parts if shape.kind == "tuple" else [shape.parts[0]] * len(value)
    return ("row", *map(meaning, parts, value))


def value_of_nothing(shape):
    """What a shape without bytes means."""
    return meaning(shape, decode(shape, b"")["value"])


def read_whole(shape, word, setting):
    """What all of these bytes mean, or None if they are no word of the shape."""
    integers, order = setting
    told = decode(shape, word, order=order, integers=integers)
    return meaning(shape, told["value"]) if told.get("taken") == len(word) else None


def words_of(rng, shape, setting):
    """Short words of a shape, with what they mean."""
    drawn_words = {word_of(rng, shape, setting) for _ in range(24)}
    for word in [*drawn_words, *SHORT]:
        means = read_whole(shape, word, setting)
        if word in drawn_words and means is None:
            raise AssertionError(f"{word.hex()} is drawn as a word, and is none")
        if means is not None:
            yield word, means


def shows(new, old, word, setting):
    means = read_whole(old, word, setting)
    return means is not None and read_whole(new, word, setting) != means


def at_place(shape, place):
    """The text of what stands at a place that was named."""
    for step in filter(None, place.split(", ")):
        name, *number = step.split(" ")
        if name == "element" and shape[0] in ("list", "array"):
            shape = shape[-1]
        elif name == "value" and shape[0] == "option":
            shape = shape[1]
        elif name == {"tuple": "part", "choice": "variant"}.get(shape[0]):
            if int(number[0]) + 1 >= len(shape):
                return "missing"
            shape = shape[int(number[0]) + 1]
        else:
            return f"nothing: {shape[0]} has no {step}"
    return text_of(shape)


class Tries:
    def __init__(self, rng):
        self.rng, self.yes, self.shown, self.unshown, self.words, self.wrong, self.missed, self.open = rng, 0, 0, 0, 0, 0, [], []

    def want(self, holds, what):
        if not holds:
            self.wrong += 1
            if self.wrong <= 10:
                print(f"  wrong: {what}", flush=True)

    def try_place(self, side, shape, line, what):
        match = re.fullmatch(rf"  {side}    (?:({STEP}(?:, {STEP})*): )?(.*)", line)
        wanted = at_place(shape, match[1] or "") if match else "no line"
        told = match and match[2]
        if len(wanted) > 60:
            wanted = f"{wanted[:60]} .."
            told = told.split(": ", 1)[-1]
        self.want(told == wanted, f"{what}: {line!r} names {wanted!r}")

    def try_setting(self, setting, new, old, answer, reason, what):
        new_shape, old_shape = parsed(text_of(new)), parsed(text_of(old))
        wanted = "yes" if allows(new_shape, old_shape, setting[0]) else "no"
        self.want(answer == wanted, f"{what}: {answer}, where the rules say {wanted}")
        if answer == "yes":
            self.yes += 1
            for word, means in words_of(self.rng, old_shape, setting):
                self.words += 1
                self.want(read_whole(new_shape, word, setting) == means, f"{what}: {word.hex()} is not read as the same")
            return
        told, *lines = reason
        is_shown = told == "NEW does not read these bytes of OLD as the same"
        if is_shown:
            digits = lines.pop(0).removeprefix("  bytes  ")
            word = b"" if digits == "none at all" else bytes.fromhex(digits)
            self.shown += 1
            self.want(shows(new_shape, old_shape, word, setting), f"{what}: {word.hex()} shows nothing")
        else:
            self.want(told == "the rules do not allow it; no bytes that show it were found", f"{what}: {told}")
            self.unshown += 1
            found = [word for word, means in words_of(self.rng, old_shape, setting) if read_whole(new_shape, word, setting) != means]
            (self.missed if found else self.open).append(what + (f" ({found[0].hex()})" if found else ""))
        self.want(len(lines) == 2, f"{what}: {lines}")
        for side, shape, line in zip(["OLD", "NEW"], [old, new], lines):
            self.try_place(side, shape, line, what)

    def try_pair(self, new, old, block):
        what = f"NEW {text_of(new)} OLD {text_of(old)}"
        table, *reasons = "\n".join(block).split("\n\n")
        lines = table.split("\n")
        answers = {setting: line.removeprefix(HEADS[setting] + "  ") for setting, line in zip(SETTINGS, lines)}
        are_read = all(answer == "yes" for answer in answers.values())
        self.want(lines[4:] == ([EVERY] if are_read else []), f"{what}: {lines}")
        of_head = {reason[:23]: reason[25:].split("\n") for reason in reasons}
        unread = [HEADS[setting] for setting, answer in answers.items() if answer != "yes"]
        self.want(list(of_head) == unread, f"{what}: reasons of {list(of_head)}, where {unread} are not read")
        for setting, answer in answers.items():
            self.try_setting(setting, new, old, answer, of_head.get(HEADS[setting], [""]), f"{what}, {HEADS[setting]}")
        return are_read


def main():
    parser = argparse.ArgumentParser(description=__doc__, formatter_class=argparse.RawDescriptionHelpFormatter)
    parser.add_argument("program")
    parser.add_argument("--pairs", type=int, default=3000)
    parser.add_argument("--seed", type=int, default=random.randrange(2**32))
    asked = parser.parse_args()
    print(f"seed {asked.seed}", flush=True)
    rng = random.Random(asked.seed)
    olds = [drawn(rng, 3) for _ in range(asked.pairs)]
    pairs = [(changed(rng, old, 3), old) for old in olds]
    given = "".join(f"{text_of(new)}\n{text_of(old)}\n" for new, old in pairs)
    try:
        ran = subprocess.run([*asked.program.split(), "--reads", "-"], input=given, stdout=subprocess.PIPE, text=True)
    except OSError as error:
        print(error)
        sys.exit(2)
    blocks = []
    for line in ran.stdout.splitlines():
        if re.fullmatch(r"lines \d+ and \d+", line):
            blocks.append([])
        elif blocks:
            blocks[-1].append(line)
    tries = Tries(rng)
    tries.want(len(blocks) == len(pairs), f"{len(blocks)} answers to {len(pairs)} pairs")
    are_read = [tries.try_pair(new, old, block) for (new, old), block in zip(pairs, blocks)]
    tries.want(ran.returncode == (0 if all(are_read) else 1), f"status {ran.returncode}")
    print(f"{len(pairs)} pairs in 4 settings, {sum(are_read)} read in all: {tries.yes} yes, of which {tries.words} words were tried; {tries.shown} no with bytes; "
          f"{tries.unshown} no without, of which {len(tries.missed)} have a word that shows it")
    for title, cases in [("no bytes were shown, though a word shows it", tries.missed), ("no bytes were shown, and none of those tried shows it", tries.open)]:
        for case in cases[:20]:
            print(f"  {title}: {case}")
    print(f"{tries.wrong} wrong")
    sys.exit(1 if tries.wrong else 0)


main()
