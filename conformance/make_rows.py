#!/usr/bin/env python3
"""Writes the rows of rows.json, family by family, by the rules of docs/FORMAT.md.

    conformance/make_rows.py           rewrites conformance/rows.json

The rows of the family `worked` were worked by hand: they stand in that file alone, and are kept as they are. The others are written here with
their answers: words are put together by the rules of sections 3 to 5, and least limits, faults and their fields stand as literals or follow from a
sum. Nothing here reads a word: that is what check.py and the library do.
"""
import json, os

PATH = os.path.join(os.path.dirname(os.path.abspath(__file__)), "rows.json")
UNSIGNED = {"u8": 1, "u16": 2, "u32": 4, "u64": 8, "usize": 8, "u128": 16}
SIGNED = {"i8": 1, "i16": 2, "i32": 4, "i64": 8, "isize": 8, "i128": 16}
STANDARD, BIG, FIXED, BIG_FIXED = {}, {"order": "big"}, {"integers": "fixint"}, {"order": "big", "integers": "fixint"}
SETTINGS = {"little varint": STANDARD, "big varint": BIG, "little fixint": FIXED, "big fixint": BIG_FIXED}
MOST = 2**64 - 1
rows = []


def row(family, label, shape, how, **rest):
    """A row of a shape, or of a type where the name begins with `type `; of both where it has both, as `[u8; 4] = Ipv4Addr`."""
    shape, _, of_type = shape.partition(" = ")
    names = {"type": shape[5:]} if shape.startswith("type ") else {"shape": shape, **({"type": of_type} if of_type else {})}
    rows.append({"family": family, "label": label, **names, **how, **rest})


def written(family, label, shape, value, word, how=STANDARD):
    row(family, label, shape, how, value=as_json(value), word=word.hex())


def read(family, label, shape, word, value, how=STANDARD, taken=None):
    row(family, label, shape, how, input=word.hex(), value=as_json(value), taken=len(word) if taken is None else taken)


def refused(family, label, shape, read_bytes, how=STANDARD, **fault):
    row(family, label, shape, how, input=read_bytes.hex(), fault=fault)


def as_json(value):
    """A number that 64 bits don't hold is a text."""
    if type(value) is int and not -2**63 <= value <= MOST:
        return str(value)
    return [as_json(item) for item in value] if isinstance(value, (list, tuple)) else value


def digits(number, width, how=STANDARD):
    """The digits of section 3."""
    lowest_first = [number // 256**place % 256 for place in range(width)]
    return bytes(lowest_first if how.get("order") != "big" else reversed(lowest_first))


def unsigned(number, width, how=STANDARD):
    """The word of a number of this width: section 4."""
    if width == 1 or how.get("integers") == "fixint":
        return digits(number, width, how)
    if number <= 250:
        return bytes([number])
    first, count = (251, 2) if number < 2**16 else (252, 4) if number < 2**32 else (253, 8) if number < 2**64 else (254, 16)
    return bytes([first]) + digits(number, count, how)


def signed(number, width, how=STANDARD):
    if width == 1 or how.get("integers") == "fixint":
        return digits(number % 256**width, width, how)
    return unsigned(2 * number if number >= 0 else -2 * number - 1, width, how)


def length(count, how=STANDARD):
    return unsigned(count, 8, how)


def tag(number, how=STANDARD):
    return unsigned(number, 4, how)


def text(content, how=STANDARD):
    return length(len(content.encode()), how) + content.encode()


def of_bytes(*numbers):
    return bytes(numbers)


def of_unsigned():
    edges = [0, 250, 251, 255, 2**16 - 1, 2**16, 2**32 - 1, 2**32, 2**64 - 1, 2**64, 2**128 - 1]
    for name, width in UNSIGNED.items():
        for number in edges:
            if number < 256**width and (number != 255 or width == 1):
                written("unsigned", f"{name} {number}", name, number, unsigned(number, width))
        distinct = int.from_bytes(bytes(range(1, width + 1)), "big")
        for setting, how in SETTINGS.items():
            if how:
                written("unsigned", f"{name} {distinct}, {setting}", name, distinct, unsigned(distinct, width, how), how)


def of_signed():
    for name, width in SIGNED.items():
        least, most = -(256**width // 2), 256**width // 2 - 1
        for number in sorted({0, -1, 1, 125, -125, -126, 126, least, most}):
            written("signed", f"{name} {number}", name, number, signed(number, width))
        for setting, how in SETTINGS.items():
            number = -300 if width > 1 else -3
            if how:
                written("signed", f"{name} {number}, {setting}", name, number, signed(number, width, how), how)


def of_first_bytes():
    """First bytes that a type does not accept, also where more bytes follow, and under each byte order."""
    for names, kind in (UNSIGNED, "U"), (SIGNED, "I"):
        for name, width in names.items():
            for first, count in (252, 4), (253, 8), (254, 16), (255, None):
                if width > 1 and (count is None or count > width):
                    found = "Reserved" if count is None else f"{kind}{8 * count}"
                    refused("first bytes", f"{name} {first}", name, bytes([first]), name="InvalidIntegerType", expected=name.capitalize(), found=found)
    fault = {"name": "InvalidIntegerType"}
    refused("first bytes", "u16 252, big", "u16", of_bytes(252, 0, 0, 0, 1), BIG, **fault, expected="U16", found="U32")
    refused("first bytes", "length 254", "[u8]", of_bytes(254, 0), **fault, expected="U64", found="U128")
    refused("first bytes", "length 255", "text", of_bytes(255, 0), **fault, expected="U64", found="Reserved")
    refused("first bytes", "tag 253", "u8|u8", of_bytes(253, 0), **fault, expected="U32", found="U64")
    refused("first bytes", "tag 255", "u8|u8", of_bytes(255, 0), **fault, expected="U32", found="Reserved")
    refused("first bytes", "within a tuple", "(u8, i16)", of_bytes(1, 253), **fault, expected="I16", found="I64")


def of_spellings():
    """Spellings that are longer than needed are read, and never written."""
    family = "longer spellings"
    read(family, "u16 10", "u16", of_bytes(251, 10, 0), 10)
    read(family, "u32 10 by 251", "u32", of_bytes(251, 10, 0), 10)
    read(family, "u32 10 by 252", "u32", of_bytes(252, 10, 0, 0, 0), 10)
    read(family, "u32 10 by 252, big", "u32", of_bytes(252, 0, 0, 0, 10), 10, BIG)
    read(family, "u64 10 by 253", "u64", of_bytes(253, 10, 0, 0, 0, 0, 0, 0, 0), 10)
    read(family, "usize 300 by 252", "usize", of_bytes(252, 44, 1, 0, 0), 300)
    read(family, "u128 10 by 254", "u128", bytes([254, 10] + [0] * 15), 10)
    read(family, "u128 10 by 254, big", "u128", bytes([254] + [0] * 15 + [10]), 10, BIG)
    read(family, "i16 -1 by 251", "i16", of_bytes(251, 1, 0), -1)
    read(family, "i64 -2 by 252", "i64", of_bytes(252, 3, 0, 0, 0), -2)
    read(family, "i128 1 by 254", "i128", bytes([254, 2] + [0] * 15), 1)
    read(family, "length 1 by 251", "[u8]", of_bytes(251, 1, 0, 7), [7])
    read(family, "length 2 by 253", "text", bytes([253, 2] + [0] * 7) + b"ab", "ab")
    read(family, "tag 1 by 252", "u8|u8", of_bytes(252, 1, 0, 0, 0, 9), {"1": 9})


def of_ends():
    """Inputs that end too early. How many bytes are missing is fixed for a number, `bool` and `char` alone."""
    scalar = [("u8", b"", STANDARD, 1), ("i8", b"", FIXED, 1), ("bool", b"", STANDARD, 1), ("u16", b"", STANDARD, 1), ("u16", of_bytes(251), STANDARD, 2),
              ("u16", of_bytes(251, 7), BIG, 1), ("u32", of_bytes(252, 1), STANDARD, 3), ("u64", of_bytes(253), STANDARD, 8), ("u128", of_bytes(254), STANDARD, 16),
              ("u128", of_bytes(254, 1, 2, 3), BIG, 13), ("i32", of_bytes(251), STANDARD, 2), ("isize", of_bytes(253, 1, 2, 3, 4, 5, 6, 7), STANDARD, 1),
              ("i128", b"", FIXED, 16), ("u16", of_bytes(7), FIXED, 1), ("u32", b"", FIXED, 4), ("u64", of_bytes(1, 2, 3), BIG_FIXED, 5), ("usize", b"", STANDARD, 1),
              ("char", b"", STANDARD, 1), ("char", of_bytes(195), STANDARD, 1), ("char", of_bytes(226), STANDARD, 2), ("char", of_bytes(240, 159, 152), FIXED, 1)]
    for shape, cut, how, missing in scalar:
        refused("ends", f"{shape} {cut.hex()} {missing}", shape, cut, how, name="UnexpectedEnd", additional=missing)
    for name, first in ("NonZeroU16", 251), ("NonZeroI32", 251):
        refused("ends", f"{name} {first}", f"type {name}", of_bytes(first), name="UnexpectedEnd", additional=2)
    whole = [("(u8, u8)", of_bytes(1)), ("u8?", of_bytes(1)), ("u8?", b""), ("u8|u16", of_bytes(1)), ("u8|u16", b""), ("[u8]", of_bytes(2, 1)), ("[u8]", b""),
             ("text", of_bytes(3, 97, 98)), ("text", b""), ("[u16; 2]", of_bytes(1, 251)), ("[text]", of_bytes(1, 1)), ("[[u8]]", of_bytes(2, 0)),
             ("[u16]", bytes([253] + [255] * 8)), ("text", bytes([253] + [255] * 8))]
    for shape, cut in whole:
        refused("ends", f"{shape} {cut.hex()}", shape, cut, name="UnexpectedEnd")
    refused("ends", "tag of four bytes", "u8|u8", of_bytes(1, 0, 0), FIXED, name="UnexpectedEnd")
    refused("ends", "length of eight bytes", "[u8]", bytes(7), FIXED, name="UnexpectedEnd")
    refused("ends", "a stream", "(u8, u8)", of_bytes(1), {"stream": True}, name="Io")
    refused("ends", "a stream of one number", "u64", of_bytes(253, 0), {"stream": True}, name="Io")
    read("ends", "a stream that does not end", "u64", of_bytes(250), 250, {"stream": True})
    refused("ends", "a stream under a limit", "u64", b"", {"stream": True, "limit": 7}, name="LimitExceeded")


def limited(label, shape, word, value, least, how=STANDARD, taken=None, family="limits"):
    """A word under its least limit, and under one that is one below."""
    read(family, f"{label}, {least}", shape, word, value, {**how, "limit": least}, taken)
    if least:
        refused(family, f"{label}, {least - 1}", shape, word, {**how, "limit": least - 1}, name="LimitExceeded")


def of_limits():
    for name, width in {**UNSIGNED, **SIGNED}.items():
        limited(name, name, of_bytes(0), 0, width)
    limited("u32 of five bytes", "u32", of_bytes(252, 0, 0, 1, 0), 65536, 4)
    limited("u32, big fixint", "u32", of_bytes(0, 0, 0, 5), 5, 4, BIG_FIXED)
    limited("bool", "bool", of_bytes(1), True, 1)
    for character, count in ("A", 1), ("\u00e9", 2), ("\u20ac", 3), ("\U0001f600", 4):
        limited(f"char of {count}", "char", character.encode(), character, count)
    for name, width in ("u16", 2), ("u128", 16), ("isize", 8):
        refused("limits", f"{name} of nothing, {width}", name, b"", {"limit": width}, name="UnexpectedEnd", additional=1)
        refused("limits", f"{name} of nothing, {width - 1}", name, b"", {"limit": width - 1}, name="LimitExceeded")
    refused("limits", "bool of 2, 1", "bool", of_bytes(2), {"limit": 1}, name="InvalidBooleanValue", byte=2)
    refused("limits", "bool of 2, 0", "bool", of_bytes(2), {"limit": 0}, name="LimitExceeded")
    refused("limits", "option of 2, 1", "u8?", of_bytes(2), {"limit": 1}, name="UnexpectedVariant", found=2, min=0, max=1)
    refused("limits", "option of 2, 0", "u8?", of_bytes(2), {"limit": 0}, name="LimitExceeded")
    refused("limits", "tag of 2, 4", "u8|u8", of_bytes(2), {"limit": 4}, name="UnexpectedVariant", found=2, min=0, max=1)
    refused("limits", "tag of 2, 3", "u8|u8", of_bytes(2), {"limit": 3}, name="LimitExceeded")
    refused("limits", "first byte of 255, 2", "u16", of_bytes(255), {"limit": 2}, name="InvalidIntegerType", expected="U16", found="Reserved")
    refused("limits", "first byte of 255, 1", "u16", of_bytes(255), {"limit": 1}, name="LimitExceeded")
    of_limits_of_wholes()


def of_limits_of_wholes():
    """The sums are those of section 9: 8 for a length, then what all elements claim, or the element with the most on top of what was charged."""
    limited("unit", "()", b"", None, 0)
    limited("tuple", "(u8, u64)", of_bytes(1, 2), [1, 2], 1 + 8)
    limited("option", "u64? = Option<u64>", of_bytes(1, 5), 5, 1 + 8)
    limited("absent option", "u64?", of_bytes(0), None, 1)
    limited("first variant", "u8|u64 = Result<u8, u64>", of_bytes(0, 7), {"0": 7}, 4 + 1)
    limited("second variant", "u8|u64 = Result<u8, u64>", of_bytes(1, 7), {"1": 7}, 4 + 8)
    limited("variant of nothing", "()|u64", of_bytes(0), {"0": None}, 4)
    limited("text", "text", of_bytes(3) + b"abc", "abc", 8 + 3)
    limited("text of two characters", "text", text("\u20ac\u00e9"), "\u20ac\u00e9", 8 + 5)
    limited("two texts", "(text, text)", text("ab") + text("c"), ["ab", "c"], 8 + 2 + 8 + 1)
    limited("bytes", "[u8] = Vec<u8>", of_bytes(3, 1, 2, 3), [1, 2, 3], 8 + 3)
    limited("numbers", "[u32] = Vec<u32>", of_bytes(2, 5, 6), [5, 6], 8 + 2 * 4)
    limited("numbers, big fixint", "[u16]", bytes(7) + of_bytes(2, 0, 5, 1, 0), [5, 256], 8 + 2 * 2, BIG_FIXED)
    limited("no numbers", "[u128]", of_bytes(0), [], 8)
    limited("units", "[()]", of_bytes(5), {"count": 5}, 8 + 5)
    limited("many units", "[()]", of_bytes(252, 0, 0, 1, 0), {"count": 65536}, 8 + 65536)
    limited("characters", "[char]", of_bytes(2, 97, 195, 169), ["a", "\u00e9"], 8 + 2 * 4)
    limited("truth values", "[bool]", of_bytes(2, 0, 1), [False, True], 8 + 2)
    limited("absent options", "[u8?]", of_bytes(3, 0, 0, 0), [None, None, None], 8 + 3 * 2)
    limited("options of nothing", "[()?]", of_bytes(2, 1, 0), [{"some": None}, None], 8 + 2 * 2)
    limited("variants", "[u8|u64]", of_bytes(2, 0, 1, 1, 2), [{"0": 1}, {"1": 2}], 8 + 2 * 12)
    limited("pairs", "[(u8, u64)]", of_bytes(2, 1, 2, 3, 4), [[1, 2], [3, 4]], 8 + 2 * 9)
    limited("triples of units", "[((), (), ())]", of_bytes(2), {"count": 2}, 8 + 2 * 3)
    limited("a short text in a list", "[text] = Vec<String>", of_bytes(1, 2) + b"ab", ["ab"], 8 + 24)
    limited("a long text in a list", "[text] = Vec<String>", of_bytes(1, 30) + b"x" * 30, ["x" * 30], 8 + 8 + 30)
    limited("a long text, and more", "[text]", of_bytes(2, 30) + b"x" * 30 + of_bytes(0), ["x" * 30, ""], 8 + 24 + 8 + 30)
    limited("a short list in a list", "[[u8]] = Vec<Vec<u8>>", of_bytes(1, 2, 7, 8), [[7, 8]], 8 + 24)
    limited("a long list in a list", "[[u8]] = Vec<Vec<u8>>", of_bytes(1, 40) + bytes(40), [[0] * 40], 8 + 8 + 40)
    limited("many units in a list", "[[()]]", of_bytes(1, 100), [{"count": 100}], 8 + 8 + 100)
    limited("optional texts", "[text?]", of_bytes(2, 0, 0), [None, None], 8 + 2 * 25)
    limited("array", "[u64; 3] = [u64; 3]", of_bytes(1, 2, 3), [1, 2, 3], 3 * 8)
    limited("array of units", "[(); 4]", b"", {"count": 4}, 4)
    limited("array of nothing", "[u64; 0]", b"", [], 0)
    limited("arrays of nothing", "[[u64; 0]]", of_bytes(3), {"count": 3}, 8 + 3)
    limited("array of arrays", "[[u16; 3]; 2]", of_bytes(1, 2, 3, 4, 5, 6), [[1, 2, 3], [4, 5, 6]], 12)
    limited("list of arrays", "[[u8; 3]]", of_bytes(2, 1, 2, 3, 4, 5, 6), [[1, 2, 3], [4, 5, 6]], 8 + 6)
    limited("array of texts", "[text; 2]", of_bytes(1, 97, 0), ["a", ""], 2 * 24)
    limited("array of long texts", "[text; 2]", of_bytes(0, 50) + b"y" * 50, ["", "y" * 50], 8 + 8 + 50)
    limited("a list that follows a number", "(u64, [u16])", of_bytes(1, 1, 2), [1, [2]], 8 + 8 + 2)
    refused("limits", "a text of 100000", "text", of_bytes(252, 160, 134, 1, 0), {"limit": 100007}, name="LimitExceeded")
    refused("limits", "a cut text of 100000", "text", of_bytes(252, 160, 134, 1, 0), {"limit": 100008}, name="UnexpectedEnd")
    refused("limits", "the longest list", "[()]", bytes([253] + [255] * 8), {"limit": MOST}, name="LimitExceeded")
    refused("limits", "the longest list that the largest limit allows", "[u8]", bytes([253, 247] + [255] * 7), {"limit": MOST}, name="UnexpectedEnd")
    refused("limits", "one longer", "[u8]", bytes([253, 248] + [255] * 7), {"limit": MOST}, name="LimitExceeded")
    refused("limits", "an array that claims 2^64", "[[u8; 9223372036854775808]; 2]", b"", {"limit": MOST}, name="LimitExceeded")
    refused("limits", "an array that claims 2^64 - 1", "[u8; 18446744073709551615]", b"", {"limit": MOST}, name="UnexpectedEnd")
    refused("limits", "an array that claims 2^64, without a limit", "[[u8; 9223372036854775808]; 2]", b"", name="UnexpectedEnd")
    read("limits", "a claim that is cut to 2^64 - 1, not used", "[[[u8; 9223372036854775808]; 4]]", of_bytes(0), [], {"limit": 8})
    refused("limits", "a claim that is cut to 2^64 - 1", "[[[u8; 9223372036854775808]; 4]]", of_bytes(1), {"limit": MOST}, name="LimitExceeded")


def of_scalars():
    """Truth values and characters."""
    family = "truth values and characters"
    for setting, how in SETTINGS.items():
        written(family, f"true, {setting}", "bool", True, of_bytes(1), how)
        written(family, f"U+20AC, {setting}", "char", "\u20ac", of_bytes(226, 130, 172), how)
    written(family, "false", "bool", False, of_bytes(0))
    for byte in 2, 255:
        refused(family, f"bool {byte}", "bool", of_bytes(byte), FIXED, name="InvalidBooleanValue", byte=byte)
    words = {0: [0], 127: [127], 128: [194, 128], 2047: [223, 191], 2048: [224, 160, 128], 55295: [237, 159, 191], 57344: [238, 128, 128],
             65535: [239, 191, 191], 65536: [240, 144, 128, 128], 1114111: [244, 143, 191, 191]}
    for code, word in words.items():
        written(family, f"U+{code:04X}", "char", chr(code), bytes(word))
    begins_nothing = [128, 191, 192, 193, 245, 255]
    for first in begins_nothing:
        refused(family, f"first byte {first}", "char", of_bytes(first, 128, 128, 128), {"limit": 0}, name="InvalidCharEncoding", bytes=[first, 0, 0, 0])
    for word in [194, 65], [223, 192], [224, 159, 191], [237, 160, 128], [237, 191, 191], [239, 65, 191], [226, 130, 12], [240, 143, 191, 191], [244, 144, 128, 128], [240, 159, 152, 0]:
        refused(family, f"char {bytes(word).hex()}", "char", bytes(word), name="InvalidCharEncoding", bytes=(word + [0, 0])[:4])
    refused(family, "a char in a list", "[char]", of_bytes(2, 65, 128), name="InvalidCharEncoding", bytes=[128, 0, 0, 0])


def of_choices():
    family = "options and choices"
    written(family, "None", "u8? = Option<u8>", None, of_bytes(0))
    for setting, how in SETTINGS.items():
        written(family, f"Some, {setting}", "u16? = Option<u16>", 300, of_bytes(1) + unsigned(300, 2, how), how)
        written(family, f"variant 1, {setting}", "u8|u16 = Result<u8, u16>", {"1": 300}, tag(1, how) + unsigned(300, 2, how), how)
        refused(family, f"variant 2, {setting}", "u8|u16 = Result<u8, u16>", tag(2, how), how, name="UnexpectedVariant", found=2, min=0, max=1)
        refused(family, f"option 3, {setting}", "u16? = Option<u16>", of_bytes(3), how, name="UnexpectedVariant", found=3, min=0, max=1)
    written(family, "Some of nothing", "()? = Option<()>", {"some": None}, of_bytes(1))
    written(family, "None in Some", "u8?? = Option<Option<u8>>", {"some": None}, of_bytes(1, 0))
    written(family, "Some in Some", "u8??", {"some": 7}, of_bytes(1, 1, 7))
    written(family, "three options", "bool???", {"some": {"some": True}}, of_bytes(1, 1, 1, 1))
    written(family, "Some of a variant", "(u8|text)?", {"1": "a"}, of_bytes(1, 1, 1, 97))
    written(family, "variant of an option", "(u8?)|text", {"0": None}, of_bytes(0, 0))
    written(family, "first of three", "()|u8|u8 = Bound<u8>", {"0": None}, of_bytes(0))
    written(family, "last of three", "()|u8|u8 = Bound<u8>", {"2": 9}, of_bytes(2, 9))
    written(family, "variant of variants", "(u8|bool)|u8", {"0": {"1": False}}, of_bytes(0, 1, 0))
    many = "|".join(["u8"] * 252)
    written(family, "variant 251", many, {"251": 7}, of_bytes(251, 251, 0, 7))
    refused(family, "variant 252 of 252", many, of_bytes(251, 252, 0, 7), name="UnexpectedVariant", found=252, min=0, max=251)
    refused(family, "a far variant", "u8|u8|u8", of_bytes(252, 255, 255, 255, 255), name="UnexpectedVariant", found=2**32 - 1, min=0, max=2)
    refused(family, "option 255", "u8?", of_bytes(255), name="UnexpectedVariant", found=255, min=0, max=1)
    refused(family, "a fault in a part", "u8|bool", of_bytes(1, 7), name="InvalidBooleanValue", byte=7)
    refused(family, "no variants", "type Never", b"", {"limit": 0}, name="EmptyEnum")
    refused(family, "a list of no variants", "type Vec<Never>", of_bytes(1, 0), name="EmptyEnum")
    read(family, "an empty list of no variants", "type Vec<Never>", of_bytes(0), [])


def of_wholes():
    family = "tuples and arrays"
    written(family, "unit", "() = PhantomData<u64>", None, b"")
    written(family, "one part", "(u16,)", [300], of_bytes(251, 44, 1))
    written(family, "brackets around a part", "(u16)", 300, of_bytes(251, 44, 1))
    written(family, "twelve numbers", "(u8, u16, u32, u64, u128, usize, i8, i16, i32, i64, i128, isize)", [1, 2, 3, 4, 5, 6, -1, -2, -3, -4, -5, -6],
            of_bytes(1, 2, 3, 4, 5, 6, 255, 3, 5, 7, 9, 11))
    written(family, "seventeen parts", f"({', '.join(['u8'] * 17)})", [*range(17)], bytes(range(17)))
    written(family, "units and numbers", "((), u8, ())", [None, 7, None], of_bytes(7))
    written(family, "a tuple in a tuple", "(u8, (bool, text), char)", [1, [True, "ab"], "c"], of_bytes(1, 1, 2, 97, 98, 99))
    for setting, how in SETTINGS.items():
        written(family, f"array, {setting}", "[i32; 2] = [i32; 2]", [-300, 2], signed(-300, 4, how) + signed(2, 4, how), how)
    written(family, "array of bytes", "[u8; 5]", [5, 4, 3, 2, 251], of_bytes(5, 4, 3, 2, 251))
    written(family, "array of none", "[text; 0]", [], b"")
    written(family, "array of units", "[(); 3]", {"count": 3}, b"")
    written(family, "array of many units", "[(); 100000]", {"count": 100000}, b"")
    written(family, "array of options", "[u8?; 3]", [None, 1, None], of_bytes(0, 1, 1, 0))
    written(family, "array of tuples", "[(u8, bool); 2]", [[1, True], [2, False]], of_bytes(1, 1, 2, 0))
    written(family, "range", "(u16, u16) = Range<u16>", [1, 300], of_bytes(1, 251, 44, 1))
    written(family, "inclusive range", "(i8, i8) = RangeInclusive<i8>", [-1, 2], of_bytes(255, 2))
    read(family, "bytes after a word are left", "(u8, u8)", of_bytes(1, 2, 3, 4), [1, 2], taken=2)
    refused(family, "the first fault tells", "(bool, bool)", of_bytes(2, 3), name="InvalidBooleanValue", byte=2)
    refused(family, "a fault comes before an end", "[bool; 3]", of_bytes(1, 2), name="InvalidBooleanValue", byte=2)


def of_lists():
    family = "lists"
    for setting, how in SETTINGS.items():
        written(family, f"numbers, {setting}", "[u16] = Vec<u16>", [1, 300], length(2, how) + unsigned(1, 2, how) + unsigned(300, 2, how), how)
        written(family, f"no bytes, {setting}", "[u8] = Vec<u8>", [], length(0, how), how)
        written(family, f"three units, {setting}", "[()]", {"count": 3}, length(3, how), how)
    written(family, "300 bytes", "[u8] = VecDeque<u8>", [7] * 300, of_bytes(251, 44, 1) + of_bytes(7) * 300)
    written(family, "lists of lists", "[[[u8]]]", [[], [[1], [], [2, 3]]], of_bytes(2, 0, 3, 1, 1, 0, 2, 2, 3))
    written(family, "pairs", "[(u8, text)] = Vec<(u8, String)>", [[1, "a"], [2, ""]], of_bytes(2, 1, 1, 97, 2, 0))
    written(family, "variants", "[()|i16]", [{"0": None}, {"1": -1}], of_bytes(2, 0, 1, 1))
    written(family, "all truth values", "[bool]", [True, False], of_bytes(2, 1, 0))
    written(family, "signed bytes", "[i8]", [-128, 127], of_bytes(2, 128, 127))
    written(family, "wide numbers", "[u128]", [2**64], of_bytes(1) + unsigned(2**64, 16))
    read(family, "more units than an input has bytes", "[((), [(); 2])]", of_bytes(251, 232, 3), {"count": 1000})
    refused(family, "a fault within", "[bool]", of_bytes(3, 1, 9), name="InvalidBooleanValue", byte=9)
    refused(family, "a fault before the end", "[u8?]", of_bytes(200, 0, 5), name="UnexpectedVariant", found=5, min=0, max=1)


def of_texts():
    family = "texts"
    for setting, how in SETTINGS.items():
        written(family, f"a text, {setting}", "text = String", "h\u00e9llo", text("h\u00e9llo", how), how)
        written(family, f"no text, {setting}", "text = String", "", length(0, how), how)
    written(family, "one far character", "text", "\U0001f600", of_bytes(4, 240, 159, 152, 128))
    written(family, "a zero", "text", "\0", of_bytes(1, 0))
    written(family, "a quote, a slash and a line", "text", "\"\\\n", of_bytes(3, 34, 92, 10))
    written(family, "300 letters", "text = &str", "z" * 300, of_bytes(251, 44, 1) + b"z" * 300)
    wrong = {"a byte that begins nothing": [1, 128], "a cut character": [1, 195], "a surrogate": [3, 237, 160, 128], "a longer spelling": [2, 192, 128],
             "above all characters": [4, 244, 144, 128, 128], "a wrong second byte": [3, 97, 195, 40]}
    for label, word in wrong.items():
        refused(family, label, "text = String", bytes(word), name="Utf8")
    refused(family, "an end comes before a wrong byte", "text", of_bytes(3, 255, 255), name="UnexpectedEnd")
    refused(family, "a limit comes before a wrong byte", "text", of_bytes(1, 255), {"limit": 8}, name="LimitExceeded")


def into(label, shape, value, pieces, room, how=STANDARD):
    """A value that is written in these pieces, into a slice of so many bytes 238: as many of the first pieces as it holds."""
    kept, error = b"", {}
    for piece in pieces:
        if len(kept) + len(piece) > room:
            error = {"error": "UnexpectedEnd"}
            break
        kept += piece
    row("short slices", f"{label}, {room}", shape, how, value=as_json(value), slice="ee" * room, left=(kept + b"\xee" * (room - len(kept))).hex(), **error)


def of_short_slices():
    word = [of_bytes(1), of_bytes(251), of_bytes(44, 1)]
    for room in range(6):
        into("a tuple", "(u8, u32)", [1, 300], word, room)
    for room in 0, 3, 4:
        into("a number, fixint", "u32", 5, [of_bytes(5, 0, 0, 0)], room, FIXED)
    for room in 1, 16, 17:
        into("a wide number", "u128", 2**64, [of_bytes(254), digits(2**64, 16, BIG)], room, BIG)
    for room in 0, 1, 3, 4:
        into("a text", "text", "abc", [of_bytes(3), b"abc"], room)
    for room in 0, 2:
        into("a character", "char", "\u20ac", ["\u20ac".encode()], room)
    for room in 0, 1, 3:
        into("an option", "i16?", -300, [of_bytes(1), of_bytes(251), of_bytes(87, 2)], room)
    for room in 0, 3, 4:
        into("a variant, fixint", "u8|bool", {"1": True}, [of_bytes(1, 0, 0, 0), of_bytes(1)], room, FIXED)
    for room in 0, 1, 2, 4:
        into("numbers", "[u16]", [7, 300], [of_bytes(2), of_bytes(7), of_bytes(251), of_bytes(44, 1)], room)
    into("nothing", "()", None, [], 0)
    for room in 0, 3, 4, 6:
        into("a float", "type f32", 1.5, [single(1.5)], room)
    for room in 7, 8:
        into("a wide float, big fixint", "type f64", -2.0, [double(-2.0, BIG_FIXED)], room, BIG_FIXED)
    for room in 1, 4, 5, 7:
        into("a float in a tuple", "type (u8, f32, u16)", [1, 1.5, 300], [of_bytes(1), single(1.5), of_bytes(251), of_bytes(44, 1)], room)


def unfit(label, shape, value, how=STANDARD):
    row("unfit values", label, shape, how, value=as_json(value), slice="eeeeee", left="eeeeee", error="Other", text="value does not fit the shape")


def of_unfit():
    unfit("256 as u8", "u8", 256)
    unfit("-1 as u16", "u16", -1)
    unfit("128 as i8", "i8", 128)
    unfit("2^64 as u64", "u64", 2**64)
    unfit("-2^63 - 1 as i64", "i64", -2**63 - 1)
    unfit("a truth value as a number", "u8", True)
    unfit("a number as a truth value", "bool", 1)
    unfit("a number as a text", "text", 7)
    unfit("a text as a list", "[u8]", "abc")
    unfit("a number as nothing", "()", 7)
    unfit("one of two parts", "(u8, u8)", [1])
    unfit("three of two parts", "(u8, u8)", [1, 2, 3])
    unfit("three of two elements", "[u8; 2]", [1, 2, 3], FIXED)
    unfit("a far variant", "u8|u8", {"2": 7})
    unfit("a variant with another part", "u8|bool", {"1": 7})
    unfit("a wrong last part", "(u8, text, [u16])", [1, "a", [2, 65536]])
    unfit("a wrong optional part", "u8?", 256)


def of_not_zero():
    family = "other than zero"
    for names, write in (UNSIGNED, unsigned), (SIGNED, signed):
        for name, width in names.items():
            of_type = f"NonZero{name.capitalize()}"
            written(family, f"{name} 5", f"type {of_type}", 5, write(5, width))
            refused(family, f"{name} 0", f"type {of_type}", of_bytes(0), name="NonZeroTypeIsZero", non_zero_type=name.capitalize())
    refused(family, "a long 0", "type NonZeroU32", of_bytes(252, 0, 0, 0, 0), name="NonZeroTypeIsZero", non_zero_type="U32")
    refused(family, "0 under a limit", "type NonZeroI16", of_bytes(0), {"limit": 2}, name="NonZeroTypeIsZero", non_zero_type="I16")
    refused(family, "0 under a lower limit", "type NonZeroI16", of_bytes(0), {"limit": 1}, name="LimitExceeded")
    refused(family, "0 in four bytes", "type NonZeroU32", bytes(4), BIG_FIXED, name="NonZeroTypeIsZero", non_zero_type="U32")
    written(family, "-1", "type NonZeroI16", -1, of_bytes(1))


def of_durations():
    family = "durations"
    written(family, "1 and 2", "type Duration", [1, 2], of_bytes(1, 2))
    for setting, how in SETTINGS.items():
        written(family, f"300 and 999999999, {setting}", "type Duration", [300, 10**9 - 1], unsigned(300, 8, how) + unsigned(10**9 - 1, 4, how), how)
    read(family, "a carried second", "type Duration", of_bytes(1) + unsigned(10**9, 4), [2, 0])
    read(family, "four carried seconds", "type Duration", of_bytes(0) + unsigned(2**32 - 1, 4), [4, 294967295])
    written(family, "the longest", "type Duration", [MOST, 10**9 - 1], unsigned(MOST, 8) + unsigned(10**9 - 1, 4))
    read(family, "carried to the longest", "type Duration", unsigned(MOST - 4, 8) + unsigned(2**32 - 1, 4), [MOST, 294967295])
    refused(family, "too long", "type Duration", unsigned(MOST - 3, 8) + unsigned(2**32 - 1, 4), name="InvalidDuration", secs=MOST - 3, nanos=2**32 - 1)
    read(family, "limit of 12", "type Duration", of_bytes(1, 2), [1, 2], {"limit": 12})
    refused(family, "limit of 11", "type Duration", of_bytes(1, 2), {"limit": 11}, name="LimitExceeded")
    read(family, "a list, limit of 20", "type Vec<Duration>", of_bytes(1, 1, 2), [[1, 2]], {"limit": 20})
    refused(family, "a list, limit of 19", "type Vec<Duration>", of_bytes(1, 1, 2), {"limit": 19}, name="LimitExceeded")


def of_c_strings():
    family = "C strings and paths"
    written(family, "three bytes", "type CString", [65, 255, 66], of_bytes(3, 65, 255, 66))
    written(family, "none", "type CString", [], of_bytes(0))
    for place in range(3):
        word = [3, 65, 65, 65]
        word[1 + place] = 0
        refused(family, f"zero at {place}", "type CString", bytes(word), name="CStringNulError", position=place)
    refused(family, "an end comes before a zero", "type CString", of_bytes(3, 0, 65), name="UnexpectedEnd")
    refused(family, "a limit comes before a zero", "type CString", of_bytes(1, 0), {"limit": 8}, name="LimitExceeded")
    refused(family, "a zero under a limit", "type CString", of_bytes(1, 0), {"limit": 9}, name="CStringNulError", position=0)
    written(family, "a path", "text = PathBuf", "/a/b", of_bytes(4) + b"/a/b")
    refused(family, "a path that is no text", "text = PathBuf", of_bytes(1, 255), name="Utf8")


def of_maps():
    family = "maps and sets"
    written(family, "a map", "type BTreeMap<u8, u8>", [[1, 30], [2, 20]], of_bytes(2, 1, 30, 2, 20))
    written(family, "no map", "type BTreeMap<u8, u8>", [], of_bytes(0))
    read(family, "a key twice", "type BTreeMap<u8, u8>", of_bytes(3, 5, 1, 5, 2, 5, 3), [[5, 3]])
    read(family, "out of order", "type BTreeMap<u16, bool>", of_bytes(2, 251, 44, 1, 1, 7, 0), [[7, False], [300, True]])
    read(family, "a key twice, hashed", "type HashMap<u8, u8>", of_bytes(2, 1, 10, 1, 20), [[1, 20]])
    read(family, "a map within its limit", "type BTreeMap<u8, u64>", of_bytes(2, 1, 2, 3, 4), [[1, 2], [3, 4]], {"limit": 8 + 2 * 9})
    refused(family, "a map above its limit", "type BTreeMap<u8, u64>", of_bytes(2, 1, 2, 3, 4), {"limit": 8 + 2 * 9 - 1}, name="LimitExceeded")
    refused(family, "a key without a value", "type BTreeMap<u8, bool>", of_bytes(1, 5), name="UnexpectedEnd")
    refused(family, "a wrong value", "type BTreeMap<u8, bool>", of_bytes(1, 5, 9), name="InvalidBooleanValue", byte=9)
    written(family, "texts as keys", "type BTreeMap<String, u8>", [["a", 1], ["ab", 2], ["b", 3]], of_bytes(3, 1, 97, 1, 2, 97, 98, 2, 1, 98, 3))
    written(family, "signed keys", "type BTreeSet<i8>", [-2, -1, 0, 1], of_bytes(4, 254, 255, 0, 1))
    written(family, "numbers, not bytes, are in order", "type BTreeSet<u16>", [255, 256], of_bytes(2, 251, 255, 0, 251, 0, 1))
    written(family, "the other way round", "type BTreeSet<Reverse<u8>>", [3, 2, 1], of_bytes(3, 3, 2, 1))
    read(family, "an item twice", "type BTreeSet<u8>", of_bytes(3, 5, 5, 1), [1, 5])
    read(family, "an item twice, hashed", "type HashSet<u8>", of_bytes(2, 4, 4), [4])
    read(family, "two words of one duration", "type BTreeMap<Duration, u8>", of_bytes(2, 1, 0, 1, 0) + unsigned(10**9, 4) + of_bytes(2), [[[1, 0], 2]])
    read(family, "one path twice", "type BTreeSet<PathBuf>", of_bytes(2, 1) + b"a" + of_bytes(2) + b"a/", ["a"])
    read(family, "the path that was first", "type BTreeMap<PathBuf, u8>", of_bytes(2, 2) + b"a/" + of_bytes(1, 1) + b"a" + of_bytes(2), [["a/", 2]])
    read(family, "four spellings of a path", "type BTreeSet<PathBuf>", of_bytes(4) + text("a") + text("a/") + text("a//") + text("a/."), ["a"])
    read(family, "paths in order", "type BTreeSet<PathBuf>", of_bytes(6) + b"".join(map(text, ["a-b", "a/b", "a", "..", ".", "/z"])), ["/z", ".", "..", "a", "a/b", "a-b"])
    refused(family, "a set above its limit", "type BTreeSet<u32>", of_bytes(2, 1, 1), {"limit": 15}, name="LimitExceeded")
    read(family, "a set within its limit", "type BTreeSet<u32>", of_bytes(2, 1, 1), [1], {"limit": 16})


def of_addresses():
    family = "addresses"
    v4, v6 = [127, 0, 0, 1], [32, 1, 13, 184] + [0] * 11 + [1]
    ip, socket = "[u8; 4]|[u8; 16] = IpAddr", "([u8; 4], u16) = SocketAddrV4"
    for setting, how in SETTINGS.items():
        written(family, f"Ipv4Addr, {setting}", "[u8; 4] = Ipv4Addr", v4, bytes(v4), how)
        written(family, f"Ipv6Addr, {setting}", "[u8; 16] = Ipv6Addr", v6, bytes(v6), how)
        written(family, f"IpAddr, {setting}", ip, {"1": v6}, tag(1, how) + bytes(v6), how)
        written(family, f"SocketAddrV4, {setting}", socket, [v4, 12345], bytes(v4) + unsigned(12345, 2, how), how)
        written(family, f"SocketAddr of V4, {setting}", "type SocketAddr", {"0": [v4, 80]}, tag(0, how) + bytes(v4) + unsigned(80, 2, how), how)
    row(family, "flow info and scope are not written", "type SocketAddrV6", STANDARD, value=[v6, 80, 7, 9], written=(bytes(v6) + of_bytes(80)).hex())
    read(family, "flow info and scope are 0", "type SocketAddrV6", bytes(v6) + of_bytes(80), [v6, 80, 0, 0])
    read(family, "SocketAddr of V6", "type SocketAddr", of_bytes(1) + bytes(v6) + of_bytes(80), {"1": [v6, 80]})
    limits = [("[u8; 4] = Ipv4Addr", bytes(v4), v4, 4), ("[u8; 16] = Ipv6Addr", bytes(v6), v6, 16), (ip, of_bytes(0) + bytes(v4), {"0": v4}, 8),
              (ip, of_bytes(1) + bytes(v6), {"1": v6}, 20), (socket, bytes(v4) + of_bytes(80), [v4, 80], 6), ("type SocketAddr", of_bytes(0) + bytes(v4) + of_bytes(80), {"0": [v4, 80]}, 10)]
    for shape, word, value, least in limits:
        read(family, f"{shape}, limit of {least}", shape, word, value, {"limit": least})
        refused(family, f"{shape}, limit of {least - 1}", shape, word, {"limit": least - 1}, name="LimitExceeded")
    refused(family, "three octets", "[u8; 4] = Ipv4Addr", bytes(3), name="UnexpectedEnd")
    refused(family, "no octets under a limit", "[u8; 4] = Ipv4Addr", b"", {"limit": 3}, name="LimitExceeded")
    refused(family, "an unknown socket", "type SocketAddr", of_bytes(2), name="UnexpectedVariant", found=2, min=0, max=1)


def of_pointers():
    """What stands for its inner type, and claims otherwise as an element."""
    family = "pointers and wrappers"
    for of_type in "Box<u16>", "Rc<u16>", "Arc<u16>", "Wrapping<u16>", "Reverse<u16>", "Cell<u16>", "RefCell<u16>", "Cow<u16>":
        written(family, of_type, f"u16 = {of_type}", 300, of_bytes(251, 44, 1))
    for of_type in "BoxedStr", "RcStr", "CowStr", "&str":
        written(family, of_type, f"text = {of_type}", "ab", of_bytes(2, 97, 98))
    for of_type in "BoxedSlice<u16>", "RcSlice<u16>", "CowSlice<u16>", "BinaryHeap<u16>", "VecDeque<u16>":
        written(family, of_type, f"[u16] = {of_type}", [7], of_bytes(1, 7))
    claims = [("Vec<Box<u8>>", 8), ("Vec<Rc<u8>>", 8), ("Vec<Wrapping<u8>>", 1), ("Vec<Cell<u8>>", 1)]
    for of_type, claim in claims:
        read(family, f"{of_type}, limit of {8 + claim}", f"type {of_type}", of_bytes(1, 7), [7], {"limit": 8 + claim})
        refused(family, f"{of_type}, limit of {7 + claim}", f"type {of_type}", of_bytes(1, 7), {"limit": 7 + claim}, name="LimitExceeded")
    for of_type, claim in ("Vec<&str>", 16), ("Vec<BoxedStr>", 16), ("Vec<RcStr>", 16), ("Vec<CString>", 24), ("Vec<PathBuf>", 24), ("Vec<CowStr>", 24):
        value = [[97]] if "CString" in of_type else ["a"]
        read(family, f"{of_type}, limit of {8 + claim}", f"type {of_type}", of_bytes(1, 1, 97), value, {"limit": 8 + claim})
        refused(family, f"{of_type}, limit of {7 + claim}", f"type {of_type}", of_bytes(1, 1, 97), {"limit": 7 + claim}, name="LimitExceeded")


# Floats and their bits by IEEE 754, which as numbers are the digits that are written. A NaN is written by its first pattern.
BITS = {
    "f32": {0.0: 0x00000000, 1.0: 0x3f800000, 1.5: 0x3fc00000, -2.0: 0xc0000000, 0.1: 0x3dcccccd, 3.1415927: 0x40490fdb, 1e-45: 0x00000001,
            1.1754942e-38: 0x007fffff, 1.1754944e-38: 0x00800000, 3.4028235e38: 0x7f7fffff, -3.4028235e38: 0xff7fffff, "inf": 0x7f800000, "-inf": 0xff800000},
    "f64": {0.0: 0x0000000000000000, 1.0: 0x3ff0000000000000, 1.5: 0x3ff8000000000000, -2.0: 0xc000000000000000, 0.1: 0x3fb999999999999a,
            3.141592653589793: 0x400921fb54442d18, 5e-324: 0x0000000000000001, 2.225073858507201e-308: 0x000fffffffffffff, 2.2250738585072014e-308: 0x0010000000000000,
            1.7976931348623157e308: 0x7fefffffffffffff, -1.7976931348623157e308: 0xffefffffffffffff, "inf": 0x7ff0000000000000, "-inf": 0xfff0000000000000},
}
NEGATIVE_ZEROS = {"f32": 0x80000000, "f64": 0x8000000000000000}
NANS = {
    "f32": {"quiet": 0x7fc00000, "negative": 0xffc00000, "least": 0x7f800001, "greatest signalling": 0x7fbfffff, "negative signalling": 0xff800001,
            "with a payload": 0x7fc12345, "greatest": 0x7fffffff, "all ones": 0xffffffff},
    "f64": {"quiet": 0x7ff8000000000000, "negative": 0xfff8000000000000, "least": 0x7ff0000000000001, "greatest signalling": 0x7ff7ffffffffffff,
            "negative signalling": 0xfff0000000000001, "with a payload": 0x7ff8123456789abc, "greatest": 0x7fffffffffffffff, "all ones": 0xffffffffffffffff},
}
FLOAT_WIDTHS = {"f32": 4, "f64": 8}


def single(value, how=STANDARD):
    """The bytes of an `f32` other than -0.0."""
    return digits(NANS["f32"]["quiet"] if value == "NaN" else BITS["f32"][value], 4, how)


def double(value, how=STANDARD):
    return digits(NANS["f64"]["quiet"] if value == "NaN" else BITS["f64"][value], 8, how)


def of_floats():
    """The bits of floats, in the byte order, whatever the integer encoding is; every NaN as one."""
    family = "floats"
    for name, width in FLOAT_WIDTHS.items():
        quiet = NANS[name]["quiet"]
        for setting, how in SETTINGS.items():
            for value, bits in [*BITS[name].items(), (-0.0, NEGATIVE_ZEROS[name]), ("NaN", quiet)]:
                written(family, f"{name} {value}, {setting}", f"type {name}", value, digits(bits, width, how), how)
        for label, bits in NANS[name].items():
            if bits != quiet:
                read(family, f"{name}, a NaN, {label}", f"type {name}", digits(bits, width), "NaN")
                read(family, f"{name}, a NaN, {label}, big fixint", f"type {name}", digits(bits, width, BIG_FIXED), "NaN", BIG_FIXED)
        read(family, f"{name}, bytes that follow are left", f"type {name}", digits(BITS[name][1.5], width) + of_bytes(1, 2), 1.5, taken=width)
        for value in -2.0, "NaN", "-inf":
            bits = quiet if value == "NaN" else BITS[name][value]
            written(family, f"ordered {name} {value}", f"type OrderedFloat<{name}>", value, digits(bits, width))
        written(family, f"ordered {name} -0.0, big", f"type OrderedFloat<{name}>", -0.0, digits(NEGATIVE_ZEROS[name], width, BIG), BIG)
        for bits in NANS[name]["negative"], NANS[name]["least"]:
            read(family, f"ordered {name}, a NaN, {bits:x}", f"type OrderedFloat<{name}>", digits(bits, width), "NaN")
    of_floats_that_end()
    of_floats_in_others()
    of_limits_of_floats()
    of_float_keys()


def of_floats_that_end():
    """A float is read at once, so that what is missing of it is known."""
    family = "floats"
    for name, width in FLOAT_WIDTHS.items():
        for count in range(width):
            how = (STANDARD, BIG, FIXED, BIG_FIXED)[count % 4]
            refused(family, f"{name}, {count} of {width} bytes", f"type {name}", bytes([255] * count), how, name="UnexpectedEnd", additional=width - count)
        refused(family, f"ordered {name}, one byte less", f"type OrderedFloat<{name}>", bytes(width - 1), name="UnexpectedEnd", additional=1)
        refused(family, f"{name} of a stream that ends", f"type {name}", bytes(width - 1), {"stream": True}, name="Io")
        read(family, f"{name} of a stream", f"type {name}", digits(BITS[name][1.5], width), 1.5, {"stream": True})
    cut = [("(f32, u16)", single(1.5)), ("(f32, u16)", single(1.5)[:3]), ("Option<f64>", of_bytes(1)), ("Option<f64>", of_bytes(1) + bytes(7)), ("[f32; 2]", single(1.5) + bytes(3)),
           ("Vec<f64>", of_bytes(2) + double(1.5)), ("Vec<f64>", of_bytes(1) + bytes(7)), ("BTreeMap<OrderedFloat<f32>, u8>", of_bytes(1) + single(1.5))]
    for of_type, front in cut:
        refused(family, f"{of_type}, {len(front)} bytes", f"type {of_type}", front, name="UnexpectedEnd")


def of_floats_in_others():
    family = "floats"
    for setting, how in SETTINGS.items():
        written(family, f"a tuple, {setting}", "type (f32, u16)", [1.5, 300], single(1.5, how) + unsigned(300, 2, how), how)
        written(family, f"a list, {setting}", "type Vec<f64>", [1.5, -2.0], length(2, how) + double(1.5, how) + double(-2.0, how), how)
        written(family, f"an array, {setting}", "type [f32; 2]", [0.1, "NaN"], single(0.1, how) + single("NaN", how), how)
    written(family, "Some", "type Option<f64>", 1.5, of_bytes(1) + double(1.5))
    written(family, "Some of a NaN", "type Option<f64>", "NaN", of_bytes(1) + double("NaN"))
    written(family, "None", "type Option<f64>", None, of_bytes(0))
    written(family, "no floats", "type Vec<f32>", [], of_bytes(0))
    written(family, "floats of two widths", "type (f64, f32)", [0.1, 0.1], double(0.1) + single(0.1))
    written(family, "floats around a number", "type (f32, i16, f64)", [-2.0, -1, "inf"], single(-2.0) + of_bytes(1) + double("inf"))
    written(family, "Ok", "type Result<f32, f64>", {"0": 1.0}, of_bytes(0) + single(1.0))
    written(family, "Excluded", "type Bound<f64>", {"2": 1.0}, of_bytes(2) + double(1.0))
    written(family, "a range", "type Range<f32>", [-2.0, 1.5], single(-2.0) + single(1.5))
    for of_type in "Box<f32>", "Rc<f32>", "Cell<f32>", "RefCell<f32>", "Reverse<OrderedFloat<f32>>", "Cow<OrderedFloat<f32>>":
        written(family, of_type, f"type {of_type}", 1.5, single(1.5))


def of_limits_of_floats():
    """A float charges its width under every integer encoding, and a container claims as much for it."""
    family = "floats"
    for name, width in FLOAT_WIDTHS.items():
        for of_type in name, f"OrderedFloat<{name}>":
            for how in STANDARD, BIG_FIXED:
                limited(of_type if how is STANDARD else f"{of_type}, big fixint", f"type {of_type}", digits(BITS[name][1.5], width, how), 1.5, width, how, family=family)
        refused(family, f"{name} of nothing, {width}", f"type {name}", b"", {"limit": width}, name="UnexpectedEnd", additional=width)
        refused(family, f"{name} of nothing, {width - 1}", f"type {name}", b"", {"limit": width - 1}, name="LimitExceeded")
    limited("a NaN", "type f64", digits(NANS["f64"]["all ones"], 8), "NaN", 8, family=family)
    limited("Some", "type Option<f64>", of_bytes(1) + double(1.5), 1.5, 1 + 8, family=family)
    limited("None", "type Option<f64>", of_bytes(0), None, 1, family=family)
    limited("a tuple", "type (f32, u16)", single(1.5) + of_bytes(7), [1.5, 7], 4 + 2, family=family)
    limited("an array", "type [f32; 2]", single(1.5) + single(-2.0), [1.5, -2.0], 2 * 4, family=family)
    limited("Err", "type Result<f32, f64>", of_bytes(1) + double(1.5), {"1": 1.5}, 4 + 8, family=family)
    values = [1.5, -2.0, 0.1]
    for count in range(4):
        word = of_bytes(count) + b"".join(double(value) for value in values[:count])
        limited(f"a list of {count}", "type Vec<f64>", word, values[:count], 8 + count * 8, family=family)
    limited("a list, big fixint", "type Vec<f32>", length(2, BIG_FIXED) + single(1.5, BIG_FIXED) + single(0.1, BIG_FIXED), [1.5, 0.1], 8 + 2 * 4, BIG_FIXED, family=family)
    refused(family, "a list without its floats, 24", "type Vec<f64>", of_bytes(2), {"limit": 8 + 2 * 8}, name="UnexpectedEnd")
    refused(family, "a list without its floats, 23", "type Vec<f64>", of_bytes(2), {"limit": 8 + 2 * 8 - 1}, name="LimitExceeded")
    limited("a map", "type BTreeMap<OrderedFloat<f32>, u8>", of_bytes(2) + single(-2.0) + of_bytes(8) + single(1.5) + of_bytes(7), [[-2.0, 8], [1.5, 7]], 8 + 2 * 5, family=family)
    limited("a set", "type BTreeSet<OrderedFloat<f64>>", of_bytes(2) + double(1.5) + double(-2.0), [-2.0, 1.5], 8 + 2 * 8, family=family)


def of_float_keys():
    """Keys go by their value, and NaN is last. The two zeros are one key, and so are all NaNs: the first that was read stays."""
    family, of_map, of_set = "floats", "type BTreeMap<OrderedFloat<f32>, u8>", "type BTreeSet<OrderedFloat<f64>>"
    zero, negative = single(0.0), digits(NEGATIVE_ZEROS["f32"], 4)
    written(family, "a map", of_map, [[-2.0, 8], [1.5, 7]], of_bytes(2) + single(-2.0) + of_bytes(8) + single(1.5) + of_bytes(7))
    read(family, "a map out of order", of_map, of_bytes(2) + single(1.5) + of_bytes(7) + single(-2.0) + of_bytes(8), [[-2.0, 8], [1.5, 7]])
    read(family, "a key twice", of_map, of_bytes(2) + single(1.5) + of_bytes(7) + single(1.5) + of_bytes(8), [[1.5, 8]])
    read(family, "two zeros, the negative one first", of_map, of_bytes(2) + negative + of_bytes(7) + zero + of_bytes(8), [[-0.0, 8]])
    read(family, "two zeros, the negative one last", of_map, of_bytes(2) + zero + of_bytes(7) + negative + of_bytes(8), [[0.0, 8]])
    written(family, "a negative zero as a key", of_map, [[-0.0, 8]], of_bytes(1) + negative + of_bytes(8))
    read(family, "two zeros, hashed", "type HashMap<OrderedFloat<f32>, u8>", of_bytes(2) + negative + of_bytes(7) + zero + of_bytes(8), [[-0.0, 8]])
    read(family, "two zeros of a set", "type BTreeSet<OrderedFloat<f32>>", of_bytes(3) + zero + single(-2.0) + negative, [-2.0, 0.0])
    read(family, "two zeros of a hashed set", "type HashSet<OrderedFloat<f32>>", of_bytes(2) + negative + zero, [-0.0])
    nans = [digits(NANS["f32"][label], 4) for label in ("all ones", "quiet", "least")]
    read(family, "three NaNs", of_map, of_bytes(3) + b"".join(nan + of_bytes(place) for place, nan in enumerate(nans)), [["NaN", 2]])
    read(family, "three NaNs, hashed", "type HashSet<OrderedFloat<f32>>", of_bytes(3) + b"".join(nans), ["NaN"])
    ascending = ["-inf", -1.7976931348623157e308, -2.0, 0.0, 5e-324, 2.225073858507201e-308, 2.2250738585072014e-308, 0.1, 1.0, 1.5, 1.7976931348623157e308, "inf", "NaN"]
    for setting, how in SETTINGS.items():
        written(family, f"a set, {setting}", of_set, ascending, length(13, how) + b"".join(double(value, how) for value in ascending), how)
    read(family, "a set out of order", of_set, of_bytes(13) + b"".join(map(double, reversed(ascending))), ascending)
    turned = ["NaN", "inf", 1.5, 0.0, -2.0, "-inf"]
    written(family, "the other way round", "type BTreeSet<Reverse<OrderedFloat<f32>>>", turned, of_bytes(6) + b"".join(map(single, turned)))
    pairs = [[-2.0, 9], [1.5, 1], [1.5, 2], ["NaN", 0]]
    written(family, "pairs as keys", "type BTreeSet<(OrderedFloat<f32>, u8)>", pairs, of_bytes(4) + b"".join(single(value) + of_bytes(number) for value, number in pairs))


def of_examples():
    """The examples of section 12 that the family `worked` does not have, and its nested list under each limit around the two that matter."""
    family = "examples"
    written(family, "40_000i32", "i32", 40000, of_bytes(252, 128, 56, 1, 0))
    written(family, "40_000i32, big", "i32", 40000, of_bytes(252, 0, 1, 56, 128), BIG)
    read(family, "-2 as i16", "i16", of_bytes(3), -2)
    read(family, "-1 as NonZeroI16", "type NonZeroI16", of_bytes(1), -1)
    refused(family, "0 as NonZeroI16", "type NonZeroI16", of_bytes(0), name="NonZeroTypeIsZero", non_zero_type="I16")
    refused(family, "128 as char", "char", of_bytes(128), {"limit": 0}, name="InvalidCharEncoding", bytes=[128, 0, 0, 0])
    read(family, "A under 1", "char", of_bytes(65), "A", {"limit": 1})
    refused(family, "a surrogate under 2", "char", of_bytes(237, 160, 128), {"limit": 2}, name="LimitExceeded")
    refused(family, "a surrogate under 3", "char", of_bytes(237, 160, 128), {"limit": 3}, name="InvalidCharEncoding", bytes=[237, 160, 128, 0])
    refused(family, "2 as bool", "bool", of_bytes(2), name="InvalidBooleanValue", byte=2)
    refused(family, "2 as Option<u8>", "u8? = Option<u8>", of_bytes(2), name="UnexpectedVariant", found=2, min=0, max=1)
    refused(family, "a cut list of lists under 55", "[[u8]] = Vec<Vec<u8>>", of_bytes(2, 1, 9, 1), {"limit": 55}, name="LimitExceeded")
    refused(family, "a cut list of lists under 56", "[[u8]] = Vec<Vec<u8>>", of_bytes(2, 1, 9, 1), {"limit": 56}, name="UnexpectedEnd")
    refused(family, "[u16; 2] under 3", "[u16; 2] = [u16; 2]", of_bytes(5, 6), {"limit": 3}, name="LimitExceeded")
    read(family, "[u16; 2] under 4", "[u16; 2] = [u16; 2]", of_bytes(5, 6), [5, 6], {"limit": 4})
    read(family, "1 and 5 in a set", "type BTreeSet<u8>", of_bytes(3, 5, 5, 1), [1, 5])
    read(family, "one path", "type BTreeSet<PathBuf>", of_bytes(2, 1, 97, 2, 97, 47), ["a"])
    read(family, "the value of a path", "type BTreeMap<PathBuf, u8>", of_bytes(2, 2, 97, 47, 1, 1, 97, 2), [["a/", 2]])
    refused(family, "no octets under 4", "[u8; 4] = Ipv4Addr", b"", {"limit": 4}, name="UnexpectedEnd")
    read(family, "a map with random keys", "type HashMap<u8, u8>", of_bytes(2, 1, 10, 1, 20), [[1, 20]])
    read(family, "a set with random keys", "type HashSet<u8>", of_bytes(2, 4, 4), [4])
    written(family, "U+1F600", "text", "\U0001f600", of_bytes(4, 240, 159, 152, 128))
    read(family, "1.5 under 4", "type f32", of_bytes(0, 0, 192, 63), 1.5, {"limit": 4})
    refused(family, "1.5 under 3", "type f32", of_bytes(0, 0, 192, 63), {"limit": 3}, name="LimitExceeded")
    read(family, "-0.0", "type f64", bytes(7) + of_bytes(128), -0.0)
    read(family, "all ones as f32", "type f32", bytes([255] * 4), "NaN")
    refused(family, "three bytes as f32", "type f32", bytes(3), name="UnexpectedEnd", additional=1)
    written(family, "1.5f32, big", "type f32", 1.5, of_bytes(63, 192, 0, 0), BIG)
    written(family, "1.5f32", "type f32", 1.5, of_bytes(0, 0, 192, 63))
    written(family, "a map of floats", "type BTreeMap<OrderedFloat<f32>, u8>", [[-2.0, 8], [1.5, 7]], of_bytes(2, 0, 0, 0, 192, 8, 0, 0, 192, 63, 7))
    read(family, "a zero for both", "type BTreeMap<OrderedFloat<f32>, u8>", of_bytes(2, 0, 0, 0, 128, 7, 0, 0, 0, 0, 8), [[-0.0, 8]])
    for limit in range(28, 32):
        refused(family, f"the nested list under {limit}", "[[u8]] = Vec<Vec<u8>>", of_bytes(1, 2, 7, 8), {"limit": limit}, name="LimitExceeded")
    read(family, "the nested list under 32", "[[u8]] = Vec<Vec<u8>>", of_bytes(1, 2, 7, 8), [[7, 8]], {"limit": 32})
    written(family, "the record of README", "(u32, text, [u16]) = (u32, String, Vec<u16>)", [300, "ab", [5, 6]], of_bytes(251, 44, 1, 2, 97, 98, 2, 5, 6))


# What a container claims for an element, as section 8 has it, by shapes with types that have them, and by types alone.
CLAIMS = {
    "u8 = u8": 1, "u16 = u16": 2, "u32 = u32": 4, "u64 = u64": 8, "u128 = u128": 16, "usize = usize": 8, "i8 = i8": 1, "i16 = i16": 2, "i32 = i32": 4,
    "i64 = i64": 8, "i128 = i128": 16, "isize = isize": 8, "bool = bool": 1, "char = char": 4, "text = String": 24, "[u8] = Vec<u8>": 24, "[u64] = VecDeque<u64>": 24,
    "(u8,) = (u8,)": 1, "(u8, u16, u32, u64) = (u8, u16, u32, u64)": 15, "[u64; 3] = [u64; 3]": 24, "[(u8, u64); 5] = [(u8, u64); 5]": 45, "u64? = Option<u64>": 9,
    "()? = Option<()>": 2, "u64? = Option<Wrapping<u64>>": 9, "text?? = Option<Option<String>>": 26, "u64|u16 = Result<u64, u16>": 12, "u16|u64 = Result<u16, u64>": 12,
    "()|() = Result<(), ()>": 5, "()|u64|u64 = Bound<u64>": 12, "()|()|() = Bound<()>": 5, "(u64, u64) = Range<u64>": 16, "(u8, u8) = RangeInclusive<u8>": 2,
    "[u8; 4] = Ipv4Addr": 4, "[u8; 16] = Ipv6Addr": 16, "[u8; 4]|[u8; 16] = IpAddr": 20, "([u8; 4], u16) = SocketAddrV4": 6, "([u8; 16], u16)|u8": 22,
    "u8 = NonZeroU8": 1, "u16 = NonZeroU16": 2, "u32 = NonZeroU32": 4, "u64 = NonZeroU64": 8, "u128 = NonZeroU128": 16, "usize = NonZeroUsize": 8, "i8 = NonZeroI8": 1, "i16 = NonZeroI16": 2, "i32 = NonZeroI32": 4,
    "i64 = NonZeroI64": 8, "i128 = NonZeroI128": 16, "isize = NonZeroIsize": 8, "Duration": 12, "([u8; 16], u16) = SocketAddrV6": 18, "([u8; 4], u16)|([u8; 16], u16) = SocketAddr": 22, "u64 = Reverse<u64>": 8, "u64 = Cell<u64>": 8, "u64 = RefCell<u64>": 8,
    "u16 = Cow<u16>": 2, "Box<u16>": 8, "Rc<u16>": 8, "Arc<u16>": 8, "&str": 16, "&[u8]": 16, "BoxedStr": 16, "RcStr": 16, "BoxedSlice<u8>": 16, "RcSlice<u8>": 16,
    "[u8] = BinaryHeap<u8>": 24, "[u8] = BTreeSet<u8>": 24, "[(u8, u8)] = BTreeMap<u8, u8>": 24, "[u8] = HashSet<u8>": 24, "[(u8, u8)] = HashMap<u8, u8>": 24, "CString": 24, "PathBuf": 24, "CowStr": 24,
    "f32": 4, "f64": 8, "OrderedFloat<f32>": 4, "OrderedFloat<f64>": 8, "Option<f64>": 9, "[f32; 3]": 12, "(f32, u16)": 6, "Bound<f32>": 8, "Box<f64>": 8, "Cow<OrderedFloat<f64>>": 8,
    "[u8] = CowSlice<u8>": 24, "u64? = Option<Box<u64>>": 9, "(Box<u64>, &str)": 24, "[RcStr; 3]": 48,
}
# The same of elements without bytes, which are all there.
CLAIMS_WITHOUT_BYTES = {"() = ()": 1, "() = PhantomData<u64>": 1, "((), ()) = ((), ())": 2, "[(); 5] = [(); 5]": 5, "[u64; 0] = [u64; 0]": 1, "[[(); 2]; 3]": 6}


def of_claims():
    """A list of one element, of which nothing is there: the room for it is reserved before it is looked for."""
    for element, claim in CLAIMS.items():
        shape, _, of_type = element.partition(" = ")
        shaped = f"[{shape}] = Vec<{of_type}>" if of_type else f"[{shape}]" if "|" in shape else f"type Vec<{shape}>"
        refused("claims", f"{of_type or shape}, {claim}", shaped, of_bytes(1), {"limit": 8 + claim}, name="UnexpectedEnd")
        refused("claims", f"{of_type or shape}, {claim - 1}", shaped, of_bytes(1), {"limit": 7 + claim}, name="LimitExceeded")
    for element, claim in CLAIMS_WITHOUT_BYTES.items():
        shape, _, of_type = element.partition(" = ")
        shaped = f"[{shape}] = Vec<{of_type}>" if of_type else f"[{shape}]"
        read("claims", f"{of_type or shape}, {claim}", shaped, of_bytes(1), {"count": 1}, {"limit": 8 + claim})
        refused("claims", f"{of_type or shape}, {claim - 1}", shaped, of_bytes(1), {"limit": 7 + claim}, name="LimitExceeded")
    # Section 7: 4 for the tag, and no field to add to it. The element charges its tag, after its claim is released.
    read("claims", "an enum without fields, 4", "type Vec<CStyleEnum>", of_bytes(1, 4), [{"4": None}], {"limit": 8 + 4})
    refused("claims", "an enum without fields, 3", "type Vec<CStyleEnum>", of_bytes(1, 4), {"limit": 7 + 4}, name="LimitExceeded")


def main():
    with open(PATH, encoding="utf-8") as file:
        worked = [one for one in json.load(file) if one["family"] == "worked"]
    for make in (of_unsigned, of_signed, of_first_bytes, of_spellings, of_ends, of_limits, of_scalars, of_choices, of_wholes, of_lists, of_texts, of_short_slices,
                 of_unfit, of_not_zero, of_durations, of_c_strings, of_maps, of_addresses, of_pointers, of_claims, of_floats, of_examples):
        make()
    lines = [json.dumps(one, ensure_ascii=False, separators=(",", ":")) for one in worked + rows]
    with open(PATH, "w", encoding="utf-8") as file:
        file.write("[\n" + ",\n".join(lines) + "\n]\n")
    print(f"rows {len(lines)}")


if __name__ == "__main__":
    main()
