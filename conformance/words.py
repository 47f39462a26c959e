"""Encodings and their values: what is read of some bytes, and what is written, by sections 3 to 11 of docs/FORMAT.md."""
import math, re, struct

from shapes import FLOATS, SCALARS, WIDTHS, kept

BYTES_AFTER = {251: 2, 252: 4, 253: 8, 254: 16}
# Of each form of a character: its first bytes, how many bytes it has, the base of its first digit, and its code points.
FORMS = [(range(0, 128), 1, 128, [range(0, 128)]), (range(194, 224), 2, 32, [range(128, 2048)]),
         (range(224, 240), 3, 16, [range(2048, 55296), range(57344, 65536)]), (range(240, 245), 4, 8, [range(65536, 1114112)])]


# Of each float: its format of IEEE 754 in `struct`, highest byte first, and what is written of every NaN.
FORMATS = {"f32": (">f", bytes.fromhex("7fc00000")), "f64": (">d", bytes.fromhex("7ff8000000000000"))}
NOT_FINITE = ("NaN", "inf", "-inf")


def packed(kind, number):
    """The bits of a number, highest byte first; None where it is too large for the float."""
    try:
        return struct.pack(FORMATS[kind][0], number)
    except OverflowError:
        return None


def unpacked(kind, bits):
    """The JSON of the float of these bits: rounded to the fewest digits that read back to them."""
    number, = struct.unpack(FORMATS[kind][0], bits)
    if math.isfinite(number):
        return next(found for found in (float(f"{number:.{places}e}") for places in range(17)) if packed(kind, found) == bits)
    return "NaN" if math.isnan(number) else "inf" if number > 0 else "-inf"


class Fault(Exception):
    """Why an input is refused, with the fields of section 11."""

    def __init__(self, name, **fields):
        self.told = {"name": name, **fields}


class Reader:
    """Reads the front of some bytes, by the steps of section 10."""

    def __init__(self, read, order, integers, limit):
        self.read, self.order, self.integers, self.limit = read, order, integers, limit
        self.taken = self.sum = 0

    def charge(self, count):
        self.sum += count
        if self.limit is not None and self.sum > self.limit:
            raise Fault("LimitExceeded")

    def bytes(self, count):
        front = self.read[self.taken:self.taken + count]
        if len(front) < count:
            raise Fault("UnexpectedEnd", additional=count - len(front))
        self.taken += count
        return front

    def number(self, name):
        width, is_signed = WIDTHS[name], name[0] == "i"
        self.charge(width)
        if width == 1 or self.integers == "fixint":
            return int.from_bytes(self.bytes(width), self.order, signed=is_signed)
        number = self.bytes(1)[0]
        if number > 250:
            count = BYTES_AFTER.get(number, 0)
            if not 0 < count <= width:
                found = f"{name[0].upper()}{8 * count}" if count else "Reserved"
                raise Fault("InvalidIntegerType", expected=name.capitalize(), found=found)
            number = int.from_bytes(self.bytes(count), self.order)
        if not is_signed:
            return number
        return -(number + 1) // 2 if number % 2 else number // 2

    def float(self, kind):
        self.charge(FLOATS[kind])
        bits = self.bytes(FLOATS[kind])
        return unpacked(kind, bits if self.order == "big" else bits[::-1])

    def char(self, _):
        first = self.bytes(1)[0]
        for firsts, count, base, ranges in FORMS:
            if first in firsts:
                self.charge(count)
                rest = self.bytes(count - 1)
                code = first % base
                for byte in rest:
                    code = 64 * code + byte % 64
                if any(code in codes for codes in ranges) and all(128 <= byte <= 191 for byte in rest):
                    return chr(code)
                raise Fault("InvalidCharEncoding", bytes=[first, *rest, 0, 0, 0][:4])
        raise Fault("InvalidCharEncoding", bytes=[first, 0, 0, 0])

    def text(self, shape):
        count = self.number("u64")
        self.charge(count)
        read = self.bytes(count)
        if shape.rule == "CString":
            if 0 in read:
                raise Fault("CStringNulError", position=read.index(0))
            return list(read)
        try:
            return read.decode("utf-8")
        except UnicodeDecodeError:
            raise Fault("Utf8") from None

    def items(self, element, count):
        """So many elements. Of those that have no bytes the first alone is read: the others are like it."""
        self.charge(count * element.claim)
        found = []
        for _ in range(min(count, 1) if element.has_no_bytes else count):
            self.sum -= element.claim
            found.append(self.value(element))
        self.sum -= (count - len(found)) * element.claim
        return {"count": count} if element.has_no_bytes else found

    def list(self, shape):
        return kept(shape, self.items(shape.parts[0], self.number("u64")))

    def array(self, shape):
        return self.items(shape.parts[0], shape.count)

    def tuple(self, shape):
        found = [self.value(part) for part in shape.parts]
        if shape.rule == "Duration":
            seconds = found[0] + found[1] // 10**9
            if seconds >= 2**64:
                raise Fault("InvalidDuration", secs=found[0], nanos=found[1])
            return [seconds, found[1] % 10**9]
        return found + [0, 0] if shape.rule == "SocketAddrV6" else found

    def bool(self, _):
        byte = self.number("u8")
        if byte > 1:
            raise Fault("InvalidBooleanValue", byte=byte)
        return byte == 1

    def option(self, shape):
        byte = self.number("u8")
        if byte > 1:
            raise Fault("UnexpectedVariant", found=byte, min=0, max=1)
        if byte == 0:
            return None
        value = self.value(shape.parts[0])
        return {"some": value} if shape.parts[0].kind in ("unit", "option") else value

    def choice(self, shape):
        if not shape.parts:
            raise Fault("EmptyEnum")
        tag = self.number("u32")
        if tag >= len(shape.parts):
            raise Fault("UnexpectedVariant", found=tag, min=0, max=len(shape.parts) - 1)
        return {str(tag): self.value(shape.parts[tag])}

    def unit(self, _):
        return None

    def value(self, shape):
        if shape.kind in FLOATS:
            return self.float(shape.kind)
        if shape.kind not in WIDTHS:
            return getattr(self, shape.kind)(shape)
        number = self.number(shape.kind)
        if shape.rule == "NonZero" and number == 0:
            raise Fault("NonZeroTypeIsZero", non_zero_type=shape.kind.capitalize())
        return number if -2**63 <= number < 2**64 else str(number)


def decode(shape, read, order="little", integers="varint", limit=None, stream=False):
    """The answer to some bytes: a value and how many bytes it took, or a fault."""
    reader = Reader(read, order, integers, limit)
    try:
        value = reader.value(shape)
        return {"value": value, "taken": reader.taken}
    except Fault as fault:
        told = fault.told
    if told["name"] == "UnexpectedEnd" and stream:
        told = {"name": "Io"}
    elif told["name"] == "UnexpectedEnd" and shape.kind not in (*SCALARS, *FLOATS):
        told = {"name": "UnexpectedEnd"}
    return {"fault": told}


class Unfit(Exception):
    """A value that is none of its shape."""


class Writer:
    """Writes values in pieces, by sections 4 and 5."""

    def __init__(self, order="little", integers="varint"):
        self.order, self.integers, self.pieces = order, integers, []

    def want(self, fits):
        if not fits:
            raise Unfit

    def number(self, name, value):
        width, is_signed = WIDTHS[name], name[0] == "i"
        if isinstance(value, str) and re.fullmatch(r"-?\d+", value):
            value = int(value)
        least = -(256**width // 2) if is_signed else 0
        self.want(type(value) is int and least <= value < 256**width + least)
        if width == 1 or self.integers == "fixint":
            return self.pieces.append(value.to_bytes(width, self.order, signed=is_signed))
        if is_signed:
            value = 2 * value if value >= 0 else -2 * value - 1
        if value < 251:
            return self.pieces.append(bytes([value]))
        first = next(first for first, count in BYTES_AFTER.items() if value < 256**count)
        self.pieces += [bytes([first]), value.to_bytes(BYTES_AFTER[first], self.order)]

    def float(self, kind, value):
        is_finite = type(value) is float and math.isfinite(value)
        self.want(is_finite or value in NOT_FINITE)
        bits = FORMATS[kind][1] if value == "NaN" else packed(kind, float(value))
        self.want(bits)
        self.pieces.append(bits if self.order == "big" else bits[::-1])

    def text(self, shape, value):
        self.want(isinstance(value, list if shape.rule == "CString" else str))
        word = bytes(value) if shape.rule == "CString" else value.encode()
        self.number("u64", len(word))
        self.pieces.append(word)

    def items(self, element, value):
        if isinstance(value, dict) and element.has_no_bytes:
            return
        for item in value:
            self.value(element, item)

    def count(self, shape, value):
        self.want(isinstance(value, list) or isinstance(value, dict) and "count" in value and shape.parts[0].has_no_bytes)
        return len(value) if isinstance(value, list) else value["count"]

    def list(self, shape, value):
        self.number("u64", self.count(shape, value))
        self.items(shape.parts[0], kept(shape, value))

    def array(self, shape, value):
        self.want(self.count(shape, value) == shape.count)
        self.items(shape.parts[0], value)

    def tuple(self, shape, value):
        self.want(isinstance(value, list))
        items = value[:2] if shape.rule == "SocketAddrV6" else value
        self.want(len(items) == len(shape.parts))
        for part, item in zip(shape.parts, items):
            self.value(part, item)

    def option(self, shape, value):
        part = shape.parts[0]
        self.pieces.append(bytes([value is not None]))
        if value is not None and part.kind in ("unit", "option"):
            self.want(isinstance(value, dict) and "some" in value)
            value = value["some"]
        if self.pieces[-1] == b"\1":
            self.value(part, value)

    def choice(self, shape, value):
        self.want(isinstance(value, dict) and len(value) == 1)
        (tag, part), = value.items()
        self.want(int(tag) < len(shape.parts))
        self.number("u32", int(tag))
        self.value(shape.parts[int(tag)], part)

    def bool(self, _, value):
        self.want(isinstance(value, bool))
        self.pieces.append(bytes([value]))

    def char(self, _, value):
        self.want(isinstance(value, str) and len(value) == 1)
        self.pieces.append(value.encode())

    def unit(self, _, value):
        self.want(value is None)

    def value(self, shape, value):
        if shape.kind in WIDTHS:
            self.want(shape.rule != "NonZero" or value != 0)
            self.number(shape.kind, value)
        elif shape.kind in FLOATS:
            self.float(shape.kind, value)
        else:
            getattr(self, shape.kind)(shape, value)


def encode(shape, value, order="little", integers="varint"):
    """The word of a value, in pieces. Unfit where it is none of the shape."""
    writer = Writer(order, integers)
    writer.value(shape, value)
    return writer.pieces


def write_into(before, shape, value, order="little", integers="varint"):
    """What a slice with these bytes holds after a value was written into it, and the error, if it is refused."""
    try:
        pieces = encode(shape, value, order, integers)
    except Unfit:
        return {"error": "Other", "text": "value does not fit the shape", "left": before.hex()}
    written = b""
    for piece in pieces:
        if len(written) + len(piece) > len(before):
            return {"error": "UnexpectedEnd", "left": (written + before[len(written):]).hex()}
        written += piece
    return {"left": (written + before[len(written):]).hex()}
