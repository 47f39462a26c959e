"""Shapes, by their text, and types, by their names: docs/SHAPES.md, and sections 5 to 8 of docs/FORMAT.md."""
import re

SIZES = {"8": 1, "16": 2, "32": 4, "64": 8, "128": 16, "size": 8}
WIDTHS = {kind + bits: width for kind in "ui" for bits, width in SIZES.items()}
SCALARS = [*WIDTHS, "bool", "char"]
FLOATS = {"f32": 4, "f64": 8}


class Shape:
    """What the words of a type are like. A type has maybe a rule on its values, and another claim than its shape."""

    def __init__(self, kind, *parts, count=0, rule=None, claim=None):
        self.kind, self.parts, self.count, self.rule = kind, parts, count, rule
        self.claim = claim or self.claim_of_kind()
        self.has_no_bytes = kind == "unit" or kind == "array" and count == 0 or \
            kind in ("array", "tuple") and all(part.has_no_bytes for part in parts)

    def claim_of_kind(self):
        """How many bytes a container claims for an element (section 8)."""
        parts = [part.claim for part in self.parts]
        of_kind = {"unit": 1, "bool": 1, "char": 4, "text": 24, "list": 24, "array": self.count * sum(parts), "tuple": sum(parts),
                   "option": 1 + sum(parts), "choice": 4 + max(parts, default=-3), **WIDTHS, **FLOATS}
        return min(max(of_kind[self.kind], 1), 2**64 - 1)

    def but(self, **changed):
        return Shape(self.kind, *self.parts, **{"count": self.count, "rule": self.rule, "claim": self.claim, **changed})


def named(name, inner):
    """The type of this name, with its type parameters."""
    if name in SCALARS or name in FLOATS or name == "text":
        return Shape(name)
    if name in ALIASES:
        return parsed(ALIASES[name])
    if name in CLAIMS_OF_LISTS:
        return Shape("list", *inner, claim=CLAIMS_OF_LISTS[name])
    if name.startswith("NonZero"):
        return Shape(name[7:].lower(), rule="NonZero")
    return OTHERS[name](*inner)


ALIASES = {"String": "text", "str": "text", "CowStr": "text", "Ipv4Addr": "[u8; 4]", "Ipv6Addr": "[u8; 16]", "IpAddr": "Ipv4Addr|Ipv6Addr",
           "SocketAddrV4": "(Ipv4Addr, u16)", "SocketAddr": "SocketAddrV4|(Ipv6Addr, u16)"}
CLAIMS_OF_LISTS = {"Vec": 24, "VecDeque": 24, "BinaryHeap": 24, "CowSlice": 24, "BoxedSlice": 16, "RcSlice": 16}
OTHERS = {
    "PhantomData": lambda _: Shape("unit"),
    "Option": lambda part: Shape("option", part),
    "Result": lambda right, wrong: Shape("choice", right, wrong),
    "Bound": lambda part: Shape("choice", Shape("unit"), part, part),
    "Never": lambda: Shape("choice"),
    # An enum of a user's own of five variants without fields, which claims its tag alone (section 7).
    "CStyleEnum": lambda: Shape("choice", *[Shape("unit")] * 5, claim=4),
    "Range": lambda part: Shape("tuple", part, part),
    "RangeInclusive": lambda part: Shape("tuple", part, part),
    "Duration": lambda: Shape("tuple", Shape("u64"), Shape("u32"), rule="Duration"),
    "Reverse": lambda part: part.but(rule="Reverse"),
    **{name: lambda part: part for name in ("Wrapping", "Cell", "RefCell", "Cow", "OrderedFloat")},
    **{name: lambda part: part.but(claim=8) for name in ("Box", "Rc", "Arc")},
    **{name: lambda: Shape("text", claim=16) for name in ("BoxedStr", "RcStr")},
    **{name: lambda item: Shape("list", item, rule="set") for name in ("BTreeSet", "HashSet")},
    **{name: lambda key, value: Shape("list", Shape("tuple", key, value), rule="map") for name in ("BTreeMap", "HashMap")},
    "PathBuf": lambda: Shape("text", rule="path"),
    "CString": lambda: Shape("text", rule="CString"),
    "SocketAddrV6": lambda: Shape("tuple", parsed("[u8; 16]"), Shape("u16"), rule="SocketAddrV6"),
}


class Text:
    """The rest of a text that is read as a shape or a type."""

    def __init__(self, text):
        self.words = re.findall(r"\w+|\S", text)

    def takes(self, word):
        return bool(self.words) and self.words[0] == word and bool(self.words.pop(0))

    def wants(self, word):
        if not self.takes(word):
            raise ValueError(f"{word} is missing before {self.words}")

    def any(self):
        is_barred = self.takes("|")
        variants = [self.optional()]
        while self.takes("|"):
            variants.append(self.optional())
        return Shape("choice", *variants) if is_barred or len(variants) > 1 else variants[0]

    def optional(self):
        part = self.one()
        while self.takes("?"):
            part = Shape("option", part)
        return part

    def one(self):
        if self.takes("("):
            return self.tuple()
        if self.takes("["):
            return self.items()
        if self.takes("&"):
            part = self.one()
            return part.but(claim=16 if part.kind in ("list", "text") else 8)
        name, inner = self.words.pop(0), []
        if self.takes("<"):
            inner.append(self.any())
            while self.takes(","):
                inner.append(self.any())
            self.wants(">")
        return named(name, inner)

    def tuple(self):
        if self.takes(")"):
            return Shape("unit")
        parts = [self.any()]
        if self.takes(")"):
            return parts[0]
        while not self.takes(")"):
            self.wants(",")
            if self.words[:1] != [")"]:
                parts.append(self.any())
        return Shape("tuple", *parts)

    def items(self):
        element = self.any()
        shape = Shape("array", element, count=int(self.words.pop(0))) if self.takes(";") else Shape("list", element)
        self.wants("]")
        return shape


def parsed(text):
    """The shape or the type of this text. ValueError, KeyError, IndexError or TypeError where it is none."""
    rest = Text(text)
    shape = rest.any()
    if rest.words:
        raise ValueError(f"{rest.words} is left")
    return shape


def components(path):
    """What paths are compared by, as keys (section 6)."""
    pieces = [piece for at, piece in enumerate(path.split("/")) if piece and (piece != "." or at == 0)]
    ranks = {".": 1, "..": 2}
    return ([(0, b"")] if path.startswith("/") else []) + [(ranks.get(piece, 3), piece.encode()) for piece in pieces]


def key_of(shape, value):
    """What keys and items are compared by."""
    if shape.rule == "path":
        return components(value)
    if shape.kind == "text":
        return bytes(value) if shape.rule == "CString" else value.encode()
    if shape.kind == "tuple":
        return [key_of(part, item) for part, item in zip(shape.parts, value)]
    if shape.kind in FLOATS:
        # By the number, and NaN last. To add 0.0 makes one key of both zeros.
        is_nan, turn = value == "NaN", -1 if shape.rule == "Reverse" else 1
        return [turn * is_nan + 0.0, turn * (0.0 if is_nan else float(value)) + 0.0]
    return -int(value) if shape.rule == "Reverse" else int(value) if shape.kind in WIDTHS else value


def kept(shape, entries):
    """What a list, a map or a set keeps of the entries that were read, and in which order it is written."""
    if shape.rule not in ("map", "set"):
        return entries
    found = {}
    for entry in entries:
        key, of_key = (entry[0], shape.parts[0].parts[0]) if shape.rule == "map" else (entry, shape.parts[0])
        first = found.setdefault(repr(key_of(of_key, key)), (key_of(of_key, key), entry))[1]
        if shape.rule == "map":
            first[1] = entry[1]
    return [entry for _, entry in sorted(found.values(), key=lambda one: one[0])]
