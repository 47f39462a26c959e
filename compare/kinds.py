"""The types that are compared, the configurations and the calls. A type has a name and one text, which both languages read: the harness gives
the names of the port's own types (`BoxedStr` ..) to those of Rust's standard library that have their words."""

from typing import NamedTuple

NUMBERS = ("u8", "u16", "u32", "u64", "u128", "usize", "i8", "i16", "i32", "i64", "i128", "isize")
NON_ZERO = tuple(f"NonZero{number[0].upper()}{number[1:]}" for number in NUMBERS)

# the types that are read owned and borrowed
BOTH = {
    **{number: number for number in NUMBERS},
    **{name.lower(): name for name in NON_ZERO},
    "bool": "bool",
    "char": "char",
    "f32": "f32",
    "f64": "f64",
    "unit": "()",
    "phantom": "PhantomData<u32>",
    "tuple_1": "(u32,)",
    "tuple_2": "(u16, i64)",
    "tuple_float": "(u32, f32)",
    "tuple_7": "(u8, u32, u64, bool, i32, char, Option<u16>)",
    "tuple_8": "(u128, i128, usize, isize, u16, i16, i8, ())",
    "tuple_16": "(u8, u16, u32, u64, u8, u16, u32, u64, i8, i16, i32, i64, bool, char, (), u128)",
    "array_u8": "[u8; 5]",
    "array_u16": "[u16; 3]",
    "array_f32": "[f32; 3]",
    "array_none": "[u64; 0]",
    "array_unit": "[(); 4]",
    "array_bool": "[bool; 6]",
    "array_option": "[Option<u8>; 3]",
    "option_u64": "Option<u64>",
    "option_f64": "Option<f64>",
    "option_ordered": "Option<OrderedFloat<f32>>",
    "option_unit": "Option<()>",
    "option_option": "Option<Option<u16>>",
    "option_nonzero": "Option<NonZeroU16>",
    "result": "Result<u8, u32>",
    "result_texts": "Result<String, Vec<u8>>",
    "result_units": "Result<(), ()>",
    "bound": "Bound<u16>",
    "range": "Range<u32>",
    "range_inclusive": "RangeInclusive<i16>",
    "duration": "Duration",
    "wrapping": "Wrapping<u32>",
    "reverse": "Reverse<i64>",
    "cell": "Cell<u32>",
    "ref_cell": "RefCell<u16>",
    "ipv4": "Ipv4Addr",
    "ipv6": "Ipv6Addr",
    "ip": "IpAddr",
    "socket_v4": "SocketAddrV4",
    "socket_v6": "SocketAddrV6",
    "socket": "SocketAddr",
    "text": "String",
    "path": "PathBuf",
    "c_string": "CString",
    "boxed_text": "BoxedStr",
    "rc_text": "RcStr",
    "bytes": "Vec<u8>",
    "list_u16": "Vec<u16>",
    "list_u64": "Vec<u64>",
    "list_f32": "Vec<f32>",
    "list_f64": "Vec<f64>",
    "list_bool": "Vec<bool>",
    "list_char": "Vec<char>",
    "list_unit": "Vec<()>",
    "list_option": "Vec<Option<u32>>",
    "list_text": "Vec<String>",
    "list_list": "Vec<Vec<u16>>",
    "list_tuple": "Vec<(u32, u32)>",
    "list_mixed": "Vec<(u8, u64)>",
    "list_float": "Vec<(u8, f32)>",
    "list_ordered": "Vec<OrderedFloat<f64>>",
    "list_result": "Vec<Result<u8, String>>",
    "list_duration": "Vec<Duration>",
    "list_socket": "Vec<SocketAddr>",
    "deque": "VecDeque<u32>",
    "deque_u8": "VecDeque<u8>",
    "heap": "BinaryHeap<u16>",
    "heap_reverse": "BinaryHeap<Reverse<u32>>",
    "tree": "BTreeMap<u32, u64>",
    "tree_float": "BTreeMap<u8, f64>",
    "tree_text": "BTreeMap<String, Vec<u8>>",
    "tree_path": "BTreeMap<PathBuf, u8>",
    "tree_reverse": "BTreeMap<Reverse<i16>, bool>",
    "tree_tree": "BTreeMap<u8, BTreeMap<u8, String>>",
    "tree_set": "BTreeSet<i32>",
    "tree_set_path": "BTreeSet<PathBuf>",
    "tree_set_duration": "BTreeSet<Duration>",
    "tree_set_option": "BTreeSet<Option<u8>>",
    "hashed": "HashMap<u32, u64>",
    "hashed_float": "HashMap<u16, f32>",
    "hashed_text": "HashMap<String, u16>",
    "hashed_set": "HashSet<u16>",
    "boxed": "Box<u32>",
    "boxed_slice": "BoxedSlice<u32>",
    "rc": "Rc<(u8, u64)>",
    "rc_slice": "RcSlice<u16>",
    "arc": "Arc<String>",
    "list_boxed": "Vec<Option<Box<(u8, u64)>>>",
    "option_text": "Option<String>",
    "record": "(u64, String, Option<Vec<u8>>, BTreeMap<u8, String>)",
    "message": "Vec<(u8, Result<u16, String>)>",
    "deep": "Vec<Option<BTreeMap<u8, Bound<i16>>>>",
}

# the types that are read owned alone, in Rust's crate or in both
OWNED = {
    "cow": "Cow<'static, u32>",
    "cow_char": "Cow<'static, char>",
    "cow_list": "CowSlice<'static, u32>",
    "nothing": "Nothing",
    "millimetres": "Millimetres",
    "point": "Point",
    "list_point": "Vec<Point>",
    "wrapper": "Wrapper<u64>",
    "figure": "Figure",
    "mixed_tags": "Mixed",
    "list_mixed_tags": "Vec<Mixed>",
    "turn": "Turn",
    "reply": "Reply<u32>",
    "reply_list": "Reply<Vec<String>>",
}

# the types that are read borrowed alone; 'a is the input's
LENT = {
    "lent_text": "&'a str",
    "lent_bytes": "&'a [u8]",
    "lent_path": "Path<'a>",
    "lent_cow_text": "CowStr<'a>",
    "lent_cow_bytes": "CowSlice<'a, u8>",
    "lent_list_text": "Vec<&'a str>",
    "lent_list_bytes": "Vec<&'a [u8]>",
    "lent_tree": "BTreeMap<&'a str, u16>",
    "lent_record": "(&'a str, u32, &'a [u8], u64)",
    "lent_float": "(&'a str, f64)",
    "lent_word": "Word<'a>",
    "lent_packet": "Packet<'a>",
}

GROUPS = {"both": BOTH, "owned": OWNED, "lent": LENT}

# the calls by their numbers, which both sides and the harness know
CALLS = {
    "by_slice": 0,
    "by_borrow": 1,
    "by_stream": 2,
    "by_buffer": 3,
    "by_reader": 4,
    "by_window": 5,
    "to_vector": 6,
    "to_slice": 7,
    "to_stream": 8,
    "to_count": 9,
}

# which calls are made under a configuration: a call is compiled for each type and each configuration that has it
WHOLE = tuple(CALLS)
PLAIN = ("by_slice", "by_borrow", "to_vector", "to_slice")
STREAMED = ("by_slice", "by_stream")
BORROWED = ("by_slice", "by_borrow")


class Configuration(NamedTuple):
    setting: int
    limit: int | None
    calls: tuple[str, ...]

    @property
    def text(self):
        limit = "" if self.limit is None else f".with_limit::<{self.limit}>()"
        return SETTINGS[self.setting] + limit

    def calls_of(self, group):
        """Those that a type of a group has; a type that is read borrowed alone is read so in each."""
        missing = {"both": (), "owned": ("by_borrow",), "lent": ("by_slice", "by_stream", "by_buffer", "by_reader", "by_window")}[group]
        calls = tuple(call for call in self.calls if call not in missing)
        return ("by_borrow", *calls) if group == "lent" and "by_borrow" not in calls else calls


# little and variable, big and variable, little and fixed, big and fixed
SETTINGS = (
    "config::standard()",
    "config::standard().with_big_endian()",
    "config::legacy()",
    "config::legacy().with_big_endian()",
)
CONFIGURATIONS = (
    Configuration(0, None, WHOLE),
    Configuration(1, None, PLAIN),
    Configuration(2, None, PLAIN),
    Configuration(3, None, WHOLE),
    Configuration(0, 24, BORROWED),
    Configuration(0, 1000, STREAMED),
    Configuration(1, 9, BORROWED),
    Configuration(1, 64, STREAMED),
    Configuration(2, 20, STREAMED),
    Configuration(2, 300, ("by_slice",)),
    Configuration(3, 4, ("by_slice",)),
    Configuration(3, 100, BORROWED),
)


class Kind(NamedTuple):
    name: str
    type: str
    group: str


def kinds(words=()):
    """The types with one of the words in their name or text, or all."""
    for group, types in GROUPS.items():
        for name, text in types.items():
            if not words or any(word in (name, text) for word in words):
                yield Kind(name, text, group)


if __name__ == "__main__":
    for kind in kinds():
        print(kind.name, kind.type)
