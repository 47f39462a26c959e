"""The table of both sides, which the harness includes: a function of the original's for each type, and the rows."""

import os

import kinds

GROUPS = {"both": "Both", "owned": "Owned", "lent": "Lent"}

BOUNDS = {
    "both": "Decode<()> + BorrowDecode<'a, ()> + Encode",
    "owned": "Decode<()> + Encode",
    "lent": "BorrowDecode<'a, ()> + Encode",
}


MADE = {
    "by_slice": "by_slice::<T, C>(input, out, config)",
    "by_borrow": "by_borrow::<T, C>(input, out, config)",
    "by_stream": "by_stream::<T, C>(input, out, numbers, config)",
    "by_buffer": "by_buffer::<T, C>(input, out, numbers, config)",
    "by_reader": "by_reader::<T, C>(input, out, config)",
    "by_window": "by_window::<T, C>(input, out, numbers, config)",
    "to_vector": "to_vector(out, &value, config)",
    "to_slice": "to_slice(out, &value, numbers.0, config)",
    "to_stream": "to_stream(out, &value, numbers, config)",
    "to_count": "to_count(out, &value, config)",
}


def picking(group, calls):
    name = f"{group}_{'_'.join(str(kinds.CALLS[call]) for call in calls)}"
    arms = "".join(f"            {kinds.CALLS[call]} => {MADE[call]},\n" for call in calls if call.startswith("by"))
    written = "".join(f"                    {kinds.CALLS[call]} => {MADE[call]},\n" for call in calls if call.startswith("to"))
    if written:
        decode = "borrow_decode_from_slice" if group == "lent" else "decode_from_slice"
        arms += f"""            _ => match bincode::{decode}::<T, C>(input, config) {{
                Ok((value, _)) => match call {{
{written}                    _ => 0,
                }},
                Err(error) => put_decode_error(out, &error),
            }},
"""
    else:
        arms += "            _ => 0,\n"
    return name, f"""
#[allow(unused_variables)]
fn {name}<'a, T: {BOUNDS[group]}, C: Config>(input: &'a [u8], out: &mut [u8], call: usize, numbers: Numbers, config: C) -> usize {{
    match call {{
{arms}    }}
}}
"""


def ask(group):
    pickings, arms = {}, ""
    for at, configuration in enumerate(kinds.CONFIGURATIONS):
        name, text = picking(group, configuration.calls_of(group))
        pickings[name] = text
        arms += f"            {at} => {name}::<T, _>(input, out, call, numbers, {configuration.text}),\n"
    return "".join(pickings.values()) + f"""
fn ask_{group}<'a, T: {BOUNDS[group]}>(input: &'a [u8], out: &mut [u8], way: usize, numbers: Numbers) -> usize {{
    let call = way / 16;
    match way % 16 {{
{arms}        _ => 0,
    }}
}}
"""


def table(asked):
    """The original's functions."""
    text = "use crate::calls::*;\n#[allow(unused_imports)]\nuse crate::own::*;\nuse bincode::config::Config;\nuse bincode::{BorrowDecode, Decode, Encode};\n"
    for group in sorted({kind.group for kind in asked}):
        text += ask(group)
    for kind in asked:
        text += f"""
pub fn {kind.name}<'a>(input: &'a [u8], out: &mut [u8], way: usize, numbers: Numbers) -> usize {{
    ask_{kind.group}::<{kind.type}>(input, out, way, numbers)
}}
"""
    return text


def rows(asked, has_port):
    """The table of both sides, or of the original's alone."""
    text = "unsafe extern \"C\" {\n"
    for kind in asked if has_port else ():
        text += (f"    fn ask_{kind.name}(input: *const u8, length: usize, out: *mut u8, room: usize, way: usize, first: usize, second: usize) "
                 "-> usize;\n")
    text += "}\n\npub static ROWS: &[Row] = &[\n"
    for kind in asked:
        lasting = kind.type.replace("'a", "'static")
        side = f"Some(ask_{kind.name})" if has_port else "None"
        text += (f'    Row {{ name: "{kind.name}", text: "{kind.type}", group: Group::{GROUPS[kind.group]}, '
                 f"shape: <{lasting} as Shaped>::shape, original: table::{kind.name}, port: {side} }},\n")
    text += "];\n\npub static CONFIGURATIONS: &[Configuration] = &[\n"
    for configuration in kinds.CONFIGURATIONS:
        calls = ", ".join(str(kinds.CALLS[call]) for call in configuration.calls)
        limit = "None" if configuration.limit is None else f"Some({configuration.limit})"
        text += f'    Configuration {{ name: "{configuration.text}", setting: {configuration.setting}, limit: {limit}, calls: &[{calls}] }},\n'
    return text + "];\n"


def write(folder, asked, has_port=True):
    """Writes both into the folder that the harness is told."""
    for name, text in (("table.rs", table(asked)), ("rows.rs", rows(asked, has_port))):
        place = f"{folder}/{name}"
        # what stays is not built again
        if not os.path.exists(place) or open(place).read() != text:
            with open(place, "w") as file:
                file.write(text)
