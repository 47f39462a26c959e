"""Ten types of a user's, and the program over them, as Rattle over the port and as Rust over the original.

The program reads a file with a value of each type, one after the other, writes each value to bytes again, and prints how many.
Rattle's side is written as docs/BY_HAND.md says, without the laws, which no code comes from. Rust's is what the original's derive writes.
"""

# a struct by its fields, an enum by its variants and what each holds
TYPES = {
    "Address": {"street": "String", "number": "u16", "city": "String", "code": "u32"},
    "Role": {"Guest": (), "Member": ("u32",), "Admin": ("Vec<String>",)},
    "Person": {"id": "u64", "name": "String", "age": "u8", "address": "Address", "role": "Role", "mail": "Option<String>"},
    "Item": {"name": "String", "count": "u32", "price": "u64"},
    "Payment": {"Cash": (), "Card": ("u64", "u16", "u8"), "Transfer": ("String",)},
    "Order": {"id": "u64", "buyer": "u64", "items": "Vec<Item>", "payment": "Payment", "paid": "bool"},
    "Stock": {"checked": "u64", "counts": "BTreeMap<String, u32>"},
    "Point": {"x": "i32", "y": "i32", "z": "i64"},
    "Figure": {"Dot": ("Point",), "Line": ("Point", "Point"), "Path": ("Vec<Point>",)},
    "Record": {"at": "u64", "level": "u8", "words": "String", "fields": "BTreeMap<String, String>"},
}


def is_enum(parts):
    return isinstance(next(iter(parts.values())), tuple)


def names(held):
    return [f"part{at}" for at in range(len(held))]


def tuple_of(parts):
    return parts[0] if len(parts) == 1 else f"({', '.join(parts)})"


def declared(name, parts, derived):
    """The type itself."""
    if is_enum(parts):
        lines = [f"    {variant}{'(' + ', '.join(held) + ')' if held else ''},\n" for variant, held in parts.items()]
        return f"\n{derived}pub enum {name} {{\n{''.join(lines)}}}\n"
    lines = [f"    pub {field}: {of},\n" for field, of in parts.items()]
    return f"\n{derived}pub struct {name} {{\n{''.join(lines)}}}\n"


PORT_TYPES = """//! The types. Written by bench/size.

use bincode::de::{Decode, Decoder, Named, Sequential};
use bincode::enc::{Encode, Encoder, encode_variant};
use bincode::error::{DecodeError, EncodeError};
use bincode::short_text::TypeName;
use bincode::{EnumOf, HasParts, NoMoreVariants, VariantOf, Wire};
use std::collections::BTreeMap;
"""

PORT_MAIN = """//! Reads a value of each type, and writes it again. Written by bench/size.
#![tactic(auto)]

mod types;

use bincode::{Decode, Encode, config, decode_from_slice, encode_to_vec};
use std::fs;
use types::{NAMES};

/// Reads a value there, writes it again, and answers where the next one begins.
fn again<T: Decode<()> + Encode>(rt: &HostRuntime, bytes: &[u8], at: usize) -> anyhow::Result<usize> {
    let Some(rest) = bytes.get(at..) else {
        anyhow::bail!("the file ends at {at}");
    };
    let (value, taken) = decode_from_slice::<T, _>(rt.alloc(), rest, config::standard())?;
    let written = encode_to_vec(rt.alloc(), &value, config::standard())?;
    println!(rt; "{}", written.len())?;
    Ok(at.wrapping_add(taken))
}

fn main(rt: HostRuntime) -> anyhow::Result<()> {
    let bytes = fs::read(&rt, "values")?;
CALLS    Ok(())
}
"""

def calls(argument, types):
    lines, at = [], "0"
    for name in types:
        lines.append(f"    let at = again::<{name}>({argument}&bytes, {at})?;\n")
        at = "at"
    lines[-1] = lines[-1].replace("let at = ", "")
    return "".join(lines)


def port_type(name, parts):
    text = declared(name, parts, "#[derive(Drop)]\n")
    if is_enum(parts):
        made = f"NoMoreVariants<{name}>"
        for tag, held in reversed(list(enumerate(parts.values()))):
            made = f"VariantOf<{tag}, {tuple_of(held) if held else '()'}, {made}>"
        text += f"\ntype {name}Parts = EnumOf<{made}>;\n"
        shown = []
        for tag, (variant, held) in enumerate(parts.items()):
            word = f"this {tuple_of(names(held)) if held else 'tt'}"
            for _ in range(tag):
                word = f"other ({word})"
            shown.append(f"      | {' '.join([variant, *names(held)])} ↦ record {{ 0 = {word} }}\n")
        uses = f"""    ghost use Rattle.bincode.specs.Sums.{{this, other}};
    ghost use Rattle.ten.specs.declared.types.{name}.TheVariants.{{{', '.join(parts)}}};

"""
        shown = f"{{ elim [\n{''.join(shown)}    ] }}"
        patterns = {variant: f"{name}::{variant}{'(' + ', '.join(names(held)) + ')' if held else ''}" for variant, held in parts.items()}
        told, written, read = [], [], []
        for tag, (variant, held) in enumerate(parts.items()):
            told.append(f"            {patterns[variant]} => {tuple_of(names(held)) + '.tell_valid(),' if held else '{}'}\n")
            lent = {0: "&()", 1: "part0"}.get(len(held), f"&{tuple_of(names(held))}" if held else "")
            written.append(f"            {patterns[variant]} => encode_variant(self, {tag}, {lent}, encoder),\n")
            found = f"VariantOf::This({tuple_of(names(held)) if held else '()'})"
            for _ in range(tag):
                found = f"VariantOf::Other({found})"
            read.append(f"            {found} => {patterns[variant]},\n")
        told = f"match self {{\n{''.join(told)}        }}"
        written = f"match self {{\n{''.join(written)}        }}"
        read = f"let parts: {name}Parts = Decode::decode(decoder)?;\n        Ok(match parts.0 {{\n{''.join(read)}        }})"
        text += f"""
impl Named for {name} {{
    fn type_name() -> TypeName {{
        TypeName::new("{name}")
    }}
}}
"""
    else:
        text += f"\ntype {name}Parts = ({', '.join(parts.values())});\n"
        uses, shown = "", f"{{ λ v. ({', '.join(f'v.{field}' for field in parts)}) }}"
        lent = f"({', '.join(f'&self.{field}' for field in parts)})"
        told, written = f"{lent}.tell_valid();", f"{lent}.encode(encoder)"
        read = f"let ({', '.join(parts)}): {name}Parts = Decode::decode(decoder)?;\n        Ok({name} {{ {', '.join(parts)} }})"
    return text + f"""
impl HasParts<{name}Parts> for {name} {{
{uses}    ghost parts = {shown};
}}

impl Wire for {name} {{
    ghost use Rattle.bincode.specs.TypeWords.{{words_by}};

    ghost words = {{ words_by ⟦<{name}Parts as Wire>⟧.words ⟦<{name} as HasParts<{name}Parts>>⟧.parts }};

    fn claim_size() -> usize {{
        {name}Parts::claim_size()
    }}
}}

impl Encode for {name} {{
    fn tell_valid(&self) {{
        {told}
    }}

    fn encode<E: Encoder>(&self, encoder: &mut E) -> Result<(), EncodeError> {{
        {written}
    }}
}}

impl<Context: Drop> Decode<Context> for {name} {{
    type Run = Sequential;

    fn decode<D: Decoder<Context = Context>>(decoder: &mut D) -> Result<{name}, DecodeError> {{
        {read}
    }}
}}
"""


def port():
    """The files of the port's program."""
    types = PORT_TYPES + "".join(port_type(name, parts) for name, parts in TYPES.items())
    main = PORT_MAIN.replace("NAMES", ", ".join(TYPES)).replace("CALLS", calls("&rt, ", TYPES))
    return {"src/types.rt": types, "src/main.rt": main}


def port_of_none():
    """The port's program for a `u8` alone."""
    main = PORT_MAIN.replace("mod types;\n\n", "").replace("use types::{NAMES};\n", "")
    return {"src/main.rt": main.replace("CALLS", calls("&rt, ", ["u8"]))}


ORIGINAL_MAIN = """// Reads a value of each type, and writes it again. Written by bench/size.
use bincode::config;
use bincode::de::{Decode, Decoder};
use bincode::enc::{Encode, Encoder};
use bincode::error::{AllowedEnumVariants, DecodeError, EncodeError};
use bincode::{decode_from_slice, encode_to_vec};
use std::collections::BTreeMap;
use std::error::Error;
use std::fs;

/// Reads a value there, writes it again, and answers where the next one begins.
fn again<T: Decode<()> + Encode>(bytes: &[u8], at: usize) -> Result<usize, Box<dyn Error>> {
    let Some(rest) = bytes.get(at..) else {
        return Err(format!("the file ends at {at}").into());
    };
    let (value, taken) = decode_from_slice::<T, _>(rest, config::standard())?;
    let written = encode_to_vec(&value, config::standard())?;
    println!("{}", written.len());
    Ok(at.wrapping_add(taken))
}

fn main() -> Result<(), Box<dyn Error>> {
    let bytes = fs::read("values")?;
CALLS    Ok(())
}
"""

def original_type(name, parts):
    text = declared(name, parts, "")
    decoded = "Decode::decode(decoder)?"
    if is_enum(parts):
        written, read = [], []
        for tag, (variant, held) in enumerate(parts.items()):
            pattern = f"{name}::{variant}{'(' + ', '.join(names(held)) + ')' if held else ''}"
            lines = "".join(f"                Encode::encode({part}, encoder)?;\n" for part in names(held))
            written.append(f"""            {pattern} => {{
                <u32 as Encode>::encode(&{tag}u32, encoder)?;
{lines}                Ok(())
            }}
""")
            read.append(f"            {tag}u32 => Ok({name}::{variant}{'(' + ', '.join(decoded for _ in held) + ')' if held else ''}),\n")
        written = f"match self {{\n{''.join(written)}        }}"
        read = f"""match <u32 as Decode<Context>>::decode(decoder)? {{
{''.join(read)}            found => Err(DecodeError::UnexpectedVariant {{
                found,
                type_name: "{name}",
                allowed: &AllowedEnumVariants::Range {{ min: 0, max: {len(parts) - 1} }},
            }}),
        }}"""
    else:
        written = "".join(f"Encode::encode(&self.{field}, encoder)?;\n        " for field in parts) + "Ok(())"
        fields = "".join(f"            {field}: {decoded},\n" for field in parts)
        read = f"Ok({name} {{\n{fields}        }})"
    return text + f"""
impl Encode for {name} {{
    fn encode<E: Encoder>(&self, encoder: &mut E) -> Result<(), EncodeError> {{
        {written}
    }}
}}

impl<Context> Decode<Context> for {name} {{
    fn decode<D: Decoder<Context = Context>>(decoder: &mut D) -> Result<{name}, DecodeError> {{
        {read}
    }}
}}
"""


def original():
    """The original's program."""
    types = "".join(original_type(name, parts) for name, parts in TYPES.items())
    return ORIGINAL_MAIN.replace("CALLS", calls("", TYPES)) + types


def original_of_none():
    """The original's program for a `u8` alone."""
    unused = "use bincode::error::{AllowedEnumVariants, DecodeError, EncodeError};\n", "use std::collections::BTreeMap;\n"
    main = ORIGINAL_MAIN.replace("CALLS", calls("", ["u8"])).replace("{Decode, Decoder}", "Decode").replace("{Encode, Encoder}", "Encode")
    for line in unused:
        main = main.replace(line, "")
    return main
